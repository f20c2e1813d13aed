//! Whole readings at their limits: rooms, levels, counts and lengths.

use expected::records::{LONGEST, WIDTHS};
use expected::scripts::{
    around, bytes, many, ruled, INDEXED, LISTED, MISLEXED, MORE_WAYS, SMALL, WAYS,
};
use oracle::logged::LEVELS;

use crate::compare::Trial;
use crate::whole::{by_rules, Tried};
use expected::lex_scripts::{KEYWORDS, MARKS, WRONG};

/// Up to so many pairs of error and node rooms are all tried; where there are more, only some are.
const PAIRS: usize = 120;

/// Readings with each room from none to one more than is needed, the others being enough; with
/// error room and node room short together; with more room; and with no tables at all.
pub fn rooms(source: &[u8]) -> Trial {
    by_rules(source, add_rooms)
}

fn add_rooms(tried: &mut Tried) {
    let enough = tried.needs().map(|room| room + 1);
    for table in 0..enough.len() {
        for room in 0..=enough[table] {
            let mut rooms = enough;
            rooms[table] = room;
            tried.read(rooms);
        }
    }
    let pairs = (enough[1] + 1) * (enough[2] + 1);
    for pair in 0..pairs.min(PAIRS) {
        let pair = if pairs <= PAIRS {
            pair
        } else {
            tried.below(pairs)
        };
        let (errors, nodes) = (pair % (enough[1] + 1), pair / (enough[1] + 1));
        tried.read([enough[0], errors, nodes, enough[3]]);
    }
    for at in 0..6 {
        let mut rooms = enough.map(|room| tried.below(room + 1));
        if at < 4 {
            rooms[3] = enough[3] + 2;
        }
        tried.read(rooms);
    }
    tried.read(tried.enough());
    tried.read_with([0; 4], [0; 4]);
    tried.read_with([0; 4], WIDTHS.map(|width| width - 1));
}

/// The same for long scripts: each table's room one less than is needed, exact and one more, in all
/// combinations, and the newline index with just the others.
pub fn edges(source: &[u8]) -> Trial {
    by_rules(source, |tried| {
        let needs = tried.needs();
        for choice in 0..27 {
            let shift = [choice % 3, choice / 3 % 3, choice / 9];
            let room = |table: usize| (needs[table] + shift[table]).saturating_sub(1);
            tried.read([room(0), room(1), room(2), needs[3]]);
        }
        let [tokens, errors, nodes, index] = needs;
        for index in [0, index.saturating_sub(1), index + 3] {
            tried.read([tokens, errors, nodes, index]);
            tried.read([tokens, 0, 0, index]);
        }
        tried.read_with([0; 4], [0; 4]);
    })
}

/// The same for very long scripts, and for very many: exact rooms, one less of each, and none.
pub fn exact(source: &[u8]) -> Trial {
    by_rules(source, |tried| {
        let needs = tried.needs();
        tried.read(needs);
        for table in 0..needs.len() {
            let mut rooms = needs;
            rooms[table] = rooms[table].saturating_sub(1);
            tried.read(rooms);
        }
        tried.read_with([0; 4], [0; 4]);
    })
}

/// The scripts that `expected` lists. Those that the definition is tried on are among them.
pub fn listed() -> impl Iterator<Item = Vec<u8>> {
    let plain = LISTED.into_iter().chain([MISLEXED]).flatten();
    let plain = plain.map(|text| text.to_string());
    let small = SMALL.iter().map(|(text, ..)| text.to_string());
    let indexed = INDEXED.iter().map(|(text, ..)| text.to_string());
    plain
        .chain(small)
        .chain(indexed)
        .chain(ruled())
        .map(|text| bytes(&text))
}

/// Parameters and arguments about their limits, in all places that have them.
pub fn counts() -> impl Iterator<Item = Vec<u8>> {
    let places = [
        ("fn f(", ") a"),
        ("fn f(", ",) a"),
        ("let f = fn(", ") a"),
        ("let f = fn(", ",) a"),
        ("class A { f(", ") a }"),
        ("class A { class f(", ") a }"),
        ("f(", ")"),
        ("f(", ",)"),
        ("f(", ",a"),
        ("super(", ")"),
        ("f(\n", "\n,\n)"),
        ("[", "]"),
        ("[", ",]"),
        ("for ", " in b c"),
    ];
    places.into_iter().flat_map(|(open, close)| {
        (253..260).map(move |count| format!("{open}{}{close}", many(count)).into_bytes())
    })
}

/// Ways to open levels, beside those that the definition is tried on: what opens, what stands
/// inside, what closes.
const OTHER_WAYS: &[(&str, &str, &str)] = &[
    ("a[1:", "1", "]"),
    ("a[:", "1", "]"),
    ("a[1:2:", "3", "]"),
    ("a[::", "3", "]"),
    ("a=[", "", "]"),
    ("a={b:", "1", "}"),
    ("a={", "1", ":2}"),
    ("a.b=", "1", ""),
    ("a[1]=", "1", ""),
    ("(-", "a", ")"),
    ("not -", "a", ""),
    ("-(", "a", ")"),
    ("a+(", "a", ")"),
    ("-(a^", "a", ")"),
    ("(fn() { let a = ", "1", "})"),
    ("a = fn() ", "a", ""),
    ("(fn() { return ", "a", "})"),
    ("(fn() {", "", "})"),
    ("(fn() (", "a", "))"),
    ("class A { f() {", "", "}}"),
    ("class A { class f() {", "", "}}"),
    ("class A { f() (fn() {", "", "}) }"),
    ("for ;a;b ", "c", ""),
    ("for let i = 0; a; b {", "", "}"),
    ("for a in fn() {", "", "} c"),
    ("for a in b {", "", "}"),
    ("while fn() {", "", "} b"),
    ("while a {", "", "}"),
    ("if fn() {", "", "} {}"),
    ("if a {} elif b {", "", "}"),
    ("if a {} elif fn() {", "", "} {}"),
    ("try ", "a", " catch b c"),
    ("try {", "", "} catch a b"),
    ("{return fn() {", "", "}}"),
    ("{a ", "", "}"),
    ("{\n", "", "\n}"),
    ("(\n", "a", "\n)"),
    ("f(a,", "a", ")"),
    ("[a,", "", "]"),
    ("a.b(", "", ")"),
    ("super(", "", ")"),
    ("a\n(", "b", ")"),
    ("a\n[", "b", "]"),
];

fn ways() -> impl Iterator<Item = (&'static str, &'static str, &'static str)> {
    let listed = WAYS.iter().chain(MORE_WAYS);
    let listed = listed.map(|&(open, _, inner, close)| (open, inner, close));
    listed.chain(OTHER_WAYS.iter().copied())
}

/// Each way with so many levels that the limit lies among them.
pub fn levels() -> impl Iterator<Item = Vec<u8>> {
    ways().flat_map(|(open, inner, close)| depths(open, inner, close))
}

/// One way at all depths about its limit: each time alone, then between other statements.
fn depths(
    open: &'static str,
    inner: &'static str,
    close: &'static str,
) -> impl Iterator<Item = Vec<u8>> {
    // A way opens one level to four.
    let most = LEVELS as usize + 2;
    (most / 4 - 3..=most).flat_map(move |count| {
        let text = around(open, count, inner, close);
        [format!("{text}\n"), format!("a\n!b c\n{text}\nd\n")].map(String::into_bytes)
    })
}

/// Each way as deep as a script may be long, closed and open.
pub fn deepest() -> impl Iterator<Item = Vec<u8>> {
    ways().flat_map(|(open, inner, close)| {
        let pair = open.len() + close.len();
        let closed = around(open, (LONGEST - inner.len()) / pair, inner, close);
        let opened = open.repeat(LONGEST / open.len());
        [closed, opened].map(String::into_bytes)
    })
}

/// What fills a script of the greatest length: every mark and keyword, what gives an error, and
/// some that make long lists, long chains or many statements. Newlines alone are too much for the
/// original.
fn fillers() -> impl Iterator<Item = String> {
    let others = "a|a |1 |1a|a1|a1 |\"s\"|\"\"|a\n|a\n\n|a;|a,|a.|a.a|a(|a()|a[|a[1]|a=|a+|a*a+|a-|[]|{}|()|a:|-a|!a|a# b\n\
        |let a\n|fn f() a\n|while a b\n|if a {}|return\n|for a in b c\n|for a in b c\nbreak\n";
    let marks = MARKS.into_iter().chain(WRONG).map(str::to_string);
    let keywords = KEYWORDS.map(|keyword| format!("{keyword} "));
    let others = others.split('|').map(str::to_string);
    let all = marks.chain(keywords).chain(others);
    all.filter(|unit| unit != "\n")
}

/// Scripts of the greatest length, each of one thing over and over.
pub fn longest() -> impl Iterator<Item = Vec<u8>> {
    fillers().map(|unit| {
        let mut script = unit.repeat(LONGEST / unit.len());
        script.extend(std::iter::repeat_n(' ', LONGEST - script.len()));
        script.into_bytes()
    })
}

/// Lists and chains of the greatest length: what comes before, over and over, and after.
pub fn longest_lists() -> impl Iterator<Item = Vec<u8>> {
    let parts = [
        ("[", "a,", "]"),
        ("a={", "a:a,", "}"),
        ("{", "a ", "}"),
        ("{", "a\n", "}"),
        ("a", ".a", "=1"),
        ("a", "[1]", "=1"),
        ("a", "(a)", ""),
        ("a", "+a", ""),
        ("a", " or a", ""),
        ("for ", "a,", "in b c"),
        ("if a {}", "elif a {}", "else {}"),
        ("class A {", "f()a ", "}"),
        ("class A {", "class f()a f()a ", "}"),
        ("fn f() {", "{} ", "}"),
    ];
    parts.into_iter().map(|(open, unit, close)| {
        let count = (LONGEST - open.len() - close.len()) / unit.len();
        [open, &unit.repeat(count), close].concat().into_bytes()
    })
}

/// Newlines alone, and with something before or after them.
pub fn newlines() -> impl Iterator<Item = Vec<u8>> {
    // The original walks all newlines anew at each look, so that thousands take it seconds.
    let counts = (0..30).chain([99, 100, 256]);
    counts.flat_map(|count| {
        let lines = "\n".repeat(count);
        let scripts = [
            lines.clone(),
            format!("a{lines}"),
            format!("{lines}a"),
            format!("a{lines}b{lines}"),
            format!("{{{lines}}}{lines}"),
            format!("{lines})"),
            format!("a{lines}(b)"),
            format!("{lines}.b"),
            format!("a ={lines}"),
            format!("f({lines}a{lines},{lines}){lines}"),
        ];
        scripts.map(String::into_bytes)
    })
}

/// Sources that are refused, or just not, in tables of any size: nothing may be touched.
pub fn refusals(source: &[u8]) -> Trial {
    by_rules(source, |tried| {
        let needs = tried.needs();
        let fewer = needs.map(|room| tried.below(room + 1));
        for rooms in [needs, fewer, [0; 4]] {
            tried.read(rooms);
        }
    })
}

#[cfg(test)]
mod tests {
    use super::*;
    use expected::records::outcome::{DONE, TOO_DEEP};
    use expected::whole::Whole;
    use oracle::{on_large_stack, Rule};

    fn outcome(script: Vec<u8>) -> u32 {
        let script = String::from_utf8(script).expect("ASCII");
        on_large_stack(|| {
            let whole = Whole::of(Rule::One, &script);
            whole.within(whole.needs()).outcome
        })
    }

    /// Each way is read up to some depth and no deeper, and both depths are among those tried.
    #[test]
    fn every_way_has_its_limit() {
        for (open, inner, close) in ways() {
            let scripts: Vec<_> = depths(open, inner, close).step_by(2).collect();
            let read = scripts.partition_point(|script| outcome(script.clone()) != TOO_DEEP);
            assert!((1..scripts.len()).contains(&read), "{open:?}");
            assert_eq!(outcome(scripts[read - 1].clone()), DONE, "{open:?}");
        }
    }
}
