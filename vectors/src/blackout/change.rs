//! Random scripts for the premise, permitted changes of them by a rule, and changes that break one
//! clause.

use super::premise::{is_keyword, pieces, Clause, Kind, Piece};
use expected::lex_scripts::{damaged, name, script, string, KEYWORDS};
use expected::mixed_dice::Dice;
use expected::rules::Rule;

/// Letters of one to four bytes for strings and comments. No digit is among them: a text of a #
/// and digits is how the tables of the original's trees mark a token.
const LETTERS: [&[&str]; 4] = [
    &[
        "a", "Z", "_", " ", "\t", "\r", "\0", "\x7f", "!", "#", "(", "}", "=", ".", "'", "@",
    ],
    &["é", "ß", "\u{80}", "\u{7ff}"],
    &["€", "\u{2028}", "\u{800}", "\u{ffff}"],
    &["😀", "\u{10ffff}"],
];

/// What may stand in a comment beside them.
const IN_COMMENTS: [&str; 3] = ["\"", "\\", "\"a"];

/// A script: a soup of lexer's pieces, perhaps damaged, or lines of the grammar with names, strings
/// and comments of their own.
pub fn any_first(dice: &mut Dice, texts: &mut impl Iterator<Item = String>) -> Vec<u8> {
    match dice.below(4) {
        0 => {
            let most = if dice.one_in(20) { 60 } else { 14 };
            let count = dice.below(most);
            script(dice, count)
        }
        1 => {
            let count = dice.below(12);
            let soup = script(dice, count);
            damaged(dice, soup)
        }
        _ => dressed(dice, &texts.next().expect("there is no end of them")).into_bytes(),
    }
}

/// A text whose names are longer, whose strings hold more, and whose lines have comments.
fn dressed(dice: &mut Dice, text: &str) -> String {
    let mut script = String::new();
    for token in text.split(' ') {
        match token {
            "a" | "b" | "c" if dice.one_in(2) => name(dice, &mut script),
            "\"s\"" => string(dice, &mut script),
            "\n" if dice.one_in(3) => {
                script += "#";
                let size = dice.below(6);
                script += &letters(dice, size, true);
                script += "\n";
            }
            _ => script += token,
        }
        script += " ";
    }
    script
}

/// So many bytes of letters.
fn letters(dice: &mut Dice, size: usize, in_comment: bool) -> String {
    let mut text = String::new();
    while text.len() < size {
        let left = size - text.len();
        if in_comment && left >= 2 && dice.one_in(4) {
            text += dice.pick(&IN_COMMENTS);
        } else {
            let bytes = if dice.one_in(3) {
                1 + dice.below(left.min(4))
            } else {
                1
            };
            text += dice.pick(LETTERS[bytes - 1]);
        }
    }
    text
}

/// A name of so many bytes that is no keyword, often near one.
fn other_name(dice: &mut Dice, rule: Rule, size: usize) -> Vec<u8> {
    loop {
        let mut name: Vec<u8> = (0..size).map(|at| name_byte(dice, rule, at)).collect();
        if let Some(keyword) = keyword_of(dice, size) {
            if dice.one_in(2) {
                name = keyword.as_bytes().to_vec();
                let at = dice.below(size);
                name[at] = name_byte(dice, rule, at);
            }
        }
        if !is_keyword(&name) {
            return name;
        }
    }
}

/// A byte that may stand at this place of a name.
fn name_byte(dice: &mut Dice, rule: Rule, at: usize) -> u8 {
    let bytes: &[u8] = match rule {
        Rule::Two if at > 0 => b"aefinorst_AZ0189",
        _ => b"aefinorst_AZ",
    };
    bytes[dice.below(bytes.len())]
}

/// A keyword of so many bytes, if there is one.
fn keyword_of(dice: &mut Dice, size: usize) -> Option<&'static str> {
    let keywords: Vec<&str> = KEYWORDS.into_iter().filter(|k| k.len() == size).collect();
    (!keywords.is_empty()).then(|| dice.pick(&keywords))
}

/// A script that the premise permits beside the first: most pieces that may change do.
pub fn changed(dice: &mut Dice, rule: Rule, first: &[u8]) -> Vec<u8> {
    let mut second = first.to_vec();
    for piece in pieces(rule, first) {
        if dice.one_in(5) {
            continue;
        }
        let bytes = &mut second[piece.start..piece.end];
        match piece.kind {
            Kind::Comment => {
                let text = letters(dice, bytes.len() - 1, true);
                bytes[1..].copy_from_slice(text.as_bytes());
            }
            Kind::Name => bytes.copy_from_slice(&other_name(dice, rule, bytes.len())),
            Kind::String => {
                for [start, end] in plain_runs(bytes) {
                    let text = letters(dice, end - start, false);
                    bytes[start..end].copy_from_slice(text.as_bytes());
                }
            }
            _ => (),
        }
    }
    second
}

/// What the bytes of a closed string are: quotes, backslashes, the bytes they take, newlines, and
/// plain ones.
fn roles(string: &[u8]) -> Vec<Clause> {
    let mut taken = false;
    let role = |b: &u8| {
        if taken {
            taken = false;
            return Clause::EscapedBytes;
        }
        taken = *b == b'\\';
        match b {
            b'"' => Clause::Quotes,
            b'\\' => Clause::Backslashes,
            b'\n' => Clause::Newlines,
            _ => Clause::NoQuote,
        }
    };
    string.iter().map(role).collect()
}

/// The runs of plain bytes in a closed string.
fn plain_runs(string: &[u8]) -> Vec<[usize; 2]> {
    let mut runs: Vec<[usize; 2]> = vec![];
    for (at, role) in roles(string).into_iter().enumerate() {
        if role == Clause::NoQuote {
            match runs.last_mut() {
                Some([_, end]) if *end == at => *end += 1,
                _ => runs.push([at, at + 1]),
            }
        }
    }
    runs
}

/// The second with one more change, which breaks this clause; none if the first has nothing that
/// it is about.
pub fn broken(
    dice: &mut Dice,
    rule: Rule,
    clause: Clause,
    first: &[u8],
    second: &[u8],
) -> Option<Vec<u8>> {
    let mut script = second.to_vec();
    let kind = match clause {
        Clause::EqualLength => {
            script.push(b"a \n"[dice.below(3)]);
            return Some(script);
        }
        Clause::Limit | Clause::FirstText => return None,
        Clause::SecondText | Clause::Hash | Clause::CommentNewline => Kind::Comment,
        Clause::Only => Kind::Other,
        Clause::ClosedProperly => Kind::Broken,
        Clause::NameToName | Clause::BecomesKeyword => Kind::Name,
        Clause::WasKeyword => Kind::Keyword,
        _ => Kind::String,
    };
    let found: Vec<Piece> = pieces(rule, first)
        .into_iter()
        .filter(|p| p.kind == kind)
        .collect();
    if found.is_empty() {
        return None;
    }
    let Piece { start, end, .. } = found[dice.below(found.len())];
    let size = end - start;
    if clause == Clause::BecomesKeyword {
        let keyword = keyword_of(dice, size)?;
        script[start..end].copy_from_slice(keyword.as_bytes());
        return Some(script);
    }
    if clause == Clause::WasKeyword {
        script[start..end].copy_from_slice(&other_name(dice, rule, size));
        return Some(script);
    }
    // One byte becomes another; both are ASCII, so that the letters about it stay whole.
    let wanted = match clause {
        Clause::NoBackslash | Clause::NoNewline => Clause::NoQuote,
        other => other,
    };
    let old = &first[start..end];
    let places: Vec<usize> = match kind {
        Kind::String => {
            let roles = roles(old).into_iter().enumerate();
            roles
                .filter(|(_, r)| *r == wanted)
                .map(|(at, _)| at)
                .collect()
        }
        _ if clause == Clause::Hash => vec![0],
        Kind::Comment => (1..size).collect(),
        _ => (0..size).collect(),
    };
    let places: Vec<usize> = places
        .into_iter()
        .filter(|at| script[start + at].is_ascii())
        .collect();
    if places.is_empty() {
        return None;
    }
    let at = start + places[dice.below(places.len())];
    let new: &[u8] = match clause {
        Clause::SecondText => b"\xff\xc0\x80",
        Clause::CommentNewline | Clause::NoNewline => b"\n",
        Clause::NoQuote => b"\"",
        Clause::NoBackslash => b"\\",
        Clause::NameToName if rule == Rule::Two && at > start => b" .(\n\"",
        Clause::NameToName => b"0 .(\n\"",
        Clause::Quotes | Clause::Backslashes | Clause::Newlines => b"aZ #",
        _ => b"aZ1 #\n(=\"nrt\\q",
    };
    let new = new[dice.below(new.len())];
    (new != first[at]).then(|| {
        script[at] = new;
        script
    })
}

/// Up to three ASCII bytes exchanged for others, anywhere.
pub fn exchanged(dice: &mut Dice, first: &[u8]) -> Vec<u8> {
    const BYTES: &[u8] = b"abxZ_09. \n\t#\"\\nq!=<(){}@:;,";
    let mut script = first.to_vec();
    for _ in 0..1 + dice.below(3) {
        if script.is_empty() {
            break;
        }
        let at = dice.below(script.len());
        if script[at].is_ascii() {
            script[at] = BYTES[dice.below(BYTES.len())];
        }
    }
    script
}
