//! Pairs of scripts, and what the premise and the original say of them, as theorems: the files in
//! `crates/blackout/proofs` that are made here hold the Rattle premise against the one in Rust, the
//! one in `crates/alike/proofs` the definition of the reading against the original.

use super::change::{any_first, broken, changed, exchanged};
use super::premise::{permitted, Clause, CLAUSES};
use super::tables::Tables;
use crate::definition::{texts, HEAD, UNFOLDING};
use crate::files::File;
use crate::folders::{ALIKE, BLACKOUT};
use expected::lexing::is_text;
use expected::mixed_dice::Dice;
use expected::rules::{number, Rule};

/// What the premise says of a pair.
#[derive(Debug, Clone, Copy, PartialEq, Eq)]
pub enum Verdict {
    Permitted,
    /// Refused by this clause alone, and without it two scripts would be permitted that are read
    /// differently.
    Needed(Clause),
    /// Refused by this clause alone, though both are read alike: the premise is that narrow.
    Narrow(Clause),
    /// Refused by more than one clause, and read differently.
    Refused,
}
use Verdict::{Narrow, Needed, Permitted, Refused};

/// A rule, what the pair shows, the two scripts, and the verdict.
pub type Pair = (Rule, &'static str, &'static [u8], &'static [u8], Verdict);

/// Each pair by both rules.
pub fn pairs() -> impl Iterator<Item = Pair> {
    let same = PAIRS
        .iter()
        .map(|&(what, first, second, verdict)| (what, first, second, [verdict; 2]));
    same.chain(RULED.iter().copied())
        .flat_map(|(what, first, second, verdicts)| {
            let [one, two] = verdicts;
            [(Rule::One, one), (Rule::Two, two)]
                .map(|(rule, verdict)| (rule, what, first, second, verdict))
        })
}

/// What a pair shows, the two scripts, and what is said of them.
type Listed<V> = (&'static str, &'static [u8], &'static [u8], V);

/// Pairs of which both rules say the same.
const PAIRS: &[Listed<Verdict>] = &[
    ("nothing", b"", b"", Permitted),
    (
        "a comment with other bytes",
        b"# abc\nx",
        b"# d#\"\ny",
        Permitted,
    ),
    ("a comment at the end", b"a#b\\", b"c#\"d", Permitted),
    ("a comment's letters", b"#\xc3\xa9\n", b"#ab\n", Permitted),
    ("a name", b"ab = 1\n", b"xy = 1\n", Permitted),
    ("a name near a keyword", b"iff\n", b"fnn\n", Permitted),
    (
        "names of a statement",
        b"let a = b.cd[e]\n",
        b"let x = y.zz[w]\n",
        Permitted,
    ),
    (
        "names about keywords",
        b"if a {b}\n",
        b"if c {d}\n",
        Permitted,
    ),
    (
        "super's method",
        b"class a{b(){super.c}}",
        b"class d{e(){super.f}}",
        Permitted,
    ),
    (
        "a letter of two bytes",
        b"\"\xc3\xa9\"",
        b"\"ab\"",
        Permitted,
    ),
    (
        "two letters of one byte",
        b"\"ab\"",
        b"\"\xc3\xa9\"",
        Permitted,
    ),
    (
        "a newline in a string",
        b"\"a\nb\" c",
        b"\"x\ny\" d",
        Permitted,
    ),
    (
        "escapes in a string",
        b"\"a\\n\\\"b\\\\\"",
        b"\"#\\n\\\"1\\\\\"",
        Permitted,
    ),
    ("marks in a string", b"\"a\"b", b"\"#\"a", Permitted),
    (
        "after a wrong escape",
        b"\"\\qa\" b",
        b"\"\\qc\" b",
        Permitted,
    ),
    ("before an open string", b"a \"b", b"c \"b", Permitted),
    ("after a number", b"1.5a", b"1.5b", Permitted),
    ("about a message", b"a ! b", b"c ! d", Permitted),
    ("a number to the last byte", b"a 1.5", b"b 1.5", Permitted),
    ("a stop", b"1=a", b"1=b", Permitted),
    ("one byte more", b"a", b"a+", Needed(Clause::EqualLength)),
    ("one byte less", b"a+", b"a", Needed(Clause::EqualLength)),
    (
        "the first is no text",
        b"#\xff",
        b"#a",
        Needed(Clause::FirstText),
    ),
    (
        "the second is no text",
        b"#a",
        b"#\xff",
        Needed(Clause::SecondText),
    ),
    (
        "half a letter",
        b"\"\xc3\xa9\"",
        b"\"\xc3a\"",
        Needed(Clause::SecondText),
    ),
    (
        "a comment's letter, and a surrogate",
        b"#\xe2\x82\xac\n",
        b"#\xed\xa0\x80\n",
        Needed(Clause::SecondText),
    ),
    (
        "a string's letter, and more than the last",
        b"\"\xf4\x8f\xbf\xbf\"",
        b"\"\xf4\x90\x80\x80\"",
        Needed(Clause::SecondText),
    ),
    ("a number", b"1", b"2", Needed(Clause::Only)),
    ("a mark", b"a+b", b"a b", Needed(Clause::Only)),
    (
        "a letter outside of strings",
        b"\xc3\xa9",
        b"ab",
        Needed(Clause::Only),
    ),
    (
        "a blank for a newline",
        b"a\nb",
        b"a b",
        Needed(Clause::Only),
    ),
    ("a blank joins names", b"a b", b"acb", Needed(Clause::Only)),
    (
        "a string that isn't closed",
        b"\"\\qab\"",
        b"\"\\q1b\"",
        Needed(Clause::ClosedProperly),
    ),
    ("a comment loses its #", b"#a", b"ba", Needed(Clause::Hash)),
    (
        "a comment gains a newline",
        b"#a",
        b"#\n",
        Needed(Clause::CommentNewline),
    ),
    (
        "a string loses its first quote",
        b"\"a\"",
        b"1a\"",
        Needed(Clause::Quotes),
    ),
    (
        "a string loses its last quote",
        b"\"a\"",
        b"\"ab",
        Needed(Clause::Quotes),
    ),
    (
        "a string loses a backslash",
        b"\"\\n\"",
        b"\"an\"",
        Needed(Clause::Backslashes),
    ),
    (
        "an escape becomes wrong",
        b"\"\\n\"",
        b"\"\\q\"",
        Needed(Clause::EscapedBytes),
    ),
    (
        "a string loses a newline",
        b"\"\n\"",
        b"\"a\"",
        Needed(Clause::Newlines),
    ),
    (
        "a string gains a quote",
        b"\"a\"",
        b"\"\"\"",
        Needed(Clause::NoQuote),
    ),
    (
        "a string gains a backslash",
        b"\"ab\"",
        b"\"\\n\"",
        Needed(Clause::NoBackslash),
    ),
    (
        "a string gains a newline",
        b"\"a\"",
        b"\"\n\"",
        Needed(Clause::NoNewline),
    ),
    (
        "a name gains a digit as its first byte",
        b"ab",
        b"1b",
        Needed(Clause::NameToName),
    ),
    ("a name right after a number", b"1a", b"1b", Permitted),
    (
        "a name after a number joins it",
        b"1a",
        b"12",
        Needed(Clause::NameToName),
    ),
    ("a shorter name", b"ab", b"a ", Needed(Clause::NameToName)),
    (
        "a keyword becomes a name",
        b"if",
        b"ab",
        Needed(Clause::WasKeyword),
    ),
    (
        "a name becomes a keyword",
        b"ab",
        b"if",
        Needed(Clause::BecomesKeyword),
    ),
    ("another blank", b"1 2", b"1\t2", Narrow(Clause::Only)),
    (
        "an open string",
        b"\"ab",
        b"\"cd",
        Narrow(Clause::ClosedProperly),
    ),
    (
        "another escape",
        b"\"\\n\"",
        b"\"\\t\"",
        Narrow(Clause::EscapedBytes),
    ),
];

/// Pairs with digits in names and numbers at the end, with the verdict of each rule.
const RULED: &[Listed<[Verdict; 2]>] = &[
    (
        "a name gains a digit",
        b"ab",
        b"a1",
        [Needed(Clause::NameToName), Permitted],
    ),
    (
        "a digit after a letter becomes another",
        b"a1",
        b"b2",
        [Needed(Clause::Only), Permitted],
    ),
    (
        "a digit after a letter becomes a letter",
        b"_1",
        b"a_",
        [Needed(Clause::Only), Permitted],
    ),
    (
        "a digit after a letter becomes a blank",
        b"a1",
        b"a ",
        [Needed(Clause::Only), Needed(Clause::NameToName)],
    ),
    (
        "a letter with a digit becomes a keyword",
        b"a1",
        b"if",
        [Needed(Clause::Only), Needed(Clause::BecomesKeyword)],
    ),
    (
        "a keyword gains a digit",
        b"if",
        b"i1",
        [Refused, Needed(Clause::WasKeyword)],
    ),
    (
        "a keyword with a digit becomes a name",
        b"if1",
        b"ab2",
        [Refused, Permitted],
    ),
    (
        "a keyword with a digit becomes a keyword",
        b"if1",
        b"nil",
        [Refused, Needed(Clause::BecomesKeyword)],
    ),
    (
        "letters and digits about a mark",
        b"a1 = b2",
        b"x9 = y_",
        [Needed(Clause::Only), Permitted],
    ),
    (
        "a letter and a digit before a point",
        b"a1.5",
        b"b2.5",
        [Narrow(Clause::Only), Permitted],
    ),
    (
        "a number with a point at the end",
        b"1.5",
        b"2.5",
        [Narrow(Clause::Only), Needed(Clause::Only)],
    ),
    (
        "an enhanced for and what stands after it",
        b"for a1 in b2 {}\nbreak",
        b"for x9 in y_ {}\nbreak",
        [Needed(Clause::Only), Permitted],
    ),
];

/// The number and the seed of the stored random pairs; each second one is by rule two.
const RANDOM: (usize, u64) = (300, 20_261_116);

/// The pairs with what the premise and the original say of them, and random ones with the premise
/// alone.
pub fn files() -> Vec<File> {
    let [pairs, random] = oracle::on_large_stack(|| [stored(), random(RANDOM.0, RANDOM.1)]);
    vec![
        File::theorems(BLACKOUT, "Pairs", &pairs),
        File::theorems(BLACKOUT, "Random", &random),
        File::theorems(ALIKE, "Pairs", &read()),
    ]
}

/// The text of the theorem about the pairs above and the premise.
fn stored() -> String {
    let rows = pairs().map(|(rule, what, first, second, _)| {
        let same = Tables::original(rule, first) == Tables::original(rule, second);
        let p = permitted(rule, first, second);
        let (rule, first, second) = (number(rule), quoted(first), quoted(second));
        format!("    pair {rule} {first} {second} {p} {same} ∷  -- {what}\n")
    });
    premise(
        "Pairs of scripts: whether the premise holds of them, as the one in Rust says; and whether they are read alike, of which `alike` has the theorem.",
        "Pair, pair, unread",
        &format!("abbrev pub pairs : List Pair\npairs =\n{}    []", rows.collect::<String>()),
        "(unread pairs)",
    )
}

/// The text of the theorem about the same pairs and the reading.
fn read() -> String {
    // What has to be computed is named as in the crate `scripts`, but for that crate's own files.
    let named = |line: &&str| !line.starts_with("use Rattle.scripts.");
    let uses: Vec<&str> = HEAD.lines().filter(named).collect();
    format!(
        "-- The pairs of `blackout`: whether they are read alike, as the original says.\n\
             {}\n\
             use Rattle.blackout.proofs.Pairs.{{pairs}}\n\
             use Rattle.alike.proofs.Trials.{{answers, expected}}\n\n\
             agree : answers pairs ≡ expected pairs\n\
             {}\n\
             agree = refl\n",
        uses.join("\n"),
        UNFOLDING.trim_end(),
    )
}

/// The text of a theorem about so many random pairs: the premise in Rust is held against the one in
/// Rattle.
pub fn random(count: usize, seed: u64) -> String {
    let rows = random_pairs(count, seed)
        .into_iter()
        .map(|(rule, [first, second])| {
            let p = permitted(rule, &first, &second);
            let (rule, first, second) = (number(rule), quoted(&first), quoted(&second));
            format!("    both {rule} {first} {second} {p} ∷\n")
        });
    premise(
        "Random pairs of scripts: the premise holds of them where the one in Rust does.",
        "Both, both",
        &format!(
            "abbrev pairs : List Both\npairs =\n{}    []",
            rows.collect::<String>()
        ),
        "pairs",
    )
}

/// The text of a theorem that the premise says of the pairs of a table what their rows do.
fn premise(title: &str, forms: &str, table: &str, pairs: &str) -> String {
    format!(
        "-- {title}\n\
             use mathlib.Core.Path.{{◌≡◌, refl}}\n\
             use mathlib.Core.Bool.{{true, false}}\n\
             use mathlib.Core.List.{{List, [], ◌∷◌}}\n\
             use Rattle.token.specs.Keyword.{{keyword_of}}\n\
             use Rattle.text.specs.Text.{{is_text}}\n\
             use Rattle.items.specs.Items.{{sign_of}}\n\
             use Rattle.blackout.specs.Blackout.{{alike, blackout}}\n\
             use Rattle.blackout.proofs.Trials.{{{forms}, premises, verdicts}}\n\n\
             {table}\n\n\
             agree : premises {pairs} ≡ verdicts {pairs}\n\
             unfolding blackout alike is_text keyword_of sign_of\n\
             agree = refl\n",
    )
}

/// Short pairs of every sort, by one rule and the other.
fn random_pairs(count: usize, seed: u64) -> Vec<(Rule, [Vec<u8>; 2])> {
    let mut dice = Dice::new(seed);
    let mut texts = texts(dice.word() | 1);
    let mut pairs = vec![];
    while pairs.len() < count {
        let rule = Rule::BOTH[pairs.len() % 2];
        let first = any_first(&mut dice, &mut texts);
        if first.is_empty() || first.len() > 40 {
            continue;
        }
        let second = match dice.below(4) {
            0 => exchanged(&mut dice, &first),
            1 | 2 if is_text(&first) => {
                let second = changed(&mut dice, rule, &first);
                let clause = CLAUSES[dice.below(CLAUSES.len())];
                match broken(&mut dice, rule, clause, &first, &second) {
                    Some(script) if dice.one_in(2) => script,
                    _ => second,
                }
            }
            _ => continue,
        };
        pairs.push((rule, [first, second]));
    }
    pairs
}

/// Bytes as a text of antt, whose escapes are Rust's; a character is a byte.
fn quoted(bytes: &[u8]) -> String {
    let text: String = bytes.iter().copied().map(char::from).collect();
    format!("{text:?}")
}
