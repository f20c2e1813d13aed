//! Scripts with what the original makes of them, as theorems about the definition of the whole
//! reading: each file in `crates/scripts/proofs` that is made here has one table of scripts and
//! one theorem, which says that the definition answers as the original does. Where the original
//! has no answer, for want of tables and levels, the outcome and how many records are kept follow
//! `docs/RULES.md`, 'Outcomes', and stand beside the script; the records themselves are still the
//! original's, and so are the looks, which its parser makes up to the record that finds no room.

mod random;
mod scripts;

use std::fmt::Write as _;

use expected::dice::Dice;
use expected::maker::Maker;
use expected::records::{outcome, way, NODE_WORDS};
use expected::rules::{number, Rule};
use expected::scripts::bytes;
use expected::whole::{known, with_index, Known, Rooms, Whole};
use oracle::on_large_stack;

use crate::files;
use crate::folders::SCRIPTS;

/// What stands in each table before a reading.
const FILL: u32 = 7;

/// A script; a character is a byte.
pub struct Script {
    /// The number of the rule by which it is read.
    pub rule: u32,
    /// The way on which it is read.
    pub way: u32,
    pub text: String,
    /// Where the tables are too small, a level too many opens, the script is no text or the rule none,
    /// and the original therefore doesn't say what is kept.
    pub ends: Option<End>,
}

/// How a reading ends that the original doesn't know (`docs/RULES.md`, 'Outcomes').
#[derive(Clone, Copy)]
pub struct End {
    pub outcome: u32,
    /// The tables' rooms: tokens, errors, nodes, words of the newline index.
    pub rooms: Rooms,
    /// How many tokens, errors and top-level statements of the original's reading are kept.
    pub kept: [usize; 3],
}

/// A case: a rule, a way, a script, the tables' rooms, the words that are kept, which are the answer and
/// each error and node, and those that are written into the newline index.
pub struct Case {
    pub rule: u32,
    pub way: u32,
    pub text: String,
    pub rooms: Rooms,
    pub words: Vec<Vec<u32>>,
    pub index: Vec<u32>,
}

/// What the original makes of a script. Where the added outcomes decide instead (`docs/RULES.md`), how the
/// reading ends stands beside the script, and the log of the original's parser has to say the same.
pub fn case(script: &Script) -> Case {
    let &Script {
        rule,
        way,
        ref text,
        ends,
    } = script;
    let case = |rooms, words, index| Case {
        rule,
        way,
        text: text.clone(),
        rooms,
        words,
        index,
    };
    let whole = match known(rule, &bytes(text)) {
        Known::Read(whole) => whole,
        Known::Refused(outcome) => {
            let end = ends.expect("no text or no rule, so the original can't read it");
            assert_eq!((outcome, [0; 3]), (end.outcome, end.kept), "{text:?}");
            // The node table, with its longest spare tail, is unchanged, also where it is not 0.
            let nodes = vec![FILL; NODE_WORDS * (end.rooms[2] + 1) - 1];
            return case(end.rooms, vec![vec![outcome, 0, 0, 0, 0, 0], nodes], vec![]);
        }
    };
    let rooms = ends.map_or_else(|| rooms(&whole), |end| end.rooms);
    let answer = whole.on(way, rooms);
    let kept = [answer.tokens.len(), answer.errors.len(), answer.statements];
    if let Some(end) = ends {
        assert_eq!((answer.outcome, kept), (end.outcome, end.kept), "{text:?}");
    }
    let wrong = whole.tree_differs(&answer.nodes, answer.first, answer.statements);
    assert_eq!(wrong, None, "the nodes aren't what is read: {text:?}");
    let [tokens, errors, _] = kept.map(|n| n as u32);
    let count = answer.nodes.len() as u32;
    let (first, looks) = (answer.first, answer.looks);
    let mut words = vec![vec![answer.outcome, tokens, errors, count, first, looks]];
    words.extend(answer.errors.iter().map(|e| e.to_vec()));
    words.extend(answer.nodes.iter().map(|n| n.to_vec()));
    case(rooms, words, answer.index)
}

/// What the original makes of a script by a rule with room enough.
pub fn original(rule: Rule, source: &str) -> Case {
    case(&Script {
        rule: number(rule),
        way: way::GO_ON,
        text: source.bytes().map(char::from).collect(),
        ends: None,
    })
}

/// Tables that hold what is read.
fn rooms(whole: &Whole) -> Rooms {
    let [tokens, errors, nodes, _] = whole.needs();
    // A statement that stops has made nodes that the original doesn't tell.
    match whole.within(whole.needs()).outcome {
        outcome::STOPPED => with_index([tokens, errors, 2 * tokens]),
        _ => with_index([tokens, errors, nodes]),
    }
}

/// A file of the crate `scripts`: its name, a comment, and its scripts.
pub struct File {
    pub name: &'static str,
    comment: &'static str,
    scripts: Vec<Script>,
}

/// All files.
pub fn files() -> Vec<File> {
    scripts::files()
}

/// A file of scripts that take long, which is tried but not kept.
pub fn slow() -> File {
    scripts::slow()
}

/// A file of random scripts, which is tried but not kept.
pub fn random(seed: u64, count: usize) -> File {
    let dice = Dice::new(seed);
    let mut maker = Maker { dice };
    File {
        name: "Random",
        comment: "Random scripts, with what the original answers.",
        scripts: (0..count).map(|_| random::script(&mut maker)).collect(),
    }
}

/// Random scripts without end; their tokens stand apart by a space.
pub fn texts(seed: u64) -> impl Iterator<Item = String> {
    let dice = Dice::new(seed);
    let mut maker = Maker { dice };
    std::iter::repeat_with(move || maker.text())
}

impl File {
    pub fn len(&self) -> usize {
        self.scripts.len()
    }

    pub fn is_empty(&self) -> bool {
        self.scripts.is_empty()
    }

    /// The file's cases, in order.
    pub fn cases(&self) -> Vec<Case> {
        on_large_stack(|| self.scripts.iter().map(case).collect())
    }

    /// The file's text: a theorem for each of its parts.
    pub fn text(&self) -> String {
        let mut out = format!("-- {}\n{}", self.comment, HEAD);
        for (at, part) in parts(self.cases()).iter().enumerate() {
            out += &theorem(at + 1, part);
        }
        out
    }

    /// The file where the crate has it.
    pub fn file(&self) -> files::File {
        files::File::theorems(SCRIPTS, self.name, &self.text())
    }
}

/// The checker allows a declaration so many steps: a theorem has a few long scripts, or more short
/// ones, of so many bytes together.
const PART: usize = 768;

/// The cases in parts, each with one case at the least.
fn parts(cases: Vec<Case>) -> Vec<Vec<Case>> {
    let mut parts: Vec<Vec<Case>> = vec![];
    let mut bytes = 0;
    for case in cases {
        bytes += case.text.len();
        if parts.is_empty() || bytes > PART {
            bytes = case.text.len();
            parts.push(vec![]);
        }
        parts.last_mut().expect("a part").push(case);
    }
    parts
}

/// A theorem: the definition answers these cases as the original does.
fn theorem(number: usize, cases: &[Case]) -> String {
    let mut out = format!("\nabbrev cases_{number} : List Case\ncases_{number} =\n");
    for case in cases {
        let [tokens, errors, nodes, index] = case.rooms;
        // Every word of the index is compared, also where it is as it was.
        let mut whole_index = case.index.clone();
        whole_index.resize(index, FILL);
        let rows = case.words.iter().chain([&whole_index]);
        let rows = rows.filter(|row| !row.is_empty());
        let rows: Vec<String> = rows.map(|row| words(row)).collect();
        let (rule, way, text) = (case.rule, case.way, quoted(&case.text));
        let rows = rows.join("\n    ");
        writeln!(
            out,
            "    case {rule} {way} {text} {tokens} {errors} {nodes} {index}"
        )
        .expect("a line");
        writeln!(out, "    ({rows} []) ∷").expect("a line");
    }
    out += "    []\n\n";
    writeln!(
        out,
        "agree_{number} : map answer cases_{number} ≡ map expected cases_{number}"
    )
    .expect("a line");
    out + UNFOLDING + &format!("agree_{number} = refl\n")
}

/// Words, each with the sign of lists after it.
fn words(row: &[u32]) -> String {
    let words: Vec<String> = row.iter().map(|word| format!("{word} ∷")).collect();
    words.join(" ")
}

/// A script as a text of antt, whose escapes are Rust's.
fn quoted(text: &str) -> String {
    format!("{text:?}")
}

/// What each file uses.
pub const HEAD: &str = include_str!("head.txt");

/// What has to be computed.
pub const UNFOLDING: &str = include_str!("unfolding.txt");
