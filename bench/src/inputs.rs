//! What is read: each input is one script or several, each of which is read on its own to its end
//! and without an error.

use std::fs;
use std::path::Path;

use expected::dice::Dice;
use expected::maker::Maker;
use expected::scripts::{around, MORE_WAYS, WAYS};
use kettleplume::LONGEST;
use oracle::Stop;

use crate::mixed;

/// Scripts of the greatest length stay a little below the limit.
const LONG: usize = LONGEST - 35;

pub struct Input {
    pub name: String,
    pub scripts: Vec<String>,
    /// Whether the original is timed too.
    pub by_original: bool,
}

impl Input {
    fn one(name: &str, script: String) -> Input {
        Input {
            name: name.to_string(),
            scripts: vec![script],
            by_original: true,
        }
    }

    /// The same where the original would take half an hour: each of its looks walks all newlines that
    /// stand before it.
    fn ours(name: &str, script: String) -> Input {
        Input {
            by_original: false,
            ..Input::one(name, script)
        }
    }

    pub fn bytes(&self) -> usize {
        self.scripts.iter().map(String::len).sum()
    }
}

/// The forms of the tables.
pub fn forms() -> Vec<Input> {
    vec![
        surveyors(),
        Input::one("mixed script, 64 KiB", mixed::script(LONG)),
        Input::one("mixed, dense", dense()),
        Input::one("one long expression", mixed::expression(LONG)),
        Input::one("deep nesting", deep()),
        Input::one("many names", names()),
        Input::one("long strings and comments", texts(ENGLISH)),
        Input::one("the same with accents", texts(FRENCH)),
        Input::one("blank lines between statements", blank_lines(100)),
        Input::one("the same to 64 KiB", blank_lines(963)),
        Input::one("2,000 trailing blank lines", trailing()),
        Input::ours("65,000 after the mixed script", mixed_and_lines()),
        Input::ours("65,000 newlines", "\n".repeat(LINES)),
    ]
}

/// The mixed script from 1 KiB to 64 KiB.
pub fn growing() -> Vec<Input> {
    (0..7)
        .map(|power| {
            let size = 1 << power;
            let script = mixed::script((size * 1024).min(LONG));
            Input::one(&format!("{size} KiB"), script)
        })
        .collect()
}

/// The examples. One is left out: the original panics over it, and what that costs says nothing.
fn surveyors() -> Input {
    let folder = Path::new(env!("CARGO_MANIFEST_DIR")).join("../examples");
    let mut files: Vec<_> = fs::read_dir(folder)
        .expect("the examples are there")
        .map(|entry| entry.expect("a file").path())
        .filter(|file| file.extension().is_some_and(|end| end == "gr"))
        .collect();
    files.sort();
    let texts = files.iter().map(fs::read_to_string);
    let texts = texts.map(|text| text.expect("an example is text"));
    Input {
        name: "surveyors' scripts".to_string(),
        scripts: texts.filter(|text| is_read(text)).collect(),
        by_original: true,
    }
}

/// Whether the original reads a script to its end and has nothing to say against it.
fn is_read(script: &str) -> bool {
    let reading = oracle::read(script);
    reading.stop == Stop::None && reading.errors.is_empty()
}

/// The scripts that the comparison with the original makes: short names and a blank after each
/// token, so that most of it is work for the parser. Each is read by itself and after the one
/// before it, with which it may make one statement.
fn dense() -> String {
    let mut maker = Maker {
        dice: Dice::new(64),
    };
    let (mut text, mut last) = (String::new(), String::new());
    while text.len() + 512 < LONG {
        let more = maker.lines().join(" ").trim().to_string() + "\n";
        if more.len() < 512 && is_read(&more) && is_read(&format!("{last}{more}")) {
            text += &more;
            last = more;
        }
    }
    text
}

/// Each way to open levels with as many as are read, over and over. An empty block stands between
/// two, since a bracket on the next line would go on with what stands before it.
fn deep() -> String {
    let ways = WAYS.iter().chain(MORE_WAYS);
    let lines =
        ways.map(|&(open, count, inner, close)| around(open, count, inner, close) + "\n{}\n");
    let all: String = lines.collect();
    all.repeat(LONG / all.len())
}

/// Names that all differ, in statements of two.
fn names() -> String {
    let mut dice = Dice::new(25);
    let mut text = String::new();
    while text.len() + 40 < LONG {
        text += &format!("let {} = {}\n", name(&mut dice), name(&mut dice));
    }
    text
}

/// Some syllables, with a mark of its own in front of them that no keyword has.
fn name(dice: &mut Dice) -> String {
    let syllables = ["ma", "ri", "to", "ne", "lu", "_", "sa", "ko"];
    let mut name = "x".to_string();
    for _ in 0..2 + dice.roll(4) {
        name += *dice.pick(&syllables);
    }
    name
}

const ENGLISH: &str = "the pipes of the Swell are borrowed from the Great ";
/// Not ASCII, so that it takes the whole text test.
const FRENCH: &str = "les tuyaux du Récit sont empruntés à ceux du Positif ";

/// Strings and comments of about a thousand bytes each.
fn texts(phrase: &str) -> String {
    let unit = format!(
        "# {}\nlet remark = \"{}\"\n",
        phrase.repeat(20).trim(),
        format!("{phrase}\\n").repeat(19)
    );
    unit.repeat(LONG / unit.len())
}

/// So many statements, with fifty blank lines after each but the last.
fn blank_lines(count: usize) -> String {
    let statement = "pipes = pipes + 1";
    vec![statement; count].join(&"\n".repeat(51)) + "\n"
}

/// A statement, and nothing after it.
fn trailing() -> String {
    "pipes = pipes + 1\n".to_string() + &"\n".repeat(2_000)
}

/// An even number, since each two of them are a statement and one left over is an error.
const LINES: usize = 65_000;

/// As much of the mixed script as there is room for, and nothing after it.
fn mixed_and_lines() -> String {
    mixed::script(LONG - LINES) + &"\n".repeat(LINES)
}
