//! The line of a script as it is shown below an error, and what is said of it.

use std::fmt::Write as _;

use kettleplume::places::Places;

use super::letters::{self, Letter};

/// The most letters of a line that are shown.
const MOST_LETTERS: usize = 100;
/// How many of them stand from the place on, in a line that is cut on both sides.
const FROM_PLACE: usize = 40;
/// Stands for what is left out.
const CUT: &str = "...";

/// The line of a place and, below, a mark under it: after the last letter, where the place is the end
/// of the line or of the script.
pub fn marked(script: &Places, at: usize) -> String {
    let line = script.line(at);
    let place = at - script.start(line);
    let text = script.text(line);
    let shown = Part::around(text, letters::start(text, place.min(text.len())));
    numbered(line, &shown.text) + &beside('|', &format!("{}^", shown.before))
}

/// A remark below the line.
pub fn note(text: &str) -> String {
    beside('=', text)
}

fn numbered(line: usize, text: &str) -> String {
    format!("{:>6} | {text}", line).trim_end().to_string() + "\n"
}

fn beside(sign: char, text: &str) -> String {
    format!("{:>6} {sign} {text}\n", "")
}

/// The part of a line that is shown.
struct Part {
    text: String,
    /// What brings a mark in the line below under the place: blanks, and the tabs of the line.
    before: String,
}

impl Part {
    /// The letters around the one that begins at a place of the line.
    ///
    /// Only so many are looked at: a script can have an error for each byte of a line of 65,535.
    fn around(line: &[u8], place: usize) -> Part {
        let (before, after) = (letters_before(line, place), letters_from(line, place));
        let kept = before.len().min(MOST_LETTERS - after.len().min(FROM_PLACE));
        let first = before.len() - kept;
        let end = after.len().min(MOST_LETTERS - kept);
        let mut part = Part {
            text: String::new(),
            before: String::new(),
        };
        let length = |letters: &[Letter]| letters.iter().map(|l| l.length).sum::<usize>();
        if length(&before[first..]) < place {
            part.text.push_str(CUT);
            part.before.push_str("   ");
        }
        before[first..].iter().for_each(|letter| part.push(letter));
        part.text.extend(after[..end].iter().map(|l| l.shown));
        if place + length(&after[..end]) < line.len() {
            part.text.push_str(CUT);
        }
        // The mark of what is drawn over a letter goes under that letter.
        if after.first().is_some_and(|letter| letter.cells == 0) {
            let under = before.iter().rev().find(|letter| letter.cells > 0);
            let cells = under.map_or(0, |letter| letter.cells);
            part.before
                .truncate(part.before.len().saturating_sub(cells));
        }
        part
    }

    /// A letter in front of the place.
    fn push(&mut self, letter: &Letter) {
        self.text.push(letter.shown);
        let blank = if letter.shown == '\t' { "\t" } else { " " };
        // Writing to a string doesn't fail.
        let _ = write!(self.before, "{}", blank.repeat(letter.cells));
    }
}

/// The letters in front of a place, no more than could be shown.
fn letters_before(line: &[u8], place: usize) -> Vec<Letter> {
    let (mut letters, mut at) = (vec![], place);
    while at > 0 && letters.len() < MOST_LETTERS {
        at = letters::start(line, at - 1);
        letters.extend(letters::first(&line[at..]));
    }
    letters.reverse();
    letters
}

/// The letters from a place on, no more than could be shown.
fn letters_from(line: &[u8], place: usize) -> Vec<Letter> {
    let (mut letters, mut at) = (vec![], place);
    while letters.len() < MOST_LETTERS {
        let Some(letter) = letters::first(&line[at..]) else {
            break;
        };
        at += letter.length;
        letters.push(letter);
    }
    letters
}
