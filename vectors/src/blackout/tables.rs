//! A reading as words: the answer and the kept records of each table.

use expected::lexing::{expect, rust_string};
use expected::records::outcome;
use expected::rules::{number, Rule};

use crate::definition::{original, Case};

/// What is the same for two scripts that are alike but for what is blacked out.
#[derive(Debug, Clone, PartialEq, Eq)]
pub struct Tables {
    /// Outcome, counts, first statement and looks.
    pub answer: Vec<u32>,
    pub tokens: Vec<u32>,
    pub errors: Vec<u32>,
    pub nodes: Vec<u32>,
    /// The words of the kept tokens where it is filled.
    pub index: Vec<u32>,
}

impl Tables {
    /// The original's whole reading by a rule, with room enough.
    pub fn original(rule: Rule, source: &[u8]) -> Tables {
        let (lexing, _) = expect(number(rule), source);
        let tokens = lexing.tokens.concat();
        if matches!(lexing.outcome, outcome::NO_TEXT | outcome::TOO_LONG) {
            // What is refused keeps nothing.
            return Tables {
                answer: vec![lexing.outcome, 0, 0, 0, 0, 0],
                tokens,
                errors: vec![],
                nodes: vec![],
                index: vec![],
            };
        }
        let Case {
            mut words, index, ..
        } = original(rule, rust_string(source));
        let answer = words.remove(0);
        let nodes = words.split_off(answer[2] as usize);
        Tables {
            answer,
            tokens,
            errors: words.concat(),
            nodes: nodes.concat(),
            index,
        }
    }
}
