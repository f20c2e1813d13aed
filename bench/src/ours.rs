//! The proved library, and its own text compiled by rustc: the same calls on the same tables.

use kettleplume::border;
use kettleplume::records::{outcome, rule, way, ERROR_WORDS, INDEX_WORDS, NODE_WORDS, TOKEN_WORDS};
use kettleplume::Rooms;

use crate::same;

/// Either of the two, by rule one and on the original's way. A reading is lent three tables and the newline
/// index, and answers with the outcome, the counts and the first statement.
pub trait Reader {
    fn scan(source: &[u8], tokens: &mut [u32], errors: &mut [u32]) -> [u32; 3];
    fn read(source: &[u8], lent: [&mut [u32]; 4]) -> [u32; 5];
}

pub struct Library;

impl Reader for Library {
    fn scan(source: &[u8], tokens: &mut [u32], errors: &mut [u32]) -> [u32; 3] {
        let s = border::scan(rule::ONE, source, tokens, errors);
        [s.outcome, s.tokens, s.errors]
    }

    fn read(source: &[u8], [tokens, errors, nodes, index]: [&mut [u32]; 4]) -> [u32; 5] {
        let (rule, way) = (rule::ONE, way::GO_ON);
        let a = border::read(rule, way, source, tokens, errors, nodes, index);
        [a.outcome, a.tokens, a.errors, a.nodes, a.first]
    }
}

pub struct SameText;

impl Reader for SameText {
    // The library is reached by a call too.
    #[inline(never)]
    fn scan(source: &[u8], tokens: &mut [u32], errors: &mut [u32]) -> [u32; 3] {
        let s = same::lexer::scan(rule::ONE, source, tokens, errors);
        [s.outcome, s.tokens, s.errors]
    }

    #[inline(never)]
    fn read(source: &[u8], [tokens, errors, nodes, index]: [&mut [u32]; 4]) -> [u32; 5] {
        let (rule, way) = (rule::ONE, way::GO_ON);
        let a = same::reader::read(rule, way, source, tokens, errors, nodes, index);
        [a.outcome, a.tokens, a.errors, a.nodes, a.first]
    }
}

/// Tables for one script.
#[derive(Clone, PartialEq)]
pub struct Tables {
    pub tokens: Vec<u32>,
    pub errors: Vec<u32>,
    pub nodes: Vec<u32>,
    pub index: Vec<u32>,
}

/// What stands in a table before a reading.
const BEFORE: u32 = 0xa5a5_a5a5;

impl Tables {
    fn of(rooms: Rooms) -> Tables {
        Tables {
            tokens: vec![BEFORE; TOKEN_WORDS * rooms.tokens],
            errors: vec![BEFORE; ERROR_WORDS * rooms.errors],
            nodes: vec![BEFORE; NODE_WORDS * rooms.nodes],
            index: vec![BEFORE; INDEX_WORDS * rooms.index],
        }
    }

    /// Room for any script of that length: most of it is unused, and the reading zeroes the nodes'.
    pub fn enough(script: &str) -> Tables {
        Tables::of(Rooms::enough(script.len()))
    }

    /// Room for what the script has and no more: there is nothing to zero.
    pub fn needed(script: &str) -> Tables {
        let [outcome, tokens, errors, nodes, _] = Tables::enough(script).read::<Library>(script);
        assert_eq!(outcome, outcome::DONE, "the script is read to its end");
        Tables::of(Rooms {
            tokens: tokens as usize,
            errors: errors as usize,
            nodes: nodes as usize,
            index: tokens as usize,
        })
    }

    pub fn scan<R: Reader>(&mut self, script: &str) -> [u32; 3] {
        R::scan(script.as_bytes(), &mut self.tokens, &mut self.errors)
    }

    pub fn read<R: Reader>(&mut self, script: &str) -> [u32; 5] {
        let Tables {
            tokens,
            errors,
            nodes,
            index,
        } = self;
        R::read(script.as_bytes(), [tokens, errors, nodes, index])
    }
}

/// Makes sure that both readers answer alike and leave every word of their tables alike, and that
/// the original finds as many tokens and no errors either.
pub fn check(script: &str) {
    for before in [Tables::enough(script), Tables::needed(script)] {
        let (mut a, mut b) = (before.clone(), before.clone());
        assert_eq!(a.scan::<Library>(script), b.scan::<SameText>(script));
        assert!(a == b, "the tables after a lexing");
        let (mut a, mut b) = (before.clone(), before);
        assert_eq!(a.read::<Library>(script), b.read::<SameText>(script));
        assert!(a == b, "the tables after a reading");
        let [_, tokens, errors, ..] = a.read::<Library>(script);
        let reading = oracle::lex(script);
        assert_eq!((tokens as usize, errors), (reading.tokens.len(), 0));
    }
}
