//! Calls of the library, through the crate `kettleplume` or as a child process.
//!
//! Each request is a call, or sets the source for the calls that follow it. Both ways put every
//! table between guards and a byte after the source.

mod child;
mod here;

use child::Child;
pub use here::Guarded;
use here::Here;

/// What the host is asked. A source stays set until the next one.
#[derive(Debug, Clone)]
pub enum Request<'a> {
    /// The bytes to read, and a byte that is put after them for a reader that goes too far.
    Source {
        bytes: &'a [u8],
        behind: u8,
    },
    Lex(LexCall),
    Decode(DecodeCall),
    Read(ReadCall),
}

/// A call of `kettleplume_scan`: the rule, the tables' sizes in words, and the word they are filled with.
#[derive(Debug, Clone, Copy)]
pub struct LexCall {
    pub rule: u32,
    pub token_words: usize,
    pub error_words: usize,
    pub fill: u32,
}

/// A call of `kettleplume_decode`: where, the buffer's size, and the byte it is filled with.
#[derive(Debug, Clone, Copy)]
pub struct DecodeCall {
    pub start: u64,
    pub room: usize,
    pub fill: u8,
}

/// A reading: the rule, the way, the tables' sizes in words, and the word they are filled with.
#[derive(Debug, Clone, Copy)]
pub struct ReadCall {
    pub rule: u32,
    pub way: u32,
    /// Whether it is read one statement at a time, and not by `kettleplume_read`.
    pub pair: bool,
    pub token_words: usize,
    pub error_words: usize,
    pub node_words: usize,
    pub index_words: usize,
    pub fill: u32,
}

/// The answer of `kettleplume_scan` and the tables afterwards.
#[derive(Debug, Clone)]
pub struct LexAnswer {
    pub outcome: u32,
    pub tokens: u32,
    pub errors: u32,
    /// Whether the guards round the tables are as they were.
    pub intact: bool,
    pub token_table: Vec<u32>,
    pub error_table: Vec<u32>,
}

/// The answer of `kettleplume_decode` and the buffer afterwards.
#[derive(Debug, Clone)]
pub struct DecodeAnswer {
    pub outcome: u32,
    pub length: u64,
    /// Whether the guards round the buffer are as they were.
    pub intact: bool,
    pub buffer: Vec<u8>,
}

/// How many words of an answer 19 are compared: all but the outcome.
pub const SO_FAR: usize = 5;

/// The answer of a reading and the tables afterwards.
#[derive(Debug, Clone)]
pub struct ReadAnswer {
    pub outcome: u32,
    pub tokens: u32,
    pub errors: u32,
    pub nodes: u32,
    pub first: u32,
    pub looks: u32,
    /// Whether the guards round the tables are as they were.
    pub intact: bool,
    /// One statement at a time: whether a read after the final answer gave it again and changed
    /// nothing, and the parser has the rule and the way that were set. 13 is no final answer: then
    /// whether the parser is as it was set, and the read answered 18 and changed nothing.
    pub steady: bool,
    /// One statement at a time: tokens, errors, nodes, first statement and looks of each answer 19.
    pub so_far: Vec<[u32; SO_FAR]>,
    pub token_table: Vec<u32>,
    pub error_table: Vec<u32>,
    pub node_table: Vec<u32>,
    pub index_table: Vec<u32>,
}

/// What the host answers; a `Source` has no answer.
#[derive(Debug, Clone)]
pub enum Answer {
    Lex(LexAnswer),
    Decode(DecodeAnswer),
    Read(ReadAnswer),
}

/// What answers.
pub enum Host {
    /// The library in this process, as programs have it that link the crate `kettleplume`.
    Here(Here),
    /// The library's archive in a program of its own, under an emulator where need be.
    Child(Child),
}

impl Host {
    /// The library in this process.
    pub fn start() -> Host {
        Host::Here(Here::new())
    }

    /// The archive for x86-64 in a child process.
    pub fn archive() -> Host {
        Host::Child(Child::start())
    }

    /// Another host of the same sort.
    pub fn again(&self) -> Host {
        match self {
            Host::Here(_) => Host::start(),
            Host::Child(_) => Host::archive(),
        }
    }

    /// Makes all calls and hands each answer on as it comes, with its request's index. If a child
    /// ends before, how it ended.
    pub fn ask(
        &mut self,
        requests: &[Request],
        each: impl FnMut(usize, Answer),
    ) -> Result<(), String> {
        match self {
            Host::Here(here) => {
                here.ask(requests, each);
                Ok(())
            }
            Host::Child(child) => child.ask(requests, each),
        }
    }
}
