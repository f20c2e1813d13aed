//! Makes the calls in this process, through the crate `kettleplume`.

use expected::records::outcome;
use kettleplume::border::{self, Parser};

use super::{
    Answer, DecodeAnswer, DecodeCall, LexAnswer, LexCall, ReadAnswer, ReadCall, Request, SO_FAR,
};

/// How many words or bytes stand on each side of a table.
const GUARD: usize = 8;
const GUARD_WORD: u32 = 0x5aa5_c33c;
const GUARD_BYTE: u8 = 0x5a;

/// What a read answers where nothing was begun.
const MISMATCH: border::Answer = border::Answer {
    outcome: outcome::MISMATCH,
    tokens: 0,
    errors: 0,
    nodes: 0,
    first: 0,
    looks: 0,
};

/// The source that the next calls are about, with what stands after it.
#[derive(Default)]
pub struct Here {
    source: Vec<u8>,
    length: usize,
}

impl Here {
    pub fn new() -> Here {
        Here::default()
    }

    pub fn ask(&mut self, requests: &[Request], mut each: impl FnMut(usize, Answer)) {
        for (index, request) in requests.iter().enumerate() {
            let source = &self.source[..self.length];
            match request {
                Request::Source { bytes, behind } => {
                    self.source.clear();
                    self.source.extend_from_slice(bytes);
                    self.source.extend_from_slice(&[*behind; GUARD]);
                    self.length = bytes.len();
                }
                Request::Lex(call) => each(index, Answer::Lex(lex(source, call))),
                Request::Decode(call) => each(index, Answer::Decode(decode(source, call))),
                Request::Read(call) => each(index, Answer::Read(read(source, call))),
            }
        }
    }
}

/// A table between two guards.
pub struct Guarded<T> {
    all: Vec<T>,
    guard: T,
}

impl<T: Copy + PartialEq> Guarded<T> {
    fn new(size: usize, fill: T, guard: T) -> Guarded<T> {
        let mut all = vec![fill; size + 2 * GUARD];
        all[..GUARD].fill(guard);
        all[GUARD + size..].fill(guard);
        Guarded { all, guard }
    }

    pub fn lent(&mut self) -> &mut [T] {
        let end = self.all.len() - GUARD;
        &mut self.all[GUARD..end]
    }

    pub fn intact(&self) -> bool {
        let end = self.all.len() - GUARD;
        let mut guards = self.all[..GUARD].iter().chain(&self.all[end..]);
        guards.all(|word| *word == self.guard)
    }

    /// The table without its guards.
    pub fn table(mut self) -> Vec<T> {
        self.all.truncate(self.all.len() - GUARD);
        self.all.drain(..GUARD);
        self.all
    }
}

impl Guarded<u32> {
    /// A table that holds these words.
    pub fn holding(words: &[u32]) -> Guarded<u32> {
        let mut guarded = Guarded::new(words.len(), 0, GUARD_WORD);
        guarded.lent().copy_from_slice(words);
        guarded
    }
}

fn words(size: usize, fill: u32) -> Guarded<u32> {
    Guarded::new(size, fill, GUARD_WORD)
}

fn lex(source: &[u8], call: &LexCall) -> LexAnswer {
    let mut tokens = words(call.token_words, call.fill);
    let mut errors = words(call.error_words, call.fill);
    let answer = border::scan(call.rule, source, tokens.lent(), errors.lent());
    LexAnswer {
        outcome: answer.outcome,
        tokens: answer.tokens,
        errors: answer.errors,
        intact: tokens.intact() && errors.intact(),
        token_table: tokens.table(),
        error_table: errors.table(),
    }
}

fn decode(source: &[u8], call: &DecodeCall) -> DecodeAnswer {
    let mut buffer = Guarded::new(call.room, call.fill, GUARD_BYTE);
    let answer = border::decode(source, call.start as usize, buffer.lent());
    DecodeAnswer {
        outcome: answer.outcome,
        length: answer.length as u64,
        intact: buffer.intact(),
        buffer: buffer.table(),
    }
}

fn read(source: &[u8], call: &ReadCall) -> ReadAnswer {
    let sizes = [
        call.token_words,
        call.error_words,
        call.node_words,
        call.index_words,
    ];
    let mut tables = sizes.map(|size| words(size, call.fill));
    let (answer, steady, so_far) = if call.pair {
        one_at_a_time(call, source, &mut tables)
    } else {
        let [tokens, errors, nodes, index] = tables.each_mut().map(Guarded::lent);
        let (rule, way) = (call.rule, call.way);
        let answer = border::read(rule, way, source, tokens, errors, nodes, index);
        (answer, true, vec![])
    };
    let intact = tables.iter().all(Guarded::intact);
    let [token_table, error_table, node_table, index_table] = tables.map(Guarded::table);
    ReadAnswer {
        outcome: answer.outcome,
        tokens: answer.tokens,
        errors: answer.errors,
        nodes: answer.nodes,
        first: answer.first,
        looks: answer.looks,
        intact,
        steady,
        so_far,
        token_table,
        error_table,
        node_table,
        index_table,
    }
}

/// All of an answer but the outcome.
fn counts(a: &border::Answer) -> [u32; SO_FAR] {
    [a.tokens, a.errors, a.nodes, a.first, a.looks]
}

/// Begins and reads up to the final answer, then once more: the answer, whether all is steady, as
/// `ReadAnswer` has it, and what was answered in between. A source of n bytes has its final answer
/// after n + 2 reads, which is proved; a library that goes on is stopped.
fn one_at_a_time(
    call: &ReadCall,
    source: &[u8],
    tables: &mut [Guarded<u32>; 4],
) -> (border::Answer, bool, Vec<[u32; SO_FAR]>) {
    let set = Parser {
        rule: call.rule,
        way: call.way,
        ..Parser::default()
    };
    let mut parser = set;
    let mut lent = tables.each_mut().map(Guarded::lent);
    let [tokens, errors, nodes, index] = &mut lent;
    let mut answer = parser.begin(source, tokens, errors, nodes, index);
    let mut so_far = vec![];
    while answer.outcome == outcome::MORE && so_far.len() < source.len() + 3 {
        so_far.push(counts(&answer));
        answer = parser.next(source, tokens, errors, nodes, index);
    }
    let kept = (parser, lent.each_ref().map(|table| table.to_vec()));
    let [tokens, errors, nodes, index] = &mut lent;
    let again = parser.next(source, tokens, errors, nodes, index);
    let now = (parser, lent.each_ref().map(|table| table.to_vec()));
    let last = match answer.outcome {
        outcome::WRONG_RULE => again == MISMATCH && parser == set,
        _ => again == answer && (parser.rule, parser.way) == (set.rule, set.way),
    };
    (answer, last && now == kept, so_far)
}
