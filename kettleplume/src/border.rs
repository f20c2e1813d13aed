//! The border to the proved library: its functions, and what they take and give.
//!
//! A slice crosses it as a pointer and a length, in two parameters. Each function takes any bytes
//! and tables of any size, and writes nothing beyond them; its promise, which is proved, says what
//! every word is afterwards (docs/PROMISES.md).
//!
//! The raw calls are private. What they rely on their caller for, that a pointer is valid for its length and
//! that nothing lent overlaps, is what a slice is. So the functions here are safe. For C
//! `include/kettleplume.h` says it, beside the same declarations.

use crate::options::Options;

/// What a reading answers.
#[repr(C)]
#[derive(Debug, Clone, Copy, PartialEq, Eq, Default)]
pub struct Answer {
    /// The number of the outcome: 0 to 8, 10, 11 and 13, for a read of one statement also 18 and 19
    /// (`docs/RULES.md`, 'Outcomes').
    pub outcome: u32,
    /// How many token records are kept.
    pub tokens: u32,
    /// How many error records are kept.
    pub errors: u32,
    /// How many node records are kept.
    pub nodes: u32,
    /// The number of the first statement's node, 0 where no statement is kept.
    pub first: u32,
    /// The looks: how often `check` was called, the original's test for a token, up to where the reading
    /// ended. Those in a statement that isn't kept count too; 0 where nothing was parsed.
    pub looks: u32,
}

/// What lexing answers.
#[repr(C)]
#[derive(Debug, Clone, Copy, PartialEq, Eq, Default)]
pub struct Scanned {
    /// The number of the outcome: 0, 2 to 6 or 13 (`docs/RULES.md`, 'Outcomes').
    pub outcome: u32,
    /// How many token records are kept.
    pub tokens: u32,
    /// How many error records are kept.
    pub errors: u32,
}

/// What decoding a string answers.
#[repr(C)]
#[derive(Debug, Clone, Copy, PartialEq, Eq, Default)]
pub struct Decoded {
    /// The number of the outcome: 0, 3, 4, 9 or 10 (`docs/RULES.md`, 'Decoding').
    pub outcome: u32,
    /// How many bytes of the buffer are the decoded text.
    pub length: usize,
}

/// What reading one statement at a time keeps between two calls. Any value gets an answer. The caller sets
/// the rule and the way before `begin`, as [`Parser::new`] does; the other words are the calls' own.
#[repr(C)]
#[derive(Debug, Clone, Copy, PartialEq, Eq, Default)]
pub struct Parser {
    /// The rule, 1 or 2. Both calls look at it: any other number is refused with 13, and nothing is
    /// changed. No call changes it.
    pub rule: u32,
    /// The way: 0 stops after a lexing that recorded an error, any other number goes on. `begin` looks at
    /// it, and no call changes it.
    pub way: u32,
    /// The index of the token that is looked at next.
    pub current: u32,
    /// How many loops are open.
    pub loops: u32,
    /// How many tokens stand in their table.
    pub tokens: u32,
    /// How many errors stand in their table.
    pub errors: u32,
    /// How many nodes stand in their table.
    pub nodes: u32,
    /// The number of the first statement's node, 0 for none.
    pub first: u32,
    /// The number of the last statement's node, 0 for none.
    pub last: u32,
    /// Other than 0 once the final answer is given.
    pub ended: u32,
    /// The outcome of the last answer.
    pub outcome: u32,
    /// How often `check` was called so far. A count that a word can't hold stays at the greatest.
    pub looks: u32,
}

/// Reads a source into three tables and the newline index. The definition `reading` fixes what it makes of
/// the source, and every word of the tables and the index afterwards, for any rule, any way, any bytes and
/// tables of any size.
///
/// The index has a word for each token, the reference of the first token from there on that is no Newline.
/// It is written once, between lexing and parsing, so that parsing doesn't walk the same blank lines at
/// each look. Where it has fewer words than there are tokens the answer is 10, and nothing is parsed. A
/// reading that ends before parsing leaves it as it was; after any other it has the words of all tokens.
///
/// [`rule`](crate::records::rule) has the rules' numbers; any other is refused with 13, before all else,
/// and nothing is changed. [`way`](crate::records::way) has the ways'; any number but 0 is the old way.
/// Word counts are the slices' lengths; [`tables`](crate::tables) has how many words a record is.
pub fn read(
    rule: u32,
    way: u32,
    source: &[u8],
    tokens: &mut [u32],
    errors: &mut [u32],
    nodes: &mut [u32],
    index: &mut [u32],
) -> Answer {
    // Each pointer and its length are one slice's, and the three tables and the index are lent alone.
    unsafe {
        kettleplume_read(
            rule,
            way,
            source.as_ptr(),
            source.len(),
            tokens.as_mut_ptr(),
            tokens.len(),
            errors.as_mut_ptr(),
            errors.len(),
            nodes.as_mut_ptr(),
            nodes.len(),
            index.as_mut_ptr(),
            index.len(),
        )
    }
}

/// Lexes a source into two tables, without parsing. The rule is as in [`read`].
pub fn scan(rule: u32, source: &[u8], tokens: &mut [u32], errors: &mut [u32]) -> Scanned {
    // As in `read`.
    unsafe {
        kettleplume_scan(
            rule,
            source.as_ptr(),
            source.len(),
            tokens.as_mut_ptr(),
            tokens.len(),
            errors.as_mut_ptr(),
            errors.len(),
        )
    }
}

/// Decodes the string whose opening quote stands at `start`. A refusal leaves the buffer as it was.
/// Strings are the same by both rules.
pub fn decode(source: &[u8], start: usize, buffer: &mut [u8]) -> Decoded {
    // As in `read`.
    unsafe {
        kettleplume_decode(
            source.as_ptr(),
            source.len(),
            start,
            buffer.as_mut_ptr(),
            buffer.len(),
        )
    }
}

impl Parser {
    /// A parser with which a reading is begun by a rule and on a way.
    pub fn new(options: Options) -> Parser {
        Parser {
            rule: options.rule.number(),
            way: options.way.number(),
            ..Parser::default()
        }
    }

    /// Lexes a source, whatever the parser was but for its rule and its way, and makes ready to read its
    /// statements: the newline index is written as by [`read`]. 19 says that there is one to read; 13,
    /// that the rule is none, and nothing is changed, not even the parser; any other answer is final.
    pub fn begin(
        &mut self,
        source: &[u8],
        tokens: &mut [u32],
        errors: &mut [u32],
        nodes: &mut [u32],
        index: &mut [u32],
    ) -> Answer {
        self.call(kettleplume_begin, source, tokens, errors, nodes, index)
    }

    /// Reads one top-level statement, over the source, the tables and the index as the last call left
    /// them. 19 says that there is another; 18, that parser, tables and index don't fit together, and 13,
    /// that the rule is none, and nothing is changed; any other answer is final, and is given again from
    /// then on.
    ///
    /// The index is not written. Any words in it get an answer: from a Newline the read goes on where the
    /// word leads, or at the Newline itself if that is back.
    // It is lent tables at each call, so it is no iterator.
    #[allow(clippy::should_implement_trait)]
    pub fn next(
        &mut self,
        source: &[u8],
        tokens: &mut [u32],
        errors: &mut [u32],
        nodes: &mut [u32],
        index: &mut [u32],
    ) -> Answer {
        self.call(kettleplume_next, source, tokens, errors, nodes, index)
    }

    fn call(
        &mut self,
        function: Lent,
        source: &[u8],
        tokens: &mut [u32],
        errors: &mut [u32],
        nodes: &mut [u32],
        index: &mut [u32],
    ) -> Answer {
        // As in `read`; the parser is lent alone too.
        unsafe {
            function(
                self,
                source.as_ptr(),
                source.len(),
                tokens.as_mut_ptr(),
                tokens.len(),
                errors.as_mut_ptr(),
                errors.len(),
                nodes.as_mut_ptr(),
                nodes.len(),
                index.as_mut_ptr(),
                index.len(),
            )
        }
    }
}

// A slice is two parameters, so there are many.
#[allow(clippy::too_many_arguments)]
extern "C" {
    fn kettleplume_read(
        rule: u32,
        way: u32,
        source: *const u8,
        length: usize,
        tokens: *mut u32,
        token_words: usize,
        errors: *mut u32,
        error_words: usize,
        nodes: *mut u32,
        node_words: usize,
        index: *mut u32,
        index_words: usize,
    ) -> Answer;
    fn kettleplume_scan(
        rule: u32,
        source: *const u8,
        length: usize,
        tokens: *mut u32,
        token_words: usize,
        errors: *mut u32,
        error_words: usize,
    ) -> Scanned;
    fn kettleplume_decode(
        source: *const u8,
        length: usize,
        start: usize,
        buffer: *mut u8,
        room: usize,
    ) -> Decoded;
    fn kettleplume_begin(
        parser: *mut Parser,
        source: *const u8,
        length: usize,
        tokens: *mut u32,
        token_words: usize,
        errors: *mut u32,
        error_words: usize,
        nodes: *mut u32,
        node_words: usize,
        index: *mut u32,
        index_words: usize,
    ) -> Answer;
    fn kettleplume_next(
        parser: *mut Parser,
        source: *const u8,
        length: usize,
        tokens: *mut u32,
        token_words: usize,
        errors: *mut u32,
        error_words: usize,
        nodes: *mut u32,
        node_words: usize,
        index: *mut u32,
        index_words: usize,
    ) -> Answer;
}

/// A call of the pair.
type Lent = unsafe extern "C" fn(
    *mut Parser,
    *const u8,
    usize,
    *mut u32,
    usize,
    *mut u32,
    usize,
    *mut u32,
    usize,
    *mut u32,
    usize,
) -> Answer;
