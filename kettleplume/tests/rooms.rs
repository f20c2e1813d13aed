//! `Rooms::enough` is enough: no reading ends for want of room.

mod common;

use kettleplume::border;
use kettleplume::records::{outcome, rule, way, ERROR_WORDS, INDEX_WORDS, NODE_WORDS, TOKEN_WORDS};
use kettleplume::{Error, Options, Rooms, Rule, Tables, Way, LONGEST};

/// Reads a source by each rule with tables of just the rooms that are said to be enough, on the way that
/// keeps more.
fn has_room(tables: &mut Tables, source: &[u8]) {
    for rule in [Rule::One, Rule::Two] {
        let way = Way::GoOn;
        let outcome = tables.read_as(Options { rule, way }, source).answer.outcome;
        let shown = source.escape_ascii();
        let full = matches!(
            outcome,
            outcome::TOKEN_ROOM | outcome::ERROR_ROOM | outcome::NODE_ROOM | outcome::BUFFER_ROOM
        );
        assert!(!full, "outcome {outcome} of {shown}");
    }
}

/// All sequences of so many pieces.
fn sequences(pieces: &[&str], length: u32, mut each: impl FnMut(&[u8])) -> usize {
    let (base, count) = (pieces.len(), pieces.len().pow(length));
    let mut source = vec![];
    for number in 0..count {
        source.clear();
        let mut rest = number;
        for _ in 0..length {
            source.extend_from_slice(pieces[rest % base].as_bytes());
            rest /= base;
        }
        each(&source);
    }
    count
}

#[test]
fn scripts_find_room() {
    let mut tables = Tables::new();
    for script in common::scripts() {
        has_room(&mut tables, script.as_bytes());
    }
}

/// Every byte that means something, and one that means nothing.
#[test]
fn short_sources_find_room() {
    let bytes = [
        "a", "1", "\"", "\\", "#", "\n", " ", "(", ")", "[", "]", "{", "}", ",", ".", "-", ":",
        ";", "=", "!", "<", "@",
    ];
    let mut tables = Tables::new();
    let mut count = 0;
    for length in 0..=4 {
        count += sequences(&bytes, length, |source| has_room(&mut tables, source));
    }
    assert_eq!(count, 1 + 22 + 22 * 22 + 22 * 22 * 22 + 22 * 22 * 22 * 22);
}

/// Tokens as close together as they can stand: each mark, and words that are the shortest of their
/// sort. So there are as many nodes and errors for a byte as can be.
#[test]
fn dense_sources_find_room() {
    let tokens = [
        "a ", "1", "\n", "(", "[", "{", "}", ".a", "-", ":", "=", "<", "fn ", "if ", "for ",
        "let ", "class ", "super",
    ];
    let mut tables = Tables::new();
    let mut count = 0;
    for length in 0..=4 {
        count += sequences(&tokens, length, |source| has_room(&mut tables, source));
    }
    assert_eq!(count, 1 + 18 + 18 * 18 + 18 * 18 * 18 + 18 * 18 * 18 * 18);
}

/// What has most of something for its length, as long as can be.
#[test]
fn long_sources_find_room() {
    let mut tables = Tables::new();
    for piece in [
        "a", "1a", "a\n", "(", "(1", "1(", "!", "\"\\q", "{}", "[]", "-", "a=", "a.b=1\n", "a()",
        "fn a()1", "class<", "for;1", "if 1", "1:", ".", "break ", "{1", "}",
    ] {
        let source = piece.repeat(LONGEST / piece.len());
        has_room(&mut tables, source.as_bytes());
    }
}

#[test]
fn newlines_find_room() {
    let mut tables = Tables::new();
    for count in (0..64).chain([4_000, LONGEST]) {
        has_room(&mut tables, "\n".repeat(count).as_bytes());
    }
}

/// The bounds for tokens and for the index are met wherever each byte is a token of its own, and one room
/// less is not enough.
#[test]
fn the_bound_for_tokens_is_met() {
    for source in ["a", "a1", "a1+[]"] {
        let rooms = Rooms::enough(source.len());
        let read = |tokens: usize, index: usize| {
            let mut tokens = vec![0; TOKEN_WORDS * tokens];
            let mut errors = vec![0; ERROR_WORDS * rooms.errors];
            let mut nodes = vec![0; NODE_WORDS * rooms.nodes];
            let mut index = vec![0; INDEX_WORDS * index];
            let source = source.as_bytes();
            border::read(
                rule::ONE,
                way::GO_ON,
                source,
                &mut tokens,
                &mut errors,
                &mut nodes,
                &mut index,
            )
        };
        let answer = read(rooms.tokens, rooms.index);
        assert_eq!(
            (answer.outcome, answer.tokens as usize),
            (outcome::DONE, rooms.tokens)
        );
        let shorter = [
            (rooms.tokens - 1, rooms.index, outcome::TOKEN_ROOM),
            (rooms.tokens, rooms.index - 1, outcome::BUFFER_ROOM),
        ];
        for (tokens, index, outcome) in shorter {
            assert_eq!(read(tokens, index).outcome, outcome);
        }
    }
}

#[test]
fn what_is_too_long_needs_no_room() {
    let none = Rooms {
        tokens: 0,
        errors: 0,
        nodes: 0,
        index: 0,
    };
    assert_eq!(Rooms::enough(LONGEST + 1), none);
    let script = kettleplume::read(vec![b'a'; LONGEST + 1]);
    assert_eq!(script.end, Err(Error::TooLong));
    assert_eq!(kettleplume::read(vec![b'a'; LONGEST]).end, Ok(()));
}
