//! The newline index: what it holds afterwards, and outcome 10, where it has too little room.

use expected::scripts::INDEXED;
use kettleplume::border::{self, Answer, Parser};
use kettleplume::records::{outcome, rule, way, ERROR_WORDS, LONGEST, NODE_WORDS, TOKEN_WORDS};
use kettleplume::{read, Error, Options, Tables};

/// What stands in each table before.
const BEFORE: u32 = 0xabcd_ef01;

/// Tables for short scripts, and an index of some words.
#[derive(Debug, Clone, PartialEq)]
struct Lent {
    tokens: [u32; TOKEN_WORDS * 9],
    errors: [u32; ERROR_WORDS * 9],
    nodes: [u32; NODE_WORDS * 18],
    index: Vec<u32>,
}

impl Lent {
    fn new(index: usize) -> Lent {
        Lent {
            tokens: [BEFORE; TOKEN_WORDS * 9],
            errors: [BEFORE; ERROR_WORDS * 9],
            nodes: [BEFORE; NODE_WORDS * 18],
            index: vec![BEFORE; index],
        }
    }

    fn read(&mut self, way: u32, source: &str) -> Answer {
        border::read(
            rule::ONE,
            way,
            source.as_bytes(),
            &mut self.tokens,
            &mut self.errors,
            &mut self.nodes,
            &mut self.index,
        )
    }

    fn begin(&mut self, parser: &mut Parser, source: &str) -> Answer {
        parser.begin(
            source.as_bytes(),
            &mut self.tokens,
            &mut self.errors,
            &mut self.nodes,
            &mut self.index,
        )
    }

    fn next(&mut self, parser: &mut Parser, source: &str) -> Answer {
        parser.next(
            source.as_bytes(),
            &mut self.tokens,
            &mut self.errors,
            &mut self.nodes,
            &mut self.index,
        )
    }
}

fn numbers(answer: Answer) -> [u32; 6] {
    let Answer {
        outcome,
        tokens,
        errors,
        nodes,
        first,
        looks,
    } = answer;
    [outcome, tokens, errors, nodes, first, looks]
}

#[test]
fn words_of_some_scripts() {
    for (script, words) in [
        ("", &[1][..]),
        ("a\n", &[1, 3, 3]),
        ("a\n\nb", &[1, 4, 4, 4, 6, 6]),
        ("\n\n\n", &[4; 4]),
        (")\n\na", &[1, 4, 4, 4, 6, 6]),
    ] {
        let mut lent = Lent::new(9);
        lent.read(way::STOP, script);
        let (written, behind) = lent.index.split_at(words.len());
        assert_eq!(written, words, "{script:?}");
        assert!(behind.iter().all(|&word| word == BEFORE), "{script:?}");
    }
}

/// One word too few, just enough, and none after an error of the lexer: 11 comes before 10.
#[test]
fn too_short_an_index() {
    for (script, way, words, expected) in [
        ("a\n", way::STOP, 2, [10, 3, 0, 0, 0, 0]),
        ("a\n", way::STOP, 3, [0, 3, 0, 2, 2, 38]),
        ("a\n", way::GO_ON, 2, [10, 3, 0, 0, 0, 0]),
        ("a @\n", way::STOP, 0, [11, 3, 1, 0, 0, 0]),
        ("a @\n", way::GO_ON, 0, [10, 3, 1, 0, 0, 0]),
    ] {
        let mut lent = Lent::new(words);
        assert_eq!(numbers(lent.read(way, script)), expected, "{script:?}");
        if expected[0] == 0 {
            assert_eq!(lent.index, [1, 3, 3]);
            continue;
        }
        // What lexing left, a node table of zeros, and the index as it was.
        let mut lexed = Lent::new(words);
        let source = script.as_bytes();
        border::scan(rule::ONE, source, &mut lexed.tokens, &mut lexed.errors);
        lexed.nodes.fill(0);
        assert_eq!(lent, lexed, "{script:?}");
    }
    assert_eq!(Error::of(10), Some(Error::BufferRoom));
}

/// For a reading one statement at a time 10 is a final answer.
#[test]
fn too_short_an_index_for_the_pair() {
    let (mut lent, mut parser) = (Lent::new(2), Parser::new(Options::default()));
    let answer = lent.begin(&mut parser, "a\n");
    assert_eq!(numbers(answer), [10, 3, 0, 0, 0, 0]);
    assert_eq!((parser.ended, parser.outcome), (1, outcome::BUFFER_ROOM));
    let left = (parser, lent.clone());
    // Also where it is lent a longer one then.
    lent.index = vec![BEFORE; 5];
    assert_eq!(lent.next(&mut parser, "a\n"), answer);
    assert_eq!(lent.index, [BEFORE; 5]);
    lent.index.truncate(2);
    assert_eq!((parser, lent), left);
}

/// A read is refused where the tokens are more than the index that it is lent has words, and leaves it as
/// it is in any case.
#[test]
fn what_a_read_does_with_it() {
    let script = "a\n\nb";
    let (mut lent, mut parser) = (Lent::new(6), Parser::new(Options::default()));
    assert_eq!(lent.begin(&mut parser, script).outcome, outcome::MORE);
    let whole = lent.index.clone();
    assert_eq!(whole, [1, 4, 4, 4, 6, 6]);
    lent.index.pop();
    let before = (lent.clone(), parser);
    let refused = lent.next(&mut parser, script);
    assert_eq!(numbers(refused), [outcome::MISMATCH, 0, 0, 0, 0, 0]);
    assert_eq!((lent.clone(), parser), before);
    lent.index = whole.clone();
    while lent.next(&mut parser, script).outcome == outcome::MORE {
        assert_eq!(lent.index, whole);
    }
    assert_eq!((parser.outcome, parser.looks), (outcome::DONE, 76));
    assert_eq!(lent.index, whole);
}

/// The listed rooms, through the border: what isn't named has room enough.
#[test]
fn listed_rooms() {
    for &(script, outcomes, [tokens, errors, nodes, words], kept) in INDEXED {
        for (at, way) in [way::STOP, way::GO_ON].into_iter().enumerate() {
            let mut tables = [
                vec![BEFORE; TOKEN_WORDS * tokens],
                vec![BEFORE; ERROR_WORDS * errors],
                vec![BEFORE; NODE_WORDS * nodes],
                vec![BEFORE; words],
            ];
            let [tokens, errors, nodes, index] = tables.each_mut().map(Vec::as_mut_slice);
            let source = script.as_bytes();
            let answer = border::read(rule::ONE, way, source, tokens, errors, nodes, index);
            assert_eq!(answer.outcome, outcomes[at], "{script:?}");
            let counts = [answer.tokens as usize, answer.errors as usize];
            assert_eq!(counts, kept[at][..2], "{script:?}");
        }
    }
}

/// Blank lines are passed at once, so that these take a moment and not minutes.
#[test]
fn very_many_blank_lines() {
    let trailing = "a = 1\n".to_string() + &"\n".repeat(LONGEST - 6);
    let between = ["a", "b", "c"].join(&"\n".repeat(21_000));
    for script in ["\n".repeat(LONGEST), trailing, between] {
        for options in [Options::default(), Options::ORIGINAL] {
            let answer = Tables::new().read_as(options, script.as_bytes()).answer;
            assert_eq!(answer.outcome, outcome::DONE);
        }
    }
    let script = read("a\n".to_string() + &"\n".repeat(60_000) + "b\n");
    assert_eq!(
        (script.end, script.stmts.len(), script.looks),
        (Ok(()), 2, 76)
    );
}
