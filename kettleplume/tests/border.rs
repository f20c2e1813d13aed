//! The border: each function over tables of many sizes that lie between guard words. What it answers
//! and every word that it leaves is what the original's reading comes to; nothing else is touched.

use std::ops::Range;

use expected::lexing::{expect, expect_decoding};
use expected::rules::WRONG;
use expected::whole::{self, known, Known, Rooms};
use kettleplume::border::{decode, read, scan, Answer, Decoded, Parser, Scanned};
use kettleplume::records::{outcome, rule, way, ERROR_WORDS, LONGEST, WIDTHS};

/// What stood in a table before.
const BEFORE: u32 = 0x5a5a_5a5a;
const GUARD: u32 = 0xfeed_face;
/// How many guard words stand on each side.
const GUARDS: usize = 16;

/// A table between guard words.
#[derive(Debug, Clone, PartialEq, Eq)]
struct Guarded {
    words: Vec<u32>,
    range: Range<usize>,
}

impl Guarded {
    fn new(length: usize) -> Guarded {
        let range = GUARDS..GUARDS + length;
        let mut words = vec![GUARD; length + 2 * GUARDS];
        words[range.clone()].fill(BEFORE);
        Guarded { words, range }
    }

    fn lent(&mut self) -> &mut [u32] {
        &mut self.words[self.range.clone()]
    }

    /// The guards are whole, the records stand first, and each word after them is `behind`.
    fn holds<const N: usize>(&self, records: &[[u32; N]], behind: u32) {
        let (before, after) = (&self.words[..GUARDS], &self.words[self.range.end..]);
        assert!(before.iter().chain(after).all(|&word| word == GUARD));
        let (kept, rest) = self.words[self.range.clone()].split_at(records.len() * N);
        assert_eq!(kept, records.as_flattened());
        assert!(rest.iter().all(|&word| word == behind), "{rest:x?}");
    }
}

/// Three tables of so many records, each with a spare tail shorter than one, and a newline index of so many
/// words.
#[derive(Debug, Clone, PartialEq, Eq)]
struct Lent {
    tokens: Guarded,
    errors: Guarded,
    nodes: Guarded,
    index: Guarded,
}

impl Lent {
    fn new(rooms: Rooms, spare: usize) -> Lent {
        let table = |at: usize| Guarded::new(rooms[at] * WIDTHS[at] + spare % WIDTHS[at]);
        let [tokens, errors, nodes, index] = [0, 1, 2, 3].map(table);
        Lent {
            tokens,
            errors,
            nodes,
            index,
        }
    }

    /// All four, as they are lent.
    fn lent(&mut self) -> [&mut [u32]; 4] {
        let Lent {
            tokens,
            errors,
            nodes,
            index,
        } = self;
        [tokens, errors, nodes, index].map(Guarded::lent)
    }

    /// They hold what is expected.
    fn holds(&self, expected: &whole::Answer) {
        self.tokens.holds(&expected.tokens, BEFORE);
        self.errors.holds(&expected.errors, BEFORE);
        self.nodes.holds(&expected.nodes, 0);
        self.index.holds(words(&expected.index), BEFORE);
    }

    fn read(&mut self, rule: u32, way: u32, source: &[u8]) -> Answer {
        let [tokens, errors, nodes, index] = self.lent();
        read(rule, way, source, tokens, errors, nodes, index)
    }

    fn scan(&mut self, rule: u32, source: &[u8]) -> Scanned {
        scan(rule, source, self.tokens.lent(), self.errors.lent())
    }

    fn begin(&mut self, parser: &mut Parser, source: &[u8]) -> Answer {
        let [tokens, errors, nodes, index] = self.lent();
        parser.begin(source, tokens, errors, nodes, index)
    }

    fn next(&mut self, parser: &mut Parser, source: &[u8]) -> Answer {
        let [tokens, errors, nodes, index] = self.lent();
        parser.next(source, tokens, errors, nodes, index)
    }
}

/// An index as records of one word.
fn words(index: &[u32]) -> &[[u32; 1]] {
    index.as_chunks().0
}

const RULES: [u32; 2] = [rule::ONE, rule::TWO];

/// Each number but 0 is the old way.
const ANY_WAYS: [u32; 4] = [way::STOP, way::GO_ON, 2, u32::MAX];

/// Scripts with all outcomes but 3, 4, 8 and 13; these come in tests of their own.
const SCRIPTS: [&str; 14] = [
    "",
    "\n",
    "a = 1\n",
    "a\n\nb 1",
    "! a @\n",
    "a 1.5",
    "a\n)\nb",
    "fn f(a) { return a }\n",
    "a.b[1:2] = \"x\\n\"\n",
    "class A < B { f() 1 }\n",
    "if a {} elif b {} else {}\n",
    "(a b",
    "a1 = b_2\n",
    "for a in b {}\nbreak\n",
];

/// Rooms around what a reading needs: none, one less of each, just enough, one more, and a mixture.
/// The index is mostly long enough, so that the others are met.
fn rooms(needs: Rooms) -> Vec<Rooms> {
    let choices = needs.map(|n| [0, 1, n / 2, n.saturating_sub(1), n, n + 1]);
    let [tokens, errors, nodes, index] = needs;
    let mut all = vec![];
    for tokens in choices[0] {
        for errors in choices[1] {
            all.extend(choices[2].map(|nodes| [tokens, errors, nodes, index]));
        }
    }
    for index in choices[3].into_iter().chain([index + 3]) {
        all.push([tokens, errors, nodes, index]);
        all.push([tokens, 0, 0, index]);
        all.push([tokens.saturating_sub(1), errors, nodes, index]);
    }
    all.sort();
    all.dedup();
    all
}

/// A script by a rule, in tables with these rooms and a spare tail.
struct Tried<'a> {
    rule: u32,
    script: &'a str,
    whole: &'a whole::Whole,
    rooms: Rooms,
    spare: usize,
}

/// Runs a test over each script by each rule, with rooms and spare tails of many sizes, and tells how
/// often.
fn over_tables(mut one: impl FnMut(Tried)) -> usize {
    let mut count = 0;
    for (script, rule) in SCRIPTS.into_iter().flat_map(|s| RULES.map(|r| (s, r))) {
        let Known::Read(whole) = known(rule, script.as_bytes()) else {
            panic!("{script:?} is read");
        };
        for (spare, rooms) in rooms(whole.needs()).into_iter().enumerate() {
            for spare in [0, spare] {
                one(Tried {
                    rule,
                    script,
                    whole: &whole,
                    rooms,
                    spare,
                });
                count += 1;
            }
        }
    }
    count
}

fn counts(answer: &whole::Answer) -> Answer {
    Answer {
        outcome: answer.outcome,
        tokens: answer.tokens.len() as u32,
        errors: answer.errors.len() as u32,
        nodes: answer.nodes.len() as u32,
        first: answer.first,
        looks: answer.looks,
    }
}

#[test]
fn whole_readings() {
    let mut outcomes = [0; 12];
    let count = over_tables(|tried| {
        let Tried {
            rule,
            script,
            whole,
            rooms,
            spare,
        } = tried;
        for way in ANY_WAYS {
            let expected = whole.on(way, rooms);
            let mut lent = Lent::new(rooms, spare);
            let answer = lent.read(rule, way, script.as_bytes());
            assert_eq!(answer, counts(&expected), "{script:?} in {rooms:?}");
            lent.holds(&expected);
            outcomes[answer.outcome as usize] += 1;
        }
    });
    assert!(count > 1_000, "{count}");
    for outcome in [0, 1, 2, 5, 6, 7, 10, 11] {
        assert!(outcomes[outcome] > 5, "{outcomes:?}");
    }
}

/// Statement by statement, the answers and tables come to those of the whole reading, and asking
/// further changes nothing.
#[test]
fn statement_by_statement() {
    let (mut statements, mut stopped) = (0, 0);
    over_tables(|tried| {
        let Tried {
            rule,
            script,
            whole: expected,
            rooms,
            spare,
        } = tried;
        for way in ANY_WAYS {
            let source = script.as_bytes();
            let (mut at_once, mut lent) = (Lent::new(rooms, spare), Lent::new(rooms, spare));
            let whole = at_once.read(rule, way, source);
            // Whatever else the parser was.
            let mut parser = Parser {
                rule,
                way,
                current: 7,
                ended: 1,
                looks: 77,
                ..Parser::default()
            };
            let mut answer = lent.begin(&mut parser, source);
            let mut so_far = vec![];
            while answer.outcome == outcome::MORE {
                assert_eq!(parser.looks, answer.looks);
                so_far.push([answer.errors, answer.nodes, answer.looks]);
                answer = lent.next(&mut parser, source);
                statements += 1;
            }
            assert_eq!(so_far, expected.on(way, rooms).so_far);
            let left = (answer, lent.clone(), parser);
            assert_eq!(
                (answer, &lent),
                (whole, &at_once),
                "{script:?} in {rooms:?}"
            );
            assert_eq!(lent.next(&mut parser, source), answer);
            assert_eq!((answer, lent, parser), left);
            assert_eq!((parser.rule, parser.way), (rule, way));
            assert_eq!(
                (parser.outcome, parser.looks),
                (answer.outcome, answer.looks)
            );
            stopped += usize::from(answer.outcome == outcome::NOT_PARSED);
        }
    });
    assert!(statements > 500 && stopped > 20, "{statements} {stopped}");
}

/// A parser that doesn't fit its tables: nothing is changed.
#[test]
fn a_parser_of_other_tables() {
    let (mut lent, mut parser) = (Lent::new([5, 1, 9, 5], 2), Parser::default());
    let refused = Answer {
        outcome: outcome::MISMATCH,
        ..Answer::default()
    };
    let before = (lent.clone(), parser);
    assert_eq!(lent.next(&mut parser, b"a = 1\n"), refused);
    assert_eq!((lent, parser), before);
    let mut lent = Lent::new([0; 4], 0);
    assert_eq!(lent.next(&mut parser, b"a = 1\n"), refused);
    assert_eq!(lent, Lent::new([0; 4], 0));
}

#[test]
fn lexings() {
    let count = over_tables(|tried| {
        let Tried {
            rule,
            script,
            rooms,
            spare,
            ..
        } = tried;
        let (lexing, _) = expect(rule, script.as_bytes());
        let expected = lexing.within(rooms[0], rooms[1]);
        let mut lent = Lent::new(rooms, spare);
        let answer = lent.scan(rule, script.as_bytes());
        let counts = [answer.tokens as usize, answer.errors as usize];
        assert_eq!(answer.outcome, expected.outcome, "{script:?} in {rooms:?}");
        assert_eq!(counts, [expected.tokens.len(), expected.errors.len()]);
        lent.tokens.holds(&expected.tokens, BEFORE);
        lent.errors.holds(&expected.errors, BEFORE);
    });
    assert!(count > 1_000, "{count}");
}

/// What is refused for its bytes or its length changes no word.
#[test]
fn refused_sources() {
    for (source, outcome) in [
        (vec![0x80], outcome::NO_TEXT),
        (b"a = 1\n\xc3".to_vec(), outcome::NO_TEXT),
        // What a scanner delivered once: a surrogate, in a comment.
        (b"\"a\" # \xed\xa0\x80\n".to_vec(), outcome::NO_TEXT),
        (vec![b'a'; LONGEST + 1], outcome::TOO_LONG),
        (vec![0xff; LONGEST + 2], outcome::TOO_LONG),
    ] {
        let refused = Answer {
            outcome,
            ..Answer::default()
        };
        for rooms in [[0; 4], [3; 4]] {
            let before = Lent::new(rooms, 1);
            let mut lent = before.clone();
            for (rule, way) in RULES.into_iter().flat_map(|r| ANY_WAYS.map(|w| (r, w))) {
                assert_eq!(lent.read(rule, way, &source), refused);
                let mut parser = Parser {
                    rule,
                    way,
                    ..Parser::default()
                };
                assert_eq!(lent.begin(&mut parser, &source), refused);
                assert_eq!(lent.next(&mut parser, &source), refused);
                let answer = lent.scan(rule, &source);
                assert_eq!(
                    (answer.outcome, answer.tokens, answer.errors),
                    (outcome, 0, 0)
                );
            }
            assert_eq!(lent, before);
        }
        let mut buffer = [0xa5; 4];
        let length = 0;
        assert_eq!(decode(&source, 0, &mut buffer), Decoded { outcome, length });
        assert_eq!(buffer, [0xa5; 4]);
    }
}

/// A number that names no rule: 13, before what the source would be refused for, and no word changes, in
/// the parser neither.
#[test]
fn numbers_that_name_no_rule() {
    let refused = Answer {
        outcome: outcome::WRONG_RULE,
        ..Answer::default()
    };
    let sources = [
        b"a1 = 1.".to_vec(),
        vec![],
        b"a\xff".to_vec(),
        vec![b'a'; LONGEST + 1],
    ];
    for (source, rule) in sources.iter().flat_map(|s| WRONG.map(|r| (s, r))) {
        for rooms in [[0; 4], [9; 4]] {
            let before = Lent::new(rooms, 1);
            let mut lent = before.clone();
            for way in ANY_WAYS {
                assert_eq!(lent.read(rule, way, source), refused);
                let any = Parser {
                    rule,
                    way,
                    current: 1,
                    loops: 2,
                    tokens: 3,
                    errors: 4,
                    nodes: 5,
                    first: 6,
                    last: 7,
                    ended: way % 2,
                    outcome: 9,
                    looks: 10,
                };
                let mut parser = any;
                assert_eq!(lent.begin(&mut parser, source), refused);
                assert_eq!(parser, any);
            }
            let answer = lent.scan(rule, source);
            assert_eq!(
                (answer.outcome, answer.tokens, answer.errors),
                (outcome::WRONG_RULE, 0, 0)
            );
            assert_eq!(lent, before);
        }
    }
}

/// A read asks first for the final answer, then whether parser and tables fit together, then for the rule;
/// with its rule set right again the reading goes on.
#[test]
fn a_rule_that_is_changed_between_calls() {
    let source = b"a = 1\nb\n";
    let with = |outcome| Answer {
        outcome,
        ..Answer::default()
    };
    for rule in WRONG {
        let (mut at_once, mut lent) = (Lent::new([9, 1, 9, 9], 2), Lent::new([9, 1, 9, 9], 2));
        let whole = at_once.read(rule::TWO, way::STOP, source);
        let mut parser = Parser {
            rule: rule::TWO,
            ..Parser::default()
        };
        assert_eq!(lent.begin(&mut parser, source).outcome, outcome::MORE);
        let mut wrong = Parser { rule, ..parser };
        let before = (lent.clone(), wrong);
        assert_eq!(lent.next(&mut wrong, source), with(outcome::WRONG_RULE));
        // 18 comes before 13.
        let mut both = Parser {
            current: 99,
            ..wrong
        };
        assert_eq!(lent.next(&mut both, source), with(outcome::MISMATCH));
        assert_eq!(
            both,
            Parser {
                current: 99,
                ..wrong
            }
        );
        // Nor does a call to begin do anything.
        assert_eq!(lent.begin(&mut wrong, source), with(outcome::WRONG_RULE));
        assert_eq!((lent.clone(), wrong), before);

        while lent.next(&mut parser, source).outcome == outcome::MORE {}
        assert_eq!(lent, at_once);
        // The final answer comes before both.
        let mut ended = Parser { rule, ..parser };
        assert_eq!(lent.next(&mut ended, source), whole);
        assert_eq!((ended, &lent), (Parser { rule, ..parser }, &at_once));
    }
}

/// Too many levels: the statements before are kept, in tables that have room for more.
#[test]
fn too_many_levels() {
    let script = "a\n".to_string() + &"{".repeat(129);
    let mut lent = Lent::new([200, 9, 300, 140], 4);
    let answer = lent.read(rule::ONE, way::STOP, script.as_bytes());
    let kept = [answer.outcome, answer.errors, answer.nodes, answer.first];
    assert_eq!(kept, [8, 0, 2, 2]);
    // The first statement's, and twelve for each level.
    assert_eq!(answer.looks, 38 + 128 * 12);
    let nodes = [[2, 1, 0, 0, 0, 0, 0, 0, 0], [30, 1, 0, 0, 1, 0, 0, 0, 0]];
    lent.nodes.holds(&nodes, 0);
    // The index of all tokens, of which the second and the last but one are Newlines.
    let mut index: Vec<[u32; 1]> = (1..=answer.tokens).map(|word| [word]).collect();
    (index[1], index[131]) = ([3], [133]);
    lent.index.holds(&index, BEFORE);
}

/// Strings decoded into buffers of many lengths, between guard bytes.
#[test]
fn decodings() {
    let sources = [
        "\"\"",
        "\"a\\n\\t\\\\\\\"\"",
        "a \"é\nb\" c",
        "\"never closed",
        "\"\\q\"",
        "a",
        "",
    ];
    let mut outcomes = [0; 11];
    for source in sources {
        for start in 0..source.len() + 2 {
            for room in 0..8 {
                let expected = expect_decoding(source.as_bytes(), start as u64, room);
                let mut bytes = [0xa5; 24];
                let answer = decode(source.as_bytes(), start, &mut bytes[8..8 + room]);
                let length = expected.bytes.len();
                let outcome = expected.outcome;
                assert_eq!(answer, Decoded { outcome, length }, "{source:?} at {start}");
                assert_eq!(bytes[8..8 + length], expected.bytes);
                let rest = bytes[..8].iter().chain(&bytes[8 + length..]);
                assert!(rest.into_iter().all(|&byte| byte == 0xa5));
                outcomes[outcome as usize] += 1;
            }
        }
    }
    for outcome in [0, 9, 10] {
        assert!(outcomes[outcome] > 5, "{outcomes:?}");
    }
}

/// The worked example of `docs/RULES.md`, 'Outline', word for word.
#[test]
fn worked_example() {
    let mut lent = Lent::new([10; 4], 0);
    let answer = lent.read(rule::ONE, way::STOP, b"a = 1\n");
    let expected = Answer {
        outcome: 0,
        tokens: 5,
        errors: 0,
        nodes: 4,
        first: 4,
        looks: 59,
    };
    assert_eq!(answer, expected);
    let one = 1f64.to_bits();
    lent.tokens.holds(
        &[
            [25, 0, 1, 1, 0, 0, 0, 1],
            [19, 2, 1, 1, 0, 0, 0, 1],
            [27, 4, 1, 1, 2, one as u32, (one >> 32) as u32, 1],
            [1, 5, 1, 2, 0, 0, 0, 1],
            [0, 6, 0, 2, 0, 0, 0, 2],
        ],
        BEFORE,
    );
    lent.errors.holds::<ERROR_WORDS>(&[], BEFORE);
    lent.nodes.holds(
        &[
            [2, 1, 0, 0, 0, 0, 0, 0, 0],
            [13, 3, 0, 0, 0, 0, 0, 0, 0],
            [5, 1, 0, 0, 2, 0, 0, 0, 0],
            [30, 3, 0, 0, 3, 0, 0, 0, 0],
        ],
        0,
    );
    lent.index.holds(&[[1], [2], [3], [5], [5]], BEFORE);
}
