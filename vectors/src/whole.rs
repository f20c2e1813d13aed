//! Vectors for the Rattle program that replays whole readings: scripts with tables of given sizes,
//! and what the whole reading makes of them, every word of each table included.

use std::fmt::Write as _;

use expected::dice::Dice;
use expected::maker::Maker;
use expected::records::{rule, way, WIDTHS};
use expected::scripts::{
    around, bytes, ruled, INDEXED, LISTED, MISLEXED, MISLEXED_SMALL, RULED_SMALL, SMALL, WAYS,
};
use expected::whole::{known, with_index, Answer, Known, Rooms};
use oracle::on_large_stack;

use crate::files::{made_by, File};
use crate::folders::REPLAY_WHOLE;

/// The size of the program's input buffer, and that of its tables in words.
const INPUT: usize = 262_144;
const TABLE: usize = 4_096;

/// Each word of a table before a reading.
const FILL: u32 = 7;

/// Numbers that name no rule; the last is the largest that an input can give.
const NO_RULE: [u32; 3] = [0, 3, 99_999];

/// So many random scripts by each rule, with this seed.
const RANDOM: usize = 60;
const SEED: u64 = 0x7265_7265_6164_7321;

/// The program's input and what it has to write.
#[derive(Default)]
pub struct Vectors {
    pub stdin: Vec<u8>,
    pub stdout: String,
    pub count: usize,
    /// The outcomes that occur, for a test.
    pub outcomes: Vec<u32>,
}

/// All vectors. The first script says where they come from.
pub fn vectors() -> Vectors {
    // The trees are as deep as the scripts.
    on_large_stack(|| {
        let mut vectors = Vectors::default();
        vectors.exact(rule::ONE, format!("# {}\n", made_by()).as_bytes());
        vectors.listed();
        vectors.small();
        vectors.mislexed();
        vectors.indexed();
        vectors.levels();
        vectors.ruled();
        vectors.no_rule();
        vectors.random();
        vectors
    })
}

impl Vectors {
    /// Scripts that each show something, in tables of just the size.
    fn listed(&mut self) {
        for text in LISTED.into_iter().flatten() {
            self.exact(rule::ONE, text.as_bytes());
        }
    }

    /// Tables that are too small, some of them with a spare tail.
    fn small(&mut self) {
        for (rule, scripts) in [(rule::ONE, SMALL), (rule::TWO, RULED_SMALL)] {
            for (at, (text, _, rooms, _)) in scripts.iter().enumerate() {
                let tails = WIDTHS.map(|width| at % width);
                self.add(rule, &bytes(text), with_index(*rooms), tails);
            }
        }
    }

    /// Newline indices that are too short, or just not.
    fn indexed(&mut self) {
        for (text, _, rooms, _) in INDEXED {
            for rule in [rule::ONE, rule::TWO] {
                self.add(rule, text.as_bytes(), *rooms, [0; 4]);
            }
        }
    }

    /// What the rules differ in, or might, by both.
    fn ruled(&mut self) {
        for text in ruled() {
            for rule in [rule::ONE, rule::TWO] {
                self.exact(rule, &bytes(&text));
            }
        }
    }

    /// Numbers that name no rule, with scripts that would end in several ways, the last with 3.
    fn no_rule(&mut self) {
        for rule in NO_RULE {
            for source in [&b""[..], b"a1", b"1.5", b"a $", b"\xff"] {
                self.add(rule, source, [3; 4], [1, 2, 8, 0]);
                self.add(rule, source, [0; 4], [0; 4]);
            }
        }
    }

    /// What the ways differ in, and the largest number that an input can give for one.
    fn mislexed(&mut self) {
        let rule = rule::ONE;
        for text in MISLEXED.iter().map(|text| text.as_bytes()) {
            self.exact(rule, text);
            self.on(rule, 99_999, text, [9; 4], [1, 1, 1, 0]);
        }
        for (at, (text, _, rooms, _)) in MISLEXED_SMALL.iter().enumerate() {
            let tails = WIDTHS.map(|width| at % width);
            self.add(rule, text.as_bytes(), with_index(*rooms), tails);
        }
    }

    /// The most levels that are read, and one more.
    fn levels(&mut self) {
        for &(open, most, inner, close) in &WAYS[..2] {
            for count in [most, most + 1] {
                self.exact(rule::ONE, around(open, count, inner, close).as_bytes());
            }
        }
    }

    /// Random scripts, each with room enough and with less.
    fn random(&mut self) {
        let mut maker = Maker {
            dice: Dice::new(SEED),
        };
        for at in 0..2 * RANDOM {
            let rule = [rule::ONE, rule::TWO][at % 2];
            let text = maker.text();
            let Known::Read(whole) = known(rule, text.as_bytes()) else {
                continue;
            };
            let needs = whole.needs();
            if (0..needs.len()).any(|table| WIDTHS[table] * (needs[table] + 1) > TABLE) {
                continue;
            }
            self.add(rule, text.as_bytes(), needs, [0; 4]);
            let mut fewer = needs.map(|room| room + 1 - maker.roll(room.min(3) + 1));
            // Too short an index keeps the rest from being met, so that is seldom.
            fewer[3] = (needs[3] + maker.roll(8)).saturating_sub(1);
            let tails = WIDTHS.map(|width| maker.roll(width));
            self.add(rule, text.as_bytes(), fewer, tails);
        }
    }

    /// A script in tables that just hold what it makes.
    fn exact(&mut self, rule: u32, source: &[u8]) {
        let Known::Read(whole) = known(rule, source) else {
            panic!("a Rust string that isn't too long is read");
        };
        self.add(rule, source, whole.needs(), [0; 4]);
    }

    /// A script in tables with rooms and spare tails, on both ways.
    fn add(&mut self, rule: u32, source: &[u8], rooms: Rooms, tails: [usize; 4]) {
        for way in [way::GO_ON, way::STOP] {
            self.on(rule, way, source, rooms, tails);
        }
    }

    fn on(&mut self, rule: u32, way: u32, source: &[u8], rooms: Rooms, tails: [usize; 4]) {
        let sizes = [0, 1, 2, 3].map(|table| WIDTHS[table] * rooms[table] + tails[table]);
        assert!(sizes.iter().all(|&size| size <= TABLE), "too large a table");
        let refused = |outcome| Answer {
            outcome,
            ..Answer::default()
        };
        let (answer, behind) = match known(rule, source) {
            Known::Read(whole) => (whole.on(way, rooms), 0),
            Known::Refused(outcome) => (refused(outcome), FILL),
        };
        let ([t, e, n, x], length) = (sizes, source.len());
        let head = format!("{length:05} {rule:05} {way:05} {t:05} {e:05} {n:05} {x:05}\n");
        self.stdin.extend(head.bytes());
        self.stdin.extend(source);
        self.stdin.push(b'\n');
        self.write(&answer, sizes, behind);
        self.count += 1;
        self.outcomes.push(answer.outcome);
    }

    /// The answer, then every word of each table.
    fn write(&mut self, answer: &Answer, [t, e, n, x]: [usize; 4], behind: u32) {
        let Answer {
            outcome,
            tokens,
            errors,
            nodes,
            index,
            first,
            looks,
            ..
        } = answer;
        let counts = [tokens.len(), errors.len(), nodes.len()].map(|n| n as u32);
        let [token_count, error_count, node_count] = counts;
        let head = [
            *outcome,
            token_count,
            error_count,
            node_count,
            *first,
            *looks,
        ];
        self.line('o', &head, head.len(), 0);
        self.line('t', tokens.as_flattened(), t, FILL);
        self.line('e', errors.as_flattened(), e, FILL);
        self.line('n', nodes.as_flattened(), n, behind);
        self.line('x', index, x, FILL);
    }

    /// A letter and so many words: these, and then one word over and over.
    fn line(&mut self, letter: char, words: &[u32], size: usize, behind: u32) {
        self.stdout.push(letter);
        let words = words.iter().copied().chain(std::iter::repeat(behind));
        for word in words.take(size) {
            write!(self.stdout, " {word}").expect("a string takes every word");
        }
        self.stdout.push('\n');
    }

    /// Both files of the program.
    pub fn files(self) -> Vec<File> {
        assert!(self.stdin.len() <= INPUT, "too long an input");
        vec![
            File::of(REPLAY_WHOLE, "stdin", self.stdin),
            File::of(REPLAY_WHOLE, "stdout", self.stdout),
        ]
    }
}
