//! Times of one input. All that is compared is timed in turn, round after round, and of each the
//! least time counts: what else goes on in the machine only adds to it.

use std::hint::black_box;
use std::time::Instant;

use crate::inputs::Input;
use crate::original::Parts;
use crate::ours::{Library, Reader, SameText, Tables};

/// How long the original is timed for each input, in nanoseconds, if two rounds don't take longer.
const ORIGINAL: f64 = 1.5e9;
const ROUNDS: (f64, f64) = (2.0, 60.0);

/// Samples of ours, which are short, in all rounds together; fewer where they would take too long.
const SAMPLES: (f64, f64) = (10.0, 300.0);
const OURS: f64 = 2e9;

/// A sample is this long at least, so that reading the clock doesn't count.
const SAMPLE: f64 = 2e5;

/// Nanoseconds of a reader of ours.
#[derive(Clone, Copy)]
pub struct Ours {
    pub lexing: f64,
    /// The whole, in tables with nothing to zero.
    pub needed: f64,
    /// The whole, in tables with room for any script of that length.
    pub enough: f64,
}

impl Ours {
    const NEVER: Ours = Ours {
        lexing: f64::INFINITY,
        needed: f64::INFINITY,
        enough: f64::INFINITY,
    };

    /// Parsing alone can't be called: it is the whole without the lexing.
    pub fn parsing(&self) -> f64 {
        self.needed - self.lexing
    }
}

pub struct Times {
    pub name: String,
    pub bytes: f64,
    pub tokens: f64,
    /// None where it takes too long.
    pub original: Option<Parts>,
    pub library: Ours,
    pub same_text: Ours,
    /// A plain scan over the same bytes.
    pub plain: f64,
}

impl Times {
    pub fn of(input: &Input) -> Times {
        let mut work = Work::new(input);
        let mut original = input.by_original.then(|| Parts::of(&input.scripts));
        let rounds = original.map_or(ROUNDS.1, |parts| ORIGINAL / parts.whole);
        let rounds = rounds.clamp(ROUNDS.0, ROUNDS.1) as usize;
        let (mut library, mut same_text, mut plain) = (Ours::NEVER, Ours::NEVER, f64::INFINITY);
        for _ in 0..rounds {
            original = original.map(|parts| parts.least(Parts::of(&input.scripts)));
            for _ in 0..work.samples.div_ceil(rounds) {
                work.sample::<Library>(&mut library);
                work.sample::<SameText>(&mut same_text);
                plain = plain.min(work.lexed(|script, _| plain_scan(script)));
            }
        }
        Times {
            name: input.name.clone(),
            bytes: input.bytes() as f64,
            tokens: work.tokens,
            original,
            library,
            same_text,
            plain,
        }
    }
}

/// The scripts of an input, with their tables, and how often each is read in a sample.
struct Work<'a> {
    scripts: &'a [String],
    needed: Vec<Tables>,
    enough: Vec<Tables>,
    tokens: f64,
    lexings: usize,
    readings: usize,
    samples: usize,
}

impl<'a> Work<'a> {
    fn new(input: &'a Input) -> Work<'a> {
        let scripts = &input.scripts;
        let mut work = Work {
            scripts,
            needed: scripts.iter().map(|s| Tables::needed(s)).collect(),
            enough: scripts.iter().map(|s| Tables::enough(s)).collect(),
            tokens: 0.0,
            lexings: 1,
            readings: 1,
            samples: 0,
        };
        work.measure();
        work
    }

    /// Tries how long ours takes.
    fn measure(&mut self) {
        let mut tokens = 0;
        let lexing = self.lexed(|script, tables| tokens += tables.scan::<Library>(script)[1]);
        let tables = self.scripts.iter().zip(&mut self.enough);
        let reading = timed(1, tables, |script, tables| tables.read::<Library>(script));
        self.tokens = tokens.into();
        self.lexings = (SAMPLE / lexing).max(1.0) as usize;
        self.readings = (SAMPLE / reading).max(1.0) as usize;
        let (least, most) = SAMPLES;
        // Four readings in each, two lexings and the plain scan.
        let sample = 4.0 * reading.max(SAMPLE) + 3.0 * lexing.max(SAMPLE);
        self.samples = (OURS / sample).clamp(least, most) as usize;
    }

    fn lexed<T>(&mut self, one: impl FnMut(&str, &mut Tables) -> T) -> f64 {
        timed(self.lexings, self.scripts.iter().zip(&mut self.needed), one)
    }

    fn sample<R: Reader>(&mut self, least: &mut Ours) {
        let lexing = self.lexed(|script, tables| tables.scan::<R>(script));
        let [needed, enough] = [&mut self.needed, &mut self.enough].map(|tables| {
            let tables = self.scripts.iter().zip(tables);
            timed(self.readings, tables, |script, tables| {
                tables.read::<R>(script)
            })
        });
        *least = Ours {
            lexing: lexing.min(least.lexing),
            needed: needed.min(least.needed),
            enough: enough.min(least.enough),
        };
    }
}

/// What it takes to do something for each script, on an average of some turns.
fn timed<'a, T>(
    turns: usize,
    scripts: impl Iterator<Item = (&'a String, &'a mut Tables)>,
    mut one: impl FnMut(&str, &mut Tables) -> T,
) -> f64 {
    let mut scripts: Vec<_> = scripts.collect();
    let start = Instant::now();
    for _ in 0..turns {
        for (script, tables) in &mut scripts {
            black_box(one(black_box(script), tables));
        }
    }
    start.elapsed().as_nanos() as f64 / turns as f64
}

/// The yardstick: the sum of all bytes, taken one at a time. Each byte passes through a place that
/// the compiler can't see into, so that it doesn't take many at once.
#[inline(never)]
fn plain_scan(script: &str) -> u64 {
    let mut sum = 0;
    for &byte in script.as_bytes() {
        sum += u64::from(black_box(byte));
    }
    sum
}
