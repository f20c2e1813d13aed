//! The differential test: the Rattle library, through its C border, against the original Rust.
//!
//! `cargo test -p differential` compares a sample, `cargo run --release -p differential -- lex
//! COUNT SEED` as many lexings as are wanted, with `read` whole readings, with `text` the text test.
//! Each script is tried by both rules; rule two has the original with that rule's lines changed.
//! All need the Rattle toolchain's `rt` on the PATH: it builds the library.

pub mod blackout;
pub mod compare;
pub mod host;
pub mod lent;
pub mod limits;
pub mod lists;
pub mod parse_scripts;
pub mod patterns;
pub mod refusals;
pub mod run;
pub mod show;
pub mod text;
pub mod whole;

use compare::{Difference, Trial};
use expected::lex_scripts::{any_script, damaged, script};
use expected::mixed_dice::Dice;
use expected::scripts::{bytes, ruled};
use lists::{
    all_of_length, longest, near_keywords, numbers_about_the_limits, singles_and_pairs, ALPHABET,
    IN_NUMBERS, IN_STRINGS,
};
use parse_scripts::{sequences, Scripts, DIVIDING, INDEXING, RULING, TOKENS};
use refusals::{about_the_longest, between_strings, decodings, rooms, text_edge, text_edges};
use run::Comparison;
use whole::reading;

/// How much is compared.
pub struct Sizes {
    /// All scripts over the alphabet up to so many units, and some more over smaller alphabets.
    pub units: u32,
    /// So many generated scripts, and as many damaged ones.
    pub scripts: usize,
    /// So many scripts for short tables, and as many for decoding.
    pub refused: usize,
}

impl Sizes {
    /// Some seconds' worth.
    pub fn sample() -> Sizes {
        Sizes {
            units: 4,
            scripts: 200_000,
            refused: 1_000,
        }
    }

    /// So many generated scripts and the rest in keeping. All short scripts are at most eight times
    /// as many, since they cost so little.
    pub fn of(count: usize) -> Sizes {
        let short = |units: u32| ALPHABET.len().pow(units);
        Sizes {
            units: (1..6)
                .take_while(|&n| short(n) <= 8 * count)
                .last()
                .unwrap_or(0),
            scripts: count,
            refused: count / 200,
        }
    }
}

/// Lexing and decoding, all groups.
pub fn lex(comparison: &mut Comparison, sizes: &Sizes, seed: u64) -> Result<(), Difference> {
    scripts_of_all_kinds(comparison, sizes, seed)?;
    edges(comparison, sizes, seed)
}

/// Scripts with room enough.
pub fn scripts_of_all_kinds(
    comparison: &mut Comparison,
    sizes: &Sizes,
    seed: u64,
) -> Result<(), Difference> {
    let short = (0..=sizes.units).flat_map(|n| all_of_length(&ALPHABET, n));
    comparison.group("all short scripts", short, Trial::whole)?;
    let strings = (0..=sizes.units + 2).flat_map(|n| all_of_length(&IN_STRINGS, n));
    comparison.group("all short strings", strings, Trial::whole)?;
    let numbers = (0..=sizes.units + 3).flat_map(|n| all_of_length(&IN_NUMBERS, n));
    comparison.group("all short numbers", numbers, Trial::whole)?;
    comparison.group("single bytes, pairs", singles_and_pairs(), Trial::whole)?;
    comparison.group("near keywords", near_keywords(), Trial::whole)?;
    let listed = ruled().map(|text| bytes(&text));
    comparison.group("about rules", listed, Trial::whole)?;
    let numbers = numbers_about_the_limits();
    comparison.group("numbers about limits", numbers, Trial::whole)?;

    let mut dice = Dice::new(seed);
    let generated = (0..sizes.scripts).map(|_| any_script(&mut dice));
    comparison.group("generated", generated, Trial::whole)?;
    let damaged = (0..sizes.scripts).map(|_| {
        let script = any_script(&mut dice);
        damaged(&mut dice, script)
    });
    comparison.group("damaged", damaged, Trial::whole)?;
    comparison.group("65,535 bytes", longest(), Trial::whole)
}

/// Refusals, and what is just not refused.
pub fn edges(comparison: &mut Comparison, sizes: &Sizes, seed: u64) -> Result<(), Difference> {
    let mut dice = Dice::new(!seed);
    let short = (0..sizes.refused).map(|_| {
        let pieces = dice.below(16);
        script(&mut dice, pieces)
    });
    comparison.group("table rooms", short, rooms)?;
    let short = (0..sizes.refused).map(|_| {
        let pieces = 1 + dice.below(5);
        let script = script(&mut dice, pieces);
        match dice.below(3) {
            0 => damaged(&mut dice, script),
            _ => script,
        }
    });
    comparison.group("decodings", short, decodings)?;
    comparison.group("about 65,535 bytes", about_the_longest(), refusals::sizes)?;
    let alone = text_edges();
    comparison.group("text test", alone, text_edge)?;
    let inside = text_edges().map(between_strings);
    comparison.group("text test, inside", inside, text_edge)
}

/// How many whole readings are compared.
pub struct ReadSizes {
    /// All sequences of up to so many tokens, and longer ones of fewer tokens.
    pub tokens: u32,
    /// So many scripts of each generated group.
    pub scripts: usize,
    /// So many scripts for tables of each size.
    pub rooms: usize,
    /// So many long scripts.
    pub long: usize,
    /// Each that many-th of the longest scripts and of the levels.
    pub step: usize,
}

impl ReadSizes {
    /// Some seconds' worth.
    pub fn sample() -> ReadSizes {
        ReadSizes {
            tokens: 2,
            scripts: 5_000,
            rooms: 200,
            long: 5,
            step: 7,
        }
    }

    /// So many generated scripts and the rest in keeping.
    pub fn of(count: usize) -> ReadSizes {
        ReadSizes {
            tokens: 3,
            scripts: count / 4,
            rooms: count / 50,
            long: count / 5_000,
            step: 1,
        }
    }
}

/// Whole readings, all groups. They belong on a large stack: the original's trees are as deep as
/// the scripts.
pub fn read(comparison: &mut Comparison, sizes: &ReadSizes, seed: u64) -> Result<(), Difference> {
    readings_of_all_kinds(comparison, sizes, seed)?;
    readings_at_limits(comparison, sizes, seed)?;
    longest_readings(comparison, sizes, seed)
}

/// Whole readings with room enough.
pub fn readings_of_all_kinds(
    comparison: &mut Comparison,
    sizes: &ReadSizes,
    seed: u64,
) -> Result<(), Difference> {
    let all = sequences(&TOKENS, sizes.tokens);
    comparison.group("sequences of tokens", all, reading)?;
    let dividing = sequences(&DIVIDING, sizes.tokens + 1);
    comparison.group("sequences of some tokens", dividing, reading)?;
    let indexing = sequences(&INDEXING, sizes.tokens + 3);
    comparison.group("sequences of few tokens", indexing, reading)?;
    let ruling = sequences(&RULING, sizes.tokens + 1);
    comparison.group("sequences about rules", ruling, reading)?;
    let mut scripts = Scripts::new(seed);
    let grammar = (0..sizes.scripts).map(|_| scripts.grammar());
    comparison.group("statements of all forms", grammar, reading)?;
    let slips = (0..sizes.scripts).map(|_| scripts.slips());
    comparison.group("statements with slips", slips, reading)?;
    let damaged = (0..sizes.scripts).map(|_| scripts.damaged());
    comparison.group("damaged statements", damaged, reading)?;
    let blank = (0..sizes.scripts).map(|_| scripts.blank_lines());
    comparison.group("blank lines", blank, reading)?;
    comparison.group("newlines", limits::newlines(), reading)
}

/// Whole readings with rooms, levels and counts about the limits.
pub fn readings_at_limits(
    comparison: &mut Comparison,
    sizes: &ReadSizes,
    seed: u64,
) -> Result<(), Difference> {
    comparison.group("listed scripts", limits::listed(), limits::rooms)?;
    let mut scripts = Scripts::new(seed.wrapping_add(1));
    let short = (0..sizes.rooms).map(|_| scripts.any());
    comparison.group("table rooms", short, limits::rooms)?;
    let long = (0..sizes.long).map(|_| scripts.long());
    comparison.group("long scripts", long, limits::edges)?;
    comparison.group("counts", limits::counts(), limits::edges)?;
    let levels = limits::levels().step_by(sizes.step);
    comparison.group("levels", levels, limits::exact)?;
    let about = about_the_longest();
    comparison.group("about 65,535 bytes", about, limits::refusals)?;
    let edges = text_edges();
    comparison.group("text test", edges, limits::refusals)
}

/// Whole readings of scripts of the greatest length.
pub fn longest_readings(
    comparison: &mut Comparison,
    sizes: &ReadSizes,
    _: u64,
) -> Result<(), Difference> {
    // A part of each group, or all.
    let step = sizes.step;
    let longest = limits::longest().step_by(step);
    comparison.group("65,535 bytes", longest, limits::exact)?;
    let lists = limits::longest_lists().step_by(step);
    comparison.group("lists of 65,535 bytes", lists, limits::exact)?;
    let deepest = limits::deepest().step_by(step);
    comparison.group("deepest", deepest, reading)?;
    let sets = patterns::sets().step_by(step);
    comparison.group("Sets in Sets", sets, patterns::read_sets)?;
    let newlines = patterns::newlines();
    comparison.group("very many newlines", newlines, patterns::read_newlines)?;
    let open = patterns::open_blocks();
    comparison.group("in an open block", open, patterns::read_open_block)
}
