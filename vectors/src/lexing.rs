//! `c HEX RULE tokens errors`: the bytes lexed by a rule into a token table and an error table of so
//! many words.
//!
//! The answer is `c OUTCOME TOKENS ERRORS`; then, for each token that is kept, `t KIND HEX LINE
//! BEGINS SORT VALUE` with the bytes that it stands for; for each error that is kept, `e MESSAGE LINE
//! POS`; and `u 0`: no word after the kept records has changed.

pub mod judge;
mod scripts;

use crate::sheet::{hex, Sheet};
use expected::dice::Dice;
use expected::records::{rule, ERROR_WORDS, TOKEN_WORDS};
use expected::rules::WRONG;
use expected::scripts::{bytes, ruled};

/// The most words of a table.
const MOST_WORDS: usize = 8192;

/// The seed of the random scripts and of their tables.
const SEED: u64 = 0x6c65_7869_6e67;

/// How many random scripts there are by each rule, and how many of these with tables that may be short.
const RANDOM: usize = 180;
const RANDOM_SHORT: usize = 40;

/// Lines that are no vectors: a field too few or too many, a table too large, a broken byte string.
const NO_VECTORS: [&str; 8] = [
    "c",
    "c 61",
    "c 61 1",
    "c 61 1 7",
    "c 61 1 7 3 1",
    "c 61 1 8193 3",
    "c 61 1 7 8193",
    "c 616 1 7 3",
];

/// How the vectors were made.
pub fn comment(sheet: &mut Sheet) {
    sheet.comment(
        "c: lexing, see vectors/src/lexing.rs. Tokens and errors are those of the original,",
    );
    sheet.comment(
        "the crate `oracle`: Grotsky's lexer.rs, commit f3837697bb; outcome 2 is its panic.",
    );
    sheet.comment("Those of rule two are the same lexer's with two lines changed.");
    sheet.comment("Outcomes 3 to 6 follow from its answer, the text test and the tables' sizes");
    sheet.comment(&format!(
        "by docs/RULES.md, 'Outcomes'. Random scripts: {RANDOM} by each rule, xorshift64, seed {SEED:#x}"
    ));
}

pub fn add(sheet: &mut Sheet) {
    let mut dice = Dice::new(SEED);
    for script in scripts::fixed() {
        add_large(sheet, rule::ONE, &script);
    }
    for script in scripts::about_rule_two() {
        add_large(sheet, rule::TWO, &script);
    }
    for text in ruled() {
        for rule in [rule::ONE, rule::TWO] {
            add_large(sheet, rule, &bytes(&text));
        }
    }
    for script in scripts::NO_TEXTS {
        add_large(sheet, rule::ONE, script);
        add_script(sheet, rule::ONE, script, 0, 0);
    }
    for script in scripts::FOR_SHORT_TABLES {
        add_short(sheet, rule::ONE, script.as_bytes());
    }
    for script in scripts::FOR_SHORT_TABLES_BY_TWO {
        add_short(sheet, rule::TWO, script.as_bytes());
    }
    for rule in [rule::ONE, rule::TWO] {
        add_random(sheet, rule, &mut dice);
    }
    add_no_rule(sheet);
    for line in NO_VECTORS {
        sheet.add_unknown(line);
    }
}

/// Numbers that name no rule, with a script, one that is no text, and tables of any size.
fn add_no_rule(sheet: &mut Sheet) {
    for rule in WRONG {
        for source in [&b""[..], b"a1", b"1.5", b"! \"", b"\xff"] {
            add_large(sheet, rule, source);
            add_script(sheet, rule, source, 0, 0);
        }
    }
}

fn add_script(sheet: &mut Sheet, rule: u32, source: &[u8], token_words: usize, error_words: usize) {
    sheet.add(
        'c',
        &[&hex(source), &rule, &token_words, &error_words],
        &[&judge::answer(rule, source, token_words, error_words)],
    );
}

/// A script with room for everything.
fn add_large(sheet: &mut Sheet, rule: u32, source: &[u8]) {
    let (tokens, errors) = judge::counts(rule, source);
    assert!(tokens * TOKEN_WORDS <= MOST_WORDS && errors * ERROR_WORDS <= MOST_WORDS);
    add_script(sheet, rule, source, MOST_WORDS, MOST_WORDS);
}

/// Sizes of a table for so many records: none, one word and one record short, exactly full, and
/// with the longest spare tail.
fn sizes(records: usize, width: usize) -> [usize; 5] {
    let full = records * width;
    [
        0,
        full.saturating_sub(width),
        full.saturating_sub(1),
        full,
        full + width - 1,
    ]
}

/// A script with each table around the size that it needs, beside a large one and beside one
/// record too few.
fn add_short(sheet: &mut Sheet, rule: u32, source: &[u8]) {
    let (tokens, errors) = judge::counts(rule, source);
    let token_sizes = sizes(tokens, TOKEN_WORDS);
    let error_sizes = sizes(errors, ERROR_WORDS);
    for words in token_sizes {
        add_script(sheet, rule, source, words, MOST_WORDS);
        add_script(sheet, rule, source, words, error_sizes[1]);
    }
    for words in error_sizes {
        add_script(sheet, rule, source, MOST_WORDS, words);
        add_script(sheet, rule, source, token_sizes[1], words);
    }
}

/// Random scripts with large tables, and with tables of any size up to just more than enough.
fn add_random(sheet: &mut Sheet, rule: u32, dice: &mut Dice) {
    for number in 0..RANDOM {
        let source = dice.string(&scripts::PIECES, 14);
        if number >= RANDOM_SHORT {
            add_large(sheet, rule, &source);
            continue;
        }
        let (tokens, errors) = judge::counts(rule, &source);
        let token_words = dice.roll(((tokens + 1) * TOKEN_WORDS) as u64) as usize;
        let error_words = dice.roll(((errors + 1) * ERROR_WORDS) as u64) as usize;
        add_script(sheet, rule, &source, token_words, error_words);
    }
}
