//! Blacking out (`docs/RULES.md`, 'Blacking out') by running: pairs of scripts that its premise permits
//! are read alike, at every word, and what changes a reading is refused, by each rule.
//!
//! `differential blackout COUNT SEED` tries random pairs on the original's whole reading and on the
//! library's. `vectors::blackout` has the premise, and the pairs that the Rattle definition is held
//! against.

use std::collections::BTreeMap;
use std::fmt::{self, Write as _};

use crate::host::{Answer, Host, ReadAnswer, ReadCall, Request};
use expected::lexing::is_text;
use expected::mixed_dice::Dice;
use expected::records::{
    outcome, token, way, Token, ERROR_WORDS, INDEX_WORDS, NODE_WORDS, TOKEN_WORDS,
};
use expected::rules::{number, Rule};
use vectors::blackout::change::{any_first, broken, changed, exchanged};
use vectors::blackout::premise::{permitted, Clause, CLAUSES};
use vectors::blackout::tables::Tables;

/// So many pairs are given to the library at a time.
const BATCH: usize = 1000;

/// What was tried.
#[derive(Debug, Default)]
pub struct Report {
    /// Permitted pairs, and how many of them differ at all.
    pub pairs: u64,
    pub different: u64,
    /// The bytes that differ in them.
    pub bytes: u64,
    /// How many pairs had each outcome, by the original's whole reading; `?` where it can't be
    /// asked.
    pub outcomes: BTreeMap<u32, u64>,
    /// The same for the library's, into equally large tables with other old contents.
    pub library: BTreeMap<u32, u64>,
    /// For each clause, how many pairs broke it, and how many of these were read differently.
    pub refused: BTreeMap<Clause, [u64; 2]>,
    /// Pairs with bytes exchanged anywhere: permitted ones, and refused ones that are read alike
    /// and differently.
    pub exchanged: [u64; 3],
}

impl fmt::Display for Report {
    fn fmt(&self, f: &mut fmt::Formatter) -> fmt::Result {
        let Report {
            pairs,
            different,
            bytes,
            ..
        } = self;
        writeln!(
            f,
            "{pairs} permitted pairs, {different} of them unequal, in {bytes} bytes; outcomes {:?}",
            self.outcomes
        )?;
        writeln!(f, "library's reading, by outcome: {:?}", self.library)?;
        for (clause, [tried, differently]) in &self.refused {
            writeln!(
                f,
                "broken {clause:?}: {tried} refused, {differently} read differently"
            )?;
        }
        let [yes, alike, differently] = self.exchanged;
        writeln!(
            f,
            "bytes exchanged anywhere: {yes} permitted, {} refused, {differently} of these read differently",
            alike + differently
        )
    }
}

/// A rule, and two scripts that it permits beside each other.
type Permitted = (Rule, [Vec<u8>; 2]);

/// Tries so many pairs by each rule, on the library too if there is a host; what went wrong, if anything
/// did.
pub fn blackout(mut host: Option<&mut Host>, count: usize, seed: u64) -> Result<Report, String> {
    // The original reads by recursion.
    oracle::on_large_stack(|| {
        let mut dice = Dice::new(seed);
        let mut texts = vectors::definition::texts(dice.word() | 1);
        let mut report = Report::default();
        let mut batch = vec![];
        for _ in 0..count {
            let first = loop {
                // Damage may leave no text; then there is no permitted pair.
                let script = any_first(&mut dice, &mut texts);
                if is_text(&script) {
                    break script;
                }
            };
            for rule in Rule::BOTH {
                let second = changed(&mut dice, rule, &first);
                report.permitted_pair(rule, &first, &second)?;
                report.refused_pair(&mut dice, rule, &first, &second)?;
                report.exchanged_pair(&mut dice, rule, &first)?;
                batch.push((rule, [first.clone(), second]));
            }
            if batch.len() >= BATCH {
                report.library(&mut host, &mut dice, &mut batch)?;
            }
        }
        report.library(&mut host, &mut dice, &mut batch)?;
        Ok(report)
    })
}

impl Report {
    /// The premise holds, and the original reads both alike.
    fn permitted_pair(&mut self, rule: Rule, first: &[u8], second: &[u8]) -> Result<(), String> {
        if !permitted(rule, first, second) {
            return Err(told("a permitted change is refused", rule, first, second));
        }
        let read = Tables::original(rule, first);
        if read != Tables::original(rule, second) {
            return Err(told(READ_DIFFERENTLY, rule, first, second));
        }
        *self.outcomes.entry(read.answer[0]).or_default() += 1;
        let bytes = first.iter().zip(second).filter(|(b, c)| b != c).count();
        self.pairs += 1;
        self.different += u64::from(bytes > 0);
        self.bytes += bytes as u64;
        Ok(())
    }

    /// A change that breaks a clause is refused.
    fn refused_pair(
        &mut self,
        dice: &mut Dice,
        rule: Rule,
        first: &[u8],
        second: &[u8],
    ) -> Result<(), String> {
        let clause = CLAUSES[dice.below(CLAUSES.len())];
        let Some(script) = broken(dice, rule, clause, first, second) else {
            return Ok(());
        };
        if permitted(rule, first, &script) {
            let what = format!("a change that breaks {clause:?} is permitted");
            return Err(told(&what, rule, first, &script));
        }
        let counts = self.refused.entry(clause).or_default();
        counts[0] += 1;
        counts[1] += u64::from(reads_differently(rule, first, &script));
        Ok(())
    }

    /// Whatever changes the reading is refused.
    fn exchanged_pair(&mut self, dice: &mut Dice, rule: Rule, first: &[u8]) -> Result<(), String> {
        let script = exchanged(dice, first);
        let differently = reads_differently(rule, first, &script);
        let index = match (permitted(rule, first, &script), differently) {
            (true, true) => return Err(told(READ_DIFFERENTLY, rule, first, &script)),
            (true, false) => 0,
            (false, false) => 1,
            (false, true) => 2,
        };
        self.exchanged[index] += 1;
        Ok(())
    }

    /// The library reads both scripts of each pair, on both ways, into equally large tables, often too
    /// small, that held something else before.
    fn library(
        &mut self,
        host: &mut Option<&mut Host>,
        dice: &mut Dice,
        batch: &mut Vec<Permitted>,
    ) -> Result<(), String> {
        let batch = std::mem::take(batch);
        let Some(host) = host else { return Ok(()) };
        let (mut requests, mut fills) = (vec![], vec![]);
        for (rule, pair) in &batch {
            let mut room = |most: usize| {
                if dice.one_in(2) {
                    most
                } else {
                    dice.below(most)
                }
            };
            // As a rule enough for the tokens, so that what is read meets the ends of all tables.
            let (tokens, errors) = (
                room(pair[0].len() + 2).max(room(pair[0].len() + 2)),
                room(8),
            );
            let nodes = room(2 * pair[0].len() + 2);
            let index = room(tokens + 1).max(room(tokens + 4));
            let token_words = TOKEN_WORDS * tokens + dice.below(TOKEN_WORDS);
            let error_words = ERROR_WORDS * errors + dice.below(ERROR_WORDS);
            let node_words = NODE_WORDS * nodes + dice.below(NODE_WORDS);
            let index_words = INDEX_WORDS * index;
            for bytes in pair {
                let behind = dice.word() as u8;
                requests.push(Request::Source { bytes, behind });
                for way in [way::STOP, way::GO_ON] {
                    let fill = dice.word() as u32;
                    requests.push(Request::Read(ReadCall {
                        rule: number(*rule),
                        way,
                        pair: false,
                        token_words,
                        error_words,
                        node_words,
                        index_words,
                        fill,
                    }));
                    fills.push(fill);
                }
            }
        }
        let mut readings = vec![];
        host.ask(&requests, |_, answer| {
            if let Answer::Read(reading) = answer {
                readings.push(tables(&reading, fills[readings.len()]));
            }
        })?;
        let (pairs, _) = readings.as_chunks::<4>();
        if pairs.len() != batch.len() {
            return Err("an answer is missing".to_string());
        }
        for ((rule, [first, second]), [a, b, c, d]) in batch.iter().zip(pairs) {
            // The same way for both.
            for reading in [[a, c], [b, d]] {
                let outcome = alike(reading).map_err(|what| told(&what, *rule, first, second))?;
                *self.library.entry(outcome).or_default() += 1;
            }
        }
        Ok(())
    }
}

/// The outcome of two readings that are the same, or what is wrong.
fn alike(readings: [&Result<Tables, String>; 2]) -> Result<u32, String> {
    match readings {
        [Ok(a), Ok(b)] if a == b => Ok(a.answer[0]),
        [Ok(_), Ok(_)] => Err("the library reads a permitted pair differently".to_string()),
        [Err(what), _] | [_, Err(what)] => Err(what.clone()),
    }
}

/// The library's reading, into tables that were filled with one word: the kept tokens and errors, the
/// index of the tokens where they were parsed, whether the words after them are as they were, and the
/// whole node table.
fn tables(reading: &ReadAnswer, fill: u32) -> Result<Tables, String> {
    let kept = |table: &[u32], words: usize| {
        let (kept, behind) = table.split_at_checked(words).ok_or("more than the room")?;
        let changed = behind.iter().any(|word| *word != fill);
        if changed || !reading.intact {
            return Err("a word after the kept records is changed");
        }
        Ok(kept.to_vec())
    };
    Ok(Tables {
        answer: vec![
            reading.outcome,
            reading.tokens,
            reading.errors,
            reading.nodes,
            reading.first,
            reading.looks,
        ],
        tokens: kept(&reading.token_table, TOKEN_WORDS * reading.tokens as usize)?,
        errors: kept(&reading.error_table, ERROR_WORDS * reading.errors as usize)?,
        nodes: reading.node_table.clone(),
        index: kept(&reading.index_table, INDEX_WORDS * indexed(reading))?,
    })
}

/// How many words of the newline index are filled: those of all tokens where parsing was begun. What ended
/// in lexing for want of room has no EOF.
fn indexed(reading: &ReadAnswer) -> usize {
    const EOF: u32 = oracle::token::Token::EOF as u32;
    let tokens: &[Token] = reading.token_table.as_chunks().0;
    let count = reading.tokens as usize;
    let last = tokens[..count.min(tokens.len())].last();
    let lexed = last.is_some_and(|last| last[token::KIND] == EOF);
    match reading.outcome {
        outcome::BUFFER_ROOM | outcome::NOT_PARSED => 0,
        _ if lexed => count,
        _ => 0,
    }
}

/// Whether the original reads the two differently.
fn reads_differently(rule: Rule, first: &[u8], second: &[u8]) -> bool {
    Tables::original(rule, first) != Tables::original(rule, second)
}

const READ_DIFFERENTLY: &str = "a permitted pair is read differently";

fn told(what: &str, rule: Rule, first: &[u8], second: &[u8]) -> String {
    let mut text = format!("{what}, rule {}\n", number(rule));
    for script in [first, second] {
        let _ = writeln!(text, "  \"{}\"", script.escape_ascii());
    }
    text
}
