//! The text test against Rust's own: for each sequence of bytes `std::str::from_utf8`, the Standard's
//! table as `expected` has it, and the library are asked.

use std::collections::BTreeSet;
use std::fmt;

use expected::lexing::{is_text, WELL_FORMED};
use expected::records::{outcome, rule};
use kettleplume::border::scan;

/// The longest sequence that is well-formed by itself.
const MOST: usize = 4;

/// How much was compared.
#[derive(Debug, Default, PartialEq, Eq)]
pub struct Report {
    pub sequences: u64,
    /// How many of them are text.
    pub texts: u64,
}

impl fmt::Display for Report {
    fn fmt(&self, f: &mut fmt::Formatter) -> fmt::Result {
        let Report { sequences, texts } = self;
        writeln!(f, "{sequences} sequences, {texts} of them text")
    }
}

/// Compares every sequence of up to so many bytes, and of up to four of the bytes at the table's
/// boundaries; the first that differs, if one does.
pub fn compare(every: usize) -> Result<Report, String> {
    let all: Vec<u8> = (0..=255).collect();
    let boundaries = boundaries();
    let mut report = Report::default();
    for length in 0..=MOST {
        let bytes = if length <= every { &all } else { &boundaries };
        report.sequences_of(bytes, length)?;
    }
    Ok(report)
}

/// The bytes at which a range of the table begins or ends, and those just outside it.
fn boundaries() -> Vec<u8> {
    let ranges = WELL_FORMED.iter().copied().flatten();
    let ends = ranges.flat_map(|range| {
        let (first, last) = (*range.start(), *range.end());
        [
            first.saturating_sub(1),
            first,
            last,
            last.saturating_add(1),
            0xff,
        ]
    });
    ends.collect::<BTreeSet<u8>>().into_iter().collect()
}

impl Report {
    /// All sequences of this length of these bytes.
    fn sequences_of(&mut self, bytes: &[u8], length: usize) -> Result<(), String> {
        for number in 0..bytes.len().pow(length as u32) {
            let (mut sequence, mut rest) = ([0; MOST], number);
            for byte in &mut sequence[..length] {
                *byte = bytes[rest % bytes.len()];
                rest /= bytes.len();
            }
            self.sequences += 1;
            self.texts += u64::from(agreed(&sequence[..length])?);
        }
        Ok(())
    }
}

/// Whether these bytes are text, if all three say the same.
fn agreed(bytes: &[u8]) -> Result<bool, String> {
    let rust = std::str::from_utf8(bytes).is_ok();
    let table = is_text(bytes);
    // In tables without room nothing comes of a text either, but the refusal is another one.
    let answer = scan(rule::ONE, bytes, &mut [], &mut []);
    let library = answer.outcome != outcome::NO_TEXT;
    if [table, library] != [rust; 2] || (answer.tokens, answer.errors) != (0, 0) {
        return Err(format!(
            "{bytes:02x?}: text for Rust {rust}, by the table {table}, for the library {library}: {answer:?}"
        ));
    }
    Ok(rust)
}
