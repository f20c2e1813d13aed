//! What a reading keeps, as an outline (`docs/RULES.md`, 'Outline'). The crate `form` has it proved, for
//! tables of the sizes that the program `outline` has. The tables here are as large as the script needs.

use std::fmt::Write as _;

use kettleplume::records::token;
use kettleplume::Records;

/// The answer, then of each token the words that are shown, each error and each node.
pub fn outline(records: &Records) -> String {
    let answer = records.answer;
    let mut out = String::new();
    line(
        &mut out,
        'o',
        &[
            answer.outcome,
            answer.tokens,
            answer.errors,
            answer.nodes,
            answer.first,
        ],
    );
    records
        .tokens
        .iter()
        .for_each(|t| line(&mut out, 't', &token::shown(t)));
    records.errors.iter().for_each(|e| line(&mut out, 'e', e));
    records.nodes.iter().for_each(|n| line(&mut out, 'n', n));
    out
}

fn line(out: &mut String, letter: char, words: &[u32]) {
    out.push(letter);
    for word in words {
        // Writing to a string doesn't fail.
        let _ = write!(out, " {word}");
    }
    out.push('\n');
}
