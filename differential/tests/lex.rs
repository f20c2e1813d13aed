//! A sample of the comparison, for the gate.

use differential::blackout::blackout;
use differential::compare::Difference;
use differential::host::Host;
use differential::run::Comparison;
use differential::show::show;
use differential::{edges, scripts_of_all_kinds, text, Sizes};
use expected::records::outcome;

const SEED: u64 = 1;

type Part = fn(&mut Comparison, &Sizes, u64) -> Result<(), Difference>;

fn compare(part: Part) {
    if let Err(difference) = part(&mut Comparison::start(), &Sizes::sample(), SEED) {
        panic!("the library and the original differ\n{difference}");
    }
}

#[test]
fn scripts() {
    compare(scripts_of_all_kinds);
}

#[test]
fn refusals() {
    compare(edges);
}

/// Up to two bytes every sequence, up to four those of the table's boundaries; three bytes take too
/// long for the gate.
#[test]
fn the_text_test_is_rusts_own() {
    let report = text::compare(2).unwrap_or_else(|e| panic!("{e}"));
    assert_eq!(
        report.sequences,
        1 + 256 + 256 * 256 + 24u64.pow(3) + 24u64.pow(4)
    );
    assert!(report.texts > 20_000, "{report}");
}

/// Here and not with the other tests of blacking out: a process builds the library once.
#[test]
fn what_may_be_blacked_out_is_lexed_alike() {
    let report = blackout(Some(&mut Host::start()), 2_000, SEED).unwrap_or_else(|e| panic!("{e}"));
    // By both rules and on both ways.
    assert_eq!(report.library.values().sum::<u64>(), 8_000);
    assert!(report.library[&outcome::NOT_PARSED] > 100, "{report}");
    assert!(report.library[&outcome::BUFFER_ROOM] > 100, "{report}");
}

#[test]
fn one_script_shown() {
    let text = show(&mut Host::start(), b"a = \"\\t\" !\n\"b\nc\"").expect("an answer");
    let expected = r#"outcome 0, 7 tokens, 1 errors
token 25 "a", line 1
token 19 "=", line 1
token 26 "\"\\t\"", line 1, text "\t"
token 1 "\n", lines 1 to 2
token 26 "\"b\nc\"", lines 2 to 3, text "b\nc"
token 1 "", line 3
token 0 "", line 3
error 1, line 1, pos 9: '!' cannot be used here
"#;
    assert_eq!(text, expected);
}
