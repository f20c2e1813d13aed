//! The premise of blacking out: a sample of random pairs, by the original.

use differential::blackout::blackout;
use vectors::blackout::premise::{Clause, CLAUSES};

#[test]
fn random_pairs() {
    let report = blackout(None, 5_000, 1).unwrap_or_else(|e| panic!("{e}"));
    // By each rule.
    assert_eq!(report.pairs, 10_000);
    for clause in CLAUSES {
        // A first script is always text within the limit here.
        let tried = !matches!(clause, Clause::Limit | Clause::FirstText);
        let differently = report.refused.get(&clause).map_or(0, |counts| counts[1]);
        assert_eq!(differently > 0, tried, "{clause:?}");
    }
}
