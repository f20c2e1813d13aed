//! Every outcome of a reading but 4, which takes too long a script, is among the whole readings.

use std::collections::BTreeSet;
use vectors::whole::vectors;

#[test]
fn outcomes_occur() {
    let outcomes: BTreeSet<u32> = vectors().outcomes.into_iter().collect();
    assert!(outcomes
        .into_iter()
        .eq([0, 1, 2, 3, 5, 6, 7, 8, 10, 11, 13]));
}
