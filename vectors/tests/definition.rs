//! Each message of the original and each kind of node stands in one of the theorems.

use expected::records::{error, kind, message, node};
use std::collections::BTreeSet;
use vectors::definition::files;

#[test]
fn every_message_and_every_kind_of_node_occurs() {
    let (mut messages, mut kinds) = (BTreeSet::new(), BTreeSet::new());
    for case in files().iter().flat_map(|file| file.cases()) {
        let errors = case.words[0][2] as usize;
        messages.extend(case.words[1..1 + errors].iter().map(|e| e[error::MESSAGE]));
        kinds.extend(case.words[1 + errors..].iter().map(|n| n[node::KIND]));
    }
    assert!(messages.into_iter().eq(message::ALL));
    assert!(kinds.into_iter().eq(kind::ALL));
}
