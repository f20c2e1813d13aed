//! The premise of blacking out: the stored pairs, and each clause.

use expected::lexing::LONGEST;
use expected::rules::Rule;
use vectors::blackout::pairs::{pairs, Verdict};
use vectors::blackout::premise::{permitted, permitted_but, Clause, CLAUSES};
use vectors::blackout::tables::Tables;

#[test]
fn each_pair_is_refused_by_its_clause_alone() {
    for (rule, what, first, second, verdict) in pairs() {
        let what = format!("{what}, rule {rule:?}");
        let same = Tables::original(rule, first) == Tables::original(rule, second);
        let (clause, alike) = match verdict {
            Verdict::Permitted => (None, true),
            Verdict::Needed(clause) => (Some(clause), false),
            Verdict::Narrow(clause) => (Some(clause), true),
            Verdict::Refused => {
                let any = |clause| permitted_but(Some(clause), rule, first, second);
                assert!(!CLAUSES.into_iter().any(any), "{what}");
                assert!(!same, "{what}");
                continue;
            }
        };
        assert_eq!(permitted(rule, first, second), clause.is_none(), "{what}");
        assert!(permitted_but(clause, rule, first, second), "{what}");
        assert_eq!(same, alike, "{what}");
    }
}

/// Every clause is needed but one, by each rule: beyond the limit both scripts are refused, since they
/// are equally long.
#[test]
fn every_clause_but_the_limit_is_needed() {
    let [first, second] = [b'a', b'b'].map(|byte| vec![byte; LONGEST + 1]);
    for rule in Rule::BOTH {
        for clause in CLAUSES {
            let needed =
                pairs().any(|(by, .., verdict)| by == rule && verdict == Verdict::Needed(clause));
            assert_eq!(needed, clause != Clause::Limit, "{clause:?}, {rule:?}");
        }
        assert!(!permitted(rule, &first, &second));
        assert!(permitted_but(Some(Clause::Limit), rule, &first, &second));
        assert!(permitted(rule, &first[1..], &second[1..]));
        let [first, second] = [&first, &second].map(|script| Tables::original(rule, script));
        assert_eq!(first, second);
    }
}

/// Pairs that one rule permits and the other refuses.
#[test]
fn rules_differ_in_names() {
    let differ = pairs().filter(|(_, _, first, second, _)| {
        permitted(Rule::One, first, second) != permitted(Rule::Two, first, second)
    });
    assert!(differ.count() > 10);
}
