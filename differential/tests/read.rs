//! A sample of the comparison of whole readings, for the gate.

use differential::compare::Difference;
use differential::run::Comparison;
use differential::{longest_readings, readings_at_limits, readings_of_all_kinds, ReadSizes};
use expected::records::outcome::{NOT_PARSED, POINT_AT_END, WRONG_RULE};
use expected::records::{kind, message};
use oracle::on_large_stack;

const SEED: u64 = 1;

type Part = fn(&mut Comparison, &ReadSizes, u64) -> Result<(), Difference>;

/// The original's trees are as deep as the scripts.
fn compare(part: Part) {
    let outcome = on_large_stack(|| part(&mut Comparison::start(), &ReadSizes::sample(), SEED));
    if let Err(difference) = outcome {
        panic!("the library and the original differ\n{difference}");
    }
}

#[test]
fn scripts() {
    compare(readings_of_all_kinds);
}

/// The listed scripts among them have every message and every kind of node; and every call is made by
/// both rules, on both ways, and some by a number that names no rule.
#[test]
fn limits() {
    compare(|comparison, sizes, seed| {
        readings_at_limits(comparison, sizes, seed)?;
        let [messages, kinds] = comparison.seen();
        assert!(messages.into_iter().eq(message::ALL));
        assert!(kinds.into_iter().eq(kind::ALL));
        let calls = |what: &str| -> u64 {
            let all = comparison.groups.iter().flat_map(|group| &group.calls);
            all.filter(|(name, _)| name.starts_with(what))
                .map(|(_, count)| count)
                .sum()
        };
        for what in [
            "read ",
            "pair ",
            "two read ",
            "two pair ",
            "none read ",
            "none pair ",
        ] {
            let (rule, call) = what.split_at(what.len() - "read ".len());
            let new = format!("{rule}new {call}");
            assert_eq!(calls(what), calls(&new), "{what}");
            if rule == "none " {
                assert_eq!(calls(&format!("{what}{WRONG_RULE}")), calls(what));
                assert!(calls(what) > 100, "{what}");
            } else {
                assert!(calls(&format!("{new}{NOT_PARSED}")) > 1_000, "{new}");
            }
        }
        for way in ["", "new "] {
            assert_eq!(calls(&format!("two {way}read {POINT_AT_END}")), 0);
            assert!(calls(&format!("{way}read {POINT_AT_END}")) > 100);
        }
        Ok(())
    });
}

#[test]
fn longest() {
    compare(longest_readings);
}
