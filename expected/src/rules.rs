//! The rules by their numbers.

pub use oracle::Rule;

use crate::records::rule;

/// Some numbers that name no rule.
pub const WRONG: [u32; 3] = [0, 3, u32::MAX];

/// The rule that a number names.
pub fn named(number: u32) -> Option<Rule> {
    match number {
        rule::ONE => Some(Rule::One),
        rule::TWO => Some(Rule::Two),
        _ => None,
    }
}

/// A rule's number.
pub fn number(rule: Rule) -> u32 {
    match rule {
        Rule::One => rule::ONE,
        Rule::Two => rule::TWO,
    }
}
