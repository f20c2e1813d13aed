//! The scripts of each file.

use expected::records::{outcome, rule, way};
use expected::scripts::{
    around, many, INDEXED, LEFT_OF_EQUAL, MESSAGES, MISLEXED, MISLEXED_SMALL, MORE_WAYS, NEWLINES,
    RULED, RULED_SMALL, SMALL, STARS, WAYS, WORKED,
};
use expected::whole::{with_index, Rooms};
use oracle::{on_large_stack, read};

use super::{End, File, Script};

/// A script that is read by rule one on the original's way, with room enough.
fn script(text: &str) -> Script {
    Script {
        rule: rule::ONE,
        way: way::GO_ON,
        text: text.to_string(),
        ends: None,
    }
}

/// Scripts that the original reads as the definition has to.
fn plain(texts: &[&str]) -> Vec<Script> {
    texts.iter().map(|text| script(text)).collect()
}

/// Scripts on both ways.
fn both_ways() -> Vec<Script> {
    let ways = [way::STOP, way::GO_ON];
    let enough = MISLEXED.iter().flat_map(|text| {
        ways.map(|way| Script {
            way,
            ..script(text)
        })
    });
    let small = MISLEXED_SMALL
        .iter()
        .flat_map(|&(text, outcomes, rooms, kept)| {
            ending_on_both(text, outcomes, with_index(rooms), kept)
        });
    enough.chain(small).collect()
}

/// A script that ends on the new way and on the old one so, in tables with these rooms.
fn ending_on_both(
    text: &str,
    outcomes: [u32; 2],
    rooms: Rooms,
    kept: [[usize; 3]; 2],
) -> [Script; 2] {
    [0, 1].map(|at| Script {
        way: [way::STOP, way::GO_ON][at],
        ends: Some(End {
            outcome: outcomes[at],
            rooms,
            kept: kept[at],
        }),
        ..script(text)
    })
}

/// Newline indices that are too short, or just not, on both ways.
fn indexed() -> Vec<Script> {
    let scripts = INDEXED.iter();
    scripts
        .flat_map(|&(text, outcomes, rooms, kept)| ending_on_both(text, outcomes, rooms, kept))
        .collect()
}

/// Numbers that name no rule, with scripts that would end in several ways, the last with 3.
const NO_RULE: [(u32, &str); 5] = [
    (0, ""),
    (0, "a1"),
    (3, "1.5"),
    (0, "$"),
    (3, "\u{c1}\u{80}"),
];

/// Scripts by both rules, rule two in tables that are too small, and numbers that name none.
fn both_rules() -> Vec<Script> {
    let rules = [rule::ONE, rule::TWO];
    let enough = RULED.iter().flat_map(|text| {
        rules.map(|rule| Script {
            rule,
            ..script(text)
        })
    });
    let small = ending(RULED_SMALL).into_iter().map(|script| Script {
        rule: rule::TWO,
        ..script
    });
    let none = NO_RULE.map(|(rule, text)| Script {
        rule,
        ends: Some(End {
            outcome: outcome::WRONG_RULE,
            rooms: [3; 4],
            kept: [0; 3],
        }),
        ..script(text)
    });
    enough.chain(small).chain(none).collect()
}

/// Scripts that end in a way that the original doesn't know: the outcome, the tables' rooms, and
/// how many tokens, errors and top-level statements are kept.
fn ending(scripts: &[(&str, u32, [usize; 3], [usize; 3])]) -> Vec<Script> {
    scripts
        .iter()
        .map(|&(text, outcome, rooms, kept)| Script {
            ends: Some(End {
                outcome,
                rooms: with_index(rooms),
                kept,
            }),
            ..script(text)
        })
        .collect()
}

/// Levels: for each way to open them the most that are read, and one more, which is one too many.
fn levels(ways: &[(&str, usize, &str, &str)]) -> Vec<Script> {
    let both = |&(open, count, inner, close): &(&str, usize, &str, &str)| {
        let text = around(open, count + 1, inner, close);
        let tokens = on_large_stack(|| read(&text).tokens.len());
        let deeper = ending(&[(
            &text,
            outcome::TOO_DEEP,
            [tokens, 0, tokens],
            [tokens, 0, 0],
        )]);
        let read = plain(&[&around(open, count, inner, close)]);
        read.into_iter().chain(deeper)
    };
    ways.iter().flat_map(both).collect()
}

/// A list of names of a length, and one that is longer by one.
fn counts(open: &str, most: usize, close: &str) -> Vec<Script> {
    let text = |count| format!("{open}{}{close}", many(count));
    plain(&[&text(most), &text(most + 1)])
}

/// Scripts that take long to try: other ways to many parameters and arguments, and further levels.
pub fn slow() -> File {
    let texts = [
        format!("let f = fn({},) a", many(256)),
        format!("f({},)", many(255)),
    ];
    let counts = plain(&texts.each_ref().map(String::as_str));
    File {
        name: "Slow",
        comment: "Limits of parameters and arguments, with what the original answers, and of levels, with what docs/RULES.md says.",
        scripts: counts.into_iter().chain(levels(MORE_WAYS)).collect(),
    }
}

pub fn files() -> Vec<File> {
    let oracle = [MESSAGES, NEWLINES, LEFT_OF_EQUAL].map(plain);
    vec![
        File {
            name: "Stars",
            comment: "The scripts that docs/RULES.md, 'Parsing', marks *, with what the original answers.",
            scripts: plain(STARS),
        },
        File {
            name: "Worked",
            comment: "Each form of statement and expression, with what the original answers.",
            scripts: plain(WORKED),
        },
        File {
            name: "Oracle",
            comment: "Each message, newlines and assignments, with what the original answers; and small tables, which it doesn't have, with what docs/RULES.md says.",
            scripts: oracle.into_iter().flatten().chain(ending(SMALL)).collect(),
        },
        File {
            name: "Ways",
            comment: "Both ways of a reading: where lexing records an error, the old one with what the original answers, the new one with what its lexer does.",
            scripts: both_ways(),
        },
        File {
            name: "Index",
            comment: "Newline indices that are too short, which the original doesn't have, with what docs/RULES.md says; and some that are just long enough.",
            scripts: indexed(),
        },
        File {
            name: "Rules",
            comment: "Both rules: rule one with what the original answers, rule two with what it answers with its three lines changed; and numbers that name no rule.",
            scripts: both_rules(),
        },
        File {
            name: "Limits",
            comment: "The most levels that are read, with what the original answers; and one more, where docs/RULES.md says outcome 8.",
            scripts: levels(WAYS),
        },
        File {
            name: "Parameters",
            comment: "The most parameters that are read, and one more, with what the original answers.",
            scripts: counts("fn f(", 256, ") a"),
        },
        File {
            name: "Arguments",
            comment: "The most arguments that are read, and one more, with what the original answers.",
            scripts: counts("f(", 255, ")"),
        },
    ]
}
