//! Scripts that the original and this crate are both given.

use std::fs;
use std::path::Path;

use expected::dice::Dice;
use expected::maker::Maker;
use expected::scripts::{around, many, ruled, LISTED, MISLEXED, MORE_WAYS, WAYS};
use expected::spellings::{BETWEEN, NUMBERS, STRINGS};

/// How many scripts are made at random.
const MADE: usize = 6_000;

/// Scripts that each show something, a surveyor's, and made ones.
pub fn scripts() -> Vec<String> {
    let lists = LISTED.into_iter().chain([LEXED, MISLEXED]).flatten();
    let mut scripts: Vec<String> = lists.map(|s| s.to_string()).collect();
    for &(open, most, inner, close) in WAYS.iter().chain(MORE_WAYS) {
        // Up to the last level, and one more.
        scripts.extend([most, most + 1].map(|count| around(open, count, inner, close)));
    }
    scripts.extend([255, 256].map(|count| format!("f({})", many(count))));
    scripts.extend([256, 257].map(|count| format!("fn f({}) a", many(count))));
    scripts.extend(ruled());
    scripts.extend(examples());
    scripts.extend(made());
    scripts
}

/// What is more than its marks: numbers, strings, comments, and what is no token.
const LEXED: &[&str] = &[
    "9007199254740992 9007199254740993 0.0000000000000000000001 0.00000000000000000000001\n",
    "123456789012345678901234567890.5 3. 007.250\n",
    "179769313486231580793728971405301e\n",
    "\"\" \"a b\" \"\\n\\r\\t\\\\\\\"\" \"a\nb\" \"é ☕ 𝄞\"\nc",
    "\"never closed",
    "\"closed\" \"\\",
    "\"\\q\" \"\\\n\" b",
    "a # comment é\nb #",
    "é ! @ & ` ~ ' $ \u{7f} \0\n",
    "a\r\nb\tc",
    "a 1.5",
    "a\n! 1.",
];

/// The scripts of `examples/`.
fn examples() -> Vec<String> {
    let folder = Path::new(env!("CARGO_MANIFEST_DIR")).join("../examples");
    let entries = fs::read_dir(folder).expect("the examples are there");
    let files = entries.map(|entry| entry.expect("an entry").path());
    let scripts = files.filter(|file| file.extension().is_some_and(|e| e == "gr"));
    let found: Vec<_> = scripts
        .map(|file| fs::read_to_string(file).expect("a script"))
        .collect();
    assert!(found.len() >= 7, "too few examples");
    found
}

/// Statements of the grammar and soups of tokens, most with slips; some tokens are others.
fn made() -> impl Iterator<Item = String> {
    let mut maker = Maker {
        dice: Dice::new(0x5eed),
    };
    (0..MADE).map(move |_| {
        let mut script = String::new();
        for token in maker.tokens() {
            script += match (token, maker.roll(8)) {
                ("a", 0) => *maker.dice.pick(&["name", "init", "ifs", "A", "_"]),
                ("1", 0..=3) => *maker.dice.pick(&NUMBERS),
                ("\"s\"", 0..=3) => *maker.dice.pick(&STRINGS),
                (token, _) => token,
            };
            script += match maker.roll(160) {
                0..4 => " # c\n",
                4 => *maker.dice.pick(&BETWEEN),
                _ => " ",
            };
        }
        // A number with a point at the very end is a stop.
        match maker.roll(64) {
            0 => script + "2.5",
            1..16 => script.trim_end().to_string(),
            _ => script,
        }
    })
}
