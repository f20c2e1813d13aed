//! Lists of scripts that are complete: every one of a kind.

use expected::lex_scripts::{KEYWORDS, MARKS, WRONG};
use expected::lexing::LONGEST;

/// The bytes that matter to the lexer, one or two of each class, and a letter of two bytes.
pub const ALPHABET: [&str; 24] = [
    "a", "i", "f", "_", "0", "1", "9", ".", "\"", "\\", "n", "q", "\n", "\t", " ", "#", "!", "=",
    "<", "(", "-", "{", "@", "é",
];

/// What matters in and about strings.
pub const IN_STRINGS: [&str; 7] = ["\"", "\\", "n", "q", "\n", "#", "é"];

/// What matters in and about numbers.
pub const IN_NUMBERS: [&str; 5] = ["0", "1", "9", ".", " "];

/// All scripts of exactly so many units of an alphabet.
pub fn all_of_length(alphabet: &'static [&str], length: u32) -> impl Iterator<Item = Vec<u8>> {
    let base = alphabet.len() as u64;
    (0..base.pow(length)).map(move |mut number| {
        let mut script = vec![];
        for _ in 0..length {
            script.extend_from_slice(alphabet[(number % base) as usize].as_bytes());
            number /= base;
        }
        script
    })
}

/// All single ASCII bytes, then all pairs of them.
pub fn singles_and_pairs() -> impl Iterator<Item = Vec<u8>> {
    let singles = (0..128u8).map(|a| vec![a]);
    let pairs = (0..128u8).flat_map(|a| (0..128u8).map(move |b| vec![a, b]));
    singles.chain(pairs)
}

/// Each keyword, and each with one byte removed, put in or exchanged: digits, letters of both sizes,
/// `_` and what stands beside them in ASCII.
pub fn near_keywords() -> impl Iterator<Item = Vec<u8>> {
    KEYWORDS.into_iter().flat_map(|keyword| {
        let word = keyword.as_bytes();
        let removed = (0..word.len()).map(move |at| [&word[..at], &word[at + 1..]].concat());
        let changed = (0..=word.len()).flat_map(move |at| {
            (b'/'..=b'{').flat_map(move |byte| {
                let behind = &word[word.len().min(at + 1)..];
                [&word[at..], behind].map(|rest| [&word[..at], &[byte], rest].concat())
            })
        });
        [word.to_vec()].into_iter().chain(removed).chain(changed)
    })
}

/// Numbers whose digits are about 2^53, or few, with the point at each place up to 24 from the
/// right, and with zeros before; each followed by a newline, and at the end.
pub fn numbers_about_the_limits() -> impl Iterator<Item = Vec<u8>> {
    const EXACT: u64 = 1 << 53;
    let about = (EXACT - 64..EXACT + 64).chain(EXACT * 10 - 3..EXACT * 10 + 3);
    (0..12).chain(about).flat_map(|m| {
        (0..25).flat_map(move |places| {
            let number = move |zeros: usize, end: &str| {
                let digits = format!("{}{m:0>1$}", "0".repeat(zeros), places + 1);
                let (whole, fraction) = digits.split_at(digits.len() - places);
                let point = if places == 0 { "" } else { "." };
                format!("{whole}{point}{fraction}{end}").into_bytes()
            };
            [0, 1, 30]
                .into_iter()
                .flat_map(move |zeros| ["\n", ""].map(|end| number(zeros, end)))
        })
    })
}

/// Scripts of the greatest length: one thing over and over, and some numbers that fill it.
pub fn longest() -> impl Iterator<Item = Vec<u8>> {
    let others = [
        "a", "if ", "0", "1", "1 ", "0.", "1.5 ", "\"", "\"\"", "\"\\n", "\"\\q", "\"\n", "#",
        "#\n", " ", "\r\n", "a\n", "\"a\"b", "@a", "1..", "!=!", "a1", "if1 ", "_0.",
    ];
    let units = MARKS.into_iter().chain(WRONG).chain(others);
    let filled = units.map(|unit| {
        let mut script = unit.repeat(LONGEST / unit.len());
        // Spaces where a part of the thing would be too much.
        script.extend(std::iter::repeat_n(' ', LONGEST - script.len()));
        script
    });
    // With nothing after it a number with a point stops the lexing by rule one.
    let ends = ["0", ".", "\n", "\""];
    let numbers = ends.map(|end| format!("1.{}{end}", "5".repeat(LONGEST - 3)));
    filled.chain(numbers).map(String::into_bytes)
}
