//! Ways to write what a generated script has in its places.

/// Numbers, among them long ones.
pub const NUMBERS: [&str; 7] = [
    "0",
    "2.5",
    "12",
    "3.",
    "007",
    "9007199254740993",
    "0.00000000000000000000001",
];

/// Strings: empty, escaped, over several lines, with a letter of two bytes.
pub const STRINGS: [&str; 6] = [
    "\"\"",
    "\"a b\"",
    "\"\\n\\t\\\"\"",
    "\"\n\"",
    "\"a\n\nb\"",
    "\"é\"",
];

/// What gives a message of the lexer, and a newline that raises no line.
pub const BETWEEN: [&str; 5] = [" @ ", " ! ", " é ", " \"\\q ", " \"\\\n "];
