//! The numbers of the messages are those of `docs/RULES.md`, 'Messages', and no message is missing.

use oracle::{message_number, MESSAGES};

const LEXER: &str = include_str!("../src/lexer.rs");
const PARSER: &str = include_str!("../src/parser.rs");

/// The distinct message texts of a carried file, in the order in which they first stand there.
/// A message is a string literal that is made a `String` and has a space in it.
fn messages(file: &str) -> Vec<String> {
    let mut found: Vec<String> = vec![];
    for line in file.lines() {
        let Some(end) = line.find("\".to_string()") else {
            continue;
        };
        // A line has one such literal at most; a quote inside it is escaped.
        let line = line[..end].replace("\\\"", "\u{1}");
        let (_, text) = line.rsplit_once('"').expect("an opening quote");
        let text = text.replace('\u{1}', "\"");
        if text.contains(' ') && !found.contains(&text) {
            found.push(text);
        }
    }
    found
}

#[test]
fn numbers_follow_the_order_in_the_files() {
    // `leave_function` stands above `fn_stmt` and has its message 10; it doesn't count.
    let (before, rest) = PARSER.split_once("    fn leave_function").unwrap();
    let (leave_function, after) = rest.split_once("    fn enter_loop").unwrap();
    assert_eq!(messages(before), [""; 0]);
    assert_eq!(messages(leave_function), [MESSAGES[9]]);

    let mut all = messages(LEXER);
    assert_eq!(all.len(), 3);
    all.extend(messages(after));
    assert_eq!(all, MESSAGES);
}

#[test]
fn each_message_has_its_own_number() {
    for (number, text) in (1..).zip(MESSAGES) {
        assert_eq!(message_number(text), Some(number), "{text}");
    }
    for text in ["", "Not a function", "init", "Expected new line "] {
        assert_eq!(message_number(text), None, "{text}");
    }
}
