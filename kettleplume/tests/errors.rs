//! Errors and messages in words.

use std::collections::HashSet;

use kettleplume::{message, read_as, Error, Options, Tables, MESSAGES};

/// Those that are no outcome and have no number.
const UNNUMBERED: [Error; 2] = [Error::TreesTooLarge, Error::OtherTokens];

/// Fails to compile when there is an error that isn't in one of the two lists, or has to be.
fn listed(error: Error) -> bool {
    match error {
        Error::Stopped
        | Error::PointAtEnd
        | Error::NoText
        | Error::TooLong
        | Error::TokenRoom
        | Error::ErrorRoom
        | Error::NodeRoom
        | Error::TooDeep
        | Error::NoString
        | Error::BufferRoom
        | Error::NotParsed
        | Error::WrongRule
        | Error::Mismatch => Error::NUMBERED.contains(&error),
        Error::TreesTooLarge | Error::OtherTokens => UNNUMBERED.contains(&error),
    }
}

#[test]
fn every_error_has_its_number() {
    let numbers: Vec<_> = Error::NUMBERED.iter().map(|e| e.number()).collect();
    let expected = [1, 2, 3, 4, 5, 6, 7, 8, 9, 10, 11, 13, 18].map(Some);
    assert_eq!(numbers, expected);
    for error in Error::NUMBERED {
        assert!(listed(error));
        assert_eq!(error.number().and_then(Error::of), Some(error));
    }
    for error in UNNUMBERED {
        assert!(listed(error));
        assert_eq!(error.number(), None);
    }
    for number in [0, 12, 14, 17, 19, 20, u32::MAX] {
        assert_eq!(Error::of(number), None, "{number}");
    }
}

#[test]
fn every_error_has_a_sentence_of_its_own() {
    let mut seen = HashSet::new();
    for error in Error::NUMBERED.into_iter().chain(UNNUMBERED) {
        let sentence = error.to_string();
        assert!(
            sentence.len() > 20 && !sentence.contains("  "),
            "{sentence}"
        );
        assert!(seen.insert(sentence), "{error:?}");
    }
}

#[test]
fn messages_by_number() {
    assert_eq!(message(0), None);
    assert_eq!(message(30), None);
    for (number, text) in (1..).zip(MESSAGES) {
        assert_eq!(message(number), Some(text));
        assert_eq!(oracle::message_number(text), Some(number));
    }
}

/// An error of each sort that a script can have, with its place.
#[test]
fn errors_of_a_script() {
    let options = Options::ORIGINAL;
    let script = read_as(options, &mut Tables::new(), "a !\n@ 1 2\n)");
    let told: Vec<_> = script.errors.iter().map(|e| e.to_string()).collect();
    let expected = [
        "1:3: '!' cannot be used here",
        "2:1: Illegal character",
        "2:5: Expected new line",
        "3:1: Undefined expression",
    ];
    assert_eq!(told, expected);
    let places: Vec<_> = script.errors.iter().map(|e| e.pos).collect();
    assert_eq!(places, [2, 4, 8, 10]);
}

/// A script, its answer as in an outline, and its errors: message, line, pos.
type Case = (&'static str, [u32; 5], &'static [[u32; 3]]);

/// Each says by hand where the parser's errors are: at the token whose line they report.
#[rustfmt::skip]
const CASES: [Case; 17] = [
    ("a b\n", [0, 4, 1, 4, 2], &[[4, 1, 2]]),
    ("a1", [0, 4, 1, 4, 2], &[[4, 1, 1]]),
    ("break", [0, 3, 1, 1, 1], &[[19, 1, 0]]),
    ("a )\n", [1, 4, 2, 2, 2], &[[4, 1, 2], [28, 1, 2]]),
    // A string is recorded with the line of its end; its place is its quote. Here it is `b`.
    ("\"x\ny\" b\n", [0, 4, 1, 4, 2], &[[4, 2, 6]]),
    // A new line has the number of the line after it.
    ("let\n", [1, 3, 1, 0, 0], &[[5, 2, 3]]),
    ("[1\n", [1, 4, 1, 0, 0], &[[20, 2, 2]]),
    // The first new line, since the cursor goes back: not what stands after it.
    ("(a\n\nb\n", [0, 7, 1, 5, 3], &[[12, 2, 2]]),
    // The keyword, also after new lines.
    ("{\n  continue\n}\n", [0, 7, 1, 2, 2], &[[19, 2, 4]]),
    // The `=` of the outermost assignment that can't be one.
    ("a = 1 = 2\n", [1, 7, 1, 0, 0], &[[23, 1, 6]]),
    ("1=2", [1, 5, 1, 0, 0], &[[23, 1, 1]]),
    // An added new line and EOF stand at the end.
    ("{", [1, 3, 1, 0, 0], &[[28, 1, 1]]),
    ("\n", [0, 2, 1, 2, 2], &[[4, 2, 1]]),
    ("for 1", [1, 4, 3, 0, 0], &[[16, 1, 4], [15, 1, 5], [28, 1, 5]]),
    ("class A { f()", [0, 8, 2, 4, 4], &[[7, 1, 13], [4, 1, 13]]),
    // Bytes are counted, not characters.
    ("\"é\" b", [0, 4, 1, 4, 2], &[[4, 1, 5]]),
    ("# é\r\n\tbreak\r\n", [0, 4, 1, 1, 1], &[[19, 2, 7]]),
];

#[test]
fn places_of_the_parsers_errors() {
    let mut tables = Tables::new();
    for (script, answer, errors) in CASES {
        let records = tables.read(script.as_bytes());
        let got = records.answer;
        let got = [got.outcome, got.tokens, got.errors, got.nodes, got.first];
        assert_eq!((got, records.errors), (answer, errors), "{script:?}");
    }
}

/// What the crate hands out has them too, and the state that the original's users look at.
#[test]
fn places_in_scripts_and_states() {
    for (script, _, errors) in CASES {
        let read = kettleplume::read(script).into_parts().errors;
        let records: Vec<_> = read
            .iter()
            .map(|e| [e.number, e.recorded_line as u32, e.pos as u32])
            .collect();
        assert_eq!(records, errors, "{script:?}");
        let mut state = kettleplume::state::InterpreterState::new(script.to_string());
        let _ = kettleplume::read_state(&mut state);
        let states = state.errors.iter().map(|e| (e.line as usize, e.pos));
        assert!(states.eq(read.iter().map(|e| (e.recorded_line, e.pos))));
    }
}

/// Lines and columns are those of the place, whatever line is recorded.
#[test]
fn lines_and_columns_of_places() {
    let places = |script: &str| -> Vec<_> {
        let errors = kettleplume::read(script).into_parts().errors;
        errors.iter().map(|e| (e.line, e.column)).collect()
    };
    assert_eq!(places("let\n"), [(1, 4)]);
    assert_eq!(places("let\r\n"), [(1, 4)]);
    assert_eq!(places("a\n\t\"水\" b"), [(2, 6)]);
    assert_eq!(places("a \"\n\" \n"), [(1, 3)]);
    assert_eq!(places("\n"), [(2, 1)]);
    assert_eq!(places("{\n"), [(2, 1)]);
    assert_eq!(places("{"), [(1, 2)]);
}
