//! The safe call gives, on the old way, what the original gives: tokens, errors, statements, and where
//! it stops. By rule two it gives what the original does with that rule's lines changed.

mod common;

use expected::whole::Whole;
use kettleplume::{read, read_as, read_with, Error, Options, Rule, Tables};
use oracle::{on_large_stack, read_by, Reading, Stop};

/// How many scripts ended in each way.
#[derive(Debug, Default)]
struct Ends {
    clean: usize,
    with_errors: usize,
    stopped: usize,
    at_point: usize,
    too_deep: usize,
}

/// The types are two, compiled from the same files; what they print is the same if they are.
fn same<A: std::fmt::Debug, B: std::fmt::Debug>(ours: &[A], original: &[B], what: &str) {
    assert_eq!(format!("{ours:?}"), format!("{original:?}"), "{what}");
}

fn compare(rule: Rule, script: &str, tables: &mut Tables, ends: &mut Ends) {
    let options = Options {
        rule,
        ..Options::ORIGINAL
    };
    let ours = read_as(options, tables, script);
    let rule = match rule {
        Rule::One => oracle::Rule::One,
        Rule::Two => oracle::Rule::Two,
    };
    let original: Reading = read_by(rule, script);
    let what = format!("of {script:?}");
    same(&ours.tokens, &original.tokens, &what);
    let errors = ours.errors.iter();
    let records: Vec<_> = errors
        .map(|e| [e.number, e.recorded_line as u32, e.pos as u32])
        .collect();
    assert_eq!(records, Whole::of(rule, script).errors(), "{what}");
    // The original goes on where a level too many opens: then only what came before is compared.
    let stmts = match ours.end {
        Err(Error::TooDeep) => ours.stmts.len(),
        _ => original.stmts.len(),
    };
    same(&ours.stmts, &original.stmts[..stmts], &what);
    let (count, stop) = match ours.end {
        Err(Error::TooDeep) => return ends.too_deep += 1,
        Ok(()) if ours.errors.is_empty() => (&mut ends.clean, Stop::None),
        Ok(()) => (&mut ends.with_errors, Stop::None),
        Err(Error::Stopped) => (&mut ends.stopped, Stop::Parsing),
        Err(Error::PointAtEnd) => (&mut ends.at_point, Stop::Lexing),
        Err(other) => panic!("{other} {what}"),
    };
    *count += 1;
    assert_eq!(original.stop, stop, "{what}");
}

#[test]
fn reads_what_the_original_reads() {
    on_large_stack(|| {
        for rule in [Rule::One, Rule::Two] {
            let (mut tables, mut ends) = (Tables::new(), Ends::default());
            for script in common::scripts() {
                compare(rule, &script, &mut tables, &mut ends);
            }
            println!("{ends:?}");
            // Each way has to be tried often enough to mean something.
            assert!(ends.clean > 1000 && ends.with_errors > 1000, "{ends:?}");
            assert!(ends.stopped > 1000 && ends.too_deep > 10, "{ends:?}");
            match rule {
                Rule::One => assert!(ends.at_point > 20, "{ends:?}"),
                Rule::Two => assert_eq!(ends.at_point, 0),
            }
        }
    });
}

/// Tables that were used before make no difference, nor do larger ones.
#[test]
fn tables_are_used_again() {
    let mut tables = Tables::new();
    for script in ["a = [1, 2, 3]\n", "b(", "", "\"s\"", "a = [1, 2, 3, 4]\n"] {
        let again = read_with(&mut tables, script);
        assert_eq!(format!("{again:?}"), format!("{:?}", read(script)));
    }
}

/// Text, a string and bytes are all sources.
#[test]
fn sources_of_each_type() {
    let text = "a = \"é\"\n";
    let expected = format!("{:?}", read(text));
    let string = String::from(text);
    assert_eq!(format!("{:?}", read(string)), expected);
    assert_eq!(format!("{:?}", read(text.as_bytes())), expected);
}

#[test]
fn refusals_keep_nothing() {
    for (source, error) in [
        (b"a = \x80\n".to_vec(), Error::NoText),
        (b"a = \xc3".to_vec(), Error::NoText),
        (b"a = \"x\xed\xa0\x80y\"\n".to_vec(), Error::NoText),
        (vec![b' '; 65_536], Error::TooLong),
        (vec![0xff; 65_536], Error::TooLong),
    ] {
        let script = read(source);
        assert_eq!(script.end, Err(error));
        let kept = [script.tokens.len(), script.errors.len(), script.stmts.len()];
        assert_eq!(kept, [0, 0, 0], "{error}");
    }
}

#[test]
fn parts() {
    let parts = read("a\nb)\n").into_parts();
    assert_eq!(parts.end, Err(Error::Stopped));
    let counts = [parts.tokens.len(), parts.errors.len(), parts.stmts.len()];
    assert_eq!(counts, [6, 2, 2]);
}
