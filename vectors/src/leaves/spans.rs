//! `e HEX i`: where the name of rule one, the name of rule two, the digits and the comment from i on
//! end. Each is the run of its bytes, whatever its first one is.
//!
//! The judge counts with Rust's own byte classes. Names are compared with the original.

use crate::leaves::FAR;
use crate::sheet::{hex, Sheet};
use expected::dice::Dice;
use oracle::{lex_by, Rule};

fn is_alpha(b: u8) -> bool {
    b.is_ascii_alphabetic() || b == b'_'
}

/// What a name of the rule may have after its first byte.
fn is_named(rule: Rule, b: u8) -> bool {
    is_alpha(b) || (rule == Rule::Two && b.is_ascii_digit())
}

/// Where the run of such bytes from i on ends; i itself past the end.
fn end(bytes: &[u8], i: usize, is_inner: impl Fn(u8) -> bool) -> usize {
    let rest = bytes.get(i..).unwrap_or(&[]);
    i + rest.iter().take_while(|b| is_inner(**b)).count()
}

/// Where the name from i on ends by a rule. A name that begins as one must is the original's.
fn name_end(rule: Rule, bytes: &[u8], i: usize) -> usize {
    let name = end(bytes, i, |b| is_named(rule, b));
    if bytes.get(i).is_some_and(|b| is_alpha(*b)) {
        if let Ok(script) = std::str::from_utf8(&bytes[i..]) {
            let first = &lex_by(rule, script).tokens[0];
            assert_eq!(
                first.lexeme,
                script[..name - i],
                "the original reads the same name"
            );
        }
    }
    name
}

fn add_span(sheet: &mut Sheet, bytes: &[u8], i: usize) {
    let [one, two] = Rule::BOTH.map(|rule| name_end(rule, bytes, i));
    let digits = end(bytes, i, |b| b.is_ascii_digit());
    let comment = end(bytes, i, |b| b != b'\n');
    sheet.add('e', &[&hex(bytes), &i], &[&one, &two, &digits, &comment]);
}

pub fn add(sheet: &mut Sheet) {
    for b in *b"\0\n #./09:@AZ[_`az{\x80\xff" {
        add_span(sheet, &[b], 0);
        for around in [b'a', b'1'] {
            let bytes = [around, b, around];
            add_span(sheet, &bytes, 0);
            add_span(sheet, &bytes, 1);
        }
    }
    for i in [0, 1, 2, 3, 4, 5, 6, 7, FAR[0], FAR[1], FAR[2]] {
        add_span(sheet, b"a1_\n2b", i);
    }
    add_span(sheet, b"", 0);
    add_span(sheet, b"", 1);
    add_span(sheet, &[b'a'; 256], 0);
    add_span(sheet, &[b'7'; 64], 63);
    add_span(sheet, &b"a1".repeat(128), 0);
    add_span(sheet, b"9a_0Z!", 0);
    let mut dice = Dice::new(0x7370_616e);
    for _ in 0..10 {
        let pieces: [&[u8]; 7] = [b"a", b"Z", b"_", b"0", b"9", b"\n", b"\xc3\xa9"];
        let bytes = dice.string(&pieces, 12);
        let i = dice.roll(bytes.len() as u64 + 1) as usize;
        add_span(sheet, &bytes, i);
    }
}
