//! Random scripts for theorems, some of them with tables that are too small.

use super::{End, Script};
use expected::maker::Maker;
use expected::records::{outcome, rule, way};
use expected::whole::{with_index, Whole};
use oracle::{read, Rule, Stop};

/// The next script.
pub fn script(maker: &mut Maker) -> Script {
    loop {
        let made = match maker.roll(8) {
            0 => few_nodes(maker),
            1 => few_errors(maker),
            _ => Some(plain(maker)),
        };
        if let Some(script) = made {
            return script;
        }
    }
}

/// A script that the original reads, by either rule, in tables that hold what is read.
fn plain(maker: &mut Maker) -> Script {
    Script {
        rule: [rule::ONE, rule::TWO][maker.roll(2)],
        way: [way::STOP, way::GO_ON][maker.roll(2)],
        text: maker.text(),
        ends: None,
    }
}

/// A script that the original reads without an error, in a node table that is too small. All
/// statements before the one that finds no room are kept.
fn few_nodes(maker: &mut Maker) -> Option<Script> {
    let text = maker.text();
    let reading = read(&text);
    if reading.stop != Stop::None || !reading.errors.is_empty() {
        return None;
    }
    let whole = Whole::of(Rule::One, &text);
    let ends = whole.statement_numbers();
    let room = maker.roll(*ends.last()? as usize);
    let tokens = reading.tokens.len();
    let kept = ends.iter().filter(|end| **end as usize <= room).count();
    Some(Script {
        rule: rule::ONE,
        way: way::GO_ON,
        text,
        ends: Some(End {
            outcome: outcome::NODE_ROOM,
            rooms: with_index([tokens + maker.roll(3), maker.roll(2), room]),
            kept: [tokens, 0, kept],
        }),
    })
}

/// Lines without an error, then a statement with errors, in an error table that is too small.
fn few_errors(maker: &mut Maker) -> Option<Script> {
    let before = maker.lines().join(" ");
    let (front, text) = (read(&before), maker.text());
    let alone = read(&text);
    let single = match alone.stop {
        Stop::None => alone.stmts.len() == 1,
        Stop::Parsing => alone.stmts.is_empty(),
        Stop::Lexing => false,
    };
    if front.stop != Stop::None || !front.errors.is_empty() || !single || text.contains('!') {
        return None;
    }
    let text = format!("{before}\n{text}");
    let reading = read(&text);
    let kept = front.stmts.len();
    if alone.errors.is_empty()
        || reading.errors.len() != alone.errors.len()
        || reading.stmts.len() != kept + alone.stmts.len()
        || format!("{:?}", &reading.stmts[..kept]) != format!("{:?}", front.stmts)
    {
        return None;
    }
    let room = maker.roll(reading.errors.len());
    let tokens = reading.tokens.len();
    Some(Script {
        rule: rule::ONE,
        way: way::GO_ON,
        text,
        ends: Some(End {
            outcome: outcome::ERROR_ROOM,
            rooms: with_index([tokens, room, 3 * tokens]),
            kept: [tokens, room, kept],
        }),
    })
}
