//! Scripts that are too much for the original but follow a pattern: what it makes of short ones
//! tells what long ones come to.

use std::iter::repeat_n;

use expected::lexing::{Lexing, LONGEST};
use expected::records::{kind, message, node, outcome, Node, NODE_WORDS};
use expected::rules::Rule;
use expected::scripts::{around, opened, opened_looks};
use expected::whole::{index, with_index, Answer};

use crate::compare::Trial;
use crate::whole::told;

/// Newlines and nothing else: the original walks all of them anew at each look.
pub fn newlines() -> impl Iterator<Item = Vec<u8>> {
    [1_000, 4_095, LONGEST].into_iter().map(lines)
}

fn lines(count: usize) -> Vec<u8> {
    repeat_n(b'\n', count).collect()
}

/// Newlines in a block that isn't closed: no script is known that has more looks for its tokens.
pub fn open_blocks() -> impl Iterator<Item = Vec<u8>> {
    let counts = [999, 4_094, LONGEST - 1];
    counts.into_iter().map(|count| opened(count).into_bytes())
}

/// A Set whose object holds a Set, and so on: the original copies the object each time, so that
/// each level doubles its memory.
pub fn sets() -> impl Iterator<Item = Vec<u8>> {
    [60, 100].into_iter().map(nested)
}

fn nested(count: usize) -> Vec<u8> {
    around("(", count, "a", ".b[0]=1)").into_bytes()
}

pub fn read_newlines(source: &[u8]) -> Trial {
    read(source, newlines_come_to(source))
}

pub fn read_open_block(source: &[u8]) -> Trial {
    told(source, &open_block_comes_to(source), |tried| {
        // Two nodes are made of each newline, and not kept.
        let [tokens, errors, ..] = tried.needs();
        tried.read(with_index([tokens, errors, 2 * tokens]));
    })
}

pub fn read_sets(source: &[u8]) -> Trial {
    read(source, sets_come_to(source))
}

/// A reading by each rule with just the room. These scripts have no name with a digit, no loop and no
/// number at the end, so that both rules read them alike.
fn read(source: &[u8], answer: Answer) -> Trial {
    told(source, &answer, |tried| {
        let rooms = tried.needs();
        tried.read(rooms);
    })
}

/// The original's tokens and their newline index, no errors and no nodes.
fn lexed(source: &[u8]) -> Answer {
    let script = std::str::from_utf8(source).expect("ASCII");
    let (lexing, _) = Lexing::of(Rule::One, script);
    Answer {
        index: index(&lexing.tokens),
        tokens: lexing.tokens,
        ..Answer::default()
    }
}

/// A node record with one token and up to three children.
fn record(kind: u32, token: u32, children: [u32; 3], next: u32) -> Node {
    let mut record = [0; NODE_WORDS];
    record[node::KIND] = kind;
    record[node::TOKENS[0]] = token;
    record[node::CHILDREN[0]..][..3].copy_from_slice(&children);
    record[node::NEXT] = next;
    record
}

/// Each two newlines are an Empty statement of 45 looks; with one left over, its own newline is missing.
fn newlines_come_to(source: &[u8]) -> Answer {
    let mut answer = lexed(source);
    let statements = source.len().div_ceil(2) as u32;
    for n in 0..statements {
        let (empty, number) = (2 * n + 1, 2 * n + 2);
        let next = if n + 1 < statements { number + 2 } else { 0 };
        answer.nodes.push(record(kind::EMPTY, 0, [0; 3], 0));
        let stmt = record(kind::EXPR_STMT, 0, [empty, 0, 0], next);
        answer.nodes.push(stmt);
        answer.so_far.push([0, 2 * n, 45 * n]);
    }
    answer.looks = 45 * statements;
    if source.len() % 2 == 1 {
        // It is missed at EOF.
        let end = source.len() as u32;
        answer.errors.push([message::NEW_LINE, end + 1, end]);
    }
    answer.first = if statements == 0 { 0 } else { 2 };
    answer.statements = statements as usize;
    answer
}

/// No statement is finished: at EOF no expression begins.
fn open_block_comes_to(source: &[u8]) -> Answer {
    let end = source.len() as u32;
    Answer {
        outcome: outcome::STOPPED,
        errors: vec![[message::EXPRESSION, end, end]],
        looks: opened_looks(source.len() - 1),
        so_far: vec![[0; 3]],
        ..lexed(source)
    }
}

/// The name; for each level the Get, the index, the Access, the value, the Set, whose object is the
/// node before the Get, and the brackets; the statement.
fn sets_come_to(source: &[u8]) -> Answer {
    let mut answer = lexed(source);
    let levels = source.iter().filter(|&&byte| byte == b'(').count() as u32;
    let nodes = &mut answer.nodes;
    // References of the last token that was passed, and of the last node.
    let (mut token, mut node) = (levels + 1, 1);
    nodes.push(record(kind::VAR, token, [0; 3], 0));
    for _ in 0..levels {
        let (name, brace) = (token + 2, token + 3);
        nodes.push(record(kind::GET, name, [node, 0, 0], 0));
        nodes.push(record(kind::LITERAL, token + 4, [0; 3], 0));
        nodes.push(record(kind::ACCESS, brace, [node + 1, node + 2, 0], 0));
        nodes.push(record(kind::LITERAL, token + 7, [0; 3], 0));
        nodes.push(record(kind::SET, name, [node, node + 4, node + 3], 0));
        nodes.push(record(kind::GROUPING, 0, [node + 5, 0, 0], 0));
        (token, node) = (token + 8, node + 6);
    }
    nodes.push(record(kind::EXPR_STMT, token, [node, 0, 0], 0));
    answer.first = node + 1;
    answer.statements = 1;
    answer.so_far = vec![[0; 3]];
    // The name and what comes round it; for each level the brackets, the name, the index and the value.
    answer.looks = 38 + levels * (9 + 3 + 27 + 18 + 21 + 1);
    answer
}

#[cfg(test)]
mod tests {
    use super::*;
    use expected::whole::Whole;

    /// What the original makes of a script by a rule.
    fn original(rule: Rule, source: &[u8]) -> Answer {
        let whole = Whole::of(rule, std::str::from_utf8(source).expect("ASCII"));
        whole.within(whole.needs())
    }

    #[test]
    fn short_ones_are_the_original_s() {
        for rule in Rule::BOTH {
            for source in (0..60).map(lines) {
                assert_eq!(newlines_come_to(&source), original(rule, &source));
            }
            for source in (0..60).map(|count| opened(count).into_bytes()) {
                assert_eq!(open_block_comes_to(&source), original(rule, &source));
            }
            for source in (0..9).map(nested) {
                assert_eq!(sets_come_to(&source), original(rule, &source));
            }
        }
    }
}
