//! The tables of words. `t words n`, `o words n`, `p words n`: a token, a node or an error put into
//! a table at n. `l words r m`: what follows a node. `z words n`: the nodes from n on made 0.
//! `r words i`: a token's words and the table's rooms.
//!
//! The judge is a plain rendering of `docs/RULES.md`, 'Records'.

use crate::sheet::{list, Sheet};
use expected::records::node::NEXT;
use expected::records::{ERROR_WORDS, NODE_WORDS, TOKEN_WORDS};

/// The most words that a table of the test program has.
const MOST_WORDS: usize = 64;

/// What stands in a table before a vector changes it.
const FILL: u32 = 7;

fn table(words: usize) -> Vec<u32> {
    vec![FILL; words]
}

/// The words of record n, if the table has it: a spare tail is never a record.
fn record(table: &mut [u32], width: usize, n: u32) -> Option<&mut [u32]> {
    table.chunks_exact_mut(width).nth(n as usize)
}

fn add_push(sheet: &mut Sheet, letter: char, width: usize, words: usize, n: u32) {
    let mut table = table(words);
    let found = record(&mut table, width, n);
    let fits = found.is_some();
    for (word, value) in found.into_iter().flatten().zip(101..) {
        *word = value;
    }
    sheet.add(letter, &[&words, &n], &[&(fits as u32), &list(&table)]);
}

fn add_link(sheet: &mut Sheet, words: usize, r: u32, m: u32) {
    let mut table = table(words);
    // A reference is index + 1, and 0 is nothing.
    if let Some(node) = r
        .checked_sub(1)
        .and_then(|n| record(&mut table, NODE_WORDS, n))
    {
        node[NEXT] = m;
    }
    sheet.add('l', &[&words, &r, &m], &[&list(&table)]);
}

fn add_zero(sheet: &mut Sheet, words: usize, n: u32) {
    let mut table = table(words);
    for word in table.iter_mut().skip(NODE_WORDS * n as usize) {
        *word = 0;
    }
    sheet.add('z', &[&words, &n], &[&list(&table)]);
}

/// The words of a token that there is a function for: kind, start, length and line.
const READ: usize = 4;

fn add_read(sheet: &mut Sheet, words: usize, i: u32) {
    let mut table: Vec<u32> = (0..words as u32).collect();
    // Past the end a token reads as zeros, EOF's kind.
    let token = record(&mut table, TOKEN_WORDS, i).map_or(vec![0; READ], |t| t[..READ].to_vec());
    let (tokens, errors, nodes) = (words / TOKEN_WORDS, words / ERROR_WORDS, words / NODE_WORDS);
    sheet.add(
        'r',
        &[&words, &i],
        &[&list(&token), &tokens, &errors, &nodes],
    );
}

/// Sizes of a table: none, round one record, two, two with the longest spare tail, and the largest.
fn sizes(width: usize) -> [usize; 7] {
    let (one, two) = (width, 2 * width);
    let spare = width - 1;
    [0, one - 1, one, one + 1, two, two + spare, MOST_WORDS]
}

/// Numbers of records round the room, and for a large table ones whose first word, counted in 32
/// bits, would come round to the table's start.
fn numbers(width: usize, words: usize) -> Vec<u32> {
    let room = (words / width) as u32;
    let mut numbers = vec![0, room.saturating_sub(1), room, room + 1, u32::MAX];
    if words == MOST_WORDS {
        let round = u32::MAX / width as u32 + 1;
        numbers.extend([room / 2, round]);
    }
    numbers
}

pub fn add(sheet: &mut Sheet) {
    for (letter, width) in [('t', TOKEN_WORDS), ('o', NODE_WORDS), ('p', ERROR_WORDS)] {
        for words in sizes(width) {
            for n in numbers(width, words) {
                add_push(sheet, letter, width, words, n);
            }
        }
    }
    for words in sizes(NODE_WORDS) {
        for n in numbers(NODE_WORDS, words) {
            add_link(sheet, words, n, 5);
            add_zero(sheet, words, n);
        }
    }
    for (r, m) in [(1, 0), (1, u32::MAX), (2, 1), (8, 1), (0, u32::MAX)] {
        add_link(sheet, MOST_WORDS, r, m);
    }
    for words in sizes(TOKEN_WORDS) {
        for i in numbers(TOKEN_WORDS, words) {
            add_read(sheet, words, i);
        }
    }
}
