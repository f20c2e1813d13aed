//! Reads of one statement over parsers and tables that no call left: what the host changed between
//! two calls, or never had from `begin`.
//!
//! The conditions under which a read answers 18 or 13, and that it then changes nothing, are written here
//! from `docs/RULES.md`, 'One statement at a time'. Where a read goes on with something that no reading
//! left, the original can't be asked: then its answer is held to what any read keeps to, and its looks to
//! those of the same read from 0.

use std::collections::BTreeMap;

use expected::records::{
    node, outcome, rule, token, Error, Token, ERROR_WORDS, INDEX_WORDS, LONGEST, NODE_WORDS,
    TOKEN_WORDS, WIDTHS,
};
use expected::rules::named;
use kettleplume::border::{Answer, Parser};

use crate::host::Guarded;
use crate::parse_scripts::Scripts;
use expected::mixed_dice::Dice;

/// Two kinds of tokens, and how many kinds there are.
const EOF: u32 = oracle::token::Token::EOF as u32;
const NEWLINE: u32 = oracle::token::Token::Newline as u32;
pub const KINDS: usize = oracle::token::Token::Catch as usize + 1;

/// The answers of a read that goes on.
pub const READ: [u32; 6] = [
    outcome::DONE,
    outcome::STOPPED,
    outcome::ERROR_ROOM,
    outcome::NODE_ROOM,
    outcome::TOO_DEEP,
    outcome::MORE,
];

/// A parser and what is lent beside it.
#[derive(Debug, Clone, PartialEq)]
pub struct Lent {
    pub parser: Parser,
    pub source: Vec<u8>,
    pub tokens: Vec<u32>,
    pub errors: Vec<u32>,
    pub nodes: Vec<u32>,
    pub index: Vec<u32>,
}

impl Lent {
    /// What begin and so many reads leave, by the rule and on the way that this parser has.
    pub fn begun(
        parser: Parser,
        source: &[u8],
        words: [usize; 4],
        fill: u32,
        reads: usize,
    ) -> Lent {
        let [tokens, errors, nodes, index] = words.map(|words| vec![fill; words]);
        let mut lent = Lent {
            parser,
            source: source.to_vec(),
            tokens,
            errors,
            nodes,
            index,
        };
        lent.begin();
        for _ in 0..reads {
            lent.next();
        }
        lent
    }

    pub fn begin(&mut self) -> Answer {
        self.call(|parser, source, [tokens, errors, nodes, index]| {
            parser.begin(source, tokens, errors, nodes, index)
        })
    }

    // Its last answer is given again and again, so it is no iterator.
    #[allow(clippy::should_implement_trait)]
    pub fn next(&mut self) -> Answer {
        self.call(|parser, source, [tokens, errors, nodes, index]| {
            parser.next(source, tokens, errors, nodes, index)
        })
    }

    /// Makes a call with the tables between guards, which it may not touch.
    fn call(
        &mut self,
        function: impl FnOnce(&mut Parser, &[u8], [&mut [u32]; 4]) -> Answer,
    ) -> Answer {
        let mut guarded = self.tables().map(|table| Guarded::holding(table));
        let tables = guarded.each_mut().map(Guarded::lent);
        let answer = function(&mut self.parser, &self.source, tables);
        assert!(guarded.iter().all(Guarded::intact), "the guards: {self:?}");
        [self.tokens, self.errors, self.nodes, self.index] = guarded.map(Guarded::table);
        answer
    }

    fn tables(&self) -> [&Vec<u32>; 4] {
        [&self.tokens, &self.errors, &self.nodes, &self.index]
    }

    /// Whether a read can go on: the counts and the last statement fit the tables, the tokens the newline
    /// index too, the cursor is below the token count, the loop count isn't over it, and the last token is the only EOF.
    fn fits(&self) -> bool {
        let p = &self.parser;
        let tokens: &[Token] = self.tokens.as_chunks().0;
        let [_, errors, nodes, index] = self.rooms();
        let count = p.tokens as usize;
        count <= tokens.len()
            && count <= index
            && p.errors as usize <= errors
            && p.nodes as usize <= nodes
            && p.last as usize <= nodes
            && p.current < p.tokens
            && p.loops <= p.tokens
            && tokens[..count].iter().position(|t| t[token::KIND] == EOF) == Some(count - 1)
    }

    /// Whether the newline index leads from a Newline past the tokens.
    fn leads_past(&self) -> bool {
        let tokens: &[Token] = self.tokens.as_chunks().0;
        let words = tokens.iter().zip(&self.index);
        words
            .take(self.parser.tokens as usize)
            .any(|(t, word)| t[token::KIND] == NEWLINE && *word > self.parser.tokens)
    }

    /// Whether the parser's rule is one.
    fn is_ruled(&self) -> bool {
        named(self.parser.rule).is_some()
    }

    /// How many records each table has room for.
    fn rooms(&self) -> [usize; 4] {
        let words = self.tables().map(Vec::len);
        [0, 1, 2, 3].map(|table| words[table] / WIDTHS[table])
    }

    /// The answer that the parser holds.
    fn held(&self) -> Answer {
        let p = &self.parser;
        Answer {
            outcome: p.outcome,
            tokens: p.tokens,
            errors: p.errors,
            nodes: p.nodes,
            first: p.first,
            looks: p.looks,
        }
    }

    /// Changes a word of the parser.
    fn damage_parser(&mut self, dice: &mut Dice) {
        let words = self.tables().map(Vec::len);
        let count = self.parser.tokens;
        let p = &mut self.parser;
        let field = match dice.below(12) {
            0 => &mut p.current,
            1 => &mut p.loops,
            2 => &mut p.tokens,
            3 => &mut p.errors,
            4 => &mut p.nodes,
            5 => &mut p.first,
            6 => &mut p.last,
            7 => &mut p.ended,
            8 => &mut p.way,
            9 => &mut p.rule,
            10 => &mut p.looks,
            _ => &mut p.outcome,
        };
        *field = match dice.below(7) {
            0 => field.wrapping_add(1),
            1 => field.wrapping_sub(1),
            2 => count.wrapping_add(dice.below(3) as u32).wrapping_sub(1),
            3 => (words[dice.below(4)] / WIDTHS[dice.below(4)]) as u32,
            4 => dice.below(40) as u32,
            5 => u32::MAX - dice.below(2) as u32,
            _ => dice.word() as u32,
        };
    }

    /// Changes some words of the newline index, or its length: to what leads back, to the token itself, over
    /// others, to EOF, past it, or far away.
    fn damage_index(&mut self, dice: &mut Dice) {
        let count = self.parser.tokens;
        if self.index.is_empty() || dice.one_in(8) {
            let length = (count as usize + dice.below(3)).saturating_sub(dice.below(4));
            self.index.resize(length.min(LONGEST), dice.word() as u32);
            return;
        }
        let words = match dice.below(4) {
            0 => 0..self.index.len(),
            _ => {
                let at = dice.below(self.index.len());
                at..at + 1
            }
        };
        let any = dice.word() as u32;
        let how = dice.below(8);
        for at in words {
            let own = at as u32 + 1;
            self.index[at] = match how {
                0 => 0,
                1 => own - 1,
                2 => own,
                3 => own + 1 + any % 4,
                4 => count,
                5 => count.wrapping_add(1),
                6 => u32::MAX - any % 2,
                _ => any.rotate_left(own),
            };
        }
    }

    /// Changes a word of a table, or a table's length.
    fn damage_tables(&mut self, dice: &mut Dice) {
        let table = match dice.below(4) {
            0 | 1 => &mut self.tokens,
            2 => &mut self.errors,
            _ => &mut self.nodes,
        };
        if dice.one_in(4) {
            let length = table.len() + dice.below(20);
            table.resize(length.saturating_sub(dice.below(20)), dice.word() as u32);
        } else if !table.is_empty() {
            let at = dice.below(table.len());
            // A kind, among them EOF, Newline and some that no token has.
            let at = if dice.one_in(2) {
                at / TOKEN_WORDS * TOKEN_WORDS
            } else {
                at
            };
            table[at] = match dice.below(4) {
                0 => [EOF, NEWLINE][dice.below(2)],
                1 => (KINDS + dice.below(3)) as u32,
                2 => dice.below(KINDS) as u32,
                _ => dice.word() as u32,
            };
        }
    }
}

/// How often a read gave what, by its outcome.
pub type Counts = BTreeMap<u32, u64>;

/// Tries so many damaged parsers and tables with some reads each; what is wrong, if anything is.
pub fn damaged(count: usize, seed: u64) -> Result<Counts, String> {
    let (mut dice, mut scripts) = (Dice::new(seed), Scripts::new(seed));
    let mut counts = Counts::new();
    for _ in 0..count {
        let source = scripts.any();
        let length = source.len();
        let words = [
            TOKEN_WORDS * (length + 2),
            ERROR_WORDS * dice.below(length + 3),
            NODE_WORDS * dice.below(2 * length + 3),
            INDEX_WORDS * (length + 2),
        ];
        let words = words.map(|words| words + dice.below(NODE_WORDS));
        let parser = Parser {
            rule: [rule::ONE, rule::TWO][dice.below(2)],
            way: dice.below(3) as u32,
            ..Parser::default()
        };
        let fill = dice.word() as u32;
        let mut lent = Lent::begun(parser, &source, words, fill, dice.below(4));
        for _ in 0..=dice.below(3) {
            match dice.below(3) {
                0 => lent.damage_parser(&mut dice),
                1 => lent.damage_tables(&mut dice),
                _ => lent.damage_index(&mut dice),
            }
        }
        for _ in 0..3 {
            let before = lent.clone();
            let answer = lent.next();
            *counts.entry(answer.outcome).or_default() += 1;
            if let Some(what) = wrong(&before, &lent, &answer) {
                return Err(told(what, &before, &lent, &answer));
            }
        }
        if !lent.is_ruled() {
            let before = lent.clone();
            let answer = lent.begin();
            if (&lent, answer) != (&before, refusal(outcome::WRONG_RULE)) {
                return Err(told("a begin without a rule", &before, &lent, &answer));
            }
        }
    }
    Ok(counts)
}

fn told(what: &str, before: &Lent, after: &Lent, answer: &Answer) -> String {
    format!("{what}\nanswer: {answer:?}\nbefore: {before:?}\nafter: {after:?}")
}

/// An answer that keeps nothing.
fn refusal(outcome: u32) -> Answer {
    Answer {
        outcome,
        ..Answer::default()
    }
}

/// What is wrong with a read, if anything is.
fn wrong(before: &Lent, after: &Lent, answer: &Answer) -> Option<&'static str> {
    if before.parser.ended != 0 {
        let same = before == after && *answer == before.held();
        return (!same).then_some("after the final answer");
    }
    if !before.fits() {
        let same = before == after && *answer == refusal(outcome::MISMATCH);
        return (!same).then_some("what doesn't fit");
    }
    if !before.is_ruled() {
        let same = before == after && *answer == refusal(outcome::WRONG_RULE);
        return (!same).then_some("what has no rule");
    }
    if *answer != after.held() {
        return Some("the parser doesn't hold the answer");
    }
    if !READ.contains(&answer.outcome) {
        return Some("the outcome");
    }
    if (answer.outcome == outcome::MORE) == (after.parser.ended != 0) {
        return Some("the mark of the end");
    }
    kept(before, after).or_else(|| carried(before, after))
}

/// A read adds its looks to those that the parser had, as far as a word counts. They have no bearing on
/// anything else.
fn carried(before: &Lent, after: &Lent) -> Option<&'static str> {
    let mut from_zero = before.clone();
    from_zero.parser.looks = 0;
    from_zero.next();
    let looks = &mut from_zero.parser.looks;
    *looks = looks.saturating_add(before.parser.looks);
    (from_zero != *after).then_some("the looks")
}

/// What a read that goes on leaves: tokens, records before those that it adds, errors that are about
/// tokens, and the counts' order.
fn kept(before: &Lent, after: &Lent) -> Option<&'static str> {
    let (p, q) = (&before.parser, &after.parser);
    let words = |parser: &Parser| {
        let (errors, nodes) = (parser.errors as usize, parser.nodes as usize);
        [ERROR_WORDS * errors, NODE_WORDS * nodes]
    };
    let [[errors, nodes], [new_errors, new_nodes]] = [words(p), words(q)];
    let mut linked = before.nodes.clone();
    if p.last > 0 && q.last != p.last {
        linked[NODE_WORDS * (p.last as usize - 1) + node::NEXT] = q.last;
    }
    // The statement before is linked to the new one, wherever the parser said that it was.
    let same_nodes = after.nodes[..nodes.min(new_nodes)] == linked[..nodes.min(new_nodes)]
        || (p.last > p.nodes && q.ended == 0);
    if (p.rule, p.way) != (q.rule, q.way) {
        Some("the rule or the way")
    } else if after.tokens != before.tokens || after.source != before.source || p.tokens != q.tokens
    {
        Some("the tokens")
    } else if after.index != before.index {
        Some("the newline index")
    } else if q.errors < p.errors
        || after.errors[..errors] != before.errors[..errors]
        || after.errors[new_errors..] != before.errors[new_errors..]
    {
        Some("the errors")
    } else if !about_tokens(after, &after.errors[errors..new_errors]) {
        Some("the place of an error")
    } else if q.nodes < p.nodes || !same_nodes {
        Some("the nodes")
    } else if q.ended != 0 && after.nodes[new_nodes..].iter().any(|&word| word != 0) {
        Some("the rest of the nodes")
    } else {
        (q.ended == 0 && q.current <= p.current).then_some("the cursor")
    }
}

/// Whether each of these errors has the line and the start of one of the tokens. Where the newline index
/// leads past them it may be about what stands after them, or about nothing.
fn about_tokens(lent: &Lent, errors: &[u32]) -> bool {
    let tokens: &[Token] = lent.tokens.as_chunks().0;
    let mut places: Vec<_> = tokens
        .iter()
        .map(|t| (t[token::LINE], t[token::START]))
        .collect();
    if lent.leads_past() {
        places.push((0, 0));
    } else {
        places.truncate(lent.parser.tokens as usize);
    }
    let errors: &[Error] = errors.as_chunks().0;
    errors
        .iter()
        .all(|[_, line, pos]| places.contains(&(*line, *pos)))
}
