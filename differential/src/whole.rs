//! Whole readings: the calls, what they must answer, and the comparison of the two.

use std::fmt::Write as _;
use std::rc::Rc;

use expected::lexing::rust_string;
use expected::records::{
    rule, way, Error, Node, Token, ERROR_WORDS, INDEX_WORDS, NODE_WORDS, TOKEN_WORDS, WIDTHS,
};
use expected::whole::{known, Answer, Known, Rooms, Whole};

use crate::compare::{rules, table_differs, Call, Trial};
use crate::host::{ReadAnswer, ReadCall};
use expected::mixed_dice::Dice;

/// The longest script that is read one statement at a time too.
const LONG: usize = 4096;

/// What a reading must come to.
#[derive(Debug, Clone)]
pub enum Wanted {
    /// The answer, and what the original makes of the script where its trees are compared.
    Exact(Answer, Option<Rc<Whole>>),
    /// A refusal that keeps nothing and leaves all tables as they were.
    Refused(u32),
}

impl Wanted {
    /// The same, with the trees left out: they are those of the words, which are unfolded elsewhere.
    fn by_words(self) -> Wanted {
        match self {
            Wanted::Exact(answer, _) => Wanted::Exact(answer, None),
            refused => refused,
        }
    }

    /// The outcome, for counting.
    pub fn outcome(&self) -> u32 {
        match self {
            Wanted::Exact(answer, _) => answer.outcome,
            Wanted::Refused(outcome) => *outcome,
        }
    }
}

/// A source of which readings are tried by a rule.
pub struct Tried {
    rule: u32,
    known: Kept,
    dice: Dice,
    trial: Trial,
}

/// What is known about it.
enum Kept {
    Read(Rc<Whole>),
    Refused(u32),
    Told(Answer),
}

/// What is known about a source by a rule.
fn kept_of(rule: u32, source: &[u8]) -> Kept {
    match known(rule, source) {
        Known::Read(whole) => {
            fits(source, whole.needs());
            Kept::Read(Rc::new(*whole))
        }
        Known::Refused(outcome) => Kept::Refused(outcome),
    }
}

/// The same calls by each rule; now and then by a number that names none, which refuses them.
pub fn by_rules(source: &[u8], add: impl Fn(&mut Tried)) -> Trial {
    let mut dice = Dice::of(source);
    let trial = Trial::new(source, &mut dice);
    let rules = rules(source, &mut dice);
    let mut tried = Tried {
        rule: rules[0],
        known: kept_of(rules[0], source),
        dice,
        trial,
    };
    add(&mut tried);
    for rule in &rules[1..] {
        tried.turn_to(*rule);
        add(&mut tried);
    }
    tried.trial
}

/// The same where the original isn't asked: both rules must come to this answer, which needs room
/// enough.
pub fn told(source: &[u8], answer: &Answer, add: impl Fn(&mut Tried)) -> Trial {
    let mut dice = Dice::of(source);
    let mut tried = Tried {
        rule: rule::ONE,
        trial: Trial::new(source, &mut dice),
        known: Kept::Told(answer.clone()),
        dice,
    };
    for rule in [rule::ONE, rule::TWO] {
        tried.rule = rule;
        add(&mut tried);
    }
    tried.trial
}

impl Tried {
    /// Goes on by another rule. Asking the original takes longest, and most scripts are the same by both.
    fn turn_to(&mut self, rule: u32) {
        let source = &self.trial.source;
        let is_same = match &self.known {
            Kept::Read(one) => rule == rule::TWO && one.is_rule_twos(rust_string(source)),
            _ => false,
        };
        if !is_same {
            self.known = kept_of(rule, source);
        }
        self.rule = rule;
    }

    /// The rooms that the reading needs.
    pub fn needs(&self) -> Rooms {
        match &self.known {
            Kept::Read(whole) => whole.needs(),
            Kept::Refused(_) => [2, 1, 2, 2],
            Kept::Told(answer) => [
                answer.tokens.len(),
                answer.errors.len(),
                answer.nodes.len(),
                answer.index.len(),
            ],
        }
    }

    /// The rooms that the crate lends for any source of this length.
    pub fn enough(&self) -> Rooms {
        enough(self.trial.source.len())
    }

    /// Adds a reading into tables with these rooms and spare tails of any length.
    pub fn read(&mut self, rooms: Rooms) {
        let tails = WIDTHS.map(|width| self.dice.below(width));
        self.read_with(rooms, tails);
    }

    /// The same with these spare tails, in words, on both ways. Every number but 0 is the old way.
    pub fn read_with(&mut self, rooms: Rooms, tails: [usize; 4]) {
        let old = [way::GO_ON, 2, u32::MAX, self.dice.word() as u32 | 1 << 31][self.dice.below(4)];
        for way in [old, way::STOP] {
            self.read_on(way, rooms, tails);
        }
    }

    fn read_on(&mut self, way: u32, rooms: Rooms, tails: [usize; 4]) {
        let call = ReadCall {
            rule: self.rule,
            way,
            pair: false,
            token_words: TOKEN_WORDS * rooms[0] + tails[0],
            error_words: ERROR_WORDS * rooms[1] + tails[1],
            node_words: NODE_WORDS * rooms[2] + tails[2],
            index_words: INDEX_WORDS * rooms[3] + tails[3],
            fill: self.dice.word() as u32,
        };
        let wanted = match &self.known {
            Kept::Read(whole) => Wanted::Exact(whole.on(way, rooms), Some(whole.clone())),
            Kept::Refused(outcome) => Wanted::Refused(*outcome),
            Kept::Told(answer) => Wanted::Exact(answer.clone(), None),
        };
        // Each read of one statement looks at all tokens: in a long script that takes long.
        if self.trial.source.len() <= LONG {
            let pair = ReadCall { pair: true, ..call };
            let wanted = wanted.clone().by_words();
            self.trial.calls.push(Call::Read(pair, wanted));
        }
        // On the new way the statements are the same or none.
        let wanted = match way {
            way::STOP => wanted.by_words(),
            _ => wanted,
        };
        self.trial.calls.push(Call::Read(call, wanted));
    }

    pub fn below(&mut self, limit: usize) -> usize {
        self.dice.below(limit)
    }
}

/// The crate's rooms for any source of this length.
fn enough(length: usize) -> Rooms {
    let rooms = kettleplume::Rooms::enough(length);
    [rooms.tokens, rooms.errors, rooms.nodes, rooms.index]
}

/// They are enough for this one.
fn fits(source: &[u8], needs: Rooms) {
    let rooms = enough(source.len());
    assert!(
        needs.iter().zip(rooms).all(|(need, room)| *need <= room),
        "rooms {needs:?}: \"{}\"",
        source.escape_ascii()
    );
}

/// One reading by each rule with room enough: sometimes exactly enough, sometimes with records to spare.
/// Now and then another with too short a newline index.
pub fn reading(source: &[u8]) -> Trial {
    by_rules(source, |tried| {
        let needs = tried.needs();
        let rooms = needs.map(|room| room + tried.below(4));
        tried.read(rooms);
        if tried.below(8) == 0 {
            let [tokens, errors, nodes, index] = rooms;
            let shorter = needs[3].saturating_sub(1);
            let index = [shorter, tried.below(index.max(1))][tried.below(2)];
            tried.read([tokens, errors, nodes, index]);
        }
    })
}

/// Compares one answer; if it differs, a text that shows how.
pub fn read_differs(call: &ReadCall, wanted: &Wanted, answer: &ReadAnswer) -> Option<String> {
    let what = match wanted {
        Wanted::Exact(expected, whole) => exact_differs(call, expected, whole.as_deref(), answer),
        Wanted::Refused(outcome) => refused_differs(call, *outcome, answer),
    }?;
    let mut text = format!("call: {call:?}\ndiffers: {what}\n");
    if let Wanted::Exact(expected, _) = wanted {
        show(&mut text, "expected", expected);
    }
    show(&mut text, "answered", &kept(answer));
    Some(text)
}

fn exact_differs(
    call: &ReadCall,
    expected: &Answer,
    whole: Option<&Whole>,
    answer: &ReadAnswer,
) -> Option<String> {
    let counts = [
        ("the outcome", answer.outcome, expected.outcome),
        (
            "the number of tokens",
            answer.tokens,
            count(&expected.tokens),
        ),
        (
            "the number of errors",
            answer.errors,
            count(&expected.errors),
        ),
        ("the number of nodes", answer.nodes, count(&expected.nodes)),
        ("the first statement", answer.first, expected.first),
        ("the number of looks", answer.looks, expected.looks),
    ];
    if let Some((name, ..)) = counts.iter().find(|(_, got, want)| got != want) {
        return Some(name.to_string());
    }
    if let Some(what) = before_differs(call, expected, answer) {
        return Some(what);
    }
    // The trees first: they owe nothing to the numbering that the words have in common.
    let nodes = kept(answer).nodes;
    let trees = |whole: &Whole| whole.tree_differs(&nodes, answer.first, expected.statements);
    if let Some(what) = whole.and_then(trees) {
        return Some(what);
    }
    words_differ(
        answer,
        [
            (expected.tokens.as_flattened(), call.fill),
            (expected.errors.as_flattened(), call.fill),
            (expected.nodes.as_flattened(), 0),
            (&expected.index, call.fill),
        ],
    )
}

/// What is answered before the final answer of a reading one statement at a time.
fn before_differs(call: &ReadCall, expected: &Answer, answer: &ReadAnswer) -> Option<String> {
    let first = expected.first;
    let so_far = expected.so_far.iter().map(|&[errors, nodes, looks]| {
        let first = if nodes == 0 { 0 } else { first };
        [count(&expected.tokens), errors, nodes, first, looks]
    });
    let differs = call.pair && !so_far.eq(answer.so_far.iter().copied());
    differs.then(|| "the answers before the last".to_string())
}

/// Each table begins with these words and holds one word after them; the guards are intact, and a
/// read after the final answer changed nothing.
fn words_differ(answer: &ReadAnswer, wanted: [(&[u32], u32); 4]) -> Option<String> {
    let tables = [
        ("token", &answer.token_table, TOKEN_WORDS),
        ("error", &answer.error_table, ERROR_WORDS),
        ("node", &answer.node_table, NODE_WORDS),
        ("index", &answer.index_table, INDEX_WORDS),
    ];
    for ((name, table, width), (words, behind)) in tables.into_iter().zip(wanted) {
        if let Some(at) = table_differs(table, words, behind) {
            let (word, record) = (at % width, at / width);
            return Some(format!("the {name} table, word {word} of record {record}"));
        }
    }
    if !answer.intact {
        return Some("the guards round the tables".to_string());
    }
    (!answer.steady).then(|| "a read after the final answer".to_string())
}

fn refused_differs(call: &ReadCall, outcome: u32, answer: &ReadAnswer) -> Option<String> {
    let ReadAnswer {
        tokens,
        errors,
        nodes,
        first,
        looks,
        ..
    } = answer;
    if answer.outcome != outcome {
        Some(format!("the outcome, which must be {outcome}"))
    } else if [tokens, errors, nodes, first, looks] != [&0; 5] {
        Some("the counts, which must be 0".to_string())
    } else {
        words_differ(answer, [(&[], call.fill); 4])
    }
}

fn count<T>(records: &[T]) -> u32 {
    records.len() as u32
}

/// The records that the library says it has kept, as far as they are in the tables, and as many words of
/// the index as it has kept tokens.
fn kept(answer: &ReadAnswer) -> Answer {
    let tokens: &[Token] = answer.token_table.as_chunks().0;
    let errors: &[Error] = answer.error_table.as_chunks().0;
    let nodes: &[Node] = answer.node_table.as_chunks().0;
    Answer {
        outcome: answer.outcome,
        tokens: tokens
            .iter()
            .copied()
            .take(answer.tokens as usize)
            .collect(),
        errors: errors
            .iter()
            .copied()
            .take(answer.errors as usize)
            .collect(),
        nodes: nodes.iter().copied().take(answer.nodes as usize).collect(),
        index: answer
            .index_table
            .iter()
            .copied()
            .take(answer.tokens as usize)
            .collect(),
        first: answer.first,
        looks: answer.looks,
        ..Answer::default()
    }
}

/// One side in full.
fn show(text: &mut String, side: &str, answer: &Answer) {
    let Answer {
        outcome,
        tokens,
        errors,
        nodes,
        index,
        first,
        looks,
        ..
    } = answer;
    let (t, e, n) = (tokens.len(), errors.len(), nodes.len());
    let _ = writeln!(
        text,
        "{side}: outcome {outcome}, {t} tokens, {e} errors, {n} nodes, first statement {first}, {looks} looks"
    );
    for [message, line, pos] in errors {
        let _ = writeln!(text, "  error: message {message}, line {line}, pos {pos}");
    }
    for (at, node) in nodes.iter().enumerate() {
        let _ = writeln!(text, "  node {}: {node:?}", at + 1);
    }
    let _ = writeln!(text, "  newline index: {index:?}");
}
