//! What a whole reading comes to, for tables of any size.
//!
//! The records come from the unchanged original. It doesn't tell in which order nodes, errors and levels
//! come, nor which token an error of the parser is about, nor how many looks there were. The log of its
//! copy with calls put in (`oracle::logged`) tells that, and has to agree with it in everything else.

use oracle::logged::{self, Event, Log, Noted};
use oracle::state::InterpreterError;
use oracle::stmt::Stmt;
use oracle::token::TokenData;
use oracle::{Reading, Rule, Stop};

use crate::lexing::{self, readable, Error, Lexing, Token};
use crate::marks;
use crate::nodes::{Node, Nodes};
use crate::records::{self, message, node, outcome, token, way};
use crate::unfold;

/// A script that the original can be given, and all that it makes of it.
#[derive(Debug, Clone)]
pub struct Whole {
    pub lexing: Lexing,
    pub parsing: Option<Parsing>,
}

/// What parsing comes to, which a stop in lexing shuts out.
#[derive(Debug, Clone)]
pub struct Parsing {
    /// The tokens as the lexer gave them.
    tokens: Vec<TokenData>,
    /// The errors of lexing and parsing.
    errors: Vec<Error>,
    events: Vec<Noted>,
    /// How many looks there were in all.
    looks: u32,
    stopped: bool,
    /// The nodes of all finished statements, and each statement's number.
    nodes: Vec<Node>,
    numbers: Vec<u32>,
    /// The finished statements: the original's, and those with marked tokens.
    stmts: Vec<Stmt>,
    marked: Vec<Stmt>,
}

/// How many records there is room for: tokens, errors, nodes, and words of the newline index.
pub type Rooms = [usize; 4];

/// The rooms of three tables, and an index of as many words as there is room for tokens: no reading ends
/// for want of it.
pub fn with_index([tokens, errors, nodes]: [usize; 3]) -> Rooms {
    [tokens, errors, nodes, tokens]
}

/// The newline index of all tokens up to EOF: for each the reference of the first one from there on that
/// is no Newline.
pub fn index(tokens: &[Token]) -> Vec<u32> {
    const NEWLINE: u32 = oracle::token::Token::Newline as u32;
    let mut words = vec![];
    for (at, record) in tokens.iter().enumerate() {
        if record[token::KIND] != NEWLINE {
            // It is the first after all those that have no word yet.
            words.resize(at + 1, at as u32 + 1);
        }
    }
    words
}

/// The answer to a reading, and what is kept.
#[derive(Debug, Clone, PartialEq, Eq, Default)]
pub struct Answer {
    pub outcome: u32,
    pub tokens: Vec<Token>,
    pub errors: Vec<Error>,
    pub nodes: Vec<Node>,
    /// The words that are written into the newline index: none, or one for each token.
    pub index: Vec<u32>,
    pub first: u32,
    /// How often `check` was called, up to the event that decided.
    pub looks: u32,
    /// How many top-level statements are kept.
    pub statements: usize,
    /// How many errors, nodes and looks there are whenever a token before EOF is left to be read:
    /// before the first statement, and after others.
    pub so_far: Vec<[u32; 3]>,
}

/// What is known about a source.
#[derive(Debug, Clone)]
pub enum Known {
    /// Refused before it is read, with this outcome: nothing is kept.
    Refused(u32),
    /// Read.
    Read(Box<Whole>),
}

/// Reads a source of any bytes by the rule that a number names, if it names one.
pub fn known(rule: u32, source: &[u8]) -> Known {
    match readable(rule, source) {
        Ok((rule, script)) => Known::Read(Box::new(Whole::of(rule, script))),
        Err(outcome) => Known::Refused(outcome),
    }
}

impl Whole {
    /// What the original makes of a script by a rule. It reads, compares and drops trees by recursion:
    /// where a script nests deeply this belongs on a large stack.
    pub fn of(rule: Rule, script: &str) -> Whole {
        let lexed = oracle::lex_by(rule, script);
        let (lexing, _) = Lexing::of_reading(script, &lexed);
        let parsing = match lexed.stop {
            Stop::Lexing => None,
            _ => Some(Parsing::of(rule, script, lexed, &lexing.tokens)),
        };
        Whole { lexing, parsing }
    }

    /// Whether this, which is rule one's, is rule two's as well: that lexes the script alike, and no `for`
    /// stands in it, so that the line in which the parsers differ is never met.
    pub fn is_rule_twos(&self, script: &str) -> bool {
        const FOR: u32 = oracle::token::Token::For as u32;
        let no_loop = !self.lexing.tokens.iter().any(|t| t[token::KIND] == FOR);
        no_loop && Lexing::of(Rule::Two, script).0 == self.lexing
    }

    /// The answer on a way. Where lexing alone comes to its end within the rooms and records an error,
    /// the new way keeps what it recorded, and no more; else it is the old way.
    pub fn on(&self, number: u32, rooms: Rooms) -> Answer {
        let lexing = self.lexing.within(rooms[0], rooms[1]);
        if number != way::STOP || lexing.outcome != outcome::DONE || lexing.errors.is_empty() {
            return self.within(rooms);
        }
        Answer {
            outcome: outcome::NOT_PARSED,
            tokens: lexing.tokens,
            errors: lexing.errors,
            ..Answer::default()
        }
    }

    /// The answer on the old way, the original's, where there is room for so many tokens, errors, nodes
    /// and index words: the first event that finds no room decides. The index comes between lexing and
    /// parsing.
    pub fn within(&self, [token_room, error_room, node_room, index_room]: Rooms) -> Answer {
        let lexing = self.lexing.within(token_room, error_room);
        let kept = Answer {
            outcome: lexing.outcome,
            tokens: lexing.tokens,
            errors: lexing.errors,
            ..Answer::default()
        };
        match &self.parsing {
            Some(_) if kept.outcome == outcome::DONE && index_room < kept.tokens.len() => Answer {
                outcome: outcome::BUFFER_ROOM,
                ..kept
            },
            Some(parsing) if kept.outcome == outcome::DONE => {
                parsing.within(kept, error_room, node_room)
            }
            _ => kept,
        }
    }

    /// The rooms that the reading needs: so many tokens, errors, nodes made, and index words. A level
    /// too many or a stop ends it in a statement whose nodes are made but not kept; what is not parsed
    /// needs no index.
    pub fn needs(&self) -> Rooms {
        let tokens = self.lexing.tokens.len();
        match &self.parsing {
            Some(parsing) => [tokens, self.errors().len(), parsing.made(), tokens],
            None => [tokens, self.errors().len(), 0, 0],
        }
    }

    /// The errors of lexing and parsing.
    pub fn errors(&self) -> &[Error] {
        let parsing = self.parsing.as_ref();
        parsing.map_or(&self.lexing.errors, |parsing| &parsing.errors)
    }

    /// The number of each finished top-level statement.
    pub fn statement_numbers(&self) -> &[u32] {
        self.parsing
            .as_ref()
            .map_or(&[], |parsing| &parsing.numbers)
    }

    /// What differs between a table of nodes, unfolded, and the trees that are to be kept.
    pub fn tree_differs(&self, nodes: &[Node], first: u32, statements: usize) -> Option<String> {
        let Some(parsing) = &self.parsing else {
            return (first != 0).then(|| "a statement without parsing".to_string());
        };
        let marked: Vec<TokenData> = marks::all(&parsing.tokens);
        let sides = [
            ("", &parsing.tokens, &parsing.stmts),
            (", tokens told apart", &marked, &parsing.marked),
        ];
        for (which, tokens, stmts) in sides {
            match unfold::statements(nodes, tokens, first) {
                Err(wrong) => return Some(format!("the nodes{which}: {wrong}")),
                Ok(unfolded) if unfolded != stmts[..statements] => {
                    let wanted = &stmts[..statements];
                    return Some(format!(
                        "the trees{which}\n  unfolded: {unfolded:?}\n  original: {wanted:?}"
                    ));
                }
                Ok(_) => (),
            }
        }
        None
    }
}

impl Parsing {
    fn of(rule: Rule, script: &str, lexed: Reading, tokens: &[Token]) -> Parsing {
        let read = oracle::parse_by(rule, script, lexed.clone());
        let Log {
            events,
            looks,
            errors,
            stmts: marked,
            stopped,
        } = log(rule, &lexed.tokens);
        let mut all: Vec<Error> = lexed.errors.iter().map(lexing::error).collect();
        all.extend(errors.iter().map(|e| placed(e, tokens)));

        let mut nodes = Nodes::new(&lexed.tokens);
        let numbers = nodes.top_level(&marked);
        let mut parsing = Parsing {
            nodes: nodes.nodes,
            tokens: lexed.tokens,
            errors: all,
            events,
            looks,
            stopped,
            numbers,
            stmts: vec![],
            marked,
        };
        parsing.agrees_with_its_log(script);
        parsing.stmts = parsing.unchanged(script, read);
        parsing
    }

    /// The nodes that the trees have are those of the log, in its order.
    fn agrees_with_its_log(&self, script: &str) {
        let (mut made, mut ends) = (vec![], vec![]);
        for noted in &self.events {
            match noted.event {
                Event::Node(kind) => made.push(kind),
                Event::Statement => ends.push(made.len() as u32),
                Event::Error | Event::Level => (),
            }
        }
        made.truncate(self.nodes.len());
        let kinds: Vec<u32> = self.nodes.iter().map(|record| record[node::KIND]).collect();
        assert_eq!(ends, self.numbers, "numbers of statements in {script:?}");
        assert_eq!(made, kinds, "kinds of nodes in {script:?}");
    }

    /// The statements of the original without a log, which has the same errors and stops alike. Where
    /// a level too many opens it goes on: only what came before is compared.
    fn unchanged(&self, script: &str, read: Reading) -> Vec<Stmt> {
        let Reading {
            errors,
            mut stmts,
            stop,
            ..
        } = read;
        let errors: Vec<Error> = errors.iter().map(lexing::error).collect();
        let ours: Vec<Error> = self.errors.iter().map(without_place).collect();
        if self.too_deep() {
            assert!(errors.starts_with(&ours), "errors in {script:?}");
            stmts.truncate(self.marked.len());
        } else {
            assert_eq!(errors, ours, "errors in {script:?}");
            assert_eq!(stop == Stop::Parsing, self.stopped, "{script:?}");
        }
        assert_eq!(stmts.len(), self.marked.len(), "statements in {script:?}");
        stmts
    }

    fn too_deep(&self) -> bool {
        let last = self.events.last();
        last.is_some_and(|noted| noted.event == Event::Level)
    }

    /// How many nodes are made.
    fn made(&self) -> usize {
        let events = self.events.iter().map(|noted| noted.event);
        events.filter(|e| matches!(e, Event::Node(_))).count()
    }

    fn within(&self, lexed: Answer, error_room: usize, node_room: usize) -> Answer {
        let (mut errors, mut nodes) = (lexed.errors.len(), 0);
        let (mut statements, mut kept) = (0, 0);
        let mut looks = self.looks;
        let mut so_far = vec![[errors as u32, 0, 0]];
        let mut ended = match self.stopped {
            true => outcome::STOPPED,
            false => outcome::DONE,
        };
        for noted in &self.events {
            match noted.event {
                Event::Error if errors == error_room => ended = outcome::ERROR_ROOM,
                Event::Node(_) if nodes == node_room => ended = outcome::NODE_ROOM,
                Event::Level => ended = outcome::TOO_DEEP,
                Event::Error => errors += 1,
                Event::Node(_) => nodes += 1,
                Event::Statement => {
                    (statements, kept) = (statements + 1, nodes);
                    so_far.push([errors as u32, nodes as u32, noted.looks]);
                }
            }
            if ended > outcome::STOPPED {
                looks = noted.looks;
                break;
            }
        }
        if ended == outcome::DONE {
            // After the last one comes EOF.
            so_far.pop();
        }
        let mut nodes = self.nodes[..kept].to_vec();
        if let Some(last) = nodes.last_mut() {
            // What came after it isn't kept.
            last[node::NEXT] = 0;
        }
        Answer {
            outcome: ended,
            index: index(&lexed.tokens),
            tokens: lexed.tokens,
            errors: self.errors[..errors].to_vec(),
            nodes,
            first: if statements == 0 { 0 } else { self.numbers[0] },
            looks,
            statements,
            so_far,
        }
    }
}

/// The log of a parsing in which tokens are marked, with the looks that there are without marks. The
/// parser goes by kinds alone, and a mark that changes one makes another test find the token.
fn log(rule: Rule, tokens: &[TokenData]) -> Log {
    let marked = marks::all(tokens);
    let same_kinds = marked.iter().zip(tokens).all(|(m, t)| m.token == t.token);
    let mut log = logged::parse(rule, marked);
    if !same_kinds {
        let plain = logged::parse(rule, tokens.to_vec());
        assert!(events(&plain).eq(events(&log)), "events of {tokens:?}");
        (log.events, log.looks) = (plain.events, plain.looks);
    }
    log
}

fn events(log: &Log) -> impl Iterator<Item = Event> + '_ {
    log.events.iter().map(|noted| noted.event)
}

/// A logged error of the parser as a record: its place is where the token starts that it is about, and
/// its line that token's.
fn placed(error: &InterpreterError, tokens: &[Token]) -> Error {
    let about = tokens[error.pos];
    let [number, line, _] = lexing::error(error);
    assert_eq!(line, about[token::LINE], "the line of {error:?}");
    [number, line, about[token::START]]
}

/// The same error as the unchanged original has it, which gives the parser's no place.
fn without_place(error: &Error) -> Error {
    let mut error = *error;
    if !message::LEXERS.contains(&error[records::error::MESSAGE]) {
        error[records::error::POS] = 0;
    }
    error
}
