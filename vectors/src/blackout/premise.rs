//! The premise of blacking out: what of a script may be blacked out, and what may stand there instead, by
//! a rule.
//!
//! Written from the words of `docs/RULES.md`, 'Blacking out', and in another way than the Rattle
//! definition: the first script is cut into pieces, and each is held against the same bytes of the second.
//! Any one clause can be dropped, to show that it is needed.

use expected::lex_scripts::KEYWORDS;
use expected::lexing::{is_text, LONGEST};
use expected::rules::Rule;

/// The clauses of the premise (`docs/RULES.md`, 'Blacking out').
#[derive(Debug, Clone, Copy, PartialEq, Eq, PartialOrd, Ord)]
pub enum Clause {
    /// Both have the same length.
    EqualLength,
    /// They are within the limit.
    Limit,
    /// The first passes the text test.
    FirstText,
    /// The second passes it.
    SecondText,
    /// The second differs only in comments, in strings and in names.
    Only,
    /// These are strings that the first closes properly.
    ClosedProperly,
    /// Comments keep their #.
    Hash,
    /// They gain no newline.
    CommentNewline,
    /// In strings the quotes stay as they are.
    Quotes,
    /// So do the escapes: the backslash.
    Backslashes,
    /// And the one byte that it takes.
    EscapedBytes,
    /// So do the newlines.
    Newlines,
    /// No other quote appears in them.
    NoQuote,
    /// No other backslash does.
    NoBackslash,
    /// No other newline does.
    NoNewline,
    /// A name becomes a name of the same length, by the rule.
    NameToName,
    /// The first's name is no keyword.
    WasKeyword,
    /// The second's is no keyword.
    BecomesKeyword,
}

pub const CLAUSES: [Clause; 18] = [
    Clause::EqualLength,
    Clause::Limit,
    Clause::FirstText,
    Clause::SecondText,
    Clause::Only,
    Clause::ClosedProperly,
    Clause::Hash,
    Clause::CommentNewline,
    Clause::Quotes,
    Clause::Backslashes,
    Clause::EscapedBytes,
    Clause::Newlines,
    Clause::NoQuote,
    Clause::NoBackslash,
    Clause::NoNewline,
    Clause::NameToName,
    Clause::WasKeyword,
    Clause::BecomesKeyword,
];

/// Whether the second is the first but for what may be blacked out, both read by a rule.
pub fn permitted(rule: Rule, first: &[u8], second: &[u8]) -> bool {
    permitted_but(None, rule, first, second)
}

/// The same with one clause dropped.
pub fn permitted_but(dropped: Option<Clause>, rule: Rule, first: &[u8], second: &[u8]) -> bool {
    let test = Test { dropped, rule };
    test.holds(Clause::EqualLength, first.len() == second.len())
        && test.holds(Clause::Limit, first.len() <= LONGEST)
        && test.holds(Clause::FirstText, is_text(first))
        && test.holds(Clause::SecondText, is_text(second))
        && test.differs_only(first, second)
}

/// What a part of a script is.
#[derive(Debug, Clone, Copy, PartialEq, Eq)]
pub enum Kind {
    /// From its # up to the newline.
    Comment,
    /// From quote to quote.
    String,
    /// A string that isn't closed: up to its end, or to the byte after a wrong backslash.
    Broken,
    Name,
    Keyword,
    /// Any other byte.
    Other,
}

/// A part of a script: what it is, and its bytes' places.
#[derive(Debug, Clone, Copy)]
pub struct Piece {
    pub kind: Kind,
    pub start: usize,
    pub end: usize,
}

/// A script's pieces by a rule, in order; together they have all of its bytes.
pub fn pieces(rule: Rule, script: &[u8]) -> Vec<Piece> {
    cut(rule, script, true)
}

/// The same; where strings needn't be proper, one goes on after a wrong escape, and to the
/// script's end if no quote closes it.
fn cut(rule: Rule, script: &[u8], proper: bool) -> Vec<Piece> {
    let (mut pieces, mut start) = (vec![], 0);
    while start < script.len() {
        let run = |test: &dyn Fn(u8) -> bool| {
            let rest = script[start..].iter();
            rest.take_while(|b| test(**b)).count()
        };
        let (kind, size) = match script[start] {
            b'#' => (Kind::Comment, run(&|b| b != b'\n')),
            b'"' => string(&script[start..], proper),
            b if is_letter(b) => {
                let size = run(&|b| is_named(rule, b));
                let keyword = is_keyword(&script[start..start + size]);
                (if keyword { Kind::Keyword } else { Kind::Name }, size)
            }
            _ => (Kind::Other, 1),
        };
        let end = start + size;
        pieces.push(Piece { kind, start, end });
        start = end;
    }
    pieces
}

/// What begins with this quote, and its size.
fn string(bytes: &[u8], proper: bool) -> (Kind, usize) {
    let mut at = 1;
    while at < bytes.len() {
        match bytes[at] {
            b'"' => return (Kind::String, at + 1),
            b'\\' => {
                let known = bytes.get(at + 1).is_some_and(|b| b"nrt\\\"".contains(b));
                at += 2;
                if proper && !known {
                    return (Kind::Broken, at.min(bytes.len()));
                }
            }
            _ => at += 1,
        }
    }
    let kind = if proper { Kind::Broken } else { Kind::String };
    (kind, bytes.len())
}

/// What a name begins with.
fn is_letter(byte: u8) -> bool {
    byte.is_ascii_alphabetic() || byte == b'_'
}

/// What a name has after its first byte.
fn is_named(rule: Rule, byte: u8) -> bool {
    is_letter(byte) || (rule == Rule::Two && byte.is_ascii_digit())
}

pub fn is_keyword(name: &[u8]) -> bool {
    KEYWORDS.iter().any(|keyword| keyword.as_bytes() == name)
}

/// The premise by a rule, with at most one clause dropped.
struct Test {
    dropped: Option<Clause>,
    rule: Rule,
}

impl Test {
    fn drops(&self, clause: Clause) -> bool {
        self.dropped == Some(clause)
    }

    fn holds(&self, clause: Clause, test: bool) -> bool {
        test || self.drops(clause)
    }

    /// Piece by piece, as far as both scripts go.
    fn differs_only(&self, first: &[u8], second: &[u8]) -> bool {
        let pieces = cut(self.rule, first, !self.drops(Clause::ClosedProperly));
        pieces.iter().all(|piece| {
            let end = piece.end.min(second.len());
            let Some(new) = second.get(piece.start..end) else {
                return true;
            };
            self.may_become(piece.kind, &first[piece.start..], new)
        })
    }

    /// Whether a piece of the first, whose bytes the old ones begin with, may become the new bytes.
    fn may_become(&self, kind: Kind, old: &[u8], new: &[u8]) -> bool {
        let same = old.starts_with(new);
        match kind {
            Kind::Comment => {
                self.holds(Clause::Hash, new.starts_with(b"#"))
                    && self.holds(Clause::CommentNewline, !new.contains(&b'\n'))
            }
            Kind::String => self.string_may_become(old, new),
            Kind::Name => self.is_name(new),
            Kind::Keyword => same || (self.drops(Clause::WasKeyword) && self.is_name(new)),
            Kind::Broken | Kind::Other => self.holds(Clause::Only, same),
        }
    }

    fn is_name(&self, new: &[u8]) -> bool {
        let begins = new.first().is_none_or(|b| is_letter(*b));
        let named = new.iter().all(|b| is_named(self.rule, *b));
        self.holds(Clause::NameToName, begins && named)
            && self.holds(Clause::BecomesKeyword, !is_keyword(new))
    }

    fn string_may_become(&self, old: &[u8], new: &[u8]) -> bool {
        let mut taken = false;
        old.iter().zip(new).all(|(&b, &c)| {
            if taken {
                taken = false;
                return self.holds(Clause::EscapedBytes, b == c);
            }
            taken = b == b'\\';
            match b {
                b'"' => self.holds(Clause::Quotes, b == c),
                b'\\' => self.holds(Clause::Backslashes, b == c),
                b'\n' => self.holds(Clause::Newlines, b == c),
                _ => {
                    self.holds(Clause::NoQuote, c != b'"')
                        && self.holds(Clause::NoBackslash, c != b'\\')
                        && self.holds(Clause::NoNewline, c != b'\n')
                }
            }
        })
    }
}
