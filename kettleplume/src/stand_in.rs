//! Reading into the original's state: what stands in for its lexer and its parser.

use crate::error::Error;
use crate::options::{Options, Rule, Way};
use crate::records::{error, outcome, token};
use crate::script::{ended, statements};
use crate::state::{InterpreterError, InterpreterState};
use crate::tables::Tables;
use crate::token::{Token, TokenData};
use crate::values;

/// Lexes the state's source, as `Lexer::new(&mut state).scan()` does, but answers where that panics.
///
/// Tokens and errors are put after those that the state has.
///
/// ```
/// use kettleplume::state::InterpreterState;
///
/// let mut state = InterpreterState::new("a = 1.5".to_string());
/// assert_eq!(kettleplume::scan(&mut state), Err(kettleplume::Error::PointAtEnd));
/// assert_eq!(state.tokens.len(), 2);
/// ```
pub fn scan(state: &mut InterpreterState) -> Result<(), Error> {
    lex(Rule::One, state).0
}

/// The same by a rule, with the line that the source ends in.
pub(crate) fn lex(rule: Rule, state: &mut InterpreterState) -> (Result<(), Error>, i32) {
    let mut tables = Tables::new();
    let options = Options {
        rule,
        ..Options::default()
    };
    let records = tables.scan_as(options, state.source.as_bytes());
    let source = state.source.as_bytes();
    let tokens = records.tokens.iter().map(|t| values::token(source, t));
    let errors = records.errors.iter().map(values::error);

    // Each line is passed by a token or within an error, so the last of them tells it.
    let lines = [
        records.tokens.last().map_or(1, |t| t[token::LINE]),
        records.errors.last().map_or(1, |e| e[error::LINE]),
    ];
    let line = lines[0].max(lines[1]) as i32;
    state.errors.extend(errors);
    state.tokens.extend(tokens);
    let end = ended(records.answer.outcome);
    if end.is_ok() {
        // Whether a Newline comes before EOF depends on the tokens that were there already.
        state.tokens.pop();
        close(&mut state.tokens, line);
    }
    (end, line)
}

/// Adds what the original puts after the last token: a Newline, if there is any token and none of
/// them comes last, and EOF.
pub(crate) fn close(tokens: &mut Vec<TokenData>, line: i32) {
    let empty = |token| TokenData {
        token,
        lexeme: String::new(),
        literal: None,
        line,
    };
    if tokens.last().is_some_and(|t| t.token != Token::Newline) {
        tokens.push(empty(Token::Newline));
    }
    tokens.push(empty(Token::EOF));
}

/// Parses the state's tokens, as `Parser::new(&mut state).parse()` does, but answers where that
/// panics.
///
/// Errors and statements are put after those that the state has.
///
/// The library reads the source, not the tokens in the state. So these have to be what [`scan`] makes
/// of that source, up to EOF; after it there may be others, as the original never looks there. If
/// they are not, the answer is [`OtherTokens`](Error::OtherTokens), and the state stays as it is.
///
/// What the lexer recorded doesn't matter: this stands for code that calls the original's parser, which
/// is called or not.
pub fn parse(state: &mut InterpreterState) -> Result<(), Error> {
    parse_by(Rule::One, state)
}

/// The same by a rule.
fn parse_by(rule: Rule, state: &mut InterpreterState) -> Result<(), Error> {
    let mut tables = Tables::new();
    let source = state.source.as_bytes();
    let way = Way::GoOn;
    let records = tables.read_as(Options { rule, way }, source);
    // What is refused, or stops in lexing, has no tokens to be compared.
    if matches!(
        records.answer.outcome,
        outcome::POINT_AT_END | outcome::NO_TEXT | outcome::TOO_LONG
    ) {
        return ended(records.answer.outcome);
    }
    let own = records.tokens.iter().map(|t| values::token(source, t));
    let count = records.tokens.len();
    if state.tokens.len() < count || !own.zip(&state.tokens).all(|(own, given)| own == *given) {
        return Err(Error::OtherTokens);
    }
    let (stmts, end) = statements(&records, &state.tokens[..count]);
    let parsers = records.errors.iter().filter(|e| values::is_parsers(e));
    state.errors.extend(parsers.map(values::error));
    state.stmts.extend(stmts);
    end
}

/// Lexes and parses the state's source in one reading: [`scan`] and then, if it came to the end and
/// recorded no error, [`parse`]. Where it recorded one the answer is [`NotParsed`](Error::NotParsed), and
/// there is no statement; [`read_state_as`] can go on instead.
///
/// ```
/// use kettleplume::state::InterpreterState;
///
/// let mut state = InterpreterState::new("a = 1\nb = )\n".to_string());
/// assert_eq!(kettleplume::read_state(&mut state), Err(kettleplume::Error::Stopped));
/// assert_eq!(state.stmts.len(), 1);
/// assert_eq!(state.errors[0].message, "Undefined expression");
/// assert_eq!((state.errors[0].line, state.errors[0].pos), (2, 10));
/// ```
pub fn read_state(state: &mut InterpreterState) -> Result<(), Error> {
    read_state_as(Options::default(), state)
}

/// The same by the rule and in the way that are chosen.
///
/// ```
/// use kettleplume::state::InterpreterState;
/// use kettleplume::{Options, Way};
///
/// let mut state = InterpreterState::new("let stop = $8\n".to_string());
/// let options = Options { way: Way::GoOn, ..Options::default() };
/// assert_eq!(kettleplume::read_state_as(options, &mut state), Ok(()));
/// assert_eq!((state.errors.len(), state.stmts.len()), (1, 1));
/// ```
pub fn read_state_as(options: Options, state: &mut InterpreterState) -> Result<(), Error> {
    // The two tell what tokens that are there already do to the reading.
    if !state.tokens.is_empty() {
        let recorded = state.errors.len();
        lex(options.rule, state).0?;
        if options.way == Way::Stop && state.errors.len() > recorded {
            return Err(Error::NotParsed);
        }
        return parse_by(options.rule, state);
    }
    let script = crate::read_as(options, &mut Tables::new(), &state.source).into_parts();
    state.tokens = script.tokens;
    state
        .errors
        .extend(script.errors.iter().map(InterpreterError::from));
    state.stmts.extend(script.stmts);
    script.end
}
