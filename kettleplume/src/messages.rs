//! The texts of recorded errors.

/// The messages of the original in the order of their numbers, 1 to 29. First the lexer's, then
/// the parser's, each where it first stands in its file; 10 counts where `fn_stmt` has it.
pub const MESSAGES: [&str; 29] = [
    "'!' cannot be used here",
    "Illegal character",
    "Closing \" was expected",
    "Expected new line",
    "Expected variable name",
    "Expected '{' at this position",
    "Expected '}' at this position",
    "Expected function name",
    "Expect '(' after function name",
    "Max number of parameters is 255",
    "Expected function parameter",
    "Expect ')' after expression",
    "Expected '(' after function name",
    "Expect function parameter",
    "Expected semicolon",
    "Empty expression or let was expected at this position",
    "Expected 'in'",
    "A catch block was expected at this position",
    "Statement only allowed for use inside loop",
    "Expected ']' at end of list",
    "Expected '}' at the end of dict",
    "Expected ':' after key",
    "Undefined statement",
    "Expected ']' at the end of slice",
    "Expected property name after '.'",
    "Expect ')' after arguments",
    "Max number of arguments is 255",
    "Undefined expression",
    "Keyword 'super' is only valid for property accessing",
];

/// The text of a message, by its number.
pub fn message(number: u32) -> Option<&'static str> {
    let index = (number as usize).checked_sub(1)?;
    MESSAGES.get(index).copied()
}
