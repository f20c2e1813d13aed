//! Makes the parser that `logged` runs: the unchanged `parser.rs` with calls put in that note when
//! a node is finished, a level opens and a top-level statement is kept, and that count the looks, and
//! with the token that each error is about, where the original has 0. Errors are noted by the state,
//! which is `logged`'s own.
//!
//! And makes the lexer and the parser of rule two: the unchanged ones with three lines changed. Its
//! parser is there with a log and without.

use std::path::Path;
use std::{env, fs};

/// What takes the place of a text, and how often that text stands in the file.
type Edit = (&'static str, &'static str, usize);

/// Rule two: a name may have digits after its first byte, and a number with a point may end the script.
const RULE_TWO_LEXER: &[Edit] = &[
    (
        "while !self.is_at_end() && self.is_alpha(self.next()) {",
        "while !self.is_at_end() && (self.is_alpha(self.next()) || self.is_digit(self.next())) {",
        1,
    ),
    (
        "while self.is_digit(self.next()) {",
        "while !self.is_at_end() && self.is_digit(self.next()) {",
        1,
    ),
];

/// Rule two: an enhanced for gives its loop count back, as the classic one does.
const RULE_TWO_PARSER: &[Edit] = &[(
    "        return Stmt::EnhancedFor(EnhancedForStmt {\n",
    "        self.leave_loop();\n        return Stmt::EnhancedFor(EnhancedForStmt {\n",
    1,
)];

/// What begins a file, but can't stand in one that is included.
const INCLUDED: &[Edit] = &[("#![allow(dead_code)]\n", "", 1)];

/// The state that keeps the log.
const PATHS: &[Edit] = &[("use crate::state::*;", "use super::state::*;", 1)];

/// A level opens on entry to `declaration`, on entry to `assignment` and for the operand of a
/// prefix operator; it closes on return.
const LEVELS: &[Edit] = &[
    (
        "    fn declaration(&mut self, expect_new_line: bool) -> Option<Stmt> {\n",
        "    fn declaration(&mut self, expect_new_line: bool) -> Option<Stmt> {
        self.state.open();
        let s = self.declaration_inside(expect_new_line);
        self.state.close();
        return s;
    }

    fn declaration_inside(&mut self, expect_new_line: bool) -> Option<Stmt> {\n",
        1,
    ),
    (
        "    fn assignment(&mut self) -> Expr {\n",
        "    fn assignment(&mut self) -> Expr {
        self.state.open();
        let expr = self.assignment_inside();
        self.state.close();
        return expr;
    }

    fn assignment_inside(&mut self) -> Expr {\n",
        1,
    ),
    (
        "            let right = self.unary();\n            let unary_expr",
        "            self.state.open();
            let right = self.unary();
            self.state.close();
            let unary_expr",
        1,
    ),
];

/// A statement is kept when `parse` has it.
const STATEMENTS: &[Edit] = &[(
    "Some(st) => self.state.stmts.push(st),",
    "Some(st) => self.state.keep(st),",
    1,
)];

/// A look is a call of `check`, whoever makes it: the test itself, `matches`, `matches_many`, `consume`.
const LOOKS: &[Edit] = &[(
    "    fn check(&mut self, token: Token) -> bool {\n",
    "    fn check(&mut self, token: Token) -> bool {\n        self.state.look();\n",
    1,
)];

/// The token whose line an error reports: the one at the cursor, but for break and continue the
/// keyword, which is the token before the cursor, and for `=` that one, noted where it is looked at.
const PLACES: &[Edit] = &[
    (
        "line: self.peek().line,\n            pos: 0,",
        "line: self.peek().line,\n            pos: self.current,",
        2,
    ),
    (
        "line: self.peek().line,\n                pos: 0,",
        "line: self.peek().line,\n                pos: self.current,",
        2,
    ),
    (
        "line: self.peek().line,\n                        pos: 0,",
        "line: self.peek().line,\n                        pos: self.current,",
        3,
    ),
    (
        "line: keyword.line,\n                pos: 0,",
        "line: keyword.line,\n                pos: self.current - 1,",
        2,
    ),
    (
        "            let equal = self.previous();\n",
        "            let equal = self.previous();\n            let equal_at = self.current - 1;\n",
        1,
    ),
    (
        "line: equal.line,\n                    pos: 0,",
        "line: equal.line,\n                    pos: equal_at,",
        1,
    ),
];

/// A name in a list has its node before the comma is looked for, a superclass before what follows
/// its name. A block and a made-up Empty have no name to hang a call on.
const SMALL_NODES: &[Edit] = &[
    (
        "                if !self.matches(Token::Comma) {\n                    break;",
        "                self.state.node(32);
                if !self.matches(Token::Comma) {\n                    break;",
        2,
    ),
    (
        "            ids.push(self.previous());\n",
        "            ids.push(self.previous());\n            self.state.node(32);\n",
        1,
    ),
    (
        "            Some(VarExpr { name: class })",
        "            self.state.node(2);\n            Some(VarExpr { name: class })",
        1,
    ),
    (
        "            return Stmt::Block(BlockStmt {
                stmts: self.block(),
            });",
        "            let stmts = self.block();
            self.state.node(20);
            return Stmt::Block(BlockStmt { stmts });",
        1,
    ),
    (
        "        if self.matches(Token::Newline) {\n",
        "        if self.matches(Token::Newline) {\n            self.state.node(17);\n",
        1,
    ),
    (
        "            elif_branches.push(elif);",
        "            self.state.node(31);\n            elif_branches.push(elif);",
        1,
    ),
];

/// All others are finished where they are put together, as the last thing that their function
/// does: the line, the node's kind, and how often the line stands in the file.
const NODES: &[(&str, u32, usize)] = &[
    ("return FnExpr {", 1, 1),
    ("return Expr::Var(var_expr);", 2, 1),
    ("return Expr::List(list_expr);", 3, 1),
    ("return Expr::Dictionary(dict_expr);", 4, 1),
    ("return Expr::Assign(assign);", 5, 1),
    ("return Expr::Access(slice);", 6, 1),
    ("expr = Expr::Binary(bin_expr);", 7, 5),
    ("return Expr::Call(call_expr);", 8, 1),
    ("expr = Expr::Get(get_expr);", 9, 1),
    ("return Expr::Set(set);", 10, 1),
    ("return Expr::Super(super_expr);", 11, 1),
    ("return Expr::Grouping(group_expr);", 12, 1),
    ("return Expr::Literal(lit_expr);", 13, 4),
    ("expr = Expr::Logical(log_expr);", 14, 2),
    ("return Expr::This(this_expr);", 15, 1),
    ("return Expr::Unary(unary_expr);", 16, 1),
    ("return Stmt::Fn(FnStmt {", 18, 1),
    ("return Stmt::Let(LetStmt {", 19, 1),
    ("return Some(Stmt::Class(ClassStmt {", 21, 1),
    ("return Stmt::ClassicFor(ClassicForStmt {", 22, 1),
    ("return Stmt::EnhancedFor(EnhancedForStmt {", 23, 1),
    ("return Stmt::While(while_stmt);", 24, 1),
    ("return Stmt::If(st);", 25, 1),
    ("return Stmt::Continue(continue_stmt);", 26, 1),
    ("return Stmt::Return(rt);", 27, 1),
    ("return Stmt::Break(brk_stmt);", 28, 1),
    ("return Stmt::TryCatch(TryCatchStmt {", 29, 1),
    ("return Stmt::Expr(expr_stmt);", 30, 2),
];

fn main() {
    println!("cargo:rerun-if-changed=build.rs");
    let [lexer, parser] = ["src/lexer.rs", "src/parser.rs"].map(original);
    let parser_two = edited(&parser, &[RULE_TWO_PARSER]);
    write("logged_parser.rs", &logging(&parser));
    write("logged_parser_two.rs", &logging(&parser_two));
    write("parser_two.rs", &parser_two);
    write("lexer_two.rs", &edited(&lexer, &[INCLUDED, RULE_TWO_LEXER]));
}

fn original(file: &str) -> String {
    println!("cargo:rerun-if-changed={file}");
    fs::read_to_string(file).expect("the original is there")
}

fn write(name: &str, text: &str) {
    let folder = env::var_os("OUT_DIR").expect("cargo gives a folder");
    fs::write(Path::new(&folder).join(name), text).expect("the file is written");
}

/// A parser with its log.
fn logging(parser: &str) -> String {
    let groups = [PATHS, LEVELS, STATEMENTS, LOOKS, PLACES, SMALL_NODES];
    let mut text = edited(parser, &groups);
    for &(line, kind, count) in NODES {
        let new = format!("self.state.node({kind}); {line}");
        text = replaced(&text, line, &new, count);
    }
    text
}

fn edited(text: &str, groups: &[&[Edit]]) -> String {
    let edits = groups.iter().copied().flatten();
    edits.fold(text.to_string(), |text, &(old, new, count)| {
        replaced(&text, old, new, count)
    })
}

/// A text that stands elsewhere, or more often, was not what the edit is about.
fn replaced(text: &str, old: &str, new: &str, count: usize) -> String {
    assert_eq!(text.matches(old).count(), count, "occurrences of {old:?}");
    text.replace(old, new)
}
