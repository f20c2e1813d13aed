//! Readings as short texts, so that tests can be tables.

// No file of tests uses all of it.
#![allow(dead_code)]

use oracle::expr::{AccessExpr, Expr, FnExpr};
use oracle::stmt::{FnStmt, Stmt};
use oracle::token::{Literal, TokenData};
use oracle::{message_number, read_by, Reading, Rule, Stop};

/// A script, its errors and stop as `trouble` gives them, its statements as `statements` does.
pub type Case = (&'static str, &'static str, &'static str);

/// Reads each script and compares. All that differ are told, not only the first.
#[track_caller]
pub fn compare(cases: &[Case]) {
    compare_by(Rule::One, cases);
}

/// The same by a rule.
#[track_caller]
pub fn compare_by(rule: Rule, cases: &[Case]) {
    let mut wrong = String::new();
    for (script, errors, tree) in cases {
        let reading = read_by(rule, script);
        let (is_errors, is_tree) = (trouble(&reading), statements(&reading));
        if (is_errors.as_str(), is_tree.as_str()) != (*errors, *tree) {
            wrong += &format!("\n  ({script:?}, {is_errors:?}, {is_tree:?}),");
        }
    }
    assert!(wrong.is_empty(), "what the Rust does instead:{wrong}");
}

/// `n` times `a`, with commas between.
pub fn many(n: usize) -> String {
    vec!["a"; n].join(", ")
}

/// A simple generator of numbers (xorshift64), the same ones in every run.
pub struct Dice(u64);

impl Dice {
    pub fn new() -> Dice {
        Dice(88172645463325252)
    }

    /// A number below a limit.
    pub fn roll(&mut self, below: u64) -> u64 {
        self.0 ^= self.0 << 13;
        self.0 ^= self.0 >> 7;
        self.0 ^= self.0 << 17;
        self.0 % below
    }
}

/// The errors in order, each as `message@line`, the lexer's (1 to 3) as `message@line:pos`; then
/// `STOP` if parsing stopped, `NUMBER` if a number ran to the last byte.
pub fn trouble(reading: &Reading) -> String {
    let mut words = vec![];
    for error in &reading.errors {
        let number = message_number(&error.message).expect("an unknown message");
        if number <= 3 {
            words.push(format!("{number}@{}:{}", error.line, error.pos));
        } else {
            assert_eq!(error.pos, 0, "a parser's error has pos 0");
            words.push(format!("{number}@{}", error.line));
        }
    }
    match reading.stop {
        Stop::None => (),
        Stop::Lexing => words.push("NUMBER".to_string()),
        Stop::Parsing => words.push("STOP".to_string()),
    }
    words.join(" ")
}

/// The top-level statements, with `; ` between them.
pub fn statements(reading: &Reading) -> String {
    let shapes: Vec<String> = reading.stmts.iter().map(stmt).collect();
    shapes.join("; ")
}

/// A word and further ones in brackets.
fn form(words: impl IntoIterator<Item = String>) -> String {
    format!("({})", words.into_iter().collect::<Vec<_>>().join(" "))
}

/// A list of statements in square brackets.
fn body(stmts: &[Stmt]) -> String {
    let shapes: Vec<String> = stmts.iter().map(stmt).collect();
    format!("[{}]", shapes.join("; "))
}

/// A list of names in square brackets.
fn names(tokens: &[TokenData]) -> String {
    let names: Vec<&str> = tokens.iter().map(|t| t.lexeme.as_str()).collect();
    format!("[{}]", names.join(" "))
}

/// A name that may be missing.
fn name(token: &Option<TokenData>) -> String {
    token.as_ref().map_or("?".to_string(), |t| t.lexeme.clone())
}

/// A function statement, also as a method.
fn function(f: &FnStmt) -> String {
    let FnStmt { name, params, .. } = f;
    let name = name.lexeme.clone();
    form(["fn".to_string(), name, names(params), body(&f.body)])
}

/// A statement: its keyword and parts in brackets. An expression statement is its expression.
fn stmt(s: &Stmt) -> String {
    let word = |text: &str| text.to_string();
    match s {
        Stmt::Fn(f) => function(f),
        Stmt::Let(l) => form(
            [word("let"), l.name.lexeme.clone()]
                .into_iter()
                .chain(l.initializer.as_ref().map(expr)),
        ),
        Stmt::Block(b) => form([word("block"), body(&b.stmts)]),
        Stmt::Class(c) => {
            let methods = |list: &[FnStmt]| {
                let shapes: Vec<String> = list.iter().map(function).collect();
                format!("[{}]", shapes.join("; "))
            };
            let mut words = vec![word("class"), name(&c.name)];
            if let Some(superclass) = &c.superclass {
                words.extend([word("<"), name(&superclass.name)]);
            }
            words.extend([methods(&c.methods), methods(&c.static_methods)]);
            form(words)
        }
        Stmt::ClassicFor(f) => form([
            word("for"),
            f.initializer.as_ref().map_or(word("-"), |init| stmt(init)),
            expr(&f.condition),
            expr(&f.increment),
            stmt(&f.body),
        ]),
        Stmt::EnhancedFor(f) => form([
            word("for"),
            names(&f.identifiers),
            word("in"),
            expr(&f.collection),
            stmt(&f.body),
        ]),
        Stmt::While(w) => form([word("while"), expr(&w.condition), stmt(&w.body)]),
        Stmt::If(i) => {
            let mut words = vec![word("if"), expr(&i.condition), body(&i.then_branch)];
            for elif in &i.elifs {
                words.extend([word("elif"), expr(&elif.condition), body(&elif.then_branch)]);
            }
            // The original doesn't tell a missing `else` from an empty one.
            if !i.else_branch.is_empty() {
                words.extend([word("else"), body(&i.else_branch)]);
            }
            form(words)
        }
        Stmt::Continue(_) => word("continue"),
        Stmt::Return(r) => form(
            [word("return")]
                .into_iter()
                .chain(r.value.as_ref().map(expr)),
        ),
        Stmt::Break(_) => word("break"),
        Stmt::TryCatch(t) => form([
            word("try"),
            stmt(&t.try_body),
            t.name.lexeme.clone(),
            stmt(&t.catch_body),
        ]),
        Stmt::Expr(e) => expr(&e.expression),
    }
}

/// An expression: operator or kind, then its parts, in brackets. Empty is `_`.
fn expr(e: &Expr) -> String {
    let word = |text: &str| text.to_string();
    let with_list =
        |first: Vec<String>, list: &[Expr]| form(first.into_iter().chain(list.iter().map(expr)));
    match e {
        Expr::Fn(FnExpr { params, body: b }) => form([word("fn"), names(params), body(b)]),
        Expr::Var(v) => name(&v.name),
        Expr::List(l) => with_list(vec![word("list")], &l.elements),
        Expr::Dictionary(d) => with_list(vec![word("dict")], &d.elements),
        Expr::Assign(a) => form(
            [word("="), a.name.lexeme.clone(), expr(&a.value)]
                .into_iter()
                .chain(a.access.as_ref().map(access)),
        ),
        Expr::Access(a) => access(a),
        Expr::Binary(b) => form([b.operator.lexeme.clone(), expr(&b.left), expr(&b.right)]),
        Expr::Call(c) => with_list(vec![word("call"), expr(&c.callee)], &c.arguments),
        Expr::Get(g) => form([word("get"), expr(&g.object), g.name.lexeme.clone()]),
        Expr::Set(s) => form(
            [
                word("set"),
                expr(&s.object),
                s.name.lexeme.clone(),
                expr(&s.value),
            ]
            .into_iter()
            .chain(s.access.as_ref().map(access)),
        ),
        Expr::Super(s) => form([word("super"), s.method.lexeme.clone()]),
        Expr::Grouping(g) => form([word("group"), expr(&g.expression)]),
        Expr::Literal(l) => match &l.value {
            Literal::String(text) => format!("{text:?}"),
            Literal::Number(number) => number.to_string(),
            Literal::Boolean(truth) => truth.to_string(),
            Literal::Nil => word("nil"),
        },
        Expr::Logical(l) => form([l.operator.lexeme.clone(), expr(&l.left), expr(&l.right)]),
        Expr::This(_) => word("this"),
        Expr::Unary(u) => form([u.operator.lexeme.clone(), expr(&u.right)]),
        Expr::Empty => word("_"),
    }
}

/// An index or slice: the three parts, with the colons that are there before the second and the
/// third.
fn access(a: &AccessExpr) -> String {
    form([
        "at".to_string(),
        expr(&a.object),
        expr(&a.first),
        a.first_colon.lexeme.clone() + &expr(&a.second),
        a.second_colon.lexeme.clone() + &expr(&a.third),
    ])
}
