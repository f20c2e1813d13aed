//! Trees of the original as node records (`docs/RULES.md`, 'Nodes').
//!
//! A node's number is its place in the order in which nodes are finished. The original keeps no
//! such order, but its trees fix it: they are walked as the parser read them. On `=` the nodes
//! that were read on the left stay in the table, although the tree has only their parts.

use oracle::expr::{AccessExpr, Expr, FnExpr, VarExpr};
use oracle::stmt::{ClassStmt, FnStmt, Stmt};
use oracle::token::{Literal, Token, TokenData};

use crate::marks;
use crate::records::{kind, node, NODE_WORDS};

pub use crate::records::Node;

/// The nodes made so far. References count from 1; 0 is nothing.
pub struct Nodes<'a> {
    pub nodes: Vec<Node>,
    /// The tokens as the lexer gave them.
    tokens: &'a [TokenData],
}

impl<'a> Nodes<'a> {
    pub fn new(tokens: &'a [TokenData]) -> Self {
        let nodes = vec![];
        Nodes { nodes, tokens }
    }

    fn push(&mut self, kind: u32, tokens: &[u32], children: &[u32]) -> u32 {
        let mut record = [0; NODE_WORDS];
        record[node::KIND] = kind;
        record[node::TOKENS[0]..][..tokens.len()].copy_from_slice(tokens);
        record[node::CHILDREN[0]..][..children.len()].copy_from_slice(children);
        self.nodes.push(record);
        self.nodes.len() as u32
    }

    /// The later node comes after the earlier one in a list.
    fn link(&mut self, earlier: u32, later: u32) {
        if earlier != 0 {
            self.nodes[earlier as usize - 1][node::NEXT] = later;
        }
    }

    /// A list, by its first member.
    fn list<T>(&mut self, items: &[T], mut one: impl FnMut(&mut Self, &T) -> u32) -> u32 {
        let (mut first, mut last) = (0, 0);
        for item in items {
            let n = one(self, item);
            self.link(last, n);
            first = if first == 0 { n } else { first };
            last = n;
        }
        first
    }

    /// The top-level statements, as one list: the number of each.
    pub fn top_level(&mut self, stmts: &[Stmt]) -> Vec<u32> {
        let mut numbers = vec![];
        self.list(stmts, |s, stmt| {
            let n = s.stmt(stmt);
            numbers.push(n);
            n
        });
        numbers
    }

    fn names(&mut self, names: &[TokenData]) -> u32 {
        self.list(names, |s, t| {
            s.push(kind::NAME, &[marks::reference(t)], &[])
        })
    }

    fn body(&mut self, stmts: &[Stmt]) -> u32 {
        self.list(stmts, Self::stmt)
    }

    fn function(&mut self, f: &FnStmt) -> u32 {
        let params = self.names(&f.params);
        let body = self.body(&f.body);
        self.push(kind::FN_STMT, &[marks::reference(&f.name)], &[params, body])
    }

    fn var(&mut self, v: &VarExpr) -> u32 {
        self.push(kind::VAR, &[marks::maybe(&v.name)], &[])
    }

    /// Methods and static methods are two lists, numbered in the order of the script.
    fn class(&mut self, c: &ClassStmt) -> u32 {
        let superclass = c.superclass.as_ref().map_or(0, |v| self.var(v));
        let mut methods: Vec<(usize, &FnStmt)> = c.methods.iter().map(|m| (0, m)).collect();
        methods.extend(c.static_methods.iter().map(|m| (1, m)));
        methods.sort_by_key(|(_, m)| marks::reference(&m.name));
        let (mut first, mut last) = ([0, 0], [0, 0]);
        for (list, method) in methods {
            let n = self.function(method);
            self.link(last[list], n);
            first[list] = if first[list] == 0 { n } else { first[list] };
            last[list] = n;
        }
        let name = marks::maybe(&c.name);
        self.push(kind::CLASS, &[name], &[first[0], first[1], superclass])
    }

    fn stmt(&mut self, s: &Stmt) -> u32 {
        match s {
            Stmt::Fn(f) => self.function(f),
            Stmt::Let(l) => {
                let value = l.initializer.as_ref().map_or(0, |e| self.expr(e));
                self.push(kind::LET, &[marks::reference(&l.name)], &[value])
            }
            Stmt::Block(b) => {
                let stmts = self.body(&b.stmts);
                self.push(kind::BLOCK, &[], &[stmts])
            }
            Stmt::Class(c) => self.class(c),
            Stmt::ClassicFor(f) => {
                let initializer = f.initializer.as_ref().map_or(0, |s| self.stmt(s));
                let condition = self.expr(&f.condition);
                let increment = self.expr(&f.increment);
                let body = self.stmt(&f.body);
                let children = [initializer, condition, increment, body];
                self.push(
                    kind::CLASSIC_FOR,
                    &[marks::reference(&f.keyword)],
                    &children,
                )
            }
            Stmt::EnhancedFor(f) => {
                let names = self.names(&f.identifiers);
                let collection = self.expr(&f.collection);
                let body = self.stmt(&f.body);
                let children = [names, collection, body];
                self.push(
                    kind::ENHANCED_FOR,
                    &[marks::reference(&f.keyword)],
                    &children,
                )
            }
            Stmt::While(w) => {
                let condition = self.expr(&w.condition);
                let body = self.stmt(&w.body);
                self.push(
                    kind::WHILE,
                    &[marks::reference(&w.keyword)],
                    &[condition, body],
                )
            }
            Stmt::If(i) => {
                let condition = self.expr(&i.condition);
                let then = self.body(&i.then_branch);
                let elifs = self.list(&i.elifs, |s, elif| {
                    let condition = s.expr(&elif.condition);
                    let then = s.body(&elif.then_branch);
                    s.push(kind::ELIF, &[], &[condition, then])
                });
                let otherwise = self.body(&i.else_branch);
                let children = [condition, then, elifs, otherwise];
                self.push(kind::IF, &[marks::reference(&i.keyword)], &children)
            }
            Stmt::Continue(c) => self.push(kind::CONTINUE, &[marks::reference(&c.keyword)], &[]),
            Stmt::Return(r) => {
                let value = r.value.as_ref().map_or(0, |e| self.expr(e));
                self.push(kind::RETURN, &[marks::reference(&r.keyword)], &[value])
            }
            Stmt::Break(b) => self.push(kind::BREAK, &[marks::reference(&b.keyword)], &[]),
            Stmt::TryCatch(t) => {
                let try_body = self.stmt(&t.try_body);
                let catch_body = self.stmt(&t.catch_body);
                self.push(
                    kind::TRY_CATCH,
                    &[marks::reference(&t.name)],
                    &[try_body, catch_body],
                )
            }
            Stmt::Expr(e) => {
                let expression = self.expr(&e.expression);
                self.push(kind::EXPR_STMT, &[marks::maybe(&e.last)], &[expression])
            }
        }
    }

    fn exprs(&mut self, list: &[Expr]) -> u32 {
        self.list(list, Self::expr)
    }

    fn expr(&mut self, e: &Expr) -> u32 {
        match e {
            Expr::Fn(FnExpr { params, body }) => {
                let params = self.names(params);
                let body = self.body(body);
                self.push(kind::FN_EXPR, &[], &[params, body])
            }
            Expr::Var(v) => self.var(v),
            Expr::List(l) => {
                let elements = self.exprs(&l.elements);
                self.push(kind::LIST, &[marks::reference(&l.brace)], &[elements])
            }
            Expr::Dictionary(d) => {
                let elements = self.exprs(&d.elements);
                self.push(
                    kind::DICTIONARY,
                    &[marks::reference(&d.curly_brace)],
                    &[elements],
                )
            }
            Expr::Assign(a) => {
                let name = marks::reference(&a.name);
                // The left side was read first: an Access around the name, or the name alone.
                let access = a.access.as_ref().map_or(0, |access| self.access(access));
                if access == 0 {
                    self.push(kind::VAR, &[name], &[]);
                }
                let value = self.expr(&a.value);
                self.push(kind::ASSIGN, &[name], &[value, access])
            }
            Expr::Access(a) => self.access(a),
            Expr::Binary(b) => {
                let left = self.expr(&b.left);
                let right = self.expr(&b.right);
                self.push(
                    kind::BINARY,
                    &[marks::reference(&b.operator)],
                    &[left, right],
                )
            }
            Expr::Call(c) => {
                let callee = self.expr(&c.callee);
                let arguments = self.exprs(&c.arguments);
                self.push(
                    kind::CALL,
                    &[marks::reference(&c.paren)],
                    &[callee, arguments],
                )
            }
            Expr::Get(g) => {
                let object = self.expr(&g.object);
                self.push(kind::GET, &[marks::reference(&g.name)], &[object])
            }
            Expr::Set(s) => {
                let name = marks::reference(&s.name);
                // The left side was read first: an Access around the Get, or the Get alone.
                let (access, object) = match &s.access {
                    Some(access) => {
                        let n = self.access(access);
                        (n, self.object_of_get(n))
                    }
                    None => {
                        let object = self.expr(&s.object);
                        self.push(kind::GET, &[name], &[object]);
                        (0, object)
                    }
                };
                let value = self.expr(&s.value);
                self.push(kind::SET, &[name], &[object, value, access])
            }
            Expr::Super(s) => {
                // The made-up method is no token of the script.
                let method = if marks::is_mark(&s.method) {
                    marks::reference(&s.method)
                } else {
                    0
                };
                self.push(kind::SUPER, &[marks::reference(&s.keyword), method], &[])
            }
            Expr::Grouping(g) => {
                let expression = self.expr(&g.expression);
                self.push(kind::GROUPING, &[], &[expression])
            }
            Expr::Literal(l) => match &l.value {
                Literal::String(mark) => self.push(kind::LITERAL, &[marks::read(mark)], &[]),
                other => panic!("a literal without a mark: {other:?}"),
            },
            Expr::Logical(l) => {
                let left = self.expr(&l.left);
                let right = self.expr(&l.right);
                self.push(
                    kind::LOGICAL,
                    &[marks::reference(&l.operator)],
                    &[left, right],
                )
            }
            Expr::This(t) => self.push(kind::THIS, &[marks::reference(&t.keyword)], &[]),
            Expr::Unary(u) => {
                let right = self.expr(&u.right);
                self.push(kind::UNARY, &[marks::reference(&u.operator)], &[right])
            }
            Expr::Empty => self.push(kind::EMPTY, &[], &[]),
        }
    }

    /// The object that the Get below directly nested Accesses has.
    fn object_of_get(&self, access: u32) -> u32 {
        let object = |record: Node| record[node::CHILDREN[0]];
        let mut record = self.nodes[access as usize - 1];
        while record[node::KIND] == kind::ACCESS {
            record = self.nodes[object(record) as usize - 1];
        }
        let found = record[node::KIND];
        assert_eq!(found, kind::GET, "a Set's access leads to a Get");
        object(record)
    }

    /// An index or slice. The original has Empty both for an expression that was not looked for
    /// and for one that a newline made; the tokens tell which.
    fn access(&mut self, a: &AccessExpr) -> u32 {
        let colon = |t: &TokenData| {
            if marks::is_mark(t) {
                marks::reference(t)
            } else {
                0
            }
        };
        let (colon1, colon2) = (colon(&a.first_colon), colon(&a.second_colon));
        let has_first = a.first.as_ref() != &Expr::Empty || colon1 == 0;
        let has_second = a.second.as_ref() != &Expr::Empty
            || (colon1 != 0 && colon2 == 0 && !(has_first && self.closes_after(colon1)));
        let has_third = a.third.as_ref() != &Expr::Empty
            || (colon2 != 0 && !(has_first && has_second && self.closes_after(colon2)));
        let object = self.expr(&a.object);
        let mut part = |there, e| if there { self.expr(e) } else { 0 };
        let first = part(has_first, &a.first);
        let second = part(has_second, &a.second);
        let third = part(has_third, &a.third);
        let tokens = [marks::reference(&a.brace), colon1, colon2];
        self.push(kind::ACCESS, &tokens, &[object, first, second, third])
    }

    /// Whether `]` comes after the token with this reference, newlines aside.
    fn closes_after(&self, reference: u32) -> bool {
        self.tokens[reference as usize..]
            .iter()
            .find(|t| t.token != Token::Newline)
            .is_some_and(|t| t.token == Token::RightBrace)
    }
}
