//! Trees taken apart.
//!
//! A tree is dropped by going down it, a call for each level. `a+a+a` and so on has tens of
//! thousands of levels, which overflows an ordinary stack. So the parts of a tree are moved into
//! two lists before the rest of it, which then holds nothing deep, is dropped.

use crate::expr::{AccessExpr, Expr};
use crate::stmt::Stmt;

/// Drops statements without recursion, however deep they are.
pub fn discard(stmts: Vec<Stmt>) {
    let mut parts = Parts {
        stmts,
        exprs: vec![],
    };
    loop {
        if let Some(expr) = parts.exprs.pop() {
            parts.expr(expr);
        } else if let Some(stmt) = parts.stmts.pop() {
            parts.stmt(stmt);
        } else {
            return;
        }
    }
}

/// What is still to be taken apart.
struct Parts {
    stmts: Vec<Stmt>,
    exprs: Vec<Expr>,
}

impl Parts {
    fn boxed(&mut self, expr: Box<Expr>) {
        self.exprs.push(*expr);
    }

    fn access(&mut self, access: AccessExpr) {
        self.boxed(access.object);
        self.boxed(access.first);
        self.boxed(access.second);
        self.boxed(access.third);
    }

    fn expr(&mut self, expr: Expr) {
        match expr {
            Expr::Fn(e) => self.stmts.extend(e.body),
            Expr::List(e) => self.exprs.extend(e.elements),
            Expr::Dictionary(e) => self.exprs.extend(e.elements),
            Expr::Assign(e) => {
                self.boxed(e.value);
                e.access.into_iter().for_each(|access| self.access(access));
            }
            Expr::Access(e) => self.access(e),
            Expr::Binary(e) => {
                self.boxed(e.left);
                self.boxed(e.right);
            }
            Expr::Call(e) => {
                self.boxed(e.callee);
                self.exprs.extend(e.arguments);
            }
            Expr::Get(e) => self.boxed(e.object),
            Expr::Set(e) => {
                self.boxed(e.object);
                self.boxed(e.value);
                e.access.into_iter().for_each(|access| self.access(access));
            }
            Expr::Grouping(e) => self.boxed(e.expression),
            Expr::Logical(e) => {
                self.boxed(e.left);
                self.boxed(e.right);
            }
            Expr::Unary(e) => self.boxed(e.right),
            // These hold tokens only.
            Expr::Var(_) | Expr::Super(_) | Expr::Literal(_) | Expr::This(_) | Expr::Empty => (),
        }
    }

    fn stmt(&mut self, stmt: Stmt) {
        match stmt {
            Stmt::Fn(s) => self.stmts.extend(s.body),
            Stmt::Let(s) => self.exprs.extend(s.initializer),
            Stmt::Block(s) => self.stmts.extend(s.stmts),
            Stmt::Class(s) => {
                let methods = s.methods.into_iter().chain(s.static_methods);
                self.stmts.extend(methods.flat_map(|method| method.body));
            }
            Stmt::ClassicFor(s) => {
                self.stmts.extend(s.initializer.map(|first| *first));
                self.exprs.extend([s.condition, s.increment]);
                self.stmts.push(*s.body);
            }
            Stmt::EnhancedFor(s) => {
                self.exprs.push(s.collection);
                self.stmts.push(*s.body);
            }
            Stmt::While(s) => {
                self.exprs.push(s.condition);
                self.stmts.push(*s.body);
            }
            Stmt::If(s) => {
                self.exprs.push(s.condition);
                self.stmts.extend(s.then_branch);
                for elif in s.elifs {
                    self.exprs.push(elif.condition);
                    self.stmts.extend(elif.then_branch);
                }
                self.stmts.extend(s.else_branch);
            }
            Stmt::Return(s) => self.exprs.extend(s.value),
            Stmt::TryCatch(s) => self.stmts.extend([*s.try_body, *s.catch_body]),
            Stmt::Expr(s) => self.exprs.push(s.expression),
            // These hold their keyword only.
            Stmt::Continue(_) | Stmt::Break(_) => (),
        }
    }
}
