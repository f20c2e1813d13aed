//! Node records as trees of the original.
//!
//! Written from the table of kinds in `docs/RULES.md`, 'Nodes': `columns` says what each column holds,
//! `Walk::expr` and `Walk::stmt` say what a node becomes.
//!
//! Nothing here calls itself. `a+a+a` and so on, within 65,535 bytes, is a tree of 32,768 levels,
//! and no ordinary stack has room to go down there. So nodes that are still to be done stand in a
//! list, and finished parts in others, from which their parent takes them.
//!
//! Records share what trees repeat: a Set's object is the node that the Get had. Such a node is
//! simply visited again, and where that happens within itself the trees grow with each level by as
//! much again. So their size is known before they are built.
//!
//! The library's tables are well formed, which is proved. But nothing here relies on it: a child
//! has to stand before its parent and a next after its own node, and what doesn't is told as an
//! error, so that no table leads out of itself or round in a circle.

use crate::expr::*;
use crate::records::{kind, node};
use crate::stmt::*;
use crate::token::{Literal, Token, TokenData};

pub use crate::records::Node;

/// A tree, or what is wrong with the table.
pub type Unfolded<T> = Result<T, String>;

/// The statements of a table, from the first one on.
pub fn statements(nodes: &[Node], tokens: &[TokenData], first: u32) -> Unfolded<Vec<Stmt>> {
    let mut walk = Walk::over(Table { nodes, tokens });
    let numbers = walk.table.top_level(first)?;
    numbers.into_iter().map(|n| walk.statement(n)).collect()
}

/// The statements of a table as far as they are together no larger than a limit, and whether those
/// are all. A node counts as one, and as one more for every 64 bytes of its tokens' texts, which it
/// has copies of.
pub fn statements_within(
    limit: u64,
    nodes: &[Node],
    tokens: &[TokenData],
    first: u32,
) -> Unfolded<(Vec<Stmt>, bool)> {
    let mut walk = Walk::over(Table { nodes, tokens });
    let sizes = walk.table.sizes()?;
    let (mut stmts, mut total) = (vec![], 0u64);
    for n in walk.table.top_level(first)? {
        total = total.saturating_add(sizes[n as usize]);
        if total > limit {
            return Ok((stmts, false));
        }
        stmts.push(walk.statement(n)?);
    }
    Ok((stmts, true))
}

/// What a node may be where it stands.
#[derive(Debug, Clone, Copy, PartialEq, Eq)]
enum Sort {
    Expr,
    Stmt,
    Method,
    Elif,
    Name,
    Var,
    Access,
}

impl Sort {
    fn has(self, kind: u32) -> bool {
        match self {
            Sort::Expr => kind::EXPRS.contains(&kind),
            Sort::Stmt => kind::STMTS.contains(&kind),
            Sort::Method => kind == kind::FN_STMT,
            Sort::Elif => kind == kind::ELIF,
            Sort::Name => kind == kind::NAME,
            Sort::Var => kind == kind::VAR,
            Sort::Access => kind == kind::ACCESS,
        }
    }
}

/// What a child column holds: one node, one or none, or a list.
#[derive(Debug, Clone, Copy)]
enum Holds {
    One(Sort),
    Maybe(Sort),
    Many(Sort),
}

/// The child columns of a kind.
fn columns(kind: u32) -> &'static [Holds] {
    use Holds::*;
    use Sort::*;
    match kind {
        kind::FN_EXPR | kind::FN_STMT => &[Many(Name), Many(Stmt)],
        kind::LIST | kind::DICTIONARY => &[Many(Expr)],
        kind::ASSIGN => &[One(Expr), Maybe(Access)],
        kind::ACCESS => &[One(Expr), Maybe(Expr), Maybe(Expr), Maybe(Expr)],
        kind::BINARY | kind::LOGICAL => &[One(Expr), One(Expr)],
        kind::CALL => &[One(Expr), Many(Expr)],
        kind::GET | kind::GROUPING | kind::UNARY | kind::EXPR_STMT => &[One(Expr)],
        kind::SET => &[One(Expr), One(Expr), Maybe(Access)],
        kind::LET | kind::RETURN => &[Maybe(Expr)],
        kind::BLOCK => &[Many(Stmt)],
        kind::CLASS => &[Many(Method), Many(Method), Maybe(Var)],
        kind::CLASSIC_FOR => &[Maybe(Stmt), One(Expr), One(Expr), One(Stmt)],
        kind::ENHANCED_FOR => &[Many(Name), One(Expr), One(Stmt)],
        kind::WHILE => &[One(Expr), One(Stmt)],
        kind::IF => &[One(Expr), Many(Stmt), Many(Elif), Many(Stmt)],
        kind::TRY_CATCH => &[One(Stmt), One(Stmt)],
        kind::ELIF => &[One(Expr), Many(Stmt)],
        _ => &[],
    }
}

/// So many bytes of text count as much as a node.
const TEXT: usize = 64;

#[derive(Clone, Copy)]
struct Table<'a> {
    nodes: &'a [Node],
    tokens: &'a [TokenData],
}

impl<'a> Table<'a> {
    fn node(self, n: u32) -> Unfolded<&'a Node> {
        let index = (n as usize).checked_sub(1);
        let node = index.and_then(|index| self.nodes.get(index));
        node.ok_or_else(|| format!("no node {n}"))
    }

    /// The token in a column, 0 to 2, of a node.
    fn token(self, n: u32, column: usize) -> Unfolded<&'a TokenData> {
        let found = self.maybe_token(n, column)?;
        found.ok_or_else(|| format!("node {n} has no token {column}"))
    }

    fn maybe_token(self, n: u32, column: usize) -> Unfolded<Option<&'a TokenData>> {
        let reference = self.node(n)?[node::TOKENS[column]];
        let Some(index) = (reference as usize).checked_sub(1) else {
            return Ok(None);
        };
        let token = self.tokens.get(index);
        let token = token.ok_or_else(|| format!("node {n} has a token {reference}"))?;
        Ok(Some(token))
    }

    /// The reference in a child column, 0 to 3. A child comes before its parent.
    fn child(self, n: u32, column: usize) -> Unfolded<u32> {
        let child = self.node(n)?[node::CHILDREN[column]];
        if child >= n {
            return Err(format!("node {n} has a child {child}"));
        }
        Ok(child)
    }

    /// Goes over a list; each next is larger than its own number and smaller than that of the node
    /// which the list belongs to.
    fn list(self, above: u32, first: u32, mut each: impl FnMut(u32)) -> Unfolded<()> {
        let mut n = first;
        while n != 0 {
            each(n);
            let next = self.node(n)?[node::NEXT];
            if next != 0 && (next <= n || next >= above) {
                return Err(format!("behind node {n} comes {next}"));
            }
            n = next;
        }
        Ok(())
    }

    /// Goes over what stands in a child column.
    fn children(self, n: u32, column: usize, holds: Holds, each: impl FnMut(u32)) -> Unfolded<()> {
        let child = self.child(n, column)?;
        match holds {
            Holds::Many(_) => (),
            Holds::One(_) if child == 0 => return Err(format!("node {n} has no child {column}")),
            _ if child != 0 && self.node(child)?[node::NEXT] != 0 => {
                return Err(format!("node {child} is no list"))
            }
            _ => (),
        }
        self.list(n, child, each)
    }

    /// The numbers of the statements. No node stands above them.
    fn top_level(self, first: u32) -> Unfolded<Vec<u32>> {
        let mut numbers = vec![];
        let above = u32::try_from(self.nodes.len()).map_or(u32::MAX, |count| count + 1);
        self.list(above, first, |n| numbers.push(n))?;
        Ok(numbers)
    }

    /// For each number of a node, how large a tree it is, as far as a word can tell. One pass will do:
    /// children come before their parents.
    fn sizes(self) -> Unfolded<Vec<u64>> {
        let mut sizes = vec![0u64];
        for (n, node) in (1u32..).zip(self.nodes) {
            let mut size = self.weight(node);
            for (column, &holds) in columns(node[node::KIND]).iter().enumerate() {
                let add = |m: u32| size = size.saturating_add(sizes[m as usize]);
                self.children(n, column, holds, add)?;
            }
            sizes.push(size);
        }
        Ok(sizes)
    }

    /// What a node counts without its children.
    fn weight(self, node: &Node) -> u64 {
        let tokens = node::TOKENS.map(|column| (node[column] as usize).checked_sub(1));
        let tokens = tokens.into_iter().flatten();
        let tokens = tokens.filter_map(|index| self.tokens.get(index));
        1 + (tokens.map(text_length).sum::<usize>() / TEXT) as u64
    }
}

/// How many bytes of text a token has.
fn text_length(t: &TokenData) -> usize {
    match &t.literal {
        Some(Literal::String(text)) => t.lexeme.len() + text.len(),
        _ => t.lexeme.len(),
    }
}

/// What is still to be done: to look at a node and its children, or to make its tree of theirs.
enum Step {
    Open(u32, Sort),
    Close(u32),
}

/// The walk over a tree. The children in each column are opened from the last to the first, so that
/// the finished parts are taken in the columns' order and in a list's.
struct Walk<'a> {
    table: Table<'a>,
    steps: Vec<Step>,
    exprs: Vec<Expr>,
    stmts: Vec<Stmt>,
    elifs: Vec<ElifBranch>,
    names: Vec<TokenData>,
}

impl<'a> Walk<'a> {
    fn over(table: Table<'a>) -> Walk<'a> {
        Walk {
            table,
            steps: vec![],
            exprs: vec![],
            stmts: vec![],
            elifs: vec![],
            names: vec![],
        }
    }

    /// The tree of a statement.
    fn statement(&mut self, n: u32) -> Unfolded<Stmt> {
        self.steps.push(Step::Open(n, Sort::Stmt));
        while let Some(step) = self.steps.pop() {
            match step {
                Step::Open(n, sort) => self.open(n, sort)?,
                Step::Close(n) => self.close(n)?,
            }
        }
        taken(&mut self.stmts)
    }

    fn open(&mut self, n: u32, sort: Sort) -> Unfolded<()> {
        let kind = self.table.node(n)?[node::KIND];
        if !sort.has(kind) {
            return Err(format!("node {n} of kind {kind} is no {sort:?}"));
        }
        self.steps.push(Step::Close(n));
        for (column, &holds) in columns(kind).iter().enumerate() {
            let (Holds::One(sort) | Holds::Maybe(sort) | Holds::Many(sort)) = holds;
            let steps = &mut self.steps;
            let add = |child| steps.push(Step::Open(child, sort));
            self.table.children(n, column, holds, add)?;
        }
        Ok(())
    }

    fn close(&mut self, n: u32) -> Unfolded<()> {
        match self.table.node(n)?[node::KIND] {
            kind::ELIF => {
                let elif = ElifBranch {
                    condition: self.expr_in()?,
                    then_branch: self.stmts(n, 1)?,
                };
                self.elifs.push(elif);
            }
            kind::NAME => self.names.push(self.token(n, 0)?),
            kind if Sort::Expr.has(kind) => {
                let expr = self.expr(n)?;
                self.exprs.push(expr);
            }
            _ => {
                let stmt = self.stmt(n)?;
                self.stmts.push(stmt);
            }
        }
        Ok(())
    }

    fn token(&self, n: u32, column: usize) -> Unfolded<TokenData> {
        self.table.token(n, column).cloned()
    }

    fn maybe_token(&self, n: u32, column: usize) -> Unfolded<Option<TokenData>> {
        Ok(self.table.maybe_token(n, column)?.cloned())
    }

    /// Whether there is a child in a column that may hold none.
    fn there(&self, n: u32, column: usize) -> Unfolded<bool> {
        Ok(self.table.child(n, column)? != 0)
    }

    fn expr_in(&mut self) -> Unfolded<Expr> {
        taken(&mut self.exprs)
    }

    fn boxed(&mut self) -> Unfolded<Box<Expr>> {
        self.expr_in().map(Box::new)
    }

    fn maybe_expr(&mut self, n: u32, column: usize) -> Unfolded<Option<Expr>> {
        let there = self.there(n, column)?;
        there.then(|| self.expr_in()).transpose()
    }

    fn stmt_in(&mut self) -> Unfolded<Box<Stmt>> {
        taken(&mut self.stmts).map(Box::new)
    }

    /// How many nodes the list in a column has.
    fn count(&self, n: u32, column: usize) -> Unfolded<usize> {
        let mut count = 0;
        let first = self.table.child(n, column)?;
        self.table.list(n, first, |_| count += 1)?;
        Ok(count)
    }

    fn exprs(&mut self, n: u32, column: usize) -> Unfolded<Vec<Expr>> {
        let count = self.count(n, column)?;
        several(&mut self.exprs, count)
    }

    fn stmts(&mut self, n: u32, column: usize) -> Unfolded<Vec<Stmt>> {
        let count = self.count(n, column)?;
        several(&mut self.stmts, count)
    }

    fn elifs(&mut self, n: u32, column: usize) -> Unfolded<Vec<ElifBranch>> {
        let count = self.count(n, column)?;
        several(&mut self.elifs, count)
    }

    fn names(&mut self, n: u32, column: usize) -> Unfolded<Vec<TokenData>> {
        let count = self.count(n, column)?;
        several(&mut self.names, count)
    }

    fn methods(&mut self, n: u32, column: usize) -> Unfolded<Vec<FnStmt>> {
        let stmts = self.stmts(n, column)?.into_iter();
        let methods = stmts.map(|stmt| match stmt {
            Stmt::Fn(method) => Ok(method),
            _ => Err(format!("node {n} has a method that is none")),
        });
        methods.collect()
    }

    fn stmt(&mut self, n: u32) -> Unfolded<Stmt> {
        Ok(match self.table.node(n)?[node::KIND] {
            kind::FN_STMT => Stmt::Fn(FnStmt {
                name: self.token(n, 0)?,
                params: self.names(n, 0)?,
                body: self.stmts(n, 1)?,
            }),
            kind::LET => Stmt::Let(LetStmt {
                name: self.token(n, 0)?,
                initializer: self.maybe_expr(n, 0)?,
            }),
            kind::BLOCK => Stmt::Block(BlockStmt {
                stmts: self.stmts(n, 0)?,
            }),
            kind::CLASS => Stmt::Class(self.class(n)?),
            kind::IF => Stmt::If(IfStmt {
                keyword: self.token(n, 0)?,
                condition: self.expr_in()?,
                then_branch: self.stmts(n, 1)?,
                elifs: self.elifs(n, 2)?,
                else_branch: self.stmts(n, 3)?,
            }),
            kind::TRY_CATCH => Stmt::TryCatch(TryCatchStmt {
                name: self.token(n, 0)?,
                try_body: self.stmt_in()?,
                catch_body: self.stmt_in()?,
            }),
            kind::EXPR_STMT => Stmt::Expr(ExprStmt {
                last: self.maybe_token(n, 0)?,
                expression: self.expr_in()?,
            }),
            kind => self.with_keyword(kind, n)?,
        })
    }

    /// The statements that are their keyword and what belongs to it.
    fn with_keyword(&mut self, kind: u32, n: u32) -> Unfolded<Stmt> {
        let keyword = self.token(n, 0)?;
        Ok(match kind {
            kind::CLASSIC_FOR => Stmt::ClassicFor(ClassicForStmt {
                keyword,
                initializer: match self.there(n, 0)? {
                    true => Some(self.stmt_in()?),
                    false => None,
                },
                condition: self.expr_in()?,
                increment: self.expr_in()?,
                body: self.stmt_in()?,
            }),
            kind::ENHANCED_FOR => Stmt::EnhancedFor(EnhancedForStmt {
                keyword,
                identifiers: self.names(n, 0)?,
                collection: self.expr_in()?,
                body: self.stmt_in()?,
            }),
            kind::WHILE => Stmt::While(WhileStmt {
                keyword,
                condition: self.expr_in()?,
                body: self.stmt_in()?,
            }),
            kind::CONTINUE => Stmt::Continue(ContinueStmt { keyword }),
            kind::RETURN => Stmt::Return(ReturnStmt {
                keyword,
                value: self.maybe_expr(n, 0)?,
            }),
            kind::BREAK => Stmt::Break(BreakStmt { keyword }),
            _ => return Err(format!("node {n} of kind {kind} is no statement")),
        })
    }

    fn class(&mut self, n: u32) -> Unfolded<ClassStmt> {
        Ok(ClassStmt {
            name: self.maybe_token(n, 0)?,
            methods: self.methods(n, 0)?,
            static_methods: self.methods(n, 1)?,
            superclass: match self.maybe_expr(n, 2)? {
                None => None,
                Some(Expr::Var(var)) => Some(var),
                Some(_) => return Err(format!("node {n} has a superclass that is no name")),
            },
        })
    }

    fn expr(&mut self, n: u32) -> Unfolded<Expr> {
        Ok(match self.table.node(n)?[node::KIND] {
            kind::FN_EXPR => Expr::Fn(FnExpr {
                params: self.names(n, 0)?,
                body: self.stmts(n, 1)?,
            }),
            kind::VAR => Expr::Var(VarExpr {
                name: self.maybe_token(n, 0)?,
            }),
            kind::LIST => Expr::List(ListExpr {
                elements: self.exprs(n, 0)?,
                brace: self.token(n, 0)?,
            }),
            kind::DICTIONARY => Expr::Dictionary(DictionaryExpr {
                elements: self.exprs(n, 0)?,
                curly_brace: self.token(n, 0)?,
            }),
            kind::CALL => Expr::Call(CallExpr {
                callee: self.boxed()?,
                paren: self.token(n, 0)?,
                arguments: self.exprs(n, 1)?,
            }),
            kind::SUPER => Expr::Super(self.super_expr(n)?),
            kind::GROUPING => Expr::Grouping(GroupingExpr {
                expression: self.boxed()?,
            }),
            kind::LITERAL => Expr::Literal(LiteralExpr {
                value: literal(self.table.token(n, 0)?)?,
            }),
            kind::THIS => Expr::This(ThisExpr {
                keyword: self.token(n, 0)?,
            }),
            kind::EMPTY => Expr::Empty,
            kind::ASSIGN | kind::ACCESS | kind::GET | kind::SET => self.place(n)?,
            kind => self.operation(kind, n)?,
        })
    }

    fn operation(&mut self, kind: u32, n: u32) -> Unfolded<Expr> {
        let operator = self.token(n, 0)?;
        Ok(match kind {
            kind::BINARY => Expr::Binary(BinaryExpr {
                left: self.boxed()?,
                operator,
                right: self.boxed()?,
            }),
            kind::LOGICAL => Expr::Logical(LogicalExpr {
                left: self.boxed()?,
                operator,
                right: self.boxed()?,
            }),
            kind::UNARY => Expr::Unary(UnaryExpr {
                operator,
                right: self.boxed()?,
            }),
            _ => return Err(format!("node {n} of kind {kind} is no expression")),
        })
    }

    /// What can be assigned to, and what assigns.
    fn place(&mut self, n: u32) -> Unfolded<Expr> {
        Ok(match self.table.node(n)?[node::KIND] {
            kind::ASSIGN => Expr::Assign(AssignExpr {
                name: self.token(n, 0)?,
                value: self.boxed()?,
                access: self.maybe_access(n, 1)?,
            }),
            kind::ACCESS => Expr::Access(self.access(n)?),
            kind::GET => Expr::Get(GetExpr {
                object: self.boxed()?,
                name: self.token(n, 0)?,
            }),
            // The object is the Get's own: unfolding copies it, as the original does.
            _ => Expr::Set(SetExpr {
                object: self.boxed()?,
                name: self.token(n, 0)?,
                value: self.boxed()?,
                access: self.maybe_access(n, 2)?,
            }),
        })
    }

    fn maybe_access(&mut self, n: u32, column: usize) -> Unfolded<Option<AccessExpr>> {
        match self.maybe_expr(n, column)? {
            None => Ok(None),
            Some(Expr::Access(access)) => Ok(Some(access)),
            Some(_) => Err(format!("node {n} has an access that is none")),
        }
    }

    /// Children two to four that are nothing read as Empty; a colon that is absent is the
    /// original's made-up token.
    fn access(&mut self, n: u32) -> Unfolded<AccessExpr> {
        Ok(AccessExpr {
            object: self.boxed()?,
            brace: self.token(n, 0)?,
            first: self.part(n, 1)?,
            first_colon: self.colon(n, 1)?,
            second: self.part(n, 2)?,
            second_colon: self.colon(n, 2)?,
            third: self.part(n, 3)?,
        })
    }

    fn part(&mut self, n: u32, column: usize) -> Unfolded<Box<Expr>> {
        let found = self.maybe_expr(n, column)?;
        Ok(Box::new(found.unwrap_or(Expr::Empty)))
    }

    fn colon(&self, n: u32, column: usize) -> Unfolded<TokenData> {
        let found = self.maybe_token(n, column)?;
        Ok(found.unwrap_or_else(|| made_up(Token::Nil, "", 0)))
    }

    fn super_expr(&self, n: u32) -> Unfolded<SuperExpr> {
        let keyword = self.token(n, 0)?;
        let method = self.maybe_token(n, 1)?;
        let method = method.unwrap_or_else(|| made_up(Token::Identifier, "init", keyword.line));
        Ok(SuperExpr { keyword, method })
    }
}

/// The part that was finished last.
fn taken<T>(parts: &mut Vec<T>) -> Unfolded<T> {
    parts.pop().ok_or_else(|| "a part is missing".to_string())
}

/// The parts that were finished last, from the last one on: a list's, in its order.
fn several<T>(parts: &mut Vec<T>, count: usize) -> Unfolded<Vec<T>> {
    let rest = parts.len().checked_sub(count);
    let rest = rest.ok_or_else(|| "parts are missing".to_string())?;
    let mut list = parts.split_off(rest);
    list.reverse();
    Ok(list)
}

/// A token that the original makes up.
fn made_up(token: Token, lexeme: &str, line: i32) -> TokenData {
    TokenData {
        token,
        lexeme: lexeme.to_string(),
        literal: None,
        line,
    }
}

/// The literal that a token stands for.
fn literal(t: &TokenData) -> Unfolded<Literal> {
    match t.token {
        Token::True => Ok(Literal::Boolean(true)),
        Token::False => Ok(Literal::Boolean(false)),
        Token::Nil => Ok(Literal::Nil),
        Token::Number | Token::String => t.literal.clone().ok_or("no value".to_string()),
        other => Err(format!("{other:?} is no literal")),
    }
}
