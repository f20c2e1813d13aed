//! Tables of any words unfold to something or to an error: none leads out of itself or in a circle.

use expected::dice::Dice;
use kettleplume::records::{kind, node, NODE_WORDS};
use kettleplume::token::{Literal, Token, TokenData};
use kettleplume::unfold::{statements, statements_within, Node};

/// Tokens for nodes to refer to: a name, a number, `nil`.
fn tokens() -> Vec<TokenData> {
    let token = |token, lexeme: &str, literal| TokenData {
        token,
        lexeme: lexeme.to_string(),
        literal,
        line: 1,
    };
    vec![
        token(Token::Identifier, "a", None),
        token(Token::Number, "1", Some(Literal::Number(1.0))),
        token(Token::Nil, "nil", None),
    ]
}

/// Nodes whose words are mostly of a size to mean something.
fn nodes(dice: &mut Dice) -> Vec<Node> {
    let count = 1 + dice.roll(5);
    let mut node = |n: u64| {
        let mut words = [0; NODE_WORDS];
        words[node::KIND] = dice.roll(35) as u32;
        for (column, word) in words.iter_mut().enumerate().skip(1) {
            let below = if column < node::CHILDREN[0] { 5 } else { n + 2 };
            *word = match dice.roll(16) {
                0 => u32::MAX - dice.roll(2) as u32,
                1..8 => dice.roll(below) as u32,
                _ => 0,
            };
        }
        words
    };
    (1..=count).map(&mut node).collect()
}

#[test]
fn any_words() {
    let (tokens, mut dice) = (tokens(), Dice::new(99));
    let (mut trees, mut wrong) = (0, 0);
    for _ in 0..300_000 {
        let nodes = nodes(&mut dice);
        let first = dice.roll(nodes.len() as u64 + 2) as u32;
        match statements(&nodes, &tokens, first) {
            Ok(stmts) if !stmts.is_empty() => trees += 1,
            Ok(_) => (),
            Err(_) => wrong += 1,
        }
        // The same with sizes, which look at all nodes and not only at those in use.
        if let Ok((within, all)) = statements_within(u64::MAX, &nodes, &tokens, first) {
            assert!(all);
            assert_eq!(Ok(within), statements(&nodes, &tokens, first));
        }
    }
    assert!(trees > 1_000 && wrong > 1_000, "{trees} {wrong}");
}

/// What each check is about, in its words.
#[test]
fn wrong_tables() {
    let var = [kind::VAR, 1, 0, 0, 0, 0, 0, 0, 0];
    let stmt = |child| [kind::EXPR_STMT, 1, 0, 0, child, 0, 0, 0, 0];
    let told = |nodes: &[Node], first| {
        let told = statements(nodes, &tokens(), first);
        told.expect_err("a wrong table")
    };
    assert_eq!(told(&[], 1), "no node 1");
    assert_eq!(told(&[var], 1), "node 1 of kind 2 is no Stmt");
    assert_eq!(told(&[var, stmt(2)], 2), "node 2 has a child 2");
    assert_eq!(told(&[var, stmt(3)], 2), "node 2 has a child 3");
    assert_eq!(told(&[var, stmt(0)], 2), "node 2 has no child 0");
    let looping = [kind::EXPR_STMT, 1, 0, 0, 1, 0, 0, 0, 2];
    assert_eq!(told(&[var, looping], 2), "behind node 2 comes 2");
    let leading_out = [kind::EXPR_STMT, 1, 0, 0, 1, 0, 0, 0, 3];
    assert_eq!(told(&[var, leading_out], 2), "behind node 2 comes 3");
    let listed = [kind::VAR, 1, 0, 0, 0, 0, 0, 0, 2];
    assert_eq!(told(&[listed, stmt(1)], 2), "node 1 is no list");
    let nowhere = [kind::VAR, 4, 0, 0, 0, 0, 0, 0, 0];
    assert_eq!(told(&[nowhere, stmt(1)], 2), "node 1 has a token 4");
    let this = [kind::THIS, 0, 0, 0, 0, 0, 0, 0, 0];
    assert_eq!(told(&[this, stmt(1)], 2), "node 1 has no token 0");
    let name_as_literal = [kind::LITERAL, 1, 0, 0, 0, 0, 0, 0, 0];
    assert_eq!(
        told(&[name_as_literal, stmt(1)], 2),
        "Identifier is no literal"
    );
}

/// The limit is on all statements together; those before it are kept.
#[test]
fn limits() {
    let var = [kind::VAR, 1, 0, 0, 0, 0, 0, 0, 0];
    let stmt = |child, next| [kind::EXPR_STMT, 1, 0, 0, child, 0, 0, 0, next];
    let nodes = [var, stmt(1, 4), var, stmt(3, 6), var, stmt(5, 0)];
    for (limit, count) in [
        (0, 0),
        (1, 0),
        (2, 1),
        (3, 1),
        (4, 2),
        (5, 2),
        (6, 3),
        (7, 3),
    ] {
        let (stmts, all) = statements_within(limit, &nodes, &tokens(), 2).expect("trees");
        assert_eq!((stmts.len(), all), (count, count == 3), "{limit}");
    }
}
