//! Node records unfold to the original's trees, and a wrong record is noticed.

use expected::records::{node, Node, NODE_WORDS};
use expected::scripts::{around, many, ruled, LISTED, MORE_WAYS, WAYS, WORKED};
use expected::whole::Whole;
use oracle::{on_large_stack, Rule};

fn listed() -> impl Iterator<Item = &'static str> {
    LISTED.into_iter().flatten().copied()
}

#[test]
fn records_unfold_to_the_trees_of_the_original() {
    let deep = WAYS.iter().chain(MORE_WAYS);
    let deep = deep.map(|&(open, most, inner, close)| around(open, most, inner, close));
    let wide = [
        format!("fn f({}) a", many(256)),
        format!("f({})", many(255)),
    ];
    let listed = listed().map(str::to_string).chain(ruled());
    for script in listed.chain(deep).chain(wide) {
        on_large_stack(|| {
            for rule in Rule::BOTH {
                let whole = Whole::of(rule, &script);
                let answer = whole.within(whole.needs());
                let (nodes, first) = (&answer.nodes, answer.first);
                let differs = whole.tree_differs(nodes, first, answer.statements);
                assert_eq!(differs, None, "{script:?}");
            }
        });
    }
}

/// Any word of a kept node that is changed makes another tree or none, save in the nodes left of `=`
/// that nothing refers to.
#[test]
fn another_word_is_another_tree() {
    for script in WORKED {
        let whole = Whole::of(Rule::One, script);
        let answer = whole.within(whole.needs());
        let (nodes, first) = (&answer.nodes, answer.first);
        let used = reached(nodes, first);
        for (index, column) in (0..nodes.len()).flat_map(|i| (0..NODE_WORDS).map(move |c| (i, c))) {
            let mut wrong = nodes.clone();
            wrong[index][column] += 1;
            // A column that a kind doesn't have is no part of the tree.
            if used.contains(&(index as u32 + 1)) && nodes[index][column] != 0 {
                let differs = whole.tree_differs(&wrong, first, answer.statements);
                assert!(differs.is_some(), "{script:?}, node {index}, {column}");
            }
        }
    }
}

/// The nodes that the statements refer to.
fn reached(nodes: &[Node], first: u32) -> Vec<u32> {
    let (mut found, mut ahead) = (vec![], vec![first]);
    while let Some(n) = ahead.pop() {
        if n != 0 && !found.contains(&n) {
            found.push(n);
            ahead.extend(&nodes[n as usize - 1][node::CHILDREN[0]..]);
        }
    }
    found
}

#[test]
fn the_first_event_decides() {
    // Message 12 comes before the node of the bracket, message 4 after that of the statement.
    let whole = Whole::of(Rule::One, "(a b");
    let outcome = |errors, nodes| {
        let answer = whole.within([5, errors, nodes, 5]);
        (answer.outcome, answer.errors.len(), answer.statements)
    };
    assert_eq!(outcome(0, 0), (7, 0, 0));
    assert_eq!(outcome(0, 1), (6, 0, 0));
    assert_eq!(outcome(1, 1), (7, 1, 0));
    assert_eq!(outcome(1, 3), (6, 1, 0));
    assert_eq!(outcome(2, 3), (7, 2, 1));
    assert_eq!(outcome(2, 5), (0, 2, 2));
}
