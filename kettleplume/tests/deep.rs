//! Scripts whose trees are as deep as can be, on an ordinary stack; and scripts whose trees would be
//! too large.

use std::thread;
use std::time::{Duration, Instant};

use kettleplume::expr::Expr;
use kettleplume::stmt::Stmt;
use kettleplume::{discard, read, Error, Script, LONGEST};

/// Runs something on a thread whose stack is as large as Rust's threads have by default.
fn on_stack<R: Send + 'static>(bytes: usize, f: impl FnOnce() -> R + Send + 'static) -> R {
    let thread = thread::Builder::new().stack_size(bytes).spawn(f);
    let joined = thread.expect("a thread").join();
    joined.expect("the thread comes to its end")
}

const ORDINARY: usize = 2 << 20;

/// A start and as many pieces after it as can be.
fn chain(start: &str, piece: &str) -> String {
    start.to_string() + &piece.repeat((LONGEST - start.len()) / piece.len())
}

fn chains() -> Vec<String> {
    let pieces = [
        "+a", ".b", "()", "[1]", "[:1]", "(a)", " or a", " and a", "==a", "^a", "(b)[1].c",
    ];
    pieces.into_iter().map(|piece| chain("a", piece)).collect()
}

/// How many levels the only statement goes down on the left.
fn depth(script: &Script) -> usize {
    let [Stmt::Expr(stmt)] = &script.stmts[..] else {
        panic!("one expression");
    };
    let (mut expr, mut depth) = (&stmt.expression, 1);
    loop {
        expr = match expr {
            Expr::Binary(e) => &e.left,
            Expr::Logical(e) => &e.left,
            Expr::Get(e) => &e.object,
            Expr::Call(e) => &e.callee,
            Expr::Access(e) => &e.object,
            _ => return depth,
        };
        depth += 1;
    }
}

#[test]
fn long_chains_on_an_ordinary_stack() {
    on_stack(ORDINARY, || {
        for script in chains() {
            let read = read(&script);
            assert_eq!(read.end, Ok(()));
            assert!(depth(&read) > 10_000, "{}", &script[..20]);
            // Once by the script's own care, once by the caller's.
            drop(kettleplume::read(&script));
            discard(read.into_parts().stmts);
        }
        assert_eq!(depth(&read(chain("a", "+a"))), 32_768);
    });
}

/// The same trees as the original's, which reads and prints them by recursion.
#[test]
fn long_chains_as_the_original_reads_them() {
    oracle::on_large_stack(|| {
        for script in chains() {
            let (ours, original) = (read(&script), oracle::read(&script));
            let (ours, original) = (format!("{:?}", ours.stmts), format!("{:?}", original.stmts));
            assert!(ours == original, "{}", &script[..20]);
        }
    });
}

/// 128 levels of each sort need less than 1 MiB of stack, and what is read within them is dropped there.
#[test]
fn levels_on_a_small_stack() {
    on_stack(1 << 20, || {
        use expected::scripts::{around, MORE_WAYS, WAYS};
        for &(open, most, inner, close) in WAYS.iter().chain(MORE_WAYS) {
            let script = read(around(open, most, inner, close));
            assert_eq!(script.end, Ok(()), "{open}");
            let script = read(around(open, most + 1, inner, close));
            assert_eq!(script.end, Err(Error::TooDeep), "{open}");
        }
        assert_eq!(read("-".repeat(100) + "a\n").end, Ok(()));
        assert_eq!(read("-".repeat(LONGEST)).end, Err(Error::TooDeep));
    });
}

/// Chains within levels within chains.
#[test]
fn chains_in_levels() {
    on_stack(ORDINARY, || {
        let inner = "a".to_string() + &"+a".repeat(400);
        let mut script = inner.clone();
        for _ in 0..60 {
            script = format!("f({script})[{}]", "a+".repeat(200) + "a");
        }
        assert!(script.len() <= LONGEST);
        let script = read(&script);
        assert_eq!((script.end, script.errors.len()), (Ok(()), 0));
    });
}

/// What doubles with each level: the object of a Set is there twice, in it and in its access.
fn doubled(levels: usize, innermost: &str) -> String {
    (0..levels).fold(innermost.to_string(), |inner, _| {
        format!("({inner}.b[0]=1)")
    })
}

#[test]
fn a_few_levels_that_double() {
    oracle::on_large_stack(|| {
        for levels in 0..10 {
            let script = doubled(levels, "a");
            let (ours, original) = (read(&script), oracle::read(&script));
            assert_eq!(ours.end, Ok(()), "{levels}");
            let trees = (format!("{:?}", ours.stmts), format!("{:?}", original.stmts));
            assert!(trees.0 == trees.1, "{levels}");
        }
    });
}

/// The statements before the one that is too large are kept, as are all tokens and errors.
#[test]
fn trees_that_are_too_large() {
    for (levels, behind, errors) in [(20, "\nc\n", 0), (60, "\nc\n", 0), (60, "\nc\n)", 1)] {
        let source = format!("a = 1\nb\nlet c = {}{behind}", doubled(levels, "a"));
        let started = Instant::now();
        let script = read(&source);
        // It is told before anything is built.
        assert!(started.elapsed() < Duration::from_secs(1), "{levels}");
        assert_eq!(script.end, Err(Error::TreesTooLarge), "{levels}");
        assert_eq!((script.stmts.len(), script.errors.len()), (2, errors));
        assert_eq!(script.tokens.last().map(|t| t.token as u32), Some(0));
    }
}

/// The largest that is built comes near the limit.
#[test]
fn trees_that_are_large() {
    let script = read(doubled(16, "a"));
    assert_eq!((script.end, script.stmts.len()), (Ok(()), 1));
    // Many of them are too large together: those that fit are kept.
    let line = format!("let c = {}\n", doubled(12, "a"));
    let script = read(line.repeat(200));
    assert_eq!(script.end, Err(Error::TreesTooLarge));
    assert!(script.stmts.len() > 20 && script.stmts.len() < 200);
}

/// A long text that is repeated counts by its length.
#[test]
fn texts_that_are_too_large() {
    let text = format!("\"{}\"", "x".repeat(50_000));
    let script = read(doubled(10, &text));
    assert_eq!(script.end, Err(Error::TreesTooLarge));
    let script = read(doubled(5, &text));
    assert_eq!(script.end, Ok(()));
}
