//! Points where the original surprises: what it does, in tables of a script, its errors and stop, and its
//! statements (see `common`).

mod common;

use common::{compare, many, statements, trouble, Dice};
use oracle::expr::Expr;
use oracle::state::InterpreterError;
use oracle::stmt::Stmt;
use oracle::token::{Literal, Token, TokenData};
use oracle::{message_number, read, Reading, Stop};

// The messages: which of them stop the reading, and the line.

/// Messages after which reading goes on at the same cursor.
#[test]
fn messages_that_do_not_stop() {
    compare(&[
        ("\na b", "4@2", "a; b"),
        ("\nclass {}", "5@2", "(class ? [] [])"),
        ("\nclass A < {}", "5@2", "(class A < ? [] [])"),
        ("\nclass A }", "6@2", "(class A [] [])"),
        ("\nif a }", "6@2", "(if a [])"),
        ("\nif a {} elif b }", "6@2", "(if a [] elif b [])"),
        ("\nif a {} else b}", "6@2", "(if a [] else [b])"),
        ("\nclass A { f()", "7@2 4@2", "(class A [(fn f [] [_])] [])"),
        ("\nfn f) a", "9@2", "(fn f [] [a])"),
        ("\nfn f(a b", "12@2", "(fn f [a] [b])"),
        ("\nx = fn(a b", "12@2", "(= x (fn [a] [b]))"),
        ("\n(a", "12@2", "(group a)"),
        ("\nx = fn) a", "13@2", "(= x (fn [] [a]))"),
        (
            "\nfor let i = 0 a; b {}",
            "15@2",
            "(for (let i 0) a b (block []))",
        ),
        ("\nfor ; a b {}", "15@2", "(for - a b (block []))"),
        (
            "\nfor let i a b {}",
            "15@2 15@2",
            "(for (let i) a b (block []))",
        ),
        ("\nfor 1; 2 {}", "16@2", "(for - 1 2 (block []))"),
        ("\nfor x 1 {}", "17@2", "(for [x] in 1 (block []))"),
        ("\ntry {} e {}", "18@2", "(try (block []) e (block []))"),
        ("\nbreak", "19@2", "break"),
        ("\ncontinue", "19@2", "continue"),
        ("\nx = {a 1}", "22@2", "(= x (dict a 1))"),
        ("\na[1", "24@2", "(at a 1 _ _)"),
        ("\nsuper a", "29@2", "(super a)"),
    ]);
}

/// Messages that stop: four fatal ones, and the failed `consume`s whose result is unwrapped.
/// The statement before the stop is kept, what follows it isn't read.
#[test]
fn messages_that_stop() {
    compare(&[
        ("b\nlet 1\nc", "5@2 STOP", "b"),
        ("b\ntry {} catch {}\nc", "5@2 STOP", "b"),
        ("b\nsuper.1\nc", "5@2 STOP", "b"),
        ("b\nfn 1\nc", "8@2 STOP", "b"),
        ("b\nfn f(1) a\nc", "11@2 STOP", "b"),
        ("b\nx = fn(1) a\nc", "14@2 STOP", "b"),
        ("b\n\n!\nx = [a b]\nc", "1@3:3 20@4 STOP", "b"),
        ("b\nx = {a: 1 c}\nc", "21@2 STOP", "b"),
        ("b\n1 = 2\nc", "23@2 STOP", "b"),
        ("b\na.1\nc", "25@2 STOP", "b"),
        ("b\nf(a b)\nc", "26@2 STOP", "b"),
        ("b\n)\nc", "28@2 STOP", "b"),
    ]);
    for (script, errors) in [
        (format!("b\nfn f({}) b\nc", many(257)), "10@2 STOP"),
        (format!("b\nx = fn({}) b\nc", many(257)), "10@2 STOP"),
        (format!("b\nf({})\nc", many(256)), "27@2 STOP"),
    ] {
        let reading = read(&script);
        assert_eq!(trouble(&reading), errors);
        assert_eq!(statements(&reading), "b");
    }
}

/// The pieces of random scripts, with `|` between; the last four are about classes.
const PIECES: &str =
    "a|b|1|\"s\"|true|this|super|.b|(|)|[|]|{|}|a[|f(|a, b|,|.|:|;|= 1|=|==|+ a|-|\
    not|and|fn f(a) b|fn f(|x = fn(|x = {|a: 1|let|for|for x in y|for ;|in|while a|if a {|\
    if a {} else {|elif|else|try a|try a catch e|catch|return|break|?|!|\n|\n|\n|\
    class|class A {|class A <|f()";

/// On random scripts: a stop has a message of the stopping kind as its last and only such one,
/// a reading without a stop has none; 5 alone may do either.
#[test]
fn stops_on_random_scripts() {
    let stopping = [8, 10, 11, 14, 20, 21, 23, 25, 26, 27, 28];
    let pieces: Vec<&str> = PIECES.split('|').collect();
    let mut dice = Dice::new();
    let (mut seen, mut stops) = ([0; 30], 0);
    for i in 0..50_000 {
        let with_classes = i % 2 == 0;
        let choice = &pieces[..pieces.len() - if with_classes { 0 } else { 4 }];
        let length = 1 + dice.roll(6);
        let script: Vec<&str> = (0..length)
            .map(|_| choice[dice.roll(choice.len() as u64) as usize])
            .collect();
        let script = script.join(" ");
        let reading = read(&script);

        let number = |e: &InterpreterError| message_number(&e.message).expect("a known message");
        let mut errors: Vec<u32> = reading.errors.iter().map(number).collect();
        for number in &errors {
            seen[*number as usize] += 1;
        }
        // Message 7 is never that of an `else`: it doesn't occur without a class.
        assert!(with_classes || !errors.contains(&7), "{script:?}");

        if reading.stop == Stop::Parsing {
            stops += 1;
            let last = errors.pop().expect("a message at a stop");
            assert!(last == 5 || stopping.contains(&last), "{script:?}");
        }
        assert!(errors.iter().all(|e| !stopping.contains(e)), "{script:?}");
        assert_ne!(reading.stop, Stop::Lexing, "{script:?}");
    }
    // The scripts reach every message but an open string's and the two limits', and end both ways.
    for (number, times) in seen.iter().enumerate().skip(1) {
        let out_of_reach = [3, 10, 27].contains(&number);
        assert_eq!(*times == 0, out_of_reach, "message {number}");
    }
    assert!((10_000..45_000).contains(&stops), "{stops} stops");
}

// The left side of `=`.

#[test]
fn left_sides() {
    compare(&[
        ("a = 1", "", "(= a 1)"),
        ("a[1] = 2", "", "(= a 2 (at a 1 _ _))"),
        ("a.b = 1", "", "(set a b 1)"),
        ("a.b.c = 1", "", "(set (get a b) c 1)"),
        ("a().b = 1", "", "(set (call a) b 1)"),
        ("this.b = 1", "", "(set this b 1)"),
        // The walk goes down through directly nested accesses; the outermost is kept.
        (
            "a[1][2:3][4] = 5",
            "",
            "(= a 5 (at (at (at a 1 _ _) 2 :3 _) 4 _ _))",
        ),
        (
            "a.b[1][2] = 3",
            "",
            "(set a b 3 (at (at (get a b) 1 _ _) 2 _ _))",
        ),
        ("a[1].b = 2", "", "(set (at a 1 _ _) b 2)"),
        (
            "a[1].b[2] = 3",
            "",
            "(set (at a 1 _ _) b 3 (at (get (at a 1 _ _) b) 2 _ _))",
        ),
        // Anything else stops.
        ("(a) = 1", "23@1 STOP", ""),
        ("(a)[1] = 2", "23@1 STOP", ""),
        ("(a.b) = 1", "23@1 STOP", ""),
        ("-a = 1", "23@1 STOP", ""),
        ("not a = 1", "23@1 STOP", ""),
        ("a + b = 1", "23@1 STOP", ""),
        ("1 + b = 1", "23@1 STOP", ""),
        ("a or b = 1", "23@1 STOP", ""),
        ("a == b = 1", "23@1 STOP", ""),
        ("a() = 1", "23@1 STOP", ""),
        ("a()[1] = 1", "23@1 STOP", ""),
        ("this = 1", "23@1 STOP", ""),
        ("super.a = 1", "23@1 STOP", ""),
        ("super.a.b = 1", "", "(set (super a) b 1)"),
        ("[a] = 1", "23@1 STOP", ""),
        ("1[a] = 1", "23@1 STOP", ""),
        ("fn() a = 1", "8@1 STOP", ""),
        // The body of a function without braces takes the `=`.
        ("x = fn() a = 1", "", "(= x (fn [] [(= a 1)]))"),
        ("x = fn() 2 = 1", "23@1 STOP", ""),
        ("x = fn() {} = 1", "23@1 STOP", ""),
    ]);
}

/// The right side is read before the left side is judged.
#[test]
fn right_sides_first() {
    compare(&[
        ("a = b = c", "", "(= a (= b c))"),
        (
            "a = b.c = d[1] = 2",
            "",
            "(= a (set b c (= d 2 (at d 1 _ _))))",
        ),
        ("1\n= 2\n= 3", "23@3 STOP", ""),
        ("1\n= b\n= 3", "23@2 STOP", ""),
        ("1 = )", "28@1 STOP", ""),
        ("1 = let", "28@1 STOP", ""),
        // Only an error that stops stands alone; after one that doesn't, 23 follows.
        ("1 = (a", "12@1 23@1 STOP", ""),
        ("1 = a[1", "24@1 23@1 STOP", ""),
        // With nothing on the right, the newline is taken as an empty expression.
        ("1 =", "23@1 STOP", ""),
    ]);
}

/// The original copies the object of a set with an access: each level doubles the tree.
#[test]
fn set_with_access_doubles() {
    for levels in 1..12 {
        let script = "(".repeat(levels) + "a" + &".b[0]=1)".repeat(levels);
        let reading = read(&script);
        assert_eq!(trouble(&reading), "");
        let shape = statements(&reading);
        assert_eq!(
            shape.matches('a').count() - shape.matches("at").count(),
            1 << levels
        );
    }
}

// The last token of an expression statement.

/// The last tokens of the top-level expression statements, `-` for none.
fn lasts(reading: &Reading) -> String {
    let last = |stmt: &Stmt| match stmt {
        Stmt::Expr(e) => {
            assert_eq!(e.last.is_none(), e.expression == Expr::Empty);
            e.last
                .as_ref()
                .map_or("-".to_string(), |t| format!("{}@{}", t.lexeme, t.line))
        }
        _ => panic!("no expression statement"),
    };
    reading.stmts.iter().map(last).collect::<Vec<_>>().join(" ")
}

#[test]
fn last_is_the_token_before_the_cursor() {
    for (script, errors, expected) in [
        ("a", "", "a@1"),
        ("a\n\n\n", "", "a@1 -"),
        ("\n\n\na\n", "", "a@4"),
        ("a(\n)", "", ")@2"),
        ("(a b", "12@1 4@1", "a@1 b@1"),
        ("a[1", "24@1", "1@1"),
        ("a + 1\nb.c\n", "", "1@1 c@2"),
        // A newline that was taken as an empty expression.
        ("a =\n", "4@2", "\n@2"),
        ("a =\n\n", "", "\n@2"),
        ("a =\n\n\n", "4@4", "\n@2 -"),
        ("a =", "4@1", "@1"),
        ("a = b +\n\n", "", "\n@2"),
        ("(\n)", "", ")@2"),
        // None exactly if the whole expression is empty.
        ("\n", "4@2", "-"),
        ("\n+ 1", "", "1@2"),
        ("x = fn()\n\n", "", "\n@2"),
    ] {
        let reading = read(script);
        assert_eq!(
            (trouble(&reading).as_str(), lasts(&reading).as_str()),
            (errors, expected),
            "{script:?}"
        );
    }
}

/// `last` is the same token inside blocks, bodies and loops.
#[test]
fn last_in_a_block() {
    let reading = read("{a\nb =\n}\n");
    assert_eq!(trouble(&reading), "");
    let [Stmt::Block(block)] = &reading.stmts[..] else {
        panic!("no block")
    };
    let inner = Reading {
        stmts: block.stmts.clone(),
        ..reading
    };
    assert_eq!(lasts(&inner), "a@1 \n@3");
}

// Newlines.

/// A successful `check` passes the newlines before the token, wherever it stands.
#[test]
fn newlines_before_a_token_that_is_found() {
    compare(&[
        (
            "for\nx\n,\ny\nin\nz\n{\n}",
            "",
            "(for [x y] in z (block []))",
        ),
        (
            "for\nlet\ni\n=\n0\n;\na\n;\nb\n{\n}",
            "",
            "(for (let i 0) a b (block []))",
        ),
        ("for\n;\na\n;\nb\n{\n}", "", "(for - a b (block []))"),
        ("super\n(\n)", "", "(call (super init))"),
        ("super\n.\na", "", "(super a)"),
        ("f\n(\na\n,\nb\n,\n)", "", "(call f a b)"),
        ("f(\n)", "", "(call f)"),
        ("[\na\n,\nb\n]", "", "(list a b)"),
        ("[\n]", "", "(list)"),
        ("x = {\n}", "", "(= x (dict))"),
        ("x = {\na\n:\n1\n,\nb\n:\n2\n}", "", "(= x (dict a 1 b 2))"),
        (
            "class\nA\n<\nB\n{\nf\n(\n)\n{\n}\nclass\ng\n(\na\n)\nb\n}",
            "",
            "(class A < B [(fn f [] [])] [(fn g [a] [b])])",
        ),
        ("fn\nf\n(\na\n,\nb\n)\n{\n}", "", "(fn f [a b] [])"),
        ("a\n[\n1\n:\n2\n:\n3\n]", "", "(at a 1 :2 :3)"),
        ("a[1:\n]", "", "(at a 1 :_ _)"),
        ("a[1:2:\n]", "", "(at a 1 :2 :_)"),
        (
            "if\na\n{\nb\n}\nelif\nc\n{\nd\n}\nelse\n{\ne\n}",
            "",
            "(if a [b] elif c [d] else [e])",
        ),
        ("while\na\n{\nb\n}", "", "(while a (block [b]))"),
        ("try\na\ncatch\ne\nb", "", "(try a e b)"),
        ("let\na\n=\n1", "", "(let a 1)"),
        ("a\n.\nb\n=\n1", "", "(set a b 1)"),
        ("not\n-\na", "", "(not (- a))"),
    ]);
}

/// A class looks for the end without passing newlines: message 7 needs a body that has taken
/// the last one.
#[test]
fn a_class_and_the_end() {
    compare(&[
        ("class A {", "8@1 STOP", ""),
        ("class A {\n\n", "8@2 STOP", ""),
        ("class A { f() {}", "8@1 STOP", ""),
        ("class A { f() b\n", "8@2 STOP", ""),
        ("class A { f()", "7@1 4@1", "(class A [(fn f [] [_])] [])"),
        ("class A { f()\n\n", "8@3 STOP", ""),
        (
            "class A { f() b =\n",
            "7@2 4@2",
            "(class A [(fn f [] [(= b _)])] [])",
        ),
        ("class A <", "5@1 6@1 8@1 STOP", ""),
        ("class", "5@1 6@1 8@1 STOP", ""),
    ]);
}

/// The loops of `if`, `elif` and `else` end only at a brace; slices have a newline before EOF.
#[test]
fn the_end_in_else_and_slices() {
    compare(&[
        ("if a {", "28@1 STOP", ""),
        ("if a {} elif b {", "28@1 STOP", ""),
        ("if a {} else {", "28@1 STOP", ""),
        ("if a {} else {b", "28@1 STOP", ""),
        ("a[", "24@1 4@1", "(at a _ _ _)"),
        ("a[1:", "24@1 4@1", "(at a 1 :_ _)"),
        ("a[1:2:", "24@1 4@1", "(at a 1 :2 :_)"),
        ("a[1:2:\n\n", "24@3", "(at a 1 :2 :_)"),
    ]);
}

/// The four forms of a slice. After a leading colon, and after two, an expression has to follow.
#[test]
fn slices() {
    compare(&[
        ("a[1]", "", "(at a 1 _ _)"),
        ("a[:2]", "", "(at a _ :2 _)"),
        ("a[:2:3]", "", "(at a _ :2 :3)"),
        ("a[::3]", "", "(at a _ :_ :3)"),
        ("a[1::3]", "", "(at a 1 :_ :3)"),
        ("a[1:2:3]", "", "(at a 1 :2 :3)"),
        ("a[]", "28@1 STOP", ""),
        ("a[:2:]", "28@1 STOP", ""),
        ("a[::]", "28@1 STOP", ""),
        ("a[1:::]", "28@1 STOP", ""),
        // A newline is an expression, where one has to follow.
        ("a[\n]", "", "(at a _ _ _)"),
        ("a[:\n]", "", "(at a _ :_ _)"),
        ("a[::\n]", "", "(at a _ :_ :_)"),
        ("a[:2:\n]", "", "(at a _ :2 :_)"),
        ("a[1::\n]", "", "(at a 1 :_ :_)"),
    ]);
}

/// A statement on the next line that can go on with the expression before it does so.
#[test]
fn the_next_line_goes_on() {
    compare(&[
        ("a\n(b)", "", "(call a b)"),
        ("a\n\n\n(b)", "", "(call a b)"),
        ("a\n[b]", "", "(at a b _ _)"),
        ("a\n.b", "", "(get a b)"),
        ("a\n-b", "", "(- a b)"),
        ("a\n+ b", "", "(+ a b)"),
        ("a\n^ b", "", "(^ a b)"),
        ("a\n== b", "", "(== a b)"),
        ("a\nand b", "", "(and a b)"),
        ("a\n= b", "", "(= a b)"),
        ("return a\n(b)", "", "(return (call a b))"),
        ("let a = b\n(c)", "", "(let a (call b c))"),
        ("fn f() a\n(b)", "", "(fn f [] [(call a b)])"),
        ("while a b\n-c", "", "(while a (- b c))"),
        // Where no expression stands before it, it is a statement of its own.
        ("let a\n(b)", "", "(let a); (group b)"),
        ("return\n(b)", "", "(return); (group b)"),
        ("while a {}\n(b)", "", "(while a (block [])); (group b)"),
        ("if a {}\n-b", "", "(if a []); (- b)"),
        ("a\nnot b", "", "a; (not b)"),
        ("a\n{b}", "", "a; (block [b])"),
        ("a\n\"s\"", "", "a; \"s\""),
    ]);
}

/// After an empty expression, the call loop and the operators go on.
#[test]
fn after_an_empty_expression() {
    compare(&[
        ("\n.b", "", "(get _ b)"),
        ("\n+ 1", "", "(+ _ 1)"),
        ("\n* 1", "", "(* _ 1)"),
        ("\nand 1", "", "(and _ 1)"),
        ("\n= 1", "23@2 STOP", ""),
        ("\n.b = 1", "", "(set _ b 1)"),
        ("\n.b(1)", "", "(call (get _ b) 1)"),
        // These begin an expression themselves.
        ("\n(b)", "", "(group b)"),
        ("\n[b]", "", "(list b)"),
        ("\n- 1", "", "(- 1)"),
        // A newline where an expression has to stand, before a token that can't begin one.
        ("a +\n)", "4@2 28@2 STOP", "(+ a _)"),
        ("f(\n,b)", "", "(call f _ b)"),
        ("[a,\n\n,b]", "", "(list a _ b)"),
        ("(\n)", "", "(group _)"),
    ]);
}

/// Three tests look for the newline itself: after a top-level statement, in `return`, and the
/// last one for an expression.
#[test]
fn tests_for_a_newline() {
    compare(&[
        ("return\n1", "", "(return); 1"),
        ("return 1", "", "(return 1)"),
        ("return", "", "(return)"),
        ("{return\n}", "", "(block [(return)])"),
        ("{return 1}", "", "(block [(return 1)])"),
        ("{return\n1}", "", "(block [(return); 1])"),
        ("a;", "4@1 28@1 STOP", "a"),
        ("{} a", "4@1", "(block []); a"),
    ]);
}

/// Inside blocks statements need no newline, nor does a body have one of its own.
#[test]
fn newlines_in_blocks_and_bodies() {
    compare(&[
        ("{a b c}", "", "(block [a; b; c])"),
        (
            "{a 1 let b {} break}",
            "19@1",
            "(block [a; 1; (let b); (block []); break])",
        ),
        ("fn f() {a b}", "", "(fn f [] [a; b])"),
        (
            "if a {b c} elif d {e f} else {g h}",
            "",
            "(if a [b; c] elif d [e; f] else [g; h])",
        ),
        ("while a b", "", "(while a b)"),
        ("while a b c", "4@1", "(while a b); c"),
        ("try a catch e b", "", "(try a e b)"),
        ("for x in y z", "", "(for [x] in y z)"),
        ("for ; a; b c", "", "(for - a b c)"),
        ("{while a b c}", "", "(block [(while a b); c])"),
        ("while a let b", "", "(while a (let b))"),
        ("while a fn f() b", "", "(while a (fn f [] [b]))"),
        ("while a class A {}", "", "(while a (class A [] []))"),
        (
            "try class A {} catch e fn f() b",
            "",
            "(try (class A [] []) e (fn f [] [b]))",
        ),
    ]);
}

/// Blank lines cost nothing before a statement or a block's brace; a newline is an empty
/// statement only where the next other token can't begin a statement.
#[test]
fn blank_lines() {
    compare(&[
        ("\n\n\na\n", "", "a"),
        ("a\n\n\n\nb\n", "", "a; b"),
        ("{\n\na\n\nb\n\n}\n", "", "(block [a; b])"),
        ("{\n\n}\n", "", "(block [])"),
        ("{\n+ 1}", "", "(block [(+ _ 1)])"),
        ("{a\n.b}", "", "(block [(get a b)])"),
        ("{\n)}", "28@2 STOP", ""),
        ("a\n)\n", "28@2 STOP", "a"),
        ("a\n\n)\n", "4@3 28@3 STOP", "a; _"),
        ("a\n\n\n)\n", "28@4 STOP", "a; _"),
        ("a\n\nin", "4@3 28@3 STOP", "a; _"),
        ("a\n\nelse", "4@3 28@3 STOP", "a; _"),
        ("a\n\n}", "4@3 28@3 STOP", "a; _"),
        ("while a\n\n", "", "(while a _)"),
        ("while a\n\n\n", "4@4", "(while a _); _"),
    ]);
    // At the end, the newline test takes one newline and each empty statement two.
    for n in 0..12 {
        let reading = read(&("a".to_string() + &"\n".repeat(n)));
        let errors = match n {
            0 => String::new(),
            _ if n % 2 == 1 => String::new(),
            _ => format!("4@{}", n + 1),
        };
        assert_eq!(trouble(&reading), errors, "{n} newlines");
        assert_eq!(reading.stmts.len(), 1 + n / 2, "{n} newlines");
    }
}

// Lines and positions.

/// A failed `check` goes back: the line is that of the first newline, not of the token after it.
#[test]
fn lines_at_newlines() {
    compare(&[
        ("let\n\n\n1", "5@2 STOP", ""),
        ("(a\n\n\nb", "12@2", "(group a); b"),
        ("class A\n\n\n}", "6@2", "(class A [] [])"),
        ("fn f\n\n)\na", "9@2", "(fn f [] [a])"),
        ("for\n\n\n1; 2 {}", "16@2", "(for - 1 2 (block []))"),
        ("x = [a\n\n\nb]", "20@2 STOP", ""),
        ("f(a\n\n\nb)", "26@2 STOP", ""),
        ("a.\n\n1", "25@2 STOP", ""),
        ("a b", "4@1", "a; b"),
        // The keyword's and the sign's own line.
        ("\n{\nbreak\n}", "19@3", "(block [break])"),
        ("1\n\n=\n\n2\n", "23@3 STOP", ""),
        // Inside a string newlines count, for what comes after it too.
        ("\"a\n\nb\" c", "4@3", "\"a\\n\\nb\"; c"),
    ]);
}

#[test]
fn lines_and_positions_of_message_3() {
    compare(&[
        ("a \"b", "3@1:2", "a"),
        ("a \"\n\n\\q", "3@3:2", "a"),
        ("\n\"\n", "3@3:1 4@3", "_"),
        ("\"\\\n\"", "3@1:0 3@1:3", ""),
        ("\"\\\n\n", "3@1:0 4@2", "_"),
    ]);
}

#[test]
fn lines_of_strings_and_the_end() {
    let lines = |script| -> Vec<(String, i32)> {
        let reading = read(script);
        reading
            .tokens
            .into_iter()
            .map(|t| (t.lexeme, t.line))
            .collect()
    };
    let expect = |list: &[(&str, i32)]| -> Vec<(String, i32)> {
        list.iter()
            .map(|(lexeme, line)| (lexeme.to_string(), *line))
            .collect()
    };
    assert_eq!(
        lines("\"a\nb\""),
        expect(&[("\"a\nb\"", 2), ("", 2), ("", 2)])
    );
    assert_eq!(lines("a"), expect(&[("a", 1), ("", 1), ("", 1)]));
    assert_eq!(lines("a\n"), expect(&[("a", 1), ("\n", 2), ("", 2)]));
    assert_eq!(lines("a \"\n\n"), expect(&[("a", 1), ("", 3), ("", 3)]));
}

// Lexing.

/// Lexemes of the tokens before the closing newline, with the numbers' values.
fn lexed(script: &str) -> String {
    let words = read(script)
        .tokens
        .into_iter()
        .filter(|t| t.token as u32 > 1);
    let words = words.map(|t| match t.literal {
        Some(Literal::Number(value)) => format!("{}={value}", t.lexeme),
        _ => t.lexeme,
    });
    words.collect::<Vec<_>>().join(" ")
}

#[test]
fn numbers_with_a_point() {
    for (script, tokens) in [
        ("1..2", "1.=1 . 2=2"),
        ("1.a", "1.=1 a"),
        ("1.5.2", "1.5=1.5 . 2=2"),
        ("1. ", "1.=1"),
        ("1.#", "1.=1"),
        ("1.(", "1.=1 ("),
        ("00.50;", "00.50=0.5 ;"),
        // A point ends a number without a value at the end: nothing of it is kept.
        ("1.", ""),
        ("a 1.", "a"),
        ("a\n? 1.25", "a"),
        ("1 .5", "1=1 . 5=5"),
    ] {
        assert_eq!(lexed(script), tokens, "{script:?}");
    }
    compare(&[
        ("1.", "NUMBER", ""),
        ("a\n? 1.25", "2@2:2 NUMBER", ""),
        ("1. ", "", "1"),
        ("1.a", "4@1", "1; a"),
        ("1..a", "", "(get 1 a)"),
        ("1..2", "25@1 STOP", ""),
        ("1.5.2", "25@1 STOP", ""),
    ]);
    // Neither closing newline nor EOF are stored.
    assert!(read("1.").tokens.is_empty());
    assert_eq!(read("a\n1.").tokens.len(), 2);
}

/// Long numbers have the nearest float in the original.
#[test]
fn long_numbers() {
    for number in [
        "1.0000000000000000",
        "0.00000000000000000000000",
        "9007199254740993",
        "123456789012345678901234567890.5",
    ] {
        let Some(Literal::Number(value)) = read(&format!("{number};")).tokens[0].literal else {
            panic!("{number} has no value");
        };
        assert_eq!(value, number.parse::<f64>().unwrap());
    }
    let huge = "9".repeat(400) + ";";
    assert_eq!(
        read(&huge).tokens[0].literal,
        Some(Literal::Number(f64::INFINITY))
    );
}

#[test]
fn truth_values_and_nil_have_no_literal_in_the_token() {
    for (script, literal) in [
        ("true", Literal::Boolean(true)),
        ("false", Literal::Boolean(false)),
        ("nil", Literal::Nil),
    ] {
        let reading = read(script);
        assert_eq!(reading.tokens[0].literal, None);
        let [Stmt::Expr(stmt)] = &reading.stmts[..] else {
            panic!("{script}")
        };
        let Expr::Literal(is) = &stmt.expression else {
            panic!("{script}")
        };
        assert_eq!(is.value, literal);
    }
}

#[test]
fn bad_escapes_and_illegal_bytes() {
    compare(&[
        // The second byte of a two-byte letter after the backslash is met as a byte.
        ("\"\\é", "3@1:0 2@1:3", ""),
        ("\"\\éb", "3@1:0 2@1:3", "b"),
        // Each further byte of a longer letter.
        ("\"\\€", "3@1:0 2@1:3 2@1:4", ""),
        // A quote further on opens a string.
        ("\"\\q b\" c \"", "3@1:0 4@1", "b; \" c \""),
        ("\"\\qb\"c", "3@1:0 3@1:4", "b"),
        // A backslash as the last byte, once; an open string, once.
        ("\"\\", "3@1:0", ""),
        ("\"a\\", "3@1:0", ""),
        ("\"a", "3@1:0", ""),
        ("\"", "3@1:0", ""),
        ("\"\\\"", "3@1:0", ""),
        ("\0", "2@1:0", ""),
        ("\u{7f}", "2@1:0", ""),
        ("\u{c}", "2@1:0", ""),
        ("\u{b}", "2@1:0", ""),
        ("a\0b", "2@1:1 4@1", "a; b"),
        // No byte order mark, no other blank.
        ("\u{feff}a", "2@1:0 2@1:1 2@1:2", "a"),
        ("\u{a0}a", "2@1:0 2@1:1", "a"),
        // In strings and comments any letter stands.
        ("\"\0é€😀\"", "", "\"\\0é€😀\""),
        ("# \0é€😀\\", "", ""),
    ]);
}

// Other surprises.

#[test]
fn loops() {
    compare(&[
        ("for a; b; c {}", "17@1 28@1 STOP", ""),
        ("for x y z in w {}", "", "(for [x y z] in w (block []))"),
        ("for x, y z in w {}", "", "(for [x y z] in w (block []))"),
        ("for x, in w {}", "", "(for [x] in w (block []))"),
        ("for x,, y in w {}", "17@1 28@1 STOP", ""),
        ("for , x in w {}", "16@1 28@1 STOP", ""),
        ("for ; ; {}", "28@1 STOP", ""),
        ("for ; a; {}", "4@1", "(for - a (dict) _)"),
    ]);
}

/// An enhanced for raises the loop count of its function for good; the count belongs to the
/// innermost function.
#[test]
fn loop_counts() {
    compare(&[
        (
            "for x in y {}\nbreak",
            "",
            "(for [x] in y (block [])); break",
        ),
        (
            "for x in y {}\ncontinue\nwhile a {}\nbreak",
            "",
            "(for [x] in y (block [])); continue; (while a (block [])); break",
        ),
        (
            "for ; a; b {}\nbreak",
            "19@2",
            "(for - a b (block [])); break",
        ),
        ("for ; a; b break", "", "(for - a b break)"),
        ("while a continue", "", "(while a continue)"),
        (
            "{for x in y {}}\nif a {break}",
            "",
            "(block [(for [x] in y (block []))]); (if a [break])",
        ),
        (
            "while a {for x in y {}}\nbreak",
            "",
            "(while a (block [(for [x] in y (block []))])); break",
        ),
        (
            "fn f() {for x in y {}}\nbreak",
            "19@2",
            "(fn f [] [(for [x] in y (block []))]); break",
        ),
        (
            "fn f() {for x in y {}}\nfn g() {break}",
            "19@2",
            "(fn f [] [(for [x] in y (block []))]); (fn g [] [break])",
        ),
        (
            "while a fn f() {break}",
            "19@1",
            "(while a (fn f [] [break]))",
        ),
        (
            "while a x = fn() {continue}",
            "19@1",
            "(while a (= x (fn [] [continue])))",
        ),
        (
            "while a class A {f() {break}}",
            "19@1",
            "(while a (class A [(fn f [] [break])] []))",
        ),
        // A condition holds statements only inside a function.
        (
            "while fn() {break} {}",
            "19@1",
            "(while (fn [] [break]) (block []))",
        ),
        (
            "while fn() {for x in y {}} {}\nbreak",
            "19@2",
            "(while (fn [] [(for [x] in y (block []))]) (block [])); break",
        ),
        (
            "for x in fn() {break} {}",
            "19@1",
            "(for [x] in (fn [] [break]) (block []))",
        ),
        ("for x in y {break}", "", "(for [x] in y (block [break]))"),
    ]);
}

#[test]
fn commas() {
    compare(&[
        ("f(a,)", "", "(call f a)"),
        ("[a,]", "", "(list a)"),
        ("x = {a: 1,}", "", "(= x (dict a 1))"),
        ("f(,)", "28@1 STOP", ""),
        ("[,]", "28@1 STOP", ""),
        ("x = {,}", "28@1 STOP", ""),
        ("f(a,,)", "28@1 STOP", ""),
        ("fn f(a,) b", "11@1 STOP", ""),
        ("x = fn(a,) b", "14@1 STOP", ""),
    ]);
    for (script, errors) in [
        (format!("f({},)", many(255)), ""),
        // The 256th argument isn't read: what stands there doesn't matter.
        (format!("f({},\n=", many(255)), "27@2 STOP"),
        (format!("f({},,", many(255)), "27@1 STOP"),
        (format!("[{}]", many(300)), ""),
        (format!("[{},]", many(300)), ""),
        // The 257th parameter isn't looked at: 10, not 11.
        (format!("fn f({},) b", many(256)), "10@1 STOP"),
        (format!("fn f({},) b", many(255)), "11@1 STOP"),
        (format!("x = fn({},\n) b", many(256)), "10@2 STOP"),
        (format!("x = fn({},) b", many(255)), "14@1 STOP"),
    ] {
        assert_eq!(trouble(&read(&script)), errors, "{script}");
    }
}

#[test]
fn functions_blocks_and_classes() {
    compare(&[
        ("fn() a", "8@1 STOP", ""),
        ("(fn() a)", "", "(group (fn [] [a]))"),
        ("{a: 1}", "28@1 STOP", ""),
        ("{}", "", "(block [])"),
        ("({})", "", "(group (dict))"),
        ("class A { fn f() {} }", "8@1 STOP", ""),
        ("class A { class class f() {} }", "8@1 STOP", ""),
        (
            "class A { class f() {} g() 1 }",
            "",
            "(class A [(fn g [] [1])] [(fn f [] [])])",
        ),
        (
            "class A { f() {} class g() {} h() {} }",
            "",
            "(class A [(fn f [] []); (fn h [] [])] [(fn g [] [])])",
        ),
    ]);
}

#[test]
fn super_expressions() {
    compare(&[
        ("super.a", "", "(super a)"),
        ("super.a(b)", "", "(call (super a) b)"),
        ("super(a)", "", "(call (super init) a)"),
        ("super a", "29@1", "(super a)"),
        ("super", "29@1 5@1 STOP", ""),
        ("super[a]", "29@1 5@1 STOP", ""),
        ("super.(a)", "5@1 STOP", ""),
        ("super.\n\n1", "5@2 STOP", ""),
    ]);
    // The made-up method has the keyword's line.
    let reading = read("\nsuper\n\n(a)");
    let [Stmt::Expr(stmt)] = &reading.stmts[..] else {
        panic!("not one statement")
    };
    let Expr::Call(call) = &stmt.expression else {
        panic!("no call")
    };
    let Expr::Super(is) = call.callee.as_ref() else {
        panic!("no super")
    };
    assert_eq!((is.method.token, is.method.line), (Token::Identifier, 2));
    assert_eq!((is.keyword.line, call.paren.line), (2, 4));
}

#[test]
fn unclosed_things() {
    compare(&[
        ("{", "28@1 STOP", ""),
        ("{a", "28@1 STOP", ""),
        ("{\n\n", "28@3 STOP", ""),
        ("a\n{b\n", "28@3 STOP", "a"),
        ("x = {", "22@1 28@1 STOP", ""),
        ("x = {\n\n", "22@3 21@3 STOP", ""),
        ("x = {\n\n\n", "22@3 21@4 STOP", ""),
        ("x = {a", "22@1 21@1 STOP", ""),
        ("x = {a:", "21@1 STOP", ""),
        ("x = {a:1", "21@1 STOP", ""),
        ("x = {a:1,", "22@1 28@1 STOP", ""),
        ("[", "20@1 STOP", ""),
        ("[a,", "20@1 STOP", ""),
        ("f(", "26@1 STOP", ""),
        ("f(a,", "26@1 STOP", ""),
        ("(", "12@1 4@1", "(group _)"),
        ("((", "12@1 12@1 4@1", "(group (group _))"),
        ("fn f(", "11@1 STOP", ""),
        ("fn f", "9@1 11@1 STOP", ""),
    ]);
}

/// Which token the nodes keep for their brackets: the closing one of lists, dictionaries and
/// calls, the opening one of an index.
#[test]
fn brackets_kept_in_nodes() {
    let expression = |script| match &read(script).stmts[..] {
        [Stmt::Expr(stmt)] => match &stmt.expression {
            Expr::Assign(a) => a.value.as_ref().clone(),
            other => other.clone(),
        },
        _ => panic!("not one statement"),
    };
    let place = |t: &TokenData| (t.lexeme.clone(), t.line);
    let kept = |script| match expression(script) {
        Expr::List(l) => place(&l.brace),
        Expr::Dictionary(d) => place(&d.curly_brace),
        Expr::Call(c) => place(&c.paren),
        Expr::Access(a) => place(&a.brace),
        _ => panic!("no brackets"),
    };
    assert_eq!(kept("[\na\n]"), ("]".to_string(), 3));
    assert_eq!(kept("x = {\na:1\n}"), ("}".to_string(), 3));
    assert_eq!(kept("f(\na\n)"), (")".to_string(), 3));
    assert_eq!(kept("f[\na\n]"), ("[".to_string(), 1));
}
