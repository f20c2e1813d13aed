//! The stack that a reading needs for the deepest scripts: the smallest that a thread survives it
//! with. A stack that is too small ends the process, so each size is tried in a process of its own.

use std::env;
use std::process::{Command, Stdio};
use std::thread;

use expected::records::outcome;
use expected::scripts::around;

use crate::ours::{Library, Tables};

/// Sizes are tried in steps of a page.
const STEP: usize = 4096;
/// No thread gets less on some machines, whatever it asks for.
const LEAST: usize = 128 * 1024;
const MOST: usize = 4 * 1024 * 1024;

/// Operators of all seven levels, each with a right operand that is one level tighter.
const RISING: &str = "a or a and a == a < a + a * a ^ ";

/// Ways to open a level: what opens it, what stands inside, what closes it.
const WAYS: &[(&str, &str, &str)] = &[
    ("(", "a", ")"),
    ("f(", "", ")"),
    ("a[1:2:", "3", "]"),
    ("{", "", "}"),
    ("-", "a", ""),
    ("if a {} elif b {", "", "}"),
    ("for a in b ", "c", ""),
    ("fn f() {", "", "}"),
    ("class A { f() {", "", "}}"),
    ("RISING(", "a", ")"),
    ("RISING[", "", "]"),
    ("RISINGf(", "", ")"),
    ("RISINGa[", "1", "]"),
    ("RISINGa[1:", "1", "]"),
    ("RISINGa[1:2:", "1", "]"),
    ("RISINGa[:1:", "1", "]"),
    ("RISING{a:", "1", "}"),
    ("RISINGfn() ", "a", ""),
    ("RISINGfn() {", "", "}"),
    ("RISINGfn() { return ", "a", "}"),
    ("RISINGfn() { if ", "a", "{} }"),
];

pub struct Need {
    pub open: String,
    pub count: usize,
    pub bytes: usize,
}

impl Need {
    /// In KiB. No less than the least was tried.
    pub fn size(&self) -> String {
        let size = self.bytes / 1024;
        if self.bytes == LEAST {
            format!("{size} or less")
        } else {
            size.to_string()
        }
    }
}

/// What each way needs, the greediest first.
pub fn needs() -> Vec<Need> {
    let ways = 0..WAYS.len();
    let mut needs: Vec<Need> = ways.map(need).collect();
    needs.sort_by_key(|need| std::cmp::Reverse(need.bytes));
    needs
}

fn need(way: usize) -> Need {
    // The first size that does, of all that are larger too.
    let (mut small, mut large) = (LEAST - STEP, MOST);
    while large - small > STEP {
        let size = (small + large) / 2 / STEP * STEP;
        if survives(way, size) {
            large = size;
        } else {
            small = size;
        }
    }
    Need {
        open: WAYS[way].0.replace("RISING", RISING),
        count: deepest(way).1,
        bytes: large,
    }
}

/// The deepest script of a way that is read, and how often the level is opened in it.
fn deepest(way: usize) -> (String, usize) {
    let (open, inner, close) = WAYS[way];
    let open = open.replace("RISING", RISING);
    let scripts = (1..=128).map(|count| (around(&open, count, inner, close) + "\n", count));
    let read = scripts.take_while(|(script, _)| reads(script));
    read.last().expect("one level is read")
}

fn reads(script: &str) -> bool {
    Tables::enough(script).read::<Library>(script)[0] == 0
}

/// Whether a process comes to its end that reads the deepest script on a stack of this size.
fn survives(way: usize, size: usize) -> bool {
    let program = env::current_exe().expect("this program has a file");
    Command::new(program)
        .args(["--on-stack", &way.to_string(), &size.to_string()])
        .stderr(Stdio::null())
        .status()
        .expect("this program can be started")
        .success()
}

/// What such a process does.
pub fn try_stack(way: usize, size: usize) {
    let (script, _) = deepest(way);
    let mut tables = Tables::enough(&script);
    let thread = thread::Builder::new().stack_size(size);
    let read = thread.spawn(move || tables.read::<Library>(&script)[0]);
    let outcome = read.expect("a thread").join().expect("its end");
    assert_eq!(outcome, outcome::DONE, "the script is read to its end");
}
