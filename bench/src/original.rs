//! The original, unchanged.

use std::time::Instant;

use oracle::lexer::Lexer;
use oracle::parser::Parser;
use oracle::state::InterpreterState;

/// Nanoseconds of each part of one reading.
#[derive(Clone, Copy, Default)]
pub struct Parts {
    pub lexing: f64,
    pub parsing: f64,
    pub whole: f64,
    /// What it takes to drop tokens and trees again; in no other part.
    pub dropping: f64,
}

impl Parts {
    /// The parts of a reading of each script in turn. A state has a copy of the script; the making of
    /// that copy is not timed.
    pub fn of(scripts: &[String]) -> Parts {
        let mut sum = Parts::default();
        for script in scripts {
            let state = InterpreterState::new(script.clone());
            sum.add(Parts::of_state(state));
        }
        sum
    }

    fn of_state(mut state: InterpreterState) -> Parts {
        let start = Instant::now();
        Lexer::new(&mut state).scan();
        let lexed = Instant::now();
        Parser::new(&mut state).parse();
        let parsed = Instant::now();
        assert!(state.errors.is_empty(), "the script has no errors");
        let read = Instant::now();
        drop(state);
        let between = |from: Instant, to: Instant| (to - from).as_nanos() as f64;
        Parts {
            lexing: between(start, lexed),
            parsing: between(lexed, parsed),
            whole: between(start, parsed),
            dropping: between(read, Instant::now()),
        }
    }

    fn add(&mut self, other: Parts) {
        self.lexing += other.lexing;
        self.parsing += other.parsing;
        self.whole += other.whole;
        self.dropping += other.dropping;
    }

    /// Each part's smaller one.
    pub fn least(self, other: Parts) -> Parts {
        Parts {
            lexing: self.lexing.min(other.lexing),
            parsing: self.parsing.min(other.parsing),
            whole: self.whole.min(other.whole),
            dropping: self.dropping.min(other.dropping),
        }
    }
}
