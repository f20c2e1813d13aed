//! Runs groups of scripts through the comparison, counts them, and makes a script that differs as
//! small as it can.

use std::collections::{BTreeMap, BTreeSet};
use std::fmt;
use std::time::Instant;

use crate::compare::{run, Call, Difference, Trial};
use crate::host::{Host, LexCall, ReadCall};
use crate::whole::Wanted;
use expected::records::{error, node, rule, way};

/// How often a smaller script is tried: some that differ by their length alone can't get smaller.
const TRIES: usize = 2_000;

/// How a script becomes calls.
pub type Make = fn(&[u8]) -> Trial;

/// A host, and what has been compared with it.
pub struct Comparison {
    host: Host,
    pub groups: Vec<Group>,
    /// What is done with each group when it has been compared.
    tell: fn(&Group),
}

/// How much of a group has been compared.
#[derive(Debug, Clone)]
pub struct Group {
    pub name: &'static str,
    pub scripts: u64,
    /// How many calls there were of each function and outcome.
    pub calls: BTreeMap<String, u64>,
    /// The messages and the kinds of nodes in what whole readings must keep.
    pub messages: BTreeSet<u32>,
    pub kinds: BTreeSet<u32>,
    pub seconds: f64,
}

impl Group {
    fn count(&mut self, trial: &Trial) {
        self.scripts += 1;
        for call in &trial.calls {
            let name = match call {
                Call::Lex(LexCall { rule, .. }, lexing) => {
                    format!("{}lex {}", by(*rule), lexing.outcome)
                }
                Call::Decode(_, decoding) => format!("decode {}", decoding.outcome),
                Call::Read(call, wanted) => format!("{} {}", called(call), wanted.outcome()),
            };
            *self.calls.entry(name).or_default() += 1;
            if let Call::Read(_, Wanted::Exact(answer, _)) = call {
                self.messages
                    .extend(answer.errors.iter().map(|e| e[error::MESSAGE]));
                self.kinds
                    .extend(answer.nodes.iter().map(|n| n[node::KIND]));
            }
        }
    }
}

/// What a call by a rule is counted as.
fn by(rule: u32) -> &'static str {
    match rule {
        rule::ONE => "",
        rule::TWO => "two ",
        _ => "none ",
    }
}

/// What a reading is counted as.
fn called(call: &ReadCall) -> String {
    let new = if call.way == way::STOP { "new " } else { "" };
    let what = if call.pair { "pair" } else { "read" };
    format!("{}{new}{what}", by(call.rule))
}

impl fmt::Display for Group {
    fn fmt(&self, f: &mut fmt::Formatter) -> fmt::Result {
        let (name, scripts, seconds) = (self.name, self.scripts, self.seconds);
        write!(
            f,
            "{name}: {scripts} scripts, {seconds:.1} s; calls by outcome:"
        )?;
        for (index, (call, count)) in self.calls.iter().enumerate() {
            let comma = if index == 0 { "" } else { "," };
            write!(f, "{comma} {call}: {count}")?;
        }
        Ok(())
    }
}

impl Comparison {
    pub fn start() -> Comparison {
        Comparison::telling(|_| ())
    }

    pub fn telling(tell: fn(&Group)) -> Comparison {
        Comparison::with(Host::start(), tell)
    }

    /// A comparison with a host of one's own.
    pub fn with(host: Host, tell: fn(&Group)) -> Comparison {
        Comparison {
            host,
            groups: vec![],
            tell,
        }
    }

    /// The messages that whole readings must have recorded, and the kinds of their nodes.
    pub fn seen(&self) -> [BTreeSet<u32>; 2] {
        let groups = self.groups.iter();
        let messages = groups.clone().flat_map(|group| group.messages.clone());
        let kinds = groups.flat_map(|group| group.kinds.clone());
        [messages.collect(), kinds.collect()]
    }

    /// Compares each script; ends at the first difference, with the smallest script that still
    /// differs.
    pub fn group(
        &mut self,
        name: &'static str,
        scripts: impl IntoIterator<Item = Vec<u8>>,
        make: Make,
    ) -> Result<(), Difference> {
        let mut group = Group {
            name,
            scripts: 0,
            calls: BTreeMap::new(),
            messages: BTreeSet::new(),
            kinds: BTreeSet::new(),
            seconds: 0.0,
        };
        let begin = Instant::now();
        let mut scripts = scripts.into_iter().peekable();
        while scripts.peek().is_some() {
            // A batch at a time, so that waiting for the pipe isn't the cost.
            let (mut batch, mut bytes) = (vec![], 0);
            while batch.len() < 4096 && bytes < 1 << 18 {
                let Some(script) = scripts.next() else { break };
                let trial = make(&script);
                bytes += script.len() + 64 * trial.calls.len();
                batch.push(trial);
            }
            if let Some((index, difference)) = run(&mut self.host, &batch) {
                let mut difference = self.smallest(&batch[index].source, difference, make);
                difference.text = format!("group: {name}\n{}", difference.text);
                return Err(difference);
            }
            batch.iter().for_each(|trial| group.count(trial));
        }
        group.seconds = begin.elapsed().as_secs_f64();
        (self.tell)(&group);
        self.groups.push(group);
        Ok(())
    }

    /// Takes pieces out of a script as long as it differs, from halves down to single letters.
    fn smallest(&mut self, script: &[u8], mut difference: Difference, make: Make) -> Difference {
        let mut units = units(script);
        let mut size = units.len().div_ceil(2);
        let mut tries = 0;
        while size > 0 && tries < TRIES {
            let (mut at, mut smaller) = (0, false);
            while at < units.len() && tries < TRIES {
                tries += 1;
                let end = units.len().min(at + size);
                let less = [&units[..at], &units[end..]].concat();
                match run(&mut self.host, &[make(&less.concat())]) {
                    Some((_, found)) => {
                        (units, difference, smaller) = (less, found, true);
                    }
                    None => at = end,
                }
            }
            // Single letters are tried again as long as one can go.
            size = if size == 1 && smaller { 1 } else { size / 2 };
        }
        difference
    }
}

/// A script's letters, or its bytes if it is no text.
fn units(script: &[u8]) -> Vec<Vec<u8>> {
    match std::str::from_utf8(script) {
        Ok(text) => text.chars().map(|c| c.to_string().into_bytes()).collect(),
        Err(_) => script.iter().map(|&byte| vec![byte]).collect(),
    }
}
