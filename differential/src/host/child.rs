//! Builds `host.c` with the library's archives and talks to it as a child process.
//!
//! The system's `cc` links them, as a host in C does. This exercises the archives and their C border.

use std::fs;
use std::io::{self, BufReader, Read as _, Write as _};
use std::path::{Path, PathBuf};
use std::process::{self, ChildStdin, ChildStdout, Command, Stdio};
use std::sync::OnceLock;
use std::thread;

use super::{Answer, DecodeAnswer, LexAnswer, ReadAnswer, Request, SO_FAR};

/// A running child.
pub struct Child {
    child: process::Child,
    requests: Option<ChildStdin>,
    answers: BufReader<ChildStdout>,
}

impl Child {
    /// Builds the host, once in each process, and starts a child of its own.
    pub fn start() -> Child {
        static PROGRAM: OnceLock<PathBuf> = OnceLock::new();
        let program = PROGRAM.get_or_init(build);
        let mut child = Command::new(program)
            .stdin(Stdio::piped())
            .stdout(Stdio::piped())
            .spawn()
            .unwrap_or_else(|error| panic!("{program:?} doesn't start: {error}"));
        let requests = child.stdin.take();
        let answers = BufReader::with_capacity(1 << 16, child.stdout.take().expect("a pipe"));
        Child {
            child,
            requests,
            answers,
        }
    }

    /// Sends all requests and hands each answer on as it comes, with its request's index. If the
    /// child ends before, how it ended.
    ///
    /// A second thread does the sending: neither pipe can then fill up and stop both sides.
    pub fn ask(
        &mut self,
        requests: &[Request],
        mut each: impl FnMut(usize, Answer),
    ) -> Result<(), String> {
        let mut bytes = vec![];
        requests.iter().for_each(|request| request.put(&mut bytes));
        let pipe = self.requests.as_mut().expect("open until the end");
        let answers = &mut self.answers;
        let outcome = thread::scope(|scope| {
            // A child that has gone is noticed by the reading below.
            scope.spawn(|| pipe.write_all(&bytes).and_then(|()| pipe.flush()));
            for (index, request) in requests.iter().enumerate() {
                if let Some(answer) = request.answer(answers)? {
                    each(index, answer);
                }
            }
            Ok::<(), io::Error>(())
        });
        outcome.map_err(|error| match self.child.wait() {
            Ok(status) => format!("{error}; {status}"),
            Err(other) => format!("{error}; {other}"),
        })
    }
}

impl Drop for Child {
    /// The end of its input ends the child.
    fn drop(&mut self) {
        self.requests = None;
        let _ = self.child.wait();
    }
}

impl Request<'_> {
    fn put(&self, to: &mut Vec<u8>) {
        let size = |n: usize| u32::try_from(n).expect("a size fits a word");
        let words = match self {
            Request::Source { bytes, behind } => {
                [1, size(bytes.len()), u32::from(*behind), 0, 0, 0, 0, 0]
            }
            Request::Lex(c) => {
                let (tokens, errors) = (size(c.token_words), size(c.error_words));
                [2, tokens, errors, c.fill, c.rule, 0, 0, 0]
            }
            Request::Decode(c) => {
                let (low, high) = (c.start as u32, (c.start >> 32) as u32);
                [3, size(c.room), u32::from(c.fill), low, high, 0, 0, 0]
            }
            Request::Read(c) => {
                let (tokens, errors) = (size(c.token_words), size(c.error_words));
                let (nodes, index) = (size(c.node_words), size(c.index_words));
                let what = if c.pair { 5 } else { 4 };
                [what, tokens, errors, nodes, index, c.fill, c.rule, c.way]
            }
        };
        words
            .iter()
            .for_each(|word| to.extend_from_slice(&word.to_le_bytes()));
        if let Request::Source { bytes, .. } = self {
            to.extend_from_slice(bytes);
        }
    }

    fn answer(&self, from: &mut BufReader<ChildStdout>) -> io::Result<Option<Answer>> {
        Ok(match self {
            Request::Source { .. } => None,
            Request::Lex(call) => {
                let head = words(from, 4)?;
                Some(Answer::Lex(LexAnswer {
                    outcome: head[0],
                    tokens: head[1],
                    errors: head[2],
                    intact: head[3] == 1,
                    token_table: words(from, call.token_words)?,
                    error_table: words(from, call.error_words)?,
                }))
            }
            Request::Decode(call) => {
                let head = words(from, 4)?;
                let mut buffer = vec![0; call.room];
                from.read_exact(&mut buffer)?;
                Some(Answer::Decode(DecodeAnswer {
                    outcome: head[0],
                    length: u64::from(head[2]) << 32 | u64::from(head[1]),
                    intact: head[3] == 1,
                    buffer,
                }))
            }
            Request::Read(call) => {
                let head = words(from, 9)?;
                let so_far = words(from, SO_FAR * head[8] as usize)?;
                Some(Answer::Read(ReadAnswer {
                    outcome: head[0],
                    tokens: head[1],
                    errors: head[2],
                    nodes: head[3],
                    first: head[4],
                    looks: head[5],
                    intact: head[6] == 1,
                    steady: head[7] == 1,
                    so_far: so_far.as_chunks().0.to_vec(),
                    token_table: words(from, call.token_words)?,
                    error_table: words(from, call.error_words)?,
                    node_table: words(from, call.node_words)?,
                    index_table: words(from, call.index_words)?,
                }))
            }
        })
    }
}

fn words(from: &mut BufReader<ChildStdout>, count: usize) -> io::Result<Vec<u32>> {
    let mut bytes = vec![0; 4 * count];
    from.read_exact(&mut bytes)?;
    let word = |b: &[u8]| u32::from_le_bytes(b.try_into().expect("four bytes"));
    Ok(bytes.chunks_exact(4).map(word).collect())
}

/// Where the library's archives are.
const ARCHIVES: &str = env!("KETTLEPLUME_ARCHIVES");

/// Builds the host; where it lies.
fn build() -> PathBuf {
    let here = Path::new(env!("CARGO_MANIFEST_DIR"));
    let root = here.parent().expect("the crate lies in the repository");
    let archives = ["libreader.a", "libpair.a"].map(|name| Path::new(ARCHIVES).join(name));

    // Below cargo's folder. The name is this process's own until the program is complete, for two
    // processes may build at the same time.
    let folder = root.join("target-cargo/differential");
    fs::create_dir_all(&folder)
        .unwrap_or_else(|error| panic!("no folder {}: {error}", folder.display()));
    let fresh = folder.join(format!("host.{}", process::id()));
    let program = folder.join("host");
    run(Command::new("cc")
        .args(given())
        .args(["-O2", "-o"])
        .args([&fresh, &here.join("host.c")])
        .args(&archives));
    fs::rename(&fresh, &program).unwrap_or_else(|error| panic!("no {program:?}: {error}"));
    program
}

/// What `host.c` is told: where the library's header is, and a number that has its definition in Rust.
fn given() -> [String; 3] {
    let include = concat!(env!("CARGO_MANIFEST_DIR"), "/../kettleplume/include");
    let so_far = format!("-DSO_FAR={SO_FAR}");
    ["-I".to_string(), include.to_string(), so_far]
}

/// Runs a tool to its end; what it printed is shown only if it fails.
fn run(command: &mut Command) {
    let output = command
        .output()
        .unwrap_or_else(|error| panic!("{command:?} doesn't start: {error}"));
    assert!(
        output.status.success(),
        "{command:?} failed:\n{}{}",
        String::from_utf8_lossy(&output.stdout),
        String::from_utf8_lossy(&output.stderr)
    );
}
