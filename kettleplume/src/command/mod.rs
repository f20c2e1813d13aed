//! The command, from its words to its exit status.
//!
//! `arguments` says what is asked for, `input` fetches a script. `report` puts a reading into words for
//! people, with `excerpt` for the line shown and its mark, `letters` and `wide` for what a terminal may
//! be given and the room that it takes there, and `counted` for the line in a record; `outline` puts
//! it into the form of an outline. `console` is the only part that prints.

mod arguments;
mod console;
mod counted;
mod excerpt;
mod input;
mod letters;
mod outline;
mod report;
mod wide;

use std::ffi::OsString;
use std::io;
use std::process::ExitCode;

use kettleplume::records::outcome;
use kettleplume::{Options, Records, Tables, Way};

use arguments::{Asked, Task, HELP, USAGE, VERSION};
use console::Console;

/// How a run went. The worst of its files counts, and these stand in that order.
#[derive(Debug, Clone, Copy, PartialEq, Eq, PartialOrd, Ord)]
pub enum Status {
    /// Every script was read to its end and has no recorded error.
    Clean = 0,
    /// Some script has recorded errors, or was not read to its end.
    Mistakes = 1,
    /// The words were not understood, a file not read, or the output not written.
    Trouble = 2,
}

impl From<Status> for ExitCode {
    fn from(status: Status) -> ExitCode {
        ExitCode::from(status as u8)
    }
}

/// Runs the command with the words after its name.
pub fn run(words: impl Iterator<Item = OsString>) -> Status {
    match arguments::task(words) {
        Ok(Task::Help) => tell(HELP),
        Ok(Task::Version) => tell(VERSION),
        Ok(Task::Read(asked)) => read(&asked),
        Err(what) => {
            Console::new(1).trouble(&format!("{what}\n{USAGE}"));
            Status::Trouble
        }
    }
}

fn tell(text: &str) -> Status {
    let mut console = Console::new(1);
    let written = console.print(text);
    ended(&mut console, written.map(|()| Status::Clean))
}

fn read(asked: &Asked) -> Status {
    let mut console = Console::new(asked.files.len());
    let status = read_all(asked, &mut console);
    ended(&mut console, status)
}

/// Fails only where the output can't be written: a file that can't be read doesn't hold up the others.
fn read_all(asked: &Asked, console: &mut Console) -> io::Result<Status> {
    let (mut tables, options) = (Tables::new(), options(asked));
    let mut status = Status::Clean;
    for file in &asked.files {
        let name = input::name(file);
        console.begin(&name);
        let source = match input::bytes(file) {
            Ok(source) => source,
            Err(why) => {
                console.trouble(&format!("{name}: {why}"));
                status = Status::Trouble;
                continue;
            }
        };
        let records = tables.read_as(options, &source);
        console.print(&text(asked, &name, &source, &records))?;
        status = status.max(verdict(&records));
    }
    Ok(status)
}

/// An outline goes on after errors of the lexer, as the program `outline` does.
fn options(asked: &Asked) -> Options {
    let way = match asked.go_on || asked.outline {
        true => Way::GoOn,
        false => Way::Stop,
    };
    let rule = asked.rule;
    Options { rule, way }
}

fn text(asked: &Asked, name: &str, source: &[u8], records: &Records) -> String {
    if !asked.outline {
        return report::report(name, source, records);
    }
    // One outline alone is byte for byte as `docs/RULES.md`, 'Outline', says.
    let head = match asked.files.len() {
        1 => String::new(),
        _ => format!("f {name}\n"),
    };
    head + &outline::outline(records)
}

fn verdict(records: &Records) -> Status {
    match (records.answer.outcome, records.errors.len()) {
        (outcome::DONE, 0) => Status::Clean,
        _ => Status::Mistakes,
    }
}

/// Ends a run. A pipe that was closed early is no news to whoever closed it; any other failure is told.
fn ended(console: &mut Console, written: io::Result<Status>) -> Status {
    console.end();
    match written {
        Ok(status) => status,
        Err(error) => {
            if error.kind() != io::ErrorKind::BrokenPipe {
                console.trouble(&format!("the output can't be written: {error}"));
            }
            Status::Trouble
        }
    }
}
