//! All that is printed: reports on standard output, trouble on standard error, and there, on a terminal,
//! a line that tells how far a run has come. It is cleared before anything else is printed.

use std::io::{self, IsTerminal as _, Write as _};

/// How many columns the line of progress has at most. A longer one would be broken on a usual terminal,
/// and then couldn't be cleared.
const COLUMNS: usize = 79;

pub struct Console {
    /// How many files the run has.
    files: usize,
    begun: usize,
    progress: bool,
    /// Whether a line of progress stands on the terminal.
    drawn: bool,
}

impl Console {
    pub fn new(files: usize) -> Console {
        Console {
            files,
            begun: 0,
            progress: files > 1 && io::stderr().is_terminal(),
            drawn: false,
        }
    }

    /// The next file is being read.
    pub fn begin(&mut self, name: &str) {
        self.begun += 1;
        if self.progress {
            self.clear();
            self.drawn = true;
            tell(&progress(self.begun, self.files, name));
        }
    }

    /// A report. It is written out at once, so that the next line of progress stands after it.
    pub fn print(&mut self, text: &str) -> io::Result<()> {
        self.clear();
        let mut out = io::stdout().lock();
        out.write_all(text.as_bytes())?;
        out.flush()
    }

    /// What is wrong with a file or with the command's words.
    pub fn trouble(&mut self, text: &str) {
        self.clear();
        tell(&format!("kettleplume: {text}\n"));
    }

    /// The run is over.
    pub fn end(&mut self) {
        self.clear();
    }

    fn clear(&mut self) {
        if std::mem::take(&mut self.drawn) {
            tell(&format!("\r{:COLUMNS$}\r", ""));
        }
    }
}

/// The line of progress, cut to its columns.
fn progress(number: usize, files: usize, name: &str) -> String {
    let line = format!("reading {number} of {files}: {name}");
    match line.chars().count() > COLUMNS {
        true => line
            .chars()
            .take(COLUMNS - 3)
            .chain("...".chars())
            .collect(),
        false => line,
    }
}

/// To standard error. Where that is gone too, there is no one to tell.
fn tell(text: &str) {
    let _ = io::stderr().write_all(text.as_bytes());
}

#[cfg(test)]
mod tests {
    use super::progress;

    #[test]
    fn progress_tells_number_and_name() {
        assert_eq!(progress(3, 120, "green.gr"), "reading 3 of 120: green.gr");
    }

    #[test]
    fn progress_fits_a_terminal() {
        let fits = progress(1, 2, &"û".repeat(63));
        assert_eq!(fits, format!("reading 1 of 2: {}", "û".repeat(63)));
        let cut = progress(1, 2, &"û".repeat(64));
        assert_eq!(cut, format!("reading 1 of 2: {}...", "û".repeat(60)));
        assert_eq!((fits.chars().count(), cut.chars().count()), (79, 79));
    }
}
