//! The command as it is run: the built program, on files in a folder of the test's own.

use std::ffi::{c_char, c_int, OsStr};
use std::fs::{self, File};
use std::io::{Read as _, Write as _};
use std::os::fd::{AsRawFd as _, FromRawFd as _};
use std::os::unix::ffi::OsStrExt as _;
use std::path::{Path, PathBuf};
use std::process::{Command, Output, Stdio};
use std::sync::atomic::{AtomicUsize, Ordering};

use kettleplume::border::{self, Answer};
use kettleplume::records::{outcome, rule, way, ERROR_WORDS, INDEX_WORDS, NODE_WORDS, TOKEN_WORDS};

/// A folder of one test, with the scripts that it reads.
struct Folder(PathBuf);

impl Folder {
    fn new() -> Folder {
        static NEXT: AtomicUsize = AtomicUsize::new(0);
        let number = NEXT.fetch_add(1, Ordering::Relaxed);
        let name = format!("kettleplume-{}-{number}", std::process::id());
        let path = std::env::temp_dir().join(name);
        fs::create_dir(&path).expect("a folder is made");
        Folder(path)
    }

    fn with(files: &[(&str, &[u8])]) -> Folder {
        let folder = Folder::new();
        for (name, bytes) in files {
            fs::write(folder.0.join(name), bytes).expect("a script is written");
        }
        folder
    }

    fn command(&self, words: &[&str]) -> Command {
        let mut command = Command::new(env!("CARGO_BIN_EXE_kettleplume"));
        command.args(words).current_dir(&self.0);
        command.stdin(Stdio::null());
        command
    }

    fn run(&self, words: &[&str]) -> Ran {
        Ran::of(self.command(words).output().expect("the command runs"))
    }
}

impl Drop for Folder {
    fn drop(&mut self) {
        let _ = fs::remove_dir_all(&self.0);
    }
}

#[derive(Debug)]
struct Ran {
    status: i32,
    out: String,
    err: String,
}

impl Ran {
    fn of(output: Output) -> Ran {
        let text = |bytes| String::from_utf8(bytes).expect("what is printed is text");
        Ran {
            status: output.status.code().expect("the command ends by itself"),
            out: text(output.stdout),
            err: text(output.stderr),
        }
    }

    #[track_caller]
    fn is(self, status: i32, out: &str, err: &str) {
        assert_eq!(self.out, out);
        assert_eq!(self.err, err);
        assert_eq!(self.status, status);
    }
}

/// The report of one script on the old way, which tells all that is found, and the exit status.
fn report(script: impl AsRef<[u8]>) -> (String, i32) {
    reported(&["read", "--go-on", "s.gr"], script)
}

fn reported(words: &[&str], script: impl AsRef<[u8]>) -> (String, i32) {
    let ran = Folder::with(&[("s.gr", script.as_ref())]).run(words);
    assert_eq!(ran.err, "");
    (ran.out, ran.status)
}

/// A report on the old way has these lines, below each other, and the exit status is as said.
#[track_caller]
fn reports(script: impl AsRef<[u8]>, status: i32, lines: &[&str]) {
    let (out, code) = report(script);
    assert_eq!(out.lines().collect::<Vec<_>>(), lines);
    assert_eq!(code, status);
}

/// The same on the way that the command takes if nothing is said.
#[track_caller]
fn stops(script: impl AsRef<[u8]>, status: i32, lines: &[&str]) {
    let (out, code) = reported(&["read", "s.gr"], script);
    assert_eq!(out.lines().collect::<Vec<_>>(), lines);
    assert_eq!(code, status);
}

#[test]
fn statements_are_not_read_after_mistakes_of_the_lexer() {
    stops(
        "let stop = \"Salicional\nlet pitch = 8\nprint(stop)\n",
        1,
        &[
            "s.gr:1:12: Closing \" was expected",
            "     1 | let stop = \"Salicional",
            "       |            ^",
            "       = the string that begins here is not closed up to the end of the script \
             (recorded with line 4)",
            "s.gr: its statements were not read, because of the mistake above",
        ],
    );
    stops(
        "a $ b )\n!\n",
        1,
        &[
            "s.gr:1:3: Illegal character",
            "     1 | a $ b )",
            "       |   ^",
            "s.gr:2:1: '!' cannot be used here",
            "     2 | !",
            "       | ^",
            "s.gr: its statements were not read, because of the 2 mistakes above",
        ],
    );
}

/// What the parser finds, and a number that runs to the last byte, is told on both ways.
#[test]
fn statements_are_read_without_such_mistakes() {
    for script in [
        "",
        "a = 1\n",
        "flute4\n",
        "a\n)\nb\n",
        "@ 1.5",
        "let a = \"x\ny\" b\n",
    ] {
        let new = reported(&["read", "s.gr"], script);
        assert_eq!(new, report(script), "{script:?}");
        assert!(!new.0.contains("were not read"), "{script:?}");
    }
}

/// By rule one unless rule two is asked for.
#[test]
fn both_rules() {
    let script = "for stop8 in stops { print(stop8) }\nlet pitch = 2.5";
    let clean = ("s.gr: read, 2 statements, no errors\n".to_string(), 0);
    for words in [
        &["read", "--rule", "2", "s.gr"][..],
        &["read", "--rule=2", "s.gr"],
        &["read", "s.gr", "--rule", "2"],
        &["read", "--rule", "1", "--rule", "2", "s.gr"],
        &["read", "--go-on", "--rule", "2", "s.gr"],
    ] {
        assert_eq!(reported(words, script), clean, "{words:?}");
    }
    let one = reported(&["read", "s.gr"], script);
    assert!(one.0.contains("the script ends within a number"), "{one:?}");
    for words in [
        &["read", "--rule", "1", "s.gr"][..],
        &["read", "--rule=1", "s.gr"],
        &["read", "--", "s.gr"],
    ] {
        assert_eq!(reported(words, script), one, "{words:?}");
    }
    // After the loop there is none.
    let (out, status) = reported(&["read", "--rule", "2", "s.gr"], "for x in y {}\nbreak\n");
    assert!(out.starts_with("s.gr:2:1: "), "{out}");
    assert_eq!(status, 1);
}

#[test]
fn outlines_by_both_rules() {
    let outline = |words: &[&str]| reported(words, "a1");
    let one = "o 0 4 1 4 2\nt 25 0 1 1 1\nt 27 1 1 1 1\nt 1 2 0 1 1\nt 0 2 0 1 1\ne 4 1 1\n\
               n 2 1 0 0 0 0 0 0 0\nn 30 1 0 0 1 0 0 0 4\nn 13 2 0 0 0 0 0 0 0\nn 30 2 0 0 3 0 0 0 0\n";
    let two = "o 0 3 0 2 2\nt 25 0 2 1 1\nt 1 2 0 1 1\nt 0 2 0 1 1\n\
               n 2 1 0 0 0 0 0 0 0\nn 30 1 0 0 1 0 0 0 0\n";
    let is = |text: &str, status| (text.to_string(), status);
    assert_eq!(outline(&["read", "--outline", "s.gr"]), is(one, 1));
    assert_eq!(
        outline(&["read", "--outline", "--rule", "1", "s.gr"]),
        is(one, 1)
    );
    assert_eq!(
        outline(&["read", "--rule", "2", "--outline", "s.gr"]),
        is(two, 0)
    );
}

/// The nightly batch: with --go-on, and in outlines, the command prints of the scripts in `nightly` what
/// it printed before it could stop. The two texts there are that version's.
#[test]
fn the_nightly_batch_stays_as_it_was() {
    let folder = Path::new(env!("CARGO_MANIFEST_DIR")).join("tests/nightly");
    let entries = fs::read_dir(&folder).expect("the folder is there");
    let names = entries.map(|entry| entry.expect("an entry").file_name().into_string());
    let mut scripts: Vec<String> = names.map(|name| name.expect("a name")).collect();
    scripts.retain(|name| name.ends_with(".gr"));
    scripts.sort();
    assert_eq!(scripts.len(), 11);
    let run = |options: &[&str]| {
        let mut command = Command::new(env!("CARGO_BIN_EXE_kettleplume"));
        command.arg("read").args(options).args(&scripts);
        Ran::of(
            command
                .current_dir(&folder)
                .output()
                .expect("the command runs"),
        )
    };
    let before = |name| fs::read_to_string(folder.join(name)).expect("the text is there");
    run(&["--go-on"]).is(1, &before("report.txt"), "");
    for options in [&["--outline"][..], &["--outline", "--go-on"]] {
        run(options).is(1, &before("outline.txt"), "");
    }
    // Without the option it stops, in the seven scripts whose lexer records an error and comes to its end.
    let stopped = run(&[]);
    assert_eq!(
        stopped.out.matches("its statements were not read").count(),
        7
    );
    assert_ne!(stopped.out, before("report.txt"));
}

#[test]
fn read_without_errors() {
    reports("", 0, &["s.gr: read, no statements, no errors"]);
    reports("a = 1\n", 0, &["s.gr: read, 1 statement, no errors"]);
    reports("a = 1", 0, &["s.gr: read, 1 statement, no errors"]);
    let script = "let a = 1\r\nlet b = 2\r\nfn c() {\r\n    return a + b\r\n}\r\n";
    reports(script, 0, &["s.gr: read, 3 statements, no errors"]);
}

#[test]
fn read_with_errors() {
    reports(
        "let oboe = 8\nflute4\n",
        1,
        &[
            "s.gr:2:6: Expected new line",
            "     2 | flute4",
            "       |      ^",
            "s.gr: read, 3 statements, 1 error",
        ],
    );
}

#[test]
fn stopped_by_the_last_error() {
    reports(
        "let a = 1\n!\n{return}\n",
        1,
        &[
            "s.gr:2:1: '!' cannot be used here",
            "     2 | !",
            "       | ^",
            "s.gr:3:8: Undefined expression",
            "     3 | {return}",
            "       |        ^",
            "s.gr: not read to its end: the script has a mistake after which the rest can't be read \
             (2 errors, the last of which stopped it; 1 statement before it kept)",
        ],
    );
    reports(
        "1=2",
        1,
        &[
            "s.gr:1:2: Undefined statement",
            "     1 | 1=2",
            "       |  ^",
            "s.gr: not read to its end: the script has a mistake after which the rest can't be read \
             (1 error, which stopped it; no statements before it kept)",
        ],
    );
}

#[test]
fn number_at_the_end() {
    let line = "s.gr: not read to its end: the script ends within a number: a number with a point \
                needs something behind it, if only a new line";
    let whole = format!("{line} (no errors, no statements before it kept)");
    reports("let pitch = 2.66", 1, &[&whole]);
    let whole = format!("{line} (1 error, no statements before it kept)");
    let error = [
        "s.gr:1:1: '!' cannot be used here",
        "     1 | !1.",
        "       | ^",
    ];
    reports("!1.", 1, &[&error[..], &[&whole]].concat());
}

#[test]
fn no_text() {
    reports(
        b"let a = 1\nlet b = \"Fl\xfbte\"\n",
        1,
        &["s.gr: not read: the file is no text: its bytes are not UTF-8, first in line 2"],
    );
    // What a scanner delivered once: a surrogate, in a comment.
    reports(
        b"let a = 1\n\nlet b = a # \xed\xa0\x80\n",
        1,
        &["s.gr: not read: the file is no text: its bytes are not UTF-8, first in line 3"],
    );
}

#[test]
fn too_long() {
    let line = "s.gr: not read: the script is longer than 65,535 bytes";
    reports(" ".repeat(65_536), 1, &[line]);
    // The length goes before the text.
    reports([0xff].repeat(100_000), 1, &[line]);
    reports(
        " ".repeat(65_535),
        0,
        &["s.gr: read, no statements, no errors"],
    );
}

#[test]
fn too_deep() {
    let script = format!("let a\n{}a{}\n", "(".repeat(127), ")".repeat(127));
    reports(
        script,
        1,
        &[
            "s.gr: not read to its end: the script is nested more than 128 levels deep \
           (no errors, 1 statement before it kept)",
        ],
    );
}

#[test]
fn files_without_end_are_too_long() {
    Folder::new().run(&["read", "/dev/zero"]).is(
        1,
        "/dev/zero: not read: the script is longer than 65,535 bytes\n",
        "",
    );
}

/// The excerpt below the first error: its lines without what the report says next.
fn first_excerpt(script: impl AsRef<[u8]>) -> Vec<String> {
    let (out, _) = report(script);
    let below = out.lines().skip(1).map(str::to_string);
    below.take_while(|line| line.starts_with(' ')).collect()
}

#[test]
fn marks_stand_under_their_places() {
    let excerpt = first_excerpt("let a = \"Flûte\" ! \"Flûte\"\n");
    assert_eq!(
        excerpt,
        [
            "     1 | let a = \"Flûte\" ! \"Flûte\"",
            "       |                 ^",
        ]
    );
    // Tabs stay tabs, so that the mark lines up wherever the terminal stops for them.
    let excerpt = first_excerpt("\t\"é\"\t!\n");
    assert_eq!(excerpt, ["     1 | \t\"é\"\t!", "       | \t   \t^"]);
    // An accent that is a character of its own takes no column.
    let excerpt = first_excerpt("\"u\u{302}\" !\n");
    assert_eq!(excerpt, ["     1 | \"u\u{302}\" !", "       |     ^"]);
}

#[test]
fn columns_count_characters() {
    let head = |script: &str| report(script).0.lines().next().map(str::to_string);
    assert_eq!(
        head("\n\t\"Flûte\" !").as_deref(),
        Some("s.gr:2:10: '!' cannot be used here")
    );
    assert_eq!(
        head("\"u\u{302}\" !").as_deref(),
        Some("s.gr:1:5: '!' cannot be used here")
    );
}

#[test]
fn a_two_byte_letter_has_two_errors_at_one_place() {
    reports(
        "let flûte",
        1,
        &[
            "s.gr:1:7: Illegal character",
            "     1 | let flûte",
            "       |       ^",
            "       = U+00FB, byte 1 of 2",
            "s.gr:1:7: Illegal character",
            "     1 | let flûte",
            "       |       ^",
            "       = U+00FB, byte 2 of 2",
            "s.gr:1:8: Expected new line",
            "     1 | let flûte",
            "       |        ^",
            "s.gr: read, 2 statements, 3 errors",
        ],
    );
}

#[test]
fn a_string_that_is_not_closed_is_shown_at_its_quote() {
    let (out, _) = report("let a = 1\nlet oboe = \"Haut\nbois\n\n");
    let lines: Vec<&str> = out.lines().take(4).collect();
    assert_eq!(
        lines,
        [
            "s.gr:2:12: Closing \" was expected",
            "     2 | let oboe = \"Haut",
            "       |            ^",
            "       = the string that begins here is not closed up to the end of the script \
             (recorded with line 5)",
        ]
    );
}

#[test]
fn a_wrong_escape_is_told() {
    let (out, _) = report("let a = \"\nb\\q\"");
    let lines: Vec<&str> = out.lines().take(8).collect();
    assert_eq!(
        lines,
        [
            "s.gr:1:9: Closing \" was expected",
            "     1 | let a = \"",
            "       |         ^",
            "       = the string that begins here breaks off at line 2, column 2: the backslash \
             there makes no escape (recorded with line 2)",
            "s.gr:2:4: Closing \" was expected",
            "     2 | b\\q\"",
            "       |    ^",
            "       = the string that begins here is not closed up to the end of the script",
        ]
    );
}

/// A new line after a backslash isn't counted by the reader. The lines shown are the file's.
#[test]
fn lines_are_the_files_own() {
    reports(
        "\"a\\\nlet b c\nlet d !\n",
        1,
        &[
            "s.gr:1:1: Closing \" was expected",
            "     1 | \"a\\",
            "       | ^",
            "       = the string that begins here breaks off at line 1, column 3: the backslash there \
             makes no escape",
            "s.gr:3:7: '!' cannot be used here",
            "     3 | let d !",
            "       |       ^",
            "       = recorded with line 2: a new line behind a backslash isn't counted",
            "s.gr:2:7: Expected new line",
            "     2 | let b c",
            "       |       ^",
            "       = recorded with line 1: a new line behind a backslash isn't counted",
            "s.gr: read, 3 statements, 3 errors",
        ],
    );
}

#[test]
fn lines_that_are_counted_as_one() {
    let script = "\"\\\n".repeat(9) + "a b\n";
    let (out, _) = report(script);
    let last: Vec<&str> = out.lines().rev().take(5).collect();
    assert_eq!(
        last,
        [
            "s.gr: read, 2 statements, 10 errors",
            "       = recorded with line 1: a new line behind a backslash isn't counted",
            "       |   ^",
            "    10 | a b",
            "s.gr:10:3: Expected new line",
        ]
    );
}

/// A script, and the report's first lines.
type Shown = (&'static str, &'static [&'static str]);

/// Errors of the parser: each at the start of the token at which it was found.
#[rustfmt::skip]
const SHOWN: [Shown; 17] = [
    ("a b\n", &[
        "s.gr:1:3: Expected new line",
        "     1 | a b",
        "       |   ^",
    ]),
    // Tabs stay tabs, so that the mark lines up wherever the terminal stops for them.
    ("\tlet a\tb\n", &[
        "s.gr:1:8: Expected new line",
        "     1 | \tlet a\tb",
        "       | \t     \t^",
    ]),
    // A letter of two bytes, one that is wide, and an accent that is a character of its own.
    ("let a = \"Flûte\" b\n", &[
        "s.gr:1:17: Expected new line",
        "     1 | let a = \"Flûte\" b",
        "       |                 ^",
    ]),
    ("let a = \"水管\" b\n", &[
        "s.gr:1:14: Expected new line",
        "     1 | let a = \"水管\" b",
        "       |                ^",
    ]),
    ("\"u\u{302}\" b\n", &[
        "s.gr:1:5: Expected new line",
        "     1 | \"u\u{302}\" b",
        "       |     ^",
    ]),
    // The place is a new line: the mark stands after the last character.
    ("let d = {\n    \"a\": \"b\"\n    \"c\": \"d\"\n}\n", &[
        "s.gr:2:13: Expected '}' at the end of dict",
        "     2 |     \"a\": \"b\"",
        "       |             ^",
        "s.gr: not read to its end: the script has a mistake after which the rest can't be read \
         (1 error, which stopped it; no statements before it kept)",
    ]),
    ("let a = (1\r\nlet b\r\n", &[
        "s.gr:1:11: Expect ')' after expression",
        "     1 | let a = (1",
        "       |           ^",
        "s.gr: read, 2 statements, 1 error",
    ]),
    ("[1 # 水\n2]\n", &[
        "s.gr:1:7: Expected ']' at end of list",
        "     1 | [1 # 水",
        "       |        ^",
    ]),
    ("(a\n", &[
        "s.gr:1:3: Expect ')' after expression",
        "     1 | (a",
        "       |   ^",
        "s.gr: read, 1 statement, 1 error",
    ]),
    // The place is the end of the script.
    ("(a", &[
        "s.gr:1:3: Expect ')' after expression",
        "     1 | (a",
        "       |   ^",
        "       = the script ends here",
        "s.gr: read, 1 statement, 1 error",
    ]),
    ("while \"û\" {\r", &[
        "s.gr:1:12: Undefined expression",
        "     1 | while \"û\" {",
        "       |            ^",
        "       = the script ends here",
    ]),
    ("if a {\n", &[
        "s.gr:2:1: Undefined expression",
        "     2 |",
        "       | ^",
        "       = the script ends here",
    ]),
    ("\n", &[
        "s.gr:2:1: Expected new line",
        "     2 |",
        "       | ^",
        "       = the script ends here",
        "s.gr: read, 1 statement, 1 error",
    ]),
    // The keyword, and the `=`.
    ("if a {\n\n    break\n}\n", &[
        "s.gr:3:5: Statement only allowed for use inside loop",
        "     3 |     break",
        "       |     ^",
        "s.gr: read, 1 statement, 1 error",
    ]),
    ("a = b + 1 =\n2\n", &[
        "s.gr:1:11: Undefined statement",
        "     1 | a = b + 1 =",
        "       |           ^",
    ]),
    // A string of several lines is recorded with its last; where it begins is told.
    ("a \"b\n\nc\"\n", &[
        "s.gr:1:3: Expected new line",
        "     1 | a \"b",
        "       |   ^",
        "       = the string begins in line 1 and ends in line 3, with which it is recorded",
        "s.gr: read, 2 statements, 1 error",
    ]),
    ("let a\nlet b = a \"The Trumpet\n\n\nhas\na new\nboot\n\nand\nshallot.\"\n", &[
        "s.gr:2:11: Expected new line",
        "     2 | let b = a \"The Trumpet",
        "       |           ^",
        "       = the string begins in line 2 and ends in line 10, with which it is recorded",
        "s.gr: read, 3 statements, 1 error",
    ]),
];

#[test]
fn every_error_has_a_line_a_column_and_a_mark() {
    for (script, lines) in SHOWN {
        let (out, status) = report(script);
        let shown: Vec<&str> = out.lines().take(lines.len()).collect();
        assert_eq!((shown, status), (lines.to_vec(), 1), "{script:?}");
    }
}

#[test]
fn carriage_returns_at_ends_of_lines_are_not_shown() {
    reports(
        "let a !\r\nlet b c\r\n",
        1,
        &[
            "s.gr:1:7: '!' cannot be used here",
            "     1 | let a !",
            "       |       ^",
            "s.gr:2:7: Expected new line",
            "     2 | let b c",
            "       |       ^",
            "s.gr: read, 3 statements, 2 errors",
        ],
    );
}

#[test]
fn control_characters_are_not_printed() {
    reports(
        b"\x1b# \x1b[2J\x07\xc2\x9b\xe2\x80\xae\r.\n",
        1,
        &[
            "s.gr:1:1: Illegal character",
            "     1 | ␛# ␛[2J␇��␍.",
            "       | ^",
            "       = U+001B",
            "s.gr:2:1: Expected new line",
            "     2 |",
            "       | ^",
            "       = the script ends here",
            "s.gr: read, 1 statement, 2 errors",
        ],
    );
}

#[test]
fn long_lines_are_cut_around_the_place() {
    let (s, t) = ("s".repeat(200), "t".repeat(200));
    let excerpt = first_excerpt(format!("\"{s}\" ! \"{t}\""));
    let line = format!("     1 | ...{}\" ! \"{}...", "s".repeat(58), "t".repeat(37));
    let mark = format!("       | {}^", " ".repeat(63));
    assert_eq!(excerpt, [line, mark]);
    // At the ends of a line, what one side doesn't need is left to the other.
    let excerpt = first_excerpt(format!("!\"{t}\""));
    assert_eq!(excerpt[0], format!("     1 | !\"{}...", "t".repeat(98)));
    let excerpt = first_excerpt(format!("\"{s}\" !"));
    assert_eq!(excerpt[0], format!("     1 | ...{}\" !", "s".repeat(97)));
    // Where the place is the end of a line, all that is shown stands in front of it.
    let excerpt = first_excerpt(format!("(\"{s}\"\n"));
    assert_eq!(excerpt[0], format!("     1 | ...{}\"", "s".repeat(99)));
    assert_eq!(excerpt[1], format!("       | {}^", " ".repeat(103)));
    // A line of as many as are shown is shown whole.
    let excerpt = first_excerpt(format!("!\"{}\"", "t".repeat(97)));
    assert_eq!(excerpt[0], format!("     1 | !\"{}\"", "t".repeat(97)));
}

#[test]
fn cut_lines_are_cut_between_letters() {
    let excerpt = first_excerpt(format!("\"{0}\" ! \"{0}\"", "û".repeat(200)));
    let line = format!("     1 | ...{}\" ! \"{}...", "û".repeat(58), "û".repeat(37));
    assert_eq!(excerpt[0], line);
}

/// As many errors in one line as a script can have take no time that anyone would notice.
#[test]
fn as_many_errors_as_there_can_be() {
    let (out, status) = report("!".repeat(65_535));
    assert_eq!(out.matches(": '!' cannot be used here\n").count(), 65_535);
    assert!(out.contains("\ns.gr:1:65535: '!' cannot be used here\n"));
    assert!(out.ends_with("s.gr: read, no statements, 65535 errors\n"));
    assert_eq!(status, 1);
}

#[test]
fn files_that_cannot_be_read_do_not_hold_up_the_others() {
    let folder = Folder::with(&[("a.gr", b"a\n"), ("b.gr", b"b c\n"), ("c.gr", b"c\n")]);
    fs::create_dir(folder.0.join("d")).expect("a folder is made");
    let files = [
        "missing.gr",
        "a.gr",
        "d",
        "b.gr",
        "/proc/self/mem",
        "a.gr/e",
        "c.gr",
    ];
    folder.run(&[&["read"], &files[..]].concat()).is(
        2,
        "a.gr: read, 1 statement, no errors\n\
         b.gr:1:3: Expected new line\n     1 | b c\n       |   ^\nb.gr: read, 2 statements, 1 error\n\
         c.gr: read, 1 statement, no errors\n",
        "kettleplume: missing.gr: there is no such file\n\
         kettleplume: d: this is a directory, not a script\n\
         kettleplume: /proc/self/mem: the file can't be read: Input/output error (os error 5)\n\
         kettleplume: a.gr/e: the file can't be read: Not a directory (os error 20)\n",
    );
}

#[test]
fn one_bad_script_among_good_ones() {
    let folder = Folder::with(&[("a.gr", b"a b\n"), ("b.gr", b"b\n")]);
    let ran = folder.run(&["read", "a.gr", "b.gr"]);
    assert_eq!(ran.status, 1);
    assert!(ran.out.ends_with("\nb.gr: read, 1 statement, no errors\n"));
    assert_eq!(folder.run(&["read", "b.gr", "b.gr"]).status, 0);
}

#[test]
fn names_are_shown_in_one_safe_line() {
    let folder = Folder::new();
    let name = OsStr::from_bytes(b"Fl\xfb\x1b[2J\nte.gr");
    fs::write(folder.0.join(name), "a\n").expect("a script is written");
    let output = folder.command(&["read"]).arg(name).output();
    Ran::of(output.expect("the command runs")).is(
        0,
        "Fl\u{fffd}\\u{1b}[2J\\nte.gr: read, 1 statement, no errors\n",
        "",
    );
}

fn run_with_input(words: &[&str], input: &[u8]) -> Ran {
    let mut command = Folder::new().command(words);
    command.current_dir("/").stdin(Stdio::piped());
    command.stdout(Stdio::piped()).stderr(Stdio::piped());
    let mut child = command.spawn().expect("the command runs");
    let mut stdin = child.stdin.take().expect("it has an input");
    stdin.write_all(input).expect("it takes its input");
    drop(stdin);
    Ran::of(child.wait_with_output().expect("the command ends"))
}

#[test]
fn standard_input() {
    let ran = run_with_input(&["read", "-"], b"a b\n");
    let out = "standard input:1:3: Expected new line\n     1 | a b\n       |   ^\n\
               standard input: read, 2 statements, 1 error\n";
    ran.is(1, out, "");
    run_with_input(&["read", "--outline", "--", "-"], b"").is(0, "o 0 1 0 0 0\nt 0 0 0 1 1\n", "");
}

const USAGE: &str =
    "usage: kettleplume read [--rule N] [--go-on] [--outline] FILE...\n       kettleplume --help | --version\n";

#[test]
fn words_that_are_not_understood() {
    let folder = Folder::with(&[("a.gr", b"a\n")]);
    for (words, what) in [
        (&[][..], "a command is missing"),
        (&["write", "a.gr"], "there is no command 'write'"),
        (&["\x1b[2J"], "there is no command '\\u{1b}[2J'"),
        (&["read"], "a file to read is missing"),
        (&["read", "--outline"], "a file to read is missing"),
        (&["read", "--go-on"], "a file to read is missing"),
        (&["read", "--"], "a file to read is missing"),
        (&["read", "--rule"], "the number after --rule is missing"),
        (&["read", "--rule", "2"], "a file to read is missing"),
        (
            &["read", "--rule", "3", "a.gr"],
            "there is no rule '3', only 1 and 2",
        ),
        (
            &["read", "--rule", "a.gr"],
            "there is no rule 'a.gr', only 1 and 2",
        ),
        (
            &["read", "--rule=02", "a.gr"],
            "there is no rule '02', only 1 and 2",
        ),
        (
            &["read", "--rule=", "a.gr"],
            "there is no rule '', only 1 and 2",
        ),
        (
            &["read", "--rules", "2", "a.gr"],
            "there is no option '--rules'",
        ),
        (&["read", "-o", "a.gr"], "there is no option '-o'"),
        (
            &["read", "a.gr", "--outlines"],
            "there is no option '--outlines'",
        ),
        (&["read", "-", "-"], "standard input can be read only once"),
    ] {
        let err = format!("kettleplume: {what}\n{USAGE}");
        folder.run(words).is(2, "", &err);
    }
}

#[test]
fn options_end_at_two_dashes() {
    let folder = Folder::with(&[("--outline", b"a\n"), ("--", b"b\n"), ("--rule", b"c\n")]);
    folder.run(&["read", "--", "--outline", "--", "--rule"]).is(
        0,
        "--outline: read, 1 statement, no errors\n--: read, 1 statement, no errors\n\
             --rule: read, 1 statement, no errors\n",
        "",
    );
}

#[test]
fn help_and_version() {
    let folder = Folder::new();
    let help = folder.run(&["--help"]);
    assert!(help.out.contains(USAGE), "{}", help.out);
    assert!(help.out.contains("\nExit status:\n  0  "), "{}", help.out);
    assert_eq!((help.status, help.err.as_str()), (0, ""));
    folder.run(&["read", "--help"]).is(0, &help.out, "");
    let version = concat!("kettleplume ", env!("CARGO_PKG_VERSION"), "\n");
    folder.run(&["--version"]).is(0, version, "");
}

#[test]
fn a_closed_pipe_ends_the_run_quietly() {
    // More than a pipe holds, so that the command meets its end.
    let script = "!\n".repeat(20_000);
    let folder = Folder::with(&[("a.gr", script.as_bytes())]);
    let mut command = folder.command(&["read", "a.gr", "a.gr"]);
    command.stdout(Stdio::piped()).stderr(Stdio::piped());
    let mut child = command.spawn().expect("the command runs");
    let mut out = child.stdout.take().expect("it has an output");
    let mut some = [0; 4];
    out.read_exact(&mut some).expect("it prints something");
    drop(out);
    let ran = Ran::of(child.wait_with_output().expect("the command ends"));
    assert_eq!(&some, b"a.gr");
    ran.is(2, "", "");
}

#[test]
fn a_full_disk_is_told() {
    let folder = Folder::with(&[("a.gr", b"a\n")]);
    let mut command = folder.command(&["read", "a.gr"]);
    let full = File::options().write(true).open("/dev/full");
    command.stdout(full.expect("there is a disk that is full"));
    Ran::of(command.output().expect("the command runs")).is(
        2,
        "",
        "kettleplume: the output can't be written: No space left on device (os error 28)\n",
    );
}

#[test]
fn many_files_without_progress_in_a_pipe() {
    let folder = Folder::new();
    let names: Vec<String> = (0..300).map(|n| format!("{n}.gr")).collect();
    for (n, name) in names.iter().enumerate() {
        fs::write(folder.0.join(name), "a\n\n".repeat(n)).expect("a script is written");
    }
    let words: Vec<&str> = names.iter().map(String::as_str).collect();
    let ran = folder.run(&[&["read"], &words[..]].concat());
    assert_eq!(ran.err, "");
    let outcomes = ran.out.lines().filter(|line| line.contains(".gr: read, "));
    let shown: Vec<&str> = outcomes.filter_map(|l| l.split(':').next()).collect();
    assert_eq!(shown, words);
}

extern "C" {
    fn posix_openpt(flags: c_int) -> c_int;
    fn unlockpt(terminal: c_int) -> c_int;
    fn ptsname_r(terminal: c_int, name: *mut c_char, room: usize) -> c_int;
}

/// Both ends of a terminal: what a command prints at the second is read at the first.
fn terminal() -> (File, File) {
    const O_RDWR: c_int = 2;
    let mut name = [0u8; 64];
    // The room is the buffer's, and the first end is nobody else's.
    let first = unsafe {
        let first = posix_openpt(O_RDWR);
        assert!(first >= 0, "a terminal is opened");
        let first = File::from_raw_fd(first);
        assert_eq!(unlockpt(first.as_raw_fd()), 0);
        let named = ptsname_r(first.as_raw_fd(), name.as_mut_ptr().cast(), name.len());
        assert_eq!(named, 0);
        first
    };
    let name = name.split(|b| *b == 0).next().expect("there is a name");
    let second = File::options().write(true).open(OsStr::from_bytes(name));
    (first, second.expect("the second end is opened"))
}

/// What a command prints on a terminal at standard error; its output goes elsewhere.
fn on_terminal(mut command: Command) -> String {
    let (mut first, second) = terminal();
    command.stdout(Stdio::null()).stderr(second);
    command.status().expect("the command runs");
    // It has the second end too.
    drop(command);
    let mut shown = vec![];
    // Where the second end is gone, reading the first ends with an error.
    let end = first.read_to_end(&mut shown);
    assert!(end.is_err(), "the second end is still open");
    String::from_utf8(shown).expect("what is printed is text")
}

#[test]
fn progress_on_a_terminal() {
    let folder = Folder::with(&[("a.gr", b"a\n"), ("b.gr", b"b c\n")]);
    let cleared = format!("\r{:79}\r", "");
    let shown = on_terminal(folder.command(&["read", "a.gr", "missing.gr", "b.gr"]));
    // A terminal ends lines with a carriage return and a new line.
    let expected = format!(
        "reading 1 of 3: a.gr{cleared}reading 2 of 3: missing.gr{cleared}\
         kettleplume: missing.gr: there is no such file\r\nreading 3 of 3: b.gr{cleared}"
    );
    assert_eq!(shown, expected);
    assert_eq!(on_terminal(folder.command(&["read", "a.gr"])), "");
}

fn repository() -> PathBuf {
    Path::new(env!("CARGO_MANIFEST_DIR")).join("..")
}

fn outline(file: &Path) -> String {
    let file = file.to_str().expect("the path is text");
    let ran = Folder::new().run(&["read", "--outline", file]);
    assert_eq!(ran.err, "");
    let clean = ran.out.starts_with("o 0 ") && !ran.out.contains("\ne ");
    assert_eq!(ran.status, i32::from(!clean));
    ran.out
}

/// The scripts of a folder of the repository, in the order of their names.
fn scripts(folder: &str) -> Vec<PathBuf> {
    let folder = fs::read_dir(repository().join(folder)).expect("the folder is there");
    let paths = folder.map(|entry| entry.expect("an entry").path());
    let mut scripts: Vec<PathBuf> = paths
        .filter(|path| path.extension().is_some_and(|e| e == "gr"))
        .collect();
    scripts.sort();
    assert!(!scripts.is_empty());
    scripts
}

#[test]
fn outlines_of_the_examples() {
    for script in scripts("examples") {
        let expected = fs::read_to_string(script.with_extension("outline"));
        assert_eq!(outline(&script), expected.expect("the outline is there"));
    }
}

#[test]
fn outlines_of_several_files() {
    let folder = Folder::with(&[("a.gr", b"a = 1\n"), ("b.gr", b""), ("c.gr", b"\xff")]);
    let worked = "o 0 5 0 4 4\nt 25 0 1 1 1\nt 19 2 1 1 1\nt 27 4 1 1 1\nt 1 5 1 2 1\nt 0 6 0 2 2\n\
                  n 2 1 0 0 0 0 0 0 0\nn 13 3 0 0 0 0 0 0 0\nn 5 1 0 0 2 0 0 0 0\nn 30 3 0 0 3 0 0 0 0\n";
    folder
        .run(&["read", "--outline", "a.gr", "b.gr", "x", "c.gr"])
        .is(
            2,
            &format!("f a.gr\n{worked}f b.gr\no 0 1 0 0 0\nt 0 0 0 1 1\nf c.gr\no 3 0 0 0 0\n"),
            "kettleplume: x: there is no such file\n",
        );
    folder.run(&["read", "a.gr", "--outline"]).is(0, worked, "");
}

/// What the proved program prints for stored scripts, each outcome from 0 to 8 among them. Where its
/// rooms were too small (4 to 7) the command prints the whole.
#[test]
fn outlines_of_the_proved_program() {
    let printed = fs::read_to_string(repository().join("crates/outcomes/stdout"));
    let printed = printed.expect("the file is there");
    let ends = printed.match_indices("\no ").map(|(at, _)| at + 1);
    let cuts: Vec<usize> = [0].into_iter().chain(ends).chain([printed.len()]).collect();
    let scripts = scripts("crates/outcomes/data");
    assert_eq!(cuts.len() - 1, scripts.len());
    let mut equal = 0;
    for (script, cut) in scripts.iter().zip(cuts.windows(2)) {
        let (ours, theirs) = (outline(script), &printed[cut[0]..cut[1]]);
        if ["o 4", "o 5", "o 6", "o 7"].contains(&&theirs[..3]) {
            assert!(ours.len() > theirs.len(), "{}", script.display());
        } else {
            assert_eq!(ours, theirs);
            equal += 1;
        }
    }
    assert_eq!((equal, scripts.len()), (17, 22));
}

/// What the program `outline` prints, by its rooms, or nothing where one of them is too small.
fn within_rooms(script: &[u8]) -> Option<String> {
    let (mut tokens, mut errors, mut nodes, mut index) = (
        [0; TOKEN_WORDS * 2048],
        [0; ERROR_WORDS * 256],
        [0; NODE_WORDS * 1600],
        [0; INDEX_WORDS * 2048],
    );
    let answer = border::read(
        rule::ONE,
        way::GO_ON,
        script,
        &mut tokens,
        &mut errors,
        &mut nodes,
        &mut index,
    );
    if script.len() > 4096 || (outcome::TOKEN_ROOM..=outcome::NODE_ROOM).contains(&answer.outcome) {
        return None;
    }
    let Answer {
        outcome,
        tokens: t,
        errors: e,
        nodes: n,
        first,
        ..
    } = answer;
    let mut lines = vec![format!("o {outcome} {t} {e} {n} {first}")];
    let mut table = |letter: &str, words: &[u32], width: usize, shown: &[usize], count: u32| {
        for record in words.chunks(width).take(count as usize) {
            let words: Vec<String> = shown.iter().map(|word| record[*word].to_string()).collect();
            lines.push(format!("{letter} {}", words.join(" ")));
        }
    };
    // The line where a token begins, its last word, stands after its line.
    table("t", &tokens, TOKEN_WORDS, &[0, 1, 2, 3, 7], t);
    table("e", &errors, ERROR_WORDS, &[0, 1, 2], e);
    table("n", &nodes, NODE_WORDS, &[0, 1, 2, 3, 4, 5, 6, 7, 8], n);
    Some(lines.join("\n") + "\n")
}

#[test]
fn outlines_on_both_sides_of_the_rooms() {
    let sum = |names: usize| vec!["a"; names].join("+");
    for (script, beyond) in [
        ("a".repeat(4096), "a".repeat(4097)),
        ("$".repeat(256), "$".repeat(257)),
        ("break\n".repeat(256), "break\n".repeat(257)),
        // New line and EOF are tokens too.
        ("+".repeat(2046), "+".repeat(2047)),
        // A statement of a sum is twice as many nodes as it has names.
        (sum(800), sum(801)),
    ] {
        let folder = Folder::with(&[("a.gr", script.as_bytes()), ("b.gr", beyond.as_bytes())]);
        let ours = outline(&folder.0.join("a.gr"));
        assert_eq!(Some(ours), within_rooms(script.as_bytes()));
        assert_eq!(within_rooms(beyond.as_bytes()), None);
        let answer = outline(&folder.0.join("b.gr"));
        let answer = answer.lines().next().expect("there is an answer");
        assert!(
            answer.starts_with("o 0 ") || answer.starts_with("o 1 "),
            "{answer}"
        );
    }
}
