//! The tables, in Markdown.

use std::fmt::Write as _;

use crate::clock::{Ours, Times};
use crate::original::Parts;
use crate::stack::Need;

/// All tables as docs/SPEED.md has them.
pub fn text(forms: &[Times], growing: &[Times], needs: &[Need]) -> String {
    let mut out = String::new();
    let parts = [
        ("The whole reading", whole(forms)),
        ("Lexing", lexing(forms)),
        ("Parsing", parsing(forms)),
        ("Clearing and dropping", clearing(forms)),
        ("How time grows", growth(growing)),
        ("Stack", stack(needs)),
    ];
    for (title, table) in parts {
        let _ = write!(out, "### {title}\n\n{table}\n");
    }
    out
}

fn table(head: &[&str], rows: impl Iterator<Item = Vec<String>>) -> String {
    let mut out = format!("| {} |\n|---|", head.join(" | "));
    out += &"---:|".repeat(head.len() - 1);
    out += "\n";
    for row in rows {
        let _ = writeln!(out, "| {} |", row.join(" | "));
    }
    out
}

/// Nanoseconds for each byte.
fn each(times: &Times, nanoseconds: f64) -> String {
    let each = nanoseconds / times.bytes;
    if each < 100.0 {
        format!("{each:.2}")
    } else {
        format!("{each:.0}")
    }
}

fn ratio(a: f64, b: f64) -> String {
    let ratio = a / b;
    if ratio < 10.0 {
        format!("{ratio:.2}")
    } else {
        format!("{ratio:.0}")
    }
}

/// What is said of a time of the original's, which may not have been taken.
fn timed(time: Option<f64>, say: impl FnOnce(f64) -> String) -> String {
    time.map_or("–".to_string(), say)
}

/// A part of the reading: the original's time, and how to get ours.
fn part(forms: &[Times], original: fn(&Parts) -> f64, ours: fn(&Ours) -> f64) -> String {
    let head = [
        "ns per byte",
        "original",
        "ours",
        "same text, rustc -O3",
        "original / ours",
        "same text / ours",
        "ours / plain scan",
    ];
    let rows = forms.iter().map(|times| {
        let theirs = times.original.as_ref().map(original);
        let (mine, same) = (ours(&times.library), ours(&times.same_text));
        vec![
            times.name.clone(),
            timed(theirs, |theirs| each(times, theirs)),
            each(times, mine),
            each(times, same),
            timed(theirs, |theirs| ratio(theirs, mine)),
            ratio(same, mine),
            ratio(mine, times.plain),
        ]
    });
    table(&head, rows)
}

fn whole(forms: &[Times]) -> String {
    part(forms, |original| original.whole, |ours| ours.needed)
}

fn lexing(forms: &[Times]) -> String {
    part(forms, |original| original.lexing, |ours| ours.lexing)
}

fn parsing(forms: &[Times]) -> String {
    part(forms, |original| original.parsing, Ours::parsing)
}

fn clearing(forms: &[Times]) -> String {
    let head = [
        "ns per byte",
        "bytes",
        "tokens",
        "ours, room for any script",
        "same text, so",
        "original / ours, so",
        "same text / ours, so",
        "original, dropping",
        "plain scan",
    ];
    let rows = forms.iter().map(|times| {
        let (mine, same) = (times.library.enough, times.same_text.enough);
        let original = times.original;
        vec![
            times.name.clone(),
            times.bytes.to_string(),
            times.tokens.to_string(),
            each(times, mine),
            each(times, same),
            timed(original.map(|o| o.whole), |theirs| ratio(theirs, mine)),
            ratio(same, mine),
            timed(original.map(|o| o.dropping), |theirs| each(times, theirs)),
            each(times, times.plain),
        ]
    });
    table(&head, rows)
}

fn growth(growing: &[Times]) -> String {
    let head = [
        "mixed script, whole",
        "bytes",
        "original, microseconds",
        "ours, microseconds",
        "with room for any script",
        "original, ns per byte",
        "ours, ns per byte",
        "original / ours",
    ];
    let rows = growing.iter().map(|times| {
        let theirs = times.original.map(|original| original.whole);
        let mine = times.library.needed;
        vec![
            times.name.clone(),
            times.bytes.to_string(),
            timed(theirs, |theirs| format!("{:.0}", theirs / 1e3)),
            format!("{:.1}", mine / 1e3),
            format!("{:.1}", times.library.enough / 1e3),
            timed(theirs, |theirs| each(times, theirs)),
            each(times, mine),
            timed(theirs, |theirs| ratio(theirs, mine)),
        ]
    });
    table(&head, rows)
}

fn stack(needs: &[Need]) -> String {
    let head = [
        "what opens a level",
        "how often",
        "smallest stack of a thread that reads it, KiB",
    ];
    let rows = needs.iter().map(|need| {
        vec![
            format!("`{}`", need.open.trim_end()),
            need.count.to_string(),
            need.size(),
        ]
    });
    table(&head, rows)
}
