//! The C header says what the crate says: the numbers, the structs and the functions.

use std::collections::BTreeMap;
use std::fs;
use std::mem::size_of;
use std::path::Path;

use kettleplume::border::{Answer, Decoded, Parser, Scanned};

fn text(file: &str) -> String {
    let file = Path::new(env!("CARGO_MANIFEST_DIR")).join(file);
    fs::read_to_string(file).expect("the file is there")
}

fn header() -> String {
    text("include/kettleplume.h")
}

/// What stands from a text up to another one.
fn between<'a>(text: &'a str, from: &str, to: &str) -> &'a str {
    let start = text.find(from).unwrap_or_else(|| panic!("no {from:?}")) + from.len();
    let end = text[start..]
        .find(to)
        .unwrap_or_else(|| panic!("no {to:?}"));
    &text[start..start + end]
}

/// The constants that stand in some lines of Rust, each with a word before its name.
fn constants(rust: &str, before: &str) -> BTreeMap<String, usize> {
    let lines = rust
        .lines()
        .filter_map(|line| line.trim().strip_prefix("pub const "));
    lines
        .filter_map(|line| {
            let (name, rest) = line.split_once(": ")?;
            let number = rest
                .split_once(" = ")?
                .1
                .strip_suffix(';')?
                .replace('_', "");
            Some((format!("KETTLEPLUME_{before}{name}"), number.parse().ok()?))
        })
        .collect()
}

#[test]
fn the_numbers_are_the_crates() {
    let records = text("src/records.rs");
    let module = |name: &str| between(&records, &format!("pub mod {name} {{"), "\n}");
    let mut expected = constants(between(&records, "", "pub mod"), "");
    expected.extend(constants(module("outcome"), ""));
    expected.extend(constants(module("rule"), "RULE_"));
    expected.extend(constants(module("way"), "WAY_"));
    assert_eq!(expected.len(), 5 + 15 + 2 + 2);

    let header = header();
    let defined = header.lines().filter_map(|line| {
        let mut words = line.strip_prefix("#define ")?.split_whitespace();
        Some((words.next()?.to_string(), words.next()?.parse().ok()?))
    });
    assert_eq!(defined.collect::<BTreeMap<String, usize>>(), expected);
}

/// A field or parameter of Rust: its name and its type.
fn of_rust(text: &str) -> [String; 2] {
    let (name, kind) = text.split_once(": ").expect("a name and a type");
    [name.to_string(), kind.to_string()]
}

/// A field or parameter of C, in Rust's words.
fn of_c(c: &str) -> [String; 2] {
    let at = c.rfind([' ', '*']).expect("a type and a name") + 1;
    let kind = match c[..at].trim() {
        "uint32_t" => "u32",
        "size_t" => "usize",
        "const uint8_t *" => "*const u8",
        "uint8_t *" => "*mut u8",
        "uint32_t *" => "*mut u32",
        "kettleplume_parser *" => "*mut Parser",
        other => panic!("{other:?} is no type of the border"),
    };
    [c[at..].to_string(), kind.to_string()]
}

#[test]
fn the_structs_are_the_crates() {
    let (border, header) = (text("src/border.rs"), header());
    let sizes = [
        ("Answer", size_of::<Answer>()),
        ("Scanned", size_of::<Scanned>()),
        ("Decoded", size_of::<Decoded>()),
        ("Parser", size_of::<Parser>()),
    ];
    for (name, size) in sizes {
        let in_c = format!("kettleplume_{}", name.to_lowercase());
        let rust = between(&border, &format!("pub struct {name} {{"), "\n}");
        let rust = rust
            .lines()
            .filter_map(|line| line.trim().strip_prefix("pub "));
        let rust: Vec<_> = rust
            .map(|field| of_rust(field.trim_end_matches(',')))
            .collect();
        let c = between(&header, &format!("typedef struct {in_c} {{"), "\n}");
        let c = c
            .lines()
            .filter_map(|line| Some(line.split_once(';')?.0.trim()));
        assert!(!rust.is_empty());
        assert_eq!(c.map(of_c).collect::<Vec<_>>(), rust, "{name}");
        assert!(
            header.contains(&format!("KETTLEPLUME_SIZE({in_c}, {size});")),
            "{name}"
        );
    }
}

#[test]
fn the_functions_are_the_crates() {
    let (border, header) = (text("src/border.rs"), header());
    // The declarations in Rust are the last that name the functions.
    let declared = &border[border.find("extern \"C\" {").expect("the declarations")..];
    for (name, answer) in [
        ("read", "answer"),
        ("scan", "scanned"),
        ("decode", "decoded"),
        ("begin", "answer"),
        ("next", "answer"),
    ] {
        let rust = between(declared, &format!("kettleplume_{name}("), ")");
        let rust = rust.split(',').map(str::trim).filter(|p| !p.is_empty());
        let c = between(
            &header,
            &format!("kettleplume_{answer} kettleplume_{name}("),
            ");",
        );
        let c = c.split(',').map(|parameter| of_c(parameter.trim()));
        let rust = rust.map(of_rust);
        assert_eq!(c.collect::<Vec<_>>(), rust.collect::<Vec<_>>(), "{name}");
    }
}

/// As C99 and as C11, which also looks at the sizes.
#[test]
fn the_header_is_c() {
    for standard in ["-std=c99", "-std=c11"] {
        let output = std::process::Command::new("cc")
            .args([
                standard,
                "-Wall",
                "-Wextra",
                "-pedantic",
                "-Werror",
                "-fsyntax-only",
            ])
            .args([
                "-x",
                "c",
                concat!(env!("CARGO_MANIFEST_DIR"), "/include/kettleplume.h"),
            ])
            .output()
            .expect("a C compiler");
        assert!(
            output.status.success(),
            "{}",
            String::from_utf8_lossy(&output.stderr)
        );
    }
}
