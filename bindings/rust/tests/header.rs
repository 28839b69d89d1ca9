//! Holds three texts together: include/ponds.h, src/sys.rs of this crate, and the functions of crates/ponds that the archive
//! exports. Each function has to stand in all three with parameters of the same names and types, in the same order, with the
//! same lengths of arrays. Nothing but this says that a caller and the archive mean the same: a linker knows names alone.

use std::collections::BTreeMap;
use std::path::{Path, PathBuf};

fn root() -> PathBuf {
    Path::new(env!("CARGO_MANIFEST_DIR")).join("../..")
}

fn text(path: &str) -> String {
    std::fs::read_to_string(root().join(path)).expect(path)
}

/// Every file of Rattle of a crate, one behind the other.
fn source(name: &str) -> String {
    let folder = std::fs::read_dir(root().join("crates").join(name).join("src")).expect(name);
    let mut files: Vec<PathBuf> = folder.map(|file| file.unwrap().path()).collect();
    files.sort();
    let texts = files
        .iter()
        .map(|file| std::fs::read_to_string(file).unwrap());
    texts.collect()
}

/// Parameters as `file const u8 *` for one that is only read, `links u32 [98]` for an array that is written, `usize` for a length,
/// whatever its name.
type Functions = BTreeMap<String, Vec<String>>;

/// The text without the C comments in it.
fn without_comments(text: &str) -> String {
    let mut parts = text.split("/*");
    let first = parts.next().unwrap_or("").to_string();
    let rest = parts.map(|part| part.split_once("*/").expect("a comment ends").1);
    rest.fold(first, |all, part| all + part)
}

/// The names with their values: `NAME = 12` of the header.
fn constants(header: &str) -> BTreeMap<String, usize> {
    let pairs = header
        .split([',', '{', '}', ';'])
        .filter_map(|item| item.split_once('='));
    let pairs = pairs.filter_map(|(name, value)| Some((name.trim(), value.trim().parse().ok()?)));
    let ours = pairs.filter(|(name, _)| name.starts_with("PONDS_"));
    ours.map(|(name, value)| (name.to_string(), value))
        .collect()
}

/// What stands between the bracket that opens behind each `before` and its end, with the name before it.
fn between<'a>(text: &'a str, before: &str) -> Vec<(&'a str, &'a str)> {
    let pieces = text.split(before).skip(1);
    let split = pieces.filter_map(|piece| piece.split_once('('));
    let calls = split.filter_map(|(name, rest)| Some((name.trim(), rest.split_once(')')?.0)));
    calls.collect()
}

/// The parameters of one list, without those that are empty.
fn parameters(list: &str) -> Vec<String> {
    let mut deep = 0;
    let cut = list.split(|c| {
        deep += i32::from(c == '[') - i32::from(c == ']');
        c == ',' && deep == 0
    });
    let words = cut.map(|one| one.split_whitespace().collect::<Vec<&str>>().join(" "));
    words.filter(|one| !one.is_empty()).collect()
}

fn rust_type(c: &str) -> &str {
    match c {
        "uint8_t" => "u8",
        "uint16_t" => "u16",
        "uint32_t" => "u32",
        "uint64_t" => "u64",
        "size_t" => "usize",
        _ => panic!("a type of the header that this test does not know: {c}"),
    }
}

/// A number that is passed by value.
fn number(name: &str, kind: &str) -> String {
    match kind {
        "usize" => kind.to_string(),
        _ => format!("{name} {kind}"),
    }
}

/// `const uint8_t *file`, `uint32_t links[PONDS_LINKS]`, `size_t length`.
fn of_header(one: &str, constants: &BTreeMap<String, usize>) -> String {
    let (constant, rest) = match one.strip_prefix("const ") {
        Some(rest) => ("const ", rest),
        None => ("", one),
    };
    let (kind, name) = rest.split_once(' ').expect("a type and a name");
    let kind = rust_type(kind);
    match (name.split_once('['), name.strip_prefix('*')) {
        (Some((name, length)), _) => {
            let length = constants[length.trim_end_matches(']')];
            format!("{name} {constant}{kind} [{length}]")
        }
        (None, Some(name)) => format!("{name} {constant}{kind} *"),
        (None, None) => number(name, kind),
    }
}

fn header() -> (Functions, BTreeMap<String, usize>) {
    let header = without_comments(&text("include/ponds.h"));
    let constants = constants(&header);
    let calls = between(&header, "\nuint64_t ");
    let one = |(name, list): (&str, &str)| {
        let types = parameters(list)
            .iter()
            .map(|p| of_header(p, &constants))
            .collect();
        (name.to_string(), types)
    };
    (calls.into_iter().map(one).collect(), constants)
}

/// The length of an array: a number, or a constant of this crate, which stands in the header with a prefix.
fn length(word: &str, constants: &BTreeMap<String, usize>) -> usize {
    word.parse()
        .unwrap_or_else(|_| constants[&format!("PONDS_{word}")])
}

/// `file: *const u8`, `links: *mut [u32; LINKS]`, `length: usize`.
fn of_crate(one: &str, constants: &BTreeMap<String, usize>) -> String {
    let (name, kind) = one.split_once(": ").expect("a name and a type");
    let (constant, rest) = if let Some(rest) = kind.strip_prefix("*const ") {
        ("const ", rest)
    } else if let Some(rest) = kind.strip_prefix("*mut ") {
        ("", rest)
    } else {
        return number(name, kind);
    };
    match rest.trim_matches(['[', ']']).split_once("; ") {
        Some((kind, n)) => format!("{name} {constant}{kind} [{}]", length(n, constants)),
        None => format!("{name} {constant}{rest} *"),
    }
}

/// A length that the libraries have under another name.
const LENGTHS: [(&str, &str); 1] = [("SHEET", "ROWS")];

/// What is handed back in numbers: the exported functions call each of them `room`.
const ROOMS: [&str; 6] = ["answer", "worst", "reply", "board", "verdict", "dropped"];

/// A parameter of the header, as the exported functions have it.
fn as_exported(one: &str) -> String {
    match one.split_once(' ') {
        Some((name, kind)) if ROOMS.contains(&name) => format!("room {kind}"),
        _ => one.to_string(),
    }
}

/// `file: &[u8]`, which crosses as two, `links: &mut [u32; LINKS]`, `projection: u32`.
fn of_source(one: &str, constants: &BTreeMap<String, usize>) -> Vec<String> {
    let (name, kind) = one.split_once(": ").expect("a name and a type");
    let (constant, rest) = if let Some(rest) = kind.strip_prefix("&mut ") {
        ("", rest)
    } else if let Some(rest) = kind.strip_prefix('&') {
        ("const ", rest)
    } else {
        return vec![number(name, kind)];
    };
    match rest.trim_matches(['[', ']']).split_once("; ") {
        Some((kind, word)) => {
            let named = LENGTHS.iter().find(|(theirs, _)| *theirs == word);
            let n = length(named.map_or(word, |(_, ours)| ours), constants);
            vec![format!("{name} {constant}{kind} [{n}]")]
        }
        None => vec![
            format!("{name} {constant}{} *", rest.trim_matches(['[', ']'])),
            "usize".to_string(),
        ],
    }
}

#[test]
fn the_crate_declares_what_the_header_does() {
    let (header, constants) = header();
    let sys = text("bindings/rust/src/sys.rs");
    let calls = between(&sys, "pub fn ");
    let one = |(name, list): (&str, &str)| {
        let types = parameters(list)
            .iter()
            .map(|p| of_crate(p, &constants))
            .collect();
        (name.to_string(), types)
    };
    let ours: Functions = calls.into_iter().map(one).collect();
    assert!(header.len() >= 13, "{header:?}");
    assert_eq!(ours, header);
}

#[test]
fn the_archive_exports_what_the_header_declares() {
    let (header, constants) = header();
    let source = source("ponds");
    let calls = between(&source, "pub extern \"C\" fn ");
    let one = |(name, list): (&str, &str)| {
        let types = parameters(list)
            .iter()
            .flat_map(|p| of_source(p, &constants))
            .collect();
        (name.to_string(), types)
    };
    let theirs: Functions = calls.into_iter().map(one).collect();
    let header: Functions = header
        .into_iter()
        .map(|(name, list)| (name, list.iter().map(|one| as_exported(one)).collect()))
        .collect();
    assert_eq!(theirs, header);
    let numbers = source.matches("-> u64\n").count();
    assert!(
        numbers >= header.len(),
        "a function answers something else than 64 bits"
    );
}

#[test]
fn the_constants_are_the_headers() {
    let (_, constants) = header();
    let ours = [
        ("PONDS_MOST_POINTS", ponds::MOST_POINTS),
        ("PONDS_MOST_RECORDS", ponds::MOST_RECORDS),
        ("PONDS_RECORD_BYTES", ponds::RECORD_BYTES),
        ("PONDS_MOST_FILE", ponds::MOST_FILE),
        ("PONDS_MOST_DAY", ponds::MOST_DAY),
        ("PONDS_MOST_CALENDAR", ponds::MOST_CALENDAR),
    ];
    for (name, value) in ours {
        assert_eq!(constants[name], value, "{name}");
    }
    // Those that are the crate's own are numbers of its source.
    let source = text("bindings/rust/src/lib.rs");
    for name in ["LINKS", "ROWS", "LIST", "KEPT", "REPLY", "BOARD"] {
        let line = source
            .lines()
            .find(|line| line.starts_with(&format!("const {name}: usize")));
        let value = line
            .unwrap()
            .split_once("= ")
            .unwrap()
            .1
            .replace(['_', ';'], "");
        assert_eq!(
            constants[&format!("PONDS_{name}")],
            value.parse().unwrap(),
            "{name}"
        );
    }
}
