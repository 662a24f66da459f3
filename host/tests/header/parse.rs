//! Reading the header and what is held to it, line by line.
use std::path::Path;

/// One name of an enum, without its prefix, with its number and its comment.
#[derive(Debug, PartialEq, Eq)]
pub struct Entry {
    pub name: String,
    pub number: u64,
    pub comment: String,
}

/// A file of the repository.
pub fn file(name: &str) -> String {
    let path = Path::new(env!("CARGO_MANIFEST_DIR")).join("..").join(name);
    std::fs::read_to_string(path).unwrap_or_else(|e| panic!("{name}: {e}"))
}

pub fn header() -> String {
    file("include/lampthistle.h")
}

/// The entries of an enum in their order; lines that are comments alone are left out.
pub fn entries(name: &str) -> Vec<Entry> {
    let header = header();
    let (_, from) = header.split_once(&format!("enum {name} {{\n")).unwrap();
    let (body, _) = from.split_once("};").unwrap();
    let mut entries: Vec<Entry> = Vec::new();
    for line in body.lines().map(str::trim) {
        if let Some(line) = line.strip_prefix("LAMPTHISTLE_") {
            let next = entries.last().map_or(0, |entry| entry.number + 1);
            entries.push(entry(line, next));
        }
    }
    entries
}

/// NAME [= NUMBER][,] [/* COMMENT */]; without a number it is the next.
fn entry(line: &str, next: u64) -> Entry {
    let (line, comment) = line.split_once("/*").unwrap_or((line, ""));
    let line = line.trim().trim_end_matches(',');
    let (name, number) = match line.split_once(" = ") {
        Some((name, number)) => (name, number.parse().unwrap()),
        None => (line, next),
    };
    Entry {
        name: name.into(),
        number,
        comment: comment.trim_end_matches("*/").trim().into(),
    }
}

/// The refusals: their names without REFUSED_.
pub fn refusals() -> Vec<Entry> {
    let all = entries("lampthistle_refusal").into_iter();
    all.filter_map(|entry| {
        let name = entry.name.strip_prefix("REFUSED_")?.into();
        Some(Entry { name, ..entry })
    })
    .collect()
}

/// The words of lampthistle_refusal_text for a name of the enum.
pub fn words(name: &str) -> String {
    let header = header();
    let case = format!("case LAMPTHISTLE_{name}:");
    let (_, from) = header.split_once(&case).unwrap_or_else(|| panic!("{case}"));
    from.split('"').nth(1).unwrap().into()
}

/// The number, or the text, of a #define.
pub fn defined(name: &str) -> String {
    let header = header();
    let start = format!("#define LAMPTHISTLE_{name} ");
    let line = header.lines().find_map(|line| line.strip_prefix(&start));
    line.unwrap().trim_matches('"').into()
}

/// The constants of a Rust file, each a number.
pub fn constants(name: &str) -> Vec<(String, u64)> {
    let source = file(name);
    let lines = source.lines().filter_map(|line| {
        let (name, rest) = line.strip_prefix("pub const ")?.split_once(": ")?;
        let (_, number) = rest.strip_suffix(';')?.split_once(" = ")?;
        Some((name.into(), number.replace('_', "").parse().ok()?))
    });
    lines.collect()
}
