//! The documents' tables.
use crate::parse::{defined, entries, file, refusals, words};

#[test]
fn formats_has_every_refusal() {
    let formats = file("docs/FORMATS.md");
    let rows = formats
        .lines()
        .skip_while(|line| *line != "| No. | Name | Means | Place |")
        .skip(2)
        .take_while(|line| line.starts_with('|'));
    let expected: Vec<String> = refusals()
        .iter()
        .map(|entry| {
            let (number, name) = (entry.number, &entry.name);
            let words = words(&format!("REFUSED_{name}"));
            format!("| {number} | `{name}` | {words} | {} |", entry.comment)
        })
        .collect();
    assert_eq!(rows.collect::<Vec<_>>(), expected);
}

#[test]
fn api_has_every_cause() {
    let api = file("docs/API.md");
    let rows = api
        .lines()
        .skip_while(|line| *line != "| No. | Name | Means | Holds where |")
        .skip(2)
        .take_while(|line| line.starts_with('|'));
    let expected: Vec<String> = entries("lampthistle_cause")
        .iter()
        .map(|entry| {
            let (number, name) = (entry.number, entry.name.strip_prefix("CAUSE_").unwrap());
            let words = words(&entry.name);
            format!("| {number} | `{name}` | {words} | {} |", entry.comment)
        })
        .collect();
    assert_eq!(rows.collect::<Vec<_>>(), expected);
}

/// The table gives where each line's cells begin, and their names.
#[test]
fn api_has_every_cell() {
    let api = file("docs/API.md");
    for (heading, name) in [
        ("| Cells | A song's |", "lampthistle_cell"),
        ("| Cells | A channel's |", "lampthistle_channel_cell"),
    ] {
        let mut expected = entries(name);
        // The last name of each enum is an end, not a cell.
        expected.pop();
        let rows = api.lines().skip_while(|line| *line != heading).skip(2);
        let mut found = Vec::new();
        for row in rows.take_while(|line| line.starts_with('|')) {
            let mut parts = row.split('|').map(str::trim).skip(1);
            let first: u64 = parts
                .next()
                .unwrap()
                .split(' ')
                .next()
                .unwrap()
                .parse()
                .unwrap();
            let names = parts.next().unwrap().split(", ");
            found.extend(names.zip(first..).map(|(cell, k)| (cell.to_string(), k)));
        }
        let expected = expected
            .iter()
            .map(|entry| (entry.name.to_lowercase().replace('_', " "), entry.number));
        assert_eq!(found, expected.collect::<Vec<_>>());
    }
}

#[test]
fn api_says_the_header_s_limits() {
    let api = file("docs/API.md");
    assert!(api.contains(&format!("{} numbers of 32 bits", defined("STATE_CELLS"))));
    let kib = |limit: &str| defined(limit).parse::<u64>().unwrap() / 1_024;
    let (stack, floats) = (kib("STACK_BYTES"), kib("FLOAT_STACK_BYTES"));
    assert!(api.contains(&format!("{stack} KiB of stack")));
    assert!(api.contains(&format!("one that plays floats {floats} KiB")));
}

/// Above it only a version to come may stand, marked so.
#[test]
fn the_changelog_begins_with_this_version() {
    let changelog = file("CHANGELOG.md");
    let mut headings = changelog
        .lines()
        .filter_map(|line| line.strip_prefix("## "));
    let first = headings.find(|heading| !heading.ends_with(", to come"));
    let version = first.and_then(|heading| heading.split(' ').next());
    assert_eq!(version, Some(env!("CARGO_PKG_VERSION")));
}

/// Names of papers that a reader has not stand only beside words that say what they are.
#[test]
fn terms_of_papers_are_explained() {
    for name in [
        "README.md",
        "docs/API.md",
        "docs/FORMATS.md",
        "docs/TESTING.md",
    ] {
        let text = file(name);
        assert!(!text.contains("demand "), "{name}");
        assert_eq!(
            text.contains("P1 to P14"),
            text.contains("worked cases"),
            "{name}"
        );
        let described = text.contains("the description");
        assert!(
            !described || text.contains("customer's paper"),
            "{name}: which description?"
        );
    }
    assert!(file("docs/RULES.md").contains("cases/specs/Cases.antt: p14"));
}

#[test]
fn the_readme_says_the_versions_that_build_it() {
    let (readme, package) = (file("README.md"), file("host/Cargo.toml"));
    let (_, version) = package.split_once("rust-version = \"").unwrap();
    let version = version.split('"').next().unwrap();
    assert!(readme.contains(&format!("Rust {version} or newer")));
    assert!(readme.contains("rattle-kit-"));
}
