//! docs/RULES.md: every rule names the definitions that say it exactly, as `crate/specs/File.antt: name, name`, and each of them is there; and
//! its periods are those of the library's notes.
use lampthistle::{cell, fresh, play};
use std::path::Path;

fn root() -> &'static Path {
    Path::new(concat!(env!("CARGO_MANIFEST_DIR"), "/.."))
}

fn rules() -> String {
    std::fs::read_to_string(root().join("docs/RULES.md")).unwrap()
}

/// What stands between backquotes and names a file of definitions, on one line.
fn citations(text: &str) -> Vec<String> {
    let quoted = text.split('`').skip(1).step_by(2);
    quoted
        .filter(|words| words.contains(".antt"))
        .map(|words| words.split_whitespace().collect::<Vec<_>>().join(" "))
        .collect()
}

/// The public names that a file defines: `[abbrev|unfoldable] pub [record|data] NAME ..`.
fn defined(source: &str) -> Vec<&str> {
    let public = |line: &'_ str| line.split_whitespace().any(|word| word == "pub");
    let keywords = ["abbrev", "unfoldable", "pub", "record", "data"];
    source
        .lines()
        .filter(|line| public(line))
        .filter_map(|line| {
            line.split_whitespace()
                .find(|word| !keywords.contains(word))
        })
        .collect()
}

#[test]
fn every_citation_names_definitions_that_are_there() {
    let rules = rules();
    let all = citations(&rules.replace("`crate/specs/File.antt: name`", ""));
    assert!(all.len() > 50, "{} citations", all.len());
    let mut wrong = Vec::new();
    for citation in &all {
        let (file, names) = citation.split_once(": ").unwrap_or((citation, ""));
        let path = root().join("crates").join(file);
        let source = std::fs::read_to_string(path).unwrap_or_default();
        let there = defined(&source);
        let missing = names.split(", ").filter(|name| !there.contains(name));
        wrong.extend(missing.map(|name| format!("{file}: {name}")));
    }
    assert!(wrong.is_empty(), "not there:\n{}", wrong.join("\n"));
}

#[test]
fn every_rule_has_a_citation() {
    let rules = rules();
    let blocks = rules.split("\n\n");
    for block in blocks.skip_while(|block| !block.starts_with("## ")) {
        // Headings, and what leads to a table.
        if block.starts_with("## ") || block.ends_with(':') {
            continue;
        }
        for rule in rules_of(block) {
            assert!(!citations(rule).is_empty(), "without a citation:\n{rule}");
        }
    }
}

/// A table's rows below its head, and any other block whole.
fn rules_of(block: &str) -> Vec<&str> {
    if block.starts_with('|') {
        block.lines().skip(2).collect()
    } else {
        vec![block]
    }
}

/// The finetunes with their rows of periods.
fn rows_of_periods(rules: &str) -> Vec<(i32, Vec<u32>)> {
    let lines = rules
        .lines()
        .skip_while(|line| *line != "| Finetune | Periods | Definition |")
        .skip(2)
        .take_while(|line| line.starts_with('|'));
    lines
        .map(|line| {
            let parts: Vec<&str> = line.split('|').map(str::trim).collect();
            let periods = parts[2].split(' ').map(|period| period.parse().unwrap());
            (parts[1].parse().unwrap(), periods.collect())
        })
        .collect()
}

/// The period that sounds in the first tick of a note whose sample has this finetune.
fn sounded(finetune: i32, period: u32) -> u32 {
    let [.., high, low] = period.to_be_bytes();
    let mut file = vec![0; 1_084 + 1_024];
    (file[20 + 24], file[950]) = ((finetune & 15) as u8, 1);
    file[1080..1084].copy_from_slice(b"M.K.");
    file[1084..1087].copy_from_slice(&[high, low, 0x10]);
    let mut state = fresh();
    assert!(play(&file, &mut state, 1, &mut [0; 1_920]).is_accepted());
    state.0[cell::channel(0) + cell::VOICE_PERIOD]
}

#[test]
fn notes_have_the_periods_of_the_table() {
    let rows = rows_of_periods(&rules());
    let finetunes: Vec<i32> = rows.iter().map(|(finetune, _)| *finetune).collect();
    assert_eq!(finetunes, (0..8).chain(-8..0).collect::<Vec<_>>());
    let cells = rows[0].1.clone();
    for (finetune, periods) in rows {
        assert_eq!(periods.len(), 36, "{finetune}");
        let notes = cells.iter().map(|&period| sounded(finetune, period));
        assert_eq!(notes.collect::<Vec<_>>(), periods, "{finetune}");
    }
}
