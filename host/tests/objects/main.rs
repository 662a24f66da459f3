//! docs/FORMATS.md has every key of the objects that --json prints, with the kind of its value, and no other.
mod json;
mod printed;

use printed::{objects, odd_module, printed, root, EFFECTS};
use std::collections::{BTreeMap, BTreeSet};
use std::ffi::OsStr;
use std::os::unix::ffi::OsStrExt;

/// A part of the document's tables: the kinds that a key's value may have.
type Table = BTreeMap<String, BTreeSet<String>>;

/// The tables by their headings.
fn tables() -> BTreeMap<String, Table> {
    let formats = std::fs::read_to_string(root().join("docs/FORMATS.md")).unwrap();
    let (_, section) = formats.split_once("\n## Objects\n").unwrap();
    let section = section.split("\n## ").next().unwrap();
    let mut tables = BTreeMap::new();
    for part in section.split("\n### ").skip(1) {
        let (heading, text) = part.split_once('\n').unwrap();
        let rows = text.lines().filter_map(|line| line.strip_prefix("| `"));
        let table = rows.map(|row| {
            let (key, rest) = row.split_once("` | ").unwrap();
            let kinds = rest.split(" | ").next().unwrap();
            (key.into(), kinds.split(" or ").map(String::from).collect())
        });
        tables.insert(heading.into(), table.collect());
    }
    tables
}

#[test]
fn every_key_is_in_the_tables_and_every_row_is_met() {
    let tables = tables();
    let mut unmet: BTreeSet<[String; 3]> = BTreeSet::new();
    for (heading, table) in &tables {
        assert!(!table.is_empty(), "{heading}");
        for (key, kinds) in table {
            let rows = kinds
                .iter()
                .map(|kind| [heading, key, kind].map(String::clone));
            unmet.extend(rows);
        }
    }
    for (headings, object) in objects() {
        for (key, kind) in json::keys(object) {
            let found = headings.iter().find(|heading| {
                let kinds = tables[**heading].get(&key);
                kinds.is_some_and(|kinds| kinds.contains(kind))
            });
            let heading =
                found.unwrap_or_else(|| panic!("{key}, {kind}: not in {headings:?}: {object}"));
            unmet.remove(&[heading, key.as_str(), kind].map(String::from));
        }
    }
    assert!(unmet.is_empty(), "never printed: {unmet:?}");
}

#[test]
fn every_object_says_its_schema_first() {
    for (_, object) in objects() {
        assert!(object.starts_with("{\"schema\":1,\"file\":\""), "{object}");
    }
}

/// The bytes that an object has under a key, in hexadecimal.
fn bytes(object: &str, key: &str) -> Vec<u8> {
    let (_, from) = object.split_once(&format!("\"{key}\":\"")).expect(object);
    let digits = from.split('"').next().unwrap().as_bytes();
    let digit = |k: usize| char::from(digits[k]).to_digit(16).unwrap() as u8;
    (0..digits.len() / 2)
        .map(|k| 16 * digit(2 * k) + digit(2 * k + 1))
        .collect()
}

#[test]
fn names_come_back_exactly() {
    let module = odd_module();
    let file = std::fs::read(&module).unwrap();
    let [object] = &printed(&[OsStr::new("info"), module.as_os_str()])[..] else {
        panic!("one object");
    };
    assert_eq!(bytes(object, "file_bytes"), module.as_os_str().as_bytes());
    assert_eq!(bytes(object, "title_bytes"), file[..20]);
    assert_eq!(bytes(object, "name_bytes"), file[20..42]);
    assert!(object.contains("\"title\":\".[31m.\""), "{object}");
    let [plain] = &printed(&["info", EFFECTS])[..] else {
        panic!("one object");
    };
    assert!(!plain.contains("_bytes"), "{plain}");
}
