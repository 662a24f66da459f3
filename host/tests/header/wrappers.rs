//! The Rust wrappers' names, words and limits.
use crate::parse::{constants, defined, entries, file, header, refusals, words, Entry};
use lampthistle::{
    same_cells, Answer, Cause, BOARD_CELLS, CHANNELS, MONO, MOST_TICKS, MOST_TOUCHES, RATE,
    STATE_CELLS, STEREO, TICK_NUMBERS, VERSION,
};

fn pairs(entries: Vec<Entry>) -> Vec<(String, u64)> {
    entries
        .into_iter()
        .map(|entry| (entry.name, entry.number))
        .collect()
}

#[test]
fn cells_have_the_header_s_names_and_numbers() {
    let mut all = pairs(entries("lampthistle_cell"));
    all.extend(pairs(entries("lampthistle_channel_cell")));
    assert!(all.len() > 20, "{all:?}");
    assert_eq!(constants("host/src/cell.rs"), all);
}

#[test]
fn refusals_have_the_header_s_names_and_numbers() {
    let all = pairs(refusals());
    assert!(all.len() > 10, "{all:?}");
    assert_eq!(constants("host/src/refusal.rs"), all);
}

#[test]
fn answers_have_the_header_s_words() {
    let answer = |number| Answer {
        number,
        place: 0,
        count: 0,
    };
    assert_eq!(answer(0).meaning(), words("ACCEPTED"));
    let known = refusals();
    for number in 1..=64 {
        let meaning = answer(number).meaning();
        match known.iter().find(|entry| entry.number == number) {
            Some(entry) => assert_eq!(meaning, words(&format!("REFUSED_{}", entry.name))),
            None => assert_eq!(meaning, "an unknown refusal", "{number}"),
        }
    }
}

#[test]
fn causes_have_the_header_s_names_numbers_and_words() {
    let all = entries("lampthistle_cause");
    assert_eq!(all.len(), Cause::ALL.len());
    for (entry, cause) in all.iter().zip(Cause::ALL) {
        let name = entry.name.strip_prefix("CAUSE_").unwrap();
        let joined = name.replace('_', "").to_lowercase();
        assert_eq!(format!("{cause:?}").to_lowercase(), joined);
        assert_eq!(cause.number(), entry.number);
        assert_eq!(cause.meaning(), words(&entry.name));
        assert_eq!(Cause::of(entry.number), Some(cause));
    }
    assert_eq!((Cause::of(0), Cause::of(7)), (None, None));
}

#[test]
fn limits_are_the_header_s() {
    assert_eq!(defined("RATE"), RATE.to_string());
    assert_eq!(defined("CHANNELS"), CHANNELS.to_string());
    assert_eq!(defined("STATE_CELLS"), STATE_CELLS.to_string());
    assert_eq!(defined("BOARD_CELLS"), BOARD_CELLS.to_string());
    assert_eq!(defined("TICK_NUMBERS"), TICK_NUMBERS.to_string());
    assert_eq!(defined("MOST_TICKS"), MOST_TICKS.to_string());
    assert_eq!(defined("MOST_TOUCHES"), MOST_TOUCHES.to_string());
    assert_eq!(defined("MONO"), MONO.to_string());
    assert_eq!(defined("STEREO"), STEREO.to_string());
}

#[test]
fn the_header_s_version_is_the_package_s() {
    let version = ["MAJOR", "MINOR", "PATCH"].map(|part| defined(&format!("VERSION_{part}")));
    assert_eq!(version.join("."), env!("CARGO_PKG_VERSION"));
    assert_eq!(defined("VERSION_TEXT"), env!("CARGO_PKG_VERSION"));
    let [major, minor, patch] = version.map(|part| part.parse::<u32>().unwrap());
    assert_eq!(VERSION, 1_000_000 * major + 1_000 * minor + patch);
    assert_eq!(lampthistle::version(), VERSION);
}

#[test]
fn states_are_kept_while_the_last_number_alone_changes() {
    let first = VERSION / 1_000 * 1_000;
    assert!(same_cells(VERSION) && same_cells(first) && same_cells(first + 999));
    assert!(!same_cells(first + 1_000) && !same_cells(first - 1));
}

#[test]
fn the_header_s_calls_are_the_wrappers_and_the_library_s() {
    fn called<'a>(text: &'a str, before: &str) -> Vec<&'a str> {
        let lines = text.lines().filter(|line| line.trim().starts_with(before));
        let mut names: Vec<&str> = lines
            .map(|line| line.split_once("lampthistle_").unwrap().1)
            .map(|rest| rest.split_once('(').unwrap().0)
            .collect();
        names.sort_unstable();
        names
    }
    let (header, wrappers) = (header(), file("host/src/sys.rs"));
    let library = file("crates/capi/src/lib.rt");
    let mut declared = called(&header, "void lampthistle_");
    declared.extend(called(&header, "uint32_t lampthistle_"));
    declared.sort_unstable();
    assert_eq!(called(&wrappers, "pub fn lampthistle_"), declared);
    let exported = called(&library, "pub extern \"C\" fn lampthistle_");
    assert_eq!(exported, declared);
}
