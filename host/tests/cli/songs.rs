//! What is said of a song: its length, notices and places.
use crate::common::{own, quiet, told};

/// Cells with these effects, one a row on channel 1: 0xE62 is effect E with 6 and 2.
fn effects(rows: &[u16]) -> Vec<u8> {
    let cell = |effect: &u16| {
        let [high, low] = effect.to_be_bytes();
        [0, 0, high, low, 0, 0, 0, 0, 0, 0, 0, 0, 0, 0, 0, 0]
    };
    rows.iter().flat_map(cell).collect()
}

/// The line of `info --plain` that says how long a song plays.
fn lasting(module: &str) -> String {
    let (status, out, _) = told(&["info", "--plain", module]);
    assert_eq!(status, 0);
    out.lines().nth(3).unwrap().into()
}

#[test]
fn a_song_is_as_long_as_it_takes_to_come_back() {
    for (rows, line) in [
        // 64 rows of 6 ticks, 960 frames each.
        (&[][..], "384 368640 0 0"),
        // Speed 3; a row twice more; four times as long; and back to the second row.
        (&[0xF03, 0xE60, 0xE62, 0xEE3, 0xD01], "36 34560 0 1"),
        // A tempo for the next pass is another sound, and no other place: 5,760 frames and (120,000 × 12) div 255.
        (&[0, 0xFFF, 0xB00], "18 11407 0 0"),
    ] {
        assert_eq!(
            lasting(&quiet("lasting.mod", &effects(rows))),
            line,
            "{rows:x?}"
        );
    }
}

#[test]
fn once_plays_until_then() {
    let module = &quiet("once.mod", &effects(&[0xF03, 0xE60, 0xE62, 0xEE3, 0xD01]));
    let words = ["play", module, "--once", "--out", "once.raw", "--plain"];
    assert_eq!(told(&words), (0, "0 0 36\n".into(), String::new()));
    assert_eq!(std::fs::read(own("once.raw")).unwrap().len(), 34_560 * 4);
    let words = [
        "translate",
        module,
        "--once",
        "--out",
        "once.stream",
        "--plain",
    ];
    assert_eq!(told(&words).1, "0 0 82\n");
    assert_eq!(
        told(&["compare", module, "--once", "--plain"]).1,
        "0 0 36\n"
    );
    let words = [
        "play", module, "--once", "--ticks", "1", "--out", "once.raw",
    ];
    assert!(told(&words).2.contains("exclude each other"));
}

#[test]
fn a_song_that_does_not_come_back_is_said() {
    // Every row takes 31 * 16 ticks, and the pattern is played 128 times: four million.
    let mut rows = [0xEEF; 64];
    rows[0] = 0xF1F;
    let module = quiet("endless.mod", &effects(&rows));
    let mut file = std::fs::read(&module).unwrap();
    file[950] = 128;
    std::fs::write(&module, file).unwrap();
    assert_eq!(lasting(&module), "- - - -");
    let (status, out, err) = told(&["play", &module, "--once", "--out", "endless.raw"]);
    assert_eq!((status, out.as_str()), (2, ""));
    assert!(
        err.contains("does not come back to a place within 1000000 ticks"),
        "{err}"
    );
}

/// A module of two patterns, of which the first is played twice, with finetuned sample 2, and E5 after its note.
fn asking(name: &str) -> String {
    let module = quiet(name, &[]);
    let mut file = std::fs::read(&module).unwrap();
    file.resize(1084 + 3 * 1024, 0);
    // Pattern 1 is played before 0, and 2 never.
    (file[950], file[952], file[954], file[955]) = (3, 1, 1, 2);
    file[20 + 30 + 24] = 0xF3;
    for (pattern, row, channel, cell) in [
        (0, 9, 1, [0, 0, 0x08, 0x11]),
        (1, 12, 3, [0, 0, 0x08, 0]),
        (1, 12, 2, [0, 0, 0x0E, 0xD3]),
        (1, 13, 0, [1, 0xAC, 0x20, 0]),
        (1, 14, 0, [0, 0, 0x0E, 0x93]),
        (1, 15, 0, [0, 0, 0x0E, 0x53]),
        (2, 0, 0, [0, 0, 0x0E, 0x03]),
    ] {
        file[1084 + 1024 * pattern + 16 * row + 4 * channel..][..4].copy_from_slice(&cell);
    }
    std::fs::write(&module, file).unwrap();
    module
}

#[test]
fn notes_say_what_does_nothing() {
    let name = &asking("asking.mod");
    let lines = [
        "effect 8 (panning) does nothing: 2 cells, first in pattern 1, row 12, channel 4",
        "effect ED (note delay) does nothing: 1 cell, first in pattern 1, row 12, channel 3",
    ];
    let (status, out, _) = told(&["judge", "--notes", name]);
    let all: String = lines.map(|line| format!("{name}: {line}\n")).concat();
    assert_eq!((status, out), (0, format!("{name}: accepted\n{all}")));
    let (_, out, _) = told(&["info", name]);
    assert!(out.ends_with(&(lines.join("\n") + "\n")), "{out}");
    let (_, out, _) = told(&["judge", "--notes", "--plain", name]);
    let notes = format!("note 8 2 1 12 4 {name}\nnote ED 1 1 12 3 {name}\n");
    assert!(out.starts_with(&format!("0 0 0 {name}\n{notes}")), "{out}");
    assert_eq!(told(&["judge", name]).1, format!("{name}: accepted\n"));
}

#[test]
fn notes_say_what_other_players_do_otherwise() {
    let [stop, loops, loop_start, speed] = [0xF00, 0xE62, 0xE60, 0xF06];
    // Two of E6 in row 0; F00 and E6 alone in row 1; three of E6 in row 2.
    let row = |effects: [u16; 4]| effects.map(|e| [0, 0, (e >> 8) as u8, e as u8]).concat();
    let cells = [
        row([0, loop_start, speed, loops]),
        row([stop, 0, loops, 0]),
        row([loops, loops, stop, loop_start]),
    ];
    let name = &quiet("otherwise.mod", &cells.concat());
    let lines = [
        "effect F00 (speed 0) sets speed 1; other players stop, or pass over it: 2 cells, first in pattern 0, row 1, channel 1",
        "effect E6 (pattern loop) stands twice in a row, with one count for the song; other players count by channel: 5 cells, \
            first in pattern 0, row 0, channel 2",
    ];
    let (status, out, _) = told(&["judge", "--notes", name]);
    let all: String = lines.map(|line| format!("{name}: {line}\n")).concat();
    assert_eq!((status, out), (0, format!("{name}: accepted\n{all}")));
    let (_, out, _) = told(&["judge", "--notes", "--plain", name]);
    let notes = format!("0 0 0 {name}\nnote F00 2 0 1 1 {name}\nnote E6 5 0 0 2 {name}\n");
    assert_eq!(out, notes);
    let alone = &quiet("alone.mod", &row([0, loops, speed, 0]));
    let (_, out, _) = told(&["judge", "--notes", alone]);
    assert_eq!(out, format!("{alone}: accepted\n"));
}

/// A change to a good file, and what its refusal says.
const PLACES: [(usize, &[u8], &str); 7] = [
    (
        1080,
        b"M!K!",
        "2 at 1080: the tag at byte 1080 is not M.K., 4CHN, 6CHN or 8CHN (tag M!K!)",
    ),
    (950, &[129], "3 at 950: the song length is 0 or above 128 (song length 129)"),
    (957, &[64], "4 at 957: a table entry is above 63 (entry 5, pattern 64)"),
    (105, &[65], "5 at 105: a sample's volume is above 64 (sample 3, volume 65)"),
    (
        106,
        &[0, 2, 0, 3],
        "6 at 106: a sample's loop leaves the sample (sample 3, bytes 0, loop start 4, loop length 6)",
    ),
    (
        1492,
        &[0x20, 0, 0, 0],
        "8 at 1492: a cell's sample number is above 31 (pattern 0, row 25, channel 3, sample 32)",
    ),
    (
        1484,
        &[3, 0x59, 0, 0],
        "9 at 1484: a cell's period is neither 0 nor 113 to 856 (pattern 0, row 25, channel 1, period 857)",
    ),
];

#[test]
fn a_refusal_says_what_stands_at_its_place() {
    let module = quiet("place.mod", &[]);
    let good = std::fs::read(&module).unwrap();
    for (at, bytes, line) in PLACES {
        let mut file = good.clone();
        file[at..][..bytes.len()].copy_from_slice(bytes);
        std::fs::write(&module, file).unwrap();
        let (status, out, _) = told(&["judge", &module]);
        assert_eq!((status, out), (1, format!("{module}: refused {line}\n")));
    }
}
