//! How two sounds differ: in how many frames and by how much, where first and last, and what may be the cause.
use crate::common::{command, own, said, stored, told};
use std::fs::File;

/// Ticks and frames of the sound that is compared, of a stored module at tempo 125.
const TICKS: u64 = 60;
const FRAMES: usize = 57_600;

fn module() -> String {
    stored("waves")
}

/// The numbers of the module's first ticks, left and right in turn.
fn numbers() -> Vec<i16> {
    let ticks = format!("--ticks={TICKS}");
    let output = command(&["play", &module(), &ticks, "--out", "-"]).output();
    let bytes = output.unwrap().stdout;
    let numbers = bytes
        .chunks_exact(2)
        .map(|b| i16::from_le_bytes([b[0], b[1]]));
    numbers.collect()
}

/// A recording of this name and these numbers.
fn written(name: &str, numbers: impl IntoIterator<Item = i16>) -> String {
    let bytes: Vec<u8> = numbers.into_iter().flat_map(i16::to_le_bytes).collect();
    let path = own(name);
    std::fs::write(&path, bytes).unwrap();
    path.to_str().unwrap().into()
}

/// Compares words that must differ, and gives the lines without the first's name.
fn differs(words: &[&str]) -> Vec<String> {
    let (status, out, err) = told(&[&["compare"], words].concat());
    assert_eq!((status, out.as_str()), (1, ""), "{words:?}: {err}");
    let start = format!("lampthistle: {}: ", words[0]);
    let line = |line: &str| line.strip_prefix(&start).expect(&err).to_string();
    err.lines().map(line).collect()
}

fn equal(words: &[&str]) -> String {
    let (status, out, err) = told(&[&["compare"], words].concat());
    assert_eq!((status, err.as_str()), (0, ""), "{words:?}");
    out
}

/// The hints on a recording of the module.
fn hints(recording: &str) -> Vec<String> {
    let lines = differs(&[&module(), recording]);
    let hints = lines.iter().filter_map(|line| line.strip_prefix("hint: "));
    hints.map(|hint| hint.replace(recording, "X")).collect()
}

#[test]
fn the_module_is_loud_on_both_sides_and_long_enough() {
    let numbers = numbers();
    assert_eq!(numbers.len(), 2 * FRAMES);
    for side in [0, 1] {
        assert!(numbers
            .iter()
            .skip(side)
            .step_by(2)
            .any(|&n| n.abs() > 1_000));
    }
}

#[test]
fn differing_frames_are_counted_and_placed() {
    let mut numbers = numbers();
    for (frame, side, by) in [
        (1_923, 1, 3),
        (2_000, 0, -7),
        (20_000, 0, 5),
        (20_000, 1, 6),
    ] {
        numbers[2 * frame + side] += by;
    }
    let other = &written("hints_counted.raw", numbers);
    let lines = differs(&[&module(), other]);
    // A tick has 960 frames, and a row four ticks.
    let first =
        "DIFFERENT: tick 2 (position 0, row 0), frame 3 (1923 from the beginning), right: player ";
    assert!(lines[0].starts_with(first), "{lines:?}");
    let last = "tick 20 (position 0, row 5), frame 800 (20000 from the beginning)";
    assert_eq!(
        lines[1],
        format!("differing frames: 3 of {FRAMES}, by 7 at most; last at {last}")
    );
    assert_eq!(lines.len(), 2);
    let (status, out, _) = told(&["compare", &module(), other, "--json"]);
    assert_eq!(status, 1);
    for part in [
        "\"differing_frames\":3,\"largest_difference\":7,",
        "\"last\":{\"tick\":20,\"position\":0,\"row\":5,\"frame\":800,\"from_beginning\":20000}",
    ] {
        assert!(out.contains(part), "{out}");
    }
}

#[test]
fn simple_causes_are_hints() {
    let numbers = numbers();
    let frames = || numbers.chunks_exact(2);
    let swapped = written("hints_swapped.raw", frames().flat_map(|f| [f[1], f[0]]));
    assert_eq!(hints(&swapped), ["left and right are swapped"]);
    let half = written("hints_half.raw", numbers.iter().map(|n| n / 2));
    assert_eq!(hints(&half), ["X is player times 0.5000"]);
    let turned = written(
        "hints_turned.raw",
        numbers.iter().map(|n| n.saturating_neg()),
    );
    assert_eq!(hints(&turned), ["X is player times -1.0000"]);
    let left = written("hints_left.raw", frames().flat_map(|f| [f[0], 0]));
    assert_eq!(hints(&left), ["right of X is silent"]);
    let silent = written("hints_silent.raw", numbers.iter().map(|_| 0));
    assert_eq!(hints(&silent), ["X is silent"]);
    let late = written("hints_late.raw", numbers[2 * 1_234..].iter().copied());
    assert_eq!(hints(&late), ["X begins at frame 1234 of player"]);
    let zeros = std::iter::repeat_n(0, 2 * 500);
    let early = written("hints_early.raw", zeros.chain(numbers.iter().copied()));
    assert_eq!(hints(&early), ["player begins after 500 frames of X"]);
    // Numbers that are other ones have no simple cause.
    let noise = numbers
        .iter()
        .enumerate()
        .map(|(k, n)| n ^ (k as i16).wrapping_mul(7_919));
    assert_eq!(hints(&written("hints_noise.raw", noise)), [""; 0]);
}

#[test]
fn another_end_is_told_beside_other_numbers() {
    let mut numbers = numbers();
    numbers[2 * 100] += 1;
    let other = &written("hints_end.raw", numbers);
    let lines = differs(&[&module(), other, "--ticks", "61"]);
    assert!(lines[0].starts_with("DIFFERENT: tick 0 "), "{lines:?}");
    let end = format!("{other} ends after 60 ticks of 61, {FRAMES} frames from the beginning");
    assert_eq!(lines[2], end);
    let lines = differs(&[&module(), other, "--ticks", "59"]);
    assert!(
        lines[2].starts_with(&format!("{other} goes on after 59 ticks, ")),
        "{lines:?}"
    );
}

#[test]
fn an_offset_is_searched_for() {
    let numbers = numbers();
    let late = &written("offset_late.raw", numbers[2 * 1_234..].iter().copied());
    let out = equal(&[&module(), late, "--offset", "search"]);
    let line = format!(
        "{}: 58 ticks, {} frames: player and {late} are equal from frame 1234 on; ",
        module(),
        FRAMES - 1_234
    );
    assert!(out.starts_with(&line), "{out}");
    assert_eq!(equal(&[&module(), late, "--offset", "1234"]), out);
    assert_eq!(
        equal(&[&module(), late, "--offset", "search", "--plain"]),
        "0 0 58\n"
    );
    let out = equal(&[&module(), late, "--offset", "search", "--json"]);
    assert!(
        out.contains("\"equal\":true,\"ticks\":58,\"frames\":56366,")
            && out.contains("\"offset\":1234,"),
        "{out}"
    );
    differs(&[&module(), late, "--offset", "1233"]);
    // With the ticks that were asked for, the end counts.
    equal(&[&module(), late, "--offset", "search", "--ticks", "60"]);
    differs(&[&module(), late, "--offset", "search", "--ticks", "61"]);
    let early = std::iter::repeat_n(0, 2 * 500).chain(numbers.iter().copied());
    let early = &written("offset_early.raw", early);
    let out = equal(&[&module(), early, "--offset=search"]);
    assert!(
        out.contains(&format!("are equal after 500 frames of {early}; ")),
        "{out}"
    );
    // One number that is not the song's is still a difference.
    let mut changed = numbers[2 * 1_234..].to_vec();
    *changed.last_mut().unwrap() += 1;
    let changed = &written("offset_changed.raw", changed);
    assert!(differs(&[&module(), changed, "--offset", "search"])[1]
        .starts_with("differing frames: 1 of 56366, by 1 at most"));
    for (words, reason) in [
        (
            &["--offset", "late"][..],
            "--offset: neither search nor a number of frames: late",
        ),
        (&["--offset", "1"], "--offset goes with a recording"),
        (
            &["hints_nowhere.raw", "--offset", "search"],
            "--offset search: the recording sets in nowhere",
        ),
    ] {
        written(
            "hints_nowhere.raw",
            (0..4_000).map(|k: i16| k.wrapping_mul(7_919)),
        );
        let (status, out, err) = told(&[&["compare", &module()], words].concat());
        assert_eq!((status, out.as_str()), (2, ""), "{words:?}");
        assert!(err.contains(reason), "{err}");
    }
}

#[test]
fn two_recordings_are_compared() {
    let numbers = numbers();
    let one = &written("pair_one.raw", numbers.iter().copied());
    let other = &written("pair_other.raw", numbers.iter().copied());
    assert_eq!(
        equal(&[one, other]),
        format!("{one}: {FRAMES} frames: both are equal, with {other}\n")
    );
    assert_eq!(equal(&[one, other, "--plain"]), format!("0 0 {FRAMES}\n"));
    let late = &written("pair_late.raw", numbers[2 * 300..].iter().copied());
    let lines = differs(&[one, late]);
    assert!(lines[0].starts_with("DIFFERENT: frame "), "{lines:?}");
    assert_eq!(
        lines[2..],
        [
            format!(
                "{late} ends after {} frames from the beginning",
                FRAMES - 300
            ),
            format!("hint: {late} begins at frame 300 of {one}"),
        ]
    );
    equal(&[one, late, "--offset", "search"]);
    equal(&[late, one, "--offset", "search"]);
    let short = &written("pair_short.raw", numbers[..2 * 900].iter().copied());
    let end = format!("DIFFERENT: {short} ends after 900 frames from the beginning");
    assert_eq!(differs(&[one, short]), [end]);
    let end = format!("DIFFERENT: {one} goes on after 900 frames from the beginning");
    assert_eq!(differs(&[short, one]), [end]);
    let wav = own("pair.wav");
    let wav = wav.to_str().unwrap();
    assert_eq!(told(&["play", &module(), "--ticks=60", "--out", wav]).0, 0);
    equal(&[wav, one]);
    let mut piped = command(&["compare", one, "-"]);
    assert_eq!(
        said(piped.stdin(File::open(wav).unwrap()).output().unwrap()).0,
        0
    );
    for (words, reason) in [
        (&[one.as_str()][..], "no SOUND to compare it with"),
        (&[one, &module()], "a module comes before its recording"),
        (
            &[one, other, "--once"],
            "--ticks and --once ask for a module",
        ),
        (&[one, "no/such.wav"], "no/such.wav: No such file"),
    ] {
        let (status, out, err) = told(&[&["compare"], words].concat());
        assert_eq!((status, out.as_str()), (2, ""), "{words:?}");
        assert!(err.contains(reason), "{err}");
    }
}
