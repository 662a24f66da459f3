//! Lines of a script that are wrong: each is told by its number and by what is wrong in it.
use crate::common::{own, stored, told};

/// Runs replay on a script of this name and text, which must end with 2; what is said after the name.
fn wrong(name: &str, script: &str) -> String {
    let path = own(name);
    std::fs::write(&path, script).unwrap();
    let path = path.to_str().unwrap();
    let (status, out, err) = told(&["replay", &stored("flow"), path]);
    assert_eq!((status, out.as_str()), (2, ""), "{script}");
    let said = err.strip_prefix(&format!("lampthistle: {path}:"));
    said.expect(&err).trim_end().into()
}

const CALLS: [(&str, &str); 16] = [
    ("play", "play takes one number, N, and has 0"),
    ("play 1 2", "play takes one number, N, and has 2"),
    ("play -1", "-1 is not a number in digits"),
    ("play 0x10", "0x10 is not a number in digits"),
    ("play 4294967296", "4294967296 is too large a number"),
    (
        "touch 1 2",
        "touch takes three numbers, PAGE MADE POSITION, and has 2",
    ),
    ("touch a 2 3", "a is not a number in digits"),
    (
        "burst",
        "burst takes three numbers for each touch, PAGE MADE POSITION, one touch at least, and has 0",
    ),
    (
        "burst 1 2 3 4",
        "burst takes three numbers for each touch, PAGE MADE POSITION, one touch at least, and has 4",
    ),
    ("page 1", "page takes no number, and has 1"),
    ("why 1", "why takes no number, and has 1"),
    ("pages", "no such call; there are play, touch, burst, page and why"),
    ("PLAY 1", "no such call; there are play, touch, burst, page and why"),
    ("= 0", "no such call; there are play, touch, burst, page and why"),
    (
        "state fresh",
        "a record's header is record, program, module, state, before all else and in this order",
    ),
    ("end 2", "end takes the number of calls and a checksum, and has 1 word"),
];

#[test]
fn a_wrong_call_says_what_is_wrong() {
    for (line, what) in CALLS {
        let said = wrong("wrong_call.txt", &format!("play 1\n{line} # a remark\n"));
        assert_eq!(said, format!("2: {what}: {line}"));
    }
}

#[test]
fn wrong_results_say_what_is_wrong() {
    let sum = "0123456789abcdef";
    let five = "results are number, place, count, clock and checksum, and have";
    for (line, what) in [
        ("play 1 =".into(), format!("{five} 0 words")),
        (format!("play 1 = 0 0 1 {sum}"), format!("{five} 4 words")),
        (
            format!("play 1 = 0 0 x 1 {sum}"),
            "x is not a number in digits".into(),
        ),
        (
            "play 1 = 0 0 1 1 0123".into(),
            "0123 is not a checksum, 16 digits from 0 to 9 and a to f".into(),
        ),
        (
            format!("play 1 = 0 0 1 7 1 {sum}"),
            "results of play have nothing between count and clock".into(),
        ),
        (
            format!("burst 0 0 0 = 0 0 1 1 {sum}"),
            "results count 1 touch, and have 0 numbers".into(),
        ),
        (
            format!("why = 0 0 4 1 1 1 7 {sum}"),
            "results count 4 channels, and have 3 causes".into(),
        ),
    ] {
        assert_eq!(
            wrong("wrong_results.txt", &line),
            format!("1: {what}: {line}")
        );
    }
}

#[test]
fn a_wrong_header_says_what_is_wrong() {
    let header = "record 2\nprogram x\nmodule 0123456789abcdef\n";
    for (lines, what) in [
        (
            "record 3",
            "1: a record's version is 1 or 2, not 3: record 3",
        ),
        ("record", "1: record takes one word, and has 0: record"),
        (
            "record 2\nprogram\nmodule 12",
            "3: 12 is not a checksum, 16 digits from 0 to 9 and a to f: module 12",
        ),
        (
            &format!("{header}state 1 2"),
            "4: a state is fresh or 173 numbers, and has 2: state 1 2",
        ),
        (
            &format!("{header}state old"),
            "4: old is not a number in digits: state old",
        ),
    ] {
        assert_eq!(wrong("wrong_header.txt", lines), what);
    }
}
