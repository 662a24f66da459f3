//! Trials: scripts, and records that are checked.
use crate::common::{checksum, ended, own, stored, told};

/// A file of this text in the tests' own folder.
fn text(name: &str, text: &str) -> String {
    let path = own(name);
    std::fs::write(&path, text).unwrap();
    path.to_str().unwrap().into()
}

#[test]
fn replay_answers_each_call() {
    let script = own("replay.txt");
    let lines = "# a trial\nplay 5\n\ntouch 0 3 1\n page \ntouch 0 5 1\ntouch 1 5 3\nplay 0\n";
    std::fs::write(&script, lines).unwrap();
    let words = [
        "replay",
        "--plain",
        &stored("flow"),
        script.to_str().unwrap(),
    ];
    let (status, out, _) = told(&words);
    let answers = "0 0 5 5 0 0 1 2\n0 0 0 5 0 1 0 0\n0 0 0 5 1 1 0 0\n16 0 0 5 1 1 0 0\n18 0 0 5 1 1 0 0\n0 0 0 5 1 1 0 0\n";
    assert_eq!((status, out.as_str()), (0, answers));
}

#[test]
fn scripts_may_have_marks_and_comments() {
    let script = "\u{FEFF}play 5 # five ticks\n  # nothing\npage#turned\n";
    let script = text("marked.txt", script);
    let (status, out, _) = told(&["replay", "--plain", &stored("flow"), &script]);
    assert_eq!(
        (status, out.as_str()),
        (0, "0 0 5 5 0 0 1 2\n0 0 0 5 1 0 1 2\n")
    );
}

#[test]
fn a_wrong_script_is_not_echoed_whole() {
    let script = text("flood.txt", &"x".repeat(2_000_000));
    let (status, _, err) = told(&["replay", &stored("flow"), &script]);
    assert_eq!(status, 2);
    assert!(err.len() < 500 && err.ends_with("xxx..\n"), "{}", err.len());
    let (_, _, err) = told(&["play", &"y".repeat(100_000), "z", "--out", "-"]);
    assert!(err.contains("one word too many: z"), "{}", err.len());
    let (_, _, err) = told(&[&"y".repeat(100_000)]);
    assert!(err.len() < 500);
}

const SCRIPT: &str = "# a trial\nplay 5 # begins\n\ntouch 0 3 1\npage\ntouch 0 5 1\nplay 2\n";

/// Records the script, and gives the record's name and text.
fn recorded(name: &str) -> (String, String) {
    let (script, record) = (text(&format!("{name}.txt"), SCRIPT), own(name));
    let record = record.to_str().unwrap();
    let (status, _, err) = told(&["replay", &stored("flow"), &script, "--record", record]);
    assert_eq!((status, err.as_str()), (0, ""));
    (record.into(), std::fs::read_to_string(record).unwrap())
}

#[test]
fn a_record_holds_what_came_of_each_call() {
    let (_, record) = recorded("whole.record");
    let module = checksum(&std::fs::read(stored("flow")).unwrap());
    let raw = own("whole.raw");
    let sound = |ticks: &str| {
        let words = [
            "play",
            &stored("flow"),
            "--ticks",
            ticks,
            "--out",
            "whole.raw",
        ];
        assert_eq!(told(&words).0, 0);
        checksum(&std::fs::read(&raw).unwrap())
    };
    let five = sound("5");
    let lines: Vec<&str> = record.lines().collect();
    assert_eq!(
        lines[..2],
        [
            "record 2",
            concat!("program lampthistle ", env!("CARGO_PKG_VERSION"))
        ]
    );
    assert_eq!(
        lines[2..4],
        [format!("module {module}"), "state fresh".into()]
    );
    assert_eq!(lines[4], "# a trial");
    assert_eq!(
        lines[5..7],
        [format!("play 5 = 0 0 5 5 {five} # begins"), String::new()]
    );
    assert_eq!(lines[7], format!("touch 0 3 1 = 0 0 0 5 {five}"));
    assert_eq!(lines[8], format!("page = 0 0 0 5 {five}"));
    assert_eq!(lines[9], format!("touch 0 5 1 = 16 0 0 5 {five}"));
    assert!(lines[10].starts_with("play 2 = 0 0 2 7 ") && lines.len() == 12);
    assert_eq!(record, ended(&record));
}

#[test]
fn a_record_comes_again() {
    let (record, written) = recorded("again.record");
    let (status, out, err) = told(&["replay", &stored("flow"), &record, "--check"]);
    let line = format!("{record}: 5 calls, 7 ticks: every answer and checksum came again\n");
    assert_eq!((status, out, err), (0, line, String::new()));
    // A record is a script: recorded again, it is the same.
    let words = ["replay", &stored("flow"), &record, "--record", "-"];
    let (status, out, _) = told(&words);
    assert_eq!((status, out), (0, written));
}

#[test]
fn a_record_that_differs_says_where_and_how() {
    let (_, written) = recorded("differs.record");
    let zeros = "0".repeat(16);
    let sum = written.lines().nth(7).unwrap().rsplit(' ').next().unwrap();
    for (from, to, line) in [
        (
            "16 0 0 5",
            "17 0 0 5",
            ":10: touch 0 5 1: number 16, recorded 17",
        ),
        ("= 0 0 2 7", "= 0 1 2 7", ":11: play 2: place 0, recorded 1"),
        ("= 0 0 2 7", "= 0 0 3 7", ":11: play 2: count 2, recorded 3"),
        ("= 0 0 2 7", "= 0 0 2 8", ":11: play 2: clock 7, recorded 8"),
        (
            sum,
            &zeros,
            &format!(":6: play 5: sound {sum}, recorded {zeros}"),
        ),
    ] {
        let other = text("other.record", &ended(&written.replacen(from, to, 1)));
        let (status, out, err) = told(&["replay", &stored("flow"), &other, "--check"]);
        assert_eq!((status, out.as_str()), (1, ""));
        assert!(err.ends_with(&format!("other.record{line}\n")), "{err}");
        // Without --check the same script runs.
        assert_eq!(told(&["replay", &stored("flow"), &other]).0, 0);
    }
    let (status, _, err) = told(&[
        "replay",
        &stored("edges"),
        &text("o.record", &written),
        "--check",
    ]);
    assert_eq!(status, 1);
    assert!(err.contains("o.record:3: module "), "{err}");
}

#[test]
fn why_has_a_cause_a_channel() {
    let script = text("why.txt", "why\nplay 5\nwhy\n");
    let (status, out, _) = told(&["replay", &stored("flow"), &script]);
    let quiet = "why: accepted; clock 0, page 0, position 0, row 0, tick 0\n  \
        channel 1: quiet: it has no sample\n  channel 2: quiet: it has no sample\n  \
        channel 3: quiet: it has no sample\n  channel 4: quiet: it has no sample\n";
    assert_eq!(status, 0);
    assert!(out.starts_with(quiet), "{out}");
    let after = |ticks: &str| told(&["why", &stored("flow"), "--ticks", ticks]).1;
    for line in after("5").lines() {
        assert!(out.contains(&format!("\n  {line}\n")), "{out}");
    }
    let (_, out, _) = told(&["replay", "--plain", &stored("flow"), &script]);
    let lines: Vec<&str> = out.lines().collect();
    assert_eq!(lines[0], "0 0 4 0 0 0 0 0 1 1 1 1");
    assert_eq!(lines[1], "0 0 5 5 0 0 1 2");
    assert!(lines[2].starts_with("0 0 4 5 0 0 1 2 "), "{out}");
    let (_, out, _) = told(&["replay", "--json", &stored("flow"), &script]);
    assert!(out.contains(r#","causes":[1,1,1,1]}"#), "{out}");
}

#[test]
fn a_burst_has_an_answer_a_touch() {
    let script = text("burst.txt", "play 5\nburst 0 3 1 1 5 0 0 5 3\n");
    let (status, out, _) = told(&["replay", &stored("flow"), &script]);
    let lines = "burst 0 3 1 1 5 0 0 5 3: accepted, 3 touches; clock 5, page 0, position 1, row 0, tick 0\n  \
        touch 0 3 1: accepted\n  \
        touch 1 5 0: refused 16 at 0: the touch was made on another page\n  \
        touch 0 5 3: refused 18 at 0: the touch names a position at or past the song length\n";
    assert_eq!(status, 0);
    assert!(out.ends_with(lines), "{out}");
    let (_, out, _) = told(&["replay", "--plain", &stored("flow"), &script]);
    assert_eq!(out, "0 0 5 5 0 0 1 2\n0 0 3 5 0 1 0 0 0 16 18\n");
    let (_, out, _) = told(&["replay", "--json", &stored("flow"), &script]);
    assert!(out.ends_with(",\"answers\":[0,16,18]}\n"), "{out}");
    // One touch too many: nothing is taken.
    let script = text("burst.txt", &format!("burst{}\n", " 0 0 1".repeat(65)));
    let (_, out, _) = told(&["replay", "--plain", &stored("flow"), &script]);
    assert_eq!(out, "26 0 0 0 0 0 0 0\n");
}

#[test]
fn recorded_bursts_come_again() {
    let many = " 0 5 1".repeat(65);
    let script = format!("play 5\nburst 0 3 1 1 5 0\nplay 2\nburst{many}\n");
    let script = text("bursts.txt", &script);
    let words = ["replay", &stored("flow"), &script, "--record", "-"];
    let (status, written, _) = told(&words);
    assert_eq!(status, 0);
    let line = written.lines().nth(5).unwrap();
    assert!(
        line.starts_with("burst 0 3 1 1 5 0 = 0 0 2 0 16 5 "),
        "{line}"
    );
    let line = written.lines().nth(7).unwrap();
    assert!(
        line.starts_with(&format!("burst{many} = 26 0 0 7 ")),
        "{line}"
    );
    let check = |record: &str| {
        let record = text("bursts.record", &ended(record));
        told(&["replay", &stored("flow"), &record, "--check"])
    };
    assert_eq!(check(&written).0, 0);
    let (status, _, err) = check(&written.replacen("2 0 16 5", "2 0 17 5", 1));
    assert_eq!(status, 1);
    let end = ":6: burst 0 3 1 1 5 0: touch 2: number 16, recorded 17\n";
    assert!(err.ends_with(end), "{err}");
    // An answer too few.
    let (status, _, err) = check(&written.replacen("2 0 16 5", "2 0 5", 1));
    assert_eq!(status, 2);
    assert!(
        err.contains(":6: results count 2 touches, and have 1 number: "),
        "{err}"
    );
    // The same touches one by one sound the same.
    let singles = text("singles.txt", "play 5\ntouch 0 3 1\ntouch 1 5 0\nplay 2\n");
    let (_, other, _) = told(&["replay", &stored("flow"), &singles, "--record", "-"]);
    let sound = |record: &str, call: &str| {
        let line = record.lines().find(|line| line.starts_with(call)).unwrap();
        line.rsplit(' ').next().unwrap().to_string()
    };
    assert_eq!(sound(&written, "play 2 "), sound(&other, "play 2 "));
}

#[test]
fn recorded_causes_come_again() {
    let script = text("causes.txt", "why\nplay 5\nwhy # then\n");
    let words = ["replay", &stored("flow"), &script, "--record", "-"];
    let (status, written, _) = told(&words);
    let empty = checksum(&[]);
    let lines: Vec<&str> = written.lines().collect();
    assert_eq!(status, 0);
    assert_eq!(lines[4], format!("why = 0 0 4 1 1 1 1 0 {empty}"));
    let record = text("causes.record", &written);
    let check = |record: &str| told(&["replay", &stored("flow"), record, "--check"]);
    assert_eq!(check(&record).0, 0);
    let other = written.replacen("4 1 1 1 1", "4 1 1 5 1", 1);
    let (status, _, err) = check(&text("causes.record", &ended(&other)));
    assert_eq!(status, 1);
    assert!(
        err.ends_with(":5: why: channel 3: cause 1, recorded 5\n"),
        "{err}"
    );
    // A cause too few, and causes where none belong.
    for (from, to, what) in [
        ("4 1 1 1 1", "4 1 1 1", ":5: results count 4 channels, "),
        (
            "play 5 = 0 0 5 5",
            "play 5 = 0 0 5 1 5",
            ":6: results of play ",
        ),
    ] {
        let (status, _, err) = check(&text("causes.record", &written.replacen(from, to, 1)));
        assert_eq!(status, 2, "{to}");
        assert!(err.contains(what), "{err}");
    }
}

#[test]
fn what_is_no_record_is_not_checked() {
    let module = &stored("flow");
    for (lines, reason) in [
        (SCRIPT, "not a record: it names no module"),
        ("record 3\n", ":1: a record's version is 1 or 2, not 3"),
        ("play 1\nrecord 2\n", ":2: a record's header is "),
        (
            "record 2\nprogram x\nmodule 12\n",
            ":3: 12 is not a checksum",
        ),
    ] {
        let (status, out, err) = told(&["replay", module, &text("no.record", lines), "--check"]);
        assert_eq!((status, out.as_str()), (2, ""), "{lines}");
        assert!(err.contains(reason), "{err}");
    }
    let (_, written) = recorded("bare.record");
    let bare = ended(&written.replacen("end ", "play 3\nend ", 1));
    let bare = text("bare.record", &bare);
    let (status, _, err) = told(&["replay", module, &bare, "--check"]);
    assert_eq!(status, 2);
    assert!(
        err.contains("bare.record:12: play 3: has no results"),
        "{err}"
    );
}

/// Checks a record of this text: the status, and what is said where it does not hold.
fn checked(name: &str, record: &str) -> (i32, String) {
    let record = text(name, record);
    let (status, out, err) = told(&["replay", &stored("flow"), &record, "--check"]);
    assert!((status == 0) == err.is_empty() && (status == 0 || out.is_empty()));
    (status, err)
}

#[test]
fn a_cut_record_does_not_hold() {
    let (_, written) = recorded("whole_once.record");
    // Without the newline after its end a record still has all that was written.
    for end in 0..written.len() - 1 {
        let (status, err) = checked("cut.record", &written[..end]);
        assert!(status != 0 && err.contains("cut.record:"), "{end}: {err}");
    }
    assert_eq!(checked("cut.record", &written[..written.len() - 1]).0, 0);
    let end = written.rfind("end ").unwrap();
    let (status, err) = checked("cut.record", &written[..end]);
    assert_eq!(status, 1);
    let said = "cut.record:12: no end: the record is cut; its 5 calls came again\n";
    assert!(err.ends_with(said), "{err}");
    // As a script it runs, as any does.
    let cut = own("cut.record");
    assert_eq!(
        told(&["replay", &stored("flow"), cut.to_str().unwrap()]).0,
        0
    );
}

#[test]
fn a_changed_record_does_not_hold() {
    let (_, written) = recorded("unchanged.record");
    let page = written.lines().nth(8).unwrap();
    for (from, to, said) in [
        (page, "", ":12: end: calls 4, recorded 5; "),
        ("# begins", "# ends", ":12: end: checksum "),
        ("16 0 0 5", "17 0 0 5", ":12: end: checksum "),
        ("end 5", "end 6", ":12: end: calls 5, recorded 6; "),
    ] {
        let (status, err) = checked("changed.record", &written.replacen(from, to, 1));
        assert_eq!(status, 1, "{to}");
        let why = "; the record is not as it was written\n";
        assert!(err.contains(said) && err.ends_with(why), "{err}");
    }
    for more in ["play 3\n", "# a remark\n"] {
        let (status, err) = checked("longer.record", &(written.clone() + "\n" + more));
        assert_eq!(status, 2);
        let said = format!("longer.record:14: after the record's end: {more}");
        assert!(err.ends_with(&said), "{err}");
    }
    assert_eq!(checked("longer.record", &(written.clone() + "\n \n")).0, 0);
    let remark = written.trim_end().to_string() + " # a remark\n";
    let (status, err) = checked("longer.record", &remark);
    assert_eq!(status, 2);
    let said = "longer.record:12: after the record's end: # a remark\n";
    assert!(err.ends_with(said), "{err}");
}

#[test]
fn a_record_of_version_1_says_what_is_not_known() {
    let (_, written) = recorded("second.record");
    let first = written.replacen("record 2", "record 1", 1);
    let first = first.replacen("state fresh\n", "", 1);
    let (old, end) = first.split_at(first.rfind("end ").unwrap());
    let (status, err) = checked("first.record", old);
    assert_eq!(status, 1);
    let said = "first.record:11: no end: a record of version 1 does not say how many calls it had; its 5 calls came again, and whether \
        more followed cannot be known\n";
    assert!(err.ends_with(said), "{err}");
    // A line that differs is told as before.
    let (status, err) = checked("first.record", &old.replacen("16 0 0 5", "17 0 0 5", 1));
    assert!(status == 1 && err.contains(":9: touch 0 5 1: number 16, recorded 17"));
    // It has no end, and recorded again it gets one.
    let (status, err) = checked("first.record", &format!("{old}{end}"));
    let said = format!(":11: an end, but not of a record of version 2: {end}");
    assert!(status == 2 && err.ends_with(&said), "{err}");
    let words = [
        "replay",
        &stored("flow"),
        &text("first.record", old),
        "--record",
        "-",
    ];
    let (status, out, _) = told(&words);
    assert_eq!((status, out), (0, written));
}

/// Runs replay on the stored module in the tests' own folder, and gives what it prints.
fn ran(words: &[&str]) -> String {
    let (status, out, err) = told(&[&["replay", &stored("flow")], words].concat());
    assert_eq!((status, err.as_str()), (0, ""), "{words:?}");
    out
}

#[test]
fn a_trial_goes_on_from_a_state() {
    let whole = text("on_whole.txt", "play 5\ntouch 0 3 1\npage\nplay 7\nwhy\n");
    let first = text("on_first.txt", "play 5\ntouch 0 3 1\n");
    let second = text("on_second.txt", "page\nplay 7\nwhy\n");
    let out = ran(&["--plain", &whole, "--out", "on_whole.raw"]);
    let mut on = ran(&["--plain", &first, "--out", "on_1.raw", "--save", "on.state"]);
    let words = [
        "--from",
        "on.state",
        "--out",
        "on_2.raw",
        "--record",
        "on.record",
    ];
    on += &ran(&[&["--plain", &second], &words[..]].concat());
    assert_eq!(on, out);
    let sound = |name: &str| std::fs::read(own(name)).unwrap();
    assert!([sound("on_1.raw"), sound("on_2.raw")].concat() == sound("on_whole.raw"));
    // The record names the state, begins from it, and sums the frames from there on.
    let record = String::from_utf8(sound("on.record")).unwrap();
    let state = String::from_utf8(sound("on.state")).unwrap();
    assert_eq!(format!("{}\n", record.lines().nth(3).unwrap()), state);
    assert!(record.contains(&format!(" 12 {}\n", checksum(&sound("on_2.raw")))));
    assert_eq!(checked("on_again.record", &record), (0, String::new()));
    let (_, again, _) = told(&["replay", &stored("flow"), "on.record", "--record", "-"]);
    assert_eq!(again, record);
    let fresh = record.replacen(&state, "state fresh\n", 1);
    let (status, err) = checked("on_again.record", &ended(&fresh));
    assert!(
        status == 1 && err.contains(":5: page: clock 0, recorded 5"),
        "{err}"
    );
}

#[test]
fn a_state_that_is_none_is_refused() {
    let script = text("state.txt", "play 1\n");
    ran(&[&script, "--save", "good.state"]);
    let good = std::fs::read_to_string(own("good.state")).unwrap();
    assert_eq!(good.split(' ').count(), 174);
    let cut = good.trim_end();
    for wrong in [
        "",
        "fresh\n",
        "state\n",
        "state old\n",
        cut,
        &good.replacen(" ", " 1 ", 1),
    ] {
        let state = text("wrong.state", wrong);
        let (status, out, err) = told(&["replay", &stored("flow"), &script, "--from", &state]);
        assert_eq!((status, out.as_str()), (2, ""), "{wrong}");
        let said = "wrong.state: not a line of the word state and fresh or 173 numbers\n";
        assert!(err.ends_with(said), "{err}");
    }
    // All cells are numbers, but not a state's.
    let state = text("wrong.state", &format!("state{}\n", " 99999".repeat(173)));
    let kept = own("wrong_state.raw");
    let words = ["--from", &state, "--out", kept.to_str().unwrap()];
    let (status, out, _) = told(&[&["replay", &stored("flow"), &script], &words[..]].concat());
    assert!(
        status == 1 && out.contains("wrong.state: refused 14 at 0"),
        "{out}"
    );
    assert!(!kept.exists());
    let (_, record) = recorded("stateless.record");
    let (status, err) = checked("stateless.record", &record.replacen("state fresh\n", "", 1));
    assert!(
        status == 2 && err.ends_with("not a record: it names no state\n"),
        "{err}"
    );
    for (words, said) in [
        (["--check", "--from", "x"], "--check and --from exclude"),
        (["--check", "--save", "x"], "--check and --save exclude"),
        (
            ["--save", "x.raw", "--out=x.raw"],
            "--out and --save are one file",
        ),
        (
            ["--save", "-", "--record=-"],
            "--record and --save are both -",
        ),
    ] {
        let (status, _, err) = told(&[&["replay", &stored("flow"), &script], &words[..]].concat());
        assert!(status == 2 && err.contains(said), "{err}");
    }
}
