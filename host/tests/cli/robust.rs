//! Wrong use, and files that cannot be read or written: a clear message and the exit status, never a panic.
use crate::common::{command, in_small_memory, own, run, said, stored, told};
use std::ffi::OsString;
use std::fs::File;
use std::io::Read;
use std::os::unix::ffi::OsStringExt;
use std::os::unix::fs::symlink;
use std::process::Stdio;

/// Runs words that must end with 2, and gives the message.
fn stops(words: &[&str]) -> String {
    let (status, out, err) = told(words);
    assert_eq!((status, out.as_str()), (2, ""), "{words:?}: {err}");
    assert!(err.starts_with("lampthistle: "), "{words:?}: {err}");
    err
}

#[test]
fn files_that_cannot_be_read_are_named() {
    for command in ["judge", "info", "trace", "why", "compare"] {
        assert!(stops(&[command, "."]).contains(".: Is a directory"));
        assert!(stops(&[command, "no/such"]).contains("no/such: No such file"));
    }
    for (first, second) in [(".", "no/such"), ("no/such", ".")] {
        stops(&["board", first, second, "--out", "x.raw"]);
        stops(&["replay", first, second]);
    }
    for command in ["play", "translate"] {
        let words = [command, "no/such", "--ticks", "1", "--out", "x.raw"];
        assert!(stops(&words).contains("no/such: No such file"));
    }
}

#[test]
fn one_missing_file_does_not_hide_the_others() {
    let good = stored("flow");
    let (status, out, err) = told(&["judge", "no/such", &good]);
    assert_eq!((status, out), (2, format!("{good}: accepted\n")));
    assert!(err.contains("no/such: No such file"));
}

#[test]
fn files_that_are_no_modules_are_refused() {
    let empty = own("empty.mod");
    File::create(&empty).unwrap();
    let zeros = own("zeros.mod");
    File::create(&zeros).unwrap().set_len(100_000_000).unwrap();
    let (empty, zeros) = (empty.to_str().unwrap(), zeros.to_str().unwrap());
    for (file, answer) in [
        (empty, "1 0 0\n"),
        ("/dev/null", "1 0 0\n"),
        (zeros, "2 1080 0\n"),
    ] {
        for command in ["info", "trace", "why", "compare"] {
            let (status, out, err) = told(&[command, "--plain", file]);
            assert_eq!(
                (status, out.as_str(), err.as_str()),
                (1, answer, ""),
                "{command}"
            );
        }
        let (status, out, _) = told(&["judge", "--plain", file]);
        assert_eq!((status, out), (1, format!("{} {file}\n", answer.trim())));
        let (status, out, _) = told(&["play", "--plain", file, "--out", "refused.wav"]);
        assert_eq!((status, out.as_str()), (1, answer));
        assert!(!own("refused.wav").exists());
    }
}

#[test]
fn a_file_without_an_end_is_an_error() {
    assert!(stops(&["trace", "/dev/zero"]).contains("/dev/zero: larger than"));
    let (status, out, _) = told(&["judge", "--plain", "/dev/zero"]);
    assert_eq!((status, out.as_str()), (1, "2 1080 0 /dev/zero\n"));
}

#[test]
fn a_module_is_read_to_the_length_of_the_largest() {
    const LARGEST: u64 = 4_195_326;
    // 64 patterns of eight channels, and 31 samples of 65,535 words.
    let mut start = vec![0; 1_084];
    for header in start[20..950].chunks_exact_mut(30) {
        header[22..24].fill(0xFF);
    }
    (start[950], start[1_079]) = (1, 63);
    start[1_080..].copy_from_slice(b"8CHN");
    let (largest, zeros) = (own("largest.mod"), own("zeros_4_gib.mod"));
    std::fs::write(&largest, start).unwrap();
    let file = File::options().write(true).open(&largest).unwrap();
    let (largest, zeros) = (largest.to_str().unwrap(), zeros.to_str().unwrap());
    File::create(zeros).unwrap().set_len(1 << 32).unwrap();
    let judged = |name| in_small_memory(&["judge", "--plain", name], Stdio::piped());
    file.set_len(LARGEST - 1).unwrap();
    assert_eq!(judged(largest).0, 1);
    for length in [LARGEST, LARGEST + 1, 1 << 32] {
        file.set_len(length).unwrap();
        let answer = (0, format!("0 0 0 {largest}\n"), String::new());
        assert_eq!(judged(largest), answer, "{length}");
    }
    assert_eq!(judged(zeros).1, format!("2 1080 0 {zeros}\n"));
    for words in [
        &["info", "--plain", largest][..],
        &["why", "--plain", largest],
        &["trace", "--plain", largest],
        &["translate", largest, "--ticks", "1", "--out", "-"],
        &["play", largest, "--ticks", "1", "--out", "-"],
        &["compare", largest, "--ticks", "1"],
    ] {
        let (status, _, err) = in_small_memory(words, Stdio::null());
        assert_eq!(status, 0, "{words:?}: {err}");
    }
}

#[test]
fn standard_input_is_read_once() {
    let module = File::open(stored("flow")).unwrap();
    let output = command(&["judge", "-"]).stdin(module).output().unwrap();
    assert_eq!(
        said(output),
        (0, "standard input: accepted\n".into(), String::new())
    );
    for words in [
        &["judge", "-", "-"][..],
        &["board", "-", "-", "--out", "x.raw"],
        &["replay", "-", "-"],
    ] {
        assert!(stops(words).contains("standard input (-) can be read only once"));
    }
}

/// Command lines that are wrong, and what the message says.
const WRONG: [(&str, &str); 22] = [
    ("--version x", "--version: one word too many: x"),
    ("--help judge", "--help: one word too many: judge"),
    ("help judge info", "help: one word too many: info"),
    ("help sing", "no such command: sing"),
    ("play", "no --out"),
    ("play --out x.raw", "no FILE"),
    ("play MODULE --out", "--out needs a value"),
    ("play MODULE --out x.mp3", "must end in .wav or .raw"),
    ("play MODULE --out x.raw --ticks -1", "not a number"),
    ("play MODULE --out x.raw --ticks 4294967296", "not a number"),
    ("play MODULE --out x.raw --seconds nan", "not a number"),
    ("play MODULE --out x.raw --seconds 1 --ticks 1", "exclude"),
    ("play MODULE --out x.raw --out y.raw", "given twice"),
    ("play MODULE MODULE --out x.raw", "one word too many"),
    ("play --loud MODULE", "no such option: --loud"),
    ("translate MODULE --out x.stream", "no --ticks"),
    ("board MODULE --out x.raw", "no FILE"),
    ("judge", "no FILE"),
    ("why", "no FILE"),
    ("why MODULE --channel left", "--channel: not a number"),
    ("sing", "no such command: sing"),
    ("", "no command"),
];

#[test]
fn wrong_use_is_explained() {
    let module = stored("flow");
    for (line, reason) in WRONG {
        let words = line.split_whitespace();
        let words: Vec<&str> = words
            .map(|word| if word == "MODULE" { &module } else { word })
            .collect();
        let err = stops(&words);
        assert!(err.contains(reason), "{line}: {err}");
        assert!(err.contains("Try: lampthistle "), "{line}: {err}");
    }
    assert!(!own("x.raw").exists());
}

#[test]
fn a_full_disk_is_told() {
    let module = &stored("flow");
    for ending in ["raw", "wav"] {
        let full = own(&format!("full.{ending}"));
        let _ = std::fs::remove_file(&full);
        symlink("/dev/full", &full).unwrap();
        let full = full.to_str().unwrap();
        let err = stops(&["play", module, "--ticks", "99", "--out", full]);
        assert!(
            err.contains(&format!("full.{ending}: No space left")),
            "{err}"
        );
    }
    for words in [
        &["judge", module][..],
        &["info", module],
        &["trace", module],
        &["why", module],
        &["play", module, "--out", "-"],
        &["translate", module, "--ticks", "9", "--out", "-"],
        &["--help"],
    ] {
        let full = File::options().write(true).open("/dev/full").unwrap();
        let output = command(words).stdout(full).output().unwrap();
        let (status, _, err) = said(output);
        assert_eq!(status, 2, "{words:?}");
        assert!(err.contains("No space left"), "{words:?}: {err}");
    }
}

#[test]
fn a_reader_may_go_away() {
    for words in [
        &["play", &stored("flow"), "--out", "-"][..],
        &["trace", &stored("flow"), "--ticks", "60000"],
    ] {
        let mut child = command(words)
            .stdout(Stdio::piped())
            .stderr(Stdio::piped())
            .spawn()
            .unwrap();
        let mut pipe = child.stdout.take().unwrap();
        pipe.read_exact(&mut [0; 100]).unwrap();
        drop(pipe);
        let (status, _, err) = said(child.wait_with_output().unwrap());
        assert_eq!((status, err.as_str()), (2, ""), "{words:?}");
    }
}

#[test]
fn what_is_read_is_not_overwritten() {
    let module = own("kept.mod");
    std::fs::copy(stored("flow"), &module).unwrap();
    let name = module.to_str().unwrap();
    let err = stops(&["translate", name, "--ticks", "9", "--out", name]);
    assert!(err.contains("kept.mod: is read, too"), "{err}");
    assert!(std::fs::read(module).unwrap() == std::fs::read(stored("flow")).unwrap());
}

#[test]
fn any_words_end_with_a_status() {
    let odd = OsString::from_vec(vec![b'a', 0xFF, 0x1B, b'\n']);
    let mut words: Vec<OsString> = [
        "-",
        "--",
        "--out",
        "--ticks",
        "--plain",
        "",
        "-x",
        "7",
        "\u{1F3B5}",
    ]
    .map(OsString::from)
    .to_vec();
    words.push(odd);
    for command in [
        "judge",
        "info",
        "play",
        "translate",
        "board",
        "trace",
        "why",
        "replay",
        "compare",
        "picture",
        "",
    ] {
        for first in &words {
            for second in &words {
                let line = [&OsString::from(command), first, second];
                let (status, _, err) = said(run(&line));
                assert!(status <= 2 && !err.contains("panicked"), "{line:?}: {err}");
                assert!(!err.contains('\u{1B}'), "{line:?}");
            }
        }
    }
}
