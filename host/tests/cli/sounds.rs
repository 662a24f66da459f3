//! Sound files: pipes, files that are cut or do not fit, and lengths in seconds.
use crate::common::{command, folder, frames, in_time, quiet, run, said, stored, told};
use std::path::Path;
use std::process::{Command, Stdio};
use std::thread::{sleep, spawn};
use std::time::Duration;

/// A length that is still open, and the bytes before the sound.
const OPEN: [u8; 4] = [0xFF; 4];
const WAV_START: usize = 44;

fn name(path: &Path) -> &str {
    path.to_str().unwrap()
}

/// Runs words that write to a new pipe of this name, and gives what its reader got.
fn through_a_pipe(words: &[&str], folder: &Path, pipe: &str) -> Vec<u8> {
    let pipe = folder.join(pipe);
    assert!(Command::new("mkfifo")
        .arg(&pipe)
        .status()
        .unwrap()
        .success());
    let from = pipe.clone();
    let reader = spawn(move || std::fs::read(from).unwrap());
    let mut words = words.to_vec();
    words.push(name(&pipe));
    let (status, _, err) = said(in_time(&mut command(&words)));
    assert_eq!((status, err.as_str()), (0, ""));
    reader.join().unwrap()
}

#[test]
fn a_pipe_is_written_as_it_is() {
    let folder = folder("pipes");
    let module = &stored("effects");
    let words = ["play", module, "--ticks", "30", "--out"];
    let raw = through_a_pipe(&words, &folder, "p.raw");
    assert_eq!(raw.len(), frames(30) * 4);
    let wav = through_a_pipe(&words, &folder, "p.wav");
    assert!(wav[WAV_START..] == raw);
    // Nobody can go back in a pipe: the lengths stay open.
    assert_eq!((&wav[4..8], &wav[40..44]), (&OPEN[..], &OPEN[..]));
    let words = ["translate", module, "--ticks", "2", "--out"];
    assert_eq!(through_a_pipe(&words, &folder, "p.stream").len(), 32);
}

#[test]
fn a_device_is_written_as_it_is() {
    // script runs the line on a terminal of its own, which is a device as a serial line is.
    let module = quiet("device.mod", &[]);
    let program = env!("CARGO_BIN_EXE_lampthistle");
    let line = format!("'{program}' translate '{module}' --ticks 1 --out \"$(tty)\"");
    let mut script = Command::new("script");
    script
        .args(["-qec", &line, "/dev/null"])
        .stdin(Stdio::null());
    let output = in_time(&mut script);
    assert_eq!(output.status.code(), Some(0));
    let stream = [0, 0, 0, 8, 3, 4, 0, 0, 0, 1, 0, 0x7D];
    let mut parts = output.stdout.windows(stream.len());
    assert!(parts.any(|part| part == stream), "{:?}", output.stdout);
}

#[test]
fn a_failed_write_leaves_what_was_there() {
    let folder = folder("failed");
    let out = folder.join("failed.wav");
    std::fs::write(&out, "kept").unwrap();
    // The shell's limit is in blocks, and its signal is turned off: the write itself fails.
    let script = "ulimit -f 8; trap '' XFSZ; exec \"$0\" play \"$1\" --ticks 500 --out \"$2\"";
    let output = Command::new("sh")
        .args(["-c", script, env!("CARGO_BIN_EXE_lampthistle")])
        .args([&stored("flow"), name(&out)])
        .output()
        .unwrap();
    let (status, _, err) = said(output);
    assert_eq!(status, 2, "{err}");
    assert!(err.contains("failed.wav: File too large"), "{err}");
    assert_eq!(std::fs::read(&out).unwrap(), b"kept");
    assert_eq!(std::fs::read_dir(&folder).unwrap().count(), 1);
}

#[test]
fn an_interrupted_file_says_so() {
    let folder = folder("interrupted");
    let out = folder.join("cut.wav");
    let words = [
        "play",
        &stored("flow"),
        "--ticks",
        "200000",
        "--out",
        name(&out),
    ];
    let mut child = command(&words).spawn().unwrap();
    let part = loop {
        let first = std::fs::read_dir(&folder).unwrap().next();
        let written = first.map(|entry| entry.unwrap().path());
        match written.filter(|part| part.metadata().unwrap().len() > WAV_START as u64) {
            Some(part) => break part,
            None => sleep(Duration::from_millis(1)),
        }
    };
    child.kill().unwrap();
    child.wait().unwrap();
    assert!(!out.exists());
    assert!(name(&part).ends_with(".part"));
    let wav = std::fs::read(&part).unwrap();
    assert_eq!((&wav[4..8], &wav[40..44]), (&OPEN[..], &OPEN[..]));
}

#[test]
fn sound_that_no_wav_file_holds_is_found_at_once() {
    let folder = folder("long");
    let script = folder.join("long.txt");
    std::fs::write(&script, "play 4294967295\nplay 4294967295\n").unwrap();
    let out = folder.join("long.wav");
    // Tempo 32.
    let module = &quiet("long.mod", &[0, 0, 0x0F, 32]);
    let (script, out) = (name(&script), name(&out));
    for words in [
        &["play", module, "--ticks", "4294967295", "--out", out][..],
        &["play", module, "--seconds", "30000", "--out", out],
        &["replay", module, script, "--out", out],
    ] {
        let (status, told, err) = said(in_time(&mut command(words)));
        assert_eq!((status, told.as_str()), (2, ""));
        assert!(
            err.contains("a .wav file holds 1073741812 frames at most"),
            "{err}"
        );
    }
    assert_eq!(std::fs::read_dir(&folder).unwrap().count(), 1);
}

#[test]
fn a_link_stays_one() {
    let folder = folder("link");
    let (file, link) = (folder.join("file.raw"), folder.join("link.raw"));
    std::fs::write(&file, "before").unwrap();
    std::os::unix::fs::symlink("file.raw", &link).unwrap();
    let words = [
        "play",
        &stored("effects"),
        "--ticks",
        "1",
        "--out",
        name(&link),
    ];
    assert_eq!(told(&words).0, 0);
    assert!(link.is_symlink());
    assert_eq!(std::fs::read(&file).unwrap().len(), 470 * 4);
}

#[test]
fn seconds_are_read_exactly() {
    // 960 frames a tick at tempo 125: a tick is 0.02 seconds.
    let module = &quiet("seconds.mod", &[]);
    for (seconds, ticks) in [
        ("2.3", 115),
        ("2.300", 115),
        ("2.29999999999999999999999999999999999999999999999999", 114),
        ("0.01999999999999999999999999999999999999999999999999", 0),
        ("0.02", 1),
        (".02", 1),
        ("2.", 100),
        ("0", 0),
        ("2", 100),
    ] {
        let output = run(&["play", module, "--seconds", seconds, "--out", "-"]);
        assert_eq!(output.stdout.len(), ticks * 960 * 4, "{seconds}");
    }
    for wrong in ["", ".", "-1", "+1", "1e3", "inf", "1000000000.01"] {
        let words = ["play", module, "--seconds", wrong, "--out", "-"];
        let (status, _, err) = told(&words);
        assert_eq!(status, 2, "{wrong}");
        assert!(err.contains("not a number from 0 to 1000000000"), "{err}");
    }
}
