//! Streams that are played while they arrive, over pipes and over a line that stays open.
use crate::common::{command, folder, older, own, said, stored, told};
use std::fs::{self, File};
use std::io::{Read, Write};
use std::path::{Path, PathBuf};
use std::process::{Child, Command, Stdio};
use std::thread::sleep;
use std::time::Duration;

/// The bytes of a module's stream of so many ticks.
fn stream(module: &str, ticks: &str) -> Vec<u8> {
    let words = ["translate", module, "--ticks", ticks, "--out", "-"];
    let output = command(&words).output().unwrap();
    assert!(output.status.success());
    output.stdout
}

/// The sound of a module's first ticks, by the player.
fn played(module: &str, ticks: usize) -> Vec<u8> {
    let ticks = ticks.to_string();
    let words = ["play", module, "--ticks", &ticks, "--out", "-"];
    let output = command(&words).output().unwrap();
    assert!(output.status.success());
    output.stdout
}

/// The sound of a whole stream, by board on a file.
fn sound_of(stream: &[u8], module: &str, folder: &Path) -> Vec<u8> {
    let (file, out) = (folder.join("whole.stream"), folder.join("whole.raw"));
    fs::write(&file, stream).unwrap();
    let [file, sound] = [&file, &out].map(|path| path.to_str().unwrap());
    assert_eq!(told(&["board", file, module, "--out", sound]).0, 0);
    fs::read(out).unwrap()
}

/// Board with the stream on standard input.
fn fed(module: &str, options: &[&str]) -> Child {
    let words = [&["board", "-", module][..], options].concat();
    let mut command = command(&words);
    command.stdin(Stdio::piped()).stdout(Stdio::piped());
    command.stderr(Stdio::piped()).spawn().unwrap()
}

/// What board says of a stream that comes over a pipe and ends.
fn told_of(stream: &[u8], module: &str, options: &[&str]) -> (i32, String, String) {
    let mut child = fed(module, options);
    // After a fault nobody reads the rest.
    let _ = child.stdin.take().unwrap().write_all(stream);
    said(child.wait_with_output().unwrap())
}

fn fifo(folder: &Path, name: &str) -> PathBuf {
    let pipe = folder.join(name);
    assert!(Command::new("mkfifo")
        .arg(&pipe)
        .status()
        .unwrap()
        .success());
    pipe
}

#[test]
fn a_stream_in_pieces_over_a_named_pipe_is_played_as_from_a_file() {
    let (module, folder) = (stored("effects"), folder("arrival_pipe"));
    let newest = stream(&module, "90");
    for stream in [older(&newest, 1), older(&newest, 2), newest] {
        let whole = sound_of(&stream, &module, &folder);
        let (pipe, out) = (fifo(&folder, "line"), folder.join("piped.raw"));
        let [line, sound] = [&pipe, &out].map(|path| path.to_str().unwrap());
        let words = ["board", line, &module, "--out", sound, "--plain"];
        let child = command(&words).stdout(Stdio::piped()).spawn().unwrap();
        let mut to = File::options().write(true).open(&pipe).unwrap();
        for (k, piece) in stream.chunks(37).enumerate() {
            to.write_all(piece).unwrap();
            sleep(Duration::from_millis(u64::from(k < 20)));
        }
        drop(to);
        let output = child.wait_with_output().unwrap();
        assert_eq!(output.stdout, b"0 0 90\n");
        assert!(fs::read(&out).unwrap() == whole);
        fs::remove_file(&pipe).unwrap();
    }
}

#[test]
fn a_stream_on_standard_input_is_played_as_from_a_file() {
    let (module, folder) = (stored("flow"), folder("arrival_input"));
    let stream = stream(&module, "60");
    let whole = sound_of(&stream, &module, &folder);
    let mut child = fed(&module, &["--out", "-"]);
    child.stdin.take().unwrap().write_all(&stream).unwrap();
    let output = child.wait_with_output().unwrap();
    assert!(output.status.success() && output.stdout == whole);
    let text = String::from_utf8(output.stderr).unwrap();
    assert_eq!(
        text,
        "standard input: played 60 ticks, 29161 frames, 0.608 seconds\n"
    );
    for options in [&["--float"][..], &["--float", "--mono"]] {
        let [fed, at_hand] = ["fed.wav", "at_hand.wav"].map(|name| folder.join(name));
        let words = ["--out", fed.to_str().unwrap()];
        assert_eq!(
            told_of(&stream, &module, &[&words[..], options].concat()).0,
            0
        );
        let file = folder.join("whole.stream");
        let words = ["board", file.to_str().unwrap(), &module, "--out"];
        let words = [&words[..], &[at_hand.to_str().unwrap()], options].concat();
        assert_eq!(told(&words).0, 0);
        assert!(fs::read(fed).unwrap() == fs::read(at_hand).unwrap());
    }
}

/// The first tick is heard while the other end still waits with the second.
#[test]
fn a_tick_is_written_when_its_last_byte_is_in() {
    let module = stored("flow");
    let stream = stream(&module, "3");
    let mut child = fed(&module, &["--out", "-"]);
    let (mut to, mut from) = (child.stdin.take().unwrap(), child.stdout.take().unwrap());
    let first = 10 + 2 + 6 * stream[10].count_ones() as usize;
    let mut tick = [0; 4 * 470];
    to.write_all(&stream[..first]).unwrap();
    from.read_exact(&mut tick).unwrap();
    assert!(tick.iter().any(|&byte| byte != 0) || stream[10] == 0);
    to.write_all(&stream[first..]).unwrap();
    drop(to);
    let mut rest = Vec::new();
    from.read_to_end(&mut rest).unwrap();
    assert_eq!(rest.len(), 4 * (471 + 470));
    assert!(child.wait().unwrap().success());
}

#[test]
fn faults_come_after_the_sound_before_them() {
    let (module, folder) = (stored("flow"), folder("arrival_faults"));
    let good = stream(&module, "40");
    // The records' places: a mask, a tempo, and six bytes a channel.
    let mut places = vec![10];
    while let Some(mask) = good.get(*places.last().unwrap()) {
        places.push(places.last().unwrap() + 2 + 6 * mask.count_ones() as usize);
    }
    let mut damaged = good.clone();
    damaged[places[25] + 1] = 31;
    let cut = &good[..places[30] + 1];
    let over = [&good[..], &[7, 8, 9]].concat();
    for (name, stream, ticks, number, place, taken) in [
        ("damaged", &damaged[..], 25, 23, places[25], places[25] + 2),
        ("cut", cut, 30, 21, cut.len(), cut.len()),
        ("over", &over, 40, 21, good.len() + 1, good.len()),
    ] {
        let out = folder.join(name).with_extension("raw");
        let options = ["--out", out.to_str().unwrap()];
        let (status, text, _) = told_of(stream, &module, &options);
        let (start, end) = (
            format!("standard input: refused {number} at {place}: "),
            format!(" (ticks played {ticks}, bytes taken {taken})\n"),
        );
        assert_eq!(status, 1, "{name}");
        assert!(text.starts_with(&start) && text.ends_with(&end), "{text}");
        assert!(fs::read(&out).unwrap() == played(&module, ticks), "{name}");
        let words = ["--plain", "--out", out.to_str().unwrap()];
        let line = format!("{number} {place} {ticks}\n");
        assert_eq!(
            told_of(stream, &module, &words),
            (1, line, String::new()),
            "{name}"
        );
    }
}

#[test]
fn objects_say_how_far_a_stream_came() {
    let (module, folder) = (stored("flow"), folder("arrival_objects"));
    let good = stream(&module, "3");
    let (all, cut) = (good.len(), good.len() - 1);
    let sound = folder.join("came.raw");
    let out = sound.to_str().unwrap();
    let start = r#"{"schema":1,"file":"standard input","number":"#;
    let accepted = format!(
        r#"{start}0,"place":0,"meaning":"accepted","module":"{module}","ticks_played":3,"bytes_taken":{all},"frames":1411,"out":"{out}"}}"#
    );
    let meaning =
        "the stream is shorter than 9 bytes, or its length is not 4 plus its first number";
    let refused = format!(
        r#"{start}21,"place":{cut},"meaning":"{meaning}","ticks_played":2,"bytes_taken":{cut}}}"#
    );
    for (bytes, status, object) in [(all, 0, accepted), (cut, 1, refused)] {
        let told = told_of(&good[..bytes], &module, &["--json", "--out", out]);
        assert_eq!(told, (status, object + "\n", String::new()));
    }
}

#[test]
fn without_a_tick_nothing_is_written() {
    let (module, folder) = (stored("flow"), folder("arrival_nothing"));
    let good = stream(&module, "3");
    let mut version = good.clone();
    version[4] = 4;
    let out = folder.join("none.wav");
    let options = ["--plain", "--out", out.to_str().unwrap()];
    for (stream, answer) in [
        (&good[..0], "21 0 0\n"),
        (&good[..12], "21 12 0\n"),
        (&version, "22 4 0\n"),
        (&[0; 9], "21 4 0\n"),
    ] {
        let told = told_of(stream, &module, &options);
        assert_eq!(told, (1, answer.into(), String::new()));
    }
    // A module that is refused is told before a byte of the stream is awaited.
    let child = fed("/dev/null", &options);
    let output = child.wait_with_output().unwrap();
    assert_eq!(
        (output.status.code(), &output.stdout[..]),
        (Some(1), &b"1 0 0\n"[..])
    );
    assert_eq!(fs::read_dir(&folder).unwrap().count(), 0);
}

/// A regular file stays judged as a whole where it is standard input, too.
#[test]
fn a_bad_file_on_standard_input_writes_nothing() {
    let module = stored("flow");
    let mut bytes = stream(&module, "9");
    bytes.pop();
    let (bad, out) = (own("bad_input.stream"), own("bad_input.raw"));
    fs::write(&bad, &bytes).unwrap();
    let words = ["board", "-", &module, "--out", out.to_str().unwrap()];
    let output = command(&words).stdin(File::open(&bad).unwrap()).output();
    assert_eq!(said(output.unwrap()).0, 1);
    assert!(!out.exists());
}
