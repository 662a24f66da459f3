//! Running the command, and the files that the tests use.
use std::ffi::OsStr;
use std::path::{Path, PathBuf};
use std::process::{Command, Output, Stdio};
use std::thread::sleep;
use std::time::{Duration, Instant};

/// The command, with nothing on standard input, in a folder of its own.
pub fn command<S: AsRef<OsStr>>(words: &[S]) -> Command {
    let mut command = Command::new(env!("CARGO_BIN_EXE_lampthistle"));
    command
        .args(words)
        .stdin(Stdio::null())
        .current_dir(env!("CARGO_TARGET_TMPDIR"));
    command
}

pub fn run<S: AsRef<OsStr>>(words: &[S]) -> Output {
    command(words).output().expect("the command runs")
}

/// Runs and gives status, standard output and standard error.
pub fn told<S: AsRef<OsStr>>(words: &[S]) -> (i32, String, String) {
    said(run(words))
}

pub fn said(output: Output) -> (i32, String, String) {
    let text = |bytes| String::from_utf8(bytes).expect("plain text");
    let status = output.status.code().expect("it ended by itself");
    (status, text(output.stdout), text(output.stderr))
}

/// Runs to the end, which must come within a minute.
pub fn in_time(command: &mut Command) -> Output {
    let mut child = command
        .stdout(Stdio::piped())
        .stderr(Stdio::piped())
        .spawn()
        .expect("the command runs");
    let late = Instant::now() + Duration::from_secs(60);
    while child.try_wait().expect("it is there").is_none() {
        if Instant::now() > late {
            child.kill().expect("it runs");
            panic!("it did not end: {command:?}");
        }
        sleep(Duration::from_millis(5));
    }
    child.wait_with_output().expect("it ended")
}

/// Runs the command in an address space of 64 MB; what is resident is a part of it.
pub fn in_small_memory(words: &[&str], out: Stdio) -> (i32, String, String) {
    let script = "ulimit -v 62500; exec \"$0\" \"$@\"";
    let mut shell = Command::new("sh");
    shell.args(["-c", script, env!("CARGO_BIN_EXE_lampthistle")]);
    said(shell.args(words).stdout(out).output().unwrap())
}

/// An empty folder of this name in the tests' own folder.
pub fn folder(name: &str) -> PathBuf {
    let folder = own(name);
    let _ = std::fs::remove_dir_all(&folder);
    std::fs::create_dir(&folder).expect("a new folder");
    folder
}

/// A stored module.
pub fn stored(name: &str) -> String {
    let root = Path::new(env!("CARGO_MANIFEST_DIR")).join("..");
    let file = root.join("crates/play_cases/data").join(name);
    file.to_str().expect("a plain path").into()
}

/// A new module of one pattern and no samples, with these first cells, as a file of this name in the tests' own folder.
pub fn quiet(name: &str, cells: &[u8]) -> String {
    tagged(name, b"M.K.", cells)
}

/// The same with a tag; a pattern has 256 bytes for each channel that it names.
pub fn tagged(name: &str, tag: &[u8; 4], cells: &[u8]) -> String {
    let channels = match tag {
        b"6CHN" => 6,
        b"8CHN" => 8,
        _ => 4,
    };
    let mut file = vec![0; 1_084 + 256 * channels];
    file[950] = 1;
    file[1080..1084].copy_from_slice(tag);
    file[1084..][..cells.len()].copy_from_slice(cells);
    let path = own(name);
    std::fs::write(&path, file).expect("it can be written");
    path.to_str().expect("a plain path").into()
}

/// A stream of four channels by an older version, which has no channel count.
pub fn older(stream: &[u8], version: u8) -> Vec<u8> {
    let follow = stream.len() as u32 - 5;
    [&follow.to_be_bytes(), &[version][..], &stream[6..]].concat()
}

/// The frames of the first ticks of the stored modules, which are at tempo 255.
pub fn frames(ticks: usize) -> usize {
    120_000 * ticks / 255
}

/// The bytes' checksum by docs/FORMATS.md.
pub fn checksum(bytes: &[u8]) -> String {
    let step = |h: u64, &b: &u8| (h ^ u64::from(b)).wrapping_mul(0x100000001b3);
    format!("{:016x}", bytes.iter().fold(0xcbf29ce484222325, step))
}

/// A record whose end is made anew, for what stands before it.
pub fn ended(record: &str) -> String {
    let end = record.trim_end().rfind('\n').expect("lines before its end") + 1;
    let before = &record[..end];
    let names = ["play", "touch", "burst", "page", "why"];
    let is_call = |line: &&str| names.iter().any(|name| line.starts_with(name));
    let calls = before.lines().filter(is_call).count();
    format!("{before}end {calls} {}\n", checksum(before.as_bytes()))
}

/// A file's name in the tests' own folder.
pub fn own(name: &str) -> PathBuf {
    Path::new(env!("CARGO_TARGET_TMPDIR")).join(name)
}
