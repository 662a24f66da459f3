//! What interrupted runs leave beside a file, and what the next one takes away.
use crate::common::{command, folder, frames, stored, told};
use std::ffi::OsString;
use std::fs::Permissions;
use std::os::unix::fs::{symlink, PermissionsExt};
use std::path::Path;
use std::process::{Child, Stdio};
use std::thread::sleep;
use std::time::{Duration, SystemTime};

/// A run that takes long, and ends with the test at the latest.
struct Run(Child);

impl Run {
    /// Plays to this file until its part of this number is written, and has more than so many bytes.
    fn new(out: &Path, number: usize, bytes: u64) -> Run {
        let words = ["play", &stored("flow"), "--ticks", "1000000", "--out"];
        let mut command = command(&words);
        let began = SystemTime::now();
        let run = Run(command.arg(out).stdout(Stdio::null()).spawn().unwrap());
        let part = out.with_extension(format!("raw.{number}.part"));
        let is_written = || {
            let about = part.metadata().ok()?;
            let changed = about.modified().ok()? >= began;
            Some(changed && about.len() > bytes)
        };
        while is_written() != Some(true) {
            let waited = began.elapsed().unwrap_or_default();
            assert!(waited < Duration::from_secs(10), "{part:?} is not written");
            sleep(Duration::from_millis(1));
        }
        run
    }
}

impl Drop for Run {
    fn drop(&mut self) {
        let _ = self.0.kill();
        let _ = self.0.wait();
    }
}

fn length(path: &Path) -> u64 {
    path.metadata().map_or(0, |about| about.len())
}

/// The names in a folder.
fn names(folder: &Path) -> Vec<OsString> {
    let names = std::fs::read_dir(folder).unwrap();
    let mut names: Vec<OsString> = names.map(|entry| entry.unwrap().file_name()).collect();
    names.sort();
    names
}

/// Plays two ticks to a file.
fn play(out: &Path) {
    let words = ["play", &stored("flow"), "--ticks", "2", "--out"];
    let words = [&words[..], &[out.to_str().unwrap()]].concat();
    assert_eq!(told(&words).0, 0);
    assert_eq!(length(out), 4 * frames(2) as u64);
}

#[test]
fn interrupted_runs_leave_one_part_at_most() {
    let folder = folder("leftovers");
    let out = folder.join("left.raw");
    for _ in 0..3 {
        drop(Run::new(&out, 0, 100_000));
        assert_eq!(names(&folder), ["left.raw.0.part"]);
    }
    play(&out);
    assert_eq!(names(&folder), ["left.raw"]);
}

#[test]
fn runs_at_one_time_leave_each_other_alone() {
    let folder = folder("many_runs");
    let out = folder.join("many.raw");
    let [first, second, third] = [0, 1, 2].map(|k| Run::new(&out, k, 0));
    play(&out);
    // All three go on.
    for number in 0..3 {
        let part = folder.join(format!("many.raw.{number}.part"));
        let before = length(&part);
        while length(&part) == before {
            sleep(Duration::from_millis(1));
        }
    }
    drop((first, third));
    play(&out);
    assert_eq!(names(&folder), ["many.raw", "many.raw.1.part"]);
    drop(second);
    play(&out);
    assert_eq!(names(&folder), ["many.raw"]);
}

#[test]
fn what_is_no_leftover_stays() {
    let folder = folder("no_leftovers");
    let (out, at) = (folder.join("x.raw"), |name: &str| folder.join(name));
    std::fs::write(at("there"), "there").unwrap();
    std::fs::create_dir(at("x.raw.0.part")).unwrap();
    symlink("there", at("x.raw.1.part")).unwrap();
    let others = [
        "x.raw..part",
        "x.raw.a.part",
        "x.raw.2.parts",
        "y.raw.0.part",
    ];
    for name in others {
        std::fs::write(at(name), "other").unwrap();
    }
    // A script of such a name is read, too.
    let script = at("x.raw.2.part");
    std::fs::write(&script, "play 2\n").unwrap();
    let before = names(&folder);
    let (script, name) = (script.to_str().unwrap(), out.to_str().unwrap());
    let words = ["replay", &stored("flow"), script, "--out", name];
    assert_eq!(told(&words).0, 0);
    std::fs::remove_file(&out).unwrap();
    assert_eq!(names(&folder), before);
    assert_eq!(std::fs::read(at("there")).unwrap(), b"there");
}

#[test]
fn a_leftover_gives_nothing_to_the_file() {
    let folder = folder("old_leftover");
    let (new, old) = (folder.join("new.raw"), folder.join("old.raw"));
    let left = folder.join("old.raw.0.part");
    std::fs::write(&left, vec![1; 100_000]).unwrap();
    std::fs::set_permissions(&left, Permissions::from_mode(0o600)).unwrap();
    play(&new);
    play(&old);
    let mode = |path: &Path| path.metadata().unwrap().permissions().mode();
    assert_eq!(mode(&new), mode(&old));
    assert!(std::fs::read(&new).unwrap() == std::fs::read(&old).unwrap());
    assert_eq!(names(&folder), ["new.raw", "old.raw"]);
}
