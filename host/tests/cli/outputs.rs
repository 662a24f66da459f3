//! Where results and messages go.
use crate::common::{command, folder, own, said, stored, told};
use std::os::unix::fs::symlink;
use std::path::Path;
use std::process::{Command, Stdio};

/// A stored module with another tag.
fn refused(name: &str) -> String {
    let mut file = std::fs::read(stored("flow")).unwrap();
    file[1080] = b'm';
    let bad = own(name);
    std::fs::write(&bad, file).unwrap();
    bad.to_str().unwrap().into()
}

#[test]
fn a_refusal_stays_out_of_the_sound() {
    let bad = &refused("refused_sound.mod");
    let stream = own("refused_sound.stream");
    let stream = stream.to_str().unwrap();
    let words = [
        "translate",
        &stored("flow"),
        "--ticks",
        "3",
        "--out",
        stream,
    ];
    assert_eq!(told(&words).0, 0);
    for words in [
        &["play", bad, "--out", "-"][..],
        &["translate", bad, "--ticks", "3", "--out", "-"],
        &["board", stream, bad, "--out", "-"],
    ] {
        let (status, out, err) = told(words);
        assert_eq!((status, out.as_str()), (1, ""), "{words:?}");
        assert!(
            err.contains("refused_sound.mod: refused 2 at 1080"),
            "{err}"
        );
    }
}

#[test]
fn messages_are_in_words_alone() {
    let (_, _, err) = told(&["judge", "no/such"]);
    assert_eq!(err, "lampthistle: no/such: No such file or directory\n");
}

#[test]
fn replay_judges_before_it_opens() {
    let bad = &refused("refused_replay.mod");
    let kept = own("refused_replay.raw");
    std::fs::write(&kept, "kept").unwrap();
    let script = own("refused_replay.txt");
    for calls in ["", "play 3\ntouch 0 0 0\n"] {
        std::fs::write(&script, calls).unwrap();
        let (script, kept) = (script.to_str().unwrap(), kept.to_str().unwrap());
        let (status, out, err) = told(&["replay", bad, script, "--out", kept]);
        assert_eq!((status, err.as_str()), (1, ""));
        assert!(
            out.contains("refused_replay.mod: refused 2 at 1080"),
            "{out}"
        );
        assert_eq!(std::fs::read(kept).unwrap(), b"kept");
    }
}

/// A folder of this name with a script, and the names in it that a run leaves.
fn trial_folder(name: &str) -> (std::path::PathBuf, impl Fn() -> Vec<String>) {
    let folder = folder(name);
    std::fs::write(folder.join("trial.txt"), "play 3\npage\n").unwrap();
    let own = folder.clone();
    let names = move || {
        let names = std::fs::read_dir(&own).unwrap();
        let mut names: Vec<String> = names
            .map(|entry| entry.unwrap().file_name().into_string().unwrap())
            .collect();
        names.sort();
        names
    };
    (folder, names)
}

/// Runs replay in a folder, with these outputs: status, standard output and standard error.
fn replayed(folder: &Path, out: &str, record: &str) -> (i32, String, String) {
    let words = ["replay", &stored("flow"), "trial.txt"];
    let mut command = command(&words);
    command.args(["--out", out, "--record", record]);
    said(command.current_dir(folder).output().unwrap())
}

#[test]
fn two_outputs_are_two_files() {
    let (folder, names) = trial_folder("two_outputs");
    std::fs::write(folder.join("there.raw"), "kept").unwrap();
    std::fs::hard_link(folder.join("there.raw"), folder.join("hard.raw")).unwrap();
    symlink("there.raw", folder.join("link.raw")).unwrap();
    symlink("new.raw", folder.join("dangling.raw")).unwrap();
    symlink("dangling.raw", folder.join("twice.raw")).unwrap();
    let before = names();
    let whole = folder.join("new.raw");
    for (out, record) in [
        ("new.raw", "new.raw"),
        ("new.raw", "./new.raw"),
        ("new.raw", whole.to_str().unwrap()),
        ("new.raw", "../two_outputs/new.raw"),
        ("dangling.raw", "new.raw"),
        ("new.raw", "twice.raw"),
        ("there.raw", "there.raw"),
        ("link.raw", "there.raw"),
        ("there.raw", "hard.raw"),
        ("-", "/dev/stdout"),
    ] {
        let (status, told, err) = replayed(&folder, out, record);
        assert_eq!((status, told.as_str()), (2, ""), "{out} {record}: {err}");
        let said = "replay: --out and --record are one file\n";
        assert!(err.contains(said), "{out} {record}: {err}");
        assert_eq!(names(), before, "{out} {record}");
        assert_eq!(std::fs::read(folder.join("there.raw")).unwrap(), b"kept");
    }
    // Names that lead to two files, and one device.
    symlink("/dev/null", folder.join("null.raw")).unwrap();
    for (out, record) in [("there.raw", "new.raw"), ("null.raw", "/dev/null")] {
        assert_eq!(replayed(&folder, out, record).0, 0, "{out} {record}");
    }
}

#[test]
fn a_script_is_kept_from_its_outputs() {
    let (folder, names) = trial_folder("kept_script");
    symlink("trial.txt", folder.join("trial.raw")).unwrap();
    let before = names();
    for (out, record) in [("new.raw", "trial.txt"), ("trial.raw", "new.record")] {
        let (status, told, err) = replayed(&folder, out, record);
        // Nothing has run: no call is answered, and no sound is there.
        assert_eq!((status, told.as_str()), (2, ""), "{out} {record}: {err}");
        assert!(err.ends_with(": is read, too\n"), "{err}");
        assert_eq!(names(), before, "{out} {record}");
    }
    // Nor does standard output go on in it.
    let path = folder.join("trial.txt");
    for option in ["--out", "--record"] {
        let appended = std::fs::File::options().append(true).open(&path).unwrap();
        let words = ["replay", &stored("flow"), "trial.txt", option, "-"];
        let mut command = command(&words);
        let output = command.current_dir(&folder).stdout(appended).output();
        let (status, _, err) = said(output.unwrap());
        assert_eq!(
            (status, err.as_str()),
            (2, "lampthistle: -: is read, too\n")
        );
    }
    assert_eq!(std::fs::read(&path).unwrap(), b"play 3\npage\n");
}

#[test]
fn a_link_to_no_file_is_followed() {
    let (folder, names) = trial_folder("dangling");
    std::fs::create_dir(folder.join("far")).unwrap();
    symlink("far/second.raw", folder.join("first.raw")).unwrap();
    symlink("../third.raw", folder.join("far/second.raw")).unwrap();
    symlink("no/such.record", folder.join("no.record")).unwrap();
    assert_eq!(replayed(&folder, "first.raw", "a.record").0, 0);
    assert!(folder.join("first.raw").is_symlink() && folder.join("far/second.raw").is_symlink());
    let sound = std::fs::read(folder.join("third.raw")).unwrap();
    assert_eq!(sound.len(), 4 * crate::common::frames(3));
    let before = names();
    let (status, _, err) = replayed(&folder, "third.raw", "no.record");
    assert_eq!(status, 2);
    assert!(
        err.ends_with("no.record: No such file or directory\n"),
        "{err}"
    );
    assert!(folder.join("no.record").is_symlink());
    assert_eq!(names(), before);
}

#[test]
fn sound_is_kept_from_a_terminal() {
    let module = stored("flow");
    for line in ["play M --out -", "translate M --ticks 9 --out -"] {
        // script runs a command on a terminal of its own.
        let line = line.replace('M', &format!("'{module}'"));
        let line = format!("'{}' {line}", env!("CARGO_BIN_EXE_lampthistle"));
        let output = Command::new("script")
            .args(["-qec", &line, "/dev/null"])
            .stdin(Stdio::null())
            .output()
            .unwrap();
        let (status, out, _) = said(output);
        assert_eq!(status, 2, "{out}");
        assert!(out.contains("standard output is a terminal"), "{out}");
    }
}
