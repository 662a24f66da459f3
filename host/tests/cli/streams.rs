//! What the commands for tick streams print and write.
use crate::common::{in_small_memory, older, own, stored, told};
use std::os::unix::fs::symlink;
use std::process::Stdio;

fn translated(module: &str, ticks: &str, name: &str) -> String {
    let stream = own(name).to_str().unwrap().to_string();
    let words = ["translate", module, "--ticks", ticks, "--out", &stream];
    assert_eq!(told(&words).0, 0);
    stream
}

#[test]
fn the_board_plays_what_the_player_plays() {
    for name in ["effects", "flow", "edges"] {
        let module = stored(name);
        let stream = translated(&module, "60", &format!("{name}.stream"));
        let board = own(&format!("{name}_board.raw"));
        let player = own(&format!("{name}_player.raw"));
        let words = ["board", &stream, &module, "--plain", "--out"];
        let mut words = words.map(String::from).to_vec();
        words.push(board.to_str().unwrap().into());
        assert_eq!(told(&words), (0, "0 0 60\n".into(), String::new()));
        let words = ["play", &module, "--ticks", "60", "--out"];
        let mut words = words.map(String::from).to_vec();
        words.push(player.to_str().unwrap().into());
        assert_eq!(told(&words).0, 0);
        assert!(std::fs::read(board).unwrap() == std::fs::read(player).unwrap());
        let (status, out, _) = told(&["compare", &module, "--ticks", "60", "--plain"]);
        assert_eq!((status, out.as_str()), (0, "0 0 60\n"));
    }
}

#[test]
fn bad_streams_are_refused_and_nothing_is_written() {
    let module = stored("flow");
    let stream = translated(&module, "3", "bad.stream");
    let mut bytes = std::fs::read(&stream).unwrap();
    bytes[4] = 4;
    std::fs::write(&stream, bytes).unwrap();
    let out = own("bad_board.wav");
    let words = ["board", &stream, &module, "--out", out.to_str().unwrap()];
    let (status, text, _) = told(&words);
    assert_eq!(status, 1);
    assert!(text.ends_with(": refused 22 at 4: the stream's version is not 1, 2 or 3\n"));
    assert!(!out.exists());
}

#[test]
fn too_many_ticks_are_refused() {
    let module = stored("flow");
    for (command, to) in [
        ("translate", "to translate"),
        ("trace", "of a module to show"),
        ("compare", "for the board to play"),
    ] {
        let mut words = vec![command, &module, "--ticks", "65536"];
        if command == "translate" {
            words.extend(["--out", "too_many.stream"]);
        }
        let line = format!("{module}: refused 11 at 0: more than 65,535 ticks {to}\n");
        assert_eq!(told(&words), (1, line, String::new()));
        words.push("--plain");
        let (status, out, _) = told(&words);
        assert_eq!((status, out.as_str()), (1, "11 0 0\n"), "{command}");
    }
    let (_, out, _) = told(&["trace", &module, "--ticks", "65536", "--json"]);
    let end = "\"meaning\":\"more than 65,535 ticks of a module to show\"}\n";
    assert!(out.ends_with(end), "{out}");
    assert!(!own("too_many.stream").exists());
}

/// A stream of silent ticks at tempo 32, 15,000 bytes of sound each.
fn silence(name: &str, ticks: u32) -> String {
    let mut bytes = (2 * ticks + 5).to_be_bytes().to_vec();
    bytes.push(1);
    bytes.extend_from_slice(&ticks.to_be_bytes());
    bytes.extend([0, 32].repeat(ticks as usize));
    let stream = own(name);
    std::fs::write(&stream, bytes).unwrap();
    stream.to_str().unwrap().into()
}

#[test]
fn the_board_plays_any_length() {
    // 1.2 GB of sound.
    let stream = silence("large.stream", 80_000);
    let null = own("null.raw");
    let _ = std::fs::remove_file(&null);
    symlink("/dev/null", &null).unwrap();
    let null = null.to_str().unwrap();
    let words = ["board", "--plain", &stream, &stored("flow"), "--out", null];
    let answer = (0, "0 0 80000\n".into(), String::new());
    assert_eq!(in_small_memory(&words, Stdio::piped()), answer);
    let stream = silence("larger.stream", 300_000);
    let words = ["board", &stream, &stored("flow"), "--out", "larger.wav"];
    let (status, out, err) = told(&words);
    assert_eq!((status, out.as_str()), (2, ""));
    assert!(err.contains("larger.wav: a .wav file holds"), "{err}");
}

#[test]
fn player_and_board_are_compared_in_pieces() {
    // 120,000 frames in 255 ticks: 75 MB of sound. In `flow` two channels hold their notes to the end.
    let answer = (0, "0 0 40000\n".into(), String::new());
    for name in ["effects", "edges", "flow"] {
        let words = ["compare", &stored(name), "--ticks", "40000", "--plain"];
        assert_eq!(in_small_memory(&words, Stdio::piped()), answer, "{name}");
    }
}

/// A module whose first row starts a looped note at tempo 32 that nothing ends: its second position jumps to itself.
fn held(name: &str) -> String {
    let mut file = vec![0; 1_084 + 2 * 1_024];
    // Sample 1: length, volume and repeat length. Two positions, of patterns 0 and 1.
    (file[43], file[45], file[49]) = (4, 64, 4);
    (file[950], file[953]) = (2, 1);
    file[1080..1084].copy_from_slice(b"M.K.");
    // The first cell has the note with F20, the last row begins with B01.
    file[1084..1088].copy_from_slice(&[1, 0xAC, 0x1F, 32]);
    let last = file.len() - 16;
    file[last..last + 4].copy_from_slice(&[0, 0, 0x0B, 1]);
    file.extend_from_slice(&[1, 2, 100, 90, 50, 156, 200, 30]);
    let module = own(name);
    std::fs::write(&module, file).unwrap();
    module.to_str().unwrap().into()
}

#[test]
fn a_note_held_through_65535_ticks_is_played_in_small_memory() {
    // 983 MB of sound as 16-bit numbers.
    let module = held("held.mod");
    let stream = translated(&module, "65535", "held.stream");
    for options in [&[][..], &["--float"]] {
        let words = ["board", "--plain", &stream, &module, "--out", "-"];
        let (status, _, err) = in_small_memory(&[&words, options].concat(), Stdio::null());
        assert_eq!((status, err.as_str()), (0, "0 0 65535\n"));
    }
}

#[test]
fn a_note_held_through_65535_ticks_is_compared_in_small_memory() {
    let module = held("held_compared.mod");
    for options in [&[][..], &["--float"]] {
        let words = ["compare", "--plain", &module, "--ticks", "65535"];
        let (status, out, err) = in_small_memory(&[&words, options].concat(), Stdio::piped());
        assert_eq!((status, out.as_str()), (0, "0 0 65535\n"), "{err}");
    }
}

#[test]
fn trace_marks_what_changes() {
    let (status, out, _) = told(&["trace", "--plain", "--ticks", "2", &stored("effects")]);
    let lines = "0 0 32\n\
        0 0 0 255 150 470 1 1 64 428 1 0 0 1 2 32 285 1 0 0 0 0 0 0 0 0 0 0 0 0 0 0 0 0\n\
        1 0 0 255 45 471 1 1 64 339 0 0 0 0 2 32 285 0 0 0 0 0 0 0 0 0 0 0 0 0 0 0 0 0\n";
    assert_eq!((status, out.as_str()), (0, lines));
    let (_, out, _) = told(&["trace", "--ticks", "4", &stored("effects")]);
    assert!(
        out.contains(
            "    0    0   0   255 150    470  * 1 64 428    @0       * 2 32 285    @0         0  0   0"
        ),
        "{out}"
    );
    assert!(
        out.contains("    1    0   0   255  45    471  * 1 64 339               2 32 285  "),
        "{out}"
    );
    assert!(out.contains("    3    0   1   255 "), "{out}");
}

/// The vibrato F8 on period 428 and the tremolo B9 on volume 40, both from place 0.
#[test]
fn trace_shows_waves() {
    let module = stored("waves");
    let plain = told(&["trace", "--plain", "--waves", "--ticks", "3", &module]).1;
    let lines: Vec<&str> = plain.lines().collect();
    let first =
        "0 0 0 125 0 960 1 1 64 428 1 0 0 15 8 0 0 0 0 0 0 1 2 40 285 1 0 0 0 0 0 0 11 9 0 0 ";
    let third =
        "2 0 0 125 0 960 1 1 64 443 0 0 0 15 8 30 0 0 0 0 0 1 2 64 285 0 0 0 0 0 0 0 11 9 22 0 ";
    assert!(lines[1].starts_with(first), "{}", lines[1]);
    assert!(lines[3].starts_with(third), "{}", lines[3]);
    let (status, out, _) = told(&["trace", "--waves", "--ticks", "16", &module]);
    let line =
        "    2    0   0   125   0    960  * 1 64 443            v F8 30 sine   t 00  0 sine  ";
    assert!(status == 0 && out.contains(line), "{out}");
    assert!(out.contains("ramp"), "{out}");
    let stream = translated(&module, "9", "waves.stream");
    let (status, _, err) = told(&["trace", "--waves", &stream]);
    assert_eq!(status, 2);
    assert!(err.contains("a stream has no waves"), "{err}");
    let (_, out, _) = told(&["trace", "--json", "--ticks", "1", &stream]);
    assert!(out.contains(r#""vibrato":null,"tremolo":null"#), "{out}");
}

#[test]
fn trace_shows_a_stream() {
    let module = stored("effects");
    let stream = translated(&module, "9", "shown.stream");
    let lines = |file: &str| told(&["trace", "--plain", "--ticks", "2", file]).1;
    let (own, other) = (lines(&module), lines(&stream));
    let bytes = std::fs::read(&stream).unwrap().len();
    assert!(
        other.starts_with(&format!("0 0 {bytes}\n0 - - 255 150 470 1 1 64 428")),
        "{other}"
    );
    // The same registers, without a place and without finetunes, which are all 0 in the module.
    let registers = |text: &str| -> Vec<String> {
        let lines = text.lines().skip(1);
        lines
            .map(|line| line.splitn(4, ' ').nth(3).unwrap().to_string())
            .collect()
    };
    assert_eq!(registers(&own), registers(&other.replace(" -", " 0")));
    // By version 1 no tick leaves a remainder.
    let mut bytes = std::fs::read(&stream).unwrap();
    std::fs::write(&stream, older(&bytes, 1)).unwrap();
    let old = lines(&stream);
    assert!(
        old.contains("\n0 - - 255 0 470 ") && old.contains("\n1 - - 255 0 470 "),
        "{old}"
    );
    for version in [0, 4, 255] {
        bytes[4] = version;
        std::fs::write(&stream, &bytes).unwrap();
        assert_eq!(told(&["trace", "--plain", &stream]).1, "22 4 0\n");
    }
    std::fs::write(&stream, &bytes[..8]).unwrap();
    assert_eq!(told(&["trace", "--plain", &stream]).1, "21 8 0\n");
    let (status, _, err) = told(&["trace", &translated(&module, "9", "once.shown"), "--once"]);
    assert_eq!(status, 2);
    assert!(err.contains("a stream has no places"), "{err}");
}
