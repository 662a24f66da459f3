//! What each command prints and writes.
use crate::common::{frames, own, run, stored, told};
use lampthistle::{fresh, play};

#[test]
fn judge_answers_a_line_a_file() {
    let bad = own("judge_bad.mod");
    let mut file = std::fs::read(stored("flow")).unwrap();
    file[1080] = b'm';
    std::fs::write(&bad, file).unwrap();
    let (good, bad) = (stored("flow"), bad.to_str().unwrap());
    let (status, out, err) = told(&["judge", &good, bad]);
    let lines = format!(
        "{good}: accepted\n{bad}: refused 2 at 1080: the tag at byte 1080 is not M.K., 4CHN, 6CHN or 8CHN (tag m.K.)\n"
    );
    assert_eq!((status, out, err), (1, lines, String::new()));
    let (status, out, _) = told(&["judge", "--plain", &good, "no/such", bad]);
    let lines = format!("0 0 0 {good}\n- - - no/such\n2 1080 0 {bad}\n");
    assert_eq!((status, out), (2, lines));
    assert_eq!(told(&["judge", &good]).0, 0);
}

#[test]
fn info_shows_what_a_module_holds() {
    let (status, out, _) = told(&["info", "--plain", &stored("edges")]);
    let lines = "0 0 0\n1 1 4\n0\n192 90352 0 0\n\
        1 12 64 4 6 0\n2 40 64 0 0 0\n3 4 64 0 4 0\n31 512 1 200 56 0\n";
    assert_eq!((status, out.as_str()), (0, lines));
    let (status, out, _) = told(&["info", &stored("flow")]);
    assert_eq!(status, 0);
    assert!(out.contains("table        0 1 0\n"), "{out}");
}

#[test]
fn play_writes_the_frames_of_the_library() {
    let (raw, wav) = (own("play.raw"), own("play.wav"));
    let module = stored("effects");
    for out in [&raw, &wav] {
        let words = ["play", &module, "--ticks", "30", "--plain", "--out"];
        let mut words = words.map(String::from).to_vec();
        words.push(out.to_str().unwrap().into());
        assert_eq!(told(&words), (0, "0 0 30\n".into(), String::new()));
    }
    let file = std::fs::read(&module).unwrap();
    let mut numbers = vec![0; 2 * frames(30)];
    assert_eq!(play(&file, &mut fresh(), 30, &mut numbers).count, 30);
    let bytes: Vec<u8> = numbers.iter().flat_map(|n| n.to_le_bytes()).collect();
    assert!(std::fs::read(raw).unwrap() == bytes);
    let wav = std::fs::read(wav).unwrap();
    assert!(wav[44..] == bytes);
    assert_eq!(&wav[..4], b"RIFF");
    assert_eq!(wav[4..8], (bytes.len() as u32 + 36).to_le_bytes());
    assert_eq!(wav[40..44], (bytes.len() as u32).to_le_bytes());
}

#[test]
fn play_by_seconds_takes_whole_ticks() {
    let words = ["play", &stored("effects"), "--seconds", "0.1", "--out", "-"];
    let output = run(&words);
    // Of 4,800 frames ten ticks take 4,705, and eleven would take 5,176.
    assert_eq!(output.stdout.len(), 4_705 * 4);
    let told = String::from_utf8(output.stderr).unwrap();
    assert!(
        told.ends_with("played 10 ticks, 4705 frames, 0.098 seconds\n"),
        "{told}"
    );
}

#[test]
fn every_command_has_help_with_an_example() {
    let commands = [
        "judge",
        "info",
        "play",
        "translate",
        "board",
        "trace",
        "why",
        "replay",
        "compare",
        "picture",
    ];
    let (status, all, _) = told(&["--help"]);
    assert_eq!(status, 0);
    for command in commands {
        let (status, help, err) = told(&[command, "--help"]);
        assert_eq!((status, err.as_str()), (0, ""));
        assert!(help.contains("Example"), "{command}");
        assert!(help.contains("Exit status: 0"), "{command}");
        assert!(
            all.contains(&format!("lampthistle {command} ")),
            "{command}"
        );
    }
}

#[test]
fn options_have_other_forms() {
    let module = stored("effects");
    for (k, out) in [
        &["-o", "form.raw"][..],
        &["--out=form.raw"],
        &["-o=form.raw"],
    ]
    .into_iter()
    .enumerate()
    {
        let ticks = k + 1;
        let _ = std::fs::remove_file(own("form.raw"));
        let ticks_word = format!("--ticks={ticks}");
        let words = [&["play", &module, &ticks_word][..], out].concat();
        assert_eq!(told(&words).0, 0, "{out:?}");
        assert_eq!(
            std::fs::read(own("form.raw")).unwrap().len(),
            frames(ticks) * 4
        );
    }
    assert_eq!(told(&["-V"]), told(&["--version"]));
    assert_eq!(told(&["help", "play"]), told(&["play", "--help"]));
}
