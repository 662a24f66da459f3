//! Why each channel is quiet.
use crate::common::{quiet, stored, told};

/// A module of one pattern with a loud sample 1 that ends, and these first cells, as a file of this name in the tests' own folder.
fn ending(name: &str, cells: &[u8]) -> String {
    let path = quiet(name, cells);
    let mut file = std::fs::read(&path).unwrap();
    (file[43], file[45]) = (100, 64);
    file.extend_from_slice(&[90; 200]);
    std::fs::write(&path, file).unwrap();
    path
}

#[test]
fn each_channel_has_a_line() {
    // Channel 1 plays on, 2 begins at its end, 3 has its volume taken, 4 has nothing.
    let cells = [
        [1, 0xAC, 0x10, 0],
        [1, 0xAC, 0x19, 4],
        [1, 0xAC, 0x1C, 0],
        [0; 4],
    ];
    let module = ending("channels.mod", &cells.concat());
    let (status, out, err) = told(&["why", &module]);
    let lines = "channel 1: sounds\nchannel 2: quiet: its sample has ended\n\
        channel 3: quiet: its volume is 0\nchannel 4: quiet: it has no sample\n";
    assert_eq!((status, out.as_str(), err.as_str()), (0, lines, ""));
    let (status, out, _) = told(&["why", &module, "--plain"]);
    assert_eq!(
        (status, out.as_str()),
        (0, "0 0 6 1\n0 0 3 2\n0 0 4 3\n0 0 1 4\n")
    );
    let (_, out, _) = told(&["why", &module, "--channel", "3"]);
    assert_eq!(out, "channel 3: quiet: its volume is 0\n");
}

#[test]
fn the_ticks_are_played_first() {
    let module = ending("ticks.mod", &[1, 0xAC, 0x10, 0]);
    // 200 bytes at period 428 last for 1,159 frames: the first tick, and not the second.
    for (ticks, cause) in [("0", 1), ("1", 6), ("2", 3), ("1000", 3)] {
        let words = ["why", &module, "--ticks", ticks, "--channel=1", "--plain"];
        let (status, out, _) = told(&words);
        assert_eq!((status, out), (0, format!("0 0 {cause} 1\n")), "{ticks}");
    }
}

/// The causes after so many ticks, as plain lines.
fn after(module: &str, words: &[&str]) -> String {
    let (status, out, err) = told(&[&["why", module, "--plain"], words].concat());
    assert_eq!((status, err.as_str()), (0, ""), "{words:?}");
    out
}

#[test]
fn seconds_and_places_need_no_ticks() {
    // At tempo 255 four ticks are 1,882 frames: 0.0392083 seconds.
    let module = &stored("flow");
    for (words, ticks) in [
        (&["--seconds", "0.0392083"][..], "3"),
        (&["--seconds", "0.0392084"], "4"),
        (&["--seconds", "0"], "0"),
        (&["--position", "0"], "1"),
        (&["--position", "0", "--row", "1"], "4"),
    ] {
        assert_eq!(after(module, words), after(module, &["--ticks", ticks]));
    }
    let (_, out, _) = told(&["why", module, "--seconds", "0.0392084"]);
    let (line, causes) = out.split_once('\n').unwrap();
    assert_eq!(line, "after 4 ticks, 0.039 seconds, in position 0, row 1");
    assert_eq!(causes, told(&["why", module, "--ticks", "4"]).1);
    let (_, out, _) = told(&["why", module, "--seconds", "0"]);
    let line = "after 0 ticks, 0.000 seconds, before the first row\n";
    assert!(out.starts_with(line), "{out}");
    // Each position that trace shows is found at its first tick.
    let (_, trace, _) = told(&["trace", module, "--once", "--plain"]);
    let mut found = Vec::new();
    for line in trace.lines().skip(1) {
        let words: Vec<&str> = line.split(' ').collect();
        if !found.contains(&words[1]) {
            found.push(words[1]);
            let (_, out, _) = told(&["why", module, "--position", words[1]]);
            let ticks = words[0].parse::<u32>().unwrap() + 1;
            let unit = if ticks == 1 { "tick" } else { "ticks" };
            let start = format!("after {ticks} {unit}, ");
            assert!(out.starts_with(&start), "{out}");
        }
    }
    assert!(found.len() > 1);
}

#[test]
fn places_that_a_song_does_not_come_to_are_told() {
    let module = &stored("flow");
    for (words, reason) in [
        (
            &["--position", "99"][..],
            "does not come to position 99 within ",
        ),
        (
            &["--position", "0", "--row", "64"],
            "position 0, row 64 within",
        ),
        (&["--row", "1"], "--row goes with --position"),
        (&["--position", "1", "--ticks", "1"], "exclude each other"),
        (&["--seconds", "1", "--ticks", "1"], "exclude each other"),
        (&["--position", "first"], "--position: not a number"),
    ] {
        let (status, out, err) = told(&[&["why", module], words].concat());
        assert_eq!((status, out.as_str()), (2, ""), "{words:?}");
        assert!(err.contains(reason), "{err}");
    }
}

#[test]
fn a_byte_that_reads_0_is_a_cause() {
    let module = ending("zeros.mod", &[1, 0xAC, 0x10, 0]);
    let mut file = std::fs::read(&module).unwrap();
    let bytes = file.len() - 200;
    file[bytes..].fill(0);
    std::fs::write(&module, file).unwrap();
    let (status, out, _) = told(&["why", &module, "--channel", "1"]);
    let line = "channel 1: quiet: its sample is at a byte that reads 0\n";
    assert_eq!((status, out.as_str()), (0, line));
}

#[test]
fn a_channel_that_is_not_there_is_refused() {
    let module = stored("flow");
    for channel in ["0", "5", "4294967295"] {
        // Nothing is played for it: this would take a day.
        let ticks = ["--ticks", "4294967295"];
        let words = [&["why", &module, "--channel", channel][..], &ticks].concat();
        let (status, out, _) = told(&words);
        let line = format!(
            "{module}: refused 25 at 0: the module has no channel of this number (channels 4)\n"
        );
        assert_eq!((status, out), (1, line));
    }
    let words = ["why", &module, "--channel", "0", "--plain"];
    assert_eq!(told(&words), (1, "25 0 0\n".into(), String::new()));
}
