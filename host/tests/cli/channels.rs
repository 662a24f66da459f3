//! Modules of six and eight channels: every command goes by the file's own count.
use crate::common::{own, tagged, told};

/// The tags of more than four channels, and their counts.
const WIDE: [(&[u8; 4], usize); 2] = [(b"6CHN", 6), (b"8CHN", 8)];

/// A module of a tag whose first row starts a loud sample on each channel, as a file of this name in the tests' own folder.
fn sounding(name: &str, (tag, channels): (&[u8; 4], usize)) -> String {
    let path = tagged(name, tag, &[1, 0xAC, 0x10, 0].repeat(channels));
    let mut file = std::fs::read(&path).unwrap();
    // Sample 1: length, volume and repeat length.
    (file[43], file[45], file[49]) = (4, 64, 4);
    file.extend_from_slice(&[50; 8]);
    std::fs::write(&path, file).unwrap();
    path
}

fn translated(module: &str, name: &str) -> String {
    let stream = own(name).to_str().unwrap().to_string();
    let words = ["translate", module, "--ticks", "9", "--out", &stream];
    assert_eq!(told(&words).0, 0);
    stream
}

#[test]
fn info_shows_the_count() {
    for (tag, channels) in WIDE {
        let module = sounding("info_wide.mod", (tag, channels));
        let (status, out, _) = told(&["info", &module]);
        assert_eq!(status, 0);
        assert!(out.contains(&format!("\nchannels     {channels}\n")));
        // 64 rows of 6 ticks.
        assert!(out.contains("\nplays        384 ticks, 7.680 seconds, "));
        let (_, out, _) = told(&["info", "--plain", &module]);
        assert!(out.starts_with(&format!("0 0 0\n1 1 {channels}\n0\n")));
        let (_, out, _) = told(&["info", "--json", &module]);
        assert!(out.contains(&format!(r#","channels":{channels},"#)));
    }
}

#[test]
fn a_cell_s_place_goes_by_the_count() {
    for (tag, channels) in WIDE {
        let module = tagged("place_wide.mod", tag, &[]);
        let mut file = std::fs::read(&module).unwrap();
        // Row 25 of the second pattern, on the last channel: a period that is too long, then an effect that does nothing.
        (file[952], file[953], file[950]) = (0, 1, 2);
        file.resize(1_084 + 2 * 256 * channels, 0);
        let place = 1_084 + 256 * channels + 4 * (25 * channels + channels - 1);
        file[place..place + 2].copy_from_slice(&[3, 0x59]);
        std::fs::write(&module, &file).unwrap();
        let (status, out, _) = told(&["judge", &module]);
        let line = format!(
            "{module}: refused 9 at {place}: a cell's period is neither 0 nor 113 to 856 (pattern 1, row 25, channel {channels}, period 857)\n"
        );
        assert_eq!((status, out), (1, line));
        file[place..place + 4].copy_from_slice(&[0, 0, 8, 0]);
        std::fs::write(&module, &file).unwrap();
        let (status, out, _) = told(&["judge", "--notes", "--plain", &module]);
        let lines = format!("0 0 0 {module}\nnote 8 1 1 25 {channels} {module}\n");
        assert_eq!((status, out), (0, lines));
    }
}

#[test]
fn trace_shows_every_channel() {
    for (tag, channels) in WIDE {
        let module = sounding("trace_wide.mod", (tag, channels));
        let (_, out, _) = told(&["trace", "--plain", "--ticks", "2", &module]);
        let bytes = 10 + 2 + 6 * channels + 2;
        let first = " 1 1 64 428 1 0 0".repeat(channels);
        let second = " 0 1 64 428 0 0 0".repeat(channels);
        let lines = format!("0 0 {bytes}\n0 0 0 125 0 960{first}\n1 0 0 125 0 960{second}\n");
        assert_eq!(out, lines);
        let (_, out, _) = told(&["trace", "--ticks", "1", &module]);
        let lines: Vec<&str> = out.lines().collect();
        assert!(lines[0].ends_with(&format!("   channel {channels}")));
        assert_eq!(lines[1].matches("* 1 64 428    @0").count(), channels);
        let (_, out, _) = told(&["trace", "--waves", "--ticks", "1", &module]);
        assert_eq!(out.matches("v 00  0 sine").count(), channels);
        let stream = translated(&module, "trace_wide.stream");
        for file in [&module, &stream] {
            let (_, out, _) = told(&["trace", "--json", "--ticks", "1", file]);
            assert_eq!(out.matches(r#""changed":true"#).count(), channels);
        }
    }
}

#[test]
fn why_asks_every_channel() {
    let script = own("why_wide.txt");
    std::fs::write(&script, "play 1\nwhy\n").unwrap();
    for (tag, channels) in WIDE {
        let module = sounding("why_wide.mod", (tag, channels));
        let lines = (1..=channels).map(|channel| format!("channel {channel}: sounds\n"));
        let lines: Vec<String> = lines.collect();
        let (status, out, _) = told(&["why", &module]);
        assert_eq!((status, out), (0, lines.concat()));
        let (status, out, _) = told(&["why", &module, "--channel", &(channels + 1).to_string()]);
        let line = format!(
            "{module}: refused 25 at 0: the module has no channel of this number (channels {channels})\n"
        );
        assert_eq!((status, out), (1, line));
        let (_, out, _) = told(&["replay", &module, script.to_str().unwrap()]);
        assert!(out.ends_with(&format!("\n  {}", lines.join("  "))), "{out}");
    }
}

#[test]
fn player_and_board_are_compared() {
    for (tag, channels) in WIDE {
        let module = sounding("compared_wide.mod", (tag, channels));
        let answer = (0, "0 0 100\n".into(), String::new());
        for options in [&[][..], &["--float"], &["--float", "--mono"]] {
            let words = ["compare", &module, "--ticks", "100", "--plain"];
            assert_eq!(told(&[&words, options].concat()), answer);
        }
        let stream = translated(&module, "compared_wide.stream");
        let words = ["board", &stream, &module, "--out", "wide.raw", "--plain"];
        assert_eq!(told(&words), (0, "0 0 9\n".into(), String::new()));
        assert_eq!(
            std::fs::read(own("wide.raw")).unwrap().len(),
            9 * 960 * 2 * 2
        );
    }
}

#[test]
fn a_stream_of_another_count_is_refused() {
    let words =
        "the stream's channel count is not the module's, or version 3 is shorter than 10 bytes";
    let [six, eight] = WIDE.map(|(tag, channels)| {
        let name = format!("count_{channels}.mod");
        sounding(&name, (tag, channels))
    });
    let stream = translated(&six, "count.stream");
    let (status, out, _) = told(&["board", &stream, &eight, "--out", "count.raw"]);
    let line = format!("{stream}: refused 28 at 4: {words} (version 3, channels 6)\n");
    assert_eq!((status, out), (1, line));
    assert!(!own("count.raw").exists());
    // A count that no module has.
    let mut bytes = std::fs::read(&stream).unwrap();
    bytes[5] = 5;
    std::fs::write(&stream, &bytes).unwrap();
    let (status, out, _) = told(&["trace", "--json", &stream]);
    let line = format!(
        r#"{{"schema":1,"file":"{stream}","number":28,"place":4,"meaning":"{words}","version":3,"channels":5}}"#
    );
    assert_eq!((status, out.trim_end()), (1, line.as_str()));
    std::fs::write(&stream, [0, 0, 0, 5, 3, 4, 0, 0, 0]).unwrap();
    assert_eq!(told(&["trace", "--plain", &stream]).1, "28 4 0\n");
}
