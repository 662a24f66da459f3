//! Finetunes: what info shows of the samples, and trace of the channels.
use crate::common::{own, quiet, told};

/// A module in whose first row samples 1 to 3 start, the last beside E50, as a file of this name in the tests' own folder. The bytes of their
/// finetunes are 7, 8 and F3.
fn tuned(name: &str) -> String {
    let cells = [1, 0xAC, 0x10, 0, 1, 0xAC, 0x20, 0, 1, 0xAC, 0x3E, 0x50];
    let module = quiet(name, &cells);
    let mut file = std::fs::read(&module).unwrap();
    for (header, finetune) in file[20..].chunks_mut(30).zip([7, 8, 0xF3]) {
        // Length, finetune and volume.
        header[23..26].copy_from_slice(&[4, finetune, 64]);
    }
    file.extend_from_slice(&[50; 24]);
    std::fs::write(&module, file).unwrap();
    module
}

#[test]
fn info_shows_each_sample_s_finetune() {
    let module = tuned("info_tuned.mod");
    let (status, out, _) = told(&["info", &module]);
    assert_eq!(status, 0);
    let lines = "sample  bytes   volume  finetune  loop             name\n     \
        1       8      64         7  none\n     \
        2       8      64        -8  none\n     \
        3       8      64         3  none\n";
    assert!(out.ends_with(lines), "{out}");
    let (_, out, _) = told(&["info", "--plain", &module]);
    let lines = "\n1 8 64 0 0 7\n2 8 64 0 0 -8\n3 8 64 0 0 3\n";
    assert!(out.ends_with(lines), "{out}");
    let (_, out, _) = told(&["info", "--json", &module]);
    for finetune in [7, -8, 3] {
        let key = format!(r#""volume":64,"finetune":{finetune},"loop_start":null"#);
        assert!(out.contains(&key), "{out}");
    }
}

#[test]
fn trace_shows_each_channel_s_finetune() {
    let module = tuned("trace_tuned.mod");
    let (_, out, _) = told(&["trace", "--ticks", "2", &module]);
    let lines: Vec<&str> = out.lines().collect();
    let first = "  * 1 64 407 +7 @0       * 2 64 453 -8 @0       * 3 64 428    @0         0  0   0";
    let second =
        "    1 64 407 +7            2 64 453 -8            3 64 428               0  0   0";
    assert!(lines[1].ends_with(first), "{out}");
    assert!(lines[2].ends_with(second), "{out}");
    let starts: Vec<usize> = (1..=4)
        .map(|channel| lines[0].find(&format!("channel {channel}")).unwrap())
        .collect();
    assert!(
        starts.windows(2).all(|pair| pair[1] - pair[0] == 23),
        "{out}"
    );
    let (_, out, _) = told(&["trace", "--plain", "--ticks", "1", &module]);
    let line = " 1 1 64 407 1 0 7 1 2 64 453 1 0 -8 1 3 64 428 1 0 0 0 0 0 0 0 0 0\n";
    assert!(out.ends_with(line), "{out}");
    let (_, out, _) = told(&["trace", "--json", "--ticks", "1", &module]);
    let part = r#""period":453,"starts_at":0,"finetune":-8,"vibrato":{"#;
    assert!(out.contains(part), "{out}");
}

#[test]
fn a_stream_has_no_finetune() {
    let (module, stream) = (tuned("stream_tuned.mod"), own("tuned.stream"));
    let stream = stream.to_str().unwrap();
    let words = ["translate", &module, "--ticks", "1", "--out", stream];
    assert_eq!(told(&words).0, 0);
    let (_, out, _) = told(&["trace", "--plain", stream]);
    let line = " 1 1 64 407 1 0 - 1 2 64 453 1 0 - 1 3 64 428 1 0 - 0 0 0 0 0 0 -\n";
    assert!(out.ends_with(line), "{out}");
    let (_, out, _) = told(&["trace", stream]);
    assert!(
        out.contains("  * 1 64 407    @0       * 2 64 453 "),
        "{out}"
    );
    let (_, out, _) = told(&["trace", "--json", stream]);
    assert_eq!(out.matches(r#""finetune":null"#).count(), 4, "{out}");
}
