//! Modules made to be odd go through every command: escape codes for names, long tails, every effect, every tag.
use crate::common::{folder, tagged, told};

/// A cell a row for each effect with each of some parameters, by turns on all channels, with notes of a sample beside them.
fn cells(channels: usize) -> Vec<u8> {
    let plain = (0..16u8).flat_map(|effect| [0x00, 0x0F, 0xF1].map(|b3| (effect, b3)));
    let extended = (0..16u8).flat_map(|x| [0x0, 0x7].map(|y| (0xE, 16 * x + y)));
    let mut cells = vec![0; 256 * channels];
    for (k, (effect, parameter)) in plain.chain(extended).enumerate() {
        let at = 4 * (channels * (k % 64) + k / 64 % channels);
        cells[at..at + 4].copy_from_slice(&[1, 0xAC, 0x10 + effect, parameter]);
    }
    cells
}

/// An odd module of a tag, as a file of this name.
fn odd(name: &str, tag: &[u8; 4]) -> String {
    let channels = if tag == b"6CHN" {
        6
    } else if tag == b"8CHN" {
        8
    } else {
        4
    };
    let path = tagged(name, tag, &cells(channels));
    let mut file = std::fs::read(&path).unwrap();
    file[..20].copy_from_slice(b"\x1B]0;owned\x07\x1B[2J\r\xFF\0<&>");
    file[20..42].copy_from_slice(&[0x9B; 22]);
    (file[43], file[44], file[45]) = (100, 0xF8, 64);
    // The sample's bytes, and a long tail that is not read.
    file.extend((0..200u8).map(|k| k.wrapping_mul(37)));
    file.extend([0x1B; 100_000]);
    std::fs::write(&path, file).unwrap();
    path
}

/// Runs a command, which must say something that harms no terminal, and end with 0.
fn runs(words: &[&str]) {
    for form in [&[][..], &["--plain"], &["--json"]] {
        let (status, out, err) = told(&[words, form].concat());
        assert_eq!((status, err.as_str()), (0, ""), "{words:?}");
        let harmless = |c: char| c == '\n' || !c.is_control();
        assert!(
            !out.is_empty() && out.chars().all(harmless),
            "{words:?}: {out:?}"
        );
        assert!(!out.contains("unknown"), "{words:?}: {out}");
    }
}

#[test]
fn odd_modules_go_through_every_command() {
    let folder = folder("odd_modules");
    let own = |name: &str| folder.join(name).to_str().unwrap().to_string();
    for tag in [b"M.K.", b"4CHN", b"6CHN", b"8CHN"] {
        let module = &odd("odd_modules/odd.mod", tag);
        let (sound, stream) = (&own("odd.wav"), &own("odd.stream"));
        let (script, record) = (&own("odd.txt"), &own("odd.record"));
        std::fs::write(
            script,
            "play 40\ntouch 0 39 0\npage\nburst 1 40 0\nwhy\nplay 9\n",
        )
        .unwrap();
        runs(&["judge", module]);
        runs(&["judge", "--notes", module]);
        runs(&["info", module]);
        runs(&["play", module, "--once", "--out", sound]);
        runs(&["translate", module, "--ticks", "300", "--out", stream]);
        runs(&[
            "board",
            stream,
            module,
            "--float",
            "--out",
            &own("board.raw"),
        ]);
        runs(&["trace", module, "--once", "--waves"]);
        runs(&["trace", stream]);
        runs(&["why", module, "--seconds", "1"]);
        runs(&["replay", module, script, "--record", record]);
        runs(&["replay", module, record, "--check"]);
        runs(&["compare", module, "--once"]);
        runs(&["compare", module, stream]);
        runs(&["compare", module, sound, "--once"]);
        runs(&["compare", sound, sound]);
        runs(&["picture", module, "--out", &own("odd.svg")]);
        runs(&[
            "picture",
            module,
            "--trial",
            record,
            "--out",
            &own("odd.html"),
        ]);
    }
}
