//! Sound as floats: what play and board write, and what compare says of it.
use crate::common::{command, folder, frames, in_time, own, quiet, said, stored, told};
use lampthistle::{fresh, play_floats, Pair};
use std::process::Command;

/// The options, and the sides that they ask for.
const KINDS: [(&[&str], u32); 2] = [(&["--float"], 2), (&["--float", "--mono"], 1)];

/// The bytes before a .wav file's sound.
const WAV_START: usize = 58;

fn path(name: &str) -> String {
    own(name).to_str().unwrap().into()
}

fn with<'a>(words: &[&'a str], options: &[&'a str]) -> Vec<&'a str> {
    [words, options].concat()
}

/// The first ticks of a stored module as bytes, low byte first.
fn library_bytes(module: &str, ticks: u32, sides: u32) -> Vec<u8> {
    let file = std::fs::read(module).unwrap();
    let mut floats = vec![0.0; sides as usize * frames(ticks as usize)];
    let mut last = Pair::default();
    let answer = play_floats(&file, &mut fresh(), ticks, sides, &mut floats, &mut last);
    assert_eq!(answer.count, ticks.into());
    floats
        .iter()
        .flat_map(|float| float.to_le_bytes())
        .collect()
}

fn number(bytes: &[u8]) -> u32 {
    let mut four = [0; 4];
    four[..bytes.len()].copy_from_slice(bytes);
    u32::from_le_bytes(four)
}

#[test]
fn play_and_board_write_the_floats_of_the_library() {
    let module = &stored("effects");
    let stream = &path("floats.stream");
    let words = ["translate", module, "--ticks", "30", "--out", stream];
    assert_eq!(told(&words).0, 0);
    for (options, sides) in KINDS {
        let bytes = library_bytes(module, 30, sides);
        for words in [
            &["play", module, "--ticks", "30"][..],
            &["board", stream, module],
        ] {
            let [raw, wav] = ["raw", "wav"].map(|end| path(&format!("{}{sides}.{end}", words[0])));
            for out in [&raw, &wav] {
                let words = with(&with(words, options), &["--plain", "--out", out]);
                assert_eq!(told(&words), (0, "0 0 30\n".into(), String::new()));
            }
            assert!(std::fs::read(raw).unwrap() == bytes, "{words:?}");
            is_wav(&std::fs::read(wav).unwrap(), sides, &bytes);
        }
    }
}

/// As players expect it: floats are said as 3, with no more about them, and the frames are counted before the sound.
fn is_wav(wav: &[u8], sides: u32, bytes: &[u8]) {
    let frame_bytes = 4 * sides;
    assert!(wav[WAV_START..] == *bytes);
    assert_eq!((&wav[..4], &wav[8..16]), (&b"RIFF"[..], &b"WAVEfmt "[..]));
    assert_eq!(number(&wav[4..8]) as usize, wav.len() - 8);
    assert_eq!((number(&wav[16..20]), number(&wav[20..22])), (18, 3));
    assert_eq!(
        (number(&wav[22..24]), number(&wav[24..28])),
        (sides, 48_000)
    );
    assert_eq!(number(&wav[28..32]), 48_000 * frame_bytes);
    assert_eq!(
        (number(&wav[32..34]), number(&wav[34..36])),
        (frame_bytes, 32)
    );
    assert_eq!(number(&wav[36..38]), 0);
    assert_eq!((&wav[38..42], number(&wav[42..46])), (&b"fact"[..], 4));
    assert_eq!(number(&wav[46..50]), bytes.len() as u32 / frame_bytes);
    assert_eq!(&wav[50..54], b"data");
    assert_eq!(number(&wav[54..58]) as usize, bytes.len());
}

#[test]
fn a_pipe_of_floats_leaves_its_lengths_open() {
    let pipe = folder("float_pipe").join("p.wav");
    let made = Command::new("mkfifo").arg(&pipe).status().unwrap();
    assert!(made.success());
    let from = pipe.clone();
    let reader = std::thread::spawn(move || std::fs::read(from).unwrap());
    let (module, out) = (stored("effects"), pipe.to_str().unwrap());
    let words = ["play", &module, "--ticks", "3", "--float", "--out", out];
    assert_eq!(said(in_time(&mut command(&words))).0, 0);
    let wav = reader.join().unwrap();
    for at in [4, 46, 54] {
        assert_eq!(number(&wav[at..at + 4]), u32::MAX, "{at}");
    }
    assert!(wav[WAV_START..] == library_bytes(&module, 3, 2));
}

#[test]
fn seconds_are_as_long_in_floats() {
    let module = &stored("effects");
    for (options, sides) in KINDS {
        let words = ["play", module, "--seconds", "0.1", "--out", "-"];
        let output = command(&with(&words, options)).output().unwrap();
        assert!(output.stdout == library_bytes(module, 10, sides));
        let told = String::from_utf8(output.stderr).unwrap();
        assert!(told.contains("played 10 ticks, 4705 frames"), "{told}");
    }
}

#[test]
fn floats_are_compared() {
    let module = &stored("effects");
    let stream = &path("compared.stream");
    let words = ["translate", module, "--ticks", "20", "--out", stream];
    assert_eq!(told(&words).0, 0);
    for (options, sides) in KINDS {
        let equal = |words: &[&str], other: &str| {
            let (status, out, err) = told(&with(&with(words, &["--ticks", "20"]), options));
            let line = format!("{module}: 20 ticks, 9411 frames: player and {other} are equal\n");
            assert_eq!((status, out, err), (0, line, String::new()));
        };
        equal(&["compare", module], "board");
        equal(&["compare", module, stream], stream);
        for name in ["compared.raw", "compared.wav"] {
            let sound = &path(name);
            let words = ["play", module, "--ticks", "20", "--out", sound];
            assert_eq!(told(&with(&words, options)).0, 0);
            equal(&["compare", module, sound], sound);
            // The last number of frame 3 of tick 2, and its lowest bit.
            let mut bytes = std::fs::read(sound).unwrap();
            let start = if name.ends_with("wav") { WAV_START } else { 0 };
            let number = sides as usize * (frames(2) + 4) - 1;
            bytes[start + 4 * number] ^= 1;
            std::fs::write(sound, bytes).unwrap();
            let (status, _, err) = told(&with(&["compare", module, sound], options));
            let side = ["mono", "right"][sides as usize - 1];
            let line = format!(
                "tick 2 (position 0, row 0), frame 3 (944 from the beginning), {side}: player "
            );
            assert!(status == 1 && err.contains(&line), "{err}");
        }
    }
}

#[test]
fn bits_count_and_not_values() {
    // A silence, and negative zero, which is as large.
    let (module, sound) = (&quiet("zeros.mod", &[]), &path("zeros.raw"));
    std::fs::write(sound, [0, 0, 0, 0, 0, 0, 0, 0x80]).unwrap();
    let words = ["compare", module, sound, "--float"];
    let (status, _, err) = told(&words);
    let line = format!("frame 0 (0 from the beginning), right: player 0, {sound} -0\n");
    assert!(status == 1 && err.contains(&line), "{err}");
    std::fs::write(sound, [0, 0, 0xC0, 0x7F]).unwrap();
    let (_, out, _) = told(&["compare", module, sound, "--float", "--mono", "--json"]);
    let first = "\"side\":\"mono\",\"player\":0,\"other\":\"NaN\"}";
    assert!(out.contains(first), "{out}");
}

#[test]
fn a_recording_of_another_kind_is_told() {
    let module = &stored("effects");
    let [whole, two, one] = ["whole", "two", "one"].map(|name| path(&format!("kind_{name}.wav")));
    for (out, options) in [(&whole, &[][..]), (&two, KINDS[0].0), (&one, KINDS[1].0)] {
        let words = ["play", module, "--ticks", "2", "--out", out];
        assert_eq!(told(&with(&words, options)).0, 0);
    }
    for (sound, options, reason) in [
        (
            &two,
            &[][..],
            "of two whole 16-bit numbers, but 48000 of 2 floats of 32 bits",
        ),
        (
            &whole,
            KINDS[0].0,
            "of two floats, but 48000 of 2 whole numbers of 16 bits",
        ),
        (
            &one,
            KINDS[0].0,
            "of two floats, but 48000 of 1 float of 32 bits",
        ),
        (
            &two,
            KINDS[1].0,
            "of one float, but 48000 of 2 floats of 32 bits",
        ),
    ] {
        let (status, out, err) = told(&with(&["compare", module, sound], options));
        assert_eq!((status, out.as_str()), (2, ""), "{reason}");
        assert!(err.contains(reason), "{err}");
    }
}

#[test]
fn mono_goes_with_float() {
    let module = &stored("effects");
    for words in [
        &["play", module, "--mono", "--out", "-"][..],
        &["board", module, module, "--mono", "--out", "-"],
        &["compare", module, "--mono"],
    ] {
        let (status, out, err) = told(words);
        assert_eq!((status, out.as_str()), (2, ""));
        assert!(err.contains("--mono goes with --float"), "{err}");
    }
}

#[test]
fn floats_that_no_wav_file_holds_are_found_at_once() {
    let out = &path("long_floats.wav");
    // Tempo 32.
    let module = &quiet("long_floats.mod", &[0, 0, 0x0F, 32]);
    for (options, most) in [(KINDS[0].0, 536_870_904), (KINDS[1].0, 1_073_741_809)] {
        let words = ["play", module, "--ticks", "4294967295", "--out", out];
        let words = with(&words, options);
        let (status, told, err) = said(in_time(&mut command(&words)));
        assert_eq!((status, told.as_str()), (2, ""));
        let line = format!("a .wav file holds {most} frames at most");
        assert!(err.contains(&line), "{err}");
    }
}
