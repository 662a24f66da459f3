//! The player against a given stream and against recordings.
use crate::common::{frames, older, own, stored, told};

/// How many ticks the stored module has once through.
const SONG: u32 = 192;

fn path(name: &str) -> String {
    own(name).to_str().unwrap().into()
}

/// The first 20 ticks of a stored module, 9,411 frames, as a file of this name.
fn played(name: &str) -> String {
    written("play", 20, name)
}

/// The first ticks of a stored module, as a command writes them to a file of this name.
fn written(command: &str, ticks: u32, name: &str) -> String {
    let (out, ticks) = (path(name), ticks.to_string());
    let words = [command, &stored("effects"), "--ticks", &ticks, "--out"];
    assert_eq!(told(&[&words[..], &[&out]].concat()).0, 0);
    out
}

/// The line of a whole stream or recording that is equal, of the stored module.
fn equal(ticks: u32, frames: u32, name: &str) -> String {
    let module = stored("effects");
    format!("{module}: {ticks} ticks, {frames} frames: player and {name} are equal; the song once through is {SONG} ticks\n")
}

/// Runs words that must end with 1, and gives the message.
fn differs(words: &[&str]) -> String {
    let (status, out, err) = told(words);
    assert_eq!((status, out.as_str()), (1, ""), "{words:?}: {err}");
    err
}

/// Changes bytes of a file.
fn change(name: &str, with: impl FnOnce(&mut Vec<u8>)) {
    let mut bytes = std::fs::read(name).unwrap();
    with(&mut bytes);
    std::fs::write(name, bytes).unwrap();
}

#[test]
fn a_stream_is_compared() {
    let module = &stored("effects");
    let stream = &written("translate", 20, "given.stream");
    let (status, out, _) = told(&["compare", module, stream]);
    assert_eq!((status, out), (0, equal(20, 9_411, stream)));
    // The first command's volume.
    change(stream, |bytes| bytes[13] -= 1);
    let (status, out, err) = told(&["compare", module, stream]);
    assert_eq!((status, out.as_str()), (1, ""));
    assert!(
        err.contains(": DIFFERENT: tick 0 (position 0, row 0), frame "),
        "{err}"
    );
    // The second tick's tempo: 472 frames in place of 471.
    change(stream, |bytes| {
        bytes[13] += 1;
        bytes[25] = 254;
    });
    let (_, _, err) = told(&["compare", module, stream]);
    let line =
        "tick 1 (position 0, row 0), frame 471 (941 from the beginning), left: player none, ";
    assert!(err.contains(line), "{err}");
    change(stream, |bytes| bytes[4] = 4);
    let (status, out, _) = told(&["compare", module, stream, "--plain"]);
    assert_eq!((status, out.as_str()), (1, "22 4 0\n"));
    // By version 1 the second tick is as long as the first.
    change(stream, |bytes| {
        bytes[25] = 255;
        *bytes = older(bytes, 1);
    });
    let (_, _, err) = told(&["compare", module, stream]);
    assert!(
        err.contains(
            "tick 1 (position 0, row 0), frame 470 (940 from the beginning), left: player "
        ),
        "{err}"
    );
    assert!(err.lines().next().unwrap().ends_with(" none"), "{err}");
}

#[test]
fn a_recording_is_compared() {
    let module = &stored("effects");
    for name in ["given.raw", "given.wav"] {
        let sound = &played(name);
        let start = if name.ends_with("wav") { 44 } else { 0 };
        let (status, out, _) = told(&["compare", module, sound]);
        assert_eq!((status, out), (0, equal(20, 9_411, sound)));
        // The right number of frame 3 of tick 2.
        change(sound, |bytes| bytes[start + 4 * (frames(2) + 3) + 2] ^= 1);
        let (status, _, err) = told(&["compare", module, sound]);
        assert_eq!(status, 1);
        let line = "DIFFERENT: tick 2 (position 0, row 0), frame 3 (944 from the beginning), right: player ";
        assert!(err.contains(line), "{err}");
    }
}

#[test]
fn a_recording_may_end_within_a_tick() {
    let module = &stored("effects");
    let sound = &played("short.raw");
    change(sound, |bytes| bytes.truncate(4 * 1000));
    let (status, out, _) = told(&["compare", module, sound]);
    assert_eq!((status, out), (0, equal(2, 1_000, sound)));
    let err = differs(&["compare", module, sound, "--ticks", "3"]);
    let line = "short.raw ends after 2 ticks of 3, 1000 frames from the beginning\n";
    assert!(err.ends_with(line), "{err}");
}

#[test]
fn another_length_than_asked_for_is_a_difference() {
    let module = &stored("effects");
    for (command, name) in [
        ("translate", "length.stream"),
        ("play", "length.raw"),
        ("play", "length.wav"),
    ] {
        let other = &written(command, 1, name);
        for (asked, ticks) in [(&["--once"][..], SONG), (&["--ticks", "10000"], 10_000)] {
            let err = differs(&[&["compare", module, other], asked].concat());
            let line = format!("{module}: DIFFERENT: {other} ends after 1 tick of {ticks}, 470 frames from the beginning\n");
            assert!(err.ends_with(&line), "{err}");
        }
        written(command, SONG, name);
        assert_eq!(told(&["compare", module, other, "--once"]).0, 0);
        let err = differs(&["compare", module, other, "--ticks", "2"]);
        let line =
            format!("DIFFERENT: {other} goes on after 2 ticks, 941 frames from the beginning\n");
        assert!(err.ends_with(&line), "{err}");
    }
}

#[test]
fn nothing_is_equal_to_nothing() {
    let module = &stored("effects");
    let stream = &written("translate", 0, "none.stream");
    let err = differs(&["compare", module, stream, "--once"]);
    let line = format!("none.stream ends after 0 ticks of {SONG}, 0 frames from the beginning\n");
    assert!(err.ends_with(&line), "{err}");
    let sound = &written("play", 0, "nothing.raw");
    for (words, reason) in [
        (&[stream.as_str()][..], "none.stream: no frame to compare"),
        (&[sound], "nothing.raw: no frame to compare"),
        (&[stream, "--ticks", "0"], "--ticks 0: nothing to compare"),
        (&["--ticks", "0"], "--ticks 0: nothing to compare"),
    ] {
        let (status, out, err) = told(&[&["compare", module], words].concat());
        assert_eq!((status, out.as_str()), (2, ""), "{reason}");
        assert!(err.contains(reason), "{err}");
    }
}

#[test]
fn recordings_that_are_none_are_told() {
    let module = &stored("effects");
    let stops = |name: &str, reason: &str| {
        let (status, out, err) = told(&["compare", module, name]);
        assert_eq!((status, out.as_str()), (2, ""), "{reason}");
        assert!(err.contains(reason), "{err}");
    };
    let raw = &played("none.raw");
    change(raw, |bytes| bytes.truncate(4 * 1000 + 3));
    stops(raw, "ends within a frame");
    change(raw, Vec::clear);
    stops(raw, "no frame to compare");
    let wav = &played("none.wav");
    change(wav, |bytes| bytes.truncate(44 + 4 * 1000));
    stops(wav, "is cut: 33644 bytes of its sound are not there");
    change(wav, |bytes| bytes[24] = 0x44);
    stops(wav, "is not 48000 frames a second");
    change(wav, |bytes| bytes[0] = b'r');
    stops(wav, "is not a .wav file");
    stops("no/such.wav", "no/such.wav: No such file");
}

#[test]
fn a_recording_with_an_open_length_goes_to_its_end() {
    let wav = &played("open.wav");
    // As pipes get it; with a part before the sound that says something else.
    change(wav, |bytes| {
        bytes[40..44].fill(0xFF);
        let part = b"note\x03\0\0\0abc\0";
        bytes.splice(12..12, part.iter().copied());
    });
    let (status, out, _) = told(&["compare", &stored("effects"), wav, "--plain"]);
    assert_eq!((status, out.as_str()), (0, "0 0 20\n"));
}
