//! Recordings as other programs write them: kinds of numbers, standard input, and sizes that are not true.
use crate::common::{command, in_small_memory, own, quiet, run, said, stored, told};
use std::fs::File;
use std::process::Stdio;

/// What a .wav file calls whole numbers and floats, and where that stands further on.
const WHOLE: u16 = 1;
const FLOATS: u16 = 3;
const ELSEWHERE: u16 = 0xFFFE;
/// What follows the kind that stands further on.
const AFTER_KIND: [u8; 14] = [0, 0, 0, 0, 0x10, 0, 0x80, 0, 0, 0xAA, 0, 0x38, 0x9B, 0x71];

fn part(name: &[u8; 4], bytes: &[u8]) -> Vec<u8> {
    [name, &(bytes.len() as u32).to_le_bytes()[..], bytes].concat()
}

/// What a .wav file says of two numbers a frame, 48,000 frames a second: 16 bytes.
fn about(kind: u16, bits: u16) -> Vec<u8> {
    let (rate, frame) = (48_000u32, bits / 4);
    let mut about = [kind.to_le_bytes(), 2u16.to_le_bytes()].concat();
    about.extend(rate.to_le_bytes());
    about.extend((rate * u32::from(frame)).to_le_bytes());
    about.extend([frame.to_le_bytes(), bits.to_le_bytes()].concat());
    about
}

/// The same as sox says it of more than 16 bits: 40 bytes, the kind among the last.
fn about_elsewhere(kind: u16, bits: u16) -> Vec<u8> {
    let mut about = about(ELSEWHERE, bits);
    about.extend(22u16.to_le_bytes());
    about.extend(bits.to_le_bytes());
    about.extend(3u32.to_le_bytes());
    about.extend(kind.to_le_bytes());
    about.extend(AFTER_KIND);
    about
}

/// A .wav file of this name.
fn wav(name: &str, about: &[u8], sound: &[u8]) -> String {
    let parts = [part(b"fmt ", about), part(b"fact", &[0; 4])].concat();
    let all = [b"WAVE", &parts[..], &part(b"data", sound)].concat();
    let path = own(name);
    std::fs::write(&path, part(b"RIFF", &all)).unwrap();
    path.to_str().unwrap().into()
}

/// The bytes of the first two ticks of a stored module.
fn sound(options: &[&str]) -> Vec<u8> {
    let words = ["play", &stored("effects"), "--ticks", "2", "--out", "-"];
    run(&[&words[..], options].concat()).stdout
}

#[test]
fn a_kind_that_stands_further_on_is_read() {
    let module = &stored("effects");
    for (name, kind, bits, options) in [
        ("further_whole.wav", WHOLE, 16, &[][..]),
        ("further_floats.wav", FLOATS, 32, &["--float"]),
    ] {
        let name = &wav(name, &about_elsewhere(kind, bits), &sound(options));
        let words = ["compare", module, name, "--ticks", "2", "--plain"];
        let answer = (0, "0 0 2\n".into(), String::new());
        assert_eq!(told(&[&words[..], options].concat()), answer);
    }
}

#[test]
fn numbers_of_another_kind_are_never_compared() {
    // Silence is the same bytes in every kind.
    let (module, silence) = (&quiet("kinds.mod", &[]), &[0; 9_600]);
    let refused = |about: &[u8], options: &[&str], found: &str| {
        let name = &wav("kinds.wav", about, silence);
        let (status, out, err) = told(&[&["compare", module, name], options].concat());
        assert_eq!((status, out.as_str()), (2, ""), "{found}");
        let end = format!(", but 48000 of {found} bits\n");
        assert!(err.ends_with(&end), "{err}");
    };
    let further = about_elsewhere;
    refused(&further(WHOLE, 32), &["--float"], "2 whole numbers of 32");
    refused(&further(WHOLE, 24), &[], "2 whole numbers of 24");
    refused(&about(WHOLE, 8), &[], "2 whole numbers of 8");
    refused(&further(FLOATS, 32), &[], "2 floats of 32");
    refused(&about(FLOATS, 64), &["--float"], "2 floats of 64");
    refused(&further(FLOATS, 16), &[], "2 floats of 16");
    refused(&about(7, 16), &[], "2 numbers of kind 7 of 16");
    let mut unknown = further(WHOLE, 16);
    unknown[30] ^= 1;
    refused(&unknown, &[], "2 numbers of kind 65534 of 16");
}

#[test]
fn a_wav_file_is_read_from_standard_input() {
    let module = &stored("effects");
    let compared = |name: &str| {
        let mut command = command(&["compare", module, "-", "--ticks", "2"]);
        said(command.stdin(File::open(name).unwrap()).output().unwrap())
    };
    let line = format!("{module}: 2 ticks, 941 frames: player and standard input are equal\n");
    let equal = (0, line, String::new());
    let name = wav("input.wav", &about(WHOLE, 16), &sound(&[]));
    assert_eq!(compared(&name), equal);
    // The length of its sound that sox writes to a pipe.
    let mut bytes = std::fs::read(&name).unwrap();
    bytes[52..56].copy_from_slice(&0x7FFF_F000u32.to_le_bytes());
    std::fs::write(&name, bytes).unwrap();
    assert_eq!(compared(&name), equal);
    let stream = own("input.stream");
    let stream = stream.to_str().unwrap();
    let words = ["translate", module, "--ticks", "2", "--out", stream];
    assert_eq!(told(&words).0, 0);
    assert_eq!(compared(stream), equal);
    let (status, _, err) = told(&["compare", "-", "-"]);
    assert!(
        status == 2 && err.contains("can be read only once"),
        "{err}"
    );
}

/// Compares with a file of these bytes, which must end with 2 and this reason.
fn no_recording(name: &str, bytes: &[u8], reason: &str) {
    let path = own(name);
    std::fs::write(&path, bytes).unwrap();
    let path = path.to_str().unwrap();
    let (status, out, err) = told(&["compare", &stored("effects"), path]);
    assert_eq!((status, out.as_str()), (2, ""), "{reason}: {err}");
    assert_eq!(err, format!("lampthistle: {path}: {reason}\n"));
}

#[test]
fn an_empty_or_short_wav_file_is_told() {
    let name = "short.wav";
    let whole = wav(name, &about(WHOLE, 16), &sound(&[]));
    let whole = std::fs::read(whole).unwrap();
    no_recording(name, b"", "is empty");
    // Up to the last byte before the sound.
    for length in [1, 4, 11, 12, 19, 20, 30, 44, 55] {
        no_recording(name, &whole[..length], "is cut: it ends before its sound");
    }
    no_recording(name, b"no", "is not a .wav file");
    no_recording(name, b"no sound at all", "is not a .wav file");
}

#[test]
fn files_of_other_formats_are_told_by_name() {
    let (flac, aiff) = (b"fLaC\0\0\0\x22", b"FORM\0\0\x10\0AIFFCOMM");
    let name = "other.wav";
    let whole = wav(name, &about(WHOLE, 16), &sound(&[]));
    let whole = std::fs::read(whole).unwrap();
    no_recording(name, flac, "is a sound file of format FLAC, not .wav");
    no_recording(name, aiff, "is a sound file of format AIFF, not .wav");
    let ends = "; a recording's name ends in .wav or .raw";
    let named = |format: &str| format!("is a sound file of format {format}{ends}");
    no_recording("other.flac", flac, &named("FLAC"));
    no_recording("other.aiff", aiff, &named("AIFF"));
    no_recording("other", &whole, &named(".wav"));
}

#[test]
fn a_claimed_size_takes_no_memory() {
    let name = wav("claimed.wav", &about(WHOLE, 16), &[]);
    let mut bytes = std::fs::read(&name).unwrap();
    bytes[16..20].copy_from_slice(&0xFFFF_FFF0u32.to_le_bytes());
    std::fs::write(&name, bytes).unwrap();
    let file = File::options().write(true).open(&name).unwrap();
    file.set_len(1 << 28).unwrap();
    let words = ["compare", &stored("effects"), &name];
    let (status, out, err) = in_small_memory(&words, Stdio::piped());
    assert_eq!((status, out.as_str()), (2, ""), "{err}");
    assert!(err.ends_with("is cut: it ends before its sound\n"), "{err}");
}
