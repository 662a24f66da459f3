//! Generated streams: legal ones play, aimed ones get their refusal, damaged ones change nothing.

use crate::common::{accepted, fitting, refused, stream_lengths, translated, UNTOUCHED};
use second::generate::modules::{module, Size};
use second::generate::streams::{bad_stream, damaged_stream, legal_stream};
use second::{channels, decode, encode, play_stream, tick_list, Stream};

fn file(seed: u64) -> Vec<u8> {
    module(
        seed % 100,
        if seed.is_multiple_of(4) {
            Size::Medium
        } else {
            Size::Small
        },
    )
}

#[test]
fn legal_streams_play_all_that_fits() {
    for seed in 0..1_500 {
        let file = file(seed);
        let stream = legal_stream(seed, &file);
        let lengths = stream_lengths(&decode(&stream, channels(&file)).expect("legal"));
        let mut out = vec![UNTOUCHED; seed as usize * 37 % 40_000];
        let (fit, filled) = fitting(&lengths, 2, out.len());
        assert_eq!(
            play_stream(&stream, &file, &mut out),
            accepted(fit as u64),
            "seed {seed}"
        );
        assert!(
            out[filled..].iter().all(|&number| number == UNTOUCHED),
            "seed {seed}"
        );
    }
}

#[test]
fn a_stream_rewritten_sounds_the_same() {
    for seed in 0..500 {
        let file = file(seed);
        let stream = legal_stream(seed, &file);
        let read = decode(&stream, channels(&file)).expect("legal");
        let shortest = encode(&read);
        assert!(shortest.len() <= stream.len(), "seed {seed}");
        let again = decode(&shortest, channels(&file));
        assert_eq!(again.as_ref(), Ok(&read), "seed {seed}");
        let mut one = vec![0; 20_000];
        let mut other = one.clone();
        let answer = play_stream(&stream, &file, &mut one);
        assert_eq!(
            play_stream(&shortest, &file, &mut other),
            answer,
            "seed {seed}"
        );
        assert!(one == other, "seed {seed}");
    }
}

#[test]
fn translations_decode_to_their_ticks() {
    for seed in 0..500 {
        let file = file(seed);
        let ticks = (seed % 97) as u32;
        let expected = Stream {
            version: 3,
            channels: channels(&file),
            ticks: tick_list(&file, ticks).expect("accepted"),
        };
        let stream = translated(&file, ticks);
        assert_eq!(
            decode(&stream, channels(&file)),
            Ok(expected),
            "seed {seed}"
        );
    }
}

#[test]
fn bad_streams_get_their_refusal() {
    let mut seen = [0; 29];
    for seed in 0..12_000 {
        let file = module(seed % 50, Size::Small);
        let bad = bad_stream(seed, &file);
        let mut out = [UNTOUCHED; 1_000];
        assert_eq!(
            play_stream(&bad.bytes, &file, &mut out),
            refused(bad.number, bad.place),
            "seed {seed}"
        );
        assert_eq!(out, [UNTOUCHED; 1_000], "seed {seed}");
        seen[bad.number as usize] += 1;
    }
    assert!(
        [21, 22, 28, 23].iter().all(|&number| seen[number] > 500),
        "{seen:?}"
    );
}

#[test]
fn damaged_streams_play_or_change_nothing() {
    let mut seen = [0; 29];
    for seed in 0..6_000 {
        let file = module(seed % 50, Size::Small);
        let good = if seed % 2 == 0 {
            legal_stream(seed, &file)
        } else {
            translated(&file, 12)
        };
        let damaged = damaged_stream(seed, &good);
        let mut out = [UNTOUCHED; 4_000];
        let answer = play_stream(&damaged, &file, &mut out);
        seen[answer.number as usize] += 1;
        if answer.number != 0 {
            assert_eq!(answer.count, 0, "seed {seed}");
            assert!(out.iter().all(|&number| number == UNTOUCHED), "seed {seed}");
        }
    }
    assert!(
        [0, 21, 22, 23, 28].iter().all(|&number| seen[number] > 50),
        "{seen:?}"
    );
}
