//! Parts of generated streams: whatever tick a play begins at, its frames are those of the whole.

use crate::common::*;
use second::generate::ends::ends;
use second::generate::modules::{module, Size};
use second::generate::streams::{bad_stream, first_tick, legal_stream, older};
use second::generate::tempos::changing;
use second::generate::Random;
use second::{
    channels, decode, encode, fresh, play_stream, play_stream_from, trace_tick, Answer, Stream,
};

/// A stream with its module, its ticks' frames, and the numbers of its whole play.
struct Played {
    file: Vec<u8>,
    bytes: Vec<u8>,
    stream: Stream,
    lengths: Vec<usize>,
    whole: Vec<i16>,
}

fn played(file: Vec<u8>, bytes: Vec<u8>) -> Played {
    let stream = decode(&bytes, channels(&file)).expect("legal");
    let lengths = stream_lengths(&stream);
    let mut whole = vec![UNTOUCHED; 2 * lengths.iter().sum::<usize>()];
    let answer = play_stream(&bytes, &file, &mut whole);
    assert_eq!(answer, accepted(lengths.len() as u64));
    Played {
        file,
        bytes,
        stream,
        lengths,
        whole,
    }
}

impl Played {
    fn left(&self, from: usize, room: usize) -> (Answer, Vec<i16>) {
        let mut out = vec![UNTOUCHED; room];
        let answer = play_stream_from(&self.bytes, &self.file, from as u32, &mut out);
        (answer, out)
    }

    /// What must be left: the numbers of the ticks that fit, cut from the whole.
    fn cut(&self, from: usize, room: usize) -> (Answer, Vec<i16>) {
        let before = self.lengths.len().min(from);
        let (fit, filled) = fitting(&self.lengths[before..], 2, room);
        let begin = 2 * self.lengths[..before].iter().sum::<usize>();
        let mut out = self.whole[begin..begin + filled].to_vec();
        out.resize(room, UNTOUCHED);
        (accepted(fit as u64), out)
    }
}

/// Streams that no translator would write, and translated ones: of samples that end at ticks' first
/// and last frames, and of tempos that change.
fn any_played(seed: u64, ticks: u32) -> Played {
    let file = match seed % 4 {
        0 | 1 => module(seed % 100, Size::Small),
        2 => ends(seed),
        _ => changing(seed),
    };
    let bytes = match seed % 4 {
        0 | 1 => legal_stream(seed, &file),
        _ if seed.is_multiple_of(3) && channels(&file) == 4 => older(&translated(&file, ticks), 1),
        _ => translated(&file, ticks),
    };
    played(file, bytes)
}

#[test]
fn every_run_of_ticks_is_as_in_the_whole() {
    for seed in 0..240 {
        let played = any_played(seed, 12);
        let ticks = played.lengths.len();
        if ticks > 12 {
            continue;
        }
        for from in 0..=ticks {
            let mut room = 0;
            for length in played.lengths[from..].iter().chain(&[0]) {
                assert!(
                    played.left(from, room) == played.cut(from, room),
                    "seed {seed}: from {from} into {room}"
                );
                room += 2 * length;
            }
        }
    }
}

#[test]
fn from_any_tick_what_fits_is_cut_from_the_whole() {
    // Plays that sound other than the ticks from there on do as a stream of their own.
    let mut led = 0;
    let mut carried = 0;
    for seed in 0..1_500 {
        let mut random = Random::new(seed);
        let played = any_played(seed, 20);
        let from = first_tick(seed, played.lengths.len() as u32) as usize;
        let room = buffer_length(&mut random, 6_000);
        let left = played.left(from, room);
        assert!(
            left == played.cut(from, room),
            "seed {seed}: from {from} into {room}"
        );
        let Some(rest) = played.stream.ticks.get(from..) else {
            continue;
        };
        let alone = encode(&Stream {
            version: played.stream.version,
            channels: played.stream.channels,
            ticks: rest.to_vec(),
        });
        let mut out = vec![UNTOUCHED; room];
        let answer = play_stream(&alone, &played.file, &mut out);
        led += u32::from(left != (answer, out));
        let own = rest.first().map(|tick| 120_000 / tick.tempo as usize);
        carried += u32::from(played.lengths.get(from).copied() > own);
    }
    assert!(led > 200 && carried > 100, "{led}, {carried}");
}

#[test]
fn joined_parts_are_the_whole() {
    for seed in 0..200 {
        let mut random = Random::new(seed);
        let played = any_played(seed, 30);
        let most = random.pick(&[7_500, 7_501, 9_000, 20_000]);
        let mut joined = Vec::new();
        let mut from = 0;
        while from < played.lengths.len() {
            // Any tick fits.
            let room = random.between(7_500, most) as usize;
            let (answer, out) = played.left(from, room);
            assert!(answer.count > 0, "seed {seed}: from {from}");
            let end = from + answer.count as usize;
            let frames: usize = played.lengths[from..end].iter().sum();
            joined.extend_from_slice(&out[..2 * frames]);
            from = end;
        }
        assert!(joined == played.whole, "seed {seed}");
    }
}

#[test]
fn voices_end_at_the_ticks_that_plays_begin_with() {
    let [mut last, mut first, mut wraps] = [0; 3];
    for seed in 0..100 {
        let file = ends(seed);
        let played = played(file.clone(), translated(&file, 9));
        let mut cells = fresh();
        for (tick, &length) in played.lengths.iter().enumerate() {
            let trace = trace_tick(&file, &mut cells).expect("accepted");
            for end in trace.ends(&file).expect("accepted") {
                last += u32::from(end.stops && end.frame == length - 1);
                first += u32::from(end.stops && end.frame == 0);
                wraps += u32::from(!end.stops);
            }
            for from in [tick, tick + 1] {
                let room = 2 * length + 1;
                assert!(played.left(from, room) == played.cut(from, room));
            }
        }
    }
    assert!(
        last > 50 && first > 50 && wraps > 1_000,
        "{last}, {first}, {wraps}"
    );
}

#[test]
fn bad_streams_get_their_refusal_from_any_tick() {
    for seed in 0..3_000 {
        let file = module(seed % 50, Size::Small);
        let bad = bad_stream(seed, &file);
        let mut out = [UNTOUCHED; 1_000];
        let from = first_tick(seed, 30);
        let answer = play_stream_from(&bad.bytes, &file, from, &mut out);
        assert_eq!(answer, refused(bad.number, bad.place), "seed {seed}");
        assert_eq!(out, [UNTOUCHED; 1_000], "seed {seed}");
    }
}
