//! Playing, translating and playing the stream agree, and fill what fits.

use crate::common::*;
use second::generate::damage::{aimed, at_random};
use second::generate::states::legal_state;
use second::generate::Random;
use second::{
    change_page, fresh, judge, play, play_stream, tick_list, touch, trace_tick, translate, Answer,
};

/// What a translation and the stream player make of the same ticks and room.
fn streamed(file: &[u8], ticks: u32, length: usize) -> (Answer, Vec<i16>) {
    let mut out = vec![UNTOUCHED; length];
    let answer = play_stream(&translated(file, ticks), file, &mut out);
    (answer, out)
}

#[test]
fn playing_equals_translating_and_playing_the_stream() {
    for seed in 0..600 {
        let mut random = Random::new(seed);
        let file = file(seed);
        let most = random.between(3, 60);
        let ticks = random.pick(&[0, 1, 2, most, most, most]);
        let list = tick_list(&file, ticks).expect("accepted");
        let tempos: Vec<u32> = list.iter().map(|tick| tick.tempo).collect();
        let lengths = lengths(&tempos);
        let length = buffer_length(&mut random, 2 * lengths.iter().sum::<usize>());
        let (fit, filled) = fitting(&lengths, 2, length);

        let mut out = vec![UNTOUCHED; length];
        let answer = play(&file, &mut fresh(), ticks, &mut out);
        assert_eq!(answer, accepted(fit as u64), "seed {seed}");
        assert!(
            out[filled..].iter().all(|&number| number == UNTOUCHED),
            "seed {seed}"
        );
        assert!(
            (answer, out) == streamed(&file, ticks, length),
            "seed {seed}"
        );
    }
}

#[test]
fn translations_need_their_exact_room() {
    for seed in 0..300 {
        let file = file(seed);
        let ticks = Random::new(seed).below(200);
        let needed = translate(&file, ticks, &mut []).place;
        assert_eq!(translate(&file, ticks, &mut []), refused(12, needed));
        let mut short = vec![7; needed as usize - 1];
        assert_eq!(translate(&file, ticks, &mut short), refused(12, needed));
        assert!(short.iter().all(|&byte| byte == 7), "seed {seed}");
        let mut room = vec![7; needed as usize + 3];
        assert_eq!(
            translate(&file, ticks, &mut room),
            accepted(needed),
            "seed {seed}"
        );
        assert_eq!(room[needed as usize..], [7; 3], "seed {seed}");
    }
}

#[test]
fn refused_files_change_nothing() {
    for seed in 0..2_000 {
        let damaged = if seed % 2 == 0 {
            aimed(seed, 1 + seed / 2 % 9).bytes
        } else {
            at_random(seed)
        };
        let refusal = judge(&damaged);
        if refusal.number == 0 {
            continue;
        }
        let mut cells = fresh();
        let mut out = [UNTOUCHED; 2_000];
        let mut room = [7; 100];
        assert_eq!(
            play(&damaged, &mut cells, 1, &mut out),
            refusal,
            "seed {seed}"
        );
        assert_eq!(touch(&damaged, &mut cells, 0, 0, 0), refusal, "seed {seed}");
        assert_eq!(change_page(&damaged, &mut cells), refusal, "seed {seed}");
        assert_eq!(translate(&damaged, 1, &mut room), refusal, "seed {seed}");
        assert_eq!(
            play_stream(&room, &damaged, &mut out),
            refusal,
            "seed {seed}"
        );
        assert_eq!(cells, fresh(), "seed {seed}");
        assert_eq!(room, [7; 100], "seed {seed}");
        assert!(out.iter().all(|&number| number == UNTOUCHED), "seed {seed}");
    }
}

#[test]
fn ticks_one_by_one_equal_one_play() {
    for seed in 0..400 {
        let file = file(seed);
        let start = legal_state(seed, &file);
        let mut one_by_one = start;
        let mut frames = Vec::new();
        for _ in 0..12 {
            let trace = trace_tick(&file, &mut one_by_one).expect("legal");
            frames.extend_from_slice(&trace.frames);
        }
        let mut at_once = start;
        let mut out = vec![UNTOUCHED; frames.len() + 1];
        assert_eq!(
            play(&file, &mut at_once, 12, &mut out).count,
            12,
            "seed {seed}"
        );
        assert_eq!(at_once, one_by_one, "seed {seed}");
        assert!(out[..frames.len()] == frames, "seed {seed}");
        assert_eq!(out[frames.len()], UNTOUCHED, "seed {seed}");
    }
}
