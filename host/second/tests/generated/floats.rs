//! Floats against the numbers that they are made of, and the board's against the player's.

use crate::common::*;
use second::generate::floats::{opposite, record, sides, Record};
use second::generate::states::{illegal_state, legal_state};
use second::generate::streams::{first_tick, older};
use second::generate::Random;
use second::{
    channels, decode, fresh, play, play_floats, play_stream_floats, play_stream_floats_from,
    play_stream_from, Answer,
};

/// What an untouched float holds: a NaN that signals.
const NAN_BITS: u32 = 0x7F80_0BAD;

/// A call's answer and the bits of floats and record after it, then the record's tick.
type Left = (Answer, Vec<u32>, u32);

fn left(answer: Answer, out: &[f32], held: Record) -> Left {
    let numbers = out.iter().chain(&held.pair);
    let bits = numbers.map(|number| number.to_bits()).collect();
    (answer, bits, held.tick)
}

fn player(file: &[u8], cells: &mut Cells, ticks: u32, sides: u32, room: usize, seed: u64) -> Left {
    let mut out = vec![f32::from_bits(NAN_BITS); room];
    let mut held = record(seed);
    let Record { pair, tick } = &mut held;
    let answer = play_floats(file, cells, ticks, sides, &mut out, pair, tick);
    left(answer, &out, held)
}

fn board(stream: &[u8], file: &[u8], sides: u32, room: usize, seed: u64) -> Left {
    let mut out = vec![f32::from_bits(NAN_BITS); room];
    let mut held = record(seed);
    let Record { pair, tick } = &mut held;
    let answer = play_stream_floats(stream, file, sides, &mut out, pair, tick);
    left(answer, &out, held)
}

fn board_from(stream: &[u8], file: &[u8], from: u32, sides: u32, room: usize, seed: u64) -> Left {
    let mut out = vec![f32::from_bits(NAN_BITS); room];
    let mut held = record(seed);
    let Record { pair, tick } = &mut held;
    let answer = play_stream_floats_from(stream, file, from, sides, &mut out, pair, tick);
    left(answer, &out, held)
}

fn untouched(answer: Answer, room: usize, seed: u64) -> Left {
    left(answer, &vec![f32::from_bits(NAN_BITS); room], record(seed))
}

/// The floats and the record that these 16-bit numbers make, by division.
fn divided(answer: Answer, numbers: &[i16], sides: u32, room: usize, seed: u64) -> Left {
    let mut out = vec![f32::from_bits(NAN_BITS); room];
    let mut held = record(seed);
    for (frame, pair) in numbers.chunks_exact(2).enumerate() {
        let [left, right] = [f32::from(pair[0]), f32::from(pair[1])];
        held.pair = [left / 32_768.0, right / 32_768.0];
        held.tick = answer.count as u32 - 1;
        if sides == 1 {
            out[frame] = (left + right) / 65_536.0;
        } else {
            out[2 * frame..2 * frame + 2].copy_from_slice(&held.pair);
        }
    }
    left(answer, &out, held)
}

fn any_module(seed: u64) -> Vec<u8> {
    if seed.is_multiple_of(2) {
        opposite(seed)
    } else {
        file(seed)
    }
}

#[test]
fn floats_are_the_numbers_divided() {
    let mut opposites = 0;
    for seed in 0..600 {
        let mut random = Random::new(seed);
        let file = any_module(seed);
        let start = random.pick(&[fresh(), legal_state(seed, &file)]);
        let sides = random.pick(&[1, 2]);
        let ticks = random.pick(&[0, 1, 4, 9, u32::MAX]);
        let frames = buffer_length(&mut random, 4_800);
        let spare = random.below(sides) as usize;
        let room = sides as usize * frames + spare;
        let (mut ours, mut other) = (start, start);
        let mut numbers = vec![0; 2 * frames];
        let answer = play(&file, &mut other, ticks, &mut numbers);
        // Untouched numbers are none of the floats'.
        numbers.truncate(2 * frames_played(&file, &start, answer.count));
        let expected = divided(answer, &numbers, sides, room, seed);
        let played = player(&file, &mut ours, ticks, sides, room, seed);
        assert!(played == expected, "seed {seed}");
        assert_eq!(ours, other, "seed {seed}");
        let pairs = numbers.chunks_exact(2);
        opposites += pairs
            .filter(|p| p[0] != 0 && p[0].checked_neg() == Some(p[1]))
            .count();
    }
    assert!(opposites > 10_000, "{opposites}");
}

fn frames_played(file: &[u8], start: &Cells, ticks: u64) -> usize {
    let mut cells = *start;
    let tick = |_| second::trace_tick(file, &mut cells).expect("legal");
    (0..ticks).map(tick).map(|t| t.frames.len() / 2).sum()
}

#[test]
fn the_boards_floats_and_record_are_the_players() {
    for seed in 0..500 {
        let mut random = Random::new(seed);
        let file = any_module(seed);
        let ticks = random.below(12);
        let sides = random.pick(&[1, 2]);
        let room = buffer_length(&mut random, 9_600);
        let board = board(&translated(&file, ticks), &file, sides, room, seed);
        let player = player(&file, &mut fresh(), ticks, sides, room, seed);
        assert!(board == player, "seed {seed}");
    }
}

#[test]
fn from_any_tick_floats_are_the_numbers_divided() {
    for seed in 0..600 {
        let mut random = Random::new(seed);
        let file = any_module(seed);
        let ticks = random.below(12);
        let mut stream = translated(&file, ticks);
        if channels(&file) == 4 && random.chance(50) {
            stream = older(&stream, random.pick(&[1, 2]));
        }
        let from = first_tick(seed, ticks);
        let sides = random.pick(&[1, 2]);
        let frames = buffer_length(&mut random, 4_800);
        let room = sides as usize * frames + random.below(sides) as usize;
        let mut numbers = vec![0; 2 * frames];
        let answer = play_stream_from(&stream, &file, from, &mut numbers);
        let lengths = stream_lengths(&decode(&stream, channels(&file)).expect("translated"));
        let played = lengths.iter().skip(from as usize);
        let filled: usize = played.take(answer.count as usize).sum();
        let expected = divided(answer, &numbers[..2 * filled], sides, room, seed);
        let board = board_from(&stream, &file, from, sides, room, seed);
        assert!(board == expected, "seed {seed}");
    }
}

#[test]
fn refusals_keep_floats_and_record() {
    let mut seen = [0; 25];
    for seed in 0..3_000 {
        let file = any_module(seed % 100);
        let asked = sides(seed);
        let start = match seed % 3 {
            0 => illegal_state(seed, &file),
            _ => legal_state(seed, &file),
        };
        let number = match (seed % 3, asked) {
            (0, _) => 14,
            (_, 1 | 2) => 0,
            _ => 24,
        };
        seen[number as usize] += 1;
        let mut cells = start;
        let after = player(&file, &mut cells, 1, asked, 100, seed);
        assert!(
            after == untouched(refused(number, 0), 100, seed),
            "seed {seed}"
        );
        assert_eq!(cells, start, "seed {seed}");
        if number == 24 {
            let after = board(&[], &file, asked, 100, seed);
            assert!(after == untouched(refused(24, 0), 100, seed), "seed {seed}");
            let after = board_from(&[], &file, first_tick(seed, 9), asked, 100, seed);
            assert!(after == untouched(refused(24, 0), 100, seed), "seed {seed}");
        }
    }
    assert!([0, 14, 24].iter().all(|&number| seen[number] > 300));
}
