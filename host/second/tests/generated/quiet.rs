//! Causes of quiet: "it sounds" exactly where the voice alone makes a frame that isn't silent.

use crate::common::*;
use second::generate::quiet::{channel, hushed, quiet_state};
use second::generate::states::illegal_state;
use second::{channels, fresh, judge, trace_tick, why_quiet};

/// Cells before the first channel's, of one channel, and of its own before its voice's.
const SONG_CELLS: usize = 13;
const CHANNEL_CELLS: usize = (second::STATE_CELLS - SONG_CELLS) / 8;
const VOICE: usize = CHANNEL_CELLS - 6;

/// Whether the first frame of this voice alone isn't silent, on a module without notes.
fn heard(file: &[u8], cells: &Cells, channel: usize) -> bool {
    let mut blank = file.to_vec();
    let patterns = 1 + usize::from(*file[952..1_080].iter().max().expect("128 entries"));
    let pattern_bytes = 256 * channels(file) as usize;
    blank[1_084..1_084 + pattern_bytes * patterns].fill(0);
    let own = SONG_CELLS + CHANNEL_CELLS * (channel - 1);
    let voice = &cells[own + VOICE..own + CHANNEL_CELLS];
    let mut alone = fresh();
    alone[own + VOICE..own + CHANNEL_CELLS].copy_from_slice(voice);
    // The tick's work gives a voice its channel's period and volume.
    alone[own + 2] = voice[2];
    alone[own + 3] = voice[1];
    let trace = trace_tick(&blank, &mut alone).expect("legal");
    trace.frames[..2] != [0, 0]
}

#[test]
fn it_sounds_exactly_where_it_is_heard() {
    let mut seen = [0; 7];
    for seed in 0..3_000 {
        let file = if seed % 2 == 0 {
            hushed(seed)
        } else {
            file(seed)
        };
        let cells = quiet_state(seed, &file);
        for channel in 1..=channels(&file) {
            let answer = why_quiet(&file, &cells, channel);
            assert_eq!((answer.number, answer.place), (0, 0), "seed {seed}");
            let cause = answer.count;
            assert!((1..=6).contains(&cause), "seed {seed}");
            assert_eq!(
                cause == 6,
                heard(&file, &cells, channel as usize),
                "seed {seed}"
            );
            seen[cause as usize] += 1;
        }
    }
    assert!(seen[1..].iter().all(|&times| times > 200), "{seen:?}");
}

#[test]
fn refusals_come_in_their_order() {
    let mut seen = [0; 26];
    for seed in 0..4_000 {
        let file = match seed % 4 {
            0 => second::generate::damage::any_file(seed),
            _ => hushed(seed % 100),
        };
        let refusal = judge(&file);
        let number = channel(seed);
        let cells = match seed % 3 {
            _ if refusal.number != 0 => [seed as u32; second::STATE_CELLS],
            0 => illegal_state(seed, &file),
            _ => quiet_state(seed, &file),
        };
        let answer = why_quiet(&file, &cells, number);
        seen[answer.number as usize] += 1;
        if refusal.number != 0 {
            assert_eq!(answer, refusal, "seed {seed}");
        } else if seed % 3 == 0 {
            assert_eq!(answer, refused(14, 0), "seed {seed}");
        } else if number == 0 || number > channels(&file) {
            assert_eq!(answer, refused(25, 0), "seed {seed}");
        } else {
            assert_eq!(answer, accepted(answer.count), "seed {seed}");
        }
    }
    assert!([0, 14, 25].iter().all(|&number| seen[number] > 300));
}
