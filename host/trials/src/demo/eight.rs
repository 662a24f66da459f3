//! The third demo module, of eight channels. Left: bass, drums, plucked chords and a low pad; right: a lead and its echo, hats and a high
//! pad.
use super::{add, name, sounds, BARS, BAR_ROWS, BASS, DRUM, HAT, HIGH, KICK, LEAD, LOW, PAD, ROWS};
use super::{A, B, C, D, E, F, G, SNARE};
use crate::cases::wide;
use second::generate::draft::Draft;

/// What each channel plays, from 0: 1, 4, 5 and 8 are left, 2, 3, 6 and 7 right.
const BASSES: usize = 0;
const LEADS: usize = 1;
const ECHOES: usize = 2;
const DRUMS: usize = 3;
const PLUCKS: usize = 4;
const HATS: usize = 5;
const HIGH_PAD: usize = 6;
const LOW_PAD: usize = 7;

/// Rows by which the echo is late.
const LATE: usize = 3;

/// Row and note of the lead, in each of the two patterns.
type Tune = [(usize, usize)];

const FIRST: &Tune = &[
    (0, A),
    (6, C),
    (8, E),
    (16, F),
    (22, E),
    (24, C),
    (32, G),
    (38, E),
    (40, D),
    (44, E),
    (48, D),
    (54, B),
    (56, G),
];

const SECOND: &Tune = &[
    (0, E),
    (4, D),
    (8, C),
    (12, A),
    (16, C),
    (20, A),
    (24, F),
    (32, E),
    (36, G),
    (40, E),
    (44, C),
    (48, B),
    (52, D),
    (56, G),
];

/// The bytes of the module's file.
pub fn module() -> Vec<u8> {
    let mut draft = wide(8);
    name(&mut draft.title, "lampthistle eight");
    add(&mut draft, BASS, "bass", 64, &sounds::bass());
    add(&mut draft, LEAD, "lead", 64, &sounds::lead());
    add(&mut draft, PAD, "pad", 40, &sounds::pad());
    add(&mut draft, KICK, "kick", 64, &sounds::kick());
    add(&mut draft, SNARE, "snare", 56, &sounds::snare());
    add(&mut draft, HAT, "hat", 44, &sounds::hat());
    draft.song_length = 2;
    draft.table[1] = 1;
    draft.patterns = vec![draft.patterns[0].clone(); 2];
    for (pattern, tune) in [FIRST, SECOND].into_iter().enumerate() {
        for bar in 0..BARS.len() {
            low_bar(&mut draft, pattern, bar);
            plucked_bar(&mut draft, pattern, bar);
            pad_bar(&mut draft, pattern, bar);
            drum_bar(&mut draft, pattern, bar);
        }
        lead(&mut draft, pattern, tune);
    }
    draft.bytes()
}

/// The period of a semitone, from the low C on; above two octaves an octave lower.
fn pitch(semitone: usize) -> u32 {
    match semitone {
        0..=11 => LOW[semitone],
        12..=23 => HIGH[semitone - 12],
        _ => pitch(semitone - 12),
    }
}

/// The bass on the beat and before it.
fn low_bar(draft: &mut Draft, pattern: usize, bar: usize) {
    let (root, _) = BARS[bar];
    for at in [0, 3, 6, 10, 12] {
        draft.put(pattern, BAR_ROWS * bar + at, BASSES, BASS, LOW[root], 0);
    }
    draft.put(pattern, BAR_ROWS * bar + 15, BASSES, 0, 0, 0xA08);
}

/// The chord's notes one after the other, each cut short.
fn plucked_bar(draft: &mut Draft, pattern: usize, bar: usize) {
    let (root, chord) = BARS[bar];
    let third = chord as usize / 16;
    for (k, step) in [0, third, 7, 12, 7, third, 7, 12].into_iter().enumerate() {
        let (row, period) = (BAR_ROWS * bar + 2 * k, pitch(12 + root + step));
        draft.put(pattern, row, PLUCKS, BASS, period, 0xC2C);
        draft.put(pattern, row + 1, PLUCKS, 0, 0, 0xEC2);
    }
}

/// The root held low, and the chord's fifth held high, whose volume wavers.
fn pad_bar(draft: &mut Draft, pattern: usize, bar: usize) {
    let (root, _) = BARS[bar];
    let row = BAR_ROWS * bar;
    draft.put(pattern, row, LOW_PAD, PAD, pitch(root + 12), 0xC38);
    draft.put(pattern, row, HIGH_PAD, PAD, pitch(root + 7 + 12), 0xC30);
    for at in 1..BAR_ROWS {
        draft.put(pattern, row + at, HIGH_PAD, 0, 0, 0x746);
    }
    draft.put(pattern, row + 12, LOW_PAD, 0, 0, 0xA01);
}

/// Kick and snare on the left; the hat against them on the right, with a roll at the end of every second bar.
fn drum_bar(draft: &mut Draft, pattern: usize, bar: usize) {
    let row = BAR_ROWS * bar;
    for (at, drum) in [(0, KICK), (4, SNARE), (7, KICK), (8, KICK), (12, SNARE)] {
        draft.put(pattern, row + at, DRUMS, drum, DRUM, 0);
    }
    for at in (2..BAR_ROWS).step_by(4) {
        let roll = bar % 2 == 1 && at == 14;
        let effect = if roll { 0xE92 } else { 0 };
        draft.put(pattern, row + at, HATS, HAT, DRUM, effect);
    }
}

/// Each note of the tune, with a vibrato once it is held; and its echo, later and softer.
fn lead(draft: &mut Draft, pattern: usize, tune: &Tune) {
    let ends = tune.iter().skip(1).map(|&(row, _)| row).chain([ROWS]);
    for (&(row, note), end) in tune.iter().zip(ends) {
        draft.put(pattern, row, LEADS, LEAD, HIGH[note], 0xC34);
        for at in row + 2..end {
            draft.put(pattern, at, LEADS, 0, 0, 0x453);
        }
        if row + LATE < ROWS {
            draft.put(pattern, row + LATE, ECHOES, LEAD, HIGH[note], 0xC16);
        }
    }
}
