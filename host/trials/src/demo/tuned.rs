//! The fourth demo module: two pianos over a bass, of which one was recorded flat and the other sharp. In the first pattern E50 stands beside
//! their notes, so that they sound as they were recorded; the second is the same as their finetunes put it right.
use super::{add, name, sounds, BAR_ROWS, BASS, HIGH, LOW};
use super::{A, B, BARS, C, D, E, F, G};
use second::generate::draft::Draft;

const LOW_PIANO: u32 = 2;
const HIGH_PIANO: u32 = 3;

/// Eighths of a semitone by which each piano was recorded too low, or, below 0, too high.
const LOW_FINETUNE: i8 = 5;
const HIGH_FINETUNE: i8 = -4;
/// The bytes of a cycle of the low piano, recorded as it should be; the high one is an octave above it.
const CYCLE: f64 = 64.0;

/// Row and note of the high piano.
const TUNE: &[(usize, usize)] = &[
    (0, E),
    (6, D),
    (8, C),
    (12, B),
    (16, C),
    (22, E),
    (24, A),
    (32, G),
    (38, F),
    (40, E),
    (44, C),
    (48, D),
    (52, B),
    (56, G),
];

/// Beside a note: finetune 0, whatever the sample's.
const AS_RECORDED: u32 = 0xE50;

/// The bytes of the module's file.
pub fn module() -> Vec<u8> {
    let mut draft = Draft::empty();
    name(&mut draft.title, "lampthistle tuned");
    add(&mut draft, BASS, "bass", 48, &sounds::bass());
    add_piano(&mut draft, LOW_PIANO, "flat piano", CYCLE, LOW_FINETUNE);
    add_piano(
        &mut draft,
        HIGH_PIANO,
        "sharp piano",
        CYCLE / 2.0,
        HIGH_FINETUNE,
    );
    draft.song_length = 2;
    draft.table[1] = 1;
    draft.patterns = vec![draft.patterns[0].clone(); 2];
    for (pattern, effect) in [AS_RECORDED, 0].into_iter().enumerate() {
        for bar in 0..BARS.len() {
            bass_bar(&mut draft, pattern, bar);
            chord_bar(&mut draft, pattern, bar, effect);
        }
        for &(row, note) in TUNE {
            draft.put(pattern, row, 3, HIGH_PIANO, HIGH[note], effect);
        }
    }
    draft.bytes()
}

/// A piano whose cycle takes more bytes than it should if it was recorded too low, with the finetune that puts it right.
fn add_piano(draft: &mut Draft, number: u32, text: &str, cycle: f64, finetune: i8) {
    const OCTAVE: f64 = 12.0 * 8.0;
    let recorded = cycle * (f64::from(finetune) / OCTAVE).exp2();
    add(draft, number, text, 56, &sounds::piano(recorded));
    draft.headers[number as usize - 1].finetune = finetune as u8 % 16;
}

/// The root, held, and once more in the middle.
fn bass_bar(draft: &mut Draft, pattern: usize, bar: usize) {
    let (root, _) = BARS[bar];
    for at in [0, 8] {
        draft.put(pattern, BAR_ROWS * bar + at, 0, BASS, LOW[root], 0);
    }
}

/// The chord's notes one after the other, on two channels, so that each sounds into the next.
fn chord_bar(draft: &mut Draft, pattern: usize, bar: usize, effect: u32) {
    let (root, chord) = BARS[bar];
    let third = chord as usize / 16;
    for (k, step) in [0, third, 7, third].repeat(2).into_iter().enumerate() {
        let (row, note) = (BAR_ROWS * bar + 2 * k, (root + step) % HIGH.len());
        draft.put(pattern, row, 1 + k % 2, LOW_PIANO, HIGH[note], effect);
    }
}
