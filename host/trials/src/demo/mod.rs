//! The demo module: four bars of bass, lead, pad and drums over three patterns, with arpeggios, slides, loops, a pattern break and a
//! delay.
pub mod eight;
mod sounds;
pub mod tuned;
pub mod waves;

use second::generate::draft::Draft;
use sounds::Sound;

const BASS: u32 = 1;
const LEAD: u32 = 2;
const PAD: u32 = 3;
const KICK: u32 = 4;
const SNARE: u32 = 5;
const HAT: u32 = 6;

/// The periods of two octaves from C on, and the note of a drum.
const LOW: [u32; 12] = [856, 808, 762, 720, 678, 640, 604, 570, 538, 508, 480, 453];
const HIGH: [u32; 12] = [428, 404, 381, 360, 339, 320, 302, 285, 269, 254, 240, 226];
const DRUM: u32 = 428;

/// The notes' places in an octave.
const C: usize = 0;
const D: usize = 2;
const E: usize = 4;
const F: usize = 5;
const G: usize = 7;
const A: usize = 9;
const B: usize = 11;

/// Each bar's root, and its chord as an arpeggio.
const BARS: [(usize, u32); 4] = [(A, 0x037), (F, 0x047), (C, 0x047), (G, 0x047)];
const BAR_ROWS: usize = 16;
const ROWS: usize = 64;

/// Row, note and effect of a melody.
type Melody = [(usize, usize, u32)];

/// The first tune: plain notes, a slide to a note and fades.
const FIRST: &Melody = &[
    (0, E, 0xC30),
    (4, D, 0xC30),
    (6, E, 0x30A),
    (10, C, 0xC28),
    (14, D, 0xC28),
    (16, C, 0xC30),
    (24, A, 0xC28),
    (28, A, 0xA02),
    (32, G, 0xC30),
    (36, E, 0xC30),
    (40, G, 0x308),
    (44, A, 0xC28),
    (48, B, 0xC30),
    (52, G, 0x30C),
    (56, D, 0xC30),
    (60, D, 0xA02),
];

/// The answer: slides up and down, and a note cut short.
const SECOND: &Melody = &[
    (0, A, 0xC30),
    (3, G, 0xC28),
    (6, E, 0xC30),
    (9, E, 0x101),
    (12, C, 0xEC3),
    (16, F, 0xC30),
    (20, A, 0x306),
    (26, G, 0xC28),
    (32, E, 0xC30),
    (38, D, 0x304),
    (42, C, 0xC28),
    (48, D, 0xC30),
    (54, B, 0x201),
    (58, G, 0xA03),
];

/// The bytes of the demo's file.
pub fn module() -> Vec<u8> {
    let mut draft = Draft::empty();
    name(&mut draft.title, "lampthistle demo");
    add(&mut draft, BASS, "bass", 60, &sounds::bass());
    add(&mut draft, LEAD, "lead", 48, &sounds::lead());
    add(&mut draft, PAD, "pad", 30, &sounds::pad());
    add(&mut draft, KICK, "kick", 60, &sounds::kick());
    add(&mut draft, SNARE, "snare", 44, &sounds::snare());
    add(&mut draft, HAT, "hat", 28, &sounds::hat());
    draft.song_length = 4;
    draft.table[..4].copy_from_slice(&[0, 1, 0, 2]);
    draft.patterns = vec![draft.patterns[0].clone(); 3];
    for pattern in 0..3 {
        for bar in 0..BARS.len() {
            bass_bar(&mut draft, pattern, bar);
            pad_bar(&mut draft, pattern, bar);
            drum_bar(&mut draft, pattern, bar);
        }
        melody(
            &mut draft,
            pattern,
            if pattern == 1 { SECOND } else { FIRST },
        );
    }
    end(&mut draft);
    draft.bytes()
}

fn name(to: &mut [u8], text: &str) {
    to[..text.len()].copy_from_slice(text.as_bytes());
}

fn add(draft: &mut Draft, number: u32, text: &str, volume: u8, sound: &Sound) {
    let (start, length) = sound.looped.unwrap_or((0, 2));
    let words = |bytes: usize| bytes as u32 / 2;
    draft.add_looped(
        number as usize,
        volume,
        words(start),
        words(length),
        &sound.bytes,
    );
    name(&mut draft.headers[number as usize - 1].name, text);
}

/// The root on the beat and between, a slide down into the bar's last note.
fn bass_bar(draft: &mut Draft, pattern: usize, bar: usize) {
    let root = LOW[BARS[bar].0];
    let row = BAR_ROWS * bar;
    for at in [0, 3, 6, 8, 11] {
        draft.put(pattern, row + at, 0, BASS, root, 0);
    }
    draft.put(pattern, row + 7, 0, 0, 0, 0xA06);
    draft.put(pattern, row + 14, 0, BASS, root, 0x204);
    draft.put(pattern, row + 15, 0, 0, 0, 0xEC4);
}

/// A chord by arpeggio, which swells and fades.
fn pad_bar(draft: &mut Draft, pattern: usize, bar: usize) {
    let (root, chord) = BARS[bar];
    let row = BAR_ROWS * bar;
    draft.put(pattern, row, 2, PAD, HIGH[root], chord);
    for at in 1..BAR_ROWS {
        let effect = match at {
            8 => 0xEA8,
            12.. => 0xEB5,
            _ => chord,
        };
        draft.put(pattern, row + at, 2, 0, 0, effect);
    }
}

/// Kick, snare and hat; in every second bar a roll of the hat.
fn drum_bar(draft: &mut Draft, pattern: usize, bar: usize) {
    let row = BAR_ROWS * bar;
    for at in (0..BAR_ROWS).step_by(2) {
        let (drum, effect) = match at {
            0 | 6 | 8 => (KICK, 0),
            4 | 12 => (SNARE, 0),
            14 if bar % 2 == 1 => (HAT, 0xE92),
            _ => (HAT, 0),
        };
        draft.put(pattern, row + at, 3, drum, DRUM, effect);
    }
}

fn melody(draft: &mut Draft, pattern: usize, notes: &Melody) {
    for &(row, note, effect) in notes {
        // A slide to a note, and a slide of the volume, go on with what sounds.
        let (sample, period) = match effect >> 8 {
            0x3 => (0, HIGH[note]),
            0xA => (0, 0),
            _ => (LEAD, HIGH[note]),
        };
        draft.put(pattern, row, 1, sample, period, effect);
        let goes_on = matches!(effect >> 8, 0x1 | 0x2 | 0x3 | 0xA);
        if goes_on && row + 1 < ROWS {
            draft.put(pattern, row + 1, 1, 0, 0, effect);
        }
    }
}

/// The last pattern ends early: a chord held by a delay, then a break to the beginning.
fn end(draft: &mut Draft) {
    const LAST: usize = 47;
    draft.put(2, LAST, 0, BASS, LOW[A], 0xEE5);
    draft.put(2, LAST, 1, LEAD, HIGH[A], 0xA01);
    draft.put(2, LAST, 2, PAD, HIGH[A], 0x037);
    draft.put(2, LAST, 3, KICK, DRUM, 0xD00);
}
