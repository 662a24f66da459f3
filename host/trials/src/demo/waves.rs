//! The second demo module: a lead that wavers in pitch and a pad that wavers in volume, in each form of a wave.
use super::{add, name, sounds, BAR_ROWS, BASS, HIGH, LEAD, LOW, PAD};
use super::{A, C, D, E, F, G};
use second::generate::draft::Draft;

/// Each bar's root, its lead, and the form of its waves: sine, ramp, square, and sine again.
const BARS: [(usize, usize, u32); 4] = [(A, E, 0), (F, C, 1), (C, G, 2), (G, D, 0)];

/// The bytes of the module's file.
pub fn module() -> Vec<u8> {
    let mut draft = Draft::empty();
    name(&mut draft.title, "lampthistle waves");
    add(&mut draft, BASS, "bass", 52, &sounds::bass());
    add(&mut draft, LEAD, "lead", 44, &sounds::lead());
    add(&mut draft, PAD, "pad", 32, &sounds::pad());
    for bar in 0..BARS.len() {
        bass_bar(&mut draft, bar);
        lead_bar(&mut draft, bar);
        pad_bar(&mut draft, bar);
    }
    draft.bytes()
}

/// The root, its slide to the octave, which fades on the way, and a vibrato that fades with it.
fn bass_bar(draft: &mut Draft, bar: usize) {
    let (root, ..) = BARS[bar];
    let mut put = |at, sample, period, effect| {
        draft.put(0, BAR_ROWS * bar + at, 0, sample, period, effect);
    };
    put(0, BASS, LOW[root], 0);
    put(6, 0, HIGH[root], 0x314);
    for at in 7..11 {
        put(at, 0, 0, 0x501);
    }
    put(11, 0, 0, 0x453);
    for at in 12..16 {
        put(at, 0, 0, 0x602);
    }
}

/// A held note: plain at first, then with a vibrato that gets deeper.
fn lead_bar(draft: &mut Draft, bar: usize) {
    let (_, note, form) = BARS[bar];
    let row = BAR_ROWS * bar;
    draft.put(0, row, 1, LEAD, HIGH[note], 0xE40 + form);
    for at in 4..16 {
        let depth = (at as u32 - 2) / 2;
        draft.put(0, row + at, 1, 0, 0, 0x460 + depth);
    }
}

/// A held note whose volume wavers, the faster the later.
fn pad_bar(draft: &mut Draft, bar: usize) {
    let (root, _, form) = BARS[bar];
    let row = BAR_ROWS * bar;
    draft.put(0, row, 2, PAD, HIGH[root], 0xE70 + form);
    for at in 1..16 {
        let speed = 2 + at as u32 / 4;
        draft.put(0, row + at, 2, 0, 0, 0x707 + 0x10 * speed);
    }
}
