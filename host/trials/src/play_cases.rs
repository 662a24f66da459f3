//! The stored modules of crates/play_cases, and what its program prints for each: the name, then a line a tick of plain decimal numbers
//! with a space between two,
//!
//! `POSITION ROW TICK TEMPO (SAMPLE PERIOD VOLUME INDEX FRACTION STOPPED)xCHANNELS CHECKSUM`
//!
//! with position, row and tick in the row before the tick, and tempo and the voices of the module's channels as the tick leaves them in
//! the state. The checksum goes over the tick's numbers in their order, from h = 0: h = (h * 31 + number mod 65,536) mod 65,521.
use crate::cases::{wide, Case};
use lampthistle::cell;
use second::generate::draft::Draft;
use second::generate::Random;
use std::fmt::Write;

/// Ticks that the program plays of each module, one a call.
pub const TICKS: u32 = 48;

/// A voice's numbers, from its sample on.
const VOICE_CELLS: usize = cell::CHANNEL_CELLS - cell::VOICE_SAMPLE;

pub fn play_cases() -> Vec<Case> {
    vec![
        ("effects", effects()),
        ("flow", flow()),
        ("edges", edges()),
        ("breaks", breaks()),
        ("waves", waves()),
        ("six", six()),
        ("eight", eight()),
        ("tuned", tuned()),
    ]
}

/// Bytes of a sample that are unlike one another.
fn noise(seed: u64, length: usize) -> Vec<u8> {
    let mut random = Random::new(seed);
    (0..length).map(|_| random.byte()).collect()
}

/// Three ticks a row at tempo 255, so that few ticks see many rows.
fn fast(draft: &mut Draft) {
    draft.put(0, 0, 3, 0, 0, 0xF03);
    draft.put(0, 0, 2, 0, 0, 0xFFF);
}

/// Puts a column of cells into a channel of pattern 0, from row 0 on.
fn column(draft: &mut Draft, channel: usize, cells: &Column) {
    for (row, &(sample, period, effect)) in cells.iter().enumerate() {
        draft.put(0, row, channel, sample, period, effect);
    }
}

/// Cells of a channel from row 0 on: sample number, period, effect.
type Column = [(u32, u32, u32)];

const PERIOD_EFFECTS: &Column = &[
    (1, 428, 0x047),
    (0, 0, 0x102),
    (0, 0, 0x2FF),
    (0, 339, 0x30A),
    (0, 0, 0x300),
    (2, 214, 0x902),
    (0, 0, 0x905),
    (0, 0, 0xE92),
    (1, 113, 0x0FF),
    (0, 0, 0xE25),
    (0, 0, 0xE1F),
];

const VOLUME_EFFECTS: &Column = &[
    (2, 285, 0xC20),
    (0, 0, 0xA35),
    (0, 0, 0xA0F),
    (0, 0, 0xEA7),
    (0, 0, 0xEB2),
    (0, 320, 0xEC2),
    (1, 0, 0xEC0),
    (0, 0, 0xCFF),
    (0, 0, 0x8FF),
];

const SLIDES_TO_LIMITS: &Column = &[(0, 0, 0), (1, 856, 0x20F), (2, 120, 0x1FF), (0, 0, 0)];

/// Every effect that works on a channel.
fn effects() -> Vec<u8> {
    let mut draft = Draft::empty();
    draft.add_looped(1, 64, 20, 80, &noise(1, 240));
    draft.add_sample(2, 48, &noise(2, 2_000));
    column(&mut draft, 0, PERIOD_EFFECTS);
    column(&mut draft, 1, VOLUME_EFFECTS);
    column(&mut draft, 2, SLIDES_TO_LIMITS);
    fast(&mut draft);
    draft.bytes()
}

/// Loops, delays, breaks and jumps over three positions.
fn flow() -> Vec<u8> {
    let mut draft = Draft::empty();
    draft.song_length = 3;
    draft.table[..3].copy_from_slice(&[0, 1, 0]);
    draft.patterns.push(draft.patterns[0].clone());
    draft.add_looped(1, 50, 0, 30, &noise(3, 60));
    column(
        &mut draft,
        0,
        &[
            (1, 404, 0xE60),
            (0, 0, 0xE61),
            (1, 360, 0xEE2),
            (0, 0, 0xD62),
        ],
    );
    column(&mut draft, 1, &[(1, 202, 0), (0, 0, 0xA02), (0, 0, 0xEE1)]);
    draft.put(1, 62, 2, 1, 538, 0xF02);
    draft.put(1, 63, 1, 0, 0, 0xE61);
    draft.put(1, 63, 3, 1, 480, 0xFC0);
    draft.put(1, 1, 0, 0, 0, 0xD64);
    draft.put(1, 1, 1, 0, 0, 0xB02);
    fast(&mut draft);
    draft.bytes()
}

/// Loudest bytes, shortest loops, ends inside a tick, starts of stopped voices and starts without a sample.
fn edges() -> Vec<u8> {
    let mut draft = Draft::empty();
    draft.add_looped(1, 64, 2, 3, &[128; 12]);
    draft.add_sample(2, 64, &[127; 40]);
    draft.add_looped(3, 64, 0, 2, &[127, 127, 128, 128]);
    draft.add_looped(31, 1, 100, 28, &noise(4, 512));
    column(
        &mut draft,
        0,
        &[
            (1, 428, 0),
            (2, 856, 0),
            (0, 0, 0x900),
            (0, 0, 0xE91),
            (3, 113, 0),
            (31, 0, 0xC40),
            (0, 127, 0x901),
            (0, 0, 0x900),
        ],
    );
    column(
        &mut draft,
        3,
        &[(0, 428, 0), (1, 428, 0), (0, 0, 0x101), (31, 214, 0x902)],
    );
    column(
        &mut draft,
        1,
        &[(0, 0, 0xF03), (0, 300, 0x310), (2, 300, 0)],
    );
    draft.put(0, 0, 2, 0, 0, 0xFFF);
    draft.bytes()
}

/// Breaks with the row that each leads to, where the next one stands: digits above 9, the last row, and rows past it.
const BREAKS: [(u32, usize); 7] = [
    (0xD25, 25),
    (0xD63, 63),
    (0xD64, 0),
    (0xD1F, 25),
    (0xD5D, 63),
    (0xD5E, 0),
    (0xDFF, 0),
];

/// A break in each position, one tick a row.
fn breaks() -> Vec<u8> {
    let mut draft = Draft::empty();
    draft.song_length = BREAKS.len() as u8 + 1;
    draft.add_looped(1, 64, 0, 30, &noise(5, 60));
    let empty = draft.patterns[0].clone();
    let mut row = 0;
    for (position, (effect, next)) in BREAKS.into_iter().enumerate() {
        draft.put(position, row, 0, 1, 428, effect);
        draft.patterns.push(empty.clone());
        draft.table[position + 1] = position as u8 + 1;
        row = next;
    }
    draft.put(0, 0, 1, 0, 0, 0xF01);
    draft.put(0, 0, 2, 0, 0, 0xFFF);
    draft.bytes()
}

/// A vibrato that starts with its note, goes on from memory, takes each form, and slides its volume.
const VIBRATO: &Column = &[
    (1, 428, 0x4F8),
    (0, 0, 0x400),
    (0, 0, 0x60A),
    (0, 0, 0xE41),
    (0, 0, 0x41F),
    (0, 0, 0xE46),
    (0, 0, 0x4B0),
    (0, 0, 0x630),
    (0, 214, 0xE43),
    (0, 0, 0x4FF),
    (1, 320, 0x600),
];

/// A tremolo in the same way, up to the loudest volume and down to none.
const TREMOLO: &Column = &[
    (2, 285, 0x7B9),
    (0, 0, 0x700),
    (0, 0, 0xE71),
    (0, 0, 0x707),
    (0, 0, 0xC05),
    (0, 0, 0x7F0),
    (0, 0, 0xE77),
    (0, 0, 0xC3D),
    (0, 0, 0x73F),
    (0, 0, 0xE7C),
    (2, 0, 0x7D4),
];

/// Notes beside 5, which are targets; restarts, which leave a wave's place; and no note at all.
const SLIDES_AND_WAVES: &Column = &[
    (0, 0, 0x4FF),
    (1, 404, 0x000),
    (0, 202, 0x30B),
    (0, 0, 0x507),
    (1, 480, 0x5F0),
    (0, 0, 0x4A6),
    (0, 0, 0xE92),
    (0, 0, 0x400),
    (0, 0, 0x902),
    (0, 0, 0x600),
    (2, 302, 0x50F),
];

/// Both ends of the periods, and a delayed row, whose repetition does not waver at its first tick.
const WAVES_AT_LIMITS: &Column = &[
    (1, 113, 0xF04),
    (0, 0, 0x47F),
    (0, 0, 0x400),
    (1, 856, 0x4DF),
    (0, 0, 0x400),
    (0, 0, 0xEE1),
    (1, 120, 0xE42),
    (0, 0, 0x48F),
    (0, 0, 0x4F0),
];

/// Vibrato and tremolo, four ticks a row.
fn waves() -> Vec<u8> {
    let mut draft = Draft::empty();
    draft.add_looped(1, 64, 20, 80, &noise(6, 240));
    draft.add_looped(2, 40, 0, 90, &noise(7, 180));
    column(&mut draft, 0, VIBRATO);
    column(&mut draft, 1, TREMOLO);
    column(&mut draft, 2, SLIDES_AND_WAVES);
    column(&mut draft, 3, WAVES_AT_LIMITS);
    draft.bytes()
}

/// Six channels, three a side: notes that come one after the other, a slide and a fade, then the loudest on all of them.
fn six() -> Vec<u8> {
    let mut draft = wide(6);
    draft.add_looped(1, 64, 10, 60, &noise(8, 140));
    draft.add_looped(2, 64, 0, 2, &[128; 4]);
    for channel in 0..6 {
        let period = 160 + 40 * channel as u32;
        draft.put(0, channel, channel, 1, period, 0xC20 + channel as u32);
        draft.put(0, 10, channel, 2, 428, 0);
    }
    column(&mut draft, 5, &[(0, 0, 0xF03), (0, 0, 0xFFF)]);
    draft.put(0, 7, 4, 0, 0, 0x208);
    draft.put(0, 8, 5, 0, 0, 0xA06);
    draft.bytes()
}

/// Eight channels, four a side, over two patterns: what one channel says of the row, the last decides, and the loudest on all of them.
fn eight() -> Vec<u8> {
    let mut draft = wide(8);
    draft.song_length = 2;
    draft.table[1] = 1;
    draft.patterns.push(draft.patterns[0].clone());
    draft.add_looped(1, 60, 10, 60, &noise(9, 140));
    draft.add_looped(2, 64, 0, 2, &[128; 4]);
    draft.add_sample(3, 64, &noise(10, 600));
    for channel in 0..8 {
        let k = channel as u32;
        draft.put(
            0,
            channel / 2,
            channel,
            1 + 2 * (k % 2),
            214 + 30 * k,
            0x400 + 0x11 * k,
        );
        draft.put(1, 3, channel, 2, 428, 0);
    }
    // Speed, tempo, delay, break and jump on channels that four have not.
    draft.put(0, 4, 4, 0, 0, 0xF03);
    draft.put(0, 4, 6, 0, 0, 0xFFF);
    draft.put(0, 5, 1, 0, 0, 0xEE3);
    draft.put(0, 5, 7, 0, 0, 0xEE1);
    draft.put(0, 6, 5, 0, 0, 0xB01);
    draft.put(0, 6, 7, 0, 0, 0xD02);
    draft.put(1, 5, 4, 0, 0, 0xB00);
    draft.bytes()
}

/// Samples 1 to 4 of `tuned`, each with the byte of its finetune: 7, -8, -3, and 0 with bits that are none of it.
const FINETUNES: [u8; 4] = [7, 8, 13, 0xF0];

/// Notes and arpeggios in their rows; a note between two entries; E5 with a note and without; samples that change the finetune of a note that
/// sounds on; and a vibrato of depth 0 on a period outside its row.
const TUNED_NOTES: &Column = &[
    (1, 428, 0x047),
    (2, 856, 0x0C1),
    (2, 113, 0x012),
    (3, 254, 0x0FF),
    (0, 429, 0),
    (4, 429, 0x037),
    (0, 0, 0xE57),
    (0, 0, 0x0C5),
    (0, 404, 0xE5F),
    (1, 214, 0xE50),
    (1, 0, 0x024),
    (2, 0, 0x0FF),
    (4, 113, 0x011),
    (2, 0, 0x011),
    (0, 0, 0x4F0),
    (0, 427, 0x053),
];

/// Slides at both ends of their rows and from outside, by 0, too; targets, which are tuned once and may leave the row.
const TUNED_SLIDES: &Column = &[
    (2, 856, 0x2FF),
    (1, 0, 0x200),
    (1, 113, 0x1FF),
    (2, 0, 0xE10),
    (1, 856, 0xE2F),
    (3, 135, 0x130),
    (0, 404, 0x320),
    (1, 0, 0x3FF),
    (2, 856, 0x3FF),
    (1, 0, 0x300),
    (0, 0, 0x300),
    (0, 0, 0x011),
    (0, 0, 0x100),
    (2, 113, 0x500),
    (0, 0, 0x3FF),
    (4, 0, 0xE20),
];

/// Vibrato at both ends of its row, and from outside.
const TUNED_WAVES: &Column = &[
    (0, 0, 0),
    (1, 113, 0x4FF),
    (0, 0, 0x400),
    (2, 856, 0xE42),
    (0, 0, 0x4FF),
    (1, 0, 0x400),
    (0, 0, 0x612),
    (0, 0, 0xE5D),
    (0, 0, 0x401),
    (4, 856, 0x4F0),
    (3, 120, 0),
    (4, 0, 0x400),
    (2, 0, 0x400),
    (2, 856, 0xE40),
    (4, 0, 0x430),
    (0, 0, 0x430),
];

/// Periods for E51 to E5F, one a row: those at which E58 and E5D have the two printed entries that a longer list has otherwise, and both ends.
const E5_PERIODS: [u32; 15] = [
    856, 808, 762, 113, 640, 604, 120, 480, 508, 453, 404, 339, 320, 254, 114,
];

/// Finetunes, three ticks a row: of headers, each one by E5, and what slides, vibrato and arpeggio do in their rows.
fn tuned() -> Vec<u8> {
    let mut draft = Draft::empty();
    for (number, finetune) in (1..).zip(FINETUNES) {
        draft.add_looped(number, 64, 10, 60, &noise(10 + number as u64, 140));
        draft.headers[number - 1].finetune = finetune;
    }
    column(&mut draft, 0, TUNED_NOTES);
    column(&mut draft, 1, TUNED_SLIDES);
    column(&mut draft, 2, TUNED_WAVES);
    for (y, period) in (1..).zip(E5_PERIODS) {
        draft.put(0, y as usize, 3, 4, period, 0xE50 + y);
    }
    fast(&mut draft);
    draft.bytes()
}

/// What the program prints, by the second implementation.
pub fn play_lines() -> String {
    let mut text = String::new();
    for (name, file) in play_cases() {
        text += name;
        text.push('\n');
        let mut cells = second::fresh();
        for _ in 0..TICKS {
            tick_line(&mut text, &file, &mut cells);
        }
    }
    text
}

fn tick_line(text: &mut String, file: &[u8], cells: &mut [u32; second::STATE_CELLS]) {
    let trace = second::trace_tick(file, cells).expect("a stored module is accepted");
    let mut numbers = vec![trace.position, trace.row, trace.tick, cells[cell::TEMPO]];
    for channel in 0..second::channels(file) as usize {
        let voice = cell::channel(channel) + cell::VOICE_SAMPLE;
        numbers.extend_from_slice(&cells[voice..voice + VOICE_CELLS]);
    }
    numbers.push(checksum(&trace.frames));
    for (k, number) in numbers.iter().enumerate() {
        let space = if k == 0 { "" } else { " " };
        write!(text, "{space}{number}").expect("a string takes all");
    }
    text.push('\n');
}

fn checksum(numbers: &[i16]) -> u32 {
    numbers
        .iter()
        .fold(0, |h, &number| (h * 31 + u32::from(number as u16)) % 65_521)
}
