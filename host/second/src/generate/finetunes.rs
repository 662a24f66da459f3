//! Finetunes: of headers, states and E5; and modules dense in them, whose notes stand at the ends
//! of the rows and slide, waver, run in arpeggios and change the row there.

use super::cells::{self, put_effect, with_effect};
use super::draft::Draft;
use super::Random;
use crate::finetune::{FLATTEST, GREATEST_PERIOD, LEAST_PERIOD, SHARPEST};
use crate::module::{Cell, HIGHEST_NOTE, LOUDEST, LOWEST_NOTE, ROWS};

/// Samples that are there; all are looped.
const SAMPLES: u32 = 8;

/// Any finetune, often 0 or one of the outermost.
pub fn any(random: &mut Random) -> i32 {
    match random.below(10) {
        0..=2 => 0,
        3 => FLATTEST,
        4 => SHARPEST,
        _ => random.below(16) as i32 + FLATTEST,
    }
}

/// A finetune as a header's byte; the high four bits are any.
pub fn header_byte(random: &mut Random) -> u8 {
    let high = random.byte() & 0xF0;
    high | any(random) as u8 & 0xF
}

/// E5 with any y.
pub fn set(random: &mut Random) -> u32 {
    0xE50 + (any(random) & 0xF) as u32
}

/// A period of a state or a stream above 0: one that a note has, or any within the wider limits.
pub fn period(random: &mut Random) -> u32 {
    let edges = [
        LEAST_PERIOD,
        LEAST_PERIOD + 1,
        LOWEST_NOTE - 1,
        HIGHEST_NOTE + 1,
        GREATEST_PERIOD - 1,
        GREATEST_PERIOD,
    ];
    if random.chance(50) {
        cells::period(random)
    } else {
        random.edge_or(&edges, LEAST_PERIOD, GREATEST_PERIOD)
    }
}

/// What a channel's cells are about until its next note.
#[derive(Clone, Copy)]
struct Run {
    /// Whether it begins at the rows' first entries; at their last otherwise.
    first: bool,
    /// Whether its vibrato leaves the depth as it is, which is 0 at the song's begin.
    shallow: bool,
}

/// A valid module of one pattern on whose channels rows end, and change, all the time.
pub fn finetuned(seed: u64) -> Vec<u8> {
    let mut random = Random::new(seed);
    let mut draft = Draft::any(&mut random);
    add_samples(&mut random, &mut draft);
    for channel in 0..draft.channels() {
        for (row, cell) in draft.rows().zip(column(&mut random)) {
            row[channel] = cell;
        }
    }
    for row in draft.rows() {
        if random.chance(15) {
            let code = random.pick(&[0xEE1, 0xEE2, 0xF02, 0xF03, 0xF03, 0xF06]);
            put_effect(cells::any(&mut random, row), code);
        }
    }
    put_effect(&mut draft.first_row()[0], 0xF00 + random.between(2, 4));
    draft.bytes()
}

fn add_samples(random: &mut Random, draft: &mut Draft) {
    for number in 1..=SAMPLES as usize {
        let repeat = random.between(2, 40);
        let bytes: Vec<u8> = (0..2 * repeat).map(|_| random.byte()).collect();
        let volume = random.between(1, LOUDEST) as u8;
        draft.add_looped(number, volume, 0, repeat, &bytes);
        draft.headers[number - 1].finetune = header_byte(random);
    }
}

/// A channel's cells, run after run.
fn column(random: &mut Random) -> Vec<Cell> {
    let mut column = Vec::new();
    let shallow = random.chance(50);
    while column.len() < ROWS {
        let run = Run {
            first: random.chance(50),
            shallow,
        };
        for place in 0..random.between(2, 9) {
            let code = match place {
                0 if random.chance(50) => outermost(run),
                1 if random.chance(50) => set(random),
                _ => code(random, run),
            };
            column.push(cell(random, run, place == 0, code));
        }
    }
    column.truncate(ROWS);
    column
}

/// E5 with the finetune whose row goes farthest at the run's end, so that another row ends before.
fn outermost(run: Run) -> u32 {
    if run.first {
        0xE58
    } else {
        0xE57
    }
}

/// A cell with a note, mostly where a run begins, a sample number, or neither.
fn cell(random: &mut Random, run: Run, begins: bool, code: u32) -> Cell {
    let noted = random.chance(if begins { 90 } else { 12 });
    let numbered = random.chance(if noted { 60 } else { 25 });
    let sample = if numbered {
        random.between(1, SAMPLES)
    } else {
        0
    };
    let period = if noted { note(random, run) } else { 0 };
    with_effect(sample, period, code)
}

/// Mostly a note at or near an end of the row.
fn note(random: &mut Random, run: Run) -> u32 {
    match (random.below(4), run.first) {
        (0 | 1, true) => random.pick(&[HIGHEST_NOTE, HIGHEST_NOTE, HIGHEST_NOTE - 1, 808]),
        (0 | 1, false) => random.pick(&[LOWEST_NOTE, LOWEST_NOTE, LOWEST_NOTE + 1, 120]),
        (2, true) => random.between(HIGHEST_NOTE - 60, HIGHEST_NOTE),
        (2, false) => random.between(LOWEST_NOTE, LOWEST_NOTE + 20),
        _ => cells::period(random),
    }
}

/// An effect and its parameter.
fn code(random: &mut Random, run: Run) -> u32 {
    let (out, fine_out) = if run.first {
        (0x200, 0xE20)
    } else {
        (0x100, 0xE10)
    };
    match random.below(16) {
        0..=3 => set(random),
        4 => out + random.edge_or(&[0, 1, 15, 255], 0, 60),
        5 => fine_out + random.edge_or(&[0, 1, 15], 0, 15),
        6 => random.pick(&[0x100, 0x200]) + random.edge_or(&[0, 1, 2], 0, 20),
        7 => random.pick(&[0xE10, 0xE20]) + random.below(16),
        8 => random.pick(&[0x100, 0x200]),
        9 => random.pick(&[0xE10, 0xE20]),
        10 => 0x300 + random.edge_or(&[0, 1, 3, 255], 0, 60),
        11 => 0x500 + cells::volume_slide(random),
        12 => vibrato(random, run.shallow),
        13 => 0x600 + cells::volume_slide(random),
        _ => cells::arpeggio(random),
    }
}

fn vibrato(random: &mut Random, shallow: bool) -> u32 {
    let parameter = cells::wave_parameter(random);
    let depth = if shallow { 0 } else { parameter % 16 };
    0x400 + parameter / 16 * 16 + depth
}
