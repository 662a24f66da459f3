//! Modules that waver: vibrato and tremolo alone, together, and among the effects that meet them.

use super::cells::{self, put_effect, with_effect};
use super::draft::Draft;
use super::Random;
use crate::module::{Cell, HIGHEST_NOTE, LOUDEST, LOWEST_NOTE, ROWS};

/// Samples that are there; all are looped.
const SAMPLES: u32 = 4;
/// The most by which vibrato moves a period.
const FARTHEST: u32 = 29;

/// What the cells of a run are about.
#[derive(Clone, Copy)]
enum Run {
    Vibrato,
    Tremolo,
    /// Both waves, and those that go on from memory.
    Both,
    /// Waves, and between them what moves or starts the same note.
    Company,
    /// Slides to notes, and vibrato between them.
    Targets,
    /// Notes and numbers alone, or nothing.
    Bare,
}

const RUNS: [Run; 9] = [
    Run::Vibrato,
    Run::Vibrato,
    Run::Tremolo,
    Run::Tremolo,
    Run::Both,
    Run::Company,
    Run::Company,
    Run::Targets,
    Run::Bare,
];

/// A valid module of one pattern on whose channels waves go through most rows.
pub fn wavering(seed: u64) -> Vec<u8> {
    let mut random = Random::new(seed);
    let mut draft = Draft::any(&mut random);
    add_samples(&mut random, &mut draft);
    for channel in 0..draft.channels() {
        for (row, cell) in draft.rows().zip(column(&mut random)) {
            row[channel] = cell;
        }
    }
    for row in draft.rows() {
        if random.chance(15) {
            set_flow(&mut random, row);
        }
    }
    open_row(&mut random, draft.first_row());
    draft.bytes()
}

/// Samples of which one has volume 0, one 64 and one a volume between them.
fn add_samples(random: &mut Random, draft: &mut Draft) {
    let between = random.edge_or(&[1, 5, 59, 63], 1, LOUDEST - 1);
    let volumes = [0, LOUDEST, between, random.below(LOUDEST + 1)];
    let first = random.below(SAMPLES);
    for number in 1..=SAMPLES {
        let volume = volumes[((first + number) % SAMPLES) as usize];
        let start = random.between(0, 3);
        let repeat = random.edge_or(&[2, 3], 2, 60);
        let bytes: Vec<u8> = (0..2 * (start + repeat)).map(|_| random.byte()).collect();
        draft.add_looped(number as usize, volume as u8, start, repeat, &bytes);
    }
}

/// A channel's cells, run after run; most notes stand where a run begins.
fn column(random: &mut Random) -> Vec<Cell> {
    let mut column = Vec::new();
    while column.len() < ROWS {
        let run = random.pick(&RUNS);
        for place in 0..random.between(1, 10) {
            let chance = match run {
                Run::Targets => 50,
                _ if place == 0 => 70,
                _ => 20,
            };
            let code = code(random, run);
            column.push(cell(random, chance, code));
        }
    }
    column.truncate(ROWS);
    column
}

/// A cell with a note or a sample number or both, each by this chance.
fn cell(random: &mut Random, chance: u32, code: u32) -> Cell {
    let sample = if random.chance(chance) {
        random.between(0, SAMPLES)
    } else {
        0
    };
    let period = if random.chance(chance) {
        period(random)
    } else {
        0
    };
    with_effect(sample, period, code)
}

/// Mostly a period from which vibrato reaches an end.
fn period(random: &mut Random) -> u32 {
    match random.below(4) {
        0 => random.pick(&[LOWEST_NOTE, HIGHEST_NOTE]),
        1 => random.between(LOWEST_NOTE, LOWEST_NOTE + FARTHEST + 1),
        2 => random.between(HIGHEST_NOTE - FARTHEST - 1, HIGHEST_NOTE),
        _ => cells::period(random),
    }
}

/// An effect and its parameter.
fn code(random: &mut Random, run: Run) -> u32 {
    match (run, random.below(10)) {
        (Run::Vibrato, 0..=5) => 0x400 + cells::wave_parameter(random),
        (Run::Vibrato, 6..=8) => 0x600 + cells::volume_slide(random),
        (Run::Tremolo, 0..=8) => 0x700 + cells::wave_parameter(random),
        (Run::Vibrato | Run::Tremolo, _) => cells::form(random),
        (Run::Both, 0..=5) | (Run::Company, 0..=2) => cells::wave(random),
        (Run::Both, _) | (Run::Company, 3 | 4) => {
            random.pick(&[0x500, 0x600]) + cells::volume_slide(random)
        }
        (Run::Company, _) => company(random),
        (Run::Targets, 0..=3) => 0x300 + random.edge_or(&[0, 1, 3, 255], 0, 60),
        (Run::Targets, 4..=6) => 0x500 + cells::volume_slide(random),
        (Run::Targets, _) => 0x400 + cells::wave_parameter(random),
        (Run::Bare, _) => 0,
    }
}

/// Another effect that works on a wavering channel.
fn company(random: &mut Random) -> u32 {
    let y = random.edge_or(&[0, 1, 2, 15], 0, 15);
    match random.below(12) {
        0 => cells::arpeggio(random),
        1 => 0x100 + random.edge_or(&[0, 1, 2, 255], 0, 30),
        2 => 0x200 + random.edge_or(&[0, 1, 2, 255], 0, 30),
        3 => 0x300 + random.edge_or(&[0, 1, 3, 255], 0, 30),
        4 => 0xA00 + cells::volume_slide(random),
        5 => 0xC00 + random.edge_or(&[0, 4, 5, 59, 60, 64, 65], 0, LOUDEST),
        6 => random.pick(&[0xE10, 0xE20]) + y,
        7 => random.pick(&[0xEA0, 0xEB0]) + y,
        8 => random.pick(&[0xE90, 0xEC0]) + y,
        9 | 10 => random.pick(&[0x900, 0x901]),
        _ => cells::form(random),
    }
}

/// A change of speed, or a delay, on one of the row's channels.
fn set_flow(random: &mut Random, row: &mut [Cell]) {
    let code = if random.chance(50) {
        speed(random)
    } else {
        0xEE0 + random.pick(&[0, 1, 1, 2, 3])
    };
    put_effect(cells::any(random, row), code);
}

fn speed(random: &mut Random) -> u32 {
    0xF00 + random.pick(&[1, 2, 2, 3, 3, 6, 6, 6, 31])
}

/// Sets the first speed, and a tempo at times.
fn open_row(random: &mut Random, row: &mut [Cell]) {
    if random.chance(30) {
        put_effect(&mut row[0], 0xF00 + random.pick(&[32, 200, 255]));
    }
    put_effect(&mut row[1], speed(random));
}
