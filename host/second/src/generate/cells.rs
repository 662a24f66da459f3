//! Random cells: notes, sample numbers, effects and parameters, often at their edges.

use super::{finetunes, Random};
use crate::module::Cell;

const PERIODS: [u32; 16] = [
    856, 808, 762, 480, 453, 428, 404, 339, 285, 226, 214, 170, 135, 127, 120, 113,
];

/// How a module's cells are mixed, in percent.
#[derive(Clone, Copy, Debug)]
pub struct Mix {
    pub notes: u32,
    pub numbers: u32,
    pub effects: u32,
    /// Of the effects, those that move the song: B, D, E6, EE, F.
    pub flow: u32,
    /// Rows filled by a scene.
    pub scenes: u32,
}

/// What the cells of one module are drawn from.
#[derive(Clone, Copy, Debug)]
pub struct Palette {
    pub mix: Mix,
    /// Sample numbers used often; some of them hold bytes.
    pub favourites: [u32; 4],
    pub song_length: u32,
}

pub fn mix(random: &mut Random) -> Mix {
    let calm = Mix {
        notes: 30,
        numbers: 25,
        effects: 60,
        flow: 6,
        scenes: 5,
    };
    let dense = Mix {
        notes: 40,
        numbers: 35,
        effects: 90,
        flow: 15,
        scenes: 25,
    };
    let jumpy = Mix {
        notes: 25,
        numbers: 25,
        effects: 90,
        flow: 50,
        scenes: 60,
    };
    let plain = Mix {
        notes: 15,
        numbers: 10,
        effects: 20,
        flow: 10,
        scenes: 2,
    };
    random.pick(&[calm, dense, dense, jumpy, plain])
}

pub fn cell(random: &mut Random, palette: &Palette) -> Cell {
    let sample = if random.chance(palette.mix.numbers) {
        sample(random, palette)
    } else {
        0
    };
    let period = if random.chance(palette.mix.notes) {
        period(random)
    } else {
        0
    };
    if !random.chance(palette.mix.effects) {
        return Cell {
            sample,
            period,
            effect: 0,
            parameter: 0,
        };
    }
    let code = if random.chance(palette.mix.flow) {
        flow(random, palette.song_length)
    } else {
        effect(random)
    };
    with_effect(sample, period, code)
}

/// A cell from sample number, period and an effect as trackers print it, 0xE62 and the like.
pub fn with_effect(sample: u32, period: u32, code: u32) -> Cell {
    Cell {
        sample,
        period,
        effect: code / 256,
        parameter: code % 256,
    }
}

/// Gives a cell another effect, named in the same way.
pub fn put_effect(cell: &mut Cell, code: u32) {
    cell.effect = code / 256;
    cell.parameter = code % 256;
}

/// One of a row's cells.
pub fn any<'a>(random: &mut Random, row: &'a mut [Cell]) -> &'a mut Cell {
    &mut row[random.below(row.len() as u32) as usize]
}

pub fn sample(random: &mut Random, palette: &Palette) -> u32 {
    if random.chance(85) {
        random.pick(&palette.favourites)
    } else {
        random.edge_or(&[0, 1, 15, 16, 17, 31], 0, 31)
    }
}

pub fn period(random: &mut Random) -> u32 {
    if random.chance(60) {
        random.pick(&PERIODS)
    } else {
        random.edge_or(&[113, 114, 119, 121, 855, 856, 427, 429], 113, 856)
    }
}

/// An effect that works on the channel, or one that does nothing.
pub fn effect(random: &mut Random) -> u32 {
    match random.below(22) {
        0 | 1 => arpeggio(random),
        2 => 0x100 + random.edge_or(&[0, 1, 2, 5, 255], 0, 255),
        3 => 0x200 + random.edge_or(&[0, 1, 2, 5, 255], 0, 255),
        4 | 5 => 0x300 + random.edge_or(&[0, 0, 1, 3, 10, 255], 0, 255),
        6 | 7 => 0x900 + random.edge_or(&[0, 0, 1, 1, 2, 255], 0, 4),
        8 => 0xA00 + volume_slide(random),
        9 => 0xC00 + random.edge_or(&[0, 63, 64, 65, 255], 0, 255),
        10 => 0xE90 + random.edge_or(&[0, 1, 2, 3, 15], 0, 15),
        11 => 0xEC0 + random.edge_or(&[0, 1, 2, 3, 15], 0, 15),
        12 => random.pick(&[0xE10, 0xE20]) + random.edge_or(&[0, 1, 15], 0, 15),
        13 => random.pick(&[0xEA0, 0xEB0]) + random.edge_or(&[0, 1, 15], 0, 15),
        14 => unlisted(random),
        15 | 16 => wave(random),
        17 => 0x500 + volume_slide(random),
        18 => 0x600 + volume_slide(random),
        19 => form(random),
        20 => finetunes::set(random),
        _ => 0xF00 + random.edge_or(&[32, 33, 125, 254, 255], 32, 255),
    }
}

pub fn arpeggio(random: &mut Random) -> u32 {
    random.edge_or(
        &[0x01, 0x10, 0x0F, 0xF0, 0xFF, 0x47, 0x37, 0x0C, 0xC0],
        0,
        255,
    )
}

/// A parameter of A, 5 or 6.
pub fn volume_slide(random: &mut Random) -> u32 {
    random.edge_or(&[0x00, 0x0F, 0xF0, 0x35, 0x01, 0x10, 0xFF], 0, 255)
}

/// Vibrato or tremolo.
pub fn wave(random: &mut Random) -> u32 {
    random.pick(&[0x400, 0x700]) + wave_parameter(random)
}

/// A parameter of 4 or 7; either half is often 0, which is the old one.
pub fn wave_parameter(random: &mut Random) -> u32 {
    let x = random.edge_or(&[0, 0, 1, 15], 0, 15);
    16 * x + random.edge_or(&[0, 0, 1, 15], 0, 15)
}

/// E4 or E7 with any y.
pub fn form(random: &mut Random) -> u32 {
    random.pick(&[0xE40, 0xE70]) + random.below(16)
}

fn unlisted(random: &mut Random) -> u32 {
    if random.chance(50) {
        0x800 + random.below(256)
    } else {
        let extended = [0xE00, 0xE30, 0xE80, 0xED0, 0xEF0];
        random.pick(&extended) + random.below(16)
    }
}

/// An effect that moves the song or sets its speed.
pub fn flow(random: &mut Random, song_length: u32) -> u32 {
    match random.below(10) {
        0 => jump(random, song_length),
        1 | 2 => break_to(random),
        3..=5 => 0xE60 + random.edge_or(&[0, 0, 1, 2, 3, 15], 0, 15),
        6 => 0xEE0 + random.edge_or(&[0, 1, 1, 2, 3, 15], 0, 3),
        _ => speed(random),
    }
}

pub fn jump(random: &mut Random, song_length: u32) -> u32 {
    let last = song_length - 1;
    0xB00 + random.edge_or(&[0, last, song_length, 127, 128, 255], 0, last)
}

pub fn break_to(random: &mut Random) -> u32 {
    let edges = [
        0x00, 0x09, 0x0A, 0x0F, 0x10, 0x25, 0x3F, 0x40, 0x5D, 0x5D, 0x5E, 0x62, 0x63, 0x63, 0x64,
        0xFF,
    ];
    0xD00 + random.edge_or(&edges, 0, 0x6F)
}

pub fn speed(random: &mut Random) -> u32 {
    0xF00 + random.edge_or(&[0, 1, 1, 2, 2, 3, 3, 6, 30, 31], 1, 7)
}
