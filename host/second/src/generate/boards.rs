//! Boards forged: cells of a board that was fed are changed, so that it is mostly no legal one.

use super::states::{accepted, any_number, break_voice};
use super::Random;
use crate::board::{
    BYTES, FAULT, FAULTS, FOLLOW, KEPT, NUMBER, PLACE, RECORDS, REMAINDER, STREAM_CHANNELS,
    STREAM_VERSION, TEMPO, TICKS, UNIT_BYTES, VOICES, VOICE_CELLS,
};
use crate::module::Module;
use crate::voice::CHANNELS;
use crate::BOARD_CELLS;

type Cells = [u32; BOARD_CELLS];

/// The board with one of its numbers changed, or a few; `file` is accepted.
pub fn forged(seed: u64, file: &[u8], board: &Cells) -> Cells {
    let module = accepted(file);
    let mut random = Random::new(seed);
    let mut cells = *board;
    let changes = random.pick(&[1, 1, 1, 1, 2, 2, 3, 6]);
    for _ in 0..changes {
        forge(&mut random, &module, &mut cells);
    }
    cells
}

fn forge(random: &mut Random, module: &Module, cells: &mut Cells) {
    match random.below(14) {
        0 | 1 => forge_cell(random, cells),
        2 | 3 => forge_fault(random, cells),
        4 => forge_byte(random, cells),
        5 => {
            forge_byte(random, cells);
            forge_fault(random, cells);
        }
        6 => forge_kept(random, cells),
        7 => forge_end(random, cells),
        8 => forge_counts(random, cells),
        9 => forge_header(random, cells),
        10 => forge_place(random, cells),
        11 => forge_remainder(random, cells),
        12 => forge_voice(random, module, cells),
        _ => forge_past_voice(random, module, cells),
    }
}

/// Any cell, to a number near its own or to any.
fn forge_cell(random: &mut Random, cells: &mut Cells) {
    let cell = &mut cells[random.below(BOARD_CELLS as u32) as usize];
    *cell = match random.below(4) {
        0 => cell.wrapping_add(1),
        1 => cell.wrapping_sub(1),
        2 => random.pick(&[0, 1, 2, 4, 255, 256]),
        _ => any_number(random),
    };
}

fn place_at(cells: &Cells, cell: usize) -> u64 {
    u64::from(cells[cell]) + (u64::from(cells[cell + 1]) << 32)
}

fn put_place(cells: &mut Cells, cell: usize, place: u64) {
    cells[cell] = place as u32;
    cells[cell + 1] = (place >> 32) as u32;
}

fn bytes_in(cells: &Cells) -> u64 {
    place_at(cells, PLACE).wrapping_add(cells[KEPT].into())
}

fn declared(cells: &Cells) -> u64 {
    4 + u64::from(cells[FOLLOW])
}

/// The byte of this number among the kept cells' bytes.
fn byte(cells: &Cells, k: usize) -> u8 {
    cells[BYTES + k / 4].to_le_bytes()[k % 4]
}

fn put_byte(cells: &mut Cells, k: usize, byte: u8) {
    let mut packed = cells[BYTES + k / 4].to_le_bytes();
    packed[k % 4] = byte;
    cells[BYTES + k / 4] = u32::from_le_bytes(packed);
}

/// A fault at a place where one may be, no fault, or a number that is none.
fn forge_fault(random: &mut Random, cells: &mut Cells) {
    cells[NUMBER] = match random.below(10) {
        0 | 1 => 0,
        2 => random.pick(&[1, 9, 14, 20, 24, 27, 29, 21 + 256, u32::MAX]),
        _ => random.pick(&FAULTS),
    };
    let places = [
        place_at(cells, PLACE),
        place_at(cells, PLACE),
        bytes_in(cells),
        declared(cells),
        declared(cells) + 1,
        4,
        4,
        0,
        random.number(),
    ];
    if random.chance(85) {
        put_place(cells, FAULT, random.pick(&places));
    }
}

/// One of the kept bytes, or seldom one past them.
fn forge_byte(random: &mut Random, cells: &mut Cells) {
    let kept = cells[KEPT].min(UNIT_BYTES as u32);
    let k = if kept == 0 || random.chance(10) {
        random.below(UNIT_BYTES as u32)
    } else {
        random.below(kept)
    };
    let own = byte(cells, k as usize);
    let other = match random.below(4) {
        0 => own ^ 1 << random.below(8),
        1 => own.wrapping_add(random.pick(&[1, 255])),
        2 => random.pick(&[0, 1, 2, 3, 4, 31, 32, 64, 65, 255]),
        _ => random.byte(),
    };
    put_byte(cells, k as usize, other);
}

/// Another count of kept bytes: near its own, or as many as the header or record has.
fn forge_kept(random: &mut Random, cells: &mut Cells) {
    let whole = match place_at(cells, PLACE) {
        0 => random.pick(&[9, 10]),
        _ => 2 + 6 * byte(cells, 0).count_ones(),
    };
    let most = UNIT_BYTES as u32;
    cells[KEPT] = match random.below(8) {
        0 => cells[KEPT].wrapping_add(1),
        1 => cells[KEPT].wrapping_sub(1),
        2 => whole,
        3 => whole - 1,
        4 => whole + 1,
        5 => random.below(most + 1),
        6 => random.pick(&[0, most - 2, most - 1, most, most + 1]),
        _ => any_number(random),
    };
}

/// Another declared end: where the bytes are, near it, or near what numbers hold.
fn forge_end(random: &mut Random, cells: &mut Cells) {
    let here = (bytes_in(cells) as u32).wrapping_sub(4);
    cells[FOLLOW] = match random.below(5) {
        0 | 1 => here,
        2 => here.wrapping_sub(random.between(1, 3)),
        3 => here.wrapping_add(random.between(1, 3)),
        _ => any_number(random),
    };
}

/// Records and ticks that are equal, or near each other.
fn forge_counts(random: &mut Random, cells: &mut Cells) {
    let (cell, other) = random.pick(&[(RECORDS, TICKS), (TICKS, RECORDS)]);
    cells[cell] = match random.below(4) {
        0 => cells[other],
        1 => cells[other].wrapping_add(1),
        2 => cells[other].wrapping_sub(1),
        _ => any_number(random),
    };
}

fn forge_header(random: &mut Random, cells: &mut Cells) {
    if random.chance(50) {
        cells[STREAM_VERSION] = random.pick(&[0, 1, 2, 3, 4, 255, 256 + 3, u32::MAX]);
    } else {
        cells[STREAM_CHANNELS] = random.pick(&[0, 1, 4, 6, 8, 9, 255, 256 + 4, u32::MAX]);
    }
    // With the fault that such numbers may show.
    if random.chance(40) {
        cells[NUMBER] = random.pick(&[22, 28]);
        put_place(cells, FAULT, 4);
    }
}

/// Another place: the header's, a first record's, the declared end, or near its own.
fn forge_place(random: &mut Random, cells: &mut Cells) {
    let own = place_at(cells, PLACE);
    let end = declared(cells);
    let place = match random.below(6) {
        0 => 0,
        1 => random.between(1, 10).into(),
        2 => end,
        3 => end.wrapping_sub(cells[KEPT].into()),
        4 => own.wrapping_add(random.pick(&[1, u64::MAX, 1 << 32])),
        _ => random.number() >> random.below(64),
    };
    put_place(cells, PLACE, place);
}

fn forge_remainder(random: &mut Random, cells: &mut Cells) {
    if random.chance(40) {
        cells[TEMPO] = random.pick(&[0, 1, 31, 32, 125, 254, 255, 256, 1_000, u32::MAX]);
    }
    let tempo = cells[TEMPO];
    cells[REMAINDER] = match random.below(5) {
        0 => 0,
        1 => tempo.wrapping_sub(1),
        2 => tempo,
        3 => random.below(tempo.max(1)),
        _ => any_number(random),
    };
}

fn voice_cells(cells: &mut Cells, channel: u32) -> &mut [u32] {
    &mut cells[VOICES + VOICE_CELLS * channel as usize..][..VOICE_CELLS]
}

/// A voice of the module's channels: one of its numbers broken, or just another one.
fn forge_voice(random: &mut Random, module: &Module, cells: &mut Cells) {
    let own = voice_cells(cells, random.below(module.channels));
    if random.chance(50) {
        break_voice(random, module, own);
    } else {
        let (cell, most) = random.pick(&[(0, 31), (1, 907), (2, 64), (3, 40), (4, 65_535), (5, 1)]);
        own[cell] = random.between(0, most);
    }
}

/// A voice past the module's channels; with eight of them one of theirs.
fn forge_past_voice(random: &mut Random, module: &Module, cells: &mut Cells) {
    let last = CHANNELS as u32 - 1;
    let own = voice_cells(cells, random.between(module.channels.min(last), last));
    own[random.below(VOICE_CELLS as u32) as usize] = random.pick(&[0, 1, 1, 2, 428, u32::MAX]);
}
