//! Legal states of an accepted module over their whole range, and illegal ones.

use super::{finetunes, Random};
use crate::module::Module;
use crate::state::{Channel, State, CHANNEL_CELLS, SONG_CELLS, TREMOLO, VIBRATO, VOICE};
use crate::voice::{Voice, CHANNELS};
use crate::wave::{Wave, LAST_MEMORY, PLACES, SQUARE};
use crate::STATE_CELLS;

/// The cells of a legal state; `file` is accepted.
pub fn legal_state(seed: u64, file: &[u8]) -> [u32; STATE_CELLS] {
    let module = accepted(file);
    let mut random = Random::new(seed);
    let mut state = State::fresh();
    if random.chance(90) {
        fill_song(&mut random, &mut state, module.song_length);
    }
    for channel in 0..module.channels as usize {
        if random.chance(90) {
            state.channels[channel] = legal_channel(&mut random);
        }
        if random.chance(90) {
            state.voices[channel] = legal_voice(&mut random, &module);
        }
    }
    let mut cells = [0; STATE_CELLS];
    state.write(&mut cells);
    cells
}

/// The cells of a state with one thing wrong; `file` is accepted.
pub fn illegal_state(seed: u64, file: &[u8]) -> [u32; STATE_CELLS] {
    let module = accepted(file);
    let mut random = Random::new(seed);
    let mut cells = legal_state(random.number(), file);
    let channel = random.below(module.channels) as usize;
    let own = &mut cells[SONG_CELLS + CHANNEL_CELLS * channel..][..CHANNEL_CELLS];
    match random.below(5) {
        0 => break_channel(&mut random, own),
        1 => break_wave(&mut random, own),
        2 => break_voice(&mut random, &module, &mut own[VOICE..]),
        3 if module.channels < CHANNELS as u32 => {
            fill_past(&mut random, &mut cells, module.channels)
        }
        _ => break_song(&mut random, &mut cells, module.song_length),
    }
    cells
}

pub(super) fn accepted(file: &[u8]) -> Module<'_> {
    Module::read(file).expect("the file is accepted")
}

/// Any number, often at the edge of what four bytes hold.
pub(super) fn any_number(random: &mut Random) -> u32 {
    if random.chance(50) {
        random.pick(&[0, 1, 3, 25, 26, u32::MAX, u32::MAX - 1, 1 << 31])
    } else {
        random.number() as u32
    }
}

fn legal_row(random: &mut Random) -> u32 {
    random.edge_or(&[0, 62, 63], 0, 63)
}

fn legal_period(random: &mut Random) -> u32 {
    if random.chance(15) {
        0
    } else {
        finetunes::period(random)
    }
}

fn fill_song(random: &mut Random, state: &mut State, song_length: u32) {
    let last = song_length - 1;
    state.position = random.edge_or(&[0, last], 0, last);
    state.row = legal_row(random);
    state.next_position = random.edge_or(&[0, last], 0, last);
    state.next_row = legal_row(random);
    state.loop_row = legal_row(random);
    state.loop_count = random.edge_or(&[0, 1, 15], 0, 15);
    state.speed = random.edge_or(&[1, 2, 3, 6, 31], 1, 31);
    state.tempo = random.edge_or(&[32, 33, 125, 254, 255, 255], 32, 255);
    state.remainder = random.edge_or(&[0, 1, state.tempo - 1], 0, state.tempo - 1);
    state.delay = random.edge_or(&[0, 0, 1, 15], 0, 15);
    let last_tick = state.speed * (1 + state.delay) - 1;
    state.tick = random.edge_or(&[0, 0, last_tick], 0, last_tick);
    state.clock = any_number(random);
    state.page = any_number(random);
}

fn legal_channel(random: &mut Random) -> Channel {
    Channel {
        latched: random.edge_or(&[0, 1, 31], 0, 31),
        finetune: finetunes::any(random),
        volume: random.edge_or(&[0, 63, 64], 0, 64),
        period: legal_period(random),
        target: legal_period(random),
        memory: random.edge_or(&[0, 1, 255], 0, 255),
        vibrato: legal_wave(random),
        tremolo: legal_wave(random),
    }
}

fn legal_wave(random: &mut Random) -> Wave {
    Wave {
        x: random.edge_or(&[0, 1, LAST_MEMORY], 0, LAST_MEMORY),
        y: random.edge_or(&[0, 1, LAST_MEMORY], 0, LAST_MEMORY),
        place: random.edge_or(&[0, 16, 31, 32, 48, PLACES - 1], 0, PLACES - 1),
        form: random.between(0, SQUARE),
    }
}

/// A sample number with bytes in reach, if one of some tries finds it.
fn sample_with_bytes(random: &mut Random, module: &Module) -> Option<(u32, u32)> {
    let first = random.between(1, 31);
    for number in (first..=31).chain(1..first) {
        if let Some(sample) = module.sample(number) {
            if sample.end > 0 {
                return Some((number, sample.end));
            }
        }
    }
    None
}

fn legal_voice(random: &mut Random, module: &Module) -> Voice {
    let mut voice = Voice::fresh();
    voice.sample = random.edge_or(&[0, 1, 31], 0, 31);
    voice.period = legal_period(random);
    voice.volume = random.edge_or(&[0, 63, 64], 0, 64);
    if random.chance(25) {
        return voice;
    }
    if let Some((number, end)) = sample_with_bytes(random, module) {
        voice.sample = number;
        voice.index = random.edge_or(&[0, 1, end - 1], 0, end - 1);
        voice.fraction = random.edge_or(&[0, 1, 65_535], 0, 65_535);
        voice.stopped = false;
    }
    voice
}

/// `limit` or a number above it.
fn past(random: &mut Random, limit: u32) -> u32 {
    random.pick(&[
        limit,
        limit,
        limit,
        limit + 1,
        limit + 256,
        limit + 65_536,
        u32::MAX,
    ])
}

fn bad_period(random: &mut Random) -> u32 {
    random.pick(&[1, 106, 107, 908, 909, 4_095, 65_535 + 428, u32::MAX])
}

/// A number just past the finetunes, or one that is within them in fewer bits.
fn bad_finetune(random: &mut Random) -> u32 {
    let past_flattest = u32::MAX - 8;
    random.pick(&[
        8,
        8,
        past_flattest,
        past_flattest,
        9,
        15,
        16,
        255,
        65_535,
        1 << 31,
        past_flattest - 1,
    ])
}

fn break_song(random: &mut Random, cells: &mut [u32; STATE_CELLS], song_length: u32) {
    match random.below(8) {
        0 => cells[random.pick(&[0, 4])] = past(random, song_length),
        1 => cells[random.pick(&[1, 5, 6])] = past(random, 64),
        2 => cells[2] = past(random, cells[8] * (1 + cells[3])),
        3 => cells[random.pick(&[3, 7])] = past(random, 16),
        4 => cells[8] = past(random, 32),
        5 => cells[9] = past(random, 256),
        6 => cells[10] = past(random, cells[9]),
        _ => {
            let (cell, below) = random.pick(&[(8, 0), (9, 0), (9, 31)]);
            cells[cell] = below;
        }
    }
}

fn break_channel(random: &mut Random, cells: &mut [u32]) {
    match random.below(6) {
        0 => cells[0] = past(random, 32),
        1 => cells[1] = bad_finetune(random),
        2 => cells[2] = past(random, 65),
        3 => cells[3] = bad_period(random),
        4 => cells[4] = bad_period(random),
        _ => cells[5] = past(random, 256),
    }
}

/// Breaks one number of one of the waves.
fn break_wave(random: &mut Random, cells: &mut [u32]) {
    let wave = random.pick(&[VIBRATO, TREMOLO]);
    match random.below(4) {
        0 => cells[wave] = past(random, LAST_MEMORY + 1),
        1 => cells[wave + 1] = past(random, LAST_MEMORY + 1),
        2 => cells[wave + 2] = past(random, PLACES),
        _ => cells[wave + 3] = past(random, SQUARE + 1),
    }
}

/// Makes a channel past the module's other than fresh: all of it as one of the module's, or one of
/// its numbers, mostly to what the module's may have.
fn fill_past(random: &mut Random, cells: &mut [u32; STATE_CELLS], channels: u32) {
    let own = |channel: u32| SONG_CELLS + CHANNEL_CELLS * channel as usize;
    let filled = own(random.below(channels));
    let filled = filled..filled + CHANNEL_CELLS;
    let past = own(random.between(channels, CHANNELS as u32 - 1));
    let past = past..past + CHANNEL_CELLS;
    if random.chance(30) && cells[filled.clone()] != cells[past.clone()] {
        cells.copy_within(filled, past.start);
        return;
    }
    let cell = &mut cells[past][random.below(CHANNEL_CELLS as u32) as usize];
    // Only the flag of a stopped voice is 1.
    *cell = match *cell {
        0 => random.pick(&[1, 1, 1, 2, 15, 31, 64, 108, 428, 907, u32::MAX]),
        _ => random.pick(&[0, 2]),
    };
}

pub(super) fn break_voice(random: &mut Random, module: &Module, cells: &mut [u32]) {
    let (number, end) = sample_with_bytes(random, module).unwrap_or((1, 0));
    match random.below(9) {
        0 => cells[0] = past(random, 32),
        1 => cells[1] = bad_period(random),
        2 => cells[2] = past(random, 65),
        3 => cells[3..].copy_from_slice(&[past(random, 1), 0, 1]),
        4 => cells[3..].copy_from_slice(&[0, past(random, 1), 1]),
        5 => {
            cells[0] = 0;
            cells[3..].copy_from_slice(&[0, 0, 0]);
        }
        6 => {
            cells[0] = number;
            cells[3..].copy_from_slice(&[past(random, end), 0, 0]);
        }
        7 => {
            cells[0] = number;
            cells[3..].copy_from_slice(&[0, past(random, 65_536), 0]);
        }
        _ => cells[5] = past(random, 2),
    }
}
