//! The work of one tick: the row's notes and effects, the next place, and the later ticks' slides
//! and waves.

use crate::finetune::{limited, raised, signed, tuned};
use crate::length::{carried, tick_rest};
use crate::module::{Cell, Module, LOUDEST};
use crate::state::{Channel, State};
use crate::voice::CHANNELS;

/// What entry times depth is divided by.
const VIBRATO_DIVISOR: u32 = 128;
const TREMOLO_DIVISOR: u32 = 64;

/// For each channel whose voice started in this tick, the offset asked, in steps of 256 bytes.
pub type Starts = [Option<u32>; CHANNELS];

/// Where the row's effects ask to go.
struct Flow {
    position: Option<u32>,
    row: Option<u32>,
    jump: Option<u32>,
}

/// Does all work of the state's tick up to its frames.
pub fn work(module: &Module, state: &mut State) -> Starts {
    let mut starts = [None; CHANNELS];
    let tempo_before = state.tempo;
    if state.tick == 0 {
        row_work(module, state, &mut starts);
    }
    let t = state.tick % state.speed;
    for channel in 0..module.channels as usize {
        let cell = module.cell(state.position, state.row, channel);
        if t > 0 {
            tick_effect(module, state, channel, &cell, t, &mut starts);
        }
        let own = &mut state.channels[channel];
        state.voices[channel].volume = sounded_volume(own, &cell, t);
        state.voices[channel].period = sounded_period(own, &cell, t);
        advance_waves(own, &cell, t);
    }
    state.remainder = carried(state.remainder, tempo_before, state.tempo);
    starts
}

/// After the frames: keeps their remainder, moves the clock and the tick, and at the row's end
/// takes the next place.
pub fn finish(state: &mut State) {
    state.remainder = tick_rest(state.tempo, state.remainder);
    state.clock = state.clock.wrapping_add(1);
    state.tick += 1;
    if state.tick == state.speed * (1 + state.delay) {
        state.position = state.next_position;
        state.row = state.next_row;
        state.tick = 0;
        state.delay = 0;
    }
}

fn row_work(module: &Module, state: &mut State, starts: &mut Starts) {
    let mut flow = Flow {
        position: None,
        row: None,
        jump: None,
    };
    for channel in 0..module.channels as usize {
        let cell = module.cell(state.position, state.row, channel);
        latch(module, &mut state.channels[channel], &cell);
        note(module, state, channel, &cell, starts);
        row_effect(module, state, channel, &cell, starts);
        flow_effect(module, state, &cell, &mut flow);
    }
    fix_next_place(module, state, &flow);
}

/// Latches the cell's sample; then E5 may set another finetune than the sample's.
fn latch(module: &Module, own: &mut Channel, cell: &Cell) {
    if let Some(sample) = module.sample(cell.sample) {
        own.latched = cell.sample;
        own.finetune = sample.finetune;
        own.volume = sample.volume;
    }
    if cell.effect == 0xE && cell.parameter / 16 == 0x5 {
        own.finetune = signed(cell.parameter % 16);
    }
}

fn note(module: &Module, state: &mut State, channel: usize, cell: &Cell, starts: &mut Starts) {
    let own = &mut state.channels[channel];
    if cell.period == 0 {
        return;
    }
    let period = tuned(cell.period, own.finetune);
    if cell.effect == 0x3 || cell.effect == 0x5 {
        own.target = period;
        return;
    }
    own.period = period;
    own.vibrato.place = 0;
    own.tremolo.place = 0;
    let asked = if cell.effect == 0x9 {
        cell.parameter
    } else {
        0
    };
    state.voices[channel].start(module, own.latched, 256 * asked);
    starts[channel] = Some(asked);
}

/// Starts the sounding sample, if any, at an offset in steps of 256 bytes.
fn restart(module: &Module, state: &mut State, channel: usize, asked: u32, starts: &mut Starts) {
    let voice = &mut state.voices[channel];
    if voice.sample != 0 {
        voice.start(module, voice.sample, 256 * asked);
        starts[channel] = Some(asked);
    }
}

/// The effects at u = 0 that work on their channel.
fn row_effect(
    module: &Module,
    state: &mut State,
    channel: usize,
    cell: &Cell,
    starts: &mut Starts,
) {
    let own = &mut state.channels[channel];
    let x = cell.parameter / 16;
    let y = cell.parameter % 16;
    match (cell.effect, x) {
        (0x3, _) if cell.parameter != 0 => own.memory = cell.parameter,
        (0x4, _) => own.vibrato.remember(x, y),
        (0x7, _) => own.tremolo.remember(x, y),
        (0x9, _) if cell.period == 0 => restart(module, state, channel, cell.parameter, starts),
        (0xC, _) => own.volume = cell.parameter.min(LOUDEST),
        (0xE, 0x1) => slide_down(own, y),
        (0xE, 0x2) => slide_up(own, y),
        (0xE, 0x4) => own.vibrato.choose(y),
        (0xE, 0x7) => own.tremolo.choose(y),
        (0xE, 0x9) if y > 0 => restart(module, state, channel, 0, starts),
        (0xE, 0xA) => own.volume = volume_up(own.volume, y),
        (0xE, 0xB) => own.volume = volume_down(own.volume, y),
        (0xE, 0xC) if y == 0 => own.volume = 0,
        _ => {}
    }
}

/// The effects at u = 0 that work on the song.
fn flow_effect(module: &Module, state: &mut State, cell: &Cell, flow: &mut Flow) {
    let x = cell.parameter / 16;
    let y = cell.parameter % 16;
    match (cell.effect, x) {
        (0xB, _) if cell.parameter < module.song_length => flow.position = Some(cell.parameter),
        (0xB, _) => flow.position = Some(0),
        (0xD, _) => flow.row = Some(break_row(x, y)),
        (0xE, 0x6) => pattern_loop(state, y, flow),
        (0xE, 0xE) => state.delay = y,
        (0xF, _) if cell.parameter == 0 => state.speed = 1,
        (0xF, _) if cell.parameter <= 31 => state.speed = cell.parameter,
        (0xF, _) => state.tempo = cell.parameter,
        _ => {}
    }
}

/// The row of a break: x counts in tens, and y may be above 9.
fn break_row(x: u32, y: u32) -> u32 {
    let row = 10 * x + y;
    if row <= 63 {
        row
    } else {
        0
    }
}

fn pattern_loop(state: &mut State, y: u32, flow: &mut Flow) {
    if y == 0 {
        state.loop_row = state.row;
        return;
    }
    if state.loop_count == 0 {
        state.loop_count = y;
    } else {
        state.loop_count -= 1;
    }
    if state.loop_count > 0 {
        flow.jump = Some(state.loop_row);
    }
}

fn fix_next_place(module: &Module, state: &mut State, flow: &Flow) {
    let following = if state.position + 1 < module.song_length {
        state.position + 1
    } else {
        0
    };
    if flow.position.is_some() || flow.row.is_some() {
        state.next_position = flow.position.unwrap_or(following);
        state.next_row = flow.row.unwrap_or(0);
        state.loop_row = 0;
        state.loop_count = 0;
    } else if let Some(row) = flow.jump {
        state.next_position = state.position;
        state.next_row = row;
    } else if state.row < 63 {
        state.next_position = state.position;
        state.next_row = state.row + 1;
    } else {
        state.next_position = following;
        state.next_row = 0;
        state.loop_row = 0;
        state.loop_count = 0;
    }
}

/// The effects at t above 0.
fn tick_effect(
    module: &Module,
    state: &mut State,
    channel: usize,
    cell: &Cell,
    t: u32,
    starts: &mut Starts,
) {
    let own = &mut state.channels[channel];
    let x = cell.parameter / 16;
    let y = cell.parameter % 16;
    match (cell.effect, x) {
        (0x1, _) => slide_down(own, cell.parameter),
        (0x2, _) => slide_up(own, cell.parameter),
        (0x3, _) => slide_to_target(own),
        (0x5, _) => {
            slide_to_target(own);
            own.volume = volume_slid(own.volume, x, y);
        }
        (0x6 | 0xA, _) => own.volume = volume_slid(own.volume, x, y),
        (0xE, 0x9) if y > 0 && t.is_multiple_of(y) => restart(module, state, channel, 0, starts),
        (0xE, 0xC) if t == y => own.volume = 0,
        _ => {}
    }
}

fn slide_down(own: &mut Channel, by: u32) {
    if own.period > 0 {
        own.period = limited(own.period.saturating_sub(by), own.finetune);
    }
}

fn slide_up(own: &mut Channel, by: u32) {
    if own.period > 0 {
        own.period = limited(own.period + by, own.finetune);
    }
}

/// Moves the period by the memory, never past the target; the finetune's row doesn't limit it.
fn slide_to_target(own: &mut Channel) {
    if own.period == 0 || own.target == 0 {
        return;
    }
    own.period = if own.period < own.target {
        (own.period + own.memory).min(own.target)
    } else {
        own.period.saturating_sub(own.memory).max(own.target)
    };
}

fn volume_up(volume: u32, by: u32) -> u32 {
    (volume + by).min(LOUDEST)
}

fn volume_down(volume: u32, by: u32) -> u32 {
    volume.saturating_sub(by)
}

/// The volume after a slide up by x, or down by y if x is 0.
fn volume_slid(volume: u32, x: u32, y: u32) -> u32 {
    if x == 0 {
        volume_down(volume, y)
    } else {
        volume_up(volume, x)
    }
}

/// Whether the cell's effect is at work on the vibrato.
fn vibrates(cell: &Cell, t: u32) -> bool {
    t > 0 && (cell.effect == 0x4 || cell.effect == 0x6)
}

/// Whether the cell's effect is at work on the tremolo.
fn trembles(cell: &Cell, t: u32) -> bool {
    t > 0 && cell.effect == 0x7
}

/// The volume that the voice takes: the channel's, or that moved by the tremolo.
fn sounded_volume(own: &Channel, cell: &Cell, t: u32) -> u32 {
    if trembles(cell, t) {
        let offset = own.tremolo.offset(TREMOLO_DIVISOR);
        own.volume.saturating_add_signed(offset).min(LOUDEST)
    } else {
        own.volume
    }
}

/// The period that the voice takes: the channel's, that moved by the vibrato, or that of the
/// arpeggio's semitone.
fn sounded_period(own: &Channel, cell: &Cell, t: u32) -> u32 {
    if own.period == 0 {
        0
    } else if vibrates(cell, t) {
        let offset = own.vibrato.offset(VIBRATO_DIVISOR);
        limited(own.period.saturating_add_signed(offset), own.finetune)
    } else if cell.effect == 0 {
        arpeggio(own, cell, t)
    } else {
        own.period
    }
}

/// Moves the waves that were at work in this tick.
fn advance_waves(own: &mut Channel, cell: &Cell, t: u32) {
    if vibrates(cell, t) {
        own.vibrato.advance();
    }
    if trembles(cell, t) {
        own.tremolo.advance();
    }
}

/// The channel's period, which is above 0, or that of the arpeggio's semitone.
fn arpeggio(own: &Channel, cell: &Cell, t: u32) -> u32 {
    let semitones = match t % 3 {
        1 => cell.parameter / 16,
        2 => cell.parameter % 16,
        _ => 0,
    };
    if semitones == 0 {
        own.period
    } else {
        raised(own.period, semitones, own.finetune)
    }
}
