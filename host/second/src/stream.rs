//! The tick stream of a song, and the player of streams.

use crate::module::Module;
use crate::output::{one_or_two, Floats, Numbers, Output};
use crate::records::{decode, encode, Command, Stream, Tick, COUNTED, SILENT};
use crate::state::State;
use crate::voice::{frames, Voice, CHANNELS};
use crate::work::{finish, work};
use crate::Answer;

/// The largest number of ticks that may be translated.
const MOST_TICKS: u32 = 65_535;

/// The first `ticks` ticks of a module from the fresh state, or the file's refusal.
pub fn tick_list(file: &[u8], ticks: u32) -> Result<Vec<Tick>, Answer> {
    let module = Module::read(file)?;
    Ok(module_ticks(&module, ticks))
}

fn module_ticks(module: &Module, ticks: u32) -> Vec<Tick> {
    let mut state = State::fresh();
    let mut list = Vec::new();
    for _ in 0..ticks {
        let starts = work(module, &mut state);
        let mut tick = Tick {
            tempo: state.tempo,
            commands: [SILENT; CHANNELS],
        };
        for channel in 0..CHANNELS {
            let voice = &state.voices[channel];
            tick.commands[channel] = Command {
                sample: voice.sample,
                volume: voice.volume,
                period: voice.period,
                start: starts[channel].is_some(),
                offset: starts[channel].unwrap_or(0),
            };
        }
        list.push(tick);
        finish(&mut state);
    }
    list
}

/// Writes the stream of the first `ticks` ticks into `room` and counts its bytes.
pub fn translate(file: &[u8], ticks: u32, room: &mut [u8]) -> Answer {
    let module = match Module::read(file) {
        Ok(module) => module,
        Err(refusal) => return refusal,
    };
    if ticks > MOST_TICKS {
        return Answer::refused(11, 0);
    }
    let bytes = encode(&Stream {
        version: COUNTED,
        channels: module.channels,
        ticks: module_ticks(&module, ticks),
    });
    if room.len() < bytes.len() {
        return Answer::refused(12, bytes.len());
    }
    room[..bytes.len()].copy_from_slice(&bytes);
    Answer::accepted(bytes.len())
}

/// Plays the largest number of the stream's ticks whose frames fit into `out`.
pub fn play_stream(bytes: &[u8], file: &[u8], out: &mut [i16]) -> Answer {
    play_stream_from(bytes, file, 0, out)
}

/// Plays as `play_stream` does, but from tick `from` on, counted from 0: the ticks before it move
/// the voices and the remainder, and none of their frames is written.
pub fn play_stream_from(bytes: &[u8], file: &[u8], from: u32, out: &mut [i16]) -> Answer {
    let module = match Module::read(file) {
        Ok(module) => module,
        Err(refusal) => return refusal,
    };
    match decode(bytes, module.channels) {
        Ok(stream) => board(&module, &stream, from, &mut Numbers::new(out)),
        Err(refusal) => refusal,
    }
}

/// Plays as `play_stream` does, but floats for one side or two; the last frame's left and right
/// and its tick go to `pair` and `pair_tick`, which stay where there is no frame.
pub fn play_stream_floats(
    bytes: &[u8],
    file: &[u8],
    sides: u32,
    out: &mut [f32],
    pair: &mut [f32; 2],
    pair_tick: &mut u32,
) -> Answer {
    play_stream_floats_from(bytes, file, 0, sides, out, pair, pair_tick)
}

/// Plays as `play_stream_from` does, but floats for one side or two, with the record as in
/// `play_stream_floats`; in it tick `from` is 0.
pub fn play_stream_floats_from(
    bytes: &[u8],
    file: &[u8],
    from: u32,
    sides: u32,
    out: &mut [f32],
    pair: &mut [f32; 2],
    pair_tick: &mut u32,
) -> Answer {
    let module = match Module::read(file) {
        Ok(module) => module,
        Err(refusal) => return refusal,
    };
    if !one_or_two(sides) {
        return Answer::refused(24, 0);
    }
    let stream = match decode(bytes, module.channels) {
        Ok(stream) => stream,
        Err(refusal) => return refusal,
    };
    let mut floats = Floats::new(out, sides);
    let answer = board(&module, &stream, from, &mut floats);
    floats.store_last(pair, pair_tick);
    answer
}

/// Plays what fits of a stream from tick `from` on and counts the ticks.
fn board(module: &Module, stream: &Stream, from: u32, output: &mut impl Output) -> Answer {
    let from = from as usize;
    if from >= stream.ticks.len() {
        return Answer::accepted(0);
    }
    let mut voices = [Voice::fresh(); CHANNELS];
    let mut played = 0;
    for (number, (tick, length)) in stream.ticks.iter().zip(stream.lengths()).enumerate() {
        if number >= from && length > output.frames_left() {
            break;
        }
        take_commands(module, &mut voices, tick);
        let mut next = frames(module, &mut voices);
        if number < from {
            for _ in 0..length {
                next();
            }
        } else {
            output.take(played, length, next);
            played += 1;
        }
    }
    Answer::accepted(played as usize)
}

/// Sets the registers of a tick and starts what it starts.
pub fn take_commands(module: &Module, voices: &mut [Voice; CHANNELS], tick: &Tick) {
    for channel in 0..CHANNELS {
        let voice = &mut voices[channel];
        let command = &tick.commands[channel];
        if command.start {
            voice.start(module, command.sample, 256 * command.offset);
        }
        voice.volume = command.volume;
        voice.period = command.period;
    }
}
