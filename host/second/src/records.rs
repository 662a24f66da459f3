//! The tick stream's bytes: its ticks written out and read again.

use crate::finetune::legal_period;
use crate::length::{carried, tick_frames, tick_rest};
use crate::module::{LAST_SAMPLE, LOUDEST};
use crate::voice::CHANNELS;
use crate::Answer;

/// The first version, whose ticks have no remainder.
pub const DRIFTING: u8 = 1;
/// The version that translation writes: the first that says its channels.
pub const COUNTED: u8 = 3;
/// The channels of the versions before.
pub const UNCOUNTED_CHANNELS: u32 = 4;

/// Where the version and, in the version that has it, the count of channels stand.
pub const VERSION: usize = 4;
pub const CHANNEL_COUNT: usize = 5;
/// The bytes of the shortest stream: byte count, version and tick count.
pub const SHORTEST: usize = 9;
/// Bytes of one channel in a record.
pub const COMMAND_BYTES: usize = 6;

/// A channel's registers in one tick, whether or not they changed, and its start.
#[derive(Clone, Copy, Debug, PartialEq, Eq)]
pub struct Command {
    pub sample: u32,
    pub volume: u32,
    pub period: u32,
    pub start: bool,
    /// In steps of 256 bytes; 0 without a start.
    pub offset: u32,
}

#[derive(Clone, Copy, Debug, PartialEq, Eq)]
pub struct Tick {
    pub tempo: u32,
    pub commands: [Command; CHANNELS],
}

pub const SILENT: Command = Command {
    sample: 0,
    volume: 0,
    period: 0,
    start: false,
    offset: 0,
};

/// A stream's version, 1 to 3, its channels and its ticks.
#[derive(Clone, Debug, PartialEq, Eq, Default)]
pub struct Stream {
    pub version: u8,
    pub channels: u32,
    pub ticks: Vec<Tick>,
}

impl Stream {
    /// The frames of each tick: in version 1 by its tempo alone, from version 2 on with the
    /// remainder of the ticks before.
    pub fn lengths(&self) -> Vec<usize> {
        let mut lengths = Vec::with_capacity(self.ticks.len());
        let mut remainder = 0;
        let mut tempo_before = 0;
        for tick in &self.ticks {
            remainder = carried(remainder, tempo_before, tick.tempo);
            lengths.push(tick_frames(tick.tempo, remainder));
            if self.version != DRIFTING {
                remainder = tick_rest(tick.tempo, remainder);
            }
            tempo_before = tick.tempo;
        }
        lengths
    }
}

/// The stream's bytes.
pub fn encode(stream: &Stream) -> Vec<u8> {
    let mut bytes = vec![0, 0, 0, 0, stream.version];
    if stream.version == COUNTED {
        bytes.push(stream.channels as u8);
    }
    bytes.extend_from_slice(&(stream.ticks.len() as u32).to_be_bytes());
    let mut before = [SILENT; CHANNELS];
    for tick in &stream.ticks {
        encode_tick(tick, &before, &mut bytes);
        before = tick.commands;
    }
    let following = bytes.len() as u32 - 4;
    bytes[..4].copy_from_slice(&following.to_be_bytes());
    bytes
}

fn encode_tick(tick: &Tick, before: &[Command; CHANNELS], bytes: &mut Vec<u8>) {
    let mask_place = bytes.len();
    bytes.push(0);
    bytes.push(tick.tempo as u8);
    for channel in 0..CHANNELS {
        let old = &before[channel];
        let new = &tick.commands[channel];
        if new.sample != old.sample
            || new.volume != old.volume
            || new.period != old.period
            || new.start
        {
            bytes[mask_place] |= 1 << channel;
            bytes.push(new.sample as u8);
            bytes.push(new.volume as u8);
            bytes.push((new.period / 256) as u8);
            bytes.push((new.period % 256) as u8);
            bytes.push(u8::from(new.start));
            bytes.push(new.offset as u8);
        }
    }
}

/// The stream in these bytes for a module of so many channels, or its refusal 21, 22, 28 or 23.
pub fn decode(bytes: &[u8], channels: u32) -> Result<Stream, Answer> {
    if bytes.len() < SHORTEST || bytes.len() as u64 != 4 + number(bytes, 0) {
        return Err(Answer::refused(21, bytes.len()));
    }
    let version = bytes[VERSION];
    if !(DRIFTING..=COUNTED).contains(&version) {
        return Err(Answer::refused(22, VERSION));
    }
    if bytes.len() < header_bytes(version) || stated_channels(bytes) != channels {
        return Err(Answer::refused(28, VERSION));
    }
    let mut ticks = Vec::new();
    let mut registers = [SILENT; CHANNELS];
    let mut place = header_bytes(version);
    for _ in 0..number(bytes, tick_count(version)) {
        let Some((tick, length)) = decode_tick(&bytes[place..], &registers, channels) else {
            return Err(Answer::refused(23, place));
        };
        ticks.push(tick);
        registers = tick.commands;
        place += length;
    }
    if place < bytes.len() {
        return Err(Answer::refused(23, place));
    }
    Ok(Stream {
        version,
        channels,
        ticks,
    })
}

/// Where a version's tick count stands.
pub fn tick_count(version: u8) -> usize {
    if version == COUNTED {
        CHANNEL_COUNT + 1
    } else {
        VERSION + 1
    }
}

/// The bytes before a version's first record.
pub fn header_bytes(version: u8) -> usize {
    tick_count(version) + 4
}

/// The channels that a stream is for.
fn stated_channels(bytes: &[u8]) -> u32 {
    if bytes[VERSION] == COUNTED {
        bytes[CHANNEL_COUNT].into()
    } else {
        UNCOUNTED_CHANNELS
    }
}

/// The four-byte number at a place.
pub fn number(bytes: &[u8], place: usize) -> u64 {
    let mut number = 0;
    for byte in &bytes[place..place + 4] {
        number = 256 * number + u64::from(*byte);
    }
    number
}

/// The record at the beginning of `bytes` and its length, or nothing if it is bad.
pub fn decode_tick(
    bytes: &[u8],
    before: &[Command; CHANNELS],
    channels: u32,
) -> Option<(Tick, usize)> {
    let mask = u32::from(*bytes.first()?);
    let tempo = u32::from(*bytes.get(1)?);
    if mask >> channels != 0 || tempo < 32 {
        return None;
    }
    let mut tick = Tick {
        tempo,
        commands: *before,
    };
    let mut place = 2;
    for channel in 0..CHANNELS {
        let command = &mut tick.commands[channel];
        command.start = false;
        command.offset = 0;
        if mask >> channel & 1 == 1 {
            let own = bytes.get(place..place + COMMAND_BYTES)?;
            *command = decode_command(own, before[channel].sample)?;
            place += COMMAND_BYTES;
        }
    }
    Some((tick, place))
}

/// One channel's part of a record, or nothing if it is bad.
fn decode_command(bytes: &[u8], sample_before: u32) -> Option<Command> {
    let command = Command {
        sample: bytes[0].into(),
        volume: bytes[1].into(),
        period: u32::from(bytes[2]) * 256 + u32::from(bytes[3]),
        start: bytes[4] == 1,
        offset: bytes[5].into(),
    };
    if command.sample > LAST_SAMPLE || command.volume > LOUDEST || !legal_period(command.period) {
        return None;
    }
    if bytes[4] > 1 {
        return None;
    }
    if !command.start && (command.sample != sample_before || command.offset != 0) {
        return None;
    }
    Some(command)
}
