//! The records of a tick stream that the library wrote or accepted, read by offset, or as they arrive.
use lampthistle::{tick_frames, tick_rest, CHANNELS};

/// Where the version is, and in a version that has one the channel count; the bytes of the count of ticks and of one channel's command.
const VERSION: usize = 4;
const CHANNEL_COUNT: usize = 5;
const TICKS_BYTES: usize = 4;
const COMMAND_BYTES: usize = 6;
/// The bytes of a record's mask and tempo.
const TEMPO_BYTES: usize = 2;
/// The version whose ticks leave no remainder, and the first that has a channel count; the channels of those before it.
const DRIFTING: u8 = 1;
const COUNTED: u8 = 3;
const UNCOUNTED_CHANNELS: u8 = 4;

/// One tick: its tempo, and for each channel whose bit is set its command.
pub struct Record {
    pub tempo: u32,
    pub commands: [Option<Command>; CHANNELS],
}

#[derive(Clone, Copy, Default)]
pub struct Command {
    pub sample: u8,
    pub volume: u8,
    pub period: u16,
    pub start: bool,
    /// In steps of 256 bytes.
    pub offset: u8,
}

impl Command {
    /// The sample's byte at which a start begins.
    pub fn start_byte(&self) -> u32 {
        256 * u32::from(self.offset)
    }
}

/// The records from one on.
pub struct Records<'a> {
    rest: &'a [u8],
}

/// Where the count of ticks is: after the channel count, if the version has one.
fn ticks_place(stream: &[u8]) -> usize {
    CHANNEL_COUNT + usize::from(version(stream) >= COUNTED)
}

/// Where the first record begins.
fn header_bytes(stream: &[u8]) -> usize {
    ticks_place(stream) + TICKS_BYTES
}

/// All records of a stream.
pub fn records(stream: &[u8]) -> Records<'_> {
    Records {
        rest: stream.get(header_bytes(stream)..).unwrap_or(&[]),
    }
}

/// How many ticks an accepted stream has.
pub fn ticks(stream: &[u8]) -> u64 {
    let bytes = stream.iter().skip(ticks_place(stream)).take(TICKS_BYTES);
    bytes.fold(0, |high, &low| 256 * high + u64::from(low))
}

/// A stream's version.
pub fn version(stream: &[u8]) -> u8 {
    stream.get(VERSION).copied().unwrap_or(0)
}

/// How many channels a stream is for.
pub fn channels(stream: &[u8]) -> usize {
    let count = match version(stream) {
        COUNTED.. => stream.get(CHANNEL_COUNT).copied().unwrap_or(0),
        _ => UNCOUNTED_CHANNELS,
    };
    count.into()
}

/// The frames of all ticks of a stream.
pub fn frames(stream: &[u8]) -> u64 {
    let mut lengths = Lengths::of(version(stream));
    records(stream)
        .map(|record| lengths.next(record.tempo) as u64)
        .sum()
}

/// How long the ticks of a stream are, one after the other: by version 1 each by its tempo alone, by later ones with the remainder of
/// those before it.
pub struct Lengths {
    version: u8,
    tempo: u32,
    /// What the last tick left.
    pub remainder: u32,
}

impl Lengths {
    /// Before the first tick of a stream of this version.
    pub fn of(version: u8) -> Lengths {
        Lengths {
            version,
            tempo: 0,
            remainder: 0,
        }
    }

    /// The remainder with which a next tick at this tempo begins.
    fn carried(&self, tempo: u32) -> u32 {
        if self.tempo == tempo {
            self.remainder
        } else {
            0
        }
    }

    /// The frames of the next tick, at this tempo.
    pub fn next(&mut self, tempo: u32) -> usize {
        let carried = self.carried(tempo);
        self.tempo = tempo;
        self.remainder = match self.version {
            DRIFTING => 0,
            _ => tick_rest(tempo, carried),
        };
        tick_frames(tempo, carried)
    }
}

/// The lengths of a stream's ticks as its bytes come.
pub struct Arriving {
    /// How many ticks the stream is to have, when its header is in.
    pub ticks: u64,
    /// The bytes of the header or record that is open.
    open: Vec<u8>,
    /// None while the header is open.
    lengths: Option<Lengths>,
}

impl Arriving {
    pub fn new() -> Arriving {
        Arriving {
            ticks: 0,
            open: Vec::new(),
            lengths: None,
        }
    }

    /// The frames of the tick whose record this byte makes whole.
    pub fn take(&mut self, byte: u8) -> Option<usize> {
        self.open.push(byte);
        let needed = match self.lengths {
            None => header_bytes(&self.open),
            Some(_) => TEMPO_BYTES + COMMAND_BYTES * self.open[0].count_ones() as usize,
        };
        if self.open.len() < needed {
            return None;
        }
        let frames = match &mut self.lengths {
            Some(lengths) => Some(lengths.next(self.open[1].into())),
            None => {
                self.ticks = ticks(&self.open);
                self.lengths = Some(Lengths::of(version(&self.open)));
                None
            }
        };
        self.open.clear();
        frames
    }
}

impl Records<'_> {
    fn take<const N: usize>(&mut self) -> Option<[u8; N]> {
        let (first, rest) = self.rest.split_first_chunk()?;
        self.rest = rest;
        Some(*first)
    }
}

impl Iterator for Records<'_> {
    type Item = Record;

    fn next(&mut self) -> Option<Record> {
        let [mask, tempo] = self.take()?;
        let mut commands = [None; CHANNELS];
        for (channel, command) in commands.iter_mut().enumerate() {
            if mask >> channel & 1 == 1 {
                let [sample, volume, high, low, start, offset] = self.take::<COMMAND_BYTES>()?;
                *command = Some(Command {
                    sample,
                    volume,
                    period: u16::from_be_bytes([high, low]),
                    start: start == 1,
                    offset,
                });
            }
        }
        Some(Record {
            tempo: tempo.into(),
            commands,
        })
    }
}
