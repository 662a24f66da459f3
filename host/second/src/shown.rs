//! The faults that a board's bytes and numbers show: each byte of a header or record as it comes in.

use crate::board::Board;
use crate::finetune::legal_period;
use crate::module::{Module, LAST_SAMPLE, LOUDEST};
use crate::records::{
    header_bytes, CHANNEL_COUNT, COMMAND_BYTES, COUNTED, DRIFTING, SHORTEST, UNCOUNTED_CHANNELS,
    VERSION,
};

/// The bytes of a record before its first command: mask and tempo.
const RECORD_HEAD: usize = 2;
const LOWEST_TEMPO: u8 = 32;

/// A fault's number and place in the stream.
#[derive(Clone, Copy, Debug, PartialEq, Eq)]
pub struct Fault {
    pub number: u32,
    pub place: u64,
}

/// What the last byte of a header or record shows, where those before it are good.
#[derive(Clone, Copy, Debug, PartialEq, Eq)]
pub enum Shown {
    /// More bytes belong to it.
    Open,
    /// It is whole, and good.
    Whole,
    Fault(Fault),
}

fn shows(number: u32, place: u64) -> Shown {
    Shown::Fault(Fault { number, place })
}

impl Board {
    /// What the kept bytes show: the first of them that shows anything decides.
    pub fn bytes_show(&self, module: &Module) -> Shown {
        for kept in 1..=self.kept {
            let mut part = *self;
            part.kept = kept;
            let shown = part.last_byte_shows(module);
            if shown != Shown::Open {
                return shown;
            }
        }
        Shown::Open
    }

    /// What the last of the kept bytes shows.
    pub fn last_byte_shows(&self, module: &Module) -> Shown {
        if self.header_open() {
            self.header_byte_shows(module)
        } else {
            self.record_byte_shows(module)
        }
    }

    fn header_byte_shows(&self, module: &Module) -> Shown {
        let version = self.bytes[VERSION];
        if self.kept > VERSION && self.kept == header_bytes(version) {
            return Shown::Whole;
        }
        if self.at_end() {
            return match self.kept {
                SHORTEST => shows(28, VERSION as u64),
                _ => shows(21, self.bytes_in()),
            };
        }
        let last = self.kept - 1;
        if last == VERSION {
            if !(DRIFTING..=COUNTED).contains(&version) {
                return shows(22, VERSION as u64);
            }
            if version != COUNTED && module.channels != UNCOUNTED_CHANNELS {
                return shows(28, VERSION as u64);
            }
        }
        if last == CHANNEL_COUNT
            && version == COUNTED
            && u32::from(self.bytes[CHANNEL_COUNT]) != module.channels
        {
            return shows(28, VERSION as u64);
        }
        Shown::Open
    }

    fn record_byte_shows(&self, module: &Module) -> Shown {
        let left_over = self.records == self.header.ticks;
        if left_over || self.record_byte_bad(module) {
            return shows(23, self.place);
        }
        let commands = self.bytes[0].count_ones() as usize;
        if self.kept == RECORD_HEAD + COMMAND_BYTES * commands {
            return Shown::Whole;
        }
        if self.at_end() {
            return shows(23, self.place);
        }
        Shown::Open
    }

    /// Whether the last byte of the open record is bad by itself or with those before it.
    fn record_byte_bad(&self, module: &Module) -> bool {
        let last = self.kept - 1;
        let byte = self.bytes[last];
        if last == 0 {
            return u32::from(byte) >> module.channels != 0;
        }
        if last == 1 {
            return byte < LOWEST_TEMPO;
        }
        let command = (last - RECORD_HEAD) / COMMAND_BYTES;
        let own = &self.bytes[RECORD_HEAD + COMMAND_BYTES * command..];
        match (last - RECORD_HEAD) % COMMAND_BYTES {
            0 => u32::from(byte) > LAST_SAMPLE,
            1 => u32::from(byte) > LOUDEST,
            // A period is shown by its second byte.
            2 => false,
            3 => !legal_period(256 * u32::from(own[2]) + u32::from(own[3])),
            4 => {
                let register = self.voices[self.channel_of(command)].sample;
                byte > 1 || byte == 0 && u32::from(own[0]) != register
            }
            _ => own[4] == 0 && byte != 0,
        }
    }

    /// The channel of a command of the open record, both counted from 0.
    fn channel_of(&self, command: usize) -> usize {
        let mask = self.bytes[0];
        let set = (0..8).filter(|channel| mask >> channel & 1 == 1);
        set.take(command + 1).last().expect("a command has a bit")
    }

    /// The fault that the numbers of a header that is in show with this module, or a record that
    /// is missing at the declared end.
    pub fn numbers_show(&self, module: &Module) -> Option<Fault> {
        if self.header_open() {
            return None;
        }
        let version = self.header.version;
        let channels = match version < COUNTED.into() {
            true => UNCOUNTED_CHANNELS,
            false => self.header.channels,
        };
        let place = VERSION as u64;
        if !(DRIFTING.into()..=COUNTED.into()).contains(&version) {
            Some(Fault { number: 22, place })
        } else if channels != module.channels {
            Some(Fault { number: 28, place })
        } else {
            self.missing_record()
        }
    }

    pub fn missing_record(&self) -> Option<Fault> {
        let missing = self.kept == 0 && self.records < self.header.ticks && self.at_end();
        missing.then_some(Fault {
            number: 23,
            place: self.place,
        })
    }
}
