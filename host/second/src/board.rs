//! The board that takes its stream as it arrives: its numbers, their cells, and which are legal.

use crate::module::Module;
use crate::records::{number, COUNTED, SHORTEST, VERSION};
use crate::shown::{Fault, Shown};
use crate::state::{legal_voice, read_voice, write_voice};
use crate::voice::{Voice, CHANNELS};
use crate::{Answer, BOARD_CELLS};

/// The bytes for which a board has cells, packed four a cell; the longest record has 50.
pub const UNIT_BYTES: usize = 52;
/// The numbers of faults that a board may keep.
pub const FAULTS: [u32; 4] = [21, 22, 23, 28];

/// Where the cells stand; a place takes two, the low one first.
pub const PLACE: usize = 0;
pub const KEPT: usize = 2;
pub const BYTES: usize = 3;
pub const FOLLOW: usize = 16;
pub const STREAM_VERSION: usize = 17;
pub const STREAM_CHANNELS: usize = 18;
pub const TICKS: usize = 19;
pub const RECORDS: usize = 20;
pub const NUMBER: usize = 21;
pub const FAULT: usize = 22;
pub const TEMPO: usize = 24;
pub const REMAINDER: usize = 25;
pub const VOICES: usize = 26;
pub const VOICE_CELLS: usize = 6;
/// Where a voice's flag stands among its cells.
pub const STOPPED: usize = 5;

/// The numbers of the stream's header: all 0 while it is open.
#[derive(Clone, Copy, Debug, PartialEq, Eq, Default)]
pub struct Header {
    /// How many bytes follow the first four.
    pub follow: u32,
    pub version: u32,
    /// The byte after the version, whatever it is before version 3.
    pub channels: u32,
    pub ticks: u32,
}

#[derive(Clone, Copy, Debug, PartialEq, Eq)]
pub struct Board {
    /// Where in the stream the open header, 0, or the open record begins.
    pub place: u64,
    /// How many bytes of it are in, and those bytes; what lies past them has no meaning.
    pub kept: usize,
    pub bytes: [u8; UNIT_BYTES],
    pub header: Header,
    /// The records played.
    pub records: u32,
    /// The kept fault; number 0 is none, at whatever place.
    pub fault: Fault,
    /// Of the last tick, and what it left over; version 1 leaves both as they are.
    pub tempo: u32,
    pub remainder: u32,
    pub voices: [Voice; CHANNELS],
}

impl Board {
    pub fn fresh() -> Board {
        Board {
            place: 0,
            kept: 0,
            bytes: [0; UNIT_BYTES],
            header: Header::default(),
            records: 0,
            fault: Fault {
                number: 0,
                place: 0,
            },
            tempo: 0,
            remainder: 0,
            voices: [Voice::fresh(); CHANNELS],
        }
    }

    /// The board in the cells, or refusal 14 if it isn't legal for this module.
    pub fn read(cells: &[u32; BOARD_CELLS], module: &Module) -> Result<Board, Answer> {
        let mut board = Board::fresh();
        board.place = read_place(&cells[PLACE..]);
        board.kept = cells[KEPT] as usize;
        for (k, byte) in board.bytes.iter_mut().enumerate() {
            *byte = cells[BYTES + k / 4].to_le_bytes()[k % 4];
        }
        board.header = Header {
            follow: cells[FOLLOW],
            version: cells[STREAM_VERSION],
            channels: cells[STREAM_CHANNELS],
            ticks: cells[TICKS],
        };
        board.records = cells[RECORDS];
        board.fault = Fault {
            number: cells[NUMBER],
            place: read_place(&cells[FAULT..]),
        };
        board.tempo = cells[TEMPO];
        board.remainder = cells[REMAINDER];
        let mut flags_legal = true;
        for (channel, voice) in board.voices.iter_mut().enumerate() {
            let own = &cells[VOICES + VOICE_CELLS * channel..];
            *voice = read_voice(own);
            flags_legal = flags_legal && own[STOPPED] <= 1;
        }
        if flags_legal && board.legal(module) {
            Ok(board)
        } else {
            Err(Answer::refused(14, 0))
        }
    }

    pub fn write(&self, cells: &mut [u32; BOARD_CELLS]) {
        write_place(self.place, &mut cells[PLACE..]);
        cells[KEPT] = self.kept as u32;
        for (k, bytes) in self.bytes.chunks_exact(4).enumerate() {
            cells[BYTES + k] = u32::from_le_bytes([bytes[0], bytes[1], bytes[2], bytes[3]]);
        }
        cells[FOLLOW] = self.header.follow;
        cells[STREAM_VERSION] = self.header.version;
        cells[STREAM_CHANNELS] = self.header.channels;
        cells[TICKS] = self.header.ticks;
        cells[RECORDS] = self.records;
        cells[NUMBER] = self.fault.number;
        write_place(self.fault.place, &mut cells[FAULT..]);
        cells[TEMPO] = self.tempo;
        cells[REMAINDER] = self.remainder;
        for (channel, voice) in self.voices.iter().enumerate() {
            write_voice(voice, &mut cells[VOICES + VOICE_CELLS * channel..]);
        }
    }

    pub fn header_open(&self) -> bool {
        self.place == 0
    }

    /// The bytes of the stream that are in.
    pub fn bytes_in(&self) -> u64 {
        self.place.saturating_add(self.kept as u64)
    }

    /// The length that the stream says it has; nothing before its first number is in.
    pub fn declared(&self) -> Option<u64> {
        if !self.header_open() {
            Some(4 + u64::from(self.header.follow))
        } else if self.kept >= VERSION {
            Some(4 + number(&self.bytes, 0))
        } else {
            None
        }
    }

    /// Whether the bytes that are in reach the declared end.
    pub fn at_end(&self) -> bool {
        self.declared() == Some(self.bytes_in())
    }

    pub fn kept_fault(&self) -> Option<Fault> {
        (self.fault.number != 0).then_some(self.fault)
    }

    fn legal(&self, module: &Module) -> bool {
        if self.fault.number != 0 && !FAULTS.contains(&self.fault.number) {
            return false;
        }
        if self.remainder != 0 && self.remainder >= self.tempo {
            return false;
        }
        // With an open header any record is too many.
        let ticks = if self.header_open() {
            0
        } else {
            self.header.ticks
        };
        if self.records > ticks || self.declared().is_some_and(|most| self.bytes_in() > most) {
            return false;
        }
        self.voices_legal(module) && self.fault_legal(module)
    }

    /// Whether the voices are legal; past the module's channels they are as fresh.
    fn voices_legal(&self, module: &Module) -> bool {
        let (own, past) = self.voices.split_at(module.channels as usize);
        own.iter().all(|voice| legal_voice(voice, module))
            && past.iter().all(|voice| *voice == Voice::fresh())
    }

    /// Whether the first fault that the board's own numbers and bytes show is the kept one. Where
    /// none is shown, bytes of a header or record that is whole are none that a board keeps.
    fn fault_legal(&self, module: &Module) -> bool {
        if let Some(fault) = self.numbers_show(module) {
            return self.kept_fault() == Some(fault);
        }
        if self.kept > self.most_kept() {
            return false;
        }
        match self.bytes_show(module) {
            Shown::Fault(fault) => self.kept_fault() == Some(fault),
            shown => shown != Shown::Whole,
        }
    }

    /// The most bytes that may be kept: a header that has them all is open no more.
    fn most_kept(&self) -> usize {
        match self.bytes[VERSION] {
            _ if !self.header_open() => UNIT_BYTES,
            version if version < COUNTED => SHORTEST - 1,
            _ => SHORTEST,
        }
    }
}

fn read_place(cells: &[u32]) -> u64 {
    u64::from(cells[0]) + (u64::from(cells[1]) << 32)
}

fn write_place(place: u64, cells: &mut [u32]) {
    cells[0] = place as u32;
    cells[1] = (place >> 32) as u32;
}
