//! The board that takes its stream as it arrives: feeding it and closing it.

use crate::board::{Board, Header};
use crate::length::{carried, tick_frames, tick_rest};
use crate::module::Module;
use crate::output::{Numbers, Output};
use crate::records::{
    decode_tick, number, tick_count, Command, Tick, CHANNEL_COUNT, DRIFTING, SILENT, VERSION,
};
use crate::shown::{Fault, Shown};
use crate::stream::take_commands;
use crate::voice::{frames, CHANNELS};
use crate::{Answer, BOARD_CELLS};

/// What feeding answers: its number, place and the ticks played, and the bytes taken.
#[derive(Clone, Copy, Debug, PartialEq, Eq)]
pub struct Fed {
    pub answer: Answer,
    pub taken: u64,
}

/// The cells of a board before the first byte of any stream.
pub fn board_fresh() -> [u32; BOARD_CELLS] {
    let mut cells = [0; BOARD_CELLS];
    Board::fresh().write(&mut cells);
    cells
}

/// Takes bytes until none is left, one shows a fault or one mustn't be taken, and plays each record
/// whose last byte is in.
pub fn board_feed(
    file: &[u8],
    cells: &mut [u32; BOARD_CELLS],
    bytes: &[u8],
    out: &mut [i16],
) -> Fed {
    let (module, mut board) = match lent(file, cells) {
        Ok(lent) => lent,
        Err(answer) => return Fed { answer, taken: 0 },
    };
    let before = board.records;
    let mut output = Numbers::new(out);
    let mut taken = 0;
    for &byte in bytes {
        let played = board.records - before;
        if board.fault.number != 0 || !board.take(&module, byte, played, &mut output) {
            break;
        }
        taken += 1;
    }
    board.write(cells);
    let mut answer = board.kept_fault().map_or(Answer::accepted(0), refusal);
    answer.count = u64::from(board.records - before);
    Fed { answer, taken }
}

/// Ends the stream: short of its declared end that is a fault, which is kept.
pub fn board_close(file: &[u8], cells: &mut [u32; BOARD_CELLS]) -> Answer {
    let mut board = match lent(file, cells) {
        Ok((_, board)) => board,
        Err(answer) => return answer,
    };
    if board.at_end() {
        return Answer::accepted(0);
    }
    board.keep(21, board.bytes_in());
    board.write(cells);
    refusal(board.fault)
}

/// The module and the board that a call was given, or their refusal, or the fault that is kept.
fn lent<'a>(file: &'a [u8], cells: &[u32; BOARD_CELLS]) -> Result<(Module<'a>, Board), Answer> {
    let module = Module::read(file)?;
    let board = Board::read(cells, &module)?;
    match board.kept_fault() {
        None => Ok((module, board)),
        Some(fault) => Err(refusal(fault)),
    }
}

fn refusal(fault: Fault) -> Answer {
    Answer {
        number: fault.number.into(),
        place: fault.place,
        count: 0,
    }
}

impl Board {
    /// Takes a byte, or says that it isn't taken; `played` is the ticks of the call so far.
    fn take(&mut self, module: &Module, byte: u8, played: u32, output: &mut impl Output) -> bool {
        if self.at_end() {
            self.keep(21, self.bytes_in() + 1);
            return false;
        }
        let mut next = *self;
        next.bytes[next.kept] = byte;
        next.kept += 1;
        match next.last_byte_shows(module) {
            Shown::Open => {}
            Shown::Fault(fault) => next.fault = fault,
            Shown::Whole => {
                if !next.take_whole(module, played, output) {
                    return false;
                }
            }
        }
        *self = next;
        true
    }

    fn keep(&mut self, number: u32, place: u64) {
        self.fault = Fault { number, place };
    }

    /// Goes on behind the header or record that is whole, unless a record's tick doesn't fit.
    fn take_whole(&mut self, module: &Module, played: u32, output: &mut impl Output) -> bool {
        if self.header_open() {
            self.header = self.read_header();
        } else {
            if !self.play_record(module, played, output) {
                return false;
            }
            self.records += 1;
        }
        self.place = self.bytes_in();
        self.kept = 0;
        if let Some(fault) = self.missing_record() {
            self.fault = fault;
        }
        true
    }

    fn read_header(&self) -> Header {
        let version = self.bytes[VERSION];
        Header {
            follow: number(&self.bytes, 0) as u32,
            version: version.into(),
            channels: self.bytes[CHANNEL_COUNT].into(),
            ticks: number(&self.bytes, tick_count(version)) as u32,
        }
    }

    /// Plays the tick of the record that is whole, or says that it doesn't fit.
    fn play_record(&mut self, module: &Module, played: u32, output: &mut impl Output) -> bool {
        let tick = self.read_record(module);
        let drifting = self.header.version == DRIFTING.into();
        let remainder = if drifting {
            0
        } else {
            carried(self.remainder, self.tempo, tick.tempo)
        };
        let length = tick_frames(tick.tempo, remainder);
        if length > output.frames_left() {
            return false;
        }
        take_commands(module, &mut self.voices, &tick);
        output.take(played, length, frames(module, &mut self.voices));
        if !drifting {
            self.tempo = tick.tempo;
            self.remainder = tick_rest(tick.tempo, remainder);
        }
        true
    }

    fn read_record(&self, module: &Module) -> Tick {
        let mut registers = [SILENT; CHANNELS];
        for (register, voice) in registers.iter_mut().zip(&self.voices) {
            *register = Command {
                sample: voice.sample,
                volume: voice.volume,
                period: voice.period,
                ..SILENT
            };
        }
        let read = decode_tick(&self.bytes[..self.kept], &registers, module.channels);
        read.expect("the record is good").0
    }
}
