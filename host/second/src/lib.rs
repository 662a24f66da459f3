//! A second player of paper 01, of the requests of paper 02 that have landed and of calls that were
//! asked for beside them, written from their words alone, to compare the first one with.

mod arrival;
mod board;
mod finetune;
mod floats;
pub mod generate;
mod length;
pub mod module;
mod output;
mod play;
mod quiet;
mod records;
mod shown;
mod state;
mod stream;
mod touch;
mod voice;
mod wave;
mod work;

use module::Module;

pub use arrival::{board_close, board_feed, board_fresh, Fed};
pub use floats::{delivered, mono, side, Frame};
pub use length::{tick_frames, tick_rest};
pub use module::channels;
pub use play::{change_page, fresh, play, play_floats, trace_tick, Trace};
pub use quiet::{why_quiet, Cause};
pub use records::{decode, encode, Command, Stream, Tick};
pub use stream::{
    play_stream, play_stream_floats, play_stream_floats_from, play_stream_from, tick_list,
    translate,
};
pub use touch::{touch, touch_burst};
pub use voice::{growth, End, Voice};

/// The numbers of a state where it is handed over: position, row, tick in row, delay, next
/// position, next row, loop row, loop count, speed, tempo, remainder, clock, page; then for each of
/// eight channels, however many the module has, latched sample, finetune (in two's complement),
/// volume, period, target, slide memory, of its vibrato and then of its tremolo x, y, place, form
/// (0 sine, 1 ramp, 2 square), and of its voice sounding sample, period, volume, index, fraction,
/// stopped (0 or 1).
pub const STATE_CELLS: usize = 173;

/// The numbers of a board where it is handed over: the place of the open header or record (low,
/// high); how many bytes of it are kept; 52 bytes packed four a cell, the first lowest; the
/// header's first number, version, channels and ticks; the records played; the kept fault's number
/// and place (low, high); tempo and remainder; then for each of eight voices sounding sample,
/// period, volume, index, fraction, stopped (0 or 1).
pub const BOARD_CELLS: usize = 74;

/// What a call answers: the refusal's number and place, or number and place 0 and the count
/// of ticks played, bytes written or touches answered, or the cause of quiet.
#[derive(Clone, Copy, Debug, PartialEq, Eq)]
pub struct Answer {
    pub number: u64,
    pub place: u64,
    pub count: u64,
}

impl Answer {
    pub fn refused(number: u64, place: usize) -> Answer {
        Answer {
            number,
            place: place as u64,
            count: 0,
        }
    }

    pub fn accepted(count: usize) -> Answer {
        Answer {
            number: 0,
            place: 0,
            count: count as u64,
        }
    }
}

/// Judges a module file by the refusals 1 to 9.
pub fn judge(file: &[u8]) -> Answer {
    match Module::read(file) {
        Ok(_) => Answer::accepted(0),
        Err(refusal) => refusal,
    }
}
