//! The board that takes its stream as it arrives.
use crate::{sys, tick_frames, Answer};

/// The cells of a board.
pub const BOARD_CELLS: usize = 74;

/// The cells that say how long a tick was, as in lampthistle.h.
const KEPT: usize = 2;
const FIRST_BYTES: usize = 3;
const VERSION: usize = 17;
const TEMPO: usize = 24;
const REMAINDER: usize = 25;

/// How much of a stream has arrived and how its voices sound, in plain numbers.
///
/// Any numbers may stand in the cells; each call judges them.
#[derive(Clone, Copy, Debug, PartialEq, Eq)]
pub struct Board([u32; BOARD_CELLS]);

/// What feeding answers: its number, place and the ticks played, and how many bytes were taken.
///
/// A fault that a byte shows is the one refusal that changes a lent board and buffer: what was played before it stands, and the count is
/// the ticks of that call.
#[must_use = "bytes that were not taken are to be fed again"]
#[derive(Clone, Copy, Debug, PartialEq, Eq)]
pub struct Fed {
    pub answer: Answer,
    pub taken: u64,
}

impl Board {
    /// The board before the first byte of any stream.
    pub fn fresh() -> Board {
        let mut cells = [0; BOARD_CELLS];
        // SAFETY: nothing else reaches the cells during the call.
        unsafe { sys::lampthistle_board_fresh(&mut cells) };
        Board(cells)
    }

    pub fn from_cells(cells: [u32; BOARD_CELLS]) -> Board {
        Board(cells)
    }

    pub fn cells(&self) -> &[u32; BOARD_CELLS] {
        &self.0
    }

    /// Takes bytes of the stream until none is left, one shows a fault, or the tick of a record does not fit into `out`: that record's last
    /// byte is not taken. Each record is played when its last byte is in, with the samples of the module in `file`. The rest of `out` stays.
    pub fn feed(&mut self, file: &[u8], bytes: &[u8], out: &mut [i16]) -> Fed {
        let mut cells = [0; 4];
        // SAFETY: the pointers are good for their lengths, and the exclusive borrows keep board and `out` apart from the others.
        unsafe {
            sys::lampthistle_board_feed(
                file.as_ptr(),
                file.len(),
                &mut self.0,
                bytes.as_ptr(),
                bytes.len(),
                out.as_mut_ptr(),
                out.len(),
                &mut cells,
            )
        };
        let [number, place, count, taken] = cells;
        Fed {
            answer: Answer::from_cells([number, place, count]),
            taken,
        }
    }

    /// Ends the stream. Short of its declared end that is a fault, which the board keeps; after the end nothing changes.
    pub fn close(&mut self, file: &[u8]) -> Answer {
        let mut answer = [0; 3];
        // SAFETY: the pointer is good for its length, and the exclusive borrow keeps the board apart from it.
        unsafe {
            sys::lampthistle_board_close(file.as_ptr(), file.len(), &mut self.0, &mut answer)
        };
        Answer::from_cells(answer)
    }
}

/// How many numbers a call of `feed` wrote, from the board before it and after it, where its count is 1: as lampthistle_board_numbers of
/// lampthistle.h. For a stream of version 1 it is 0 where the call also took the next record's second byte.
pub fn board_numbers(before: &Board, after: &Board) -> usize {
    let (before, after) = (before.cells(), after.cells());
    let (tempo, remainder) = match after[VERSION] {
        1 if after[KEPT] < 2 => (after[FIRST_BYTES] / 256 % 256, 0),
        1 => (0, 0),
        _ if before[TEMPO] == after[TEMPO] => (after[TEMPO], before[REMAINDER]),
        _ => (after[TEMPO], 0),
    };
    2 * tick_frames(tempo, remainder)
}
