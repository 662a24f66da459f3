//! Playing a module: states, ticks, touches and page changes.
use crate::{cell, sys, Answer};

/// Frames a second; a frame is two numbers, left first.
pub const RATE: u32 = 48_000;

/// The channels of a state, and the most that a module has; `channels` says how many one has.
pub const CHANNELS: usize = 8;

/// The most numbers that one tick takes: 3,750 frames at tempo 32.
pub const TICK_NUMBERS: usize = 7_500;

/// A tick's frames times its tempo, without a remainder.
const TICK_FRAMES: u64 = 120_000;

/// The frames of a tick at this tempo that begins with this remainder. 0 at tempo 0, which is not legal.
pub fn tick_frames(tempo: u32, remainder: u32) -> usize {
    let whole = TICK_FRAMES + u64::from(remainder);
    whole.checked_div(tempo.into()).unwrap_or(0) as usize
}

/// The remainder that such a tick leaves for the next one at its tempo.
pub fn tick_rest(tempo: u32, remainder: u32) -> u32 {
    let whole = TICK_FRAMES + u64::from(remainder);
    whole.checked_rem(tempo.into()).unwrap_or(0) as u32
}

/// The cells of a state.
pub const STATE_CELLS: usize = 173;

/// Where a song is and how its voices sound, in plain numbers; `cell` names them.
///
/// Any numbers may stand in the cells; each call judges them.
#[derive(Clone, Copy, Debug, PartialEq, Eq)]
pub struct State(pub [u32; STATE_CELLS]);

impl State {
    pub fn position(&self) -> u32 {
        self.0[cell::POSITION]
    }

    pub fn row(&self) -> u32 {
        self.0[cell::ROW]
    }

    /// The tick in the row, from 0.
    pub fn tick(&self) -> u32 {
        self.0[cell::TICK]
    }

    pub fn tempo(&self) -> u32 {
        self.0[cell::TEMPO]
    }

    /// What the ticks at this tempo left over, for the next tick's length.
    pub fn remainder(&self) -> u32 {
        self.0[cell::REMAINDER]
    }

    /// The ticks played so far, modulo 2^32.
    pub fn clock(&self) -> u32 {
        self.0[cell::CLOCK]
    }

    pub fn page(&self) -> u32 {
        self.0[cell::PAGE]
    }

    /// The finetune of a channel, from 0: -8 to 7 where the state is legal.
    pub fn finetune(&self, channel: usize) -> i32 {
        self.0[cell::channel(channel) + cell::FINETUNE] as i32
    }
}

/// How many numbers a call of `play` for one tick wrote, from the state before it and after it, where its count is 1: as
/// lampthistle_tick_numbers of lampthistle.h.
pub fn tick_numbers(before: &State, after: &State) -> usize {
    let same = before.tempo() == after.tempo();
    let remainder = if same { before.remainder() } else { 0 };
    2 * tick_frames(after.tempo(), remainder)
}

/// The state before the first tick of any song.
pub fn fresh() -> State {
    let mut cells = [0; STATE_CELLS];
    // SAFETY: nothing else reaches the cells during the call.
    unsafe { sys::lampthistle_fresh(&mut cells) };
    State(cells)
}

/// Plays the largest number of whole ticks, up to `ticks`, whose frames fit into `out`, and counts them. The rest of `out` stays.
pub fn play(file: &[u8], state: &mut State, ticks: u32, out: &mut [i16]) -> Answer {
    let mut answer = [0; 3];
    // SAFETY: the pointers are good for their lengths, and the exclusive borrows keep them apart.
    unsafe {
        sys::lampthistle_play(
            file.as_ptr(),
            file.len(),
            &mut state.0,
            ticks,
            out.as_mut_ptr(),
            out.len(),
            &mut answer,
        )
    };
    Answer::from_cells(answer)
}

/// Takes a touch made on `page` at clock `made`: the song goes to the beginning of `position`.
pub fn touch(file: &[u8], state: &mut State, page: u32, made: u32, position: u32) -> Answer {
    let mut answer = [0; 3];
    // SAFETY: the pointer is good for its length, and the exclusive borrow keeps the state apart from it.
    unsafe {
        sys::lampthistle_touch(
            file.as_ptr(),
            file.len(),
            &mut state.0,
            page,
            made,
            position,
            &mut answer,
        )
    };
    Answer::from_cells(answer)
}

/// The most touches that one burst takes.
pub const MOST_TOUCHES: usize = 64;

/// Takes up to MOST_TOUCHES touches in their order, touch k made on `pages[k]` at clock `mades[k]` for `positions[k]`, and counts them. State
/// and answers are those of single touches: `answers[k]` is 0, or the refusal's number of touch k alone. Answers past the touches stay.
pub fn touch_burst(
    file: &[u8],
    state: &mut State,
    pages: &[u32],
    mades: &[u32],
    positions: &[u32],
    answers: &mut [u32],
) -> Answer {
    let mut answer = [0; 3];
    // SAFETY: the pointers are good for their lengths, and the exclusive borrows keep state and answers apart from the others.
    unsafe {
        sys::lampthistle_touch_burst(
            file.as_ptr(),
            file.len(),
            &mut state.0,
            pages.as_ptr(),
            pages.len(),
            mades.as_ptr(),
            mades.len(),
            positions.as_ptr(),
            positions.len(),
            answers.as_mut_ptr(),
            answers.len(),
            &mut answer,
        )
    };
    Answer::from_cells(answer)
}

/// Goes to the next page: touches made on the page before are refused from now on.
pub fn change_page(file: &[u8], state: &mut State) -> Answer {
    let mut answer = [0; 3];
    // SAFETY: the pointer is good for its length, and the exclusive borrow keeps the state apart from it.
    unsafe { sys::lampthistle_change_page(file.as_ptr(), file.len(), &mut state.0, &mut answer) };
    Answer::from_cells(answer)
}
