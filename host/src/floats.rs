//! Frames as 32-bit floats, for one side or two.
use crate::{sys, tick_numbers, Answer, State};

/// The sides of a frame: one, the sum of left and right / 65,536; or two, left / 32,768 and right / 32,768.
pub const MONO: u32 = 1;
pub const STEREO: u32 = 2;

/// The left and right of the last frame that a call played, divided by 32,768 also where mono is asked for, and its tick in the call, from 0.
#[derive(Clone, Copy, Debug, Default, PartialEq)]
pub struct Pair {
    pub left: f32,
    pub right: f32,
    pub tick: u32,
}

/// How many floats a call of `play_floats` for one tick wrote, from the state before it and after it, where its count is 1: as
/// lampthistle_tick_floats of lampthistle.h.
pub fn tick_floats(before: &State, after: &State, sides: u32) -> usize {
    sides as usize * (tick_numbers(before, after) / 2)
}

/// Plays as `play` does, but exact floats for one side or two: the largest number of whole ticks, up to `ticks`, whose floats fit into
/// `out`. Without a frame `last` stays.
pub fn play_floats(
    file: &[u8],
    state: &mut State,
    ticks: u32,
    sides: u32,
    out: &mut [f32],
    last: &mut Pair,
) -> Answer {
    let mut answer = [0; 3];
    let mut pair = [last.left, last.right];
    // SAFETY: the pointers are good for their lengths, and the exclusive borrows keep them apart.
    unsafe {
        sys::lampthistle_play_floats(
            file.as_ptr(),
            file.len(),
            &mut state.0,
            ticks,
            sides,
            out.as_mut_ptr(),
            out.len(),
            &mut pair,
            &mut last.tick,
            &mut answer,
        )
    };
    [last.left, last.right] = pair;
    Answer::from_cells(answer)
}

/// Plays as `play_stream` does, but exact floats for one side or two. Without a frame `last` stays.
pub fn play_stream_floats(
    stream: &[u8],
    file: &[u8],
    sides: u32,
    out: &mut [f32],
    last: &mut Pair,
) -> Answer {
    let mut answer = [0; 3];
    let mut pair = [last.left, last.right];
    // SAFETY: the pointers are good for their lengths, and the exclusive borrows keep what is written apart.
    unsafe {
        sys::lampthistle_play_stream_floats(
            stream.as_ptr(),
            stream.len(),
            file.as_ptr(),
            file.len(),
            sides,
            out.as_mut_ptr(),
            out.len(),
            &mut pair,
            &mut last.tick,
            &mut answer,
        )
    };
    [last.left, last.right] = pair;
    Answer::from_cells(answer)
}

/// Plays as `play_stream_from` does, but exact floats for one side or two. In `last` tick `from` is 0; without a frame it stays.
pub fn play_stream_floats_from(
    stream: &[u8],
    file: &[u8],
    from: u32,
    sides: u32,
    out: &mut [f32],
    last: &mut Pair,
) -> Answer {
    let mut answer = [0; 3];
    let mut pair = [last.left, last.right];
    // SAFETY: the pointers are good for their lengths, and the exclusive borrows keep what is written apart.
    unsafe {
        sys::lampthistle_play_stream_floats_from(
            stream.as_ptr(),
            stream.len(),
            file.as_ptr(),
            file.len(),
            from,
            sides,
            out.as_mut_ptr(),
            out.len(),
            &mut pair,
            &mut last.tick,
            &mut answer,
        )
    };
    [last.left, last.right] = pair;
    Answer::from_cells(answer)
}
