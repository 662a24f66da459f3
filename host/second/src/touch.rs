//! Touches, one by one and in bursts.

use crate::module::Module;
use crate::play::read;
use crate::state::State;
use crate::{Answer, STATE_CELLS};

/// The age in ticks up to which a touch is taken.
const OLDEST_TOUCH: u32 = 25;
/// The touches that one burst takes.
const LARGEST_BURST: usize = 64;

/// Takes a touch made on `page` at clock `made` that names a song position.
pub fn touch(
    file: &[u8],
    cells: &mut [u32; STATE_CELLS],
    page: u32,
    made: u32,
    position: u32,
) -> Answer {
    let (module, mut state) = match read(file, cells) {
        Ok(read) => read,
        Err(refusal) => return refusal,
    };
    match take(&module, &mut state, page, made, position) {
        0 => {
            state.write(cells);
            Answer::accepted(0)
        }
        number => Answer::refused(number.into(), 0),
    }
}

/// Takes touches in their order, each made on its page at its clock, and writes the number that
/// each would be answered with alone; the count is that of the touches.
pub fn touch_burst(
    file: &[u8],
    cells: &mut [u32; STATE_CELLS],
    pages: &[u32],
    mades: &[u32],
    positions: &[u32],
    answers: &mut [u32],
) -> Answer {
    let (module, mut state) = match read(file, cells) {
        Ok(read) => read,
        Err(refusal) => return refusal,
    };
    let touches = match burst_length(pages, mades, positions, answers) {
        Ok(touches) => touches,
        Err(refusal) => return refusal,
    };
    for k in 0..touches {
        answers[k] = take(&module, &mut state, pages[k], mades[k], positions[k]);
    }
    state.write(cells);
    Answer::accepted(touches)
}

/// How many touches these lists hold, or refusal 26, 27 or 34.
fn burst_length(
    pages: &[u32],
    mades: &[u32],
    positions: &[u32],
    answers: &[u32],
) -> Result<usize, Answer> {
    let longest = pages.len().max(mades.len()).max(positions.len());
    if longest > LARGEST_BURST {
        return Err(Answer::refused(26, 0));
    }
    if answers.len() < longest {
        return Err(Answer::refused(27, 0));
    }
    if pages.len() != longest || mades.len() != longest || positions.len() != longest {
        return Err(Answer::refused(34, 0));
    }
    Ok(longest)
}

/// The number of a touch's refusal, or 0, by which the state goes to its position.
fn take(module: &Module, state: &mut State, page: u32, made: u32, position: u32) -> u32 {
    if page != state.page {
        return 16;
    }
    if state.clock.wrapping_sub(made) > OLDEST_TOUCH {
        return 17;
    }
    if position >= module.song_length {
        return 18;
    }
    state.position = position;
    state.next_position = position;
    state.row = 0;
    state.next_row = 0;
    state.tick = 0;
    state.delay = 0;
    state.loop_row = 0;
    state.loop_count = 0;
    0
}
