//! Playing a module from a state: whole ticks that fit, page changes and single ticks.

use crate::length::tick_frames;
use crate::module::Module;
use crate::output::{one_or_two, Floats, Numbers, Output};
use crate::state::State;
use crate::voice::{ends, frames, End, Voice, CHANNELS};
use crate::work::{finish, work};
use crate::{Answer, STATE_CELLS};

/// The cells of a fresh state.
pub fn fresh() -> [u32; STATE_CELLS] {
    let mut cells = [0; STATE_CELLS];
    State::fresh().write(&mut cells);
    cells
}

/// Plays the largest number of whole ticks, up to `ticks`, whose frames fit into `out`.
pub fn play(file: &[u8], cells: &mut [u32; STATE_CELLS], ticks: u32, out: &mut [i16]) -> Answer {
    let (module, mut state) = match read(file, cells) {
        Ok(read) => read,
        Err(refusal) => return refusal,
    };
    let played = play_ticks(&module, &mut state, ticks, &mut Numbers::new(out));
    state.write(cells);
    Answer::accepted(played as usize)
}

/// Plays as `play` does, but floats for one side or two; the last frame's left and right and its
/// tick in the call go to `pair` and `pair_tick`, which stay where there is no frame.
pub fn play_floats(
    file: &[u8],
    cells: &mut [u32; STATE_CELLS],
    ticks: u32,
    sides: u32,
    out: &mut [f32],
    pair: &mut [f32; 2],
    pair_tick: &mut u32,
) -> Answer {
    let (module, mut state) = match read(file, cells) {
        Ok(read) => read,
        Err(refusal) => return refusal,
    };
    if !one_or_two(sides) {
        return Answer::refused(24, 0);
    }
    let mut floats = Floats::new(out, sides);
    let played = play_ticks(&module, &mut state, ticks, &mut floats);
    floats.store_last(pair, pair_tick);
    state.write(cells);
    Answer::accepted(played as usize)
}

/// Plays what fits, up to `ticks`, from a state, and counts the ticks.
fn play_ticks(module: &Module, state: &mut State, ticks: u32, output: &mut impl Output) -> u32 {
    let mut played = 0;
    while played < ticks {
        let mut next = *state;
        work(module, &mut next);
        let length = tick_frames(next.tempo, next.remainder);
        if length > output.frames_left() {
            break;
        }
        output.take(played, length, frames(module, &mut next.voices));
        finish(&mut next);
        *state = next;
        played += 1;
    }
    played
}

pub fn change_page(file: &[u8], cells: &mut [u32; STATE_CELLS]) -> Answer {
    let mut state = match read(file, cells) {
        Ok((_, state)) => state,
        Err(refusal) => return refusal,
    };
    state.page = state.page.wrapping_add(1);
    state.write(cells);
    Answer::accepted(0)
}

/// One played tick: its place, its voices as they enter the frames, and its frames.
#[derive(Clone, Debug, PartialEq, Eq)]
pub struct Trace {
    pub position: u32,
    pub row: u32,
    pub tick: u32,
    pub tempo: u32,
    pub voices: [Voice; CHANNELS],
    pub frames: Vec<i16>,
}

impl Trace {
    /// The ends that the tick's voices come to; `file` is the module that it is of.
    pub fn ends(&self, file: &[u8]) -> Result<Vec<End>, Answer> {
        let module = Module::read(file)?;
        Ok(ends(&module, &self.voices, self.frames.len() / 2))
    }
}

/// Plays one tick and shows it; the cells hold the state after it.
pub fn trace_tick(file: &[u8], cells: &mut [u32; STATE_CELLS]) -> Result<Trace, Answer> {
    let (module, mut state) = read(file, cells)?;
    work(&module, &mut state);
    let length = tick_frames(state.tempo, state.remainder);
    let mut trace = Trace {
        position: state.position,
        row: state.row,
        tick: state.tick,
        tempo: state.tempo,
        voices: state.voices,
        frames: vec![0; 2 * length],
    };
    Numbers::new(&mut trace.frames).take(0, length, frames(&module, &mut state.voices));
    finish(&mut state);
    state.write(cells);
    Ok(trace)
}

/// The module and the state that a call was given, or their refusal.
pub fn read<'a>(file: &'a [u8], cells: &[u32; STATE_CELLS]) -> Result<(Module<'a>, State), Answer> {
    let module = Module::read(file)?;
    let state = State::read(cells, &module)?;
    Ok((module, state))
}
