//! Every finetune with every period: a row's first ticks from a state that holds it, with slides, waves and arpeggios, and with the note
//! itself where a cell may have it. Answer, state and every cell of the buffer, of both implementations.
use crate::answers::{same_answer, same_cells, same_state};
use crate::lent::Lent;
use crate::runs::{over, Tally};
use lampthistle::{cell, State};
use second::generate::draft::Draft;

const FINETUNES: u64 = 16;
/// The periods that a state may hold, and those of them that a cell may have.
const LEAST_PERIOD: u32 = 108;
const PERIODS: u64 = 800;
const NOTES: std::ops::RangeInclusive<u32> = 113..=856;
/// The pairs of a finetune and a period, each of which is a seed's.
pub const ALL: u64 = FINETUNES * PERIODS;

/// Effects of eight channels: on what the state holds, and beside a note.
const HELD: [[u32; 8]; 3] = [
    [0x100, 0x101, 0x1FF, 0x200, 0x201, 0x2FF, 0x30F, 0x501],
    [0xE10, 0xE11, 0xE1F, 0xE20, 0xE21, 0xE2F, 0xE50, 0xE58],
    [0x400, 0x40F, 0x40F, 0x600, 0x011, 0x07F, 0x0F0, 0x000],
];
const NOTED: [[u32; 8]; 2] = [
    [0x000, 0x012, 0x300, 0x5F0, 0x1FF, 0x2FF, 0x400, 0x4FF],
    [0xE10, 0xE1F, 0xE20, 0xE2F, 0xE50, 0xE57, 0xE58, 0xE5F],
];
/// Ticks of the row: t = 0, 1 and 2. Each has so many numbers at the tempo of a fresh state.
const TICKS: u32 = 3;
const NUMBERS: usize = 1_920;
/// Places of the sine's crests, up and down, on channels in turn.
const CRESTS: [u32; 2] = [16, 48];
/// What 3 and 5 slide to where the cell has no note, and by what 5 does.
const TARGET: u32 = 400;
const MEMORY: u32 = 3;

/// Plays `count` pairs of finetune and period from a seed on, with both. A difference is named by its seed.
pub fn compare(first: u64, count: u64) -> Result<Tally, String> {
    over(first, count, |seed, tally| {
        let finetune = (seed % FINETUNES) as u8;
        let period = LEAST_PERIOD + (seed / FINETUNES % PERIODS) as u32;
        let mut files: Vec<Vec<u8>> = HELD.map(|effects| row(finetune, 0, effects)).into();
        if NOTES.contains(&period) {
            files.extend(NOTED.map(|effects| row(finetune, period, effects)));
        }
        for file in files {
            let number = same(&file, period);
            let told = |what| format!("finetune {finetune}, period {period}: {what}");
            tally[number.map_err(told)? as usize] += 1;
        }
        Ok(())
    })
}

/// A module whose first row has an empty sample of this finetune on all channels, with a note or none.
fn row(finetune: u8, note: u32, effects: [u32; 8]) -> Vec<u8> {
    let mut draft = Draft::tagged(b"8CHN");
    draft.headers[0].finetune = finetune;
    for (channel, effect) in effects.into_iter().enumerate() {
        draft.put(0, 0, channel, 1, note, effect);
    }
    draft.bytes()
}

/// A state at the row's begin whose channels hold this period.
fn holding(period: u32) -> State {
    let mut state = lampthistle::fresh();
    for channel in 0..lampthistle::CHANNELS {
        let own = &mut state.0[cell::channel(channel)..];
        own[cell::PERIOD] = period;
        own[cell::TARGET] = TARGET;
        own[cell::SLIDE_MEMORY] = MEMORY;
        own[cell::VIBRATO_PLACE] = CRESTS[channel % 2];
    }
    state
}

/// The number that both answer, tick by tick; the state shows what each of them sounds.
fn same(file: &[u8], period: u32) -> Result<u64, String> {
    let mut state = holding(period);
    let mut cells = state.0;
    let mut ours = Lent::new(NUMBERS);
    let mut other = ours.clone();
    let mut number = 0;
    for _ in 0..TICKS {
        let answer = lampthistle::play(file, &mut state, 1, ours.part());
        number = same_answer(answer, second::play(file, &mut cells, 1, other.part()))?;
        same_state(&state, &cells)?;
    }
    same_cells("buffer", ours.all(), other.all())?;
    Ok(number)
}
