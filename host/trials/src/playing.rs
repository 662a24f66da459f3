//! Playing, touches and page changes: answer, state and every cell of the buffer, of both implementations, over calls that follow one
//! another on one module, from fresh, legal and illegal states and on damaged files.
use crate::answers::{same_answer, same_cells, same_state};
use crate::files::file;
use crate::lent::{length, Lent};
use crate::runs::{over, Tally};
use lampthistle::{cell, tick_numbers, State};
use second::generate::states::{illegal_state, legal_state};
use second::generate::touches::{touch, Touch};
use second::generate::Random;
use second::STATE_CELLS;

/// Calls on one module.
const CALLS: u32 = 6;
/// Numbers that a buffer holds at most, apart from exact lengths.
const MOST_NUMBERS: usize = 12_000;

/// Plays on `count` files from a seed on, with both. A difference is named by its seed.
pub fn compare(first: u64, count: u64) -> Result<Tally, String> {
    over(first, count, one)
}

fn one(seed: u64, tally: &mut Tally) -> Result<(), String> {
    let mut random = Random::new(seed ^ 0x97A7);
    let file = file(&mut random, seed);
    let accepted = second::judge(&file).number == 0;
    let mut cells = first_state(&mut random, &file, accepted);
    for call in 0..CALLS {
        let number = match random.below(10) {
            0 => same_page(&file, &mut cells),
            1..=3 => same_touch(&mut random, &file, &mut cells, accepted),
            _ => same_play(&mut random, &file, &mut cells),
        }
        .map_err(|what| format!("call {call}: {what}"))?;
        tally[number as usize] += 1;
        if number == 14 {
            cells = legal_state(random.number(), &file);
        }
    }
    Ok(())
}

pub(crate) fn first_state(random: &mut Random, file: &[u8], accepted: bool) -> [u32; STATE_CELLS] {
    match random.below(10) {
        0 => [random.number() as u32; STATE_CELLS],
        1 | 2 if accepted => illegal_state(random.number(), file),
        3..=6 if accepted => legal_state(random.number(), file),
        _ => second::fresh(),
    }
}

fn same_play(
    random: &mut Random,
    file: &[u8],
    cells: &mut [u32; STATE_CELLS],
) -> Result<u64, String> {
    let ticks = match random.below(10) {
        0 => u32::MAX,
        1 => random.between(10, 60),
        _ => random.below(7),
    };
    let exact = numbers_of(file, cells, ticks.min(60));
    let first = numbers_of(file, cells, 1);
    let mut ours = Lent::new(length(random, exact, MOST_NUMBERS));
    let mut other = ours.clone();
    let before = State(*cells);
    let mut state = before;
    let told = format!("play {ticks} ticks into {} numbers", ours.part().len());
    let answer = lampthistle::play(file, &mut state, ticks, ours.part());
    let second = second::play(file, cells, ticks, other.part());
    same_answer(answer, second)
        .and_then(|number| {
            same_state(&state, cells)?;
            same_cells("buffer", ours.all(), other.all())?;
            let told = tick_numbers(&before, &state);
            if answer.count == 1 && told != first {
                return Err(format!("a tick of {first} numbers, told as {told}"));
            }
            Ok(number)
        })
        .map_err(|what| format!("{told}: {what}"))
}

/// The numbers that so many ticks take; 0 where they are refused.
pub(crate) fn numbers_of(file: &[u8], cells: &[u32; STATE_CELLS], ticks: u32) -> usize {
    let mut cells = *cells;
    let tick = |_| second::trace_tick(file, &mut cells).map_or(0, |trace| trace.frames.len());
    (0..ticks).map(tick).sum()
}

fn same_touch(
    random: &mut Random,
    file: &[u8],
    cells: &mut [u32; STATE_CELLS],
    accepted: bool,
) -> Result<u64, String> {
    let touch = if accepted {
        touch(random.number(), file, cells)
    } else {
        Touch {
            page: cells[cell::PAGE],
            made: cells[cell::CLOCK],
            position: random.below(3),
        }
    };
    let mut state = State(*cells);
    let Touch {
        page,
        made,
        position,
    } = touch;
    let answer = lampthistle::touch(file, &mut state, page, made, position);
    let second = second::touch(file, cells, page, made, position);
    same_answer(answer, second)
        .and_then(|number| same_state(&state, cells).map(|()| number))
        .map_err(|what| format!("{touch:?}: {what}"))
}

fn same_page(file: &[u8], cells: &mut [u32; STATE_CELLS]) -> Result<u64, String> {
    let mut state = State(*cells);
    let answer = lampthistle::change_page(file, &mut state);
    let second = second::change_page(file, cells);
    same_answer(answer, second)
        .and_then(|number| same_state(&state, cells).map(|()| number))
        .map_err(|what| format!("page change: {what}"))
}
