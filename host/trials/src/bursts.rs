//! Bursts of touches: answer, state and every answer cell, of both implementations, from fresh, legal and illegal states and on damaged
//! files; and of an accepted burst also against single touches in its order.
use crate::answers::{same_answer, same_cells, same_state};
use crate::files::file;
use crate::lent::Lent;
use crate::runs::{over, Tally};
use lampthistle::{State, MOST_TOUCHES};
use second::generate::bursts::{burst, Burst};
use second::generate::modules::{module, Size};
use second::generate::states::{illegal_state, legal_state};
use second::generate::Random;
use second::STATE_CELLS;

/// Bursts on one file, each from the state that the one before left.
const CALLS: u32 = 6;

/// Hands over bursts on `count` files from a seed on, to both. A difference is named by its seed.
pub fn compare(first: u64, count: u64) -> Result<Tally, String> {
    over(first, count, one)
}

fn one(seed: u64, tally: &mut Tally) -> Result<(), String> {
    let mut random = Random::new(seed ^ 0xB257);
    let file = file(&mut random, seed);
    let accepted = second::judge(&file).number == 0;
    let mut cells = match random.below(10) {
        0 => [random.number() as u32; STATE_CELLS],
        1 if accepted => illegal_state(random.number(), &file),
        2..=7 if accepted => legal_state(random.number(), &file),
        _ => second::fresh(),
    };
    for call in 0..CALLS {
        let burst = burst(random.number(), &file, &cells);
        let number = same(&file, &mut cells, &burst);
        let number = number.map_err(|what| format!("call {call}: {what}"))?;
        tally[number as usize] += 1;
        if number == 14 {
            cells = legal_state(random.number(), &file);
        }
    }
    Ok(())
}

/// Hands over good touches on `count` modules from a seed on: none, one and about as many as there may be, with each list as long as the
/// others, longer or shorter, and with as many answers, one more or less, and none.
pub fn compare_lengths(first: u64, count: u64) -> Result<Tally, String> {
    over(first, count, |seed, tally| {
        let file = module(seed, Size::Small);
        for (lengths, answers) in all_lengths() {
            let mut cells = legal_state(seed, &file);
            let burst = of_lengths(&cells, lengths, answers);
            tally[same(&file, &mut cells, &burst)? as usize] += 1;
        }
        Ok(())
    })
}

/// The lengths of the three lists, and of the answers.
fn all_lengths() -> Vec<([usize; 3], usize)> {
    let near = |length: usize| [length, length + 1, length.saturating_sub(1), 0];
    let mut all = Vec::new();
    for touches in [0, 1, 2, MOST_TOUCHES - 1, MOST_TOUCHES, MOST_TOUCHES + 1] {
        for list in 0..3 {
            for length in near(touches) {
                let mut lengths = [touches; 3];
                lengths[list] = length;
                let answers = near(touches.max(length));
                all.extend(answers.map(|answers| (lengths, answers)));
            }
        }
    }
    all
}

/// Good touches for a state, in lists of these lengths.
fn of_lengths(cells: &[u32; STATE_CELLS], lengths: [usize; 3], answers: usize) -> Burst {
    let state = State(*cells);
    let [pages, mades, positions] = lengths;
    Burst {
        pages: vec![state.page(); pages],
        mades: vec![state.clock(); mades],
        positions: vec![0; positions],
        answers,
    }
}

/// The number that both answer; the state goes on.
fn same(file: &[u8], cells: &mut [u32; STATE_CELLS], burst: &Burst) -> Result<u64, String> {
    let Burst {
        pages,
        mades,
        positions,
        answers,
    } = burst;
    let before = State(*cells);
    let (mut state, mut ours) = (before, Lent::new(*answers));
    let mut other = ours.clone();
    let answer = lampthistle::touch_burst(file, &mut state, pages, mades, positions, ours.part());
    let second = second::touch_burst(file, cells, pages, mades, positions, other.part());
    let number = same_answer(answer, second).and_then(|number| {
        same_state(&state, cells)?;
        same_cells("answers", ours.all(), other.all())?;
        let answered = &ours.part()[..answer.count as usize];
        singles(file, before, burst, answered, &state)?;
        Ok(number)
    });
    let lengths = [pages.len(), mades.len(), positions.len(), *answers];
    number.map_err(|what| format!("lists and answers of {lengths:?}: {what}"))
}

/// Nothing, if single touches from the state give these answers and leave this state.
fn singles(
    file: &[u8],
    mut state: State,
    burst: &Burst,
    answers: &[u32],
    after: &State,
) -> Result<(), String> {
    for (k, &number) in answers.iter().enumerate() {
        let (page, made, position) = (burst.pages[k], burst.mades[k], burst.positions[k]);
        let single = lampthistle::touch(file, &mut state, page, made, position);
        if single.number != u64::from(number) {
            return Err(format!("touch {k}: {number}, alone {}", single.number));
        }
    }
    same_state(after, &state.0)
}
