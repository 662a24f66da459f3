//! Why a channel is quiet: the answer of both implementations, for channels that are there and others, from fresh, legal and illegal states
//! and on damaged files.
use crate::answers::same_answer;
use crate::files::file;
use crate::runs::{over, Tally};
use lampthistle::{Answer, State};
use second::generate::quiet::{channel, hushed, quiet_state};
use second::generate::states::{illegal_state, legal_state};
use second::generate::Random;
use second::STATE_CELLS;

/// Channels that each state is asked for, with one of any number.
const CHANNELS: [u32; 11] = [0, 1, 2, 3, 4, 5, 6, 7, 8, 9, u32::MAX];

/// Asks on `count` files from a seed on, with both. A difference is named by its seed.
pub fn compare(first: u64, count: u64) -> Result<Tally, String> {
    tallied(first, count, |answer| Some(answer.number))
}

/// The same, with a tally of the causes by their numbers.
pub fn compare_causes(first: u64, count: u64) -> Result<Tally, String> {
    tallied(first, count, |answer| {
        answer.is_accepted().then_some(answer.count)
    })
}

/// A tally of what `counted` gives of each answer.
fn tallied(
    first: u64,
    count: u64,
    counted: impl Fn(&Answer) -> Option<u64> + Sync,
) -> Result<Tally, String> {
    over(first, count, |seed, tally| {
        for answer in one(seed)? {
            if let Some(number) = counted(&answer) {
                tally[number as usize] += 1;
            }
        }
        Ok(())
    })
}

/// The answers that both give on a seed's file and states.
fn one(seed: u64) -> Result<Vec<Answer>, String> {
    let mut random = Random::new(seed ^ 0x0E1E);
    let file = if random.chance(50) {
        hushed(seed)
    } else {
        file(&mut random, seed)
    };
    let mut answers = Vec::new();
    for cells in states(&mut random, &file) {
        for channel in CHANNELS.into_iter().chain([channel(random.number())]) {
            let answer = same(&file, &cells, channel);
            answers.push(answer.map_err(|what| format!("channel {channel}: {what}"))?);
        }
    }
    Ok(answers)
}

/// States of an accepted file: fresh, legal, illegal, and legal ones in which causes meet. On another file any numbers.
fn states(random: &mut Random, file: &[u8]) -> Vec<[u32; STATE_CELLS]> {
    let any = [random.number() as u32; STATE_CELLS];
    if second::judge(file).number != 0 {
        return vec![second::fresh(), any];
    }
    vec![
        second::fresh(),
        any,
        legal_state(random.number(), file),
        illegal_state(random.number(), file),
        quiet_state(random.number(), file),
        quiet_state(random.number(), file),
    ]
}

fn same(file: &[u8], cells: &[u32; STATE_CELLS], channel: u32) -> Result<Answer, String> {
    let asked = lampthistle::why_quiet(file, &State(*cells), channel);
    let answer = asked.map_or_else(Answer::from, Answer::from);
    same_answer(answer, second::why_quiet(file, cells, channel))?;
    Ok(answer)
}
