//! Frames as floats: answer, state, record and every cell of the buffer, bit for bit, of both implementations, from modules and from streams,
//! for sides that can be asked for and for others. What is played is also held to the 16-bit numbers of the same ticks.
pub mod boards;
mod exact;
pub mod numbers;

pub use exact::{is_mono, is_side};

use crate::answers::{same_answer, same_floats, same_state};
use crate::files::file;
use crate::lent::{length, Lent};
use crate::playing::{first_state, numbers_of};
use crate::runs::{over, Tally};
use crate::streaming::{any_stream, any_tick, lengths, lengths_within, told};
use lampthistle::{Answer, Pair, State};
use second::generate::floats::{opposite, record, sides, Record};
use second::generate::states::legal_state;
use second::generate::Random;
use second::STATE_CELLS;

/// Calls on one module, and plays of streams, from their first tick on and from any tick.
const CALLS: u32 = 5;
const WHOLES: u32 = 2;
const PARTS: u32 = 2;
/// Floats that a buffer holds at most, apart from exact lengths.
const MOST_FLOATS: usize = 12_000;
/// Ticks of a translation at most.
const MOST_TICKS: u32 = 60;
/// What is asked for in half of the calls.
const SIDES: [u32; 5] = [0, 1, 2, 3, u32::MAX];
/// A NaN that signals; those after it are NaNs, too.
const FIRST_NAN: u32 = 0x7F80_0001;

/// Plays on `count` files from a seed on, with both. A difference is named by its seed.
pub fn compare(first: u64, count: u64) -> Result<Tally, String> {
    over(first, count, one)
}

fn one(seed: u64, tally: &mut Tally) -> Result<(), String> {
    let mut random = Random::new(seed ^ 0xF10A);
    let file = any_file(&mut random, seed);
    let accepted = second::judge(&file).number == 0;
    let mut cells = first_state(&mut random, &file, accepted);
    for call in 0..CALLS {
        let number = same_play(&mut random, &file, &mut cells)
            .map_err(|what| format!("call {call}: {what}"))?;
        tally[number as usize] += 1;
        if number == 14 {
            cells = legal_state(random.number(), &file);
        }
    }
    let translated = translated(&file, random.below(MOST_TICKS));
    for play in 0..WHOLES + PARTS {
        let stream = any_stream(&mut random, &file, &translated);
        let from = (play >= WHOLES).then(|| any_tick(&mut random, &stream, &file));
        let number = same_stream(&mut random, &stream, &file, from)?;
        tally[number as usize] += 1;
    }
    Ok(())
}

/// Many modules have sides that are opposite, equal or the loudest.
fn any_file(random: &mut Random, seed: u64) -> Vec<u8> {
    if random.chance(30) {
        opposite(seed)
    } else {
        file(random, seed)
    }
}

fn asked(random: &mut Random) -> u32 {
    if random.chance(50) {
        random.pick(&SIDES)
    } else {
        sides(random.number())
    }
}

/// A buffer of NaNs, each another, in which so many frames for these sides may just fit.
fn lent(random: &mut Random, sides: u32, frames: usize) -> Lent<f32> {
    let exact = sides.clamp(1, 2) as usize * frames;
    let nan = |place: usize| f32::from_bits(FIRST_NAN + place as u32);
    Lent::filled(length(random, exact, MOST_FLOATS), nan)
}

/// The stream of so many ticks; empty where it is refused.
fn translated(file: &[u8], ticks: u32) -> Vec<u8> {
    let mut room = vec![0; second::translate(file, ticks, &mut []).place as usize];
    let count = second::translate(file, ticks, &mut room).count as usize;
    room.truncate(count);
    room
}

/// The same record for the library.
fn pair_of(held: &Record) -> Pair {
    let [left, right] = held.pair;
    Pair {
        left,
        right,
        tick: held.tick,
    }
}

fn same_record(ours: &Pair, other: &Pair) -> Result<(), String> {
    same_floats(
        "record",
        &[ours.left, ours.right],
        &[other.left, other.right],
    )?;
    if ours.tick == other.tick {
        return Ok(());
    }
    Err(format!("record's tick: {} and {}", ours.tick, other.tick))
}

fn same_play(
    random: &mut Random,
    file: &[u8],
    cells: &mut [u32; STATE_CELLS],
) -> Result<u64, String> {
    let ticks = match random.below(10) {
        0 => u32::MAX,
        1 => random.between(10, 60),
        _ => random.below(7),
    };
    let sides = asked(random);
    let mut ours = lent(random, sides, numbers_of(file, cells, ticks.min(60)) / 2);
    let mut other = ours.clone();
    let mut held = record(random.number());
    let (before, mut last) = (State(*cells), pair_of(&held));
    let (mut state, old) = (before, last);
    let told = format!(
        "play {ticks} ticks for {sides} sides into {} floats",
        ours.part().len()
    );
    let answer = lampthistle::play_floats(file, &mut state, ticks, sides, ours.part(), &mut last);
    let Record { pair, tick } = &mut held;
    let second = second::play_floats(file, cells, ticks, sides, other.part(), pair, tick);
    same_answer(answer, second)
        .and_then(|number| {
            same_state(&state, cells)?;
            same_floats("buffer", ours.all(), other.all())?;
            same_record(&last, &pair_of(&held))?;
            if number == 0 {
                let (numbers, after) = whole_numbers(file, &before, answer);
                same_state(&after, &state.0)?;
                divided(&numbers, sides, answer, ours.part(), &last, &old)?;
            }
            Ok(number)
        })
        .map_err(|what| format!("{told}: {what}"))
}

/// The 16-bit numbers of the ticks that were played, and the state after them.
fn whole_numbers(file: &[u8], before: &State, played: Answer) -> (Vec<i16>, State) {
    let ticks = played.count as u32;
    let mut numbers = vec![0; numbers_of(file, &before.0, ticks)];
    let mut state = *before;
    let again = lampthistle::play(file, &mut state, ticks, &mut numbers);
    assert_eq!(again, played, "as many ticks as 16-bit numbers");
    (numbers, state)
}

/// Whether the floats in front and the record are these numbers', frame by frame; without a frame the record is the old one.
fn divided(
    numbers: &[i16],
    sides: u32,
    answer: Answer,
    floats: &[f32],
    last: &Pair,
    old: &Pair,
) -> Result<(), String> {
    let frames = numbers.chunks_exact(2);
    for (k, (frame, float)) in frames.zip(floats.chunks_exact(sides as usize)).enumerate() {
        let (left, right) = (frame[0], frame[1]);
        let good = match float {
            [mono] => is_mono(*mono, left, right),
            _ => is_side(float[0], left) && is_side(float[1], right),
        };
        if !good {
            return Err(format!("frame {k}: {left} and {right} as {float:?}"));
        }
    }
    let good = match numbers {
        [] => same_record(last, old).is_ok(),
        [.., left, right] => {
            let tick = u64::from(last.tick) + 1 == answer.count;
            tick && is_side(last.left, *left) && is_side(last.right, *right)
        }
        _ => false,
    };
    if good {
        Ok(())
    } else {
        Err(format!("the record is {last:?} after {answer:?}"))
    }
}

/// Plays the stream, or its part from a tick on.
fn same_stream(
    random: &mut Random,
    stream: &[u8],
    file: &[u8],
    from: Option<u32>,
) -> Result<u64, String> {
    let sides = asked(random);
    let frames = lengths_within(stream, file, from.unwrap_or(0), MOST_FLOATS / 2);
    let mut ours = lent(random, sides, frames);
    let mut other = ours.clone();
    let mut held = record(random.number());
    let (mut last, old) = (pair_of(&held), pair_of(&held));
    let (out, Record { pair, tick }) = (ours.part(), &mut held);
    let room = out.len();
    let (answer, second) = match from {
        None => (
            lampthistle::play_stream_floats(stream, file, sides, out, &mut last),
            second::play_stream_floats(stream, file, sides, other.part(), pair, tick),
        ),
        Some(from) => (
            lampthistle::play_stream_floats_from(stream, file, from, sides, out, &mut last),
            second::play_stream_floats_from(stream, file, from, sides, other.part(), pair, tick),
        ),
    };
    same_answer(answer, second)
        .and_then(|number| {
            same_floats("buffer", ours.all(), other.all())?;
            same_record(&last, &pair_of(&held))?;
            if number == 0 {
                let numbers = streamed_numbers(stream, file, from, answer);
                divided(&numbers, sides, answer, ours.part(), &last, &old)?;
            }
            Ok(number)
        })
        .map_err(|what| {
            let told = told(stream, from);
            format!("{told} for {sides} sides into {room} floats: {what}")
        })
}

/// The 16-bit numbers of the stream's ticks that were played.
fn streamed_numbers(stream: &[u8], file: &[u8], from: Option<u32>, played: Answer) -> Vec<i16> {
    let lengths = lengths(stream, file);
    let ticks = lengths.iter().skip(from.unwrap_or(0) as usize);
    let frames: usize = ticks.take(played.count as usize).sum();
    let mut numbers = vec![0; 2 * frames];
    let again = match from {
        None => lampthistle::play_stream(stream, file, &mut numbers),
        Some(from) => lampthistle::play_stream_from(stream, file, from, &mut numbers),
    };
    assert_eq!(again, played, "as many ticks as 16-bit numbers");
    numbers
}
