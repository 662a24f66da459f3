//! Tick lengths over long runs, at one tempo and with changes in every place of a row. The player plays in calls of any number of ticks;
//! the board plays the same ticks by version 3 and, where the module has four channels, by versions 2 and 1. Both implementations get buffers
//! that take the ticks exactly, or lack one number for the last: how long they are is taken from the tempos alone, by a rule that neither of
//! them uses.
use crate::answers::{same_answer, same_cells, same_state};
use crate::files::UNEVEN;
use crate::lent::Lent;
use crate::runs::{over, Tally};
use lampthistle::State;
use second::generate::streams::older;
use second::generate::tempos::{changing, steady};
use second::generate::Random;

/// Ticks of one call at most.
const MOST_CALLED: u32 = 40;
/// The channels of the versions before 3.
const OLDER_CHANNELS: u32 = 4;

/// Plays `count` modules from a seed on, with both. A difference is named by its seed.
pub fn compare(first: u64, count: u64) -> Result<Tally, String> {
    over(first, count, one)
}

fn one(seed: u64, tally: &mut Tally) -> Result<(), String> {
    let mut random = Random::new(seed ^ 0x1E46);
    let (file, most) = match random.below(5) {
        0 => (changing(seed), 255),
        1 => at(seed, random.between(32, 255)),
        _ => at(seed, random.pick(&UNEVEN)),
    };
    // Two times at most until a tempo has given back all that it left over.
    let ticks = random.between(most, 2 * most);
    let list = second::tick_list(&file, ticks).map_err(|answer| format!("{answer:?}"))?;
    let tempos: Vec<u32> = list.iter().map(|tick| tick.tempo).collect();
    let lengths = by_time(&tempos);
    play(&mut random, &file, &lengths, tally)?;
    let stream = translated(&file, ticks)?;
    board(&stream, &file, &lengths, tally)?;
    if second::channels(&file) != OLDER_CHANNELS {
        return Ok(());
    }
    let drifting = tempos.iter().map(|&tempo| first_frames(1, tempo)).collect();
    for (version, lengths) in [(2, lengths), (1, drifting)] {
        board(&older(&stream, version), &file, &lengths, tally)
            .map_err(|what| format!("version {version}: {what}"))?;
    }
    Ok(())
}

fn at(seed: u64, tempo: u32) -> (Vec<u8>, u32) {
    (steady(seed, tempo), tempo)
}

/// The frames of the first ticks at a tempo.
fn first_frames(ticks: usize, tempo: u32) -> usize {
    120_000 * ticks / tempo as usize
}

/// The frames of each tick: of a run at one tempo the first k ticks have as many as their time says.
fn by_time(tempos: &[u32]) -> Vec<usize> {
    let runs = tempos.chunk_by(|one, other| one == other);
    runs.flat_map(|run| {
        (0..run.len()).map(|k| first_frames(k + 1, run[0]) - first_frames(k, run[0]))
    })
    .collect()
}

/// The numbers of these ticks.
fn numbers(lengths: &[usize]) -> usize {
    2 * lengths.iter().sum::<usize>()
}

/// Plays all ticks, in calls that ask for more than there is room for, and turns the page at times.
fn play(
    random: &mut Random,
    file: &[u8],
    lengths: &[usize],
    tally: &mut Tally,
) -> Result<(), String> {
    let (mut state, mut cells) = (lampthistle::fresh(), second::fresh());
    let mut left = lengths;
    while !left.is_empty() {
        let ticks = random.between(1, MOST_CALLED).min(left.len() as u32) as usize;
        let short = usize::from(random.chance(20));
        let room = numbers(&left[..ticks]) - short;
        let told = format!(
            "tick {}: room for {room} numbers",
            lengths.len() - left.len()
        );
        let count = called(&mut state, &mut cells, file, room, tally)
            .map_err(|what| format!("{told}: {what}"))?;
        if count != ticks - short {
            return Err(format!("{told}: {count} ticks, not {}", ticks - short));
        }
        left = &left[count..];
        if random.chance(20) {
            let answer = lampthistle::change_page(file, &mut state);
            same_answer(answer, second::change_page(file, &mut cells))?;
            same_state(&state, &cells)?;
        }
    }
    Ok(())
}

/// One call of each, with a room of so many numbers; the ticks that both played.
fn called(
    state: &mut State,
    cells: &mut [u32; second::STATE_CELLS],
    file: &[u8],
    room: usize,
    tally: &mut Tally,
) -> Result<usize, String> {
    let mut ours = Lent::new(room);
    let mut other = ours.clone();
    let answer = lampthistle::play(file, state, u32::MAX, ours.part());
    let second = second::play(file, cells, u32::MAX, other.part());
    tally[same_answer(answer, second)? as usize] += 1;
    same_state(state, cells)?;
    same_cells("buffer", ours.all(), other.all())?;
    Ok(answer.count as usize)
}

/// The stream that both write.
fn translated(file: &[u8], ticks: u32) -> Result<Vec<u8>, String> {
    let bytes = second::translate(file, ticks, &mut []).place as usize;
    let (mut ours, mut other) = (vec![0; bytes], vec![0; bytes]);
    let answer = lampthistle::translate(file, ticks, &mut ours);
    same_answer(answer, second::translate(file, ticks, &mut other))?;
    same_cells("stream", &ours, &other)?;
    Ok(ours)
}

/// Plays the stream into room for all its ticks, and into one number less.
fn board(stream: &[u8], file: &[u8], lengths: &[usize], tally: &mut Tally) -> Result<(), String> {
    for short in [0, 1] {
        let mut ours = Lent::new(numbers(lengths) - short);
        let mut other = ours.clone();
        let answer = lampthistle::play_stream(stream, file, ours.part());
        let second = second::play_stream(stream, file, other.part());
        tally[same_answer(answer, second)? as usize] += 1;
        same_cells("buffer", ours.all(), other.all())?;
        if answer.count as usize != lengths.len() - short {
            let (count, all) = (answer.count, lengths.len());
            return Err(format!("{count} of {all} ticks, room short by {short}"));
        }
    }
    Ok(())
}
