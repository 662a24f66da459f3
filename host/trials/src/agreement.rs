//! The player and the board: playing N ticks from fresh, and translating N ticks and playing the stream, into equal buffers. Count and
//! every cell are the same; on a file that is refused both refuse alike and leave everything.
use crate::answers::same_cells;
use crate::files::file;
use crate::lent::{length, Lent};
use crate::runs::{over, Tally};
use lampthistle::{tick_numbers, Answer, MOST_TICKS};
use second::generate::modules::{draft, Size};
use second::generate::Random;

/// Numbers that a buffer holds at most, apart from whole plays.
const MOST_NUMBERS: usize = 30_000;
/// Bytes that a record takes at most, and that stand before the first.
const RECORD_BYTES: usize = 50;
const START_BYTES: usize = 10;

/// Plays and translates `count` files from a seed on. A difference is named by its seed.
pub fn compare(first: u64, count: u64) -> Result<Tally, String> {
    over(first, count, |seed, tally| {
        let mut random = Random::new(seed ^ 0xA62E);
        let file = file(&mut random, seed);
        let ticks = match random.below(40) {
            0 => MOST_TICKS,
            1..=3 => 0,
            4..=6 => 1,
            7..=9 => 2,
            10..=14 => random.below(MOST_TICKS) / 16,
            _ => random.below(100),
        };
        let exact = numbers_within(&file, ticks, MOST_NUMBERS);
        let room = length(&mut random, exact, MOST_NUMBERS);
        tally[same(&file, ticks, room)?.number as usize] += 1;
        Ok(())
    })
}

/// All 65,535 ticks of a module at tempo 255, into a buffer of so many frames; the ticks that both played.
pub fn compare_whole(seed: u64, frames: usize) -> Result<u64, String> {
    let mut draft = draft(&mut Random::new(seed), Size::Medium);
    for cell in draft.patterns.iter_mut().flatten() {
        if cell.effect == 0xF && cell.parameter > 31 {
            cell.parameter = 255;
        }
    }
    let first = usize::from(draft.table[0]);
    let opening = &mut draft.patterns[first][0];
    (opening.effect, opening.parameter) = (0xF, 255);
    let played = same(&draft.bytes(), MOST_TICKS, 2 * frames);
    let counted = played.map_err(|what| format!("whole {seed}: {what}"))?;
    counted.accepted().map_err(|refusal| refusal.to_string())
}

/// The numbers of the first `ticks` ticks, or of as many as `most` takes; 0 where the file is refused.
pub(crate) fn numbers_within(file: &[u8], ticks: u32, most: usize) -> usize {
    let mut state = lampthistle::fresh();
    let mut out = vec![0; most];
    let mut numbers = 0;
    for _ in 0..ticks {
        let before = state;
        if lampthistle::play(file, &mut state, 1, &mut out[numbers..]).count == 0 {
            break;
        }
        numbers += tick_numbers(&before, &state);
    }
    numbers
}

/// What both answer, or what differs.
fn same(file: &[u8], ticks: u32, numbers: usize) -> Result<Answer, String> {
    let told = format!("{ticks} ticks into {numbers} numbers");
    let mut player = Lent::new(numbers);
    let mut board = player.clone();
    let mut state = lampthistle::fresh();
    let played = lampthistle::play(file, &mut state, ticks, player.part());
    let streamed = through_stream(file, ticks, board.part());
    if played != streamed {
        return Err(format!("{told}: player {played:?}, board {streamed:?}"));
    }
    if !played.is_accepted() && state != lampthistle::fresh() {
        return Err(format!("{told}: a refusal changed the state"));
    }
    same_cells("buffer", player.all(), board.all()).map_err(|what| format!("{told}: {what}"))?;
    Ok(played)
}

/// The most bytes of a stream of so many ticks.
pub(crate) fn most_bytes(ticks: u32) -> usize {
    START_BYTES + RECORD_BYTES * ticks as usize
}

/// Translates and plays the stream; the answer of the last call that was made.
fn through_stream(file: &[u8], ticks: u32, out: &mut [i16]) -> Answer {
    let mut room = vec![0; most_bytes(ticks)];
    let translated = lampthistle::translate(file, ticks, &mut room);
    if !translated.is_accepted() {
        return translated;
    }
    lampthistle::play_stream(&room[..translated.count as usize], file, out)
}
