//! The player and the board as floats: playing N ticks from fresh, and translating N ticks and playing the stream, whole and in two parts, for
//! the same sides, into equal buffers and with equal records. Count, record and every cell are the same; where a call is refused all refuse
//! alike and leave everything.
use super::{any_file, asked, lent, pair_of, same_record};
use crate::agreement::{most_bytes, numbers_within};
use crate::answers::same_floats;
use crate::lent::Lent;
use crate::runs::{over, Tally};
use crate::streaming::lengths;
use lampthistle::{Answer, Pair, MOST_TICKS};
use second::generate::floats::record;
use second::generate::Random;

/// Numbers of a whole play at most.
const MOST_NUMBERS: usize = 24_000;

/// Plays and translates `count` files from a seed on. A difference is named by its seed.
pub fn compare(first: u64, count: u64) -> Result<Tally, String> {
    over(first, count, |seed, tally| {
        let mut random = Random::new(seed ^ 0xF1A6);
        let file = any_file(&mut random, seed);
        let ticks = match random.below(40) {
            0 => MOST_TICKS,
            1..=3 => random.below(3),
            _ => random.below(60),
        };
        let sides = asked(&mut random);
        let mut out = lent(
            &mut random,
            sides,
            numbers_within(&file, ticks, MOST_NUMBERS) / 2,
        );
        let cut = random.below(out.part().len() as u32 + 1) as usize;
        let last = pair_of(&record(random.number()));
        let answer = same(&file, ticks, sides, out, cut, last)
            .map_err(|what| format!("{ticks} ticks for {sides} sides: {what}"))?;
        tally[answer.number as usize] += 1;
        Ok(())
    })
}

/// What all answer, or what differs.
fn same(
    file: &[u8],
    ticks: u32,
    sides: u32,
    out: Lent<f32>,
    cut: usize,
    last: Pair,
) -> Result<Answer, String> {
    let (mut player, mut own) = (out.clone(), last);
    let mut state = lampthistle::fresh();
    let played = lampthistle::play_floats(file, &mut state, ticks, sides, player.part(), &mut own);
    let stream = translated(file, ticks);
    for cut in [None, Some(cut)] {
        let (mut board, mut its) = (out.clone(), last);
        let streamed = match &stream {
            Ok(stream) => on_board(stream, file, sides, cut, board.part(), &mut its),
            Err(refusal) => *refusal,
        };
        if played != streamed {
            let how = cut.map_or("whole".into(), |cut| format!("cut at {cut}"));
            return Err(format!("player {played:?}, board {how} {streamed:?}"));
        }
        same_floats("buffer", player.all(), board.all())?;
        same_record(&own, &its)?;
    }
    if !played.is_accepted() {
        same_floats("refused buffer", player.all(), out.all())?;
        same_record(&own, &last)?;
        if state != lampthistle::fresh() {
            return Err("a refusal changed the state".into());
        }
    }
    Ok(played)
}

/// The stream of so many ticks, or the translation's refusal.
fn translated(file: &[u8], ticks: u32) -> Result<Vec<u8>, Answer> {
    let mut room = vec![0; most_bytes(ticks)];
    let answer = lampthistle::translate(file, ticks, &mut room);
    if !answer.is_accepted() {
        return Err(answer);
    }
    room.truncate(answer.count as usize);
    Ok(room)
}

/// Plays the stream in one call, or its first ticks into so many floats and then those that follow behind them, and answers for both.
fn on_board(
    stream: &[u8],
    file: &[u8],
    sides: u32,
    cut: Option<usize>,
    out: &mut [f32],
    last: &mut Pair,
) -> Answer {
    let Some(cut) = cut else {
        return lampthistle::play_stream_floats(stream, file, sides, out, last);
    };
    let front = &mut out[..cut];
    let first = lampthistle::play_stream_floats_from(stream, file, 0, sides, front, last);
    let ticks = first.count as u32;
    let frames: usize = lengths(stream, file).iter().take(ticks as usize).sum();
    let rest = &mut out[sides as usize * frames..];
    let mut both = lampthistle::play_stream_floats_from(stream, file, ticks, sides, rest, last);
    if both.count > 0 {
        last.tick += ticks;
    }
    both.count += first.count;
    both
}
