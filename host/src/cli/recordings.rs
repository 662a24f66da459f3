//! compare SOUND SOUND: two recordings, number by number.
use super::compare::LOOK_AHEAD;
use super::compared::{Compared, End, Pair};
use super::input;
use super::number::{Kind, Number};
use super::offset::{Beginning, Offset};
use super::recording::{self, Recording};
use super::sound::Format;
use super::stop::Stop;
use super::tally::{Place, Tally};
use super::words::Words;
use std::ffi::OsStr;

/// Frames that are compared at once.
const PIECE: usize = 1 << 12;

/// Compares the first, of this format, with the second.
pub fn run<N: Number>(
    words: &Words,
    kind: Kind,
    (first, format): (&OsStr, Format),
    second: Option<&OsStr>,
    offset: Offset,
) -> Result<bool, Stop> {
    let Some(second) = second else {
        return Err(Stop::Usage("no SOUND to compare it with".into()));
    };
    if words.value("--ticks").is_some() || words.has("--once") {
        return Err(Stop::Usage("--ticks and --once ask for a module".into()));
    }
    input::check_once(&[first, second])?;
    let mut other = input::open(second)?;
    let Some(other_format) = recording::format(second, &mut other)? else {
        return Err(Stop::Usage("a module comes before its recording".into()));
    };
    let mut first = Recording::<N>::of(input::open(first)?, format, kind)?;
    let mut other = Recording::<N>::of(other, other_format, kind)?;
    let ahead = LOOK_AHEAD * kind.sides();
    let ahead = (first.look_ahead(ahead)?, other.look_ahead(ahead)?);
    let frames = offset.frames(|| Ok(search_recordings(kind, &ahead)))?;
    let mut compared = compare_recordings(kind, &mut first, &mut other, frames)?;
    if compared.is_unexplained() && frames.is_none() {
        compared.found = search_recordings(kind, &ahead).filter(|&frames| frames != 0);
    }
    let pair = Pair {
        file: &first.name,
        other: &other.name,
        length: None,
    };
    pair.tell(words, &compared)
}

/// The frame of the first of two beginnings at which the other sets in, below 0 where the first sets in within the other.
fn search_recordings<N: Number>(kind: Kind, (first, other): &(Vec<N>, Vec<N>)) -> Option<i64> {
    let within = |one: &[N], another: &[N]| {
        let search = Beginning::of(one, kind.sides())?.search(|heard| -> Result<bool, ()> {
            heard.extend_from_slice(another);
            Ok(false)
        });
        search.ok().flatten()
    };
    within(other, first).or_else(|| within(first, other).map(|frames| -frames))
}

fn compare_recordings<N: Number>(
    kind: Kind,
    first: &mut Recording<N>,
    other: &mut Recording<N>,
    offset: Option<i64>,
) -> Result<Compared, Stop> {
    let (numbers, sides) = (PIECE * kind.sides(), kind.sides());
    let mut compared = Compared::new(Tally::new(kind), offset);
    let skip = compared.skip(&mut |numbers| Ok(other.next(numbers)?.len()), sides)?;
    let mut left = skip;
    while left > 0 {
        let gone = first.next(left.min(PIECE) * sides)?.len() / sides;
        if gone == 0 {
            break;
        }
        left -= gone;
    }
    let mut at = skip as u64;
    loop {
        let one = first.next(numbers)?;
        let heard = other.next(numbers)?;
        if one.is_empty() && heard.is_empty() {
            return Ok(compared);
        }
        let both = one.len().min(heard.len());
        let place = Place {
            tick: None,
            frame: at,
            from_begin: at,
        };
        compared.add(place, &one[..both], &heard[..both], false);
        at += (both / sides) as u64;
        if one.len() != heard.len() {
            compared.end = Some(match one.len() < heard.len() {
                true => End::GoesOn(at),
                false => End::Ends(at),
            });
            return Ok(compared);
        }
    }
}
