//! Translation and stream play, from the first tick on and from any other: answer and every cell of room and buffer, of both
//! implementations, on generated modules and on legal, bad and damaged streams, for the module's channels and for others.
use crate::answers::{same_answer, same_cells};
use crate::files::file;
use crate::lent::{length, Lent};
use crate::runs::{over, Tally};
use second::generate::modules::{module, Size};
use second::generate::streams::{bad_stream, damaged_stream, first_tick, legal_stream, older};
use second::generate::Random;

/// Plays of streams from their first tick on, and from any tick.
const WHOLES: usize = 2;
const PARTS: usize = 2;
/// Numbers that a buffer holds at most.
const MOST_NUMBERS: usize = 20_000;
/// Frames that are run before a part at most.
const MOST_BEFORE: usize = 60_000;
/// Bytes by which a room is longer than the stream at most.
const MOST_ROOM: usize = 300;
/// Ticks of most translations; few go to the limit and past it.
const MOST_TICKS: u32 = 150;
const LIMIT: u32 = 65_535;
/// Versions, and counts of channels that a stream may say, good ones and others.
const VERSIONS: [u8; 6] = [0, 1, 2, 3, 4, 255];
const COUNTS: [u8; 10] = [0, 1, 4, 5, 6, 7, 8, 9, 128, 255];

/// Translates and plays streams of `count` files from a seed on, with both. A difference is named by its seed.
pub fn compare(first: u64, count: u64) -> Result<Tally, String> {
    over(first, count, one)
}

/// Plays short streams on `count` modules from a seed on: of each version, with each count of channels or none, with too few bytes for a tick
/// count, without a tick, and with one that has each bit of the mask.
pub fn compare_counts(first: u64, count: u64) -> Result<Tally, String> {
    over(first, count, |seed, tally| {
        let mut random = Random::new(seed);
        let file = module(seed, Size::Small);
        for version in VERSIONS {
            for channels in COUNTS.map(Some).into_iter().chain([None]) {
                for stream in short_streams(version, channels) {
                    tally[same_stream(&mut random, &stream, &file, None)? as usize] += 1;
                }
            }
        }
        Ok(())
    })
}

fn short_streams(version: u8, channels: Option<u8>) -> Vec<Vec<u8>> {
    let head: Vec<u8> = [version].into_iter().chain(channels).collect();
    let with = |count: &[u8], record: &[u8]| with_length(&[&head[..], count, record].concat());
    let mut streams = vec![with(&[0, 0, 0], &[]), with(&[0, 0, 0, 0], &[])];
    for bit in 0..8 {
        let record = [1 << bit, 125, 0, 64, 1, 172, 1, 0];
        streams.push(with(&[0, 0, 0, 1], &record));
    }
    streams
}

/// These bytes after the count of them.
fn with_length(following: &[u8]) -> Vec<u8> {
    let length = following.len() as u32;
    [&length.to_be_bytes()[..], following].concat()
}

fn one(seed: u64, tally: &mut Tally) -> Result<(), String> {
    let mut random = Random::new(seed ^ 0x57AE);
    let file = file(&mut random, seed);
    let ticks = match random.below(100) {
        0 => random.pick(&[LIMIT - 1, LIMIT]),
        1..=4 => random.pick(&[LIMIT + 1, 2 * LIMIT + 2, u32::MAX]),
        5..=14 => random.below(3),
        _ => random.below(MOST_TICKS),
    };
    let stream = same_translation(&mut random, &file, ticks, tally)?;
    for play in 0..WHOLES + PARTS {
        let stream = any_stream(&mut random, &file, &stream);
        let from = (play >= WHOLES).then(|| any_tick(&mut random, &stream, &file));
        let number = same_stream(&mut random, &stream, &file, from)?;
        tally[number as usize] += 1;
    }
    Ok(())
}

/// The stream, which is empty where the translation is refused for all rooms.
fn same_translation(
    random: &mut Random,
    file: &[u8],
    ticks: u32,
    tally: &mut Tally,
) -> Result<Vec<u8>, String> {
    let exact = second::translate(file, ticks, &mut []).place as usize;
    let mut whole = Vec::new();
    for room in [exact, length(random, exact, MOST_ROOM)] {
        let mut ours = Lent::new(room);
        let mut other = ours.clone();
        let answer = lampthistle::translate(file, ticks, ours.part());
        let second = second::translate(file, ticks, other.part());
        let number = same_answer(answer, second)
            .and_then(|number| same_cells("room", ours.all(), other.all()).map(|()| number))
            .map_err(|what| format!("translate {ticks} ticks into {room} bytes: {what}"))?;
        tally[number as usize] += 1;
        if number == 0 {
            whole = ours.part()[..answer.count as usize].to_vec();
        }
    }
    Ok(whole)
}

pub(crate) fn any_stream(random: &mut Random, file: &[u8], translated: &[u8]) -> Vec<u8> {
    let accepted = second::judge(file).number == 0;
    let seed = random.number();
    match random.below(1_000) {
        0 => empty_records(random, file),
        1..=49 => (0..random.below(40)).map(|_| random.byte()).collect(),
        50..=99 => any_head(random),
        100..=149 => legal_stream(seed, &module(seed, Size::Small)),
        150..=299 => translated.to_vec(),
        300..=399 if !translated.is_empty() => older(translated, random.pick(&[1, 2])),
        400..=549 => damaged_stream(seed, translated),
        550..=699 if accepted => legal_stream(seed, file),
        700..=849 if accepted => bad_stream(seed, file).bytes,
        _ if accepted => damaged_stream(seed, &legal_stream(seed, file)),
        _ => translated.to_vec(),
    }
}

/// A stream as long as it says, of a few bytes that are mostly a good version and count.
fn any_head(random: &mut Random) -> Vec<u8> {
    let mut following = vec![random.pick(&VERSIONS), random.pick(&COUNTS)];
    for _ in 0..random.between(3, 14) {
        following.push(random.pick(&[0, 0, 0, 1, 125, 255]));
    }
    with_length(&following)
}

/// A stream of many records without a command, at times with one more or one less than it counts.
fn empty_records(random: &mut Random, file: &[u8]) -> Vec<u8> {
    let count = random.between(100_000, 2_000_000);
    let told = count + random.pick(&[0, 0, 0, 1]) - random.pick(&[0, 0, 0, 1]);
    let channels = second::channels(file) as u8;
    let mut following = match random.below(4) {
        0 => vec![random.pick(&[1, 2])],
        _ => vec![3, channels],
    };
    following.extend_from_slice(&told.to_be_bytes());
    for _ in 0..count {
        following.extend_from_slice(&[0, 255]);
    }
    with_length(&following)
}

/// The frames of the stream's ticks on this module; none where it is refused.
pub(crate) fn lengths(stream: &[u8], file: &[u8]) -> Vec<usize> {
    let decoded = second::decode(stream, second::channels(file));
    decoded.unwrap_or_default().lengths()
}

/// A tick to play from, of the stream's ticks or past them, but with few frames before it where it is to be played.
pub(crate) fn any_tick(random: &mut Random, stream: &[u8], file: &[u8]) -> u32 {
    let lengths = lengths(stream, file);
    let ticks = lengths.len() as u32;
    let near = sums_within(&lengths, MOST_BEFORE).count() as u32;
    match first_tick(random.number(), ticks) {
        from if from < ticks => from.min(near),
        past => past,
    }
}

/// The frames of all the stream's ticks from one on, or of as many as `most` takes.
pub(crate) fn lengths_within(stream: &[u8], file: &[u8], from: u32, most: usize) -> usize {
    let lengths = lengths(stream, file);
    let played = lengths.get(from as usize..).unwrap_or(&[]);
    sums_within(played, most).last().unwrap_or(0)
}

/// The frames of the first tick, of the first two and so on, as far as `most` takes them.
fn sums_within(lengths: &[usize], most: usize) -> impl Iterator<Item = usize> + '_ {
    lengths.iter().scan(0, move |sum, frames| {
        *sum += frames;
        (*sum <= most).then_some(*sum)
    })
}

/// Plays the stream, or its part from a tick on.
fn same_stream(
    random: &mut Random,
    stream: &[u8],
    file: &[u8],
    from: Option<u32>,
) -> Result<u64, String> {
    let exact = 2 * lengths_within(stream, file, from.unwrap_or(0), MOST_NUMBERS / 2);
    let mut ours = Lent::new(length(random, exact, MOST_NUMBERS));
    let mut other = ours.clone();
    let numbers = ours.part().len();
    let (answer, second) = match from {
        None => (
            lampthistle::play_stream(stream, file, ours.part()),
            second::play_stream(stream, file, other.part()),
        ),
        Some(from) => (
            lampthistle::play_stream_from(stream, file, from, ours.part()),
            second::play_stream_from(stream, file, from, other.part()),
        ),
    };
    same_answer(answer, second)
        .and_then(|number| same_cells("buffer", ours.all(), other.all()).map(|()| number))
        .map_err(|what| format!("{} into {numbers} numbers: {what}", told(stream, from)))
}

/// What is played: a stream, or its part from a tick on.
pub(crate) fn told(stream: &[u8], from: Option<u32>) -> String {
    let stream = format!("stream of {} bytes", stream.len());
    from.map_or(stream.clone(), |from| format!("{stream} from tick {from}"))
}
