//! What the tests of generated inputs share.

use second::generate::modules::{module, Size};
use second::generate::Random;
use second::{channels, translate, Answer, Stream, STATE_CELLS};

pub const UNTOUCHED: i16 = 12_345;

pub type Cells = [u32; STATE_CELLS];

/// Cells of the state.
pub const CLOCK: usize = 11;
pub const PAGE: usize = 12;

pub fn refused(number: u64, place: u64) -> Answer {
    Answer {
        number,
        place,
        count: 0,
    }
}

pub fn accepted(count: u64) -> Answer {
    Answer {
        number: 0,
        place: 0,
        count,
    }
}

/// A valid module, seldom a large one.
pub fn file(seed: u64) -> Vec<u8> {
    let size = match seed % 20 {
        0 => Size::Large,
        1..=6 => Size::Medium,
        _ => Size::Small,
    };
    module(seed, size)
}

/// The stream of a module's first ticks.
pub fn translated(file: &[u8], ticks: u32) -> Vec<u8> {
    // Ten bytes, and for each tick two and six a channel at most.
    let mut room = vec![0; 10 + 50 * ticks as usize];
    let answer = translate(file, ticks, &mut room);
    assert_eq!(answer.number, 0, "the file is accepted");
    room.truncate(answer.count as usize);
    room
}

/// The bytes of a row's cells.
pub fn row(file: &[u8], position: u32, row: u32) -> &[u8] {
    let row_bytes = 4 * channels(file) as usize;
    let pattern = usize::from(file[952 + position as usize]);
    let place = 1_084 + row_bytes * (64 * pattern + row as usize);
    &file[place..place + row_bytes]
}

/// A length for the buffer of a play: none, tiny, odd, exact, one short or larger.
pub fn buffer_length(random: &mut Random, exact: usize) -> usize {
    match random.below(8) {
        0 => random.below(4) as usize,
        1 => random.below(exact as u32 + 1) as usize | 1,
        2 => exact.saturating_sub(1),
        3 => exact + random.between(1, 3_000) as usize,
        4 => random.below(exact as u32 + 1) as usize,
        _ => exact,
    }
}

/// The frames of ticks at these tempos, the first with remainder 0. At one tempo the first k ticks
/// have (120,000 × k) div tempo of them.
pub fn lengths(tempos: &[u32]) -> Vec<usize> {
    let mut lengths = Vec::new();
    for run in tempos.chunk_by(|one, other| one == other) {
        let tempo = run[0] as usize;
        let first = |ticks: usize| 120_000 * ticks / tempo;
        lengths.extend((0..run.len()).map(|tick| first(tick + 1) - first(tick)));
    }
    lengths
}

/// The frames of a stream's ticks, by its version.
pub fn stream_lengths(stream: &Stream) -> Vec<usize> {
    let tempos: Vec<u32> = stream.ticks.iter().map(|tick| tick.tempo).collect();
    if stream.version == 1 {
        tempos
            .iter()
            .map(|&tempo| 120_000 / tempo as usize)
            .collect()
    } else {
        lengths(&tempos)
    }
}

/// The largest number of whole ticks that fit, and the numbers they fill.
pub fn fitting(lengths: &[usize], sides: usize, room: usize) -> (usize, usize) {
    let mut filled = 0;
    for (ticks, frames) in lengths.iter().enumerate() {
        if filled + sides * frames > room {
            return (ticks, filled);
        }
        filled += sides * frames;
    }
    (lengths.len(), filled)
}
