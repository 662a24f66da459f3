//! Modules whose voices come to their samples' ends at chosen frames: those of a side in one frame
//! or within five of one of them, on a tick's first and last frame, and over and over in loops
//! of two words. How long the samples are follows from the rule of the step.

use super::draft::{Draft, Header};
use super::Random;
use crate::module::{HIGHEST_NOTE, LOWEST_NOTE, SAMPLES};
use crate::voice::{growth, is_left, CHANNELS};

/// Frames by which the ends of a side's voices are apart from one of them at most.
const FARTHEST: u32 = 5;
/// The fewest steps that take a voice through two bytes, at the lowest period.
const FEWEST_STEPS: u32 = 4;

/// A sample that a note plays to its end.
struct Note {
    period: u32,
    header: Header,
    /// Steps from its start to the end.
    steps: u32,
}

/// A valid module at one tempo. Where an end lies in its tick holds for the first time through, from
/// fresh; how near another it lies holds in every play.
pub fn ends(seed: u64) -> Vec<u8> {
    let mut random = Random::new(seed);
    let mut draft = Draft::any(&mut random);
    // Each voice of a row has a sample of its own.
    let rows = SAMPLES / draft.channels();
    let tempo = random.pick(&[32, 33, 125, 254, 255, 255]);
    let mut ticks = 0;
    for row in 0..rows {
        let speed = random.between(1, 3);
        let limits = limits(tempo, ticks, speed);
        let effects = effects(speed, tempo, row + 1 == rows);
        for left in [true, false] {
            let own = (0..draft.channels()).filter(|&channel| is_left(channel) == left);
            let own: Vec<usize> = own.collect();
            for (channel, note) in own.iter().zip(side(&mut random, own.len(), &limits)) {
                put(&mut draft, row, *channel, note, effects[*channel]);
            }
        }
        ticks += speed;
    }
    fill_bytes(&mut random, &mut draft);
    draft.bytes()
}

/// The frames of a row, from its first, at which its ticks begin, and at which the next row does.
fn limits(tempo: u32, ticks: u32, speed: u32) -> Vec<u32> {
    let begins = |tick: u32| 120_000 * tick / tempo;
    (ticks..=ticks + speed)
        .map(|tick| begins(tick) - begins(ticks))
        .collect()
}

/// The steps after which a voice that began at fraction 0 has gone on by so many bytes.
fn steps_to(bytes: u32, period: u32) -> u32 {
    (65_536 * u64::from(bytes)).div_ceil(growth(period).into()) as u32
}

/// The bytes by which so many steps go on.
fn bytes_in(steps: u32, period: u32) -> u32 {
    (u64::from(steps) * u64::from(growth(period)) / 65_536) as u32
}

/// A side's notes, whose ends are near that of one of them; at times one gives nothing.
fn side(random: &mut Random, voices: usize, limits: &[u32]) -> Vec<Note> {
    let steps = wanted(random, limits);
    let first = if random.chance(30) {
        at_edge(random, steps)
    } else {
        exact(random, steps)
    };
    let mut notes = vec![note(random, first)];
    while notes.len() < voices {
        let near = near(random, notes[0].steps);
        notes.push(near);
    }
    let second = &mut notes[1].header;
    match random.below(10) {
        0 => second.volume = 0,
        1 => (second.length, second.repeat) = (0, 0),
        _ => {}
    }
    notes.rotate_left(random.below(voices as u32) as usize);
    notes
}

/// A note whose end is near one after so many steps.
fn near(random: &mut Random, steps: u32) -> Note {
    let apart = random.pick(&[0, 0, 1, 2, 3, 4, FARTHEST]);
    let steps = if random.chance(50) {
        steps + apart
    } else {
        steps.saturating_sub(apart).max(FEWEST_STEPS)
    };
    let through = exact(random, steps);
    note(random, through)
}

/// Steps to an end: soon, in a tick's first frame, in a tick's last, or anywhere in the row.
fn wanted(random: &mut Random, limits: &[u32]) -> u32 {
    let last = limits.len() as u32 - 1;
    let tick = random.between(1, last) as usize;
    match random.below(4) {
        0 => random.between(FEWEST_STEPS, 50),
        1 if last > 1 => limits[random.between(1, last - 1) as usize] + 1,
        2 => limits[tick],
        _ => random.between(FEWEST_STEPS, limits[tick]),
    }
}

/// The lowest or the highest period, and the words that it goes through in at most so many steps.
fn at_edge(random: &mut Random, steps: u32) -> (u32, u32) {
    let period = random.pick(&[LOWEST_NOTE, HIGHEST_NOTE]);
    (period, (bytes_in(steps, period) / 2).max(1))
}

/// A period, often the lowest or the highest that will do, and the words that it goes through in
/// just so many steps.
fn exact(random: &mut Random, steps: u32) -> (u32, u32) {
    let first = random.between(LOWEST_NOTE, HIGHEST_NOTE);
    let edges = if random.chance(50) {
        [LOWEST_NOTE, HIGHEST_NOTE]
    } else {
        [first; 2]
    };
    edges
        .into_iter()
        .chain(first..=HIGHEST_NOTE)
        .chain(LOWEST_NOTE..first)
        .map(|period| (period, bytes_in(steps, period) / 2))
        .find(|&(period, words)| words > 0 && steps_to(2 * words, period) == steps)
        .unwrap_or((LOWEST_NOTE, 1))
}

/// A note that goes through so many words to its end, which stops it or is the end of a loop.
fn note(random: &mut Random, (period, words): (u32, u32)) -> Note {
    // A repeat length of 1 is no loop.
    let repeat = match random.below(8) {
        0..=2 => random.below(2),
        3..=5 => words.min(2),
        6 => words,
        _ => random.between(1, words),
    };
    let mut header = Draft::empty().headers.remove(0);
    header.volume = 64;
    header.length = words;
    header.repeat = repeat;
    if repeat > 1 {
        header.start = words - repeat;
        header.length += random.below(3);
    }
    Note {
        period,
        header,
        steps: steps_to(2 * words, period),
    }
}

/// Each channel's effect: the row's speed, the tempo, and after the last row the first again.
fn effects(speed: u32, tempo: u32, last: bool) -> [u32; CHANNELS] {
    let again = if last { 0xD00 } else { 0 };
    [0xF00 + speed, 0xF00 + tempo, again, 0, 0, 0, 0, 0]
}

/// Puts a note and its sample on the row's channel.
fn put(draft: &mut Draft, row: usize, channel: usize, note: Note, effect: u32) {
    let place = draft.channels() * row + channel;
    draft.headers[place] = note.header;
    draft.put(0, row, channel, place as u32 + 1, note.period, effect);
}

fn fill_bytes(random: &mut Random, draft: &mut Draft) {
    let words: u32 = draft.headers.iter().map(|header| header.length).sum();
    draft.sample_bytes = (0..2 * words).map(|_| random.byte()).collect();
}
