//! Bursts of touches, whose lists mostly belong together.

use super::touches::any_touch;
use super::Random;
use crate::module::Module;
use crate::STATE_CELLS;

/// The touches that one call takes at most.
const MOST: u32 = 64;

/// A burst's three lists, and the length of the answer list that it is lent.
#[derive(Clone, Debug, PartialEq, Eq)]
pub struct Burst {
    pub pages: Vec<u32>,
    pub mades: Vec<u32>,
    pub positions: Vec<u32>,
    pub answers: usize,
}

/// A burst, good or refused, for a state of a file, which may be refused itself.
pub fn burst(seed: u64, file: &[u8], state: &[u32; STATE_CELLS]) -> Burst {
    let mut random = Random::new(seed);
    let song_length = Module::read(file).map_or(1, |module| module.song_length);
    let mut burst = Burst {
        pages: Vec::new(),
        mades: Vec::new(),
        positions: Vec::new(),
        answers: 0,
    };
    for _ in 0..length(&mut random) {
        let touch = any_touch(&mut random, song_length, state);
        burst.pages.push(touch.page);
        burst.mades.push(touch.made);
        burst.positions.push(touch.position);
    }
    if random.chance(20) {
        part_lists(&mut random, &mut burst);
    }
    let longest = burst.pages.len().max(burst.mades.len());
    let longest = longest.max(burst.positions.len());
    burst.answers = answers(&mut random, longest);
    burst
}

fn length(random: &mut Random) -> u32 {
    if random.chance(10) {
        random.edge_or(&[MOST + 1, MOST + 2, 256 + MOST], MOST + 1, 200)
    } else {
        random.edge_or(&[0, 1, 2, 3, MOST - 1, MOST], 0, MOST)
    }
}

/// Makes one list or two shorter or longer than the others.
fn part_lists(random: &mut Random, burst: &mut Burst) {
    for _ in 0..random.between(1, 2) {
        let list = match random.below(3) {
            0 => &mut burst.pages,
            1 => &mut burst.mades,
            _ => &mut burst.positions,
        };
        let length = list.len() as u32;
        let other = [length + 1, length.saturating_sub(1), 0, MOST, MOST + 1];
        list.resize(random.pick(&other) as usize, 0);
    }
}

/// Room for the answers: exact, one short, none, or more.
fn answers(random: &mut Random, longest: usize) -> usize {
    match random.below(10) {
        0 => 0,
        1 | 2 => longest.saturating_sub(1),
        3..=6 => longest,
        _ => longest + random.between(1, 80) as usize,
    }
}
