//! Modules for the rows of breaks: D on most rows, often with a digit above 9.

use super::modules::{draft, Size};
use super::{cells, Random};
use crate::module::Cell;

/// A valid module that breaks on most of its rows, at times twice or beside a jump.
pub fn breaking(seed: u64) -> Vec<u8> {
    let mut random = Random::new(seed);
    let mut draft = draft(&mut random, Size::Small);
    for row in draft.rows() {
        if random.chance(75) {
            fill_row(&mut random, row);
        }
    }
    draft.bytes()
}

fn fill_row(random: &mut Random, row: &mut [Cell]) {
    for _ in 0..random.pick(&[1, 1, 2]) {
        let cell = cells::any(random, row);
        cell.effect = 0xD;
        cell.parameter = if random.chance(60) {
            past_nine(random)
        } else {
            cells::break_to(random) % 256
        };
    }
}

/// Two digits of which the lower is above 9; most of them name a row to 63.
fn past_nine(random: &mut Random) -> u32 {
    let x = random.edge_or(&[0, 1, 4, 5, 5, 5, 6, 15], 0, 5);
    16 * x + random.edge_or(&[10, 13, 14, 15], 10, 15)
}
