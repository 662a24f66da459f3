//! For frames as floats: sides asked, records held before, and modules whose sides are often
//! opposite, equal or the loudest.

use super::cells::{self, with_effect};
use super::draft::Draft;
use super::Random;
use crate::module::Cell;

/// Bits of floats that are easily lost: NaNs, quiet and signalling, infinities, negative zero,
/// the smallest numbers.
const FRAIL_BITS: [u32; 9] = [
    0x7FC0_0000,
    0xFFC0_0001,
    0x7F80_0001,
    0xFFBF_FFFF,
    0x7F80_0000,
    0xFF80_0000,
    0x8000_0000,
    0x0000_0001,
    0xFFFF_FFFF,
];

/// The sides that a call asks for, mostly 1 or 2.
pub fn sides(seed: u64) -> u32 {
    let mut random = Random::new(seed);
    if random.chance(80) {
        random.pick(&[1, 2])
    } else {
        random.pick(&[0, 3, 4, 257, 65_538, 1 << 31, u32::MAX - 1, u32::MAX])
    }
}

/// What a caller's record held before the call.
#[derive(Clone, Copy, Debug)]
pub struct Record {
    pub pair: [f32; 2],
    pub tick: u32,
}

/// Any record; many hold NaNs.
pub fn record(seed: u64) -> Record {
    let mut random = Random::new(seed);
    Record {
        pair: [float(&mut random), float(&mut random)],
        tick: random.edge_or(&[0, 1, u32::MAX], 0, 1_000),
    }
}

fn float(random: &mut Random) -> f32 {
    if random.chance(70) {
        f32::from_bits(random.pick(&FRAIL_BITS))
    } else {
        f32::from_bits(random.number() as u32)
    }
}

/// A valid module of two looped samples, one the other's opposite, that mostly start together.
pub fn opposite(seed: u64) -> Vec<u8> {
    let mut random = Random::new(seed);
    let mut draft = Draft::any(&mut random);
    let bytes = loud_bytes(&mut random);
    let opposites: Vec<u8> = bytes.iter().map(|byte| byte.wrapping_neg()).collect();
    let words = bytes.len() as u32 / 2;
    draft.add_looped(1, 64, 0, words, &bytes);
    draft.add_looped(2, 64, 0, words, &opposites);
    for row in draft.rows() {
        if random.chance(60) {
            fill_row(&mut random, row);
        }
    }
    let last = draft.channels() - 1;
    draft.put(0, 0, last, 1, 113, 0xF00 + random.between(1, 3));
    draft.bytes()
}

/// An even number of bytes, often the largest of both signs.
fn loud_bytes(random: &mut Random) -> Vec<u8> {
    let extreme = random.pick(&[0, 50, 100]);
    let mut bytes = Vec::new();
    for _ in 0..2 * random.between(2, 60) {
        if random.chance(extreme) {
            bytes.push(random.pick(&[127, 128, 128, 129, 1, 255]));
        } else {
            bytes.push(random.byte());
        }
    }
    bytes
}

/// Notes at one period and one volume: sides that are opposite, equal, silent, or anything. Each
/// four channels have the same samples, and the same sides.
fn fill_row(random: &mut Random, row: &mut [Cell]) {
    let samples = match random.below(4) {
        0 | 1 => [1, 2, 2, 1],
        2 => [1, 1, 1, 1],
        _ => [random.pick(&[1, 2]), 0, 2, random.pick(&[0, 1])],
    };
    let period = cells::period(random);
    let volume = random.edge_or(&[0, 1, 64, 64], 0, 64);
    for (cell, sample) in row.iter_mut().zip(samples.into_iter().cycle()) {
        *cell = with_effect(sample, period, 0xC00 + volume);
    }
}
