//! Streams as they arrive: whole ones, damaged ones and others than they declare, cut into pieces.

use super::streams::{bad_stream, damaged_stream, legal_stream};
use super::Random;

/// What is done to a byte that is damaged in turn.
const DAMAGES: [fn(u8) -> u8; 5] = [
    |byte| byte.wrapping_add(1),
    |byte| byte.wrapping_sub(1),
    |byte| byte ^ 0x80,
    |_| 0,
    |_| 255,
];

/// A stream to feed a board with, which is accepted, bad or damaged, and at times ends early, has
/// bytes over or declares another length; `file` is accepted.
pub fn arriving(seed: u64, file: &[u8]) -> Vec<u8> {
    let mut random = Random::new(seed);
    let seed = random.number();
    let mut stream = match random.below(10) {
        0..=4 => legal_stream(seed, file),
        5..=7 => bad_stream(seed, file).bytes,
        _ => damaged_stream(seed, &legal_stream(seed, file)),
    };
    match random.below(10) {
        0 => stream.truncate(random.below(stream.len() as u32 + 1) as usize),
        1 | 2 => {
            for _ in 0..random.edge_or(&[1, 2], 1, 60) {
                stream.push(random.pick(&[0, 1, 32, 125, 255]));
            }
        }
        3 => {
            let follow = other_length(&mut random, stream.len() as u32);
            stream = declaring(&stream, follow);
        }
        _ => {}
    }
    stream
}

/// A first number near 0 or near a stream's length, or a large one.
fn other_length(random: &mut Random, length: u32) -> u32 {
    match random.below(4) {
        0 => random.below(10),
        1 => random.below(length + 1),
        2 => (length + 3).saturating_sub(random.below(12)),
        _ => random.pick(&[length + 300, 1 << 31, u32::MAX]),
    }
}

/// The stream with this first number.
pub fn declaring(stream: &[u8], follow: u32) -> Vec<u8> {
    let mut stream = stream.to_vec();
    for (byte, declared) in stream.iter_mut().zip(follow.to_be_bytes()) {
        *byte = declared;
    }
    stream
}

/// The stream with each of its bytes damaged in turn, in every way that changes it.
pub fn each_damage(stream: &[u8]) -> Vec<Vec<u8>> {
    let mut all = Vec::new();
    for place in 0..stream.len() {
        for damage in DAMAGES {
            let mut damaged = stream.to_vec();
            damaged[place] = damage(stream[place]);
            if damaged[place] != stream[place] {
                all.push(damaged);
            }
        }
    }
    all
}

/// The stream with each first number from 0 to three more than its length.
pub fn each_length(stream: &[u8]) -> Vec<Vec<u8>> {
    let follows = 0..=stream.len() as u32 + 3;
    follows.map(|follow| declaring(stream, follow)).collect()
}

/// The lengths of the pieces in which so many bytes arrive: all at once, one byte each, or any,
/// often with empty ones among them.
pub fn pieces(seed: u64, length: usize) -> Vec<usize> {
    let mut random = Random::new(seed);
    let longest = match random.below(5) {
        0 => return vec![length],
        1 => return vec![1; length],
        2 => 3,
        3 => 12,
        _ => length.max(1) as u32,
    };
    let mut pieces = Vec::new();
    let mut left = length;
    while left > 0 {
        let any = random.between(1, longest) as usize;
        let piece = if random.chance(15) { 0 } else { any.min(left) };
        pieces.push(piece);
        left -= piece;
    }
    pieces
}
