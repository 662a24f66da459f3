//! Seeded makers of files, states, boards, touches and streams; the same seed always makes the same.

pub mod arrivals;
mod bad_streams;
pub mod boards;
pub mod breaks;
pub mod bursts;
mod cells;
pub mod damage;
pub mod draft;
pub mod ends;
pub mod finetunes;
pub mod floats;
pub mod modules;
pub mod quiet;
mod random;
mod scenes;
pub mod states;
pub mod streams;
pub mod tempos;
pub mod touches;
pub mod waves;

pub use random::Random;

/// Bytes and the refusal they must get.
#[derive(Clone, Debug, PartialEq, Eq)]
pub struct Damaged {
    pub bytes: Vec<u8>,
    pub number: u64,
    pub place: u64,
}
