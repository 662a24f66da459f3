//! The checksum of trial records: FNV-1a of 64 bits (docs/FORMATS.md).
use std::fmt;

const BEGIN: u64 = 0xCBF2_9CE4_8422_2325;
const PRIME: u64 = 0x100_0000_01B3;

#[derive(Clone, Copy, PartialEq, Eq)]
pub struct Checksum(u64);

impl Checksum {
    /// The checksum of no bytes.
    pub fn new() -> Checksum {
        Checksum(BEGIN)
    }

    pub fn of(bytes: &[u8]) -> Checksum {
        let mut sum = Checksum::new();
        sum.add(bytes.iter().copied());
        sum
    }

    pub fn add(&mut self, bytes: impl IntoIterator<Item = u8>) {
        for byte in bytes {
            self.0 = (self.0 ^ u64::from(byte)).wrapping_mul(PRIME);
        }
    }

    /// A tick's numbers, as they stand in a .raw file.
    pub fn add_numbers(&mut self, numbers: &[i16]) {
        self.add(numbers.iter().flat_map(|number| number.to_le_bytes()));
    }

    /// The checksum that a record writes so.
    pub fn read(text: &str) -> Option<Checksum> {
        let small = |c: u8| matches!(c, b'0'..=b'9' | b'a'..=b'f');
        if text.len() != 16 || !text.bytes().all(small) {
            return None;
        }
        u64::from_str_radix(text, 16).ok().map(Checksum)
    }
}

impl fmt::Display for Checksum {
    fn fmt(&self, f: &mut fmt::Formatter) -> fmt::Result {
        write!(f, "{:016x}", self.0)
    }
}
