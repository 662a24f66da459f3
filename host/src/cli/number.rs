//! The numbers that frames are made of: whole 16-bit ones for two sides, or floats for one side or two.
use super::json::Value;
use super::stop::Stop;
use super::words::Words;
use lampthistle::{Answer, Pair, State, MONO, STEREO};

/// The options that ask for floats.
pub const FLOAT: &str = "--float";
pub const MONO_FLAG: &str = "--mono";

/// What a sound's frames are made of.
#[derive(Clone, Copy, PartialEq, Eq)]
pub enum Kind {
    /// Left and right, whole 16-bit numbers.
    Whole,
    /// Floats, for so many sides.
    Floats(u32),
}

impl Kind {
    /// The kind that --float and --mono ask for.
    pub fn asked(words: &Words) -> Result<Kind, Stop> {
        match (words.has(FLOAT), words.has(MONO_FLAG)) {
            (false, false) => Ok(Kind::Whole),
            (true, false) => Ok(Kind::Floats(STEREO)),
            (true, true) => Ok(Kind::Floats(MONO)),
            (false, true) => Err(Stop::Usage("--mono goes with --float".into())),
        }
    }

    /// The numbers of a frame.
    pub fn sides(self) -> usize {
        match self {
            Kind::Whole => STEREO as usize,
            Kind::Floats(sides) => sides as usize,
        }
    }

    pub fn number_bytes(self) -> usize {
        match self {
            Kind::Whole => i16::BYTES,
            Kind::Floats(_) => f32::BYTES,
        }
    }

    pub fn frame_bytes(self) -> usize {
        self.sides() * self.number_bytes()
    }

    /// The name of a frame's number.
    pub fn side(self, number: usize) -> &'static str {
        match self.sides() {
            1 => "mono",
            _ => ["left", "right"][number],
        }
    }
}

/// A number of a frame, as the library plays it and as a file holds it.
pub trait Number: Copy + Default {
    const BYTES: usize;

    /// Plays ticks for so many sides.
    fn play(file: &[u8], state: &mut State, ticks: u32, sides: usize, out: &mut [Self]) -> Answer;

    /// The same frames of whole numbers, for so many sides, in place of what is there.
    fn of_frames(frames: &[i16], sides: usize, to: &mut Vec<Self>);

    /// Adds the bytes of a file, low byte first.
    fn put(self, bytes: &mut Vec<u8>);

    /// The number of as many bytes.
    fn read(bytes: &[u8]) -> Self;

    /// Whether all bits are the same.
    fn same(self, other: Self) -> bool;

    fn float(self) -> f64;

    fn value(self) -> Value;
}

impl Number for i16 {
    const BYTES: usize = 2;

    fn play(file: &[u8], state: &mut State, ticks: u32, _sides: usize, out: &mut [i16]) -> Answer {
        lampthistle::play(file, state, ticks, out)
    }

    fn of_frames(frames: &[i16], _sides: usize, to: &mut Vec<i16>) {
        to.clear();
        to.extend_from_slice(frames);
    }

    fn put(self, bytes: &mut Vec<u8>) {
        bytes.extend_from_slice(&self.to_le_bytes());
    }

    fn read(bytes: &[u8]) -> i16 {
        i16::from_le_bytes([bytes[0], bytes[1]])
    }

    fn same(self, other: i16) -> bool {
        self == other
    }

    fn float(self) -> f64 {
        self.into()
    }

    fn value(self) -> Value {
        self.into()
    }
}

impl Number for f32 {
    const BYTES: usize = 4;

    fn play(file: &[u8], state: &mut State, ticks: u32, sides: usize, out: &mut [f32]) -> Answer {
        lampthistle::play_floats(file, state, ticks, sides as u32, out, &mut Pair::default())
    }

    /// By the library's rule for floats, under which every one is exact.
    fn of_frames(frames: &[i16], sides: usize, to: &mut Vec<f32>) {
        to.clear();
        match sides {
            1 => to.extend(frames.chunks_exact(2).map(|frame| {
                let sum = i32::from(frame[0]) + i32::from(frame[1]);
                sum as f32 / 65_536.0
            })),
            _ => to.extend(frames.iter().map(|&number| f32::from(number) / 32_768.0)),
        }
    }

    fn put(self, bytes: &mut Vec<u8>) {
        bytes.extend_from_slice(&self.to_bits().to_le_bytes());
    }

    fn read(bytes: &[u8]) -> f32 {
        f32::from_bits(u32::from_le_bytes([bytes[0], bytes[1], bytes[2], bytes[3]]))
    }

    fn same(self, other: f32) -> bool {
        self.to_bits() == other.to_bits()
    }

    fn float(self) -> f64 {
        self.into()
    }

    fn value(self) -> Value {
        Value::Float(self)
    }
}

#[cfg(test)]
mod tests {
    use super::*;

    /// Every 16-bit number, and sums up to the ends of their range.
    #[test]
    fn floats_of_all_numbers_are_exact() {
        let mut floats = Vec::new();
        for left in i16::MIN..=i16::MAX {
            for right in [i16::MIN, -1, 0, left.wrapping_neg(), i16::MAX] {
                let [l, r] = [left, right].map(f64::from);
                f32::of_frames(&[left, right], 2, &mut floats);
                assert!(floats.iter().all(|&n| n != 0.0 || n.to_bits() == 0));
                assert_eq!(
                    [f64::from(floats[0]), f64::from(floats[1])],
                    [l, r].map(|n| n / 32_768.0)
                );
                f32::of_frames(&[left, right], 1, &mut floats);
                assert!(floats[0] != 0.0 || floats[0].to_bits() == 0);
                assert_eq!(f64::from(floats[0]), (l + r) / 65_536.0);
            }
        }
    }
}
