//! Frames as 32-bit floats, whose bits are put together from whole numbers.

/// Left and right are divided by 2 to this power.
const SIDE_POWER: u32 = 15;
/// Mono, which is a sum of two, by 2 to this one.
const MONO_POWER: u32 = 16;

/// Bits of a float's significand that are written, and what its exponent is counted from.
const WRITTEN_BITS: u32 = 23;
const EXPONENT_ZERO: u32 = 127;

/// A frame as it is delivered.
#[derive(Clone, Copy, Debug, PartialEq)]
pub enum Frame {
    Silence,
    Mono(f32),
    Stereo(f32, f32),
}

/// The frame of these numbers for one side or two.
pub fn delivered(left: i16, right: i16, sides: u32) -> Frame {
    if left == 0 && right == 0 {
        Frame::Silence
    } else if sides == 1 {
        Frame::Mono(mono(left, right))
    } else {
        Frame::Stereo(side(left), side(right))
    }
}

/// A side's number divided by 32,768.
pub fn side(number: i16) -> f32 {
    f32::from_bits(quotient_bits(number.into(), SIDE_POWER))
}

/// The sum of both sides' numbers divided by 65,536.
pub fn mono(left: i16, right: i16) -> f32 {
    let sum = i32::from(left) + i32::from(right);
    f32::from_bits(quotient_bits(sum, MONO_POWER))
}

/// The bits of the float that is a number, of a size below 2^24, divided by 2 to a power.
fn quotient_bits(number: i32, power: u32) -> u32 {
    if number == 0 {
        return 0;
    }
    let sign = u32::from(number < 0);
    let size = number.unsigned_abs();
    // The size is a 1 at this bit, which isn't written, and the bits below it.
    let first = size.ilog2();
    let below = size - (1 << first);
    let exponent = EXPONENT_ZERO + first - power;
    sign << 31 | exponent << WRITTEN_BITS | below << (WRITTEN_BITS - first)
}
