//! What the bits of a float say, over whole numbers alone: neither implementation's way to make them.

/// Bits of a significand that are written; the one before them is not.
const WRITTEN: u32 = 23;
/// The exponent's field of 1.0.
const ONE: u32 = 127;

/// Whether a float is a side's number / 32,768, positive zero for 0.
pub fn is_side(float: f32, number: i16) -> bool {
    is_quotient(float.to_bits(), number.into(), 15)
}

/// Whether a float is the sum of a left and a right number / 65,536, positive zero for 0.
pub fn is_mono(float: f32, left: i16, right: i16) -> bool {
    is_quotient(float.to_bits(), i32::from(left) + i32::from(right), 16)
}

/// Whether 32 bits are a number / 2^power, at most 1 in size: significand × 2^(field - 150) is size / 2^power, both times
/// 2^(power + 23).
fn is_quotient(bits: u32, number: i32, power: u32) -> bool {
    let size = u64::from(number.unsigned_abs());
    let negative = bits >> 31 == 1;
    let field = bits >> WRITTEN & 255;
    let significand = u64::from(bits & ((1 << WRITTEN) - 1) | 1 << WRITTEN);
    match number {
        0 => bits == 0,
        _ if field > ONE || field + power < ONE => false,
        _ => negative == (number < 0) && significand << (field + power - ONE) == size << WRITTEN,
    }
}
