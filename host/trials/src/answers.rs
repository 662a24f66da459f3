//! What two calls left, held against each other: answers, states and lent buffers.
use lampthistle::State;
use second::STATE_CELLS;
use std::fmt::{self, Debug};

/// The number that both answers give, or the two answers.
pub fn same_answer(ours: lampthistle::Answer, other: second::Answer) -> Result<u64, String> {
    if (ours.number, ours.place, ours.count) == (other.number, other.place, other.count) {
        Ok(ours.number)
    } else {
        Err(format!("proved {ours:?}, second {other:?}"))
    }
}

pub fn same_state(ours: &State, other: &[u32; STATE_CELLS]) -> Result<(), String> {
    same_cells("state", &ours.0, other)
}

/// Nothing, or the first cell that differs.
pub fn same_cells<T: PartialEq + Debug>(name: &str, ours: &[T], other: &[T]) -> Result<(), String> {
    if ours == other {
        return Ok(());
    }
    match (0..ours.len().min(other.len())).find(|&i| ours[i] != other[i]) {
        Some(i) => Err(format!("{name} cell {i}: {:?} and {:?}", ours[i], other[i])),
        None => Err(format!("{name}: {} and {} cells", ours.len(), other.len())),
    }
}

/// A float's bits.
#[derive(PartialEq)]
struct Bits(u32);

impl Debug for Bits {
    fn fmt(&self, f: &mut fmt::Formatter) -> fmt::Result {
        write!(f, "{:08X}", self.0)
    }
}

/// Nothing, or the first float that differs in a bit.
pub fn same_floats(name: &str, ours: &[f32], other: &[f32]) -> Result<(), String> {
    let [ours, other] = [ours, other]
        .map(|floats| -> Vec<Bits> { floats.iter().map(|float| Bits(float.to_bits())).collect() });
    same_cells(name, &ours, &other)
}
