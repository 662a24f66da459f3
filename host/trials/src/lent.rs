//! Buffers to lend: filled with a pattern beforehand, with guard cells on both sides, so that every cell can be looked at afterwards.
use second::generate::Random;

/// Guard cells on each side.
const GUARD: usize = 16;

#[derive(Clone)]
pub struct Lent<T> {
    cells: Vec<T>,
}

impl<T: From<u8> + Copy> Lent<T> {
    /// `length` cells to lend, filled with a pattern.
    pub fn new(length: usize) -> Lent<T> {
        Lent::filled(length, |i| T::from((i * 37 % 251) as u8))
    }
}

impl<T: Copy> Lent<T> {
    /// `length` cells to lend, each filled by its place, guards counted.
    pub fn filled(length: usize, with: impl Fn(usize) -> T) -> Lent<T> {
        let cells = (0..length + 2 * GUARD).map(with).collect();
        Lent { cells }
    }

    /// The part that is lent.
    pub fn part(&mut self) -> &mut [T] {
        let end = self.cells.len() - GUARD;
        &mut self.cells[GUARD..end]
    }

    /// All cells, guards included.
    pub fn all(&self) -> &[T] {
        &self.cells
    }
}

/// A length to lend: 0, 1, odd, exact, one short, one more, larger, or any below `most`.
pub fn length(random: &mut Random, exact: usize, most: usize) -> usize {
    let any = random.below(most as u32) as usize;
    match random.below(10) {
        0 => 0,
        1 => 1,
        2 => any | 1,
        3 | 4 => exact,
        5 => exact.saturating_sub(1),
        6 => exact + 1,
        7 => exact + any,
        _ => any,
    }
}
