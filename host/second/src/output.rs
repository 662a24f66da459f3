//! Lent room for frames: two 16-bit numbers each, or floats for one or two sides.

use crate::floats::{delivered, side, Frame};

/// Room that whole ticks fill one after the other.
pub trait Output {
    /// How many frames still fit.
    fn frames_left(&self) -> usize;

    /// Takes so many frames of a tick, which is counted from 0 in the call.
    fn take(&mut self, tick: u32, frames: usize, next: impl FnMut() -> (i16, i16));
}

/// Room for left and right numbers in turn.
pub struct Numbers<'a> {
    room: &'a mut [i16],
    filled: usize,
}

impl Numbers<'_> {
    pub fn new(room: &mut [i16]) -> Numbers<'_> {
        Numbers { room, filled: 0 }
    }
}

impl Output for Numbers<'_> {
    fn frames_left(&self) -> usize {
        (self.room.len() - self.filled) / 2
    }

    fn take(&mut self, _tick: u32, frames: usize, mut next: impl FnMut() -> (i16, i16)) {
        let end = self.filled + 2 * frames;
        for frame in self.room[self.filled..end].chunks_exact_mut(2) {
            (frame[0], frame[1]) = next();
        }
        self.filled = end;
    }
}

/// Whether floats can be played for so many sides.
pub fn one_or_two(sides: u32) -> bool {
    sides == 1 || sides == 2
}

/// The last frame's left and right and its tick in the call.
struct Pair {
    left: i16,
    right: i16,
    tick: u32,
}

/// Room for floats, `sides` of them a frame.
pub struct Floats<'a> {
    room: &'a mut [f32],
    filled: usize,
    sides: u32,
    last: Option<Pair>,
}

impl Floats<'_> {
    pub fn new(room: &mut [f32], sides: u32) -> Floats<'_> {
        Floats {
            room,
            filled: 0,
            sides,
            last: None,
        }
    }

    /// Stores the last frame's numbers and tick; without a frame nothing is stored.
    pub fn store_last(&self, pair: &mut [f32; 2], pair_tick: &mut u32) {
        if let Some(last) = &self.last {
            *pair = [side(last.left), side(last.right)];
            *pair_tick = last.tick;
        }
    }
}

impl Output for Floats<'_> {
    fn frames_left(&self) -> usize {
        (self.room.len() - self.filled) / self.sides as usize
    }

    fn take(&mut self, tick: u32, frames: usize, mut next: impl FnMut() -> (i16, i16)) {
        let sides = self.sides as usize;
        let end = self.filled + sides * frames;
        for numbers in self.room[self.filled..end].chunks_exact_mut(sides) {
            let (left, right) = next();
            match delivered(left, right, self.sides) {
                Frame::Silence => numbers.fill(0.0),
                Frame::Mono(number) => numbers.copy_from_slice(&[number]),
                Frame::Stereo(left, right) => numbers.copy_from_slice(&[left, right]),
            }
            self.last = Some(Pair { left, right, tick });
        }
        self.filled = end;
    }
}
