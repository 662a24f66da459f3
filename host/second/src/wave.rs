//! The waves of vibrato and tremolo: their forms, places and memories.

/// A wave's forms.
const SINE: u32 = 0;
const RAMP: u32 = 1;
pub const SQUARE: u32 = 2;

/// The largest x and y.
pub const LAST_MEMORY: u32 = 15;
/// Places of a whole wave and of its half.
pub const PLACES: u32 = 64;
const HALF: u32 = 32;

/// The largest entry.
const PEAK: i32 = 255;
/// What the ramp gains a place.
const RAMP_STEP: i32 = 8;
/// The sine up to its peak; a half wave goes back down the same way.
const QUARTER: [i32; 17] = [
    0, 24, 49, 74, 97, 120, 141, 161, 180, 197, 212, 224, 235, 244, 250, 253, PEAK,
];

#[derive(Clone, Copy, Debug, PartialEq, Eq)]
pub struct Wave {
    /// What the place gains with each use.
    pub x: u32,
    /// The depth.
    pub y: u32,
    pub place: u32,
    pub form: u32,
}

impl Wave {
    pub fn fresh() -> Wave {
        Wave {
            x: 0,
            y: 0,
            place: 0,
            form: SINE,
        }
    }

    pub fn legal(&self) -> bool {
        self.x <= LAST_MEMORY && self.y <= LAST_MEMORY && self.place < PLACES && self.form <= SQUARE
    }

    /// Takes x and y, each where it isn't 0.
    pub fn remember(&mut self, x: u32, y: u32) {
        if x > 0 {
            self.x = x;
        }
        if y > 0 {
            self.y = y;
        }
    }

    /// Takes the form that E4 or E7 names.
    pub fn choose(&mut self, y: u32) {
        self.form = (y % 4).min(SQUARE);
    }

    /// The entry times depth div `divisor`: its size is divided, then it gets the entry's sign.
    pub fn offset(&self, divisor: u32) -> i32 {
        let entry = self.entry();
        let size = entry.unsigned_abs() * self.y / divisor;
        size as i32 * entry.signum()
    }

    /// The wave's number at its place.
    fn entry(&self) -> i32 {
        let place = self.place % HALF;
        let second_half = self.place >= HALF;
        match self.form {
            RAMP if second_half => RAMP_STEP * place as i32 - PEAK,
            RAMP => RAMP_STEP * place as i32,
            SINE if second_half => -half_sine(place),
            SINE => half_sine(place),
            _ if second_half => -PEAK,
            _ => PEAK,
        }
    }

    /// Moves on after a use.
    pub fn advance(&mut self) {
        self.place = (self.place + self.x) % PLACES;
    }
}

fn half_sine(place: u32) -> i32 {
    QUARTER[place.min(HALF - place) as usize]
}
