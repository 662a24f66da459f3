//! What two sounds have in common, frame by frame: how many frames differ and by how much, where first and last, and what may be the cause.
use super::json::Value;
use super::number::{Kind, Number};

/// A tick of the song, with its position and row.
#[derive(Clone, Copy)]
pub struct Tick {
    pub number: u64,
    pub position: u32,
    pub row: u32,
}

/// Where a frame is: in a tick of a song, or of recordings alone from the beginning.
#[derive(Clone, Copy)]
pub struct Place {
    pub tick: Option<Tick>,
    /// In the tick, and from the beginning.
    pub frame: u64,
    pub from_begin: u64,
}

impl Place {
    fn on(self, frames: usize) -> Place {
        let frames = frames as u64;
        Place {
            frame: self.frame + frames,
            from_begin: self.from_begin + frames,
            ..self
        }
    }
}

/// Numbers that are not the same; none where one sound has no such frame.
pub struct Difference {
    pub place: Place,
    pub side: &'static str,
    pub first: Option<Value>,
    pub other: Option<Value>,
}

/// Sums of one side's numbers.
#[derive(Clone, Copy, Default)]
struct Sums {
    /// Of squares of the first's numbers and of the other's, and of their products.
    first: f64,
    other: f64,
    both: f64,
}

pub struct Tally {
    kind: Kind,
    /// Frames that are compared, and those of them that differ, with those that one sound has alone.
    pub frames: u64,
    pub differing: u64,
    pub largest: f64,
    pub first: Option<Difference>,
    pub last: Option<Place>,
    sums: [Sums; 2],
    is_swapped: bool,
}

impl Tally {
    pub fn new(kind: Kind) -> Tally {
        Tally {
            kind,
            frames: 0,
            differing: 0,
            largest: 0.0,
            first: None,
            last: None,
            sums: [Sums::default(); 2],
            is_swapped: true,
        }
    }

    /// Takes the frames of both from a place on; the frames that only one of them has differ.
    pub fn add<N: Number>(&mut self, place: Place, first: &[N], other: &[N]) {
        let sides = self.kind.sides();
        let frames = first.len().max(other.len()) / sides;
        for frame in 0..frames {
            let of = |numbers: &[N]| -> Option<[N; 2]> {
                let numbers = numbers.get(frame * sides..(frame + 1) * sides)?;
                Some([numbers[0], numbers[sides - 1]])
            };
            self.add_frame(place.on(frame), of(first), of(other));
        }
    }

    fn add_frame<N: Number>(&mut self, place: Place, first: Option<[N; 2]>, other: Option<[N; 2]>) {
        self.frames += 1;
        let differs = match (first, other) {
            (Some(one), Some(another)) => self.add_numbers(one, another),
            _ => Some(0),
        };
        let Some(side) = differs else {
            return;
        };
        self.differing += 1;
        self.last = Some(place);
        if self.first.is_none() {
            self.first = Some(Difference {
                place,
                side: self.kind.side(side),
                first: first.map(|numbers| numbers[side].value()),
                other: other.map(|numbers| numbers[side].value()),
            });
        }
    }

    /// Adds a frame that both have; the first side whose numbers differ.
    fn add_numbers<N: Number>(&mut self, first: [N; 2], other: [N; 2]) -> Option<usize> {
        let mut differs = None;
        for side in (0..self.kind.sides()).rev() {
            let (one, another) = (first[side].float(), other[side].float());
            let sums = &mut self.sums[side];
            sums.first += one * one;
            sums.other += another * another;
            sums.both += one * another;
            self.largest = self.largest.max((one - another).abs());
            self.is_swapped &= first[side].same(other[1 - side]);
            if !first[side].same(other[side]) {
                differs = Some(side);
            }
        }
        differs
    }

    /// The largest difference of two numbers, where any differ.
    pub fn largest(&self) -> Option<Value> {
        let largest = match self.kind {
            Kind::Whole => Value::Number(self.largest as i128),
            Kind::Floats(_) => Value::Float(self.largest as f32),
        };
        (self.largest > 0.0).then_some(largest)
    }

    /// Simple causes of the differences, of sounds with these names.
    pub fn hints(&self, first: &str, other: &str) -> Vec<String> {
        let mut hints = Vec::new();
        if self.first.is_none() {
            return hints;
        }
        if self.kind.sides() == 2 && self.is_swapped {
            hints.push("left and right are swapped".into());
        }
        hints.extend(self.silence(first, |sums| (sums.first, sums.other)));
        hints.extend(self.silence(other, |sums| (sums.other, sums.first)));
        if let Some(factor) = self.factor() {
            hints.push(format!("{other} is {first} times {factor:.4}"));
        }
        hints
    }

    /// What is silent of a sound and not of the one beside it, as `of` gives their sums.
    fn silence(&self, name: &str, of: fn(&Sums) -> (f64, f64)) -> Option<String> {
        let sides: Vec<(f64, f64)> = self.sums[..self.kind.sides()].iter().map(of).collect();
        if sides.iter().all(|&(own, _)| own == 0.0) {
            let is_alone = sides.iter().any(|&(_, beside)| beside != 0.0);
            return is_alone.then(|| format!("{name} is silent"));
        }
        let side = sides
            .iter()
            .position(|&(own, beside)| own == 0.0 && beside != 0.0);
        side.map(|side| format!("{} of {name} is silent", self.kind.side(side)))
    }

    /// The number by which all of the other's numbers are the first's, but for rounding.
    fn factor(&self) -> Option<f64> {
        /// What rounding leaves of a whole number at most, squared; of a float's square so small a part.
        const WHOLE: f64 = 1.0;
        const PART: f64 = 1e-10;
        let sum = |of: fn(&Sums) -> f64| self.sums.iter().map(of).sum::<f64>();
        let (first, other, both) = (sum(|s| s.first), sum(|s| s.other), sum(|s| s.both));
        let factor = both / first;
        let left = other - factor * both;
        let numbers = self.frames as f64 * self.kind.sides() as f64;
        let most = match self.kind {
            Kind::Whole => (WHOLE * numbers).min(other / 100.0),
            Kind::Floats(_) => PART * other,
        };
        let is_other = (factor - 1.0).abs() > 1e-4;
        (factor.is_finite() && other > 0.0 && left <= most && is_other).then_some(factor)
    }
}
