//! Where one sound sets in within another.
use super::input::quoted;
use super::number::Number;
use super::stop::Stop;
use super::words::Words;

/// Where the other is to begin.
#[derive(Clone, Copy)]
pub enum Offset {
    None,
    /// So many frames of the first sound are left out, or below 0 of the other.
    Frames(i64),
    Search,
}

impl Offset {
    pub fn asked(words: &Words) -> Result<Offset, Stop> {
        let Some(value) = words.value("--offset") else {
            return Ok(Offset::None);
        };
        match value.to_str() {
            Some("search") => Ok(Offset::Search),
            text => match text.and_then(|text| text.parse::<i32>().ok()) {
                Some(frames) => Ok(Offset::Frames(frames.into())),
                None => Err(Stop::Usage(format!(
                    "--offset: neither search nor a number of frames: {}",
                    quoted(value)
                ))),
            },
        }
    }

    /// The frames, with a search where one is asked for.
    pub fn frames(
        self,
        search: impl FnOnce() -> Result<Option<i64>, Stop>,
    ) -> Result<Option<i64>, Stop> {
        match self {
            Offset::None => Ok(None),
            Offset::Frames(frames) => Ok(Some(frames)),
            Offset::Search => match search()? {
                Some(frames) => Ok(Some(frames)),
                None => Err(Stop::Cannot(
                    "--offset search: the recording sets in nowhere".into(),
                )),
            },
        }
    }
}

/// Frames that must be the same, where a sound has as many.
const ENOUGH: usize = 24_000;
/// Frames from which a place can be told; fewer may be the same by chance.
const LEAST: usize = 64;

/// The beginning of a sound, from the first frame on that is not as the ones before it.
pub struct Beginning<'a, N> {
    sides: usize,
    /// Frames that are left out.
    before: usize,
    numbers: &'a [N],
}

impl<'a, N: Number> Beginning<'a, N> {
    /// None where the sound is too short or stays the same.
    pub fn of(sound: &'a [N], sides: usize) -> Option<Beginning<'a, N>> {
        let frames = || sound.chunks_exact(sides);
        let moves = frames().zip(frames().skip(1));
        let before = 1 + moves.take_while(|(a, b)| same(a, b)).count();
        let numbers = sound.get(before * sides..)?;
        let numbers = &numbers[..numbers.len().min(ENOUGH * sides)];
        (numbers.len() >= LEAST * sides).then_some(Beginning {
            sides,
            before,
            numbers,
        })
    }

    /// The frame of another sound at which this one begins, below 0 where the other begins later. `next` gives the other piece by piece.
    pub fn search<E>(
        &self,
        mut next: impl FnMut(&mut Vec<N>) -> Result<bool, E>,
    ) -> Result<Option<i64>, E> {
        let (mut heard, mut from) = (Vec::new(), 0);
        loop {
            let goes_on = next(&mut heard)?;
            if let Some(at) = self.place_in(&heard) {
                return Ok(Some((from + at) as i64 - self.before as i64));
            }
            if !goes_on {
                return Ok(None);
            }
            // What is left may be the beginning of a place.
            let done = heard.len().saturating_sub(self.numbers.len()) / self.sides;
            heard.drain(..done * self.sides);
            from += done;
        }
    }

    fn place_in(&self, heard: &[N]) -> Option<usize> {
        let last = heard.len().checked_sub(self.numbers.len())?;
        let mut places = (0..=last).step_by(self.sides);
        let found = places.find(|&at| same(&heard[at..at + self.numbers.len()], self.numbers));
        found.map(|at| at / self.sides)
    }
}

fn same<N: Number>(first: &[N], other: &[N]) -> bool {
    first
        .iter()
        .zip(other)
        .all(|(one, another)| one.same(*another))
}

#[cfg(test)]
mod tests {
    use super::*;

    /// A sound of so many frames for one side that is nowhere as before, after so many zeros.
    fn sound(zeros: usize, frames: usize) -> Vec<i16> {
        let next = |h: &u32| Some(h.wrapping_mul(1_664_525).wrapping_add(1_013_904_223));
        let noise = std::iter::successors(Some(1), next).map(|h| (h >> 16) as i16);
        let zeros = std::iter::repeat_n(0, zeros);
        zeros.chain(noise.skip(1).take(frames)).collect()
    }

    /// Searches in pieces of so many frames.
    fn found(beginning: &[i16], within: &[i16], piece: usize) -> Option<i64> {
        let mut pieces = within.chunks(piece);
        let mut next = |heard: &mut Vec<i16>| -> Result<bool, ()> {
            let piece = pieces.next();
            heard.extend_from_slice(piece.unwrap_or(&[]));
            Ok(piece.is_some())
        };
        Beginning::of(beginning, 1)?.search(&mut next).unwrap()
    }

    #[test]
    fn a_late_beginning_is_found_in_pieces_of_any_size() {
        let whole = sound(0, 60_000);
        for piece in [1_000, 25_000, 60_000] {
            for from in [0, 1, 999, 30_000] {
                assert_eq!(found(&whole[from..], &whole, piece), Some(from as i64));
            }
            assert_eq!(found(&whole[59_900..], &whole, piece), Some(59_900));
        }
    }

    #[test]
    fn silence_before_a_sound_is_an_early_beginning() {
        let (whole, late) = (sound(0, 40_000), sound(500, 40_000));
        assert_eq!(found(&late, &whole, 960), Some(-500));
        assert_eq!(found(&whole, &late, 960), Some(500));
    }

    #[test]
    fn what_is_not_there_is_not_found() {
        let whole = sound(0, 40_000);
        let mut other = whole.clone();
        other[100] ^= 1;
        assert_eq!(found(&other, &whole, 960), None);
        assert_eq!(found(&whole[..50], &whole, 960), None);
        assert_eq!(found(&[0; 1_000], &whole, 960), None);
    }
}
