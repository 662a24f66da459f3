//! The song as compare plays it.
use super::input::Source;
use super::number::Number;
use super::song::{Song, TICK_FRAMES};
use super::stop::Stop;
use super::tally::{Place, Tick};

/// The song as it is compared: tick by tick, without its first frames where an offset leaves them out.
pub struct Player<'a, N> {
    file: &'a Source,
    song: Song<'a, N>,
    sides: usize,
    /// Frames that are still to be left out.
    skip: usize,
    /// Ticks and frames that were played.
    pub tick: u64,
    pub from_begin: u64,
}

impl<'a, N: Number> Player<'a, N> {
    /// An accepted module from its beginning, without so many frames.
    pub fn new(file: &'a Source, sides: usize, skip: usize) -> Player<'a, N> {
        Player {
            file,
            song: Song::for_sides(&file.bytes, sides),
            sides,
            skip,
            tick: 0,
            from_begin: 0,
        }
    }

    /// The next tick's numbers, where they begin, and whether all of the tick is there.
    pub fn next(&mut self) -> Result<(Place, &[N], bool), Stop> {
        let state = &self.song.state;
        let tick = Tick {
            number: self.tick,
            position: state.position(),
            row: state.row(),
        };
        let played = self.song.next(TICK_FRAMES);
        let numbers = played.map_err(|answer| self.file.refused(answer))?;
        let numbers = numbers.unwrap_or(&[]);
        let frames = numbers.len() / self.sides;
        let cut = self.skip.min(frames);
        let place = Place {
            tick: Some(tick),
            frame: cut as u64,
            from_begin: self.from_begin + cut as u64,
        };
        self.skip -= cut;
        self.tick += 1;
        self.from_begin += frames as u64;
        Ok((place, &numbers[cut * self.sides..], cut == 0))
    }
}
