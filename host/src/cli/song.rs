//! A module that is played one tick a call.
use super::layout;
use super::number::Number;
use lampthistle::{tick_floats, Answer, Cause, Refusal, State, STEREO, TICK_NUMBERS};
use std::borrow::Cow;

/// The most frames that one tick has.
pub const TICK_FRAMES: usize = TICK_NUMBERS / 2;

/// Of whole numbers for two sides, where nothing else is said.
pub struct Song<'a, N = i16> {
    file: Cow<'a, [u8]>,
    pub state: State,
    sides: usize,
    numbers: Vec<N>,
}

impl<'a> Song<'a> {
    /// An accepted module before its first tick.
    pub fn new(file: &'a [u8]) -> Song<'a> {
        Song::of(Cow::Borrowed(file), STEREO as usize)
    }

    /// The same ticks of an accepted module, without their sound.
    pub fn silent(file: &[u8]) -> Song<'static> {
        Song::of(Cow::Owned(layout::silenced(file)), STEREO as usize)
    }
}

impl<'a, N: Number> Song<'a, N> {
    /// An accepted module before its first tick, played for so many sides.
    pub fn for_sides(file: &'a [u8], sides: usize) -> Song<'a, N> {
        Song::of(Cow::Borrowed(file), sides)
    }

    fn of(file: Cow<'a, [u8]>, sides: usize) -> Song<'a, N> {
        Song {
            file,
            state: lampthistle::fresh(),
            sides,
            numbers: vec![N::default(); TICK_NUMBERS],
        }
    }

    /// The next tick's numbers, if its frames are at most so many; else none. Or the refusal.
    pub fn next(&mut self, frames: usize) -> Result<Option<&[N]>, Answer> {
        let before = self.state;
        let room = &mut self.numbers[..self.sides * frames.min(TICK_FRAMES)];
        let answer = N::play(&self.file, &mut self.state, 1, self.sides, room);
        if !answer.is_accepted() {
            return Err(answer);
        }
        let played = tick_floats(&before, &self.state, self.sides as u32);
        Ok((answer.count == 1).then(|| &self.numbers[..played.min(TICK_NUMBERS)]))
    }
}

impl Song<'_> {
    pub fn touch(&mut self, page: u32, made: u32, position: u32) -> Answer {
        lampthistle::touch(&self.file, &mut self.state, page, made, position)
    }

    /// Pages, clocks and positions of touches, with room for as many answers.
    pub fn touch_burst(&mut self, lists: &[Vec<u32>; 3], answers: &mut [u32]) -> Answer {
        let [pages, mades, positions] = lists;
        lampthistle::touch_burst(
            &self.file,
            &mut self.state,
            pages,
            mades,
            positions,
            answers,
        )
    }

    pub fn change_page(&mut self) -> Answer {
        lampthistle::change_page(&self.file, &mut self.state)
    }

    /// How many channels the module has.
    pub fn channels(&self) -> u32 {
        lampthistle::channels(&self.file)
    }

    pub fn why_quiet(&self, channel: u32) -> Result<Cause, Refusal> {
        lampthistle::why_quiet(&self.file, &self.state, channel)
    }
}
