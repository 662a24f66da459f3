//! A trial that is being run: calls on one state, and what is heard of them.
use super::checksum::Checksum;
use super::progress::Progress;
use super::script::{Call, Results, Touch};
use super::song::{Song, TICK_FRAMES};
use super::sound::Sound;
use super::stop::Stop;
use lampthistle::{Answer, Cause, Refusal, State};

pub struct Trial<'a> {
    song: Song<'a>,
    sound: Option<Sound>,
    heard: Checksum,
    frames: u64,
    /// Of a silent trial only frames are counted, and no tick is played after so many.
    limit: Option<u64>,
}

impl<'a> Trial<'a> {
    /// A trial of an accepted module from a legal state; its frames go to the sound file, if there is one.
    pub fn new(file: &'a [u8], state: State, sound: Option<Sound>) -> Trial<'a> {
        let mut song = Song::new(file);
        song.state = state;
        Trial {
            song,
            sound,
            heard: Checksum::new(),
            frames: 0,
            limit: None,
        }
    }

    /// The same trial without its sound, until it has more than so many frames. Only a fresh state is legal without samples.
    pub fn silent(file: &'a [u8], state: State, limit: u64) -> Trial<'a> {
        let mut trial = Trial::new(file, state, None);
        if state.0 == lampthistle::fresh().0 {
            trial.song = Song::silent(file);
        }
        trial.limit = Some(limit);
        trial
    }

    pub fn state(&self) -> &State {
        &self.song.state
    }

    pub fn frames(&self) -> u64 {
        self.frames
    }

    /// Makes a call.
    pub fn call(&mut self, call: &Call) -> Result<Results, Stop> {
        let mut each = Vec::new();
        let answer = match call {
            Call::Play(ticks) => self.play(*ticks)?,
            Call::Touch(touch) => self.song.touch(touch.page, touch.made, touch.position),
            Call::Burst(touches) => self.burst(touches, &mut each),
            Call::Page => self.song.change_page(),
            Call::Why => self.why(&mut each),
        };
        Ok(Results {
            answer,
            each,
            clock: self.song.state.clock(),
            sound: self.heard,
        })
    }

    /// Plays tick by tick, and answers as one call for all of them does.
    fn play(&mut self, ticks: u32) -> Result<Answer, Stop> {
        let mut progress = Progress::new();
        let mut answer = Answer {
            number: 0,
            place: 0,
            count: 0,
        };
        let enough = |frames| self.limit.is_some_and(|limit| frames > limit);
        while answer.count < u64::from(ticks) && !enough(self.frames) {
            let numbers = match self.song.next(TICK_FRAMES) {
                Ok(numbers) => numbers.unwrap_or(&[]),
                Err(refusal) => return Ok(refusal),
            };
            if let Some(sound) = &mut self.sound {
                sound.write(numbers)?;
            }
            if self.limit.is_none() {
                self.heard.add_numbers(numbers);
            }
            self.frames += numbers.len() as u64 / 2;
            answer.count += 1;
            progress.show("ticks", answer.count, ticks.into());
        }
        Ok(answer)
    }

    /// Takes the touches as one call, which counts them.
    fn burst(&mut self, touches: &[Touch], each: &mut Vec<u64>) -> Answer {
        let list = |of: fn(&Touch) -> u32| -> Vec<u32> { touches.iter().map(of).collect() };
        let mut answers = vec![0; touches.len()];
        let lists = [
            list(|touch| touch.page),
            list(|touch| touch.made),
            list(|touch| touch.position),
        ];
        let answer = self.song.touch_burst(&lists, &mut answers);
        each.extend(
            answers[..answer.count as usize]
                .iter()
                .map(|&n| u64::from(n)),
        );
        answer
    }

    /// Asks for each channel's cause, and counts the channels.
    fn why(&self, each: &mut Vec<u64>) -> Answer {
        let causes = (1..=self.song.channels()).map(|channel| self.song.why_quiet(channel));
        match causes.collect::<Result<Vec<Cause>, Refusal>>() {
            Ok(causes) => {
                each.extend(causes.iter().map(|cause| cause.number()));
                Answer {
                    number: 0,
                    place: 0,
                    count: causes.len() as u64,
                }
            }
            Err(refusal) => refusal.into(),
        }
    }

    /// Finishes the sound file.
    pub fn finish(self) -> Result<(), Stop> {
        self.sound.map_or(Ok(()), Sound::finish)
    }
}
