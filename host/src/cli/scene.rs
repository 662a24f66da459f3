//! What a picture shows: the ticks of a song with each channel's voice and the peaks of both sides, and what a hand did.
use super::input::Source;
use super::script::{Call, Script, Touch};
use super::song::{Song, TICK_FRAMES};
use super::stop::Stop;
use lampthistle::{cell, refusal, Answer, Cause, State};

/// Ticks that one picture shows at most.
pub const MOST_TICKS: u32 = 20_000;

/// What a channel sounds in a tick.
#[derive(Clone, Copy, PartialEq)]
pub struct Voice {
    pub sample: u32,
    pub period: u32,
    pub volume: u32,
}

pub struct Tick {
    pub position: u32,
    pub row: u32,
    /// Frames before it.
    pub from: u64,
    /// The largest number of left and right, without its sign.
    pub peaks: [u16; 2],
    /// Of each channel, where it has a voice that may sound.
    pub voices: Vec<Option<Voice>>,
}

/// Ticks in which a channel sounds the same: the first, and the one after the last.
pub struct Run {
    pub channel: usize,
    pub from: usize,
    pub to: usize,
    pub voice: Voice,
}

/// What a hand did, after so many ticks of the picture.
pub struct Event {
    pub line: usize,
    pub tick: usize,
    pub clock: u32,
    pub what: What,
}

pub enum What {
    /// A touch and its answer.
    Touch(Touch, Answer),
    /// A change to this page.
    Page(u32),
}

#[derive(Default)]
pub struct Scene {
    pub channels: usize,
    pub ticks: Vec<Tick>,
    pub frames: u64,
    pub events: Vec<Event>,
}

impl Scene {
    /// The first ticks of an accepted module.
    pub fn of_song(source: &Source, ticks: u32) -> Result<Scene, Stop> {
        let mut song = Song::new(&source.bytes);
        let mut scene = Scene::before(&song);
        scene.play(source, &mut song, ticks)?;
        Ok(scene)
    }

    /// A trial of an accepted module from a legal state.
    pub fn of_trial(source: &Source, script: &Script, state: State) -> Result<Scene, Stop> {
        let mut song = Song::new(&source.bytes);
        song.state = state;
        let mut scene = Scene::before(&song);
        for line in &script.lines {
            let Some((call, _)) = &line.call else {
                continue;
            };
            match call {
                Call::Play(ticks) => scene.play(source, &mut song, *ticks)?,
                Call::Touch(touch) => {
                    let answer = song.touch(touch.page, touch.made, touch.position);
                    scene.add(line.number, &song, What::Touch(*touch, answer));
                }
                Call::Burst(touches) => scene.burst(line.number, &mut song, touches),
                Call::Page => {
                    let _ = song.change_page();
                    scene.add(line.number, &song, What::Page(song.state.page()));
                }
                Call::Why => (),
            }
        }
        Ok(scene)
    }

    fn before(song: &Song) -> Scene {
        Scene {
            channels: song.channels() as usize,
            ..Scene::default()
        }
    }

    fn play(&mut self, source: &Source, song: &mut Song, ticks: u32) -> Result<(), Stop> {
        if self.ticks.len() as u64 + u64::from(ticks) > MOST_TICKS.into() {
            let name = &source.name;
            return Err(Stop::Cannot(format!(
                "{name}: more than {MOST_TICKS} ticks for one picture"
            )));
        }
        for _ in 0..ticks {
            self.play_tick(source, song)?;
        }
        Ok(())
    }

    fn play_tick(&mut self, source: &Source, song: &mut Song) -> Result<(), Stop> {
        let (position, row, from) = (song.state.position(), song.state.row(), self.frames);
        let next = song.next(TICK_FRAMES);
        let numbers = next.map_err(|answer| source.refused(answer))?;
        let numbers = numbers.unwrap_or(&[]);
        let mut peaks = [0; 2];
        for (k, number) in numbers.iter().enumerate() {
            peaks[k % 2] = number.unsigned_abs().max(peaks[k % 2]);
        }
        self.frames += numbers.len() as u64 / 2;
        let voices = (0..self.channels).map(|channel| voice(song, channel));
        self.ticks.push(Tick {
            position,
            row,
            from,
            peaks,
            voices: voices.collect(),
        });
        Ok(())
    }

    /// Touches that are handed over at once; where the burst itself is refused, each of them is.
    fn burst(&mut self, line: usize, song: &mut Song, touches: &[Touch]) {
        let list = |of: fn(&Touch) -> u32| -> Vec<u32> { touches.iter().map(of).collect() };
        let lists = [
            list(|touch| touch.page),
            list(|touch| touch.made),
            list(|touch| touch.position),
        ];
        let mut answers = vec![0; touches.len()];
        let whole = song.touch_burst(&lists, &mut answers);
        for (touch, number) in touches.iter().zip(answers) {
            let own = Answer {
                number: number.into(),
                place: 0,
                count: 0,
            };
            let answer = if whole.is_accepted() { own } else { whole };
            self.add(line, song, What::Touch(*touch, answer));
        }
    }

    fn add(&mut self, line: usize, song: &Song, what: What) {
        self.events.push(Event {
            line,
            tick: self.ticks.len(),
            clock: song.state.clock(),
            what,
        });
    }

    /// The runs of all channels, channel by channel.
    pub fn runs(&self) -> Vec<Run> {
        let mut runs: Vec<Run> = Vec::new();
        for channel in 0..self.channels {
            for (at, tick) in self.ticks.iter().enumerate() {
                let Some(voice) = tick.voices[channel] else {
                    continue;
                };
                match runs.last_mut() {
                    Some(run) if run.channel == channel && run.to == at && run.voice == voice => {
                        run.to = at + 1;
                    }
                    _ => runs.push(Run {
                        channel,
                        from: at,
                        to: at + 1,
                        voice,
                    }),
                }
            }
        }
        runs
    }

    /// The frames before a tick, or before the end.
    pub fn frames_at(&self, tick: usize) -> u64 {
        self.ticks.get(tick).map_or(self.frames, |tick| tick.from)
    }
}

/// How many ticks ago a touch was made, when it came; the clock wraps.
pub fn age(clock: u32, touch: &Touch) -> u32 {
    clock.wrapping_sub(touch.made)
}

/// Whether a touch was made on the panel after it came, as far as clocks tell.
pub fn is_from_the_future(age: u32) -> bool {
    age > u32::MAX / 2
}

/// Why a touch was refused, in short.
pub fn short_reason(answer: &Answer) -> &'static str {
    match answer.number {
        0 => "accepted",
        refusal::PAGE => "other page",
        refusal::AGE => "too old",
        refusal::POSITION => "no position",
        _ => "refused",
    }
}

/// A channel's voice as the tick leaves it; none where the library names a cause that lasts.
fn voice(song: &Song, channel: usize) -> Option<Voice> {
    let cause = song.why_quiet(channel as u32 + 1).ok()?;
    let of = |which: usize| song.state.0[cell::channel(channel) + which];
    matches!(cause, Cause::Sounds | Cause::ZeroByte).then(|| Voice {
        sample: of(cell::VOICE_SAMPLE),
        period: of(cell::VOICE_PERIOD),
        volume: of(cell::VOICE_VOLUME),
    })
}
