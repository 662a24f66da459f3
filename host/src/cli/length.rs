//! How much of a song is asked for.
use super::course::once;
use super::input::{quoted, Source};
use super::progress::Progress;
use super::song::TICK_FRAMES;
use super::stop::Stop;
use super::words::Words;
use lampthistle::RATE;
use std::ffi::OsStr;

#[derive(Clone, Copy)]
pub enum Length {
    Ticks(u32),
    /// The whole ticks that fit into so many frames.
    Frames(u64),
}

/// What the words ask for.
pub enum Asked {
    Length(Length),
    /// The song until it comes back.
    Once,
    Nothing,
}

impl Asked {
    /// The length of an accepted module; a minute if nothing is asked for.
    pub fn length(self, source: &Source) -> Result<Length, Stop> {
        match self {
            Asked::Length(length) => Ok(length),
            Asked::Once => once(source).map(Length::Ticks),
            Asked::Nothing => Ok(MINUTE),
        }
    }
}

/// The ticks that --ticks or --once names, for a command without --seconds.
pub fn ticks_asked(words: &Words, source: &Source) -> Result<Option<u32>, Stop> {
    match Length::asked(words)? {
        Asked::Length(Length::Ticks(ticks)) => Ok(Some(ticks)),
        Asked::Once => source.judge().and_then(|_| once(source)).map(Some),
        _ => Ok(None),
    }
}

const MINUTE: Length = Length::Frames(60 * RATE as u64);

impl Length {
    /// The length that --ticks, --seconds or --once names.
    pub fn asked(words: &Words) -> Result<Asked, Stop> {
        let ticks = words.number("--ticks")?;
        let seconds = words.value("--seconds").map(seconds).transpose()?;
        let length = ticks.map(Length::Ticks).or(seconds);
        let (both, once) = (ticks.and(seconds).is_some(), words.has("--once"));
        match length {
            _ if both || once && length.is_some() => Err(Stop::Usage(
                "--ticks, --seconds and --once exclude each other".into(),
            )),
            None if once => Ok(Asked::Once),
            None => Ok(Asked::Nothing),
            Some(length) => Ok(Asked::Length(length)),
        }
    }

    /// The frames at most.
    pub fn most(self) -> u64 {
        match self {
            Length::Ticks(all) => u64::from(all) * TICK_FRAMES as u64,
            Length::Frames(all) => all,
        }
    }

    /// The frames that the next tick may have after so many ticks and frames; none where all ticks are played.
    pub fn left(self, ticks: u64, frames: u64) -> Option<usize> {
        match self {
            Length::Ticks(all) => (ticks < all.into()).then_some(TICK_FRAMES),
            Length::Frames(all) => Some((all - frames).min(TICK_FRAMES as u64) as usize),
        }
    }

    pub fn show(self, progress: &mut Progress, ticks: u64, frames: u64) {
        match self {
            Length::Ticks(all) => progress.show("ticks", ticks, all.into()),
            Length::Frames(all) => progress.show("frames", frames, all),
        }
    }
}

fn seconds(text: &OsStr) -> Result<Length, Stop> {
    let frames = text.to_str().and_then(frames_in);
    frames.map(Length::Frames).ok_or_else(|| {
        Stop::Usage(format!(
            "--seconds: not a number from 0 to {MOST_SECONDS}, such as 2.5: {}",
            quoted(text)
        ))
    })
}

const MOST_SECONDS: u64 = 1_000_000_000;

/// The whole frames in a decimal number of seconds, exact for any number of digits.
fn frames_in(seconds: &str) -> Option<u64> {
    let (whole, part) = seconds.split_once('.').unwrap_or((seconds, ""));
    let digits = [whole, part].concat();
    if digits.is_empty() || !digits.bytes().all(|c| c.is_ascii_digit()) {
        return None;
    }
    let whole: u64 = if whole.is_empty() {
        0
    } else {
        whole.parse().ok()?
    };
    // From the last digit on: a tenth of this digit's frames and of what follows it.
    let tenth = |after: u64, digit: u8| (u64::from(digit - b'0') * u64::from(RATE) + after) / 10;
    let frames = part.bytes().rev().fold(0, tenth);
    let all = whole.checked_mul(RATE.into())? + frames;
    (all <= MOST_SECONDS * u64::from(RATE)).then_some(all)
}
