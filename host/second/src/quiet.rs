//! Why a voice gives nothing to the next frame.

use crate::module::Module;
use crate::play::read;
use crate::voice::Voice;
use crate::{Answer, STATE_CELLS};

/// The causes in the order in which they are named, each with its number.
#[derive(Clone, Copy, Debug, PartialEq, Eq)]
pub enum Cause {
    NoSample = 1,
    NoPeriod = 2,
    Stopped = 3,
    NoVolume = 4,
    ByteReadsZero = 5,
    ItSounds = 6,
}

/// Names the first true cause of one of the module's channels, from 1, for the next frame, with no
/// tick work done first; the count is its number.
pub fn why_quiet(file: &[u8], cells: &[u32; STATE_CELLS], channel: u32) -> Answer {
    let (module, state) = match read(file, cells) {
        Ok(read) => read,
        Err(refusal) => return refusal,
    };
    if channel == 0 || channel > module.channels {
        return Answer::refused(25, 0);
    }
    let voice = &state.voices[channel as usize - 1];
    Answer::accepted(cause(&module, voice) as usize)
}

fn cause(module: &Module, voice: &Voice) -> Cause {
    let Some(sample) = module.sample(voice.sample) else {
        return Cause::NoSample;
    };
    if voice.period == 0 {
        Cause::NoPeriod
    } else if voice.stopped {
        Cause::Stopped
    } else if voice.volume == 0 {
        Cause::NoVolume
    } else if sample.read(voice.index) == 0 {
        Cause::ByteReadsZero
    } else {
        Cause::ItSounds
    }
}
