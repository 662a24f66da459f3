//! Why a channel is quiet.
use crate::{sys, Answer, Refusal, State};
use std::fmt;

/// Why a channel is quiet in the next frame, in the order in which the causes are asked for, or that it sounds.
#[derive(Clone, Copy, Debug, PartialEq, Eq)]
pub enum Cause {
    /// The voice's sample is 0.
    NoSample = 1,
    /// The voice's period is 0.
    NoPeriod = 2,
    /// The voice is stopped.
    Stopped = 3,
    /// The voice's volume is 0.
    NoVolume = 4,
    /// The byte at the voice's index reads 0, as a sample's first two always do.
    ZeroByte = 5,
    /// None of these: what the voice gives is not 0.
    Sounds = 6,
}

impl Cause {
    /// All causes, by number.
    pub const ALL: [Cause; 6] = [
        Cause::NoSample,
        Cause::NoPeriod,
        Cause::Stopped,
        Cause::NoVolume,
        Cause::ZeroByte,
        Cause::Sounds,
    ];

    /// The cause's number, 1 to 6.
    pub fn number(self) -> u64 {
        self as u64
    }

    /// The cause of a number.
    pub fn of(number: u64) -> Option<Cause> {
        Cause::ALL
            .into_iter()
            .find(|cause| cause.number() == number)
    }

    pub fn is_quiet(self) -> bool {
        self != Cause::Sounds
    }

    /// What the cause means, for a person, in the words of lampthistle.h.
    pub fn meaning(self) -> &'static str {
        match self {
            Cause::NoSample => "it has no sample",
            Cause::NoPeriod => "its period is 0",
            Cause::Stopped => "its sample has ended",
            Cause::NoVolume => "its volume is 0",
            Cause::ZeroByte => "its sample is at a byte that reads 0",
            Cause::Sounds => "it sounds",
        }
    }
}

impl fmt::Display for Cause {
    fn fmt(&self, f: &mut fmt::Formatter) -> fmt::Result {
        f.write_str(self.meaning())
    }
}

impl From<Cause> for Answer {
    /// The answer that names the cause, by its count.
    fn from(cause: Cause) -> Answer {
        Answer::from_cells([0, 0, cause.number()])
    }
}

/// Why a channel of the module, counted from 1, is quiet in the next frame, or that it sounds. The next tick's work is not done first.
pub fn why_quiet(file: &[u8], state: &State, channel: u32) -> Result<Cause, Refusal> {
    let mut answer = [0; 3];
    // SAFETY: the pointer is good for its length, and nothing else reaches the answer during the call.
    unsafe {
        sys::lampthistle_why_quiet(file.as_ptr(), file.len(), &state.0, channel, &mut answer)
    };
    let number = Answer::from_cells(answer).accepted()?;
    Ok(Cause::of(number).expect("the library names one of its causes"))
}
