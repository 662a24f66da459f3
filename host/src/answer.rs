//! What every call answers, and what the refusals mean.
use crate::refusal;
use std::{error, fmt};

/// What a call answers. Number 0 is accepted; another number is a refusal, with its place. The count is what the call counts: ticks
/// played, touches answered, bytes written, or a cause's number; 0 for the others and for every refusal, but for the fault that a byte
/// shows as it is fed, which comes with the ticks played before it.
#[must_use = "a refused call did nothing"]
#[derive(Clone, Copy, Debug, PartialEq, Eq)]
pub struct Answer {
    pub number: u64,
    pub place: u64,
    pub count: u64,
}

impl Answer {
    pub(crate) fn from_cells([number, place, count]: [u64; 3]) -> Self {
        Answer {
            number,
            place,
            count,
        }
    }

    pub fn is_accepted(&self) -> bool {
        self.number == 0
    }

    /// The count, or the refusal as an error.
    pub fn accepted(self) -> Result<u64, Refusal> {
        let Answer {
            number,
            place,
            count,
        } = self;
        if number == 0 {
            Ok(count)
        } else {
            Err(Refusal { number, place })
        }
    }

    /// What the number means, for a person.
    pub fn meaning(&self) -> &'static str {
        meaning(self.number)
    }
}

impl fmt::Display for Answer {
    fn fmt(&self, f: &mut fmt::Formatter) -> fmt::Result {
        match self.accepted() {
            Ok(_) => f.write_str(self.meaning()),
            Err(refusal) => refusal.fmt(f),
        }
    }
}

/// Why a call did nothing: the refusal's number, and its place in the file or the stream.
#[derive(Clone, Copy, Debug, PartialEq, Eq)]
pub struct Refusal {
    pub number: u64,
    pub place: u64,
}

impl Refusal {
    /// What the number means, for a person.
    pub fn meaning(&self) -> &'static str {
        meaning(self.number)
    }
}

impl fmt::Display for Refusal {
    fn fmt(&self, f: &mut fmt::Formatter) -> fmt::Result {
        let (number, place) = (self.number, self.place);
        write!(f, "refused {number} at {place}: {}", self.meaning())
    }
}

impl error::Error for Refusal {}

impl From<Refusal> for Answer {
    fn from(Refusal { number, place }: Refusal) -> Answer {
        Answer {
            number,
            place,
            count: 0,
        }
    }
}

/// The words of lampthistle.h.
fn meaning(number: u64) -> &'static str {
    match number {
        0 => "accepted",
        refusal::SHORT_FILE => "the file is shorter than 1,084 bytes",
        refusal::TAG => "the tag at byte 1080 is not M.K., 4CHN, 6CHN or 8CHN",
        refusal::SONG_LENGTH => "the song length is 0 or above 128",
        refusal::TABLE_ENTRY => "a table entry is above 63",
        refusal::VOLUME => "a sample's volume is above 64",
        refusal::LOOP => "a sample's loop leaves the sample",
        refusal::CUT_FILE => "the file ends before its patterns and samples do",
        refusal::SAMPLE_NUMBER => "a cell's sample number is above 31",
        refusal::PERIOD => "a cell's period is neither 0 nor 113 to 856",
        refusal::TICKS => "more than 65,535 ticks to translate",
        refusal::ROOM => "the room is shorter than the stream; the place is the length needed",
        refusal::STATE => "the state or board is not legal for this module",
        refusal::PAGE => "the touch was made on another page",
        refusal::AGE => "the touch is older than 25 ticks",
        refusal::POSITION => "the touch names a position at or past the song length",
        refusal::STREAM_LENGTH => {
            "the stream is shorter than 9 bytes, or its length is not 4 plus its first number"
        }
        refusal::STREAM_VERSION => "the stream's version is not 1, 2 or 3",
        refusal::CHANNEL_COUNT => {
            "the stream's channel count is not the module's, or version 3 is shorter than 10 bytes"
        }
        refusal::RECORD => "a record of the stream is bad, or bytes are left over",
        refusal::SIDES => "the sides asked for are neither 1 nor 2",
        refusal::CHANNEL => "the module has no channel of this number",
        refusal::TOUCHES => "a touch list is longer than 64",
        refusal::ANSWERS => "the answer list is shorter than the longest touch list",
        refusal::LISTS => "the touch lists are not equally long",
        _ => "an unknown refusal",
    }
}
