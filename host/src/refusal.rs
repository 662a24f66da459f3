//! The refusals' numbers by name, as in lampthistle.h.

pub const SHORT_FILE: u64 = 1;
pub const TAG: u64 = 2;
pub const SONG_LENGTH: u64 = 3;
pub const TABLE_ENTRY: u64 = 4;
pub const VOLUME: u64 = 5;
pub const LOOP: u64 = 6;
pub const CUT_FILE: u64 = 7;
pub const SAMPLE_NUMBER: u64 = 8;
pub const PERIOD: u64 = 9;
pub const TICKS: u64 = 11;
pub const ROOM: u64 = 12;
pub const STATE: u64 = 14;
pub const PAGE: u64 = 16;
pub const AGE: u64 = 17;
pub const POSITION: u64 = 18;
pub const STREAM_LENGTH: u64 = 21;
pub const STREAM_VERSION: u64 = 22;
pub const CHANNEL_COUNT: u64 = 28;
pub const RECORD: u64 = 23;
pub const SIDES: u64 = 24;
pub const CHANNEL: u64 = 25;
pub const TOUCHES: u64 = 26;
pub const ANSWERS: u64 = 27;
pub const LISTS: u64 = 34;
