//! The cells of a state by name, as in lampthistle.h.

pub const POSITION: usize = 0;
pub const ROW: usize = 1;
/// The tick in the row, from 0.
pub const TICK: usize = 2;
pub const DELAY: usize = 3;
pub const NEXT_POSITION: usize = 4;
pub const NEXT_ROW: usize = 5;
pub const LOOP_ROW: usize = 6;
pub const LOOP_COUNT: usize = 7;
pub const SPEED: usize = 8;
pub const TEMPO: usize = 9;
/// What the ticks at this tempo left over, below the tempo.
pub const REMAINDER: usize = 10;
/// Ticks played, modulo 2^32.
pub const CLOCK: usize = 11;
pub const PAGE: usize = 12;
/// The channels' cells begin here.
pub const FIRST_CHANNEL: usize = 13;

/// Where a channel's cells begin; channels from 0.
pub const fn channel(channel: usize) -> usize {
    FIRST_CHANNEL + CHANNEL_CELLS * channel
}

/// A channel's cells, from its first on.
pub const LATCHED_SAMPLE: usize = 0;
/// -8 to 7, as a 32-bit number in two's complement: `State::finetune` reads it.
pub const FINETUNE: usize = 1;
pub const VOLUME: usize = 2;
pub const PERIOD: usize = 3;
pub const TARGET: usize = 4;
pub const SLIDE_MEMORY: usize = 5;
/// A wave: what its place gains with each use, its depth, its place from 0 to 63, and its form.
pub const VIBRATO_X: usize = 6;
pub const VIBRATO_Y: usize = 7;
pub const VIBRATO_PLACE: usize = 8;
pub const VIBRATO_FORM: usize = 9;
pub const TREMOLO_X: usize = 10;
pub const TREMOLO_Y: usize = 11;
pub const TREMOLO_PLACE: usize = 12;
pub const TREMOLO_FORM: usize = 13;
pub const VOICE_SAMPLE: usize = 14;
pub const VOICE_PERIOD: usize = 15;
pub const VOICE_VOLUME: usize = 16;
pub const VOICE_INDEX: usize = 17;
pub const VOICE_FRACTION: usize = 18;
/// 0 or 1.
pub const VOICE_STOPPED: usize = 19;
pub const CHANNEL_CELLS: usize = 20;
