//! How many frames a tick has, and what it leaves over for the next one.

/// The frames of a tick times its tempo.
const FRAMES_TIMES_TEMPO: u32 = 120_000;

/// The frames of a tick at this tempo that begins with this remainder.
pub fn tick_frames(tempo: u32, remainder: u32) -> usize {
    ((FRAMES_TIMES_TEMPO + remainder) / tempo) as usize
}

/// The remainder that such a tick leaves.
pub fn tick_rest(tempo: u32, remainder: u32) -> u32 {
    (FRAMES_TIMES_TEMPO + remainder) % tempo
}

/// The remainder with which a tick begins: the one left before it, or 0 where the tempo changed.
pub fn carried(remainder: u32, tempo_before: u32, tempo: u32) -> u32 {
    if tempo == tempo_before {
        remainder
    } else {
        0
    }
}
