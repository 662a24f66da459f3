//! Safe Rust over the proved library. Every exported function takes any input; the borrow checker sees to what a C caller has to see
//! to itself: pointers that are good for their lengths, and no two that overlap.
//!
//! An accepted call answers number and place 0. A refused call answers the refusal's number and place, and leaves the state and every
//! buffer that it was lent as they were; but a fault of a stream that is fed comes after what was played before it, and is kept.
//!
//! A module is played a tick a call:
//!
//! ```
//! fn first_tick(file: &[u8]) -> Result<Vec<i16>, lampthistle::Refusal> {
//!     let before = lampthistle::fresh();
//!     let mut state = before;
//!     let mut tick = vec![0; lampthistle::TICK_NUMBERS];
//!     lampthistle::play(file, &mut state, 1, &mut tick).accepted()?;
//!     tick.truncate(lampthistle::tick_numbers(&before, &state));
//!     Ok(tick)
//! }
//!
//! let refusal = first_tick(b"no module").unwrap_err();
//! assert_eq!(refusal.to_string(), "refused 1 at 9: the file is shorter than 1,084 bytes");
//! ```

mod answer;
mod arrival;
pub mod cell;
mod floats;
mod play;
mod quiet;
pub mod refusal;
mod stream;
mod sys;
mod version;

pub use answer::{Answer, Refusal};
pub use arrival::{board_numbers, Board, Fed, BOARD_CELLS};
pub use floats::{
    play_floats, play_stream_floats, play_stream_floats_from, tick_floats, Pair, MONO, STEREO,
};
pub use play::{
    change_page, fresh, play, tick_frames, tick_numbers, tick_rest, touch, touch_burst, State,
    CHANNELS, MOST_TOUCHES, RATE, STATE_CELLS, TICK_NUMBERS,
};
pub use quiet::{why_quiet, Cause};
pub use stream::{play_stream, play_stream_from, translate, MOST_TICKS};
pub use version::{same_cells, version, RELEASE, VERSION};

/// Whether the bytes are a module that can be played. The count is 0.
pub fn judge(file: &[u8]) -> Answer {
    let mut answer = [0; 3];
    // SAFETY: the pointer is good for its length, and nothing else reaches the answer during the call.
    unsafe { sys::lampthistle_judge(file.as_ptr(), file.len(), &mut answer) };
    Answer::from_cells(answer)
}

/// How many channels the file's tag names: 4, 6 or 8, or 0 where it has none of the tags that `judge` accepts. Nothing else of the file is
/// looked at.
pub fn channels(file: &[u8]) -> u32 {
    // SAFETY: the pointer is good for its length.
    unsafe { sys::lampthistle_channels(file.as_ptr(), file.len()) }
}
