//! Tick streams: translating a module, and playing a stream as the sound board does.
use crate::{sys, Answer};

/// The most ticks that one translation takes.
pub const MOST_TICKS: u32 = 65_535;

/// Writes the stream, of version 3, of the module's first `ticks` ticks into `room` and counts its bytes. Room past them stays. Where the
/// room is too short, the place is the length needed: an empty room asks for it.
pub fn translate(file: &[u8], ticks: u32, room: &mut [u8]) -> Answer {
    let mut answer = [0; 3];
    // SAFETY: the pointers are good for their lengths, and the exclusive borrow keeps the room apart from the file.
    unsafe {
        sys::lampthistle_translate(
            file.as_ptr(),
            file.len(),
            ticks,
            room.as_mut_ptr(),
            room.len(),
            &mut answer,
        )
    };
    Answer::from_cells(answer)
}

/// Plays the largest number of the ticks of a stream whose frames fit into `out`, with the samples of the module in `file`, and counts
/// them. The rest of `out` stays. It begins at the stream's first tick, with stopped voices and remainder 0.
pub fn play_stream(stream: &[u8], file: &[u8], out: &mut [i16]) -> Answer {
    let mut answer = [0; 3];
    // SAFETY: the pointers are good for their lengths, and the exclusive borrow keeps `out` apart from the others.
    unsafe {
        sys::lampthistle_play_stream(
            stream.as_ptr(),
            stream.len(),
            file.as_ptr(),
            file.len(),
            out.as_mut_ptr(),
            out.len(),
            &mut answer,
        )
    };
    Answer::from_cells(answer)
}

/// Plays as `play_stream` does, but from tick `from` on, counted from 0: the largest number of whole ticks, beginning with that one, whose
/// frames fit into `out`. The ticks before it move voices and remainder, but are not written. Where there is no such tick nothing is played.
pub fn play_stream_from(stream: &[u8], file: &[u8], from: u32, out: &mut [i16]) -> Answer {
    let mut answer = [0; 3];
    // SAFETY: the pointers are good for their lengths, and the exclusive borrow keeps `out` apart from the others.
    unsafe {
        sys::lampthistle_play_stream_from(
            stream.as_ptr(),
            stream.len(),
            file.as_ptr(),
            file.len(),
            from,
            out.as_mut_ptr(),
            out.len(),
            &mut answer,
        )
    };
    Answer::from_cells(answer)
}
