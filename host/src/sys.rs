//! The library's calls as `include/lampthistle.h` declares them.
use crate::{BOARD_CELLS, STATE_CELLS};

type State = [u32; STATE_CELLS];
type Board = [u32; BOARD_CELLS];
type Answer = [u64; 3];
/// An answer, and the bytes taken.
type Fed = [u64; 4];
type Pair = [f32; 2];

extern "C" {
    pub fn lampthistle_version() -> u32;
    pub fn lampthistle_judge(file: *const u8, file_len: usize, answer: *mut Answer);
    pub fn lampthistle_channels(file: *const u8, file_len: usize) -> u32;
    pub fn lampthistle_fresh(state: *mut State);
    pub fn lampthistle_play(
        file: *const u8,
        file_len: usize,
        state: *mut State,
        ticks: u32,
        out: *mut i16,
        out_len: usize,
        answer: *mut Answer,
    );
    pub fn lampthistle_play_floats(
        file: *const u8,
        file_len: usize,
        state: *mut State,
        ticks: u32,
        sides: u32,
        out: *mut f32,
        out_len: usize,
        pair: *mut Pair,
        pair_tick: *mut u32,
        answer: *mut Answer,
    );
    pub fn lampthistle_touch(
        file: *const u8,
        file_len: usize,
        state: *mut State,
        page: u32,
        made: u32,
        position: u32,
        answer: *mut Answer,
    );
    pub fn lampthistle_touch_burst(
        file: *const u8,
        file_len: usize,
        state: *mut State,
        pages: *const u32,
        pages_len: usize,
        mades: *const u32,
        mades_len: usize,
        positions: *const u32,
        positions_len: usize,
        answers: *mut u32,
        answers_len: usize,
        answer: *mut Answer,
    );
    pub fn lampthistle_change_page(
        file: *const u8,
        file_len: usize,
        state: *mut State,
        answer: *mut Answer,
    );
    pub fn lampthistle_why_quiet(
        file: *const u8,
        file_len: usize,
        state: *const State,
        channel: u32,
        answer: *mut Answer,
    );
    pub fn lampthistle_translate(
        file: *const u8,
        file_len: usize,
        ticks: u32,
        room: *mut u8,
        room_len: usize,
        answer: *mut Answer,
    );
    pub fn lampthistle_play_stream(
        stream: *const u8,
        stream_len: usize,
        file: *const u8,
        file_len: usize,
        out: *mut i16,
        out_len: usize,
        answer: *mut Answer,
    );
    pub fn lampthistle_play_stream_floats(
        stream: *const u8,
        stream_len: usize,
        file: *const u8,
        file_len: usize,
        sides: u32,
        out: *mut f32,
        out_len: usize,
        pair: *mut Pair,
        pair_tick: *mut u32,
        answer: *mut Answer,
    );
    pub fn lampthistle_play_stream_from(
        stream: *const u8,
        stream_len: usize,
        file: *const u8,
        file_len: usize,
        from: u32,
        out: *mut i16,
        out_len: usize,
        answer: *mut Answer,
    );
    pub fn lampthistle_play_stream_floats_from(
        stream: *const u8,
        stream_len: usize,
        file: *const u8,
        file_len: usize,
        from: u32,
        sides: u32,
        out: *mut f32,
        out_len: usize,
        pair: *mut Pair,
        pair_tick: *mut u32,
        answer: *mut Answer,
    );
    pub fn lampthistle_board_fresh(board: *mut Board);
    pub fn lampthistle_board_feed(
        file: *const u8,
        file_len: usize,
        board: *mut Board,
        bytes: *const u8,
        bytes_len: usize,
        out: *mut i16,
        out_len: usize,
        answer: *mut Fed,
    );
    pub fn lampthistle_board_close(
        file: *const u8,
        file_len: usize,
        board: *mut Board,
        answer: *mut Answer,
    );
}
