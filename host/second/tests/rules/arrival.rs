//! The board that is fed: what it takes and plays, however its stream is cut, and its closing.

mod faults;
mod header;
mod legal;

use crate::common::{counted, played, refused, song, song_of, stream, ACCEPTED};
use second::{board_close, board_feed, board_fresh, play_stream, Answer, Fed, BOARD_CELLS};

type Board = [u32; BOARD_CELLS];

/// The board's cells.
const PLACE: usize = 0;
const KEPT: usize = 2;
const BYTES: usize = 3;
const FOLLOW: usize = 16;
const VERSION: usize = 17;
const CHANNELS: usize = 18;
const TICKS: usize = 19;
const RECORDS: usize = 20;
const NUMBER: usize = 21;
const FAULT: usize = 22;
const TEMPO: usize = 24;
const REMAINDER: usize = 25;

/// A voice's cells, channels counted from 1.
fn voice(channel: usize) -> std::ops::Range<usize> {
    let first = 26 + 6 * (channel - 1);
    first..first + 6
}

/// A tick without a command has 960 frames.
const EMPTY: [u8; 2] = [0, 125];
const EMPTY_NUMBERS: usize = 1_920;
/// Channel 1 starts sample 2.
const NOTE: [u8; 8] = [1, 125, 2, 64, 1, 172, 1, 0];
/// What lent buffers hold beforehand.
const UNTOUCHED: i16 = 12_345;

fn fed(answer: Answer, taken: u64) -> Fed {
    Fed { answer, taken }
}

/// A fault with the ticks that were played before it.
fn fault(number: u64, place: u64, count: u64) -> Answer {
    Answer {
        number,
        place,
        count,
    }
}

/// Feeds with room for ten ticks.
fn feed(file: &[u8], board: &mut Board, bytes: &[u8]) -> Fed {
    board_feed(file, board, bytes, &mut [0; 10 * EMPTY_NUMBERS])
}

/// The answer to these bytes on a fresh board, and the board.
fn begun(file: &[u8], bytes: &[u8]) -> (Fed, Board) {
    let mut board = board_fresh();
    (feed(file, &mut board, bytes), board)
}

/// A number in two cells.
fn place_in(board: &Board, cell: usize) -> u64 {
    u64::from(board[cell]) + (u64::from(board[cell + 1]) << 32)
}

/// The kept fault's number and place.
fn kept_fault(board: &Board) -> (u32, u64) {
    (board[NUMBER], place_in(board, FAULT))
}

/// Place and bytes kept of the open header or record.
fn open(board: &Board) -> (u64, u32) {
    (place_in(board, PLACE), board[KEPT])
}

/// The kept cells' first bytes.
fn bytes_in(board: &Board, count: usize) -> Vec<u8> {
    let cells = board[BYTES..FOLLOW].iter();
    let bytes = cells.flat_map(|cell| cell.to_le_bytes());
    bytes.take(count).collect()
}

#[test]
fn a_fresh_board_is_0_with_stopped_voices() {
    let mut expected = [0; BOARD_CELLS];
    for channel in 1..=8 {
        expected[voice(channel).end - 1] = 1;
    }
    assert_eq!(board_fresh(), expected);
}

#[test]
fn a_header_is_kept_until_its_last_byte_is_in() {
    let file = song().bytes();
    let older = stream(2, 3, &EMPTY.repeat(3));
    let counted = counted(4, 3, &EMPTY.repeat(3));
    for (stream, length, version) in [(older, 9, 2), (counted, 10, 3)] {
        for kept in 0..length {
            let (answer, board) = begun(&file, &stream[..kept]);
            assert_eq!(answer, fed(ACCEPTED, kept as u64));
            assert_eq!(open(&board), (0, kept as u32));
            assert_eq!(bytes_in(&board, kept), stream[..kept]);
            assert_eq!(board[FOLLOW..=RECORDS], [0; 5]);
        }
        let (answer, board) = begun(&file, &stream[..length]);
        assert_eq!(answer, fed(ACCEPTED, length as u64));
        assert_eq!(open(&board), (length as u64, 0));
        let follow = stream.len() as u32 - 4;
        // The byte after the version, which is the count of channels from version 3 on.
        let channels = stream[5].into();
        assert_eq!(board[FOLLOW..=RECORDS], [follow, version, channels, 3, 0]);
        assert_eq!(bytes_in(&board, length), stream[..length]);
    }
}

#[test]
fn a_record_is_played_when_its_last_byte_is_in() {
    let file = song().bytes();
    let stream = stream(2, 2, &[&NOTE[..], &EMPTY].concat());
    let (_, mut board) = begun(&file, &stream[..9]);
    let mut out = [UNTOUCHED; EMPTY_NUMBERS + 1];
    let answer = board_feed(&file, &mut board, &NOTE[..7], &mut out);
    assert_eq!(answer, fed(ACCEPTED, 7));
    assert_eq!((open(&board), board[RECORDS]), ((9, 7), 0));
    assert_eq!(bytes_in(&board, 9), [&NOTE[..7], &stream[7..9]].concat());
    assert_eq!(board[voice(1)], [0, 0, 0, 0, 0, 1]);
    assert_eq!(out, [UNTOUCHED; EMPTY_NUMBERS + 1]);
    let answer = board_feed(&file, &mut board, &NOTE[7..], &mut out);
    assert_eq!(answer, fed(played(1), 1));
    assert_eq!((open(&board), board[RECORDS]), ((17, 0), 1));
    assert_eq!((board[TEMPO], board[REMAINDER]), (125, 0));
    // 960 steps of 11,314 are 165 bytes and 48,000 of 65,536.
    assert_eq!(board[voice(1)], [2, 428, 64, 165, 48_000, 0]);
    assert_eq!(out[EMPTY_NUMBERS - 2..], [6_400, 0, UNTOUCHED]);
    assert_eq!(bytes_in(&board, 9), [&NOTE[..], &stream[8..9]].concat());
}

#[test]
fn a_tick_that_does_not_fit_leaves_its_last_byte() {
    let file = song().bytes();
    let stream = stream(2, 2, &[&NOTE[..], &EMPTY].concat());
    for short in [0, 1, EMPTY_NUMBERS - 1] {
        let mut board = board_fresh();
        let mut out = vec![UNTOUCHED; short];
        let answer = board_feed(&file, &mut board, &stream, &mut out);
        assert_eq!(answer, fed(ACCEPTED, 16));
        assert_eq!((open(&board), board[RECORDS]), ((9, 7), 0));
        assert_eq!(board, begun(&file, &stream[..16]).1);
        assert_eq!(out, vec![UNTOUCHED; short]);
        // The same byte again, still without room, then with it.
        let answer = board_feed(&file, &mut board, &stream[16..], &mut out);
        assert_eq!(answer, fed(ACCEPTED, 0));
        assert_eq!(feed(&file, &mut board, &stream[16..]), fed(played(2), 3));
        assert_eq!(board, begun(&file, &stream).1);
    }
    // Room for one tick, and a number more or less than for two.
    for (room, ticks, taken) in [
        (1_920, 1, 18),
        (3_839, 1, 18),
        (3_840, 2, 19),
        (3_841, 2, 19),
    ] {
        let mut board = board_fresh();
        let mut out = vec![UNTOUCHED; room];
        let answer = board_feed(&file, &mut board, &stream, &mut out);
        assert_eq!(answer, fed(played(ticks), taken));
        let written = EMPTY_NUMBERS * ticks as usize;
        assert!(out[written..].iter().all(|&number| number == UNTOUCHED));
    }
}

/// A stream of each version, with tempos that leave something over.
fn streams() -> Vec<Vec<u8>> {
    let records = [
        &[1, 255, 2, 64, 1, 172, 1, 0][..],
        &[0, 255],
        &[3, 255, 2, 30, 1, 100, 0, 0, 1, 64, 0, 200, 1, 0],
        &[0, 254],
        &[2, 254, 0, 0, 0, 0, 1, 5],
        &[0, 254],
    ];
    let records = records.concat();
    vec![
        stream(1, 6, &records),
        stream(2, 6, &records),
        counted(4, 6, &records),
    ]
}

#[test]
fn however_a_stream_is_cut_frames_and_state_are_those_of_the_whole() {
    let file = song().bytes();
    for stream in streams() {
        let mut whole = vec![UNTOUCHED; 12_000];
        assert_eq!(play_stream(&stream, &file, &mut whole), played(6));
        let mut once = vec![UNTOUCHED; 12_000];
        let mut last = board_fresh();
        let answer = board_feed(&file, &mut last, &stream, &mut once);
        assert_eq!(answer, fed(played(6), stream.len() as u64));
        assert_eq!(once, whole);
        let written = whole.iter().filter(|&&number| number != UNTOUCHED).count();
        for size in 1..stream.len() {
            let mut board = board_fresh();
            let mut frames: Vec<i16> = Vec::new();
            for piece in stream.chunks(size) {
                let mut out = vec![UNTOUCHED; 12_000];
                let answer = board_feed(&file, &mut board, piece, &mut out);
                assert_eq!(
                    (answer.answer.number, answer.taken),
                    (0, piece.len() as u64)
                );
                frames.extend(out.iter().take_while(|&&number| number != UNTOUCHED));
            }
            assert_eq!(frames, whole[..written], "pieces of {size}");
            assert_eq!(board, last, "pieces of {size}");
        }
    }
}

#[test]
fn the_remainder_goes_on_over_calls_and_version_1_leaves_it_alone() {
    let file = song().bytes();
    let records = [0, 255].repeat(3);
    // 470 frames leave 150, then 471 leave 45.
    let (_, board) = begun(&file, &stream(2, 3, &records)[..13]);
    assert_eq!((board[TEMPO], board[REMAINDER]), (255, 45));
    let (_, board) = begun(&file, &stream(1, 3, &records));
    assert_eq!((board[TEMPO], board[REMAINDER]), (0, 0));
    // A remainder of another tick: of the same tempo it counts, unless in version 1.
    for (version, tempo, numbers, left) in [
        (1, 254, 2 * 472, (254, 253)),
        (1, 255, 2 * 470, (254, 253)),
        (2, 254, 2 * 473, (254, 111)),
        (2, 255, 2 * 470, (255, 150)),
    ] {
        let stream = stream(version, 1, &[0, tempo]);
        let mut board = board_fresh();
        (board[TEMPO], board[REMAINDER]) = (254, 253);
        let mut out = vec![UNTOUCHED; 1_000];
        let answer = board_feed(&file, &mut board, &stream, &mut out);
        assert_eq!(answer, fed(played(1), 11));
        assert_eq!((board[TEMPO], board[REMAINDER]), left);
        let written = out.iter().filter(|&&number| number != UNTOUCHED).count();
        assert_eq!(written, numbers);
    }
}

#[test]
fn an_empty_call_changes_nothing() {
    let file = song().bytes();
    let stream = &streams()[1];
    for length in 0..=stream.len() {
        let (_, before) = begun(&file, &stream[..length]);
        let mut board = before;
        assert_eq!(feed(&file, &mut board, &[]), fed(ACCEPTED, 0));
        assert_eq!(board, before);
    }
}

#[test]
fn closing_after_the_end_changes_nothing() {
    let file = song().bytes();
    for stream in streams() {
        let (_, before) = begun(&file, &stream);
        let mut board = before;
        for _ in 0..2 {
            assert_eq!(board_close(&file, &mut board), ACCEPTED);
            assert_eq!(board, before);
        }
    }
}

#[test]
fn closing_short_gives_21_at_the_bytes_taken_and_is_kept() {
    let file = song().bytes();
    for stream in streams() {
        for length in 0..stream.len() {
            let (_, before) = begun(&file, &stream[..length]);
            let mut board = before;
            let refusal = refused(21, length as u64);
            assert_eq!(board_close(&file, &mut board), refusal);
            let mut expected = before;
            expected[NUMBER] = 21;
            expected[FAULT] = length as u32;
            assert_eq!(board, expected);
            // It is repeated by both calls.
            assert_eq!(board_close(&file, &mut board), refusal);
            assert_eq!(feed(&file, &mut board, &stream[length..]), fed(refusal, 0));
            assert_eq!(board, expected);
        }
    }
}

#[test]
fn closing_while_a_good_last_byte_waits_is_closing_short() {
    let file = song().bytes();
    let stream = stream(2, 1, &NOTE);
    let mut board = board_fresh();
    let answer = board_feed(&file, &mut board, &stream, &mut []);
    assert_eq!(answer, fed(ACCEPTED, 16));
    assert_eq!(board_close(&file, &mut board), refused(21, 16));
}

#[test]
fn six_and_eight_channels_are_fed_alike() {
    for (tag, channels) in [(b"6CHN", 6), (b"8CHN", 8)] {
        let file = song_of(tag).bytes();
        let mask = 1 << (channels - 1);
        let records = [&[mask, 125, 2, 64, 1, 172, 1, 0][..], &EMPTY].concat();
        let stream = counted(channels, 2, &records);
        let mut whole = [0; 2 * EMPTY_NUMBERS];
        assert_eq!(play_stream(&stream, &file, &mut whole), played(2));
        let mut board = board_fresh();
        let mut out = [0; 2 * EMPTY_NUMBERS];
        let answer = board_feed(&file, &mut board, &stream, &mut out);
        assert_eq!(answer, fed(played(2), 20));
        assert_eq!(out, whole);
        assert_eq!(board[voice(channels.into())][..3], [2, 428, 64]);
        assert_eq!(board[CHANNELS], channels.into());
    }
}
