//! The faults that records show, and the bytes left and over.

use super::*;

/// A first record that plays, and this one after it; more bytes follow.
fn after_a_tick(record: &[u8]) -> Vec<u8> {
    stream(2, 9, &[&EMPTY[..], record, &[0; 60]].concat())
}

/// Byte `last` of the record shows that it is bad, and none before it does.
fn shown_by(record: &[u8], last: usize) {
    let file = song().bytes();
    let stream = after_a_tick(record);
    let (answer, board) = begun(&file, &stream);
    assert_eq!(
        answer,
        fed(fault(23, 11, 1), 12 + last as u64),
        "{record:?}"
    );
    assert_eq!(open(&board), (11, last as u32 + 1), "{record:?}");
    assert_eq!(bytes_in(&board, last + 1), record[..=last]);
    assert_eq!((kept_fault(&board), board[RECORDS]), ((23, 11), 1));
    let before = 11 + last;
    let (answer, board) = begun(&file, &stream[..before]);
    assert_eq!(answer, fed(played(1), before as u64), "{record:?}");
    assert_eq!(kept_fault(&board), (0, 0));
}

#[test]
fn each_number_is_shown_by_its_last_byte() {
    for (record, last) in [
        ([16, 125, 1, 64, 1, 172, 1, 0], 0),
        ([255, 31, 1, 64, 1, 172, 1, 0], 0),
        ([1, 31, 1, 64, 1, 172, 1, 0], 1),
        ([0, 0, 0, 0, 0, 0, 0, 0], 1),
        ([1, 125, 32, 64, 1, 172, 1, 0], 2),
        ([1, 125, 1, 65, 1, 172, 1, 0], 3),
        ([1, 125, 1, 64, 0, 107, 1, 0], 5),
        ([1, 125, 1, 64, 3, 140, 1, 0], 5),
        ([1, 125, 1, 64, 255, 255, 1, 0], 5),
        ([1, 125, 1, 64, 4, 0, 1, 0], 5),
        ([1, 125, 1, 64, 1, 172, 2, 0], 6),
        // A changed sample without a start.
        ([1, 125, 1, 64, 1, 172, 0, 0], 6),
        // An offset without a start.
        ([1, 125, 0, 64, 1, 172, 0, 1], 7),
    ] {
        shown_by(&record, last);
    }
}

#[test]
fn later_commands_are_judged_as_the_first() {
    let first = [3, 125, 1, 64, 1, 172, 1, 0];
    for (second, last) in [
        ([32, 64, 1, 172, 1, 0], 8),
        ([1, 65, 1, 172, 1, 0], 9),
        ([1, 64, 3, 140, 1, 0], 11),
        ([1, 64, 1, 172, 2, 0], 12),
        ([1, 64, 1, 172, 0, 0], 12),
        ([0, 64, 1, 172, 0, 255], 13),
    ] {
        shown_by(&[&first[..], &second].concat(), last);
    }
}

#[test]
fn a_sample_is_held_against_its_own_channel_s_register() {
    let file = song().bytes();
    // Channels 2 and 4 start samples 5 and 7; then both set their bits again.
    let first = [10, 125, 5, 64, 1, 172, 1, 0, 7, 64, 1, 172, 1, 0];
    let again = [10, 125, 5, 0, 0, 0, 0, 0, 7, 0, 0, 0, 0, 0];
    let changed = [8, 125, 5, 0, 0, 0, 0, 0];
    let good = stream(2, 2, &[first, again].concat());
    assert_eq!(begun(&file, &good).0, fed(played(2), 37));
    let bad = stream(2, 2, &[&first[..], &changed].concat());
    assert_eq!(begun(&file, &bad).0, fed(fault(23, 23, 1), 30));
}

#[test]
fn a_byte_left_over_is_shown_by_itself() {
    let file = song().bytes();
    for left in [&[0][..], &[0, 125], &[255; 7]] {
        let stream = stream(2, 1, &[&NOTE[..], left].concat());
        let (_, before) = begun(&file, &stream[..17]);
        let (answer, mut board) = begun(&file, &stream);
        assert_eq!(answer, fed(fault(23, 17, 1), 18));
        // It is kept as a record's first byte is.
        let mut expected = before;
        (expected[NUMBER], expected[FAULT]) = (23, 17);
        expected[KEPT] = 1;
        expected[BYTES] = expected[BYTES] - expected[BYTES] % 256 + u32::from(left[0]);
        assert_eq!(board, expected);
        assert_eq!(board_close(&file, &mut board), refused(23, 17));
        // Without it the stream is closed short.
        let mut board = before;
        assert_eq!(board_close(&file, &mut board), refused(21, 17));
    }
}

#[test]
fn an_open_record_at_the_declared_end_is_bad() {
    let file = song().bytes();
    for kept in 1..8 {
        let stream = stream(2, 2, &[&EMPTY[..], &NOTE[..kept]].concat());
        let length = stream.len() as u64;
        let (answer, board) = begun(&file, &stream);
        assert_eq!(answer, fed(fault(23, 11, 1), length));
        assert_eq!(open(&board), (11, kept as u32));
    }
}

#[test]
fn a_missing_record_comes_after_the_last_one_s_tick() {
    let file = song().bytes();
    let stream = stream(2, 3, &[&EMPTY[..], &NOTE].concat());
    let mut out = [UNTOUCHED; 2 * EMPTY_NUMBERS];
    let mut board = board_fresh();
    let answer = board_feed(&file, &mut board, &stream, &mut out);
    assert_eq!(answer, fed(fault(23, 19, 2), 19));
    assert_eq!((open(&board), board[RECORDS]), ((19, 0), 2));
    assert_eq!(out[2 * EMPTY_NUMBERS - 2..], [6_400, 0]);
    // Where it doesn't fit, its last byte isn't taken and no fault shows.
    let mut board = board_fresh();
    let answer = board_feed(&file, &mut board, &stream, &mut [0; 2 * EMPTY_NUMBERS - 1]);
    assert_eq!(answer, fed(played(1), 18));
    assert_eq!((open(&board), board[NUMBER]), ((11, 7), 0));
    assert_eq!(
        feed(&file, &mut board, &NOTE[7..]),
        fed(fault(23, 19, 1), 1)
    );
}

#[test]
fn a_bad_last_byte_at_the_declared_end_has_the_record_s_place() {
    let file = song().bytes();
    let bad = [1, 125, 0, 64, 1, 172, 0, 1];
    let stream = stream(2, 3, &[&EMPTY[..], &bad].concat());
    assert_eq!(begun(&file, &stream).0, fed(fault(23, 11, 1), 19));
    assert_eq!(play_stream(&stream, &file, &mut []), refused(23, 11));
}

#[test]
fn a_bad_last_byte_is_given_and_counted_without_room() {
    let file = song().bytes();
    for (record, taken) in [(&[0, 31][..], 11), (&[1, 125, 0, 64, 1, 172, 0, 1], 17)] {
        let stream = stream(2, 1, record);
        let mut board = board_fresh();
        let answer = board_feed(&file, &mut board, &stream, &mut []);
        assert_eq!(answer, fed(refused(23, 9), taken));
        assert_eq!(open(&board), (9, record.len() as u32));
        // As many bytes as the record has are kept, and the fault is repeated.
        assert_eq!(feed(&file, &mut board, &EMPTY), fed(refused(23, 9), 0));
    }
}

#[test]
fn the_first_byte_over_gives_21_and_is_counted_in_the_place() {
    let file = song().bytes();
    let stream = stream(2, 1, &NOTE);
    let (_, before) = begun(&file, &stream);
    for over in [&[0][..], &[0, 125, 7]] {
        let refusal = refused(21, 18);
        let mut expected = before;
        (expected[NUMBER], expected[FAULT]) = (21, 18);
        let (answer, board) = begun(&file, &[&stream, over].concat());
        assert_eq!(answer, fed(fault(21, 18, 1), 17));
        assert_eq!(board, expected);
        let mut board = before;
        assert_eq!(feed(&file, &mut board, over), fed(refusal, 0));
        assert_eq!(board, expected);
        assert_eq!(board_close(&file, &mut board), refusal);
        assert_eq!(board, expected);
    }
}

#[test]
fn earlier_frames_stand_and_later_calls_repeat_the_fault() {
    let file = song().bytes();
    let stream = stream(2, 9, &[&NOTE[..], &EMPTY, &[0, 31], &EMPTY].concat());
    let good = &stream[..19];
    let mut frames = [UNTOUCHED; 3 * EMPTY_NUMBERS];
    board_feed(&file, &mut board_fresh(), good, &mut frames);
    let mut board = board_fresh();
    let mut out = [UNTOUCHED; 3 * EMPTY_NUMBERS];
    let answer = board_feed(&file, &mut board, &stream, &mut out);
    assert_eq!(answer, fed(fault(23, 19, 2), 21));
    assert_eq!(out, frames);
    assert_eq!(out[2 * EMPTY_NUMBERS..], [UNTOUCHED; EMPTY_NUMBERS]);
    let kept = board;
    for bytes in [&[][..], &EMPTY, &stream] {
        let answer = board_feed(&file, &mut board, bytes, &mut out);
        assert_eq!(answer, fed(refused(23, 19), 0));
        assert_eq!((board, out), (kept, frames));
        assert_eq!(board_close(&file, &mut board), refused(23, 19));
        assert_eq!(board, kept);
    }
    // Shown in a call of its own, it comes without a tick.
    let (_, mut board) = begun(&file, good);
    assert_eq!(
        feed(&file, &mut board, &stream[19..]),
        fed(refused(23, 19), 2)
    );
    assert_eq!(board, kept);
}

#[test]
fn the_mask_s_bits_are_the_module_s_channels() {
    for (tag, channels) in [(b"M.K.", 4), (b"6CHN", 6), (b"8CHN", 8)] {
        let file = song_of(tag).bytes();
        for bit in 0..8 {
            let record = [1 << bit, 125, 2, 64, 1, 172, 1, 0];
            let (answer, _) = begun(&file, &counted(channels, 1, &record));
            let expected = if bit < channels {
                fed(played(1), 18)
            } else {
                fed(refused(23, 10), 11)
            };
            assert_eq!(answer, expected);
        }
    }
}
