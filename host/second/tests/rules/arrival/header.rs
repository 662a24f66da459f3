//! The faults that the header's bytes show.

use super::*;
use crate::common::with_length;

/// The header of these first number and version, the channel count byte if there is one, and
/// five ticks.
fn head(follow: u32, version: u8, count: &[u8]) -> Vec<u8> {
    [&follow.to_be_bytes()[..], &[version], count, &[0, 0, 0, 5]].concat()
}

/// Feeds these bytes: the last that is taken is byte `last`, which shows the fault and is kept. Of
/// those before it none shows a fault.
fn shown_by(file: &[u8], bytes: &[u8], last: usize, number: u64, place: u64) {
    let (answer, mut board) = begun(file, bytes);
    let taken = last as u64 + 1;
    assert_eq!(answer, fed(refused(number, place), taken), "{bytes:?}");
    assert_eq!(open(&board), (0, taken as u32), "{bytes:?}");
    assert_eq!(bytes_in(&board, last + 1), bytes[..=last]);
    assert_eq!(board[FOLLOW..=RECORDS], [0; 5], "{bytes:?}");
    assert_eq!(kept_fault(&board), (number as u32, place), "{bytes:?}");
    assert_eq!(begun(file, &bytes[..last]).0, fed(ACCEPTED, last as u64));
    let kept = board;
    assert_eq!(
        feed(file, &mut board, bytes),
        fed(refused(number, place), 0)
    );
    assert_eq!(board, kept);
}

#[test]
fn a_first_number_of_0_is_shown_by_the_fourth_byte() {
    shown_by(&song().bytes(), &head(0, 1, &[]), 3, 21, 4);
    shown_by(&song().bytes(), &[0, 0, 0, 0], 3, 21, 4);
}

#[test]
fn a_first_number_under_5_is_shown_at_the_declared_end() {
    let file = song().bytes();
    for version in [1, 2, 3] {
        for follow in 1..=4 {
            let length = 4 + follow;
            let bytes = head(follow, version, &[4]);
            shown_by(&file, &bytes, length as usize - 1, 21, length.into());
        }
    }
}

#[test]
fn a_version_is_shown_by_byte_4() {
    let file = song().bytes();
    for version in [0, 4, 5, 128, 255] {
        for follow in [2, 3, 4, 5, 6, 1_000, u32::MAX] {
            shown_by(&file, &head(follow, version, &[]), 4, 22, 4);
        }
        // The same byte is the declared end, and 21 is the smaller number.
        shown_by(&file, &head(1, version, &[]), 4, 21, 5);
    }
    // The whole is refused for its length.
    let seven = [0, 0, 0, 3, 9, 0, 0];
    assert_eq!(play_stream(&seven, &file, &mut []), refused(21, 7));
    shown_by(&file, &seven, 4, 22, 4);
}

#[test]
fn an_old_version_on_six_or_eight_channels_is_shown_by_byte_4() {
    for tag in [b"6CHN", b"8CHN"] {
        let file = song_of(tag).bytes();
        for version in [1, 2] {
            for follow in [2, 5, 100] {
                shown_by(&file, &head(follow, version, &[]), 4, 28, 4);
            }
            shown_by(&file, &head(1, version, &[]), 4, 21, 5);
        }
        shown_by(&file, &head(100, 4, &[]), 4, 22, 4);
    }
}

#[test]
fn a_wrong_channel_count_is_shown_by_byte_5() {
    for (tag, channels) in [(b"M.K.", 4), (b"6CHN", 6), (b"8CHN", 8)] {
        let file = song_of(tag).bytes();
        for count in [0, 1, 3, 4, 5, 6, 7, 8, 9, 255] {
            if count == channels {
                continue;
            }
            for follow in [3, 5, 6, 100] {
                shown_by(&file, &head(follow, 3, &[count]), 5, 28, 4);
            }
            shown_by(&file, &head(2, 3, &[count]), 5, 21, 6);
        }
    }
}

#[test]
fn nine_bytes_of_version_3_give_28() {
    for (tag, channels) in [(b"M.K.", 4), (b"6CHN", 6), (b"8CHN", 8)] {
        let file = song_of(tag).bytes();
        shown_by(&file, &head(5, 3, &[channels]), 8, 28, 4);
        shown_by(&file, &head(4, 3, &[channels]), 7, 21, 8);
    }
}

#[test]
fn a_header_alone_is_a_stream_without_ticks() {
    let file = song().bytes();
    for stream in [stream(1, 0, &[]), stream(2, 0, &[]), counted(4, 0, &[])] {
        let (answer, mut board) = begun(&file, &stream);
        assert_eq!(answer, fed(ACCEPTED, stream.len() as u64));
        assert_eq!(open(&board), (stream.len() as u64, 0));
        assert_eq!(board_close(&file, &mut board), ACCEPTED);
    }
}

#[test]
fn a_header_at_the_declared_end_misses_its_records() {
    let file = song().bytes();
    for ticks in [1, 2, u32::MAX] {
        for stream in [
            stream(1, ticks, &[]),
            stream(2, ticks, &[]),
            counted(4, ticks, &[]),
        ] {
            let length = stream.len() as u64;
            let refusal = refused(23, length);
            let (answer, mut board) = begun(&file, &stream);
            assert_eq!(answer, fed(refusal, length));
            assert_eq!((open(&board), board[TICKS]), ((length, 0), ticks));
            assert_eq!(kept_fault(&board), (23, length));
            assert_eq!(play_stream(&stream, &file, &mut []), refusal);
            assert_eq!(feed(&file, &mut board, &[0, 125]), fed(refusal, 0));
            assert_eq!(board_close(&file, &mut board), refusal);
        }
    }
}

#[test]
fn a_tick_count_past_the_declared_bytes_is_no_fault_before_their_end() {
    let file = song().bytes();
    let stream = with_length(&[&[2], &[255; 4], &EMPTY, &EMPTY]);
    assert_eq!(begun(&file, &stream[..12]).0, fed(played(1), 12));
    assert_eq!(begun(&file, &stream).0, fed(fault(23, 13, 2), 13));
}
