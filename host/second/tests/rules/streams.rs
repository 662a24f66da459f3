//! Translation, the stream's records and their refusals.

use crate::common::*;
use second::{decode, play_stream, tick_list, translate, Stream};

#[test]
fn translation_is_judged_11_before_12() {
    let file = song().bytes();
    assert_eq!(translate(&file, 65_536, &mut []), refused(11, 0));
    assert_eq!(
        translate(&file, 65_535, &mut []),
        refused(12, 10 + 2 * 65_535)
    );
    let mut room = [5; 9];
    assert_eq!(translate(&file, 0, &mut room), refused(12, 10));
    assert_eq!(room, [5; 9]);
    let mut room = [5; 11];
    assert_eq!(translate(&file, 0, &mut room), played(10));
    assert_eq!(room, [0, 0, 0, 6, 3, 4, 0, 0, 0, 0, 5]);
}

/// The answer to a stream of these records, with room for two ticks at tempo 125.
fn answer(count: u32, records: &[u8]) -> second::Answer {
    play_stream(&stream(2, count, records), &song().bytes(), &mut [0; 3_840])
}

#[test]
fn a_stream_has_9_bytes_and_the_length_it_says() {
    let file = song().bytes();
    for version in [1, 2] {
        let good = stream(version, 0, &[]);
        assert_eq!(play_stream(&good, &file, &mut []), played(0));
        for kept in 0..9 {
            let short = &good[..kept];
            assert_eq!(play_stream(short, &file, &mut []), refused(21, kept as u64));
        }
        // Eight bytes that say so themselves.
        assert_eq!(
            play_stream(&[0, 0, 0, 4, version, 0, 0, 0], &file, &mut []),
            refused(21, 8)
        );
        for wrong in [[0, 0, 0, 4], [0, 0, 0, 6], [1, 0, 0, 5]] {
            let mut stream = good.clone();
            stream[..4].copy_from_slice(&wrong);
            assert_eq!(play_stream(&stream, &file, &mut []), refused(21, 9));
        }
    }
}

#[test]
fn versions_other_than_1_to_3_are_refused() {
    let file = song().bytes();
    for version in 0..=255 {
        let expected = match version {
            1 | 2 => played(0),
            // Nine bytes are too few for its count of channels.
            3 => refused(28, 4),
            _ => refused(22, 4),
        };
        let nine = stream(version, 0, &[]);
        assert_eq!(play_stream(&nine, &file, &mut []), expected);
    }
    assert_eq!(play_stream(&counted(4, 0, &[]), &file, &mut []), played(0));
}

#[test]
fn a_version_is_judged_after_the_length_and_before_the_records() {
    let file = song().bytes();
    for version in [0, 4, 255] {
        let mut wrong = stream(version, 7, &[255]);
        assert_eq!(play_stream(&wrong, &file, &mut []), refused(22, 4));
        wrong[3] = 7;
        assert_eq!(play_stream(&wrong, &file, &mut []), refused(21, 10));
    }
}

#[test]
fn legal_numbers_of_a_record() {
    for good in [
        [1, 32, 31, 64, 3, 139, 1, 255],
        [1, 255, 0, 0, 0, 0, 1, 255],
        [8, 125, 0, 0, 0, 108, 0, 0],
        [4, 125, 0, 64, 0, 0, 0, 0],
    ] {
        assert_eq!(answer(1, &good).number, 0, "{good:?}");
    }
    for bad in [
        [16, 125, 1, 64, 1, 172, 1, 0],
        [1, 31, 1, 64, 1, 172, 1, 0],
        [1, 125, 32, 64, 1, 172, 1, 0],
        [1, 125, 1, 65, 1, 172, 1, 0],
        [1, 125, 1, 64, 0, 107, 1, 0],
        [1, 125, 1, 64, 3, 140, 1, 0],
        [1, 125, 1, 64, 1, 172, 2, 0],
        [1, 125, 1, 64, 1, 172, 0, 0],
        [1, 125, 0, 64, 1, 172, 0, 1],
    ] {
        assert_eq!(answer(1, &bad), refused(23, 9), "{bad:?}");
    }
}

#[test]
fn a_sample_is_held_against_the_register_before() {
    let first = [1, 125, 5, 64, 1, 172, 1, 0];
    let same = [1, 125, 5, 64, 1, 172, 0, 0];
    let other = [1, 125, 0, 64, 1, 172, 0, 0];
    let elsewhere = [2, 125, 5, 64, 1, 172, 0, 0];
    assert_eq!(answer(2, &[first, same].concat()), played(2));
    assert_eq!(answer(2, &[first, other].concat()), refused(23, 17));
    assert_eq!(answer(2, &[first, elsewhere].concat()), refused(23, 17));
}

#[test]
fn records_run_out_and_bytes_are_left() {
    let record = [1, 125, 1, 64, 1, 172, 1, 0];
    for kept in 0..8 {
        assert_eq!(answer(1, &record[..kept]), refused(23, 9), "kept {kept}");
    }
    assert_eq!(answer(2, &record), refused(23, 17));
    assert_eq!(answer(u32::MAX, &record), refused(23, 17));
    assert_eq!(answer(0, &record), refused(23, 9));
    assert_eq!(answer(1, &[0, 125, 0]), refused(23, 11));
}

#[test]
fn records_past_the_room_are_judged() {
    let file = song().bytes();
    let mut out = [3; 2_000];
    let bad = stream(2, 3, &[0, 125, 0, 125, 0, 31]);
    assert_eq!(play_stream(&bad, &file, &mut out), refused(23, 13));
    assert_eq!(out, [3; 2_000]);
    let good = stream(2, 3, &[0, 125, 0, 125, 0, 32]);
    assert_eq!(play_stream(&good, &file, &mut out), played(1));
    assert_eq!(out[..1_920], [0; 1_920]);
    assert_eq!(out[1_920..], [3; 80]);
}

#[test]
fn more_than_65535_ticks_may_be_played() {
    let records = [0, 255].repeat(65_536);
    assert_eq!(answer(65_536, &records), played(4));
}

#[test]
fn a_set_bit_without_change_plays_on() {
    let file = song().bytes();
    let first = [1, 125, 2, 64, 1, 172, 1, 1];
    let again = [1, 125, 2, 64, 1, 172, 0, 0];
    let mut with = [0; 3_840];
    let mut without = [0; 3_840];
    play_stream(&stream(2, 2, &[first, again].concat()), &file, &mut with);
    play_stream(
        &stream(2, 2, &[&first[..], &[0, 125]].concat()),
        &file,
        &mut without,
    );
    assert_eq!(with[3_000], 6_400);
    assert_eq!(with, without);
}

#[test]
fn decoding_gives_the_translated_ticks() {
    let draft = row(&[
        (2, 428, 0x047),
        (1, 300, 0x901),
        (0, 200, 0xA01),
        (0, 0, 0xF30),
    ]);
    let file = draft.bytes();
    let expected = Stream {
        version: 3,
        channels: 4,
        ticks: tick_list(&file, 9).expect("accepted"),
    };
    assert_eq!(decode(&translated(&file, 9), 4), Ok(expected));
}
