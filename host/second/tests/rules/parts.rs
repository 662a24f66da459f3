//! A stream played from one of its ticks on: the frames are those of the whole play.

use crate::common::*;
use second::generate::draft::Draft;
use second::{play_stream, play_stream_from, Answer};

/// What a room holds before a call.
const OLD: i16 = 9;

/// A call's answer, and what it left in a room of so many numbers.
fn left(draft: &Draft, stream: &[u8], from: u32, room: usize) -> (Answer, Vec<i16>) {
    let mut out = vec![OLD; room];
    let answer = play_stream_from(stream, &draft.bytes(), from, &mut out);
    (answer, out)
}

/// Plays from every tick of a stream whose ticks have these frames: all that follow, one tick, and
/// into a room one number short. Each is as in the whole play, whose numbers are given.
fn as_in_the_whole(draft: &Draft, stream: &[u8], lengths: &[usize]) -> Vec<i16> {
    let mut whole = vec![OLD; 2 * lengths.iter().sum::<usize>()];
    let all = lengths.len() as u64;
    assert_eq!(play_stream(stream, &draft.bytes(), &mut whole), played(all));
    let mut begin = 0;
    for (from, frames) in (0..).zip(lengths) {
        let end = begin + 2 * frames;
        let rest = left(draft, stream, from, whole.len() - begin);
        let ticks = played(all - u64::from(from));
        assert!(rest == (ticks, whole[begin..].to_vec()), "from {from}");
        let one = left(draft, stream, from, end - begin);
        assert!(
            one == (played(1), whole[begin..end].to_vec()),
            "tick {from}"
        );
        let none = left(draft, stream, from, end - begin - 1);
        assert!(none == (played(0), vec![OLD; end - begin - 1]), "{from}");
        begin = end;
    }
    whole
}

/// Bytes of which no two neighbours are the same, and none is 0.
fn jagged(length: usize) -> Vec<u8> {
    (0..length).map(|k| (1 + 37 * k % 251) as u8).collect()
}

/// Sample 1 has so many jagged bytes.
fn with_sample(length: usize) -> Draft {
    let mut draft = Draft::empty();
    draft.add_sample(1, 64, &jagged(length));
    draft
}

/// Sample 1 has 600 jagged bytes, and those from 200 to 400 are repeated.
fn with_loop() -> Draft {
    let mut draft = Draft::empty();
    draft.add_looped(1, 64, 100, 100, &jagged(600));
    draft
}

/// A record at tempo 125 that starts sample 1 on channel 1.
fn start(period: u16, offset: u8) -> [u8; 8] {
    let [high, low] = period.to_be_bytes();
    [1, 125, 1, 64, high, low, 1, offset]
}

/// A stream of version 2: a start, and then so many ticks at tempo 125 without a command.
fn held(period: u16, ticks: usize) -> Vec<u8> {
    let records = [&start(period, 0)[..], &[0, 125].repeat(ticks)].concat();
    stream(2, ticks as u32 + 1, &records)
}

#[test]
fn from_0_is_the_whole() {
    let stream = held(428, 3);
    for room in [0, 1, 1_919, 1_920, 7_679, 7_680, 9_000] {
        let mut out = vec![OLD; room];
        let answer = play_stream(&stream, &with_loop().bytes(), &mut out);
        assert!(left(&with_loop(), &stream, 0, room) == (answer, out));
    }
}

#[test]
fn past_the_last_tick_there_is_nothing_to_play() {
    for (ticks, first) in [(0, 0), (1, 1), (3, 3)] {
        let stream = stream(2, ticks, &[0, 125].repeat(ticks as usize));
        for from in [first, first + 1, 65_536, u32::MAX - 1, u32::MAX] {
            for room in [0, 1, 1_920, 9_000] {
                let nothing = (played(0), vec![OLD; room]);
                assert!(left(&song(), &stream, from, room) == nothing, "from {from}");
            }
        }
    }
}

#[test]
fn a_held_note_goes_on() {
    // At period 856 the 600 bytes last 6,953 frames.
    let whole = as_in_the_whole(&with_sample(600), &held(856, 5), &[960; 6]);
    assert!(whole[5 * 1_920..].iter().any(|&number| number != 0));
}

#[test]
fn a_loop_wraps_before_and_after() {
    // At period 113 the loop's 200 bytes last 306 frames: it wraps in every tick.
    let whole = as_in_the_whole(&with_loop(), &held(113, 4), &[960; 5]);
    assert!(whole[4 * 1_920..].iter().any(|&number| number != 0));
}

#[test]
fn a_voice_that_ended_stays_stopped() {
    // Period 428: the 40 bytes end in frame 231 of the first tick.
    let whole = as_in_the_whole(&with_sample(40), &held(428, 2), &[960; 3]);
    assert!(whole[2 * 231] != 0 && whole[2 * 232..].iter().all(|&number| number == 0));
}

#[test]
fn a_voice_ends_in_the_last_frame_before() {
    // Period 128: 554 bytes are 960 steps.
    let whole = as_in_the_whole(&with_sample(554), &held(128, 2), &[960; 3]);
    assert!(whole[1_918] != 0 && whole[1_920..].iter().all(|&number| number == 0));
}

#[test]
fn a_voice_ends_in_the_first_frame() {
    // Period 129: 550 bytes are 961 steps.
    let whole = as_in_the_whole(&with_sample(550), &held(129, 2), &[960; 3]);
    assert!(whole[1_920] != 0 && whole[1_922..].iter().all(|&number| number == 0));
}

#[test]
fn registers_of_the_ticks_before_hold() {
    // Volume and period change without a start, then the period is 0 for a tick.
    let records = [
        &start(428, 1)[..],
        &[1, 125, 1, 20, 1, 0, 0, 0],
        &[1, 125, 1, 20, 0, 0, 0, 0],
        &[1, 125, 1, 30, 0, 200, 0, 0],
        &[0, 125],
    ];
    let stream = stream(2, 5, &records.concat());
    let whole = as_in_the_whole(&with_loop(), &stream, &[960; 5]);
    assert!(whole[3_840..5_760].iter().all(|&number| number == 0));
    assert!(whole[7_680..].iter().any(|&number| number != 0));
}

#[test]
fn a_start_at_the_tick_begins_anew() {
    let records = [start(428, 0), start(300, 0), start(300, 1)];
    let stream = stream(2, 3, &records.concat());
    let whole = as_in_the_whole(&with_sample(600), &stream, &[960; 3]);
    // The first two bytes are silent.
    assert!(whole[1_920] == 0 && whole[3_840] != 0);
}

/// Ticks at these tempos, in the first of which a looped sample starts.
fn at_tempos(version: u8, tempos: &[u8]) -> Vec<u8> {
    let mut records = start(428, 0).to_vec();
    records[1] = tempos[0];
    records.extend(tempos[1..].iter().flat_map(|&tempo| [0, tempo]));
    stream(version, tempos.len() as u32, &records)
}

#[test]
fn remainders_are_carried_and_dropped_as_in_the_whole() {
    for (tempos, lengths) in [
        ([255; 6], [470, 471, 470, 471, 470, 471]),
        ([254; 6], [472, 472, 473, 472, 473, 472]),
        // Changes at a tick, before and after it.
        (
            [255, 254, 254, 254, 255, 255],
            [470, 472, 472, 473, 470, 471],
        ),
        (
            [255, 255, 254, 255, 255, 32],
            [470, 471, 472, 470, 471, 3_750],
        ),
        (
            [33, 33, 33, 125, 33, 33],
            [3_636, 3_636, 3_637, 960, 3_636, 3_636],
        ),
    ] {
        as_in_the_whole(&with_loop(), &at_tempos(2, &tempos), &lengths);
    }
}

#[test]
fn by_version_1_there_is_no_remainder() {
    for (tempos, lengths) in [
        ([255; 4], [470; 4]),
        ([254, 255, 255, 254], [472, 470, 470, 472]),
        ([33, 33, 33, 125], [3_636, 3_636, 3_636, 960]),
    ] {
        as_in_the_whole(&with_loop(), &at_tempos(1, &tempos), &lengths);
    }
}

#[test]
fn a_room_takes_the_most_whole_ticks() {
    // 471, 470 and 471 frames from tick 1 on.
    let stream = at_tempos(2, &[255; 4]);
    for (room, ticks, filled) in [
        (0, 0, 0),
        (941, 0, 0),
        (942, 1, 942),
        (1_881, 1, 942),
        (1_882, 2, 1_882),
        (2_823, 2, 1_882),
        (2_824, 3, 2_824),
        (9_999, 3, 2_824),
    ] {
        let (answer, out) = left(&with_loop(), &stream, 1, room);
        assert_eq!(answer, played(ticks), "room {room}");
        assert!(out[filled..].iter().all(|&number| number == OLD));
    }
}

#[test]
fn refusals_are_those_of_the_whole_from_any_tick() {
    let good = song();
    let mut bad = song();
    bad.put(0, 63, 3, 0, 112, 0);
    let records = [0, 125, 0, 125, 0, 31];
    let (legal, version) = (stream(2, 2, &records[..4]), stream(4, 3, &records));
    let record = stream(2, 3, &records);
    for from in [0, 1, 2, 3, u32::MAX] {
        for (draft, stream, answer) in [
            (&bad, &legal, refused(9, 2_104)),
            (&bad, &record, refused(9, 2_104)),
            (&good, &Vec::new(), refused(21, 0)),
            (&good, &version, refused(22, 4)),
            (&good, &record, refused(23, 13)),
        ] {
            let untouched = (answer, vec![OLD; 4_000]);
            assert!(left(draft, stream, from, 4_000) == untouched, "from {from}");
        }
    }
}
