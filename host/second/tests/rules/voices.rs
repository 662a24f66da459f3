//! Voices and frames: sides, loops, ends, offsets and the fitting of whole ticks.

use crate::common::*;
use second::generate::draft::Draft;
use second::{fresh, growth, play, tick_list};

#[test]
fn channels_1_and_4_are_left_2_and_3_right() {
    for channel in 1..=4 {
        let mut draft = Draft::empty();
        draft.add_looped(1, 10, 1, 1_000, &[3; 2_100]);
        draft.put(0, 0, channel - 1, 1, 113, 0);
        let frames = &traces(&draft, 1)[0].frames;
        let expected = if channel == 1 || channel == 4 {
            [60, 0]
        } else {
            [0, 60]
        };
        assert_eq!(frames[1_918..], expected, "channel {channel}");
    }
}

#[test]
fn a_wrap_keeps_the_fraction() {
    let draft = row(&[(2, 428, 0)]);
    let cells = state_after(&draft, 6);
    let total = 6 * 960 * growth(428);
    assert!(total / 65_536 > 400);
    assert_eq!(cells[at(1, INDEX)], 200 + (total / 65_536 - 200) % 200);
    assert_eq!(cells[at(1, FRACTION)], total % 65_536);
}

#[test]
fn an_end_stops_and_keeps_the_sample_number() {
    let draft = row(&[(1, 428, 0)]);
    let cells = state_after(&draft, 1);
    assert_eq!(
        cells[at(1, SOUNDING)..at(2, LATCHED)],
        [1, 428, 40, 0, 0, 1]
    );
    // A stopped voice is no change in the stream's registers.
    let ticks = tick_list(&draft.bytes(), 2).expect("accepted");
    assert!(!ticks[1].commands[0].start);
    assert_eq!(ticks[1].commands[0].sample, 1);
}

#[test]
fn frames_before_and_after_the_end() {
    let draft = row(&[(1, 428, 0)]);
    let frames = &traces(&draft, 1)[0].frames;
    // The byte of frame f is f × 11,314 div 65,536: bytes 0 and 1 to frame 11, byte 39 to 231.
    for frame in 0..960 {
        let loud = (12..=231).contains(&frame);
        assert_eq!(
            frames[2 * frame],
            if loud { 8_000 } else { 0 },
            "frame {frame}"
        );
    }
}

#[test]
fn bytes_0_and_1_are_silent_on_every_pass() {
    let mut draft = Draft::empty();
    draft.add_looped(1, 64, 0, 2, &[100, 100, 50, 50]);
    draft.put(0, 0, 0, 1, 113, 0);
    let frames = &traces(&draft, 1)[0].frames;
    for frame in 0..960 {
        let byte = frame * 42_855 / 65_536 % 4;
        let expected = if byte < 2 { 0 } else { 6_400 };
        assert_eq!(frames[2 * frame], expected, "frame {frame}");
    }
}

/// The index and stopped cell of channel 1 as the first tick's frames begin.
fn started(draft: &Draft) -> (u32, bool) {
    let voice = traces(draft, 1)[0].voices[0];
    assert_eq!(voice.fraction, 0);
    (voice.index, voice.stopped)
}

#[test]
fn offsets_at_and_past_the_end() {
    // Sample 2 loops from byte 200 to byte 400 of its 600.
    assert_eq!(started(&row(&[(2, 428, 0x901)])), (256, false));
    assert_eq!(started(&row(&[(2, 428, 0x902)])), (200, false));
    assert_eq!(started(&row(&[(2, 428, 0x9FF)])), (200, false));
    assert_eq!(started(&row(&[(1, 428, 0x901)])), (0, true));
    let mut draft = row(&[(1, 428, 0x901)]);
    draft.headers[0].length = 0;
    draft.headers[1].repeat = 0;
    draft.headers[1].length = 128;
    draft.put(0, 0, 0, 2, 428, 0x901);
    assert_eq!(started(&draft), (0, true));
    draft.headers[1].length = 129;
    assert_eq!(started(&draft), (256, false));
}

#[test]
fn a_loop_that_ends_at_the_offset_goes_to_its_first_byte() {
    let mut draft = row(&[(2, 428, 0x901)]);
    draft.headers[1].repeat = 28;
    assert_eq!(started(&draft), (200, false));
    draft.headers[1].repeat = 29;
    assert_eq!(started(&draft), (256, false));
}

#[test]
fn a_repeat_length_of_1_is_no_loop() {
    let mut draft = row(&[(1, 428, 0)]);
    draft.headers[0].start = 65_535;
    draft.headers[0].repeat = 1;
    assert_eq!(state_after(&draft, 1)[at(1, STOPPED)], 1);
    draft.headers[0].start = 18;
    draft.headers[0].repeat = 2;
    assert_eq!(state_after(&draft, 1)[at(1, STOPPED)], 0);
}

#[test]
fn an_empty_sample_is_stopped_but_sounding() {
    let cells = state_after(&row(&[(3, 428, 0)]), 1);
    assert_eq!(
        cells[at(1, SOUNDING)..at(2, LATCHED)],
        [3, 428, 20, 0, 0, 1]
    );
}

#[test]
fn a_period_of_0_gives_nothing_and_does_not_move() {
    let mut cells = fresh();
    cells[at(1, VOLUME)] = 64;
    cells[at(1, SOUNDING)] = 2;
    cells[at(1, INDEX)] = 77;
    cells[at(1, FRACTION)] = 5;
    cells[at(1, STOPPED)] = 0;
    let trace = &traces_from(&song(), &mut cells, 1)[0];
    assert!(trace.frames.iter().all(|&number| number == 0));
    assert_eq!([cells[at(1, INDEX)], cells[at(1, FRACTION)]], [77, 5]);
    assert_eq!(cells[at(1, VOICE_VOLUME)], 64);
}

#[test]
fn a_tempo_counts_for_its_own_tick() {
    let file = row(&[(1, 428, 0xFFF)]).bytes();
    let mut out = [9; 942];
    let mut cells = fresh();
    assert_eq!(play(&file, &mut cells, 5, &mut out), played(1));
    assert_eq!([cells[TEMPO], cells[TICK]], [255, 1]);
    assert_eq!(out[940..], [9, 9]);
}

#[test]
fn a_tick_that_does_not_fit_leaves_no_trace() {
    let file = row(&[(1, 428, 0xFFF), (0, 0, 0xEE3)]).bytes();
    let mut out = [9; 939];
    let mut cells = fresh();
    assert_eq!(play(&file, &mut cells, 5, &mut out), played(0));
    assert_eq!(cells, fresh());
    assert_eq!(out, [9; 939]);
}

#[test]
fn only_whole_ticks_up_to_n_are_played() {
    let file = song().bytes();
    for (room, ticks, count) in [
        (0, 0, 0),
        (1_919, 1, 0),
        (1_920, 1, 1),
        (3_839, 9, 1),
        (3_841, 9, 2),
        (9_000, 3, 3),
    ] {
        let mut out = vec![9; room];
        let mut cells = fresh();
        assert_eq!(
            play(&file, &mut cells, ticks, &mut out),
            played(count),
            "room {room}"
        );
        assert_eq!(u64::from(cells[CLOCK]), count);
        assert!(out[1_920 * count as usize..]
            .iter()
            .all(|&number| number == 9));
    }
}
