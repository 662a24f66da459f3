//! The cases marked P, the run-only cases and the paper's two whole streams.

use crate::common::*;
use second::generate::draft::Draft;
use second::{fresh, growth, judge, play, play_stream, tick_frames, touch, translate};

#[test]
fn p1_to_p3_steps() {
    assert_eq!(
        [growth(428), growth(113), growth(856)],
        [11_314, 42_855, 5_657]
    );
}

#[test]
fn p4_to_p6_frames() {
    assert_eq!(
        [tick_frames(125, 0), tick_frames(32, 0), tick_frames(255, 0)],
        [960, 3_750, 470]
    );
}

/// Left and right of the last frame of a tick with this byte on channels 1 and 4.
fn loudest(byte: u8) -> (i16, i16) {
    let mut draft = Draft::empty();
    draft.add_looped(1, 64, 1, 2, &[byte; 6]);
    draft.put(0, 0, 0, 1, 428, 0);
    draft.put(0, 0, 3, 1, 428, 0);
    let frames = &traces(&draft, 1)[0].frames;
    (frames[1_918], frames[1_919])
}

#[test]
fn p7_and_p8_loudest_frames() {
    assert_eq!(loudest(128), (-32_768, 0));
    assert_eq!(loudest(127), (32_512, 0));
}

#[test]
fn p9_slide_down() {
    let draft = row(&[(1, 428, 0x102), (0, 0, 0xF03)]);
    assert_eq!(state_after(&draft, 3)[at(1, PERIOD)], 424);
    assert_eq!(periods(&draft, 4), [428, 426, 424, 424]);
}

#[test]
fn p10_towards_the_target() {
    let draft = rows(&[&[(1, 428, 0xF01)], &[(0, 404, 0x30A), (0, 0, 0xF04)]]);
    assert_eq!(periods(&draft, 5), [428, 428, 418, 408, 404]);
}

#[test]
fn p11_arpeggio() {
    let draft = row(&[(1, 428, 0x047)]);
    assert_eq!(periods(&draft, 6), [428, 339, 285, 428, 339, 285]);
}

#[test]
fn p12_both_nibbles_of_a() {
    let draft = row(&[(1, 428, 0xA35), (0, 0, 0xF02)]);
    assert_eq!(volumes(&draft, 2), [40, 43]);
}

#[test]
fn p13_age_of_a_touch() {
    let file = song().bytes();
    for (clock, made, number) in [
        (3, 4_294_967_290, 0),
        (25, 0, 0),
        (26, 0, 17),
        (3, u32::MAX - 21, 0),
        (3, u32::MAX - 22, 17),
    ] {
        let mut cells = fresh();
        cells[CLOCK] = clock;
        assert_eq!(
            touch(&file, &mut cells, 0, made, 0),
            refused(number, 0),
            "made {made}"
        );
    }
}

#[test]
fn p14_the_end_of_a_loop() {
    let mut draft = Draft::empty();
    draft.add_looped(
        1,
        64,
        2,
        3,
        &[10, 20, 30, 40, 50, 60, 70, 80, 90, 100, 110, 120],
    );
    let mut cells = fresh();
    cells[at(1, VOLUME)] = 1;
    cells[at(1, PERIOD)] = 428;
    cells[at(1, SOUNDING)] = 1;
    cells[at(1, INDEX)] = 9;
    cells[at(1, FRACTION)] = 65_535;
    cells[at(1, STOPPED)] = 0;
    let trace = &traces_from(&draft, &mut cells, 1)[0];
    // The byte at 9, then the loop's first byte, 4.
    assert_eq!([trace.frames[0], trace.frames[2]], [200, 100]);
}

#[test]
fn run_only_cases() {
    let good = Draft::empty().bytes();
    assert_eq!(judge(&good[..1_083]), refused(1, 1_083));
    assert_eq!(judge(&good[..2_107]), refused(7, 2_107));
    let mut out = [7; 1_921];
    assert_eq!(
        play(&good[..2_107], &mut fresh(), 1, &mut out),
        refused(7, 2_107)
    );
    assert_eq!(out, [7; 1_921]);
    assert_eq!(play(&good, &mut fresh(), 1, &mut out), played(1));
    assert_eq!(out[..1_920], [0; 1_920]);
    assert_eq!(out[1_920], 7);
}

/// The paper's two whole streams, of version 1.
const EMPTY_ROW: [u8; 11] = [0, 0, 0, 7, 1, 0, 0, 0, 1, 0, 0x7D];
const ONE_NOTE: [u8; 17] = [0, 0, 0, 13, 1, 0, 0, 0, 1, 1, 0x7D, 1, 0x40, 1, 0xAC, 1, 0];

/// A module whose first row has the second stream's note.
fn one_note() -> Draft {
    let mut draft = Draft::empty();
    draft.add_sample(1, 64, &[1; 8]);
    draft.put(0, 0, 0, 1, 428, 0);
    draft
}

#[test]
fn both_whole_streams_play_as_version_1() {
    let mut out = [7; 1_921];
    let empty = Draft::empty().bytes();
    assert_eq!(play_stream(&EMPTY_ROW, &empty, &mut out), played(1));
    assert_eq!(out[..1_920], [0; 1_920]);
    assert_eq!(out[1_920], 7);
    let file = one_note().bytes();
    let mut frames = [7; 1_921];
    assert_eq!(play_stream(&ONE_NOTE, &file, &mut out), played(1));
    assert_eq!(play(&file, &mut fresh(), 1, &mut frames), played(1));
    assert_eq!(frames[24..26], [128, 0]);
    assert_eq!(out, frames);
}

#[test]
fn translation_gives_both_as_version_3() {
    let mut room = [0xAA; 20];
    assert_eq!(translate(&song().bytes(), 1, &mut room), played(12));
    assert_eq!(room[..6], [0, 0, 0, 8, 3, 4]);
    assert_eq!(room[6..12], EMPTY_ROW[5..]);
    assert_eq!(room[12..], [0xAA; 8]);
    assert_eq!(translate(&one_note().bytes(), 1, &mut room), played(18));
    assert_eq!(room[..6], [0, 0, 0, 14, 3, 4]);
    assert_eq!(room[6..18], ONE_NOTE[5..]);
    assert_eq!(room[18..], [0xAA; 2]);
}
