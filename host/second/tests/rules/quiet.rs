//! Why a channel is quiet: the causes in their order, and the refusals.

use crate::common::*;
use second::generate::draft::Draft;
use second::{fresh, why_quiet, Cause, STATE_CELLS};

/// Sample 1 has a zero at byte 6 of its 8; sample 2 is looped from byte 0 and loud throughout.
fn samples() -> Draft {
    let mut draft = Draft::empty();
    draft.add_sample(1, 64, &[9, 9, 9, 128, 255, 1, 0, 127]);
    draft.add_looped(2, 64, 0, 2, &[50, 50, 50, 50]);
    draft
}

/// Channel 3's voice in a fresh state: sample 1 at index 3, which sounds, with some cells changed.
fn voice(changes: &[(usize, u32)]) -> Cells {
    let mut cells = fresh();
    for (cell, number) in [
        (SOUNDING, 1),
        (VOICE_PERIOD, 428),
        (VOICE_VOLUME, 64),
        (INDEX, 3),
        (STOPPED, 0),
    ] {
        cells[at(3, cell)] = number;
    }
    for &(cell, number) in changes {
        cells[at(3, cell)] = number;
    }
    cells
}

fn cause(cells: &Cells) -> u64 {
    let answer = why_quiet(&samples().bytes(), cells, 3);
    assert_eq!((answer.number, answer.place), (0, 0));
    answer.count
}

const STOPPED_VOICE: [(usize, u32); 3] = [(STOPPED, 1), (INDEX, 0), (FRACTION, 0)];

#[test]
fn the_causes_are_numbered_in_their_order() {
    let numbers = [
        Cause::NoSample,
        Cause::NoPeriod,
        Cause::Stopped,
        Cause::NoVolume,
        Cause::ByteReadsZero,
        Cause::ItSounds,
    ];
    assert_eq!(numbers.map(|cause| cause as u64), [1, 2, 3, 4, 5, 6]);
}

#[test]
fn each_cause_alone() {
    assert_eq!(cause(&fresh()), 1);
    assert_eq!(cause(&voice(&[(VOICE_PERIOD, 0)])), 2);
    assert_eq!(cause(&voice(&STOPPED_VOICE)), 3);
    assert_eq!(cause(&voice(&[(VOICE_VOLUME, 0)])), 4);
    assert_eq!(cause(&voice(&[(INDEX, 6)])), 5);
    assert_eq!(cause(&voice(&[])), 6);
}

#[test]
fn the_first_of_several_is_named() {
    let stopped = STOPPED_VOICE.to_vec();
    let with = |more: &[(usize, u32)]| [&stopped[..], more].concat();
    assert_eq!(cause(&voice(&with(&[(SOUNDING, 0)]))), 1);
    let all = [(SOUNDING, 0), (VOICE_PERIOD, 0), (VOICE_VOLUME, 0)];
    assert_eq!(cause(&voice(&with(&all))), 1);
    assert_eq!(cause(&voice(&with(&all[1..]))), 2);
    assert_eq!(cause(&voice(&with(&[(VOICE_PERIOD, 0)]))), 2);
    assert_eq!(cause(&voice(&all[1..])), 2);
    assert_eq!(cause(&voice(&[(VOICE_PERIOD, 0), (INDEX, 6)])), 2);
    assert_eq!(cause(&voice(&with(&[(VOICE_VOLUME, 0)]))), 3);
    assert_eq!(cause(&voice(&[(VOICE_VOLUME, 0), (INDEX, 6)])), 4);
    assert_eq!(cause(&voice(&[(VOICE_VOLUME, 0), (INDEX, 1)])), 4);
}

#[test]
fn bytes_0_and_1_read_0() {
    for (index, number) in [
        (0, 5),
        (1, 5),
        (2, 6),
        (3, 6),
        (4, 6),
        (5, 6),
        (6, 5),
        (7, 6),
    ] {
        assert_eq!(cause(&voice(&[(INDEX, index)])), number, "index {index}");
    }
    // On every pass of a loop, too.
    for (index, number) in [(0, 5), (1, 5), (2, 6), (3, 6)] {
        let cells = voice(&[(SOUNDING, 2), (INDEX, index), (FRACTION, 65_535)]);
        assert_eq!(cause(&cells), number, "index {index}");
    }
}

#[test]
fn the_voices_registers_count() {
    // The channel's own numbers would say otherwise.
    assert_eq!(cause(&voice(&[(VOLUME, 0), (PERIOD, 0), (LATCHED, 0)])), 6);
    let own = [(VOLUME, 64), (PERIOD, 428), (LATCHED, 1)];
    let with = |cell: usize| [&own[..], &[(cell, 0)]].concat();
    assert_eq!(cause(&voice(&with(VOICE_VOLUME))), 4);
    assert_eq!(cause(&voice(&with(VOICE_PERIOD))), 2);
}

#[test]
fn no_tick_work_is_done_first() {
    let mut draft = samples();
    draft.put(0, 0, 2, 2, 300, 0xC00);
    let file = draft.bytes();
    assert_eq!(why_quiet(&file, &voice(&[]), 3).count, 6);
    assert_eq!(why_quiet(&file, &fresh(), 3).count, 1);
}

#[test]
fn each_channel_has_its_own_cause() {
    let file = samples().bytes();
    let mut cells = voice(&[]);
    cells[at(1, SOUNDING)] = 1;
    cells[at(4, SOUNDING)] = 1;
    cells[at(4, VOICE_PERIOD)] = 113;
    let causes = [1, 2, 3, 4].map(|channel| why_quiet(&file, &cells, channel).count);
    assert_eq!(causes, [2, 1, 6, 3]);
}

#[test]
fn channels_other_than_1_to_4_get_25_after_14() {
    let mut file = samples().bytes();
    let mut illegal = fresh();
    illegal[at(4, STOPPED)] = 2;
    for channel in [0, 5, 257, 1 << 31, u32::MAX] {
        assert_eq!(why_quiet(&file, &fresh(), channel), refused(25, 0));
        assert_eq!(why_quiet(&file, &illegal, channel), refused(14, 0));
    }
    assert_eq!(why_quiet(&file, &illegal, 1), refused(14, 0));
    file[950] = 0;
    let any = [u32::MAX; STATE_CELLS];
    assert_eq!(why_quiet(&file, &any, 9), refused(3, 950));
}
