//! Finetunes: from the latched sample's header, by E5, and in the cells of a state.
use crate::{accepted, one_note, refused};
use lampthistle::{cell, fresh, play, play_stream, translate, Answer, State};

/// The module of one note, whose sample has this byte for its finetune, and whose cell this period and effect.
fn tuned(finetune: u8, period: u16, effect: u16) -> Vec<u8> {
    let mut file = one_note();
    let ([high, low], [digit, parameter]) = (period.to_be_bytes(), effect.to_be_bytes());
    file[20 + 24] = finetune;
    file[1084..1088].copy_from_slice(&[high, low, 0x10 + digit, parameter]);
    file
}

/// The first channel's finetune and period after one tick, and the period that sounds.
fn after_a_tick(file: &[u8]) -> (i32, u32, u32) {
    let mut state = fresh();
    assert_eq!(play(file, &mut state, 1, &mut [0; 1_920]), accepted(1));
    let own = &state.0[cell::channel(0)..];
    (
        state.finetune(0),
        own[cell::PERIOD],
        own[cell::VOICE_PERIOD],
    )
}

/// What a play of no tick answers where a cell of the first channel has this number.
fn judged(which: usize, number: u32) -> (Answer, State) {
    let mut state = fresh();
    state.0[cell::channel(0) + which] = number;
    let before = state;
    let answer = play(&one_note(), &mut state, 0, &mut []);
    assert_eq!(state, before);
    (answer, state)
}

#[test]
fn a_note_has_the_period_of_its_row() {
    for (byte, period, finetune, tuned_period) in [
        (0, 428, 0, 428),
        (1, 428, 1, 425),
        (7, 428, 7, 407),
        (8, 428, -8, 453),
        (15, 428, -1, 431),
        // The high half of the byte is not the finetune's.
        (0xF7, 428, 7, 407),
        // Between two notes: as the cell has it, or the row's entry at the lower one's place.
        (0, 429, 0, 429),
        (7, 429, 7, 407),
        (7, 427, 7, 384),
        // Both ends of all rows, and two entries as they are printed.
        (8, 856, -8, 907),
        (7, 113, 7, 108),
        (8, 480, -8, 504),
        (13, 320, -3, 338),
    ] {
        let after = after_a_tick(&tuned(byte, period, 0));
        assert_eq!(after, (finetune, tuned_period, tuned_period), "{byte}");
    }
}

#[test]
fn e5_comes_after_the_header_and_before_the_note() {
    assert_eq!(after_a_tick(&tuned(7, 428, 0xE5F)), (-1, 431, 431));
    assert_eq!(after_a_tick(&tuned(7, 428, 0xE50)), (0, 428, 428));
    // Without a note it is set all the same.
    assert_eq!(after_a_tick(&tuned(7, 0, 0xE58)), (-8, 0, 0));
    // A target is tuned, too.
    let mut state = fresh();
    let file = tuned(8, 428, 0x301);
    assert_eq!(play(&file, &mut state, 1, &mut [0; 1_920]), accepted(1));
    assert_eq!(state.0[cell::channel(0) + cell::TARGET], 453);
}

#[test]
fn a_finetune_s_cell_is_in_two_s_complement() {
    for finetune in -8..=7 {
        let (answer, state) = judged(cell::FINETUNE, finetune as u32);
        assert_eq!((answer, state.finetune(0)), (accepted(0), finetune));
    }
    for number in [8, 15, 16, 255, 4_294_967_280, 4_294_967_287] {
        assert_eq!(judged(cell::FINETUNE, number).0, refused(14, 0), "{number}");
    }
}

#[test]
fn periods_reach_from_108_to_907() {
    for which in [cell::PERIOD, cell::TARGET, cell::VOICE_PERIOD] {
        for (period, answer) in [
            (0, accepted(0)),
            (107, refused(14, 0)),
            (108, accepted(0)),
            (907, accepted(0)),
            (908, refused(14, 0)),
        ] {
            assert_eq!(judged(which, period).0, answer, "{which}: {period}");
        }
    }
}

#[test]
fn a_stream_has_the_tuned_periods() {
    let file = tuned(8, 856, 0);
    let (mut stream, mut board, mut player) = ([0; 18], [1; 1_920], [2; 1_920]);
    assert_eq!(translate(&file, 1, &mut stream), accepted(18));
    assert_eq!(stream[14..16], 907_u16.to_be_bytes());
    assert_eq!(play_stream(&stream, &file, &mut board), accepted(1));
    assert_eq!(play(&file, &mut fresh(), 1, &mut player), accepted(1));
    assert_eq!(board, player);
    for (period, answer) in [
        (107_u16, refused(23, 10)),
        (108, accepted(0)),
        (908, refused(23, 10)),
    ] {
        stream[14..16].copy_from_slice(&period.to_be_bytes());
        assert_eq!(play_stream(&stream, &file, &mut []), answer, "{period}");
    }
}
