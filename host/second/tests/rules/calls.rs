//! Lent states, touches, page changes and the order of refusals.

use crate::common::*;
use second::{change_page, fresh, play, play_stream, touch, translate, STATE_CELLS};

#[test]
fn fresh_is_the_papers() {
    let mut expected = [0; STATE_CELLS];
    expected[SPEED] = 6;
    expected[TEMPO] = 125;
    for channel in 1..=8 {
        expected[at(channel, STOPPED)] = 1;
    }
    assert_eq!(fresh(), expected);
}

#[test]
fn a_state_is_judged_though_nothing_is_asked() {
    let file = song().bytes();
    let mut cells = fresh();
    cells[ROW] = 64;
    let before = cells;
    assert_eq!(play(&file, &mut cells, 0, &mut []), refused(14, 0));
    assert_eq!(change_page(&file, &mut cells), refused(14, 0));
    assert_eq!(touch(&file, &mut cells, 1, 99, 99), refused(14, 0));
    assert_eq!(cells, before);
}

/// The refusal of the fresh state with some cells set.
fn judged(changes: &[(usize, u32)]) -> u64 {
    let mut cells = fresh();
    for &(cell, number) in changes {
        cells[cell] = number;
    }
    play(&song().bytes(), &mut cells, 0, &mut []).number
}

#[test]
fn legal_numbers_and_their_neighbours() {
    for (cell, last) in [
        (POSITION, 0),
        (NEXT_POSITION, 0),
        (ROW, 63),
        (NEXT_ROW, 63),
        (LOOP_ROW, 63),
        (LOOP_COUNT, 15),
        (DELAY, 15),
        (TICK, 5),
        (SPEED, 31),
        (TEMPO, 255),
        (REMAINDER, 124),
        (at(4, LATCHED), 31),
        (at(4, VOLUME), 64),
        (at(4, PERIOD), 907),
        (at(4, TARGET), 907),
        (at(4, MEMORY), 255),
        (at(4, VIBRATO_X), 15),
        (at(4, VIBRATO_Y), 15),
        (at(4, VIBRATO_PLACE), 63),
        (at(4, VIBRATO_FORM), 2),
        (at(4, TREMOLO_X), 15),
        (at(4, TREMOLO_Y), 15),
        (at(4, TREMOLO_PLACE), 63),
        (at(4, TREMOLO_FORM), 2),
        (at(4, SOUNDING), 31),
        (at(4, VOICE_PERIOD), 907),
        (at(4, VOICE_VOLUME), 64),
        (at(4, INDEX), 0),
        (at(4, FRACTION), 0),
    ] {
        assert_eq!(judged(&[(cell, last)]), 0, "cell {cell}");
        assert_eq!(judged(&[(cell, last + 1)]), 14, "cell {cell}");
        assert_eq!(judged(&[(cell, u32::MAX)]), 14, "cell {cell}");
    }
    for (cell, least) in [
        (SPEED, 1),
        (TEMPO, 32),
        (at(1, PERIOD), 108),
        (at(1, TARGET), 108),
        (at(1, VOICE_PERIOD), 108),
    ] {
        assert_eq!(judged(&[(cell, least)]), 0, "cell {cell}");
        assert_eq!(judged(&[(cell, least - 1)]), 14, "cell {cell}");
    }
    assert_eq!(judged(&[(CLOCK, u32::MAX), (PAGE, u32::MAX)]), 0);
}

#[test]
fn the_tick_is_below_speed_times_one_more_than_delay() {
    assert_eq!(judged(&[(SPEED, 31), (DELAY, 15), (TICK, 495)]), 0);
    assert_eq!(judged(&[(SPEED, 31), (DELAY, 15), (TICK, 496)]), 14);
    assert_eq!(judged(&[(SPEED, 1), (TICK, 1)]), 14);
    assert_eq!(judged(&[(SPEED, u32::MAX), (DELAY, u32::MAX)]), 14);
}

#[test]
fn running_voices_need_a_sample_and_an_index_below_its_end() {
    let (sample, index) = (at(2, SOUNDING), at(2, INDEX));
    let (fraction, stopped) = (at(2, FRACTION), at(2, STOPPED));
    assert_eq!(judged(&[(stopped, 0)]), 14);
    assert_eq!(judged(&[(stopped, 2)]), 14);
    assert_eq!(
        judged(&[(sample, 1), (stopped, 0), (index, 39), (fraction, 65_535)]),
        0
    );
    assert_eq!(judged(&[(sample, 1), (stopped, 0), (index, 40)]), 14);
    assert_eq!(judged(&[(sample, 1), (stopped, 0), (fraction, 65_536)]), 14);
    assert_eq!(judged(&[(sample, 1), (stopped, 1), (index, 1)]), 14);
    assert_eq!(judged(&[(sample, 1), (stopped, 1), (fraction, 1)]), 14);
    // Sample 2 has 600 bytes and ends at its loop's end, 400.
    assert_eq!(judged(&[(sample, 2), (stopped, 0), (index, 399)]), 0);
    assert_eq!(judged(&[(sample, 2), (stopped, 0), (index, 400)]), 14);
    assert_eq!(judged(&[(sample, 3), (stopped, 0)]), 14);
}

#[test]
fn a_lent_delay_is_kept_unless_ee_sets_it() {
    let mut cells = fresh();
    cells[DELAY] = 1;
    let traces = traces_from(&song(), &mut cells, 13);
    assert_eq!(
        [traces[11].row, traces[11].tick, traces[12].row],
        [0, 11, 1]
    );
    let mut cells = fresh();
    cells[DELAY] = 1;
    traces_from(&row(&[(0, 0, 0xEE0)]), &mut cells, 6);
    assert_eq!([cells[ROW], cells[TICK], cells[DELAY]], [1, 0, 0]);
}

#[test]
fn a_lent_next_place_is_used_after_u_0() {
    let mut cells = fresh();
    cells[TICK] = 5;
    cells[NEXT_ROW] = 40;
    traces_from(&row(&[(1, 428, 0xD07)]), &mut cells, 1);
    assert_eq!([cells[ROW], cells[TICK], cells[at(1, LATCHED)]], [40, 0, 0]);
}

#[test]
fn a_touch_sets_its_place_and_nothing_else() {
    let mut draft = song();
    draft.song_length = 3;
    let file = draft.bytes();
    let mut cells = fresh();
    for (cell, number) in [
        (ROW, 7),
        (TICK, 11),
        (DELAY, 1),
        (NEXT_POSITION, 2),
        (NEXT_ROW, 8),
    ] {
        cells[cell] = number;
    }
    for (cell, number) in [(LOOP_ROW, 3), (LOOP_COUNT, 2), (CLOCK, 30), (PAGE, 4)] {
        cells[cell] = number;
    }
    cells[at(2, VOLUME)] = 33;
    let mut expected = fresh();
    expected[POSITION] = 1;
    expected[NEXT_POSITION] = 1;
    expected[CLOCK] = 30;
    expected[PAGE] = 4;
    expected[at(2, VOLUME)] = 33;
    assert_eq!(touch(&file, &mut cells, 4, 5, 1), ACCEPTED);
    assert_eq!(cells, expected);
}

#[test]
fn touches_are_judged_in_order() {
    let file = song().bytes();
    for (page, made, position, number) in [
        (1, 1, 1, 16),
        (0, 1, 1, 17),
        (0, 0, 1, 18),
        (0, 0, 256, 18),
        (0, 0, u32::MAX, 18),
        (0, 0, 0, 0),
    ] {
        let mut cells = fresh();
        assert_eq!(
            touch(&file, &mut cells, page, made, position),
            refused(number, 0)
        );
        assert_eq!(cells, fresh());
    }
}

#[test]
fn clock_and_page_wrap() {
    let mut cells = fresh();
    cells[CLOCK] = u32::MAX;
    cells[PAGE] = u32::MAX;
    traces_from(&song(), &mut cells, 1);
    assert_eq!(change_page(&song().bytes(), &mut cells), ACCEPTED);
    assert_eq!([cells[CLOCK], cells[PAGE], cells[TICK]], [0, 0, 1]);
}

#[test]
fn the_module_is_judged_first_in_every_call() {
    let mut file = song().bytes();
    file[950] = 0;
    let mut cells = [u32::MAX; STATE_CELLS];
    let expected = refused(3, 950);
    assert_eq!(play(&file, &mut cells, 1, &mut [0; 9]), expected);
    assert_eq!(touch(&file, &mut cells, 1, 1, 1), expected);
    assert_eq!(change_page(&file, &mut cells), expected);
    assert_eq!(translate(&file, 65_536, &mut []), expected);
    assert_eq!(play_stream(&[], &file, &mut []), expected);
    assert_eq!(cells, [u32::MAX; STATE_CELLS]);
}
