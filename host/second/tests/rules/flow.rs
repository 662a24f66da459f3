//! Speed, delay, pattern loops, jumps and breaks: which place comes next.

use crate::common::*;
use second::generate::draft::Draft;

/// Adds F01 to the first row's fourth channel, so that each tick is a row.
fn fast(mut draft: Draft) -> Draft {
    draft.put(0, 0, 3, 0, 0, 0xF01);
    draft
}

#[test]
fn f_sets_speed_or_tempo() {
    for (code, speed, tempo) in [
        (0xF00, 1, 125),
        (0xF01, 1, 125),
        (0xF1F, 31, 125),
        (0xF20, 6, 32),
        (0xFFF, 6, 255),
    ] {
        let cells = state_after(&row(&[(0, 0, code)]), 1);
        assert_eq!(
            [cells[SPEED], cells[TEMPO]],
            [speed, tempo],
            "effect {code:X}"
        );
    }
}

#[test]
fn the_last_delay_decides() {
    let length = |draft: &Draft| places(draft, 60).len();
    let six = row(&[(0, 0, 0xEE5), (0, 0, 0xF01), (0, 0, 0xEE0)]);
    assert_eq!(length(&six), 60);
    let four = row(&[(0, 0, 0xEE0), (0, 0, 0xF01), (0, 0, 0xEE3)]);
    assert_eq!(length(&four), 57);
    assert_eq!(state_after(&four, 4)[DELAY], 0);
}

#[test]
fn a_delay_repeats_the_row_at_the_new_speed() {
    let draft = row(&[(0, 0, 0xEE2), (0, 0, 0xF03)]);
    let traces = traces(&draft, 10);
    assert_eq!([traces[8].row, traces[8].tick], [0, 8]);
    assert_eq!([traces[9].row, traces[9].tick], [1, 0]);
}

#[test]
fn a_loop_plays_its_rows_y_more_times() {
    let mut draft = fast(song());
    draft.put(0, 1, 0, 0, 0, 0xE60);
    draft.put(0, 2, 0, 0, 0, 0xE62);
    let rows: Vec<u32> = places(&draft, 8).iter().map(|place| place.1).collect();
    assert_eq!(rows, [0, 1, 2, 1, 2, 1, 2, 3]);
}

#[test]
fn an_ask_survives_a_count_that_falls_to_0() {
    // Count becomes 1 and asks on channel 1, falls to 0 on channel 2.
    let draft = fast(row(&[(0, 0, 0xE61), (0, 0, 0xE61)]));
    let cells = state_after(&draft, 1);
    assert_eq!([cells[ROW], cells[LOOP_COUNT]], [0, 0]);
}

#[test]
fn the_row_asked_is_the_loop_row_of_that_moment() {
    let mut draft = fast(song());
    draft.put(0, 5, 0, 0, 0, 0xE63);
    draft.put(0, 5, 1, 0, 0, 0xE60);
    let mut cells = state_after(&draft, 5);
    assert_eq!([cells[ROW], cells[LOOP_ROW]], [5, 0]);
    traces_from(&draft, &mut cells, 1);
    assert_eq!([cells[ROW], cells[LOOP_ROW], cells[LOOP_COUNT]], [0, 5, 3]);
    // The other order begins the loop in this row.
    draft.put(0, 5, 0, 0, 0, 0xE60);
    draft.put(0, 5, 1, 0, 0, 0xE63);
    assert_eq!(state_after(&draft, 6)[ROW], 5);
}

#[test]
fn the_last_ask_decides() {
    let mut draft = fast(song());
    draft.put(0, 5, 0, 0, 0, 0xE63);
    draft.put(0, 5, 1, 0, 0, 0xE60);
    draft.put(0, 5, 2, 0, 0, 0xE63);
    let cells = state_after(&draft, 6);
    assert_eq!([cells[ROW], cells[LOOP_COUNT]], [5, 2]);
}

#[test]
fn a_jump_asked_on_row_63_keeps_the_loop() {
    let mut draft = fast(row(&[(0, 0, 0xD62)]));
    draft.song_length = 1;
    draft.put(0, 62, 0, 0, 0, 0xE60);
    draft.put(0, 63, 0, 0, 0, 0xE61);
    assert_eq!(
        places(&draft, 6),
        [(0, 0), (0, 62), (0, 63), (0, 62), (0, 63), (0, 0)]
    );
    let cells = state_after(&draft, 3);
    assert_eq!([cells[LOOP_ROW], cells[LOOP_COUNT]], [62, 1]);
    let cells = state_after(&draft, 5);
    assert_eq!([cells[LOOP_ROW], cells[LOOP_COUNT]], [0, 0]);
}

#[test]
fn breaks_undo_the_loop_at_once() {
    for code in [0xB00, 0xD05] {
        let draft = row(&[(0, 0, 0xE60), (0, 0, 0xE65), (0, 0, code)]);
        let mut cells = second::fresh();
        cells[LOOP_ROW] = 9;
        cells[LOOP_COUNT] = 4;
        traces_from(&draft, &mut cells, 1);
        assert_eq!(
            [cells[LOOP_ROW], cells[LOOP_COUNT], cells[TICK]],
            [0, 0, 1],
            "{code:X}"
        );
    }
    let mut draft = song();
    draft.put(0, 63, 0, 0, 0, 0xE60);
    let mut cells = second::fresh();
    cells[ROW] = 63;
    cells[LOOP_COUNT] = 4;
    traces_from(&draft, &mut cells, 1);
    assert_eq!([cells[LOOP_ROW], cells[LOOP_COUNT], cells[TICK]], [0, 0, 1]);
}

/// The next place after the first row's first tick, in a song of three positions.
fn next_place(cells: &[(u32, u32, u32)], position: u32) -> [u32; 2] {
    let mut draft = row(cells);
    draft.song_length = 3;
    let mut state = second::fresh();
    state[POSITION] = position;
    traces_from(&draft, &mut state, 1);
    [state[NEXT_POSITION], state[NEXT_ROW]]
}

#[test]
fn jumps_and_breaks_in_any_order() {
    assert_eq!(next_place(&[(0, 0, 0xB02)], 0), [2, 0]);
    assert_eq!(next_place(&[(0, 0, 0xB03)], 1), [0, 0]);
    assert_eq!(next_place(&[(0, 0, 0xD12)], 0), [1, 12]);
    assert_eq!(next_place(&[(0, 0, 0xD12)], 2), [0, 12]);
    assert_eq!(next_place(&[(0, 0, 0xB02), (0, 0, 0xD12)], 0), [2, 12]);
    assert_eq!(next_place(&[(0, 0, 0xD12), (0, 0, 0xB02)], 0), [2, 12]);
    assert_eq!(next_place(&[(0, 0, 0xB02), (0, 0, 0xB01)], 0), [1, 0]);
    assert_eq!(next_place(&[(0, 0, 0xB02), (0, 0, 0xBFF)], 1), [0, 0]);
    assert_eq!(next_place(&[(0, 0, 0xD12), (0, 0, 0xD64)], 0), [1, 0]);
    assert_eq!(next_place(&[(0, 0, 0xE61), (0, 0, 0xD07)], 0), [1, 7]);
    assert_eq!(next_place(&[(0, 0, 0xE61)], 2), [2, 0]);
    assert_eq!(next_place(&[], 2), [2, 1]);
}

/// The row to which D with this parameter goes.
fn break_row(parameter: u32) -> u32 {
    let [position, row] = next_place(&[(0, 0, 0xD00 + parameter)], 0);
    assert_eq!(position, 1, "D{parameter:02X}");
    row
}

#[test]
fn a_break_counts_in_tens() {
    for (parameter, row) in [
        (0x00, 0),
        (0x09, 9),
        (0x10, 10),
        (0x25, 25),
        (0x37, 37),
        (0x40, 40),
        (0x62, 62),
        (0x63, 63),
    ] {
        assert_eq!(break_row(parameter), row, "D{parameter:02X}");
    }
}

#[test]
fn a_break_takes_digits_above_9() {
    for (parameter, row) in [(0x0A, 10), (0x0F, 15), (0x1F, 25), (0x4F, 55), (0x5D, 63)] {
        assert_eq!(break_row(parameter), row, "D{parameter:02X}");
    }
}

#[test]
fn a_break_past_row_63_goes_to_row_0() {
    for parameter in [0x5E, 0x5F, 0x64, 0x69, 0x6F, 0x70, 0x99, 0xA0, 0xFF] {
        assert_eq!(break_row(parameter), 0, "D{parameter:02X}");
    }
}

#[test]
fn after_the_last_position_comes_0() {
    let mut draft = fast(row(&[(0, 0, 0xD63)]));
    draft.song_length = 2;
    assert_eq!(
        places(&draft, 5),
        [(0, 0), (1, 63), (0, 0), (1, 63), (0, 0)]
    );
}

#[test]
fn a_loop_row_holds_for_the_whole_song() {
    // One counter for the song: the E6 of channel 2 counts down what channel 1 set.
    let mut draft = fast(song());
    draft.put(0, 1, 0, 0, 0, 0xE62);
    draft.put(0, 2, 1, 0, 0, 0xE62);
    let rows: Vec<u32> = places(&draft, 9).iter().map(|place| place.1).collect();
    assert_eq!(rows, [0, 1, 0, 1, 0, 1, 2, 0, 1]);
}
