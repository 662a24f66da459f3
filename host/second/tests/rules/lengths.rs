//! The remainder: lengths of ticks, what keeps it and what sets it to 0, in the player and on the
//! board.

use crate::common::*;
use second::{change_page, fresh, play, play_stream, tick_frames, tick_rest, touch};

/// The fresh state at this tempo and remainder.
fn state(tempo: u32, remainder: u32) -> Cells {
    let mut cells = fresh();
    cells[TEMPO] = tempo;
    cells[REMAINDER] = remainder;
    cells
}

/// The frames of one tick with these effects in its row, and the remainder after it.
fn length(cells: &Cells, codes: &[u32]) -> (usize, u32) {
    let row_cells: Vec<_> = codes.iter().map(|&code| (0, 0, code)).collect();
    let mut cells = *cells;
    let trace = &traces_from(&row(&row_cells), &mut cells, 1)[0];
    (trace.frames.len() / 2, cells[REMAINDER])
}

#[test]
fn a_tick_has_120000_and_the_remainder_div_tempo_frames() {
    // 470 frames at tempo 255 leave 150.
    assert_eq!(length(&state(255, 0), &[]), (470, 150));
    assert_eq!(length(&state(255, 104), &[]), (470, 254));
    assert_eq!(length(&state(255, 105), &[]), (471, 0));
    assert_eq!(length(&state(255, 254), &[]), (471, 149));
    assert_eq!(length(&state(32, 31), &[]), (3_750, 31));
    assert_eq!(length(&state(33, 32), &[]), (3_637, 11));
}

#[test]
fn n_ticks_at_one_tempo_have_120000_n_div_tempo_frames() {
    for tempo in 32..=255 {
        let mut remainder = 0;
        let mut frames = 0;
        for ticks in 1..=600 {
            frames += tick_frames(tempo, remainder);
            remainder = tick_rest(tempo, remainder);
            assert_eq!(frames, 120_000 * ticks / tempo as usize, "tempo {tempo}");
        }
    }
}

#[test]
fn the_longest_tick_has_3750_frames() {
    for tempo in 32..=255 {
        assert!(tick_frames(tempo, tempo - 1) <= 3_750, "tempo {tempo}");
    }
    assert_eq!(tick_frames(32, 31), 3_750);
}

#[test]
fn another_tempo_sets_the_remainder_to_0_before_the_length() {
    // Kept, the remainder would give 473 and 471 frames.
    assert_eq!(length(&state(255, 254), &[0xFFE]), (472, 112));
    assert_eq!(length(&state(254, 253), &[0xFFF]), (470, 150));
    assert_eq!(length(&state(32, 31), &[0xFFF]), (470, 150));
}

#[test]
fn a_tempo_set_to_what_it_was_keeps_the_remainder() {
    assert_eq!(length(&state(255, 200), &[0xFFF]), (471, 95));
    // Two changes of a row that end at the old tempo.
    assert_eq!(length(&state(255, 200), &[0xF20, 0xFFF]), (471, 95));
    let back = [0xF20, 0xF21, 0xF40, 0xFFF];
    assert_eq!(length(&state(255, 200), &back), (471, 95));
    let away = [0xFFF, 0xF20, 0xFFF, 0xFFE];
    assert_eq!(length(&state(255, 200), &away), (472, 112));
}

#[test]
fn a_change_of_speed_keeps_the_remainder() {
    for code in [0xF00, 0xF01, 0xF1F] {
        assert_eq!(length(&state(255, 200), &[code]), (471, 95));
    }
}

#[test]
fn a_tempo_changes_at_u_0_alone() {
    let mut cells = state(255, 0);
    let traces = traces_from(&row(&[(0, 0, 0xFFE)]), &mut cells, 3);
    let frames = traces.iter().map(|trace| trace.frames.len() / 2);
    // 3 × 120,000 div 254 is 1,417.
    assert_eq!(frames.collect::<Vec<_>>(), [472, 472, 473]);
    assert_eq!(cells[REMAINDER], 3 * 120_000 % 254);
}

#[test]
fn a_tempo_left_and_taken_again_begins_with_0() {
    let draft = rows(&[
        &[(0, 0, 0xF01), (0, 0, 0xFFF)],
        &[(0, 0, 0xFFE)],
        &[(0, 0, 0xFFF)],
    ]);
    let traces = traces(&draft, 4);
    let frames = traces.iter().map(|trace| trace.frames.len() / 2);
    assert_eq!(frames.collect::<Vec<_>>(), [470, 472, 470, 471]);
}

#[test]
fn touches_and_page_changes_keep_the_remainder() {
    let file = song().bytes();
    let mut cells = state(255, 254);
    assert_eq!(touch(&file, &mut cells, 0, 0, 0), ACCEPTED);
    assert_eq!(change_page(&file, &mut cells), ACCEPTED);
    assert_eq!(cells[REMAINDER], 254);
}

#[test]
fn a_tick_that_does_not_fit_keeps_the_remainder() {
    let file = song().bytes();
    let mut out = [9; 941];
    let mut cells = state(255, 200);
    assert_eq!(play(&file, &mut cells, 1, &mut out), played(0));
    assert_eq!(cells, state(255, 200));
    assert_eq!(out, [9; 941]);
    // With remainder 104 the same tick has a frame less.
    let mut cells = state(255, 104);
    assert_eq!(play(&file, &mut cells, 1, &mut out), played(1));
    assert_eq!(out[940], 9);
}

#[test]
fn a_remainder_is_below_its_tempo() {
    let file = song().bytes();
    for tempo in [32, 33, 125, 254, 255] {
        for (remainder, number) in [
            (0, 0),
            (tempo - 1, 0),
            (tempo, 14),
            (tempo + 1, 14),
            (u32::MAX, 14),
        ] {
            let mut cells = state(tempo, remainder);
            let answer = play(&file, &mut cells, 0, &mut []);
            assert_eq!(answer, refused(number, 0), "{remainder} at {tempo}");
            assert_eq!(cells, state(tempo, remainder));
        }
    }
}

/// How many ticks at these tempos the board fits into some frames.
fn board(version: u8, tempos: &[u8], frames: usize) -> u64 {
    let records: Vec<u8> = tempos.iter().flat_map(|&tempo| [0, tempo]).collect();
    let stream = stream(version, tempos.len() as u32, &records);
    let answer = play_stream(&stream, &song().bytes(), &mut vec![0; 2 * frames]);
    assert_eq!(answer.number, 0);
    answer.count
}

#[test]
fn version_2_plays_with_the_remainder() {
    // 1,411 frames in three ticks, and 120,000 in 255.
    assert_eq!(board(2, &[255; 3], 1_410), 2);
    assert_eq!(board(2, &[255; 3], 1_411), 3);
    assert_eq!(board(2, &[255; 255], 119_999), 254);
    assert_eq!(board(2, &[255; 255], 120_000), 255);
}

#[test]
fn version_1_plays_by_the_old_rule() {
    assert_eq!(board(1, &[255; 3], 1_409), 2);
    assert_eq!(board(1, &[255; 3], 1_410), 3);
    assert_eq!(board(1, &[255; 255], 255 * 470), 255);
}

#[test]
fn the_board_begins_with_0_at_any_tempo_and_after_a_change() {
    for tempo in 32..=255 {
        let frames = 120_000 / usize::from(tempo);
        assert_eq!(board(2, &[tempo], frames - 1), 0, "tempo {tempo}");
        assert_eq!(board(2, &[tempo], frames), 1, "tempo {tempo}");
    }
    assert_eq!(board(2, &[255, 254, 255, 255], 470 + 472 + 470 + 471), 4);
    assert_eq!(board(2, &[255, 254, 255, 255], 470 + 472 + 470 + 470), 3);
}
