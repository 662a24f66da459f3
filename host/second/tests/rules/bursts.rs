//! Bursts of touches: single answers in order, and the refusals of their lists.

use crate::common::*;
use second::generate::draft::Draft;
use second::{fresh, touch, touch_burst, Answer, STATE_CELLS};

/// What an answer cell holds that must stay.
const KEPT: u32 = 99;

/// Three positions.
fn three() -> Draft {
    let mut draft = song();
    draft.song_length = 3;
    draft
}

/// A burst of these pages, clocks and positions from a state, into so many answers.
fn burst(cells: &mut Cells, lists: [&[u32]; 3], room: usize) -> (Answer, Vec<u32>) {
    let mut answers = vec![KEPT; room];
    let [pages, mades, positions] = lists;
    let file = three().bytes();
    let answer = touch_burst(&file, cells, pages, mades, positions, &mut answers);
    (answer, answers)
}

/// The answer to lists of these lengths; a refusal must leave state and answers.
fn lengths(pages: usize, mades: usize, positions: usize, room: usize) -> Answer {
    let zeros = [0; 300];
    let mut cells = fresh();
    cells[ROW] = 7;
    let before = cells;
    let lists = [&zeros[..pages], &zeros[..mades], &zeros[..positions]];
    let (answer, answers) = burst(&mut cells, lists, room);
    if answer.number != 0 {
        assert_eq!(answers, vec![KEPT; room]);
        assert_eq!(cells, before);
    }
    answer
}

#[test]
fn a_burst_is_single_touches_in_their_order() {
    let touches = [
        (4, 5, 1),
        (3, 5, 2),
        (4, 4, 2),
        (4, 30, 2),
        (4, 31, 0),
        (4, 6, 3),
        (3, 0, u32::MAX),
    ];
    let mut start = fresh();
    for (cell, number) in [(ROW, 9), (CLOCK, 30), (PAGE, 4), (LOOP_COUNT, 3)] {
        start[cell] = number;
    }
    let file = three().bytes();
    let mut one_by_one = start;
    let mut singles = Vec::new();
    for (page, made, position) in touches {
        singles.push(touch(&file, &mut one_by_one, page, made, position).number as u32);
    }
    assert_eq!(singles, [0, 16, 17, 0, 17, 18, 16]);
    let pages: Vec<u32> = touches.iter().map(|touch| touch.0).collect();
    let mades: Vec<u32> = touches.iter().map(|touch| touch.1).collect();
    let positions: Vec<u32> = touches.iter().map(|touch| touch.2).collect();
    let mut cells = start;
    let (answer, answers) = burst(&mut cells, [&pages, &mades, &positions], 9);
    assert_eq!(answer, played(7));
    assert_eq!(answers[..7], singles);
    assert_eq!(answers[7..], [KEPT; 2]);
    assert_eq!(cells, one_by_one);
    assert_eq!([cells[POSITION], cells[ROW], cells[CLOCK]], [2, 0, 30]);
}

#[test]
fn no_touches_are_accepted() {
    let mut cells = fresh();
    cells[ROW] = 7;
    let before = cells;
    for room in [0, 1, 65] {
        let (answer, answers) = burst(&mut cells, [&[], &[], &[]], room);
        assert_eq!((answer, answers), (ACCEPTED, vec![KEPT; room]));
    }
    assert_eq!(cells, before);
}

#[test]
fn touches_that_are_all_refused_are_a_burst_that_is_accepted() {
    let mut cells = fresh();
    let (answer, answers) = burst(&mut cells, [&[1, 0, 0], &[0, 1, 0], &[0, 0, 3]], 3);
    assert_eq!((answer, answers), (played(3), vec![16, 17, 18]));
    assert_eq!(cells, fresh());
}

#[test]
fn a_burst_has_up_to_64_touches() {
    for touches in [1, 2, 63, 64] {
        assert_eq!(
            lengths(touches, touches, touches, touches),
            played(touches as u64)
        );
        assert_eq!(
            lengths(touches, touches, touches, 300),
            played(touches as u64)
        );
    }
    for touches in [65, 66, 128, 300] {
        assert_eq!(lengths(touches, touches, touches, 300), refused(26, 0));
    }
}

#[test]
fn any_list_above_64_gets_26_first() {
    for room in [0, 64, 65, 300] {
        assert_eq!(lengths(65, 0, 0, room), refused(26, 0));
        assert_eq!(lengths(1, 65, 1, room), refused(26, 0));
        assert_eq!(lengths(64, 64, 65, room), refused(26, 0));
    }
}

#[test]
fn answers_shorter_than_the_longest_get_27_before_34() {
    for (pages, mades, positions) in [(5, 5, 5), (5, 0, 0), (0, 5, 4), (4, 4, 5)] {
        assert_eq!(lengths(pages, mades, positions, 0), refused(27, 0));
        assert_eq!(lengths(pages, mades, positions, 4), refused(27, 0));
    }
    assert_eq!(lengths(64, 64, 64, 63), refused(27, 0));
    assert_eq!(lengths(1, 1, 1, 0), refused(27, 0));
}

#[test]
fn unequal_lists_get_34() {
    for (pages, mades, positions) in [
        (5, 5, 4),
        (5, 4, 5),
        (4, 5, 5),
        (5, 4, 4),
        (4, 5, 4),
        (4, 4, 5),
        (0, 0, 1),
        (64, 64, 0),
    ] {
        assert_eq!(lengths(pages, mades, positions, 64), refused(34, 0));
    }
}

#[test]
fn module_and_state_are_judged_before_the_lists() {
    let mut file = three().bytes();
    let long = [0; 65];
    let mut answers = [KEPT; 3];
    let mut cells = fresh();
    cells[ROW] = 64;
    let answer = touch_burst(&file, &mut cells, &long, &[], &[0], &mut answers);
    assert_eq!(answer, refused(14, 0));
    assert_eq!(
        touch_burst(&file, &mut cells, &[], &[], &[], &mut []),
        refused(14, 0)
    );
    file[950] = 0;
    let mut cells = [u32::MAX; STATE_CELLS];
    let answer = touch_burst(&file, &mut cells, &long, &[], &[0], &mut answers);
    assert_eq!(answer, refused(3, 950));
    assert_eq!(cells, [u32::MAX; STATE_CELLS]);
    assert_eq!(answers, [KEPT; 3]);
}
