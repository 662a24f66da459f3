//! The proved board that is fed against the second implementation's.
use trials::arriving::{compare, compare_each, compare_forged};

#[test]
fn boards_fed_get_equal_answers_cells_and_frames() {
    let tally = compare(0, 4_000).unwrap_or_else(|what| panic!("{what}"));
    for number in [0, 14, 21, 22, 23, 28] {
        assert!(tally[number] > 500, "each answer is met often: {tally:?}");
    }
    assert!((1..=9).all(|number| tally[number] > 10), "{tally:?}");
}

#[test]
fn boards_forged_get_equal_answers_and_cells() {
    let tally = compare_forged(0, 2_000).unwrap_or_else(|what| panic!("{what}"));
    for number in [0, 14, 21, 22, 23, 28] {
        assert!(tally[number] > 500, "each answer is met often: {tally:?}");
    }
}

#[test]
fn each_byte_damaged_and_each_length_get_equal_answers() {
    let tally = compare_each(0, 40).unwrap_or_else(|what| panic!("{what}"));
    for number in [0, 21, 22, 23, 28] {
        assert!(tally[number] > 500, "each answer is met often: {tally:?}");
    }
}

#[test]
fn fresh_boards_are_equal() {
    assert_eq!(lampthistle::Board::fresh().cells(), &second::board_fresh());
}
