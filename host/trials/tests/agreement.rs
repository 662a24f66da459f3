//! The player and the board sound the same.
use trials::agreement::{compare, compare_whole};

#[test]
fn player_and_board_agree() {
    let tally = compare(0, 4_000).unwrap_or_else(|what| panic!("{what}"));
    assert!(tally[0] > 3_000, "{tally:?}");
    assert!((1..=9).all(|number| tally[number] > 5), "{tally:?}");
}

#[test]
fn player_and_board_agree_on_the_longest_translation() {
    // 65,535 ticks at tempo 255 have exactly 30,840,000 frames: a frame less, and the last tick does not fit.
    assert_eq!(compare_whole(1, 30_840_000), Ok(65_535));
    assert_eq!(compare_whole(1, 30_839_999), Ok(65_534));
}
