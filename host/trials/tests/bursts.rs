//! The proved bursts of touches against the second implementation's.
use trials::bursts::{compare, compare_lengths};

#[test]
fn bursts_get_equal_answers_and_states() {
    let tally = compare(0, 6_000).unwrap_or_else(|what| panic!("{what}"));
    for number in [0, 14, 26, 27, 34] {
        assert!(tally[number] > 500, "each answer is met often: {tally:?}");
    }
    assert!((1..=9).all(|number| tally[number] > 50), "{tally:?}");
}

#[test]
fn lists_of_every_length_get_equal_answers() {
    let tally = compare_lengths(0, 100).unwrap_or_else(|what| panic!("{what}"));
    for number in [0, 26, 27, 34] {
        assert!(tally[number] > 2_000, "each answer is met often: {tally:?}");
    }
}
