//! The proved translator and stream player against the second implementation.
use trials::streaming::{compare, compare_counts};

#[test]
fn streams_and_frames_are_equal() {
    let tally = compare(0, 4_000).unwrap_or_else(|what| panic!("{what}"));
    for number in [0, 11, 12, 21, 22, 23, 28] {
        assert!(tally[number] > 50, "each answer is met often: {tally:?}");
    }
    assert!((1..=9).all(|number| tally[number] > 10), "{tally:?}");
}

#[test]
fn every_version_and_count_gets_equal_answers() {
    let tally = compare_counts(0, 60).unwrap_or_else(|what| panic!("{what}"));
    for number in [0, 21, 22, 23, 28] {
        assert!(tally[number] > 300, "each answer is met often: {tally:?}");
    }
}
