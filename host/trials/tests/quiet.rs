//! The proved cause of a quiet channel against the second implementation's.
use trials::quiet::{compare, compare_causes};

#[test]
fn channels_get_equal_answers() {
    let tally = compare(0, 4_000).unwrap_or_else(|what| panic!("{what}"));
    for number in [0, 14, 25] {
        assert!(
            tally[number] > 10_000,
            "each answer is met often: {tally:?}"
        );
    }
    assert!((1..=9).all(|number| tally[number] > 100), "{tally:?}");
}

#[test]
fn each_cause_is_met() {
    let tally = compare_causes(0, 4_000).unwrap_or_else(|what| panic!("{what}"));
    assert!((1..=6).all(|cause| tally[cause] > 1_000), "{tally:?}");
}
