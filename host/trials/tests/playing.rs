//! The proved player against the second implementation.
use trials::playing::compare;

#[test]
fn calls_get_equal_answers_states_and_frames() {
    let tally = compare(0, 6_000).unwrap_or_else(|what| panic!("{what}"));
    for number in [0, 14, 16, 17, 18] {
        assert!(tally[number] > 100, "each answer is met often: {tally:?}");
    }
    assert!((1..=9).all(|number| tally[number] > 10), "{tally:?}");
}

#[test]
fn fresh_states_are_equal() {
    assert_eq!(lampthistle::fresh().0, second::fresh());
}
