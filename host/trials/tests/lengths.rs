//! Tick lengths: the proved player and board against the second implementation, and against the time that ticks take.
use trials::lengths::compare;

#[test]
fn long_runs_do_not_drift() {
    let tally = compare(0, 400).unwrap_or_else(|what| panic!("{what}"));
    assert!(tally[0] > 4_000, "{tally:?}");
}
