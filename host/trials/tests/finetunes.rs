//! Every finetune with every period: the proved player against the second implementation.
use trials::finetunes::{compare, ALL};

#[test]
fn every_finetune_and_period_gets_equal_states() {
    let tally = compare(0, ALL).unwrap_or_else(|what| panic!("{what}"));
    assert_eq!(tally.iter().sum::<u64>(), tally[0], "{tally:?}");
    // Three rows of each pair, and two more of the 744 periods that a cell may have.
    assert_eq!(tally[0], 3 * ALL + 2 * 16 * 744);
}
