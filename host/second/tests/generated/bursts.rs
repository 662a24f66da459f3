//! Bursts against single touches in the same order.

use crate::common::*;
use second::generate::bursts::{burst, Burst};
use second::generate::damage::any_file;
use second::generate::modules::{module, Size};
use second::generate::states::{illegal_state, legal_state};
use second::{judge, touch, touch_burst};

const KEPT: u32 = 12_345;

/// The number that the lists alone get.
fn judged(burst: &Burst) -> u64 {
    let lengths = [burst.pages.len(), burst.mades.len(), burst.positions.len()];
    if lengths.iter().any(|&length| length > 64) {
        26
    } else if lengths.iter().any(|&length| length > burst.answers) {
        27
    } else if lengths != [lengths[0]; 3] {
        34
    } else {
        0
    }
}

#[test]
fn bursts_are_single_touches() {
    let mut seen = [0; 35];
    for seed in 0..4_000 {
        let file = module(seed % 200, Size::Small);
        let before = legal_state(seed, &file);
        let burst = burst(seed, &file, &before);
        let number = judged(&burst);
        seen[number as usize] += 1;
        let mut expected = before;
        let mut singles = vec![KEPT; burst.answers];
        let touches = if number == 0 { burst.pages.len() } else { 0 };
        for k in 0..touches {
            let [page, made, position] = [burst.pages[k], burst.mades[k], burst.positions[k]];
            singles[k] = touch(&file, &mut expected, page, made, position).number as u32;
        }
        let mut cells = before;
        let mut answers = vec![KEPT; burst.answers];
        let Burst {
            pages,
            mades,
            positions,
            ..
        } = &burst;
        let answer = touch_burst(&file, &mut cells, pages, mades, positions, &mut answers);
        if number == 0 {
            assert_eq!(answer, accepted(touches as u64), "seed {seed}");
        } else {
            assert_eq!(answer, refused(number, 0), "seed {seed}");
        }
        assert_eq!(answers, singles, "seed {seed}");
        assert_eq!(cells, expected, "seed {seed}");
    }
    assert!(
        [0, 26, 27, 34].iter().all(|&number| seen[number] > 200),
        "{seen:?}"
    );
}

#[test]
fn files_and_states_are_judged_first() {
    for seed in 0..2_000 {
        let file = any_file(seed);
        let refusal = judge(&file);
        let before = match refusal.number {
            0 => illegal_state(seed, &file),
            _ => [seed as u32; second::STATE_CELLS],
        };
        let Burst {
            pages,
            mades,
            positions,
            answers,
        } = burst(seed, &file, &before);
        let mut cells = before;
        let mut room = vec![KEPT; answers];
        let answer = touch_burst(&file, &mut cells, &pages, &mades, &positions, &mut room);
        let expected = if refusal.number == 0 {
            refused(14, 0)
        } else {
            refusal
        };
        assert_eq!(answer, expected, "seed {seed}");
        assert_eq!((cells, room), (before, vec![KEPT; answers]), "seed {seed}");
    }
}
