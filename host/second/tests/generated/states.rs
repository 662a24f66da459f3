//! Legal states stay legal, illegal ones are refused, and touches get their answer.

use crate::common::*;
use second::generate::modules::{module, Size};
use second::generate::states::{illegal_state, legal_state};
use second::generate::touches::touch as a_touch;
use second::generate::Random;
use second::{change_page, play, touch, trace_tick};

fn legal(file: &[u8], cells: &Cells) -> bool {
    let mut copy = *cells;
    play(file, &mut copy, 0, &mut []) == accepted(0) && copy == *cells
}

#[test]
fn legal_states_are_legal_and_stay_so() {
    for seed in 0..1_500 {
        let file = file(seed);
        let mut cells = legal_state(seed, &file);
        assert!(legal(&file, &cells), "seed {seed}");
        let mut random = Random::new(seed);
        let mut out = vec![0; random.below(30_000) as usize];
        let ticks = random.pick(&[1, 2, 5, u32::MAX]);
        let clock = cells[CLOCK];
        let count = play(&file, &mut cells, ticks, &mut out).count as u32;
        assert_eq!(cells[CLOCK], clock.wrapping_add(count), "seed {seed}");
        assert!(legal(&file, &cells), "seed {seed} after play");
        let made = a_touch(seed, &file, &cells);
        touch(&file, &mut cells, made.page, made.made, made.position);
        assert!(legal(&file, &cells), "seed {seed} after touch");
        let page = cells[PAGE];
        assert_eq!(change_page(&file, &mut cells), accepted(0));
        assert_eq!(cells[PAGE], page.wrapping_add(1));
        assert!(legal(&file, &cells), "seed {seed} after page change");
    }
}

#[test]
fn illegal_states_get_14_and_stay() {
    for seed in 0..6_000 {
        let file = module(seed % 300, Size::Small);
        let before = illegal_state(seed, &file);
        let mut cells = before;
        let mut out = [UNTOUCHED; 10];
        assert_eq!(
            play(&file, &mut cells, 1, &mut out),
            refused(14, 0),
            "seed {seed}"
        );
        assert_eq!(
            touch(&file, &mut cells, 0, 0, 0),
            refused(14, 0),
            "seed {seed}"
        );
        assert_eq!(
            change_page(&file, &mut cells),
            refused(14, 0),
            "seed {seed}"
        );
        assert!(
            trace_tick(&file, &mut cells) == Err(refused(14, 0)),
            "seed {seed}"
        );
        assert_eq!(cells, before, "seed {seed}");
        assert_eq!(out, [UNTOUCHED; 10], "seed {seed}");
    }
}

#[test]
fn touches_get_their_answer() {
    let mut seen = [0; 19];
    for seed in 0..4_000 {
        let file = module(seed % 200, Size::Small);
        let before = legal_state(seed, &file);
        let made = a_touch(seed, &file, &before);
        let number = if made.page != before[PAGE] {
            16
        } else if before[CLOCK].wrapping_sub(made.made) > 25 {
            17
        } else if made.position >= u32::from(file[950]) {
            18
        } else {
            0
        };
        seen[number as usize] += 1;
        let mut cells = before;
        let answer = touch(&file, &mut cells, made.page, made.made, made.position);
        assert_eq!(answer, refused(number, 0), "seed {seed}");
        let mut expected = before;
        if number == 0 {
            expected[..8].copy_from_slice(&[made.position, 0, 0, 0, made.position, 0, 0, 0]);
        }
        assert_eq!(cells, expected, "seed {seed}");
    }
    assert!(
        [0, 16, 17, 18].iter().all(|&number| seen[number] > 100),
        "{seen:?}"
    );
}
