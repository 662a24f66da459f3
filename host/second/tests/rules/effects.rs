//! The effects that work on a channel: slides, volumes, arpeggio, and their limits.

use crate::common::*;
use second::fresh;

#[test]
fn fine_slides_come_after_the_note_once_a_row() {
    // Under EE2 at speed 2 the row has six ticks.
    let draft = row(&[(1, 428, 0xE15), (0, 0, 0xEE2), (0, 0, 0xF02)]);
    assert_eq!(periods(&draft, 6), [423; 6]);
    let draft = row(&[(1, 428, 0xE25), (0, 0, 0xEE2), (0, 0, 0xF02)]);
    assert_eq!(periods(&draft, 6), [433; 6]);
    let draft = row(&[(1, 428, 0xEA5), (0, 0, 0xEE2), (0, 0, 0xF02)]);
    assert_eq!(volumes(&draft, 6), [45; 6]);
    let draft = row(&[(1, 428, 0xEB5), (0, 0, 0xEE2), (0, 0, 0xF02)]);
    assert_eq!(volumes(&draft, 6), [35; 6]);
}

#[test]
fn slides_stay_in_their_limits() {
    assert_eq!(periods(&row(&[(1, 120, 0x1FF)]), 2), [120, 113]);
    assert_eq!(periods(&row(&[(1, 850, 0x2FF)]), 2), [850, 856]);
    assert_eq!(periods(&row(&[(1, 120, 0xE1F)]), 1), [113]);
    assert_eq!(periods(&row(&[(1, 850, 0xE2F)]), 1), [856]);
    assert_eq!(volumes(&row(&[(2, 428, 0xEA1)]), 1), [64]);
    assert_eq!(volumes(&row(&[(3, 428, 0xEBF), (0, 0, 0xF01)]), 1), [5]);
    assert_eq!(volumes(&row(&[(3, 428, 0xA0F)]), 3), [20, 5, 0]);
    assert_eq!(volumes(&row(&[(1, 428, 0xAF0)]), 3), [40, 55, 64]);
}

#[test]
fn no_slide_moves_a_period_of_0() {
    for code in [0x105, 0x205, 0x305, 0xE15, 0xE25] {
        assert_eq!(periods(&row(&[(1, 0, code)]), 6), [0; 6], "effect {code:X}");
    }
    let draft = row(&[(1, 428, 0x305)]);
    assert_eq!(
        state_after(&draft, 6)[at(1, PERIOD)..=at(1, MEMORY)],
        [0, 428, 5]
    );
}

#[test]
fn a_target_of_0_moves_nothing() {
    let draft = rows(&[&[(1, 428, 0xF02)], &[(0, 0, 0x305)]]);
    assert_eq!(periods(&draft, 4), [428; 4]);
    assert_eq!(
        state_after(&draft, 4)[at(1, TARGET)..=at(1, MEMORY)],
        [0, 5]
    );
}

#[test]
fn a_target_lasts_past_arrival_and_a_plain_note() {
    let draft = rows(&[
        &[(1, 428, 0xF02)],
        &[(0, 404, 0x364)],
        &[(0, 500, 0)],
        &[(0, 0, 0x300)],
        &[(0, 300, 0)],
        &[(0, 0, 0x302)],
    ]);
    assert_eq!(
        periods(&draft, 12),
        [428, 428, 428, 404, 500, 500, 500, 404, 300, 300, 300, 302]
    );
}

#[test]
fn axy_with_x_ignores_y() {
    assert_eq!(volumes(&row(&[(3, 428, 0xA1F)]), 3), [20, 21, 22]);
    assert_eq!(volumes(&row(&[(3, 428, 0xA02)]), 3), [20, 18, 16]);
    assert_eq!(volumes(&row(&[(3, 428, 0xA00)]), 3), [20, 20, 20]);
}

#[test]
fn volumes_are_set_to_at_most_64() {
    assert_eq!(volumes(&row(&[(1, 428, 0xC3F)]), 2), [63, 63]);
    assert_eq!(volumes(&row(&[(1, 428, 0xC40)]), 2), [64, 64]);
    assert_eq!(volumes(&row(&[(1, 428, 0xCFF)]), 2), [64, 64]);
}

#[test]
fn a_cut_comes_at_its_tick() {
    assert_eq!(volumes(&row(&[(1, 428, 0xEC0)]), 2), [0, 0]);
    assert_eq!(volumes(&row(&[(1, 428, 0xEC2)]), 4), [40, 40, 0, 0]);
    assert_eq!(volumes(&row(&[(1, 428, 0xEC6)]), 6), [40; 6]);
}

#[test]
fn effects_come_again_in_each_repetition() {
    // Speed 2 and EE2: t is 0, 1, 0, 1, 0, 1.
    let with = |code| row(&[(1, 428, code), (0, 0, 0xF02), (0, 0, 0xEE2)]);
    assert_eq!(periods(&with(0x103), 6), [428, 425, 425, 422, 422, 419]);
    assert_eq!(volumes(&with(0xA01), 6), [40, 39, 39, 38, 38, 37]);
    assert_eq!(periods(&with(0x047), 6), [428, 339, 428, 339, 428, 339]);
    // A cut at t 1 acts again though the state was made louder in between.
    let draft = with(0xEC1);
    let mut cells = fresh();
    traces_from(&draft, &mut cells, 2);
    cells[at(1, VOLUME)] = 30;
    let later = traces_from(&draft, &mut cells, 2);
    assert_eq!(
        [later[0].voices[0].volume, later[1].voices[0].volume],
        [30, 0]
    );
    // EC0 acts at u = 0 only.
    let draft = with(0xEC0);
    let mut cells = fresh();
    traces_from(&draft, &mut cells, 2);
    cells[at(1, VOLUME)] = 30;
    let later = traces_from(&draft, &mut cells, 2);
    assert_eq!(
        [later[0].voices[0].volume, later[1].voices[0].volume],
        [30, 30]
    );
}

#[test]
fn an_arpeggio_nibble_of_0_keeps_the_exact_period() {
    assert_eq!(periods(&row(&[(1, 430, 0x007)]), 3), [430, 430, 285]);
    assert_eq!(periods(&row(&[(1, 430, 0x070)]), 3), [430, 285, 430]);
    assert_eq!(periods(&row(&[(1, 430, 0x011)]), 3), [430, 404, 404]);
    assert_eq!(state_after(&row(&[(1, 430, 0x011)]), 2)[at(1, PERIOD)], 430);
}

#[test]
fn an_arpeggio_ends_at_113() {
    assert_eq!(periods(&row(&[(1, 113, 0x0F1)]), 3), [113; 3]);
    assert_eq!(periods(&row(&[(1, 127, 0x01F)]), 3), [127, 120, 113]);
    assert_eq!(periods(&row(&[(1, 856, 0x0CF)]), 3), [856, 428, 360]);
}

#[test]
fn an_arpeggio_does_nothing_to_a_period_of_0() {
    assert_eq!(periods(&row(&[(1, 0, 0x047)]), 3), [0, 0, 0]);
}

#[test]
fn a_voice_keeps_its_arpeggio_only_in_the_sounded_period() {
    let cells = state_after(&row(&[(1, 428, 0x047)]), 2);
    assert_eq!(
        [cells[at(1, PERIOD)], cells[at(1, VOICE_PERIOD)]],
        [428, 339]
    );
}
