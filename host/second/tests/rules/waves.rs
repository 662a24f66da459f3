//! Vibrato and tremolo: half waves, memories, places, limits, and what runs them from memory.

use crate::common::*;
use second::generate::draft::Draft;
use second::generate::waves::wavering;
use second::{change_page, fresh, play, play_stream, tick_list, touch, why_quiet, STATE_CELLS};

const SINE: u32 = 0;
const RAMP: u32 = 1;
const SQUARE: u32 = 2;

/// The first half of the sine as the paper lists it, up and back down.
const HALF_SINE: [i32; 32] = [
    0, 24, 49, 74, 97, 120, 141, 161, 180, 197, 212, 224, 235, 244, 250, 253, 255, 253, 250, 244,
    235, 224, 212, 197, 180, 161, 141, 120, 97, 74, 49, 24,
];

/// The state in the second tick of a row, with channel 1 at period 428 and volume 32, and some of
/// its cells changed.
fn lent(changes: &[(usize, u32)]) -> Cells {
    let mut cells = fresh();
    cells[TICK] = 1;
    cells[at(1, PERIOD)] = 428;
    cells[at(1, VOLUME)] = 32;
    for &(cell, number) in changes {
        cells[at(1, cell)] = number;
    }
    cells
}

/// Channel 1's sounded period and volume in the next tick of a first row with this effect.
fn sounded(code: u32, cells: &mut Cells) -> [u32; 2] {
    let voice = traces_from(&row(&[(0, 0, code)]), cells, 1)[0].voices[0];
    [voice.period, voice.volume]
}

/// What vibrato makes of a period.
fn vibrated(period: u32, y: u32, place: u32, form: u32) -> u32 {
    let wave = [
        (PERIOD, period),
        (VIBRATO_Y, y),
        (VIBRATO_PLACE, place),
        (VIBRATO_FORM, form),
    ];
    sounded(0x400, &mut lent(&wave))[0]
}

/// What tremolo makes of a volume.
fn trembled(volume: u32, y: u32, place: u32, form: u32) -> u32 {
    let wave = [
        (VOLUME, volume),
        (TREMOLO_Y, y),
        (TREMOLO_PLACE, place),
        (TREMOLO_FORM, form),
    ];
    sounded(0x700, &mut lent(&wave))[1]
}

/// Channel 1's x, y, place and form of both waves, vibrato first.
fn waves(cells: &Cells) -> [u32; 8] {
    let own = &cells[at(1, VIBRATO_X)..=at(1, TREMOLO_FORM)];
    own.try_into().expect("eight cells")
}

/// Channel 1's waves some ticks after fresh.
fn waves_after(draft: &Draft, ticks: usize) -> [u32; 8] {
    waves(&state_after(draft, ticks))
}

/// Whether channel 1's voice starts, tick by tick.
fn starts(draft: &Draft, ticks: u32) -> Vec<bool> {
    let list = tick_list(&draft.bytes(), ticks).expect("accepted");
    list.iter().map(|tick| tick.commands[0].start).collect()
}

// The half waves.

#[test]
fn the_sine_moves_a_period_over_its_64_places() {
    // Each of the paper's numbers times 15 div 128.
    let sizes = [
        0, 2, 5, 8, 11, 14, 16, 18, 21, 23, 24, 26, 27, 28, 29, 29, 29, 29, 29, 28, 27, 26, 24, 23,
        21, 18, 16, 14, 11, 8, 5, 2,
    ];
    for (place, size) in (0..).zip(sizes) {
        assert_eq!(vibrated(428, 15, place, SINE), 428 + size, "place {place}");
        let second = place + 32;
        assert_eq!(
            vibrated(428, 15, second, SINE),
            428 - size,
            "place {second}"
        );
    }
}

#[test]
fn the_sine_moves_a_volume_over_its_64_places() {
    // Each of the paper's numbers times 15 div 64.
    let sizes = [
        0, 5, 11, 17, 22, 28, 33, 37, 42, 46, 49, 52, 55, 57, 58, 59, 59, 59, 58, 57, 55, 52, 49,
        46, 42, 37, 33, 28, 22, 17, 11, 5,
    ];
    for (place, size) in (0..).zip(sizes) {
        assert_eq!(trembled(0, 15, place, SINE), size, "place {place}");
        let second = place + 32;
        assert_eq!(trembled(64, 15, second, SINE), 64 - size, "place {second}");
    }
}

#[test]
fn the_ramp_moves_a_period_over_its_64_places() {
    // 120 a place div 128.
    assert_eq!(vibrated(428, 15, 0, RAMP), 428);
    for place in 1..=16 {
        let expected = 428 + place - 1;
        assert_eq!(vibrated(428, 15, place, RAMP), expected, "place {place}");
    }
    for place in 17..=31 {
        let expected = 428 + place - 2;
        assert_eq!(vibrated(428, 15, place, RAMP), expected, "place {place}");
    }
    // 3,825 less 120 a place, div 128.
    let sizes = [
        29, 28, 28, 27, 26, 25, 24, 23, 22, 21, 20, 19, 18, 17, 16, 15, 14, 13, 13, 12, 11, 10, 9,
        8, 7, 6, 5, 4, 3, 2, 1, 0,
    ];
    for (place, size) in (32..).zip(sizes) {
        assert_eq!(vibrated(428, 15, place, RAMP), 428 - size, "place {place}");
    }
}

#[test]
fn the_ramp_moves_a_volume_over_its_64_places() {
    // At depth 8 one a place, then minus (255 div 8, less one a place).
    for place in 0..=31 {
        assert_eq!(trembled(0, 8, place, RAMP), place, "place {place}");
        let second = place + 32;
        let expected = 64 - 31 + place;
        assert_eq!(trembled(64, 8, second, RAMP), expected, "place {second}");
    }
}

#[test]
fn the_square_has_255_and_minus_255() {
    for place in 0..64 {
        let (period, volume) = if place < 32 { (457, 43) } else { (399, 21) };
        assert_eq!(vibrated(428, 15, place, SQUARE), period, "place {place}");
        // 765 div 64 is 11.
        assert_eq!(trembled(32, 3, place, SQUARE), volume, "place {place}");
    }
}

/// The number of a wave at a place, by the paper's words.
fn entry(form: u32, place: u32) -> i32 {
    let half = HALF_SINE[place as usize % 32];
    match (form, place) {
        (SINE, 0..=31) => half,
        (SINE, _) => -half,
        (RAMP, 0..=31) => 8 * place as i32,
        (RAMP, _) => -(255 - 8 * (place as i32 - 32)),
        (_, 0..=31) => 255,
        _ => -255,
    }
}

#[test]
fn every_form_place_and_depth() {
    for form in [SINE, RAMP, SQUARE] {
        for place in 0..64 {
            for y in 0..=15 {
                // Division of whole numbers goes towards 0.
                let product = entry(form, place) * y as i32;
                let case = format!("form {form}, place {place}, depth {y}");
                let expected = (428 + product / 128) as u32;
                assert_eq!(vibrated(428, y, place, form), expected, "{case}");
                for volume in [0, 64] {
                    let expected = (volume + product / 64).clamp(0, 64) as u32;
                    assert_eq!(trembled(volume as u32, y, place, form), expected, "{case}");
                }
            }
        }
    }
}

#[test]
fn the_size_is_divided_before_the_sign_is_put_back() {
    // 1,020 div 128 is 7, and 255 div 64 is 3; from below it would be 8 and 4.
    assert_eq!(vibrated(428, 4, 0, SQUARE), 435);
    assert_eq!(vibrated(428, 4, 32, SQUARE), 421);
    assert_eq!(trembled(40, 1, 0, SQUARE), 43);
    assert_eq!(trembled(40, 1, 32, SQUARE), 37);
    // A size below the divisor moves nothing, on either side: 5 × 24 = 120, 7 × 15 = 105, 2 × 24.
    assert_eq!(vibrated(428, 5, 1, SINE), 428);
    assert_eq!(vibrated(428, 5, 33, SINE), 428);
    assert_eq!(vibrated(428, 15, 63, RAMP), 428);
    assert_eq!(trembled(40, 2, 33, SINE), 40);
    assert_eq!(trembled(40, 2, 31, SINE), 40);
    assert_eq!(trembled(40, 9, 63, RAMP), 40);
    assert_eq!(trembled(40, 10, 63, RAMP), 39);
}

// The limits.

#[test]
fn a_wavering_period_stays_in_113_to_856() {
    // The farthest is 29 each way.
    for (period, raised) in [(826, 855), (827, 856), (828, 856), (856, 856), (113, 142)] {
        assert_eq!(vibrated(period, 15, 0, SQUARE), raised, "{period}");
    }
    for (period, lowered) in [(143, 114), (142, 113), (141, 113), (113, 113), (856, 827)] {
        assert_eq!(vibrated(period, 15, 32, SQUARE), lowered, "{period}");
    }
}

#[test]
fn a_wavering_volume_stays_in_0_to_64() {
    // The farthest is 59 each way.
    for (volume, raised) in [(0, 59), (4, 63), (5, 64), (6, 64), (64, 64)] {
        assert_eq!(trembled(volume, 15, 0, SQUARE), raised, "{volume}");
    }
    for (volume, lowered) in [(64, 5), (60, 1), (59, 0), (58, 0), (0, 0)] {
        assert_eq!(trembled(volume, 15, 32, SQUARE), lowered, "{volume}");
    }
}

#[test]
fn a_period_of_0_stays_0_and_its_place_moves() {
    for place in [0, 16, 32, 48] {
        assert_eq!(vibrated(0, 15, place, SQUARE), 0, "place {place}");
    }
    for code in [0x400, 0x600] {
        let mut cells = lent(&[(PERIOD, 0), (VIBRATO_X, 7), (VIBRATO_Y, 15)]);
        assert_eq!(sounded(code, &mut cells), [0, 32]);
        assert_eq!(waves(&cells), [7, 15, 7, 0, 0, 0, 0, 0], "effect {code:X}");
    }
}

#[test]
fn the_place_moves_at_depth_0_and_at_any_volume() {
    for code in [0x400, 0x600] {
        let mut cells = lent(&[(VIBRATO_X, 7)]);
        assert_eq!(sounded(code, &mut cells), [428, 32]);
        assert_eq!(waves(&cells), [7, 0, 7, 0, 0, 0, 0, 0], "effect {code:X}");
    }
    for (volume, y) in [(32, 0), (0, 0), (0, 9), (64, 9)] {
        let mut cells = lent(&[(VOLUME, volume), (TREMOLO_X, 7), (TREMOLO_Y, y)]);
        assert_eq!(sounded(0x700, &mut cells), [428, volume]);
        assert_eq!(waves(&cells), [0, 0, 0, 0, 7, y, 7, 0]);
    }
}

// Whole rows.

#[test]
fn a_vibrato_tick_by_tick() {
    // Places 0, 15, 30, 45, 60, then 11, 26: 0, 253, 49, -244, -97, then 224, 141, times 8 div 128.
    let draft = rows(&[&[(2, 428, 0x4F8)], &[(0, 0, 0x400)]]);
    assert_eq!(
        periods(&draft, 9),
        [428, 428, 443, 431, 413, 422, 428, 442, 436]
    );
    assert_eq!(volumes(&draft, 9), [64; 9]);
    assert_eq!(waves_after(&draft, 5), [15, 8, 60, 0, 0, 0, 0, 0]);
    assert_eq!(waves_after(&draft, 9), [15, 8, 41, 0, 0, 0, 0, 0]);
}

#[test]
fn a_tremolo_tick_by_tick() {
    // Places 0, 10, 20, 30, 40, then 50: 0, 212, 235, 49, -180, then -250, times 4 div 64.
    let draft = rows(&[&[(1, 428, 0x7A4)], &[(0, 0, 0x700)]]);
    assert_eq!(volumes(&draft, 8), [40, 40, 53, 54, 43, 29, 40, 25]);
    assert_eq!(periods(&draft, 8), [428; 8]);
    assert_eq!(waves_after(&draft, 8), [0, 0, 0, 0, 10, 4, 60, 0]);
}

#[test]
fn a_positive_entry_raises_the_period() {
    let draft = rows(&[&[(2, 428, 0xE42), (0, 0, 0xF02)], &[(0, 0, 0x40F)]]);
    assert_eq!(periods(&draft, 4), [428, 428, 428, 457]);
}

#[test]
fn the_channels_own_period_and_volume_stay() {
    let mut cells = lent(&[(VIBRATO_Y, 15), (VIBRATO_FORM, SQUARE)]);
    sounded(0x400, &mut cells);
    assert_eq!([cells[at(1, PERIOD)], cells[at(1, VOLUME)]], [428, 32]);
    assert_eq!(cells[at(1, VOICE_PERIOD)], 457);
    let mut cells = lent(&[(TREMOLO_Y, 4), (TREMOLO_FORM, SQUARE)]);
    sounded(0x700, &mut cells);
    assert_eq!([cells[at(1, PERIOD)], cells[at(1, VOLUME)]], [428, 32]);
    assert_eq!(cells[at(1, VOICE_VOLUME)], 47);
}

#[test]
fn nothing_wavers_at_t_0() {
    // A row of two ticks, then, under EE2, one of t = 0, 1, 0, 1, 0, 1.
    let later = |code| [(0, 0, code), (0, 0, 0xEE2)];
    let first = |code| [(1, 428, code), (0, 0, 0xF02)];
    let vibrato = rows(&[&first(0xE42), &later(0x41F)]);
    assert_eq!(
        periods(&vibrato, 8),
        [428, 428, 428, 457, 428, 457, 428, 457]
    );
    assert_eq!(waves_after(&vibrato, 8), [1, 15, 3, 2, 0, 0, 0, 0]);
    let tremolo = rows(&[&first(0xE72), &later(0x714)]);
    assert_eq!(volumes(&tremolo, 8), [40, 40, 40, 55, 40, 55, 40, 55]);
    assert_eq!(waves_after(&tremolo, 8), [0, 0, 0, 0, 1, 4, 3, 2]);
    // Of 6 the memory is 1 and 15, too, and nothing slides at t = 0 either.
    let draft = rows(&[&first(0xE42), &[(0, 0, 0x41F)], &later(0x601)]);
    assert_eq!(
        periods(&draft, 10)[4..],
        [428, 457, 428, 457, 428, 457],
        "after 41F"
    );
    assert_eq!(volumes(&draft, 10)[4..], [40, 39, 39, 38, 38, 37]);
    assert_eq!(waves_after(&draft, 10), [1, 15, 4, 2, 0, 0, 0, 0]);
}

#[test]
fn nothing_wavers_at_speed_1() {
    let draft = rows(&[
        &[(1, 428, 0xE42), (0, 0, 0xF01)],
        &[(0, 0, 0xE72)],
        &[(0, 0, 0x4FF)],
        &[(0, 0, 0x7FF)],
        &[(0, 0, 0x601)],
        &[(0, 0, 0x4FF), (0, 0, 0xEE3)],
    ]);
    assert_eq!(periods(&draft, 9), [428; 9]);
    assert_eq!(volumes(&draft, 9), [40; 9]);
    assert_eq!(waves_after(&draft, 9), [15, 15, 0, 2, 15, 15, 0, 2]);
}

#[test]
fn the_place_gains_x_modulo_64() {
    for (place, x, next) in [
        (0, 0, 0),
        (63, 0, 63),
        (63, 1, 0),
        (62, 1, 63),
        (49, 15, 0),
        (48, 15, 63),
        (60, 15, 11),
        (31, 1, 32),
    ] {
        for code in [0x400, 0x600] {
            let mut cells = lent(&[(VIBRATO_X, x), (VIBRATO_PLACE, place)]);
            sounded(code, &mut cells);
            assert_eq!(waves(&cells), [x, 0, next, 0, 0, 0, 0, 0]);
        }
        let mut cells = lent(&[(TREMOLO_X, x), (TREMOLO_PLACE, place)]);
        sounded(0x700, &mut cells);
        assert_eq!(waves(&cells), [0, 0, 0, 0, x, 0, next, 0]);
    }
}

#[test]
fn the_place_moves_after_its_use() {
    // The last place of the square's first half, and the last of all.
    let mut cells = lent(&[(VIBRATO_X, 1), (VIBRATO_Y, 15), (VIBRATO_PLACE, 31)]);
    cells[at(1, VIBRATO_FORM)] = SQUARE;
    assert_eq!(sounded(0x400, &mut cells), [457, 32]);
    assert_eq!(sounded(0x400, &mut cells), [399, 32]);
    let mut cells = lent(&[(TREMOLO_X, 1), (TREMOLO_Y, 4), (TREMOLO_PLACE, 63)]);
    cells[at(1, TREMOLO_FORM)] = SQUARE;
    assert_eq!(sounded(0x700, &mut cells), [428, 17]);
    assert_eq!(sounded(0x700, &mut cells), [428, 47]);
}

#[test]
fn other_effects_leave_the_waves_where_they_are() {
    let wave = [
        (VIBRATO_X, 3),
        (VIBRATO_Y, 15),
        (VIBRATO_PLACE, 5),
        (VIBRATO_FORM, SQUARE),
        (TREMOLO_X, 4),
        (TREMOLO_Y, 15),
        (TREMOLO_PLACE, 6),
        (TREMOLO_FORM, SQUARE),
    ];
    let kept = [3, 15, 5, 2, 4, 15, 6, 2];
    for code in [
        0x000, 0x347, 0x502, 0x8FF, 0x901, 0xC20, 0xE1F, 0xE42, 0xE72, 0xE91, 0xEAF, 0xED1, 0xF7D,
    ] {
        let mut cells = lent(&wave);
        assert_eq!(sounded(code, &mut cells)[0], 428, "effect {code:X}");
        assert_eq!(waves(&cells), kept, "effect {code:X}");
    }
    // What they do themselves they do to a channel that wavered before.
    assert_eq!(sounded(0x047, &mut lent(&wave)), [339, 32]);
    assert_eq!(sounded(0x105, &mut lent(&wave)), [423, 32]);
    assert_eq!(sounded(0x205, &mut lent(&wave)), [433, 32]);
    assert_eq!(sounded(0xA03, &mut lent(&wave)), [428, 29]);
    assert_eq!(sounded(0xEC1, &mut lent(&wave)), [428, 0]);
    // Vibrato leaves the tremolo and the volume, tremolo the vibrato and the period.
    let mut cells = lent(&wave);
    assert_eq!(sounded(0x400, &mut cells), [457, 32]);
    assert_eq!(waves(&cells), [3, 15, 8, 2, 4, 15, 6, 2]);
    let mut cells = lent(&wave);
    assert_eq!(sounded(0x700, &mut cells), [428, 64]);
    assert_eq!(waves(&cells), [3, 15, 5, 2, 4, 15, 10, 2]);
}

#[test]
fn each_channel_has_its_own_waves() {
    let draft = row(&[(1, 428, 0x412), (2, 300, 0x734), (0, 0, 0xF02)]);
    let cells = state_after(&draft, 2);
    assert_eq!(waves(&cells), [1, 2, 1, 0, 0, 0, 0, 0]);
    assert_eq!(
        cells[at(2, VIBRATO_X)..=at(2, TREMOLO_FORM)],
        [0, 0, 0, 0, 3, 4, 3, 0]
    );
    for channel in [3, 4] {
        let own = &cells[at(channel, VIBRATO_X)..=at(channel, TREMOLO_FORM)];
        assert_eq!(own, [0; 8]);
    }
}

// The memories.

#[test]
fn each_half_is_remembered_by_itself() {
    let draft = rows(&[
        &[(0, 0, 0x4A5), (0, 0, 0xF01)],
        &[(0, 0, 0x430)],
        &[(0, 0, 0x407)],
        &[(0, 0, 0x400)],
        &[(0, 0, 0x7B6)],
        &[(0, 0, 0x702)],
        &[(0, 0, 0x710)],
        &[(0, 0, 0x700)],
        &[(0, 0, 0x4FF)],
    ]);
    for (ticks, [vibrato_x, vibrato_y, tremolo_x, tremolo_y]) in (1..).zip([
        [10, 5, 0, 0],
        [3, 5, 0, 0],
        [3, 7, 0, 0],
        [3, 7, 0, 0],
        [3, 7, 11, 6],
        [3, 7, 11, 2],
        [3, 7, 1, 2],
        [3, 7, 1, 2],
        [15, 15, 1, 2],
    ]) {
        let expected = [vibrato_x, vibrato_y, 0, 0, tremolo_x, tremolo_y, 0, 0];
        assert_eq!(waves_after(&draft, ticks), expected, "after {ticks} ticks");
    }
}

#[test]
fn memories_are_taken_at_u_0_alone() {
    // The row says other halves than the lent memory, which is the one in use.
    let mut cells = lent(&[(VIBRATO_X, 1), (VIBRATO_Y, 15), (VIBRATO_FORM, SQUARE)]);
    assert_eq!(sounded(0x4F8, &mut cells), [457, 32]);
    assert_eq!(waves(&cells), [1, 15, 1, 2, 0, 0, 0, 0]);
    let mut cells = lent(&[(TREMOLO_X, 1), (TREMOLO_Y, 4), (TREMOLO_FORM, SQUARE)]);
    assert_eq!(sounded(0x7F8, &mut cells), [428, 47]);
    assert_eq!(waves(&cells), [0, 0, 0, 0, 1, 4, 1, 2]);
}

#[test]
fn the_parameter_of_5_and_6_is_that_of_a_alone() {
    let draft = rows(&[
        &[(1, 428, 0x4A5), (0, 0, 0xF01)],
        &[(0, 0, 0x7B6)],
        &[(0, 0, 0x309)],
        &[(0, 0, 0x5FE)],
        &[(0, 0, 0x6FE)],
    ]);
    let cells = state_after(&draft, 5);
    assert_eq!(waves(&cells), [10, 5, 0, 0, 11, 6, 0, 0]);
    assert_eq!(cells[at(1, MEMORY)], 9);
}

// Starts, forms, and what else sets a wave's numbers.

#[test]
fn a_start_by_a_period_sets_both_places_to_0() {
    let mut moved = fresh();
    for (cell, number) in (VIBRATO_X..).zip([3, 4, 50, 2, 5, 6, 60, 1]) {
        moved[at(1, cell)] = number;
    }
    let after = |cell: (u32, u32, u32)| {
        let mut cells = moved;
        traces_from(&row(&[cell]), &mut cells, 1);
        waves(&cells)
    };
    let started = [3, 4, 0, 2, 5, 6, 0, 1];
    for code in [
        0x000, 0x101, 0x400, 0x6FF, 0x700, 0x902, 0xC40, 0xE93, 0xEE1,
    ] {
        assert_eq!(after((1, 428, code)), started, "effect {code:X}");
        // Also without a latched sample, and with an empty one.
        assert_eq!(after((0, 428, code)), started, "effect {code:X}");
        assert_eq!(after((3, 428, code)), started, "effect {code:X}");
    }
    let kept = [3, 4, 50, 2, 5, 6, 60, 1];
    for code in [0x305, 0x300, 0x505, 0x500] {
        assert_eq!(after((1, 428, code)), kept, "effect {code:X}");
    }
    for code in [0x000, 0x400, 0x901, 0x900, 0xE91] {
        assert_eq!(after((1, 0, code)), kept, "effect {code:X}");
        assert_eq!(after((0, 0, code)), kept, "effect {code:X}");
    }
}

#[test]
fn starts_without_a_period_keep_the_places() {
    // Sample 2 sounds; E9 starts it at t = 2, too.
    let draft = rows(&[
        &[(2, 428, 0x4F1), (0, 0, 0xF03)],
        &[(0, 0, 0x7A1)],
        &[(0, 0, 0x901)],
        &[(1, 0, 0xE92)],
        &[(1, 300, 0x303)],
        &[(1, 300, 0x503)],
    ]);
    for ticks in [6, 9, 12, 15, 18] {
        assert_eq!(waves_after(&draft, ticks), [15, 1, 30, 0, 10, 1, 20, 0]);
    }
    let starts = starts(&draft, 18);
    assert_eq!(starts[6..12], [true, false, false, true, false, true]);
    assert_eq!(starts[12..], [false; 6]);
}

#[test]
fn forms_are_chosen_by_y_mod_4() {
    for y in 0..16 {
        let form = [0, 1, 2, 2][y as usize % 4];
        let mut cells = fresh();
        cells[at(1, VIBRATO_FORM)] = 1;
        cells[at(1, TREMOLO_FORM)] = 1;
        let mut other = cells;
        traces_from(&row(&[(0, 0, 0xE40 + y)]), &mut cells, 1);
        assert_eq!(waves(&cells), [0, 0, 0, form, 0, 0, 0, 1], "E4{y:X}");
        traces_from(&row(&[(0, 0, 0xE70 + y)]), &mut other, 1);
        assert_eq!(waves(&other), [0, 0, 0, 1, 0, 0, 0, form], "E7{y:X}");
    }
}

#[test]
fn a_form_lasts_and_a_note_keeps_it() {
    let draft = rows(&[
        &[(1, 428, 0xE43), (0, 0, 0xF02)],
        &[(0, 0, 0xE7E)],
        &[(1, 300, 0x40F)],
        &[(1, 400, 0x704)],
        &[(0, 0, 0xE41)],
        &[(0, 0, 0x400)],
    ]);
    assert_eq!(
        periods(&draft, 12),
        [428, 428, 428, 428, 300, 329, 400, 400, 400, 400, 400, 400]
    );
    assert_eq!(volumes(&draft, 12)[6..8], [40, 55]);
    assert_eq!(waves_after(&draft, 12), [0, 15, 0, 1, 0, 4, 0, 2]);
}

#[test]
fn the_note_beside_4_6_and_7_starts_as_usual() {
    for code in [0x4A5, 0x6A5, 0x7A5, 0xE41, 0xE71] {
        let draft = rows(&[&[(2, 300, 0xF02)], &[(1, 428, code)]]);
        assert_eq!(
            starts(&draft, 4),
            [true, false, true, false],
            "effect {code:X}"
        );
        let cells = state_after(&draft, 3);
        assert_eq!(
            cells[at(1, LATCHED)..=at(1, MEMORY)],
            [1, 0, 40, 428, 0, 0],
            "effect {code:X}"
        );
        assert_eq!(cells[at(1, SOUNDING)], 1, "effect {code:X}");
    }
}

// 5 and 6.

#[test]
fn a_note_beside_5_is_a_target() {
    let draft = rows(&[&[(2, 428, 0xF02)], &[(1, 300, 0x500)]]);
    assert_eq!(starts(&draft, 4), [true, false, false, false]);
    let cells = state_after(&draft, 4);
    // Sample 1 is latched and its volume set; sample 2 sounds on.
    assert_eq!(
        cells[at(1, LATCHED)..=at(1, MEMORY)],
        [1, 0, 40, 428, 300, 0]
    );
    assert_eq!([cells[at(1, SOUNDING)], cells[at(1, STOPPED)]], [2, 0]);
}

#[test]
fn five_slides_as_3_does_and_its_volume_as_a() {
    let draft = rows(&[
        &[(2, 428, 0xF03)],
        &[(0, 404, 0x30A)],
        &[(0, 500, 0x502)],
        &[(0, 0, 0x53F)],
        &[(0, 431, 0x5F0)],
        &[(0, 0, 0x500)],
    ]);
    assert_eq!(
        periods(&draft, 18),
        [
            428, 428, 428, 428, 418, 408, 408, 418, 428, 428, 438, 448, 448, 438, 431, 431, 431,
            431
        ]
    );
    assert_eq!(
        volumes(&draft, 18),
        [64, 64, 64, 64, 64, 64, 64, 62, 60, 60, 63, 64, 64, 64, 64, 64, 64, 64]
    );
    assert_eq!(
        state_after(&draft, 18)[at(1, TARGET)..=at(1, MEMORY)],
        [431, 10]
    );
    assert_eq!(waves_after(&draft, 18), [0; 8]);
}

#[test]
fn five_without_target_or_period_slides_the_volume_alone() {
    let slides = [(MEMORY, 10), (TARGET, 0)];
    assert_eq!(sounded(0x503, &mut lent(&slides)), [428, 29]);
    let slides = [(MEMORY, 10), (TARGET, 300), (PERIOD, 0)];
    assert_eq!(sounded(0x530, &mut lent(&slides)), [0, 35]);
    let slides = [(MEMORY, 0), (TARGET, 300)];
    assert_eq!(sounded(0x500, &mut lent(&slides)), [428, 32]);
    let slides = [(MEMORY, 255), (TARGET, 300)];
    assert_eq!(sounded(0x5FF, &mut lent(&slides)), [300, 47]);
}

#[test]
fn volumes_under_5_and_6_stay_in_0_to_64() {
    for code in [0x500, 0x600] {
        let slid = |volume, parameter: u32| {
            let mut cells = lent(&[(VOLUME, volume)]);
            sounded(code + parameter, &mut cells)[1]
        };
        assert_eq!([slid(14, 0x0F), slid(15, 0x0F), slid(16, 0x0F)], [0, 0, 1]);
        assert_eq!(
            [slid(50, 0xF0), slid(49, 0xF0), slid(48, 0xF0)],
            [64, 64, 63]
        );
        // With an x the y is ignored.
        assert_eq!(slid(20, 0x1F), 21);
    }
}

#[test]
fn six_wavers_as_4_does_and_its_volume_slides_as_a() {
    // Places 15, 30, 45 after the first row: 253, 49, -244 times 8 div 128.
    let draft = rows(&[
        &[(2, 428, 0x4F8), (0, 0, 0xF02)],
        &[(0, 0, 0x603)],
        &[(0, 0, 0x62F)],
        &[(0, 0, 0x600)],
    ]);
    assert_eq!(periods(&draft, 8), [428, 428, 428, 443, 428, 431, 428, 413]);
    assert_eq!(volumes(&draft, 8), [64, 64, 64, 61, 61, 63, 63, 63]);
    assert_eq!(waves_after(&draft, 8), [15, 8, 60, 0, 0, 0, 0, 0]);
    assert_eq!(state_after(&draft, 8)[at(1, VOLUME)], 63);
}

#[test]
fn six_with_a_note_begins_its_wave_again() {
    let draft = rows(&[&[(2, 428, 0x4F8), (0, 0, 0xF03)], &[(2, 300, 0x600)]]);
    // Places 0 and 15, both times.
    assert_eq!(periods(&draft, 6), [428, 428, 443, 300, 300, 315]);
}

#[test]
fn six_and_5_run_in_each_others_company() {
    let draft = rows(&[
        &[(2, 428, 0xE42), (0, 0, 0xF02)],
        &[(0, 0, 0x42F)],
        &[(0, 404, 0x305)],
        &[(0, 0, 0x601)],
        &[(0, 0, 0x501)],
        &[(0, 0, 0x61F)],
    ]);
    // The slide goes 428, 423, 418; vibrato sounds 29 above it and keeps it.
    assert_eq!(
        periods(&draft, 12)[2..],
        [428, 457, 428, 423, 423, 452, 423, 418, 418, 447]
    );
    assert_eq!(
        volumes(&draft, 12)[2..],
        [64, 64, 64, 64, 64, 63, 63, 62, 62, 63]
    );
    assert_eq!(waves_after(&draft, 12), [2, 15, 6, 2, 0, 0, 0, 0]);
}

// Cells, refusals and calls.

#[test]
fn the_waves_stand_between_slide_memory_and_voice() {
    let draft = rows(&[
        &[(0, 0, 0xF02), (2, 428, 0x4A5)],
        &[(0, 0, 0), (0, 0, 0x7B6)],
        &[(0, 0, 0), (0, 0, 0xE41)],
        &[(0, 0, 0), (0, 0, 0xE72)],
        &[(0, 0, 0), (0, 300, 0x307)],
    ]);
    assert_eq!(STATE_CELLS, 173);
    let cells = state_after(&draft, 10);
    assert_eq!(
        cells[33..50],
        [2, 0, 64, 421, 300, 7, 10, 5, 10, 1, 11, 6, 11, 2, 2, 421, 64]
    );
    assert_eq!(cells[52], 0);
    assert_eq!(cells[13..32], [0; 19]);
    assert_eq!([cells[32], cells[72], cells[92], cells[172]], [1; 4]);
}

#[test]
fn all_of_them_begin_at_0() {
    let cells = fresh();
    for channel in 1..=8 {
        let own = &cells[at(channel, VIBRATO_X)..=at(channel, TREMOLO_FORM)];
        assert_eq!(own, [0; 8], "channel {channel}");
    }
}

#[test]
fn places_above_63_forms_above_2_and_memories_above_15_get_14() {
    let file = song().bytes();
    let lasts = [15, 15, 63, 2, 15, 15, 63, 2];
    for channel in 1..=4 {
        for (cell, last) in (VIBRATO_X..).zip(lasts) {
            for (number, refusal) in [
                (0, 0),
                (last, 0),
                (last + 1, 14),
                (last + 256, 14),
                (1 << 16, 14),
                (u32::MAX, 14),
            ] {
                let mut cells = fresh();
                cells[at(channel, cell)] = number;
                let before = cells;
                let answer = play(&file, &mut cells, 0, &mut []);
                assert_eq!(answer, refused(refusal, 0), "{number} in {cell}");
                assert_eq!(touch(&file, &mut cells, 0, 0, 0), refused(refusal, 0));
                if refusal == 14 {
                    assert_eq!(change_page(&file, &mut cells), refused(14, 0));
                    assert_eq!(why_quiet(&file, &cells, 9), refused(14, 0));
                }
                assert_eq!(cells, before);
            }
        }
    }
}

#[test]
fn touches_and_page_changes_keep_the_waves() {
    let file = song().bytes();
    let numbers = [1, 2, 3, 1, 5, 6, 7, 2];
    let mut cells = fresh();
    for (cell, number) in (VIBRATO_X..).zip(numbers) {
        cells[at(1, cell)] = number;
    }
    assert_eq!(touch(&file, &mut cells, 0, 0, 0), ACCEPTED);
    assert_eq!(change_page(&file, &mut cells), ACCEPTED);
    assert_eq!(waves(&cells), numbers);
}

#[test]
fn a_tick_that_does_not_fit_moves_no_wave() {
    let file = row(&[(0, 0, 0x411)]).bytes();
    let mut cells = lent(&[(VIBRATO_X, 9), (VIBRATO_Y, 9)]);
    let before = cells;
    assert_eq!(play(&file, &mut cells, 1, &mut [0; 1_919]), played(0));
    assert_eq!(cells, before);
    assert_eq!(play(&file, &mut cells, 1, &mut [0; 1_920]), played(1));
    assert_eq!(waves(&cells), [9, 9, 9, 0, 0, 0, 0, 0]);
}

#[test]
fn a_voice_gives_its_byte_times_the_sounded_volume() {
    // Sample 2 from its loop, whose bytes are 50, on the left: 100 times the volume.
    let loud = |draft: &Draft| {
        let traces = traces(draft, 4);
        [traces[2].frames[900], traces[3].frames[900]]
    };
    let up = rows(&[&[(2, 428, 0xE72), (0, 0, 0xF02)], &[(0, 0, 0x704)]]);
    assert_eq!(loud(&up), [6_400, 6_400]);
    let mut down = rows(&[&[(2, 428, 0xE72), (0, 0, 0xF02)], &[(0, 0, 0x70F)]]);
    down.headers[1].volume = 4;
    assert_eq!(loud(&down), [400, 6_300]);
}

#[test]
fn a_tremolo_down_to_0_is_quiet() {
    let mut cells = lent(&[
        (TREMOLO_Y, 15),
        (TREMOLO_PLACE, 32),
        (TREMOLO_FORM, SQUARE),
        (SOUNDING, 2),
        (INDEX, 250),
        (STOPPED, 0),
    ]);
    let file = row(&[(0, 0, 0x700)]).bytes();
    assert_eq!(play(&file, &mut cells, 1, &mut [0; 1_920]), played(1));
    assert_eq!(cells[at(1, VOLUME)], 32);
    assert_eq!(why_quiet(&file, &cells, 1), played(4));
}

// The stream.

#[test]
fn the_streams_volume_is_the_sounded_one() {
    // Places 0, 15, 30: 0, 253, 49 times 4 div 64; then t = 0 again.
    let draft = row(&[(1, 428, 0x7F4), (0, 0, 0xF04)]);
    let records = [
        &[1, 125, 1, 40, 1, 172, 1, 0][..],
        &[0, 125],
        &[1, 125, 1, 55, 1, 172, 0, 0],
        &[1, 125, 1, 43, 1, 172, 0, 0],
        &[1, 125, 1, 40, 1, 172, 0, 0],
    ];
    let expected = counted(4, 5, &records.concat());
    assert_eq!(translated(&draft.bytes(), 5), expected);
}

#[test]
fn the_streams_period_is_the_sounded_one() {
    // Places 0, 15, 30: 0, 253, 49 times 8 div 128.
    let draft = row(&[(1, 428, 0x4F8), (0, 0, 0xF04)]);
    let records = [
        &[1, 125, 1, 40, 1, 172, 1, 0][..],
        &[0, 125],
        &[1, 125, 1, 40, 1, 187, 0, 0],
        &[1, 125, 1, 40, 1, 175, 0, 0],
        &[1, 125, 1, 40, 1, 172, 0, 0],
    ];
    let expected = counted(4, 5, &records.concat());
    assert_eq!(translated(&draft.bytes(), 5), expected);
}

/// The player's and the board's frames of the first ticks.
fn both(file: &[u8], ticks: u32) -> [Vec<i16>; 2] {
    let mut player = vec![7; 7_500 * ticks as usize];
    let mut board = player.clone();
    let answer = play(file, &mut fresh(), ticks, &mut player);
    assert_eq!(answer, played(ticks.into()));
    let stream = translated(file, ticks);
    assert_eq!(play_stream(&stream, file, &mut board), answer);
    [player, board]
}

#[test]
fn the_board_plays_what_wavers() {
    let draft = rows(&[
        &[(2, 428, 0x4F8), (2, 300, 0x7A9), (2, 856, 0x4FF)],
        &[(0, 0, 0x603), (0, 0, 0xE72), (0, 0, 0x400)],
        &[(0, 404, 0x305), (0, 0, 0x700), (0, 0, 0xE41)],
        &[(0, 0, 0x501), (0, 0, 0x7FF), (0, 113, 0x600)],
    ]);
    let [player, board] = both(&draft.bytes(), 24);
    assert!(player.iter().any(|&number| number != 0 && number != 7));
    assert!(player == board);
    for seed in 0..20 {
        let [player, board] = both(&wavering(seed), 40);
        assert!(player == board, "seed {seed}");
    }
}
