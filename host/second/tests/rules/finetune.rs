//! Finetune: the printed rows, notes and targets in them, E5, limits, arpeggio, and what is legal.

use crate::common::*;
use crate::printed::{printed, within, FINETUNES, PLACES};
use second::generate::draft::Draft;
use second::{
    change_page, fresh, growth, judge, play, play_stream, touch, touch_burst, trace_tick, why_quiet,
};

/// The cells' periods: those that refusal 9 lets pass.
const NOTES: std::ops::RangeInclusive<u32> = 113..=856;
/// The periods of states and streams.
const PERIODS: std::ops::RangeInclusive<u32> = 108..=907;

/// A finetune as four bits say it, and as a state's cell does.
fn bits(finetune: i32) -> u32 {
    if finetune < 0 {
        (finetune + 16) as u32
    } else {
        finetune as u32
    }
}

fn cell(finetune: i32) -> u32 {
    if finetune < 0 {
        u32::MAX - (-finetune as u32 - 1)
    } else {
        finetune as u32
    }
}

/// The same song with these finetunes of the samples 1, 2 and so on.
fn tuned(mut draft: Draft, finetunes: &[i32]) -> Draft {
    for (header, &finetune) in draft.headers.iter_mut().zip(finetunes) {
        header.finetune = bits(finetune) as u8;
    }
    draft
}

/// The place at which the row of finetune 0 is first at or below a period.
fn place(period: u32) -> usize {
    (0..PLACES)
        .find(|&place| printed(0)[place] <= period)
        .expect("113 is the last")
}

/// The fresh state in this tick of the row, with channel 1 at a finetune and a period.
fn lent(tick: u32, finetune: i32, period: u32) -> Cells {
    let mut cells = fresh();
    cells[TICK] = tick;
    cells[at(1, FINETUNE)] = cell(finetune);
    cells[at(1, PERIOD)] = period;
    cells
}

/// Channel 1's own and its sounded period after one tick of a first row with this effect.
fn after(code: u32, cells: &mut Cells) -> [u32; 2] {
    trace_tick(&row(&[(0, 0, code)]).bytes(), cells).expect("legal");
    [PERIOD, VOICE_PERIOD].map(|cell| cells[at(1, cell)])
}

/// Channel 1's finetune and period after each row of a song at speed 1.
fn by_rows(draft: &Draft, count: usize) -> Vec<(i32, u32)> {
    let mut cells = fresh();
    cells[SPEED] = 1;
    let numbers = |_| {
        traces_from(draft, &mut cells, 1);
        (cells[at(1, FINETUNE)] as i32, cells[at(1, PERIOD)])
    };
    (0..count).map(numbers).collect()
}

/// Periods at and about both ends of a finetune's row, those beyond it included.
fn about_ends(finetune: i32) -> Vec<u32> {
    let row = printed(finetune);
    let (first, last) = (row[0], row[PLACES - 1]);
    let about = |end: u32| {
        [
            end - 30,
            end - 15,
            end - 1,
            end,
            end + 1,
            end + 15,
            end + 30,
        ]
    };
    let near = about(first).into_iter().chain(about(last));
    let all = near.chain([108, 113, 428, 856, 907]);
    all.filter(|period| PERIODS.contains(period)).collect()
}

// The printed rows.

#[test]
fn sixteen_rows_of_36_fall_from_at_most_907_to_at_least_108() {
    for finetune in FINETUNES {
        let row = printed(finetune);
        assert_eq!(row.len(), PLACES, "finetune {finetune}");
        assert!(row.is_sorted_by(|one, next| one > next), "{row:?}");
    }
    let all = || FINETUNES.flat_map(printed);
    assert_eq!([all().min(), all().max()], [Some(&108), Some(&907)]);
    // Where the document's long list has 508 and 328.
    assert_eq!([printed(-8)[10], printed(-3)[17]], [504, 338]);
}

#[test]
fn each_printed_entry_is_a_notes_period() {
    for finetune in FINETUNES {
        let mut by_header = tuned(song(), &[finetune]);
        let mut by_e5 = song();
        for (row, &period) in printed(0).iter().enumerate() {
            by_header.put(0, row, 0, 1, period, 0);
            by_e5.put(0, row, 0, 0, period, 0xE50 + bits(finetune));
        }
        let expected: Vec<(i32, u32)> = printed(finetune)
            .iter()
            .map(|&period| (finetune, period))
            .collect();
        assert_eq!(by_rows(&by_header, PLACES), expected);
        assert_eq!(by_rows(&by_e5, PLACES), expected);
    }
}

#[test]
fn each_printed_entry_is_a_target() {
    for finetune in FINETUNES {
        for (place, &period) in printed(0).iter().enumerate() {
            for code in [0x300, 0x305, 0x500, 0x5F0] {
                let draft = tuned(row(&[(1, period, code)]), &[finetune]);
                let cells = state_after(&draft, 1);
                let expected = [cell(finetune), 40, 0, printed(finetune)[place]];
                let own = &cells[at(1, FINETUNE)..=at(1, TARGET)];
                assert_eq!(own, expected, "finetune {finetune}, place {place}");
            }
        }
    }
}

#[test]
fn a_note_between_entries_takes_the_place_first_at_or_below() {
    for finetune in FINETUNES.filter(|&finetune| finetune != 0) {
        for period in NOTES {
            let expected = printed(finetune)[place(period)];
            let started = row(&[(0, period, 0xE50 + bits(finetune))]);
            assert_eq!(by_rows(&started, 1), [(finetune, expected)], "{period}");
            let mut cells = lent(0, finetune, 0);
            traces_from(&row(&[(0, period, 0x300)]), &mut cells, 1);
            assert_eq!(cells[at(1, TARGET)], expected, "{period}");
        }
    }
    // 855 is below place 0, 809 as well; 808 is place 1.
    let two = |period| by_rows(&row(&[(0, period, 0xE52)]), 1)[0].1;
    assert_eq!(
        [856, 855, 809, 808, 807].map(two),
        [844, 796, 796, 796, 752]
    );
    assert_eq!(
        [121, 120, 119, 114, 113].map(two),
        [118, 118, 112, 112, 112]
    );
}

#[test]
fn finetune_0_keeps_the_exact_period() {
    for period in NOTES {
        let started = row(&[(1, period, 0)]);
        assert_eq!(by_rows(&started, 1), [(0, period)]);
        let asked = row(&[(1, period, 0xE50)]);
        assert_eq!(by_rows(&tuned(asked, &[5]), 1), [(0, period)]);
        let target = state_after(&row(&[(1, period, 0x300)]), 1)[at(1, TARGET)];
        assert_eq!(target, period);
    }
}

// Latching and E5.

#[test]
fn the_headers_low_four_bits_count() {
    for byte in 0..=255 {
        let mut draft = row(&[(1, 428, 0)]);
        draft.headers[0].finetune = byte;
        let low = i32::from(byte % 16);
        let finetune = if low > 7 { low - 16 } else { low };
        let expected = (finetune, printed(finetune)[12]);
        assert_eq!(by_rows(&draft, 1), [expected], "byte {byte}");
    }
}

#[test]
fn e5_comes_after_the_header_and_before_the_note() {
    for header in FINETUNES {
        for finetune in FINETUNES {
            let code = 0xE50 + bits(finetune);
            let note = tuned(row(&[(1, 428, code)]), &[header]);
            assert_eq!(by_rows(&note, 1), [(finetune, printed(finetune)[12])]);
            let alone = tuned(row(&[(1, 0, code)]), &[header]);
            assert_eq!(by_rows(&alone, 1), [(finetune, 0)]);
        }
    }
}

#[test]
fn e5_works_without_a_note_and_lasts() {
    for finetune in FINETUNES {
        let draft = rows(&[
            &[(1, 428, 0)],
            &[(0, 0, 0xE50 + bits(finetune))],
            &[(0, 0, 0)],
            &[(0, 339, 0)],
            &[(0, 0, 0x900)],
            &[(0, 226, 0x901)],
        ]);
        let [at_339, at_226] = [16, 23].map(|place| printed(finetune)[place]);
        let periods = [428, 428, 428, at_339, at_339, at_226];
        let met: Vec<u32> = by_rows(&draft, 6).iter().map(|met| met.1).collect();
        assert_eq!(met, periods, "finetune {finetune}");
        let finetunes = by_rows(&draft, 6).iter().skip(1).all(|m| m.0 == finetune);
        assert!(finetunes, "finetune {finetune}");
    }
}

#[test]
fn a_sample_without_a_note_changes_the_finetune_at_once() {
    let draft = tuned(
        rows(&[
            &[(1, 428, 0)],
            &[(2, 0, 0)],
            &[(0, 428, 0)],
            &[(3, 0, 0xE91)],
            &[(2, 0, 0x900)],
        ]),
        &[3, -5, 7],
    );
    let met = by_rows(&draft, 5);
    assert_eq!(met, [(3, 419), (-5, 419), (-5, 444), (7, 444), (-5, 444)]);
    assert_eq!(periods(&draft, 12)[6..], [419; 6]);
}

#[test]
fn a_latched_sample_sets_its_own_finetune_again() {
    let draft = tuned(
        rows(&[
            &[(1, 428, 0xE57)],
            &[(0, 428, 0)],
            &[(1, 428, 0)],
            &[(0, 0, 0xE58)],
            &[(1, 0, 0)],
            &[(2, 428, 0)],
        ]),
        &[-2, 0],
    );
    let met = by_rows(&draft, 6);
    let expected = [
        (7, 407),
        (7, 407),
        (-2, 434),
        (-8, 434),
        (-2, 434),
        (0, 428),
    ];
    assert_eq!(met, expected);
}

#[test]
fn without_a_latched_sample_the_finetune_is_0_or_that_of_e5() {
    let draft = rows(&[&[(0, 430, 0)], &[(0, 430, 0xE5F)], &[(0, 430, 0)]]);
    assert_eq!(
        by_rows(&tuned(draft, &[1; 31]), 3),
        [(0, 430), (-1, 431), (-1, 431)]
    );
}

#[test]
fn an_empty_samples_finetune_counts_too() {
    let draft = tuned(row(&[(3, 428, 0)]), &[0, 0, -8]);
    assert_eq!(by_rows(&draft, 1), [(-8, 453)]);
}

#[test]
fn e5_works_at_u_0_alone() {
    // The row's second tick, and the begin of a repetition under EE.
    let draft = row(&[(0, 0, 0xE53), (0, 0, 0xEE2)]);
    for tick in [1, 6, 12] {
        let mut cells = lent(tick, -4, 428);
        cells[DELAY] = 2;
        traces_from(&draft, &mut cells, 1);
        assert_eq!(cells[at(1, FINETUNE)], cell(-4), "tick {tick}");
    }
}

#[test]
fn other_effects_leave_the_finetune() {
    for code in (0..0x1000).filter(|code| code / 16 != 0xE5) {
        let mut cells = lent(0, -6, 428);
        after(code, &mut cells);
        assert_eq!(cells[at(1, FINETUNE)], cell(-6), "effect {code:X}");
    }
}

#[test]
fn each_channel_has_its_own_finetune() {
    for (tag, count) in TAGS {
        let mut draft = tuned(song_of(tag), &[1, 2, 3, 4, 5, 6, 7, -8]);
        for channel in 0..count {
            draft.put(0, 0, channel, 1 + channel as u32, 428, 0);
        }
        draft.put(0, 0, 1, 2, 428, 0xE5D);
        let cells = state_after(&draft, 1);
        for (channel, finetune) in (1..=count).zip([1, -3, 3, 4, 5, 6, 7, -8]) {
            let own = [FINETUNE, PERIOD].map(|cell| cells[at(channel, cell)]);
            assert_eq!(own, [cell(finetune), printed(finetune)[12]], "{tag:?}");
        }
    }
}

// Targets.

#[test]
fn a_sample_beside_3_or_5_tunes_the_target() {
    for code in [0x303, 0x503] {
        let draft = tuned(rows(&[&[(1, 428, 0)], &[(2, 404, code)]]), &[2, -7]);
        assert_eq!(by_rows(&draft, 2), [(2, 422), (-7, 422)]);
        let cells = state_after(&draft, 7);
        assert_eq!(cells[at(1, TARGET)], 425, "effect {code:X}");
    }
}

#[test]
fn a_target_is_not_tuned_again() {
    let draft = tuned(
        rows(&[
            &[(1, 428, 0xF02)],
            &[(0, 404, 0x3FF)],
            &[(2, 0, 0)],
            &[(0, 428, 0)],
            &[(0, 0, 0x300)],
            &[(0, 0, 0xE57)],
            &[(0, 428, 0)],
            &[(0, 0, 0x500)],
        ]),
        &[0, -8],
    );
    assert_eq!(
        periods(&draft, 16)[2..],
        [428, 404, 404, 404, 453, 453, 453, 404, 404, 404, 407, 407, 407, 404]
    );
}

#[test]
fn three_and_5_are_not_limited() {
    // Beyond both ends of every row, or at them.
    for finetune in FINETUNES {
        for (period, target, memory, expected) in [
            (907, 900, 3, 904),
            (907, 900, 30, 900),
            (900, 907, 5, 905),
            (907, 400, 0, 907),
            (108, 113, 1, 109),
            (112, 108, 2, 110),
            (112, 108, 255, 108),
            (108, 400, 0, 108),
            (907, 0, 9, 907),
            (108, 0, 9, 108),
        ] {
            for code in [0x300, 0x500] {
                let mut cells = lent(1, finetune, period);
                cells[at(1, TARGET)] = target;
                cells[at(1, MEMORY)] = memory;
                let case = format!("finetune {finetune}, {code:X} from {period}");
                assert_eq!(after(code, &mut cells), [expected; 2], "{case}");
                assert_eq!(cells[at(1, TARGET)], target, "{case}");
            }
        }
    }
}

// Limits.

#[test]
fn slides_stay_in_the_row() {
    for finetune in FINETUNES {
        for period in about_ends(finetune) {
            for by in [0, 1, 2, 14, 15, 29, 30, 31, 99, 255] {
                let slide = |code: u32, tick| after(code + by, &mut lent(tick, finetune, period));
                let case = format!("finetune {finetune}, {period} by {by}");
                let down = within(period as i32 - by as i32, finetune);
                let up = within((period + by) as i32, finetune);
                assert_eq!(slide(0x100, 1), [down; 2], "down: {case}");
                assert_eq!(slide(0x200, 1), [up; 2], "up: {case}");
                if by <= 15 {
                    assert_eq!(slide(0xE10, 0), [down; 2], "fine, down: {case}");
                    assert_eq!(slide(0xE20, 0), [up; 2], "fine, up: {case}");
                }
            }
        }
    }
}

#[test]
fn slides_end_at_the_rows_ends() {
    // The rows of 7 and -8 go from 814 to 108 and from 907 to 120.
    let slid = |code, finetune, period| after(code, &mut lent(1, finetune, period))[0];
    assert_eq!([slid(0x105, 7, 112), slid(0x104, 7, 112)], [108, 108]);
    assert_eq!([slid(0x103, 7, 112), slid(0x203, 7, 811)], [109, 814]);
    assert_eq!([slid(0x204, 7, 811), slid(0x202, 7, 811)], [814, 813]);
    assert_eq!([slid(0x203, -8, 905), slid(0x201, -8, 905)], [907, 906]);
    assert_eq!([slid(0x103, -8, 122), slid(0x101, -8, 122)], [120, 121]);
    // From outside, to the nearer end, also where the slide leads away from it.
    assert_eq!([slid(0x201, -8, 108), slid(0x101, -8, 108)], [120, 120]);
    assert_eq!([slid(0x101, 7, 907), slid(0x201, 7, 907)], [814, 814]);
    assert_eq!([slid(0x205, 0, 108), slid(0x206, 0, 108)], [113, 114]);
    assert_eq!([slid(0x133, 0, 907), slid(0x134, 0, 907)], [856, 855]);
}

#[test]
fn slides_by_0_pull_an_outside_period_in() {
    for finetune in FINETUNES {
        for period in PERIODS {
            let expected = within(period as i32, finetune);
            for (code, tick) in [(0x100, 1), (0x200, 1), (0xE10, 0), (0xE20, 0)] {
                let met = after(code, &mut lent(tick, finetune, period));
                assert_eq!(met, [expected; 2], "{code:X}, {finetune}, {period}");
            }
        }
    }
}

#[test]
fn slides_pull_in_where_they_work_alone() {
    // 1 and 2 at t above 0, E1 and E2 at u = 0; at 6 a repetition begins.
    for (code, pulls) in [
        (0x100, [false, true, false]),
        (0x200, [false, true, false]),
        (0xE10, [true, false, false]),
        (0xE20, [true, false, false]),
    ] {
        for (tick, pulls) in [0, 1, 6].into_iter().zip(pulls) {
            let mut cells = lent(tick, 7, 900);
            cells[DELAY] = 1;
            let expected = if pulls { 814 } else { 900 };
            assert_eq!(after(code, &mut cells), [expected; 2], "{code:X} at {tick}");
        }
    }
}

#[test]
fn a_note_in_its_row_is_limited_by_the_row_of_its_finetune() {
    // The rows of -8, 0 and 7 go to 907, 856 and 814; a sample alone takes the slide into its own.
    let draft = tuned(
        rows(&[
            &[(1, 856, 0xF02)],
            &[(0, 0, 0x2FF)],
            &[(2, 0, 0x201)],
            &[(3, 0, 0x200)],
            &[(0, 113, 0)],
            &[(0, 0, 0x1FF)],
        ]),
        &[-8, 0, 7],
    );
    assert_eq!(
        periods(&draft, 12),
        [907, 907, 907, 907, 907, 856, 856, 814, 108, 108, 108, 108]
    );
}

#[test]
fn vibrato_stays_in_the_row() {
    // The square at depth 15 moves by 29, and by 0 at depth 0.
    for finetune in FINETUNES {
        for period in about_ends(finetune) {
            for (depth, place, offset) in [(15, 0, 29), (15, 32, -29), (1, 0, 1), (0, 0, 0)] {
                for code in [0x400, 0x600] {
                    let mut cells = lent(1, finetune, period);
                    cells[at(1, VIBRATO_Y)] = depth;
                    cells[at(1, VIBRATO_PLACE)] = place;
                    cells[at(1, VIBRATO_FORM)] = 2;
                    let expected = within(period as i32 + offset, finetune);
                    let case = format!("finetune {finetune}, {period} by {offset}");
                    assert_eq!(after(code, &mut cells), [period, expected], "{case}");
                }
            }
        }
    }
}

#[test]
fn at_t_0_vibrato_limits_nothing() {
    for (finetune, period) in [(7, 900), (-8, 110), (0, 907), (0, 108)] {
        for (code, tick) in [(0x4FF, 0), (0x600, 0), (0x4FF, 6), (0x600, 6)] {
            let mut cells = lent(tick, finetune, period);
            cells[DELAY] = 1;
            assert_eq!(after(code, &mut cells), [period; 2], "{code:X} at {tick}");
        }
    }
}

#[test]
fn a_period_of_0_stays_0_in_every_row() {
    for finetune in FINETUNES {
        for code in [
            0x1FF, 0x2FF, 0x100, 0x200, 0x3FF, 0x4FF, 0x5FF, 0x6FF, 0x0FF, 0x047,
        ] {
            for tick in [1, 2] {
                let mut cells = lent(tick, finetune, 0);
                cells[at(1, TARGET)] = 300;
                cells[at(1, MEMORY)] = 9;
                cells[at(1, VIBRATO_Y)] = 15;
                cells[at(1, VIBRATO_PLACE)] = 16;
                assert_eq!(after(code, &mut cells), [0; 2], "effect {code:X}");
            }
        }
        for code in [0xE10, 0xE20, 0xE1F, 0xE2F, 0xE50] {
            let met = after(code, &mut lent(0, finetune, 0));
            assert_eq!(met, [0; 2], "effect {code:X}");
        }
    }
}

#[test]
fn nothing_else_limits_a_period() {
    for (finetune, period) in [(7, 900), (-8, 110), (0, 907), (0, 108)] {
        for tick in [0, 1] {
            for code in [
                0x000, 0x7FF, 0x8FF, 0x901, 0xA0F, 0xC40, 0xE41, 0xE91, 0xEC1, 0xF7D,
            ] {
                let met = after(code, &mut lent(tick, finetune, period));
                assert_eq!(met, [period; 2], "effect {code:X} at {tick}");
            }
        }
        let met = after(0xE57, &mut lent(0, finetune, period));
        assert_eq!(met, [period; 2], "E57");
    }
}

// Arpeggio.

/// What an arpeggio of so many semitones sounds from a period, by the printed row.
fn raised(finetune: i32, period: u32, semitones: usize) -> u32 {
    let row = printed(finetune);
    let first = row.iter().filter(|&&entry| entry > period).count();
    row[(first.min(PLACES - 1) + semitones).min(PLACES - 1)]
}

#[test]
fn arpeggio_runs_in_the_row_from_every_place() {
    for finetune in FINETUNES {
        for (place, &period) in printed(finetune).iter().enumerate() {
            for semitones in 1..=15 {
                let expected = printed(finetune)[(place + semitones).min(PLACES - 1)];
                let met = after(16 * semitones as u32, &mut lent(1, finetune, period));
                assert_eq!(met, [period, expected], "finetune {finetune}, {place}");
                let met = after(semitones as u32, &mut lent(2, finetune, period));
                assert_eq!(met, [period, expected], "finetune {finetune}, {place}");
            }
        }
    }
}

#[test]
fn arpeggio_runs_in_the_row_from_every_period() {
    for finetune in FINETUNES {
        for period in PERIODS {
            for semitones in [1, 7, 15] {
                let expected = raised(finetune, period, semitones);
                let met = after(semitones as u32, &mut lent(2, finetune, period));
                assert_eq!(met, [period, expected], "finetune {finetune}, {period}");
            }
        }
    }
}

#[test]
fn arpeggio_from_beyond_the_last_entry_starts_there() {
    for (finetune, last) in [(0, 113), (-8, 120), (-1, 114), (1, 113), (6, 109)] {
        for code in [0x011, 0x0FF, 0x047] {
            for tick in [1, 2] {
                let met = after(code, &mut lent(tick, finetune, 108));
                assert_eq!(met, [108, last], "finetune {finetune}, {code:03X}");
            }
        }
    }
    // From above the first entry the first one is at or below.
    assert_eq!(after(0x010, &mut lent(1, 7, 900)), [900, 768]);
    assert_eq!(after(0x010, &mut lent(1, 0, 907)), [907, 808]);
}

#[test]
fn an_arpeggio_nibble_of_0_keeps_an_outside_period() {
    for (finetune, period) in [(7, 900), (-8, 110), (0, 907), (0, 108), (3, 430)] {
        for (code, tick) in [(0x0F0, 2), (0x00F, 1), (0x0FF, 3), (0x0FF, 0)] {
            let met = after(code, &mut lent(tick, finetune, period));
            assert_eq!(met, [period; 2], "{code:03X} at {tick}");
        }
    }
}

#[test]
fn arpeggio_takes_the_row_of_the_finetune_now() {
    // 428 begins in row 0; the row of -8 has 428 at place 13, that of 7 has 407 at 12.
    let draft = tuned(
        rows(&[&[(1, 428, 0xF03)], &[(2, 0, 0x047)], &[(3, 0, 0x011)]]),
        &[0, -8, 7],
    );
    assert_eq!(
        periods(&draft, 9),
        [428, 428, 428, 428, 339, 285, 428, 384, 384]
    );
}

// States, cells and streams.

#[test]
fn the_finetune_stands_after_the_latched_sample() {
    let draft = tuned(row(&[(1, 428, 0), (2, 300, 0)]), &[-3, 7]);
    let cells = state_after(&draft, 1);
    assert_eq!(cells[13..17], [1, 4_294_967_293, 40, 437]);
    assert_eq!(cells[33..37], [2, 7, 64, 272]);
    assert_eq!([fresh()[14], fresh()[34], fresh()[154]], [0; 3]);
}

/// The number that every call with a state answers, which leaves an illegal one as it is.
fn judged(file: &[u8], cells: &Cells) -> u64 {
    let mut copy = *cells;
    let number = play(file, &mut copy, 0, &mut []).number;
    assert_eq!(
        touch_burst(file, &mut copy, &[], &[], &[], &mut []).number,
        number
    );
    assert_eq!(touch(file, &mut copy, 0, 0, 0).number, number);
    assert_eq!(why_quiet(file, &copy, 1).number, number);
    assert_eq!(copy, *cells);
    assert_eq!(change_page(file, &mut copy).number, number);
    number
}

#[test]
fn a_finetune_outside_minus_8_to_7_gets_14() {
    for (tag, count) in TAGS {
        let file = song_of(tag).bytes();
        for channel in 1..=count {
            let mut cells = fresh();
            for legal in FINETUNES {
                cells[at(channel, FINETUNE)] = legal as u32;
                assert_eq!(judged(&file, &cells), 0, "{legal}");
            }
            for illegal in [8, 9, 15, 16, 255, 256, 248, 65_528, 1 << 31, 4_294_967_287] {
                cells[at(channel, FINETUNE)] = illegal;
                assert_eq!(judged(&file, &cells), 14, "{illegal}");
            }
        }
    }
    assert_eq!(
        [cell(-8), cell(-9), cell(-1)],
        [4_294_967_288, 4_294_967_287, u32::MAX]
    );
}

#[test]
fn past_the_count_the_finetune_is_0() {
    for (tag, count) in TAGS {
        for channel in count + 1..=8 {
            for finetune in FINETUNES {
                let mut cells = fresh();
                cells[at(channel, FINETUNE)] = cell(finetune);
                let expected = if finetune == 0 { 0 } else { 14 };
                assert_eq!(judged(&song_of(tag).bytes(), &cells), expected);
            }
        }
    }
}

#[test]
fn periods_of_states_are_108_to_907_in_every_row() {
    let file = song().bytes();
    for finetune in FINETUNES {
        for place in [PERIOD, TARGET, VOICE_PERIOD] {
            for (period, expected) in [(107, 14), (108, 0), (907, 0), (908, 14), (0, 0)] {
                let mut cells = lent(0, finetune, 0);
                cells[at(1, place)] = period;
                assert_eq!(judged(&file, &cells), expected, "{finetune}, {period}");
            }
        }
    }
}

#[test]
fn periods_of_streams_are_108_to_907() {
    let file = song().bytes();
    for (period, good) in [(107_u16, false), (108, true), (907, true), (908, false)] {
        let [high, low] = period.to_be_bytes();
        let record = [1, 125, 2, 64, high, low, 1, 0];
        for (stream, place) in [
            (stream(1, 1, &record), 9),
            (stream(2, 1, &record), 9),
            (counted(4, 1, &record), 10),
        ] {
            let expected = if good { played(1) } else { refused(23, place) };
            let answer = play_stream(&stream, &file, &mut [0; 1_920]);
            assert_eq!(answer, expected, "period {period}");
        }
    }
}

#[test]
fn cells_still_have_periods_from_113_to_856() {
    for finetune in FINETUNES {
        for (period, number) in [(112, 9), (113, 0), (856, 0), (857, 9), (108, 9), (907, 9)] {
            let by_header = tuned(row(&[(1, period, 0)]), &[finetune]);
            assert_eq!(judge(&by_header.bytes()).number, number, "{period}");
            let by_e5 = row(&[(1, period, 0xE50 + bits(finetune))]);
            assert_eq!(judge(&by_e5.bytes()).number, number, "{period}");
        }
    }
}

#[test]
fn a_step_stays_below_one_byte() {
    // 35,468,946 × 65,536 div (480,000 × 108), and at 907.
    assert_eq!([growth(108), growth(907)], [44_839, 5_339]);
    assert!(PERIODS.chain([74]).all(|period| growth(period) < 65_536));
    assert!(growth(73) > 65_536);
}

#[test]
fn a_tick_that_does_not_fit_keeps_the_finetune() {
    let file = tuned(row(&[(1, 428, 0)]), &[5]).bytes();
    let mut cells = fresh();
    assert_eq!(play(&file, &mut cells, 1, &mut [0; 1_919]), played(0));
    assert_eq!(cells, fresh());
    assert_eq!(play(&file, &mut cells, 1, &mut [0; 1_920]), played(1));
    assert_eq!(cells[at(1, FINETUNE)], 5);
}

#[test]
fn the_streams_period_is_the_tuned_one() {
    // 428 of finetune 7 is 407; then arpeggio by one semitone, 384, and 363 by two.
    let draft = tuned(row(&[(1, 428, 0x012), (0, 0, 0xF03)]), &[7]);
    let records = [
        &[1, 125, 1, 40, 1, 151, 1, 0][..],
        &[1, 125, 1, 40, 1, 128, 0, 0],
        &[1, 125, 1, 40, 1, 107, 0, 0],
    ];
    let expected = counted(4, 3, &records.concat());
    assert_eq!(translated(&draft.bytes(), 3), expected);
}
