//! Notes, sample numbers and starts.

use crate::common::*;
use second::{tick_list, Command};

/// Channel 1's commands tick by tick.
fn commands(draft: &second::generate::draft::Draft, ticks: u32) -> Vec<Command> {
    let list = tick_list(&draft.bytes(), ticks).expect("accepted");
    list.iter().map(|tick| tick.commands[0]).collect()
}

#[test]
fn a_note_without_latched_sample_is_a_start_each_time() {
    let draft = rows(&[&[(0, 428, 0xF01)], &[(0, 428, 0)], &[(0, 428, 0x902)]]);
    for (tick, offset) in [0, 0, 2].into_iter().enumerate() {
        let expected = Command {
            sample: 0,
            volume: 0,
            period: 428,
            start: true,
            offset,
        };
        assert_eq!(commands(&draft, 3)[tick], expected);
    }
    assert_eq!(
        state_after(&draft, 3)[at(1, SOUNDING)..at(2, LATCHED)],
        [0, 428, 0, 0, 0, 1]
    );
}

#[test]
fn the_offset_in_the_stream_is_the_one_asked() {
    let draft = row(&[(2, 428, 0x9FF)]);
    assert_eq!(commands(&draft, 1)[0].offset, 255);
    assert_eq!(traces(&draft, 1)[0].voices[0].index, 200);
}

#[test]
fn a_sample_number_alone_latches_and_sets_the_volume() {
    let draft = rows(&[&[(2, 428, 0xF01)], &[(1, 0, 0)], &[(0, 300, 0)]]);
    let traces = traces(&draft, 3);
    assert_eq!(
        [traces[1].voices[0].sample, traces[1].voices[0].volume],
        [2, 40]
    );
    assert_eq!(
        [traces[2].voices[0].sample, traces[2].voices[0].volume],
        [1, 40]
    );
    assert!(!commands(&draft, 2)[1].start);
}

#[test]
fn a_sample_number_beside_3_latches_and_sets_the_volume() {
    let draft = rows(&[&[(2, 428, 0xF01)], &[(1, 300, 0x310)]]);
    let cells = state_after(&draft, 2);
    assert_eq!(
        cells[at(1, LATCHED)..=at(1, MEMORY)],
        [1, 0, 40, 428, 300, 16]
    );
    assert_eq!([cells[at(1, SOUNDING)], cells[at(1, STOPPED)]], [2, 0]);
    assert!(!commands(&draft, 2)[1].start);
}

#[test]
fn the_sample_number_takes_a_nibble_of_b0() {
    let mut draft = row(&[(0x12, 428, 0)]);
    draft.headers[0x11].volume = 33;
    assert_eq!(
        state_after(&draft, 1)[at(1, LATCHED)..=at(1, VOLUME)],
        [18, 0, 33]
    );
}

#[test]
fn nine_without_period_starts_the_sounding_sample() {
    // Sample 1 is latched in the cell of the 9, sample 2 sounds.
    let draft = rows(&[&[(2, 428, 0xF01)], &[(1, 0, 0x901)], &[(0, 0, 0x900)]]);
    let traces = traces(&draft, 3);
    assert_eq!(
        [traces[1].voices[0].sample, traces[1].voices[0].index],
        [2, 256]
    );
    assert_eq!(
        [traces[2].voices[0].sample, traces[2].voices[0].index],
        [2, 0]
    );
    let commands = commands(&draft, 3);
    assert_eq!([commands[1].offset, commands[2].offset], [1, 0]);
    assert!(commands[1].start && commands[2].start);
}

#[test]
fn nine_without_period_starts_a_stopped_sample() {
    let draft = rows(&[&[(1, 428, 0xF01)], &[(0, 0, 0x900)], &[(0, 0, 0x903)]]);
    let traces = traces(&draft, 3);
    assert!(!traces[1].voices[0].stopped);
    assert!(traces[2].voices[0].stopped);
    assert!(commands(&draft, 3)[2].start);
}

#[test]
fn nine_and_e9_do_nothing_without_a_sounding_sample() {
    let draft = rows(&[&[(1, 0, 0x900)], &[(1, 0, 0xE91)]]);
    assert!(commands(&draft, 12).iter().all(|command| !command.start));
    assert_eq!(state_after(&draft, 12)[at(1, SOUNDING)], 0);
}

#[test]
fn e9_starts_again_where_y_divides_t() {
    let draft = row(&[(1, 428, 0xE92)]);
    let starts: Vec<bool> = commands(&draft, 7)
        .iter()
        .map(|command| command.start)
        .collect();
    assert_eq!(starts, [true, false, true, false, true, false, false]);
    let none = commands(&row(&[(1, 428, 0xE90)]), 6);
    assert!(none[1..].iter().all(|command| !command.start));
}

#[test]
fn e9_starts_the_sounding_sample_at_u_0_too() {
    let draft = rows(&[&[(2, 428, 0xF02)], &[(1, 0, 0xE95)]]);
    let commands = commands(&draft, 4);
    assert!(commands[2].start && !commands[3].start);
    assert_eq!(commands[2].sample, 2);
}

#[test]
fn unlisted_effects_do_nothing_but_the_note_starts() {
    let plain = commands(&row(&[(1, 428, 0)]), 12);
    for code in [0x8FF, 0xE0F, 0xE3F, 0xE8F, 0xED3, 0xEFF] {
        assert_eq!(
            commands(&row(&[(1, 428, code)]), 12),
            plain,
            "effect {code:X}"
        );
    }
}

#[test]
fn a_start_shows_though_no_register_changed() {
    let draft = rows(&[&[(1, 428, 0xF01)], &[(1, 428, 0)]]);
    assert!(commands(&draft, 2)[1].start);
}
