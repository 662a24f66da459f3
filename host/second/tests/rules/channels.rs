//! Six and eight channels: sides and sums, rows over all channels, states past the count, and
//! streams that say their channels.

use crate::common::*;
use second::generate::draft::Draft;
use second::{
    change_page, decode, fresh, play, play_stream, play_stream_floats, play_stream_from, tick_list,
    touch, touch_burst, translate, why_quiet, Stream,
};

/// The first frame in which sample 1, at period 113, is past its two silent bytes, and some more.
const LOUD: usize = 100;

/// A module with this byte at this volume on some channels, counted from 1.
fn sounding(tag: Tag, byte: u8, volume: u8, channels: impl Iterator<Item = usize>) -> Draft {
    let mut draft = Draft::tagged(tag);
    draft.add_looped(1, volume, 1, 2, &[byte; 6]);
    for channel in channels {
        draft.put(0, 0, channel - 1, 1, 113, 0);
    }
    draft
}

/// A frame of such a module, left first.
fn frame(tag: Tag, byte: u8, volume: u8, channels: impl Iterator<Item = usize>) -> [i16; 2] {
    let trace = &traces(&sounding(tag, byte, volume, channels), 1)[0];
    [trace.frames[2 * LOUD], trace.frames[2 * LOUD + 1]]
}

// Sides and sums.

#[test]
fn channels_1_4_5_8_are_left_and_2_3_6_7_right() {
    for (tag, count) in TAGS {
        for channel in 1..=count {
            let number = if count == 4 { 60 } else { 30 };
            let expected = match channel {
                1 | 4 | 5 | 8 => [number, 0],
                _ => [0, number],
            };
            let one = [channel].into_iter();
            assert_eq!(frame(tag, 3, 10, one), expected, "{tag:?}: {channel}");
        }
    }
}

#[test]
fn four_channels_are_doubled_and_six_and_eight_plain_sums() {
    for (tag, side) in [
        (b"M.K.", 2 * 2 * 30),
        (b"4CHN", 2 * 2 * 30),
        (b"6CHN", 3 * 30),
        (b"8CHN", 4 * 30),
    ] {
        assert_eq!(frame(tag, 3, 10, 1..=count(tag)), [side; 2], "{tag:?}");
    }
    // Half of a doubled number: without the doubling sides are odd, too.
    assert_eq!(frame(b"6CHN", 1, 1, 1..=6), [3, 3]);
    assert_eq!(frame(b"8CHN", 255, 1, 1..=5), [-3, -2]);
}

#[test]
fn no_count_clips() {
    for (tag, lowest, highest) in [
        (b"M.K.", -32_768, 32_512),
        (b"4CHN", -32_768, 32_512),
        (b"6CHN", -24_576, 24_384),
        (b"8CHN", -32_768, 32_512),
    ] {
        let all = || 1..=count(tag);
        assert_eq!(frame(tag, 128, 64, all()), [lowest; 2], "{tag:?}");
        assert_eq!(frame(tag, 127, 64, all()), [highest; 2], "{tag:?}");
    }
}

#[test]
fn the_other_side_is_left_alone() {
    let left = [1, 4, 5, 8].into_iter();
    assert_eq!(frame(b"8CHN", 128, 64, left), [-32_768, 0]);
    let right = [2, 3, 6, 7].into_iter();
    assert_eq!(frame(b"8CHN", 128, 64, right), [0, -32_768]);
}

#[test]
fn floats_are_the_plain_sums_divided() {
    let draft = sounding(b"8CHN", 1, 1, 1..=5);
    let stream = translated(&draft.bytes(), 1);
    let (mut out, mut pair, mut tick) = ([9.0; 1_920], [9.0; 2], 9);
    let file = draft.bytes();
    let answer = play_stream_floats(&stream, &file, 2, &mut out, &mut pair, &mut tick);
    assert_eq!(answer, played(1));
    let expected = [3.0 / 32_768.0, 2.0 / 32_768.0];
    assert_eq!(out[2 * LOUD..2 * LOUD + 2], expected);
    assert_eq!((pair, tick), (expected, 0));
}

fn count(tag: Tag) -> usize {
    let known = TAGS.iter().find(|(known, _)| *known == tag);
    known.expect("a tag").1
}

// The row.

#[test]
fn each_channel_reads_its_own_cell() {
    for (tag, count) in TAGS {
        let mut draft = song_of(tag);
        draft.put(0, 0, 0, 0, 0, 0xF01);
        for channel in 0..count {
            let (sample, volume) = (1 + channel as u32 % 3, 10 + channel as u32);
            draft.put(0, 1, channel, sample, 200 + channel as u32, 0xC00 + volume);
        }
        let cells = state_after(&draft, 2);
        for channel in 1..=count {
            let own = &cells[at(channel, LATCHED)..=at(channel, PERIOD)];
            let number = channel as u32 - 1;
            let expected = [1 + number % 3, 0, 10 + number, 200 + number];
            assert_eq!(own, expected, "{tag:?}");
            let voice = [VOICE_PERIOD, VOICE_VOLUME].map(|cell| cells[at(channel, cell)]);
            assert_eq!(voice, [200 + number, 10 + number], "{tag:?}");
        }
        assert_eq!(
            cells[at(count, STOPPED) + 1..],
            fresh()[at(count, STOPPED) + 1..]
        );
    }
}

#[test]
fn effects_after_u_0_reach_the_last_channel() {
    for (tag, count) in TAGS {
        let mut draft = song_of(tag);
        draft.put(0, 0, count - 1, 2, 428, 0x102);
        draft.put(0, 1, count - 1, 0, 0, 0x7F8);
        let cells = state_after(&draft, 6);
        assert_eq!(cells[at(count, PERIOD)], 418, "{tag:?}");
        let cells = state_after(&draft, 8);
        assert_eq!(cells[at(count, TREMOLO_PLACE)], 15, "{tag:?}");
    }
}

/// A song of three positions whose first row has one effect on channel 1 and one on the last.
fn first_and_last(tag: Tag, first: u32, last: u32) -> Draft {
    let mut draft = song_of(tag);
    draft.song_length = 3;
    draft.put(0, 0, 0, 0, 0, first);
    draft.put(0, 0, count(tag) - 1, 0, 0, last);
    draft
}

#[test]
fn the_last_channel_decides() {
    for (tag, _) in TAGS {
        let after =
            |first, last, cell: usize| state_after(&first_and_last(tag, first, last), 1)[cell];
        assert_eq!(after(0xB01, 0xB02, NEXT_POSITION), 2, "{tag:?}");
        assert_eq!(after(0xB02, 0xB03, NEXT_POSITION), 0, "{tag:?}");
        assert_eq!(after(0xD10, 0xD25, NEXT_ROW), 25, "{tag:?}");
        assert_eq!(after(0xD10, 0xD64, NEXT_ROW), 0, "{tag:?}");
        assert_eq!(after(0xEE5, 0xEE0, DELAY), 0, "{tag:?}");
        assert_eq!(after(0xEE0, 0xEE5, DELAY), 5, "{tag:?}");
        assert_eq!(after(0xF03, 0xF02, SPEED), 2, "{tag:?}");
        assert_eq!(after(0xFFF, 0xF20, TEMPO), 32, "{tag:?}");
    }
}

#[test]
fn b_and_d_meet_over_all_channels() {
    for (tag, _) in TAGS {
        for (first, last) in [(0xB02, 0xD25), (0xD25, 0xB02)] {
            let cells = state_after(&first_and_last(tag, first, last), 6);
            assert_eq!([cells[POSITION], cells[ROW]], [2, 25], "{tag:?}");
        }
    }
}

/// The place after row 2, on which these effects stand on the first channels.
fn after_row_2(tag: Tag, codes: &[u32]) -> [u32; 4] {
    let effects: Vec<_> = codes.iter().map(|&code| (0, 0, code)).collect();
    let draft = rows_of(tag, &[&[(0, 0, 0xF01)], &[], &effects]);
    let cells = state_after(&draft, 3);
    [ROW, LOOP_ROW, LOOP_COUNT, POSITION].map(|cell| cells[cell])
}

#[test]
fn loops_are_counted_from_the_first_channel_to_the_last() {
    for (tag, count) in TAGS {
        let mut codes = vec![0; count];
        (codes[0], codes[count - 1]) = (0xE60, 0xE61);
        assert_eq!(after_row_2(tag, &codes), [2, 2, 1, 0], "{tag:?}");
        // The ask is for the loop row as it was.
        codes.swap(0, count - 1);
        assert_eq!(after_row_2(tag, &codes), [0, 2, 1, 0], "{tag:?}");
        // The count falls to 0 on the last channel; the asks before it aren't withdrawn.
        codes.fill(0xE61);
        codes[0] = 0xE60 + count as u32 - 1;
        assert_eq!(after_row_2(tag, &codes), [0, 0, 0, 0], "{tag:?}");
        codes[count - 1] = 0xD09;
        assert_eq!(after_row_2(tag, &codes), [9, 0, 0, 0], "{tag:?}");
    }
}

// The state.

/// Numbers that a channel's cells may have, but not in a fresh state.
const OTHER: [(usize, u32); 18] = [
    (LATCHED, 1),
    (FINETUNE, 7),
    (FINETUNE, u32::MAX),
    (VOLUME, 64),
    (PERIOD, 428),
    (TARGET, 108),
    (MEMORY, 255),
    (VIBRATO_X, 1),
    (VIBRATO_Y, 15),
    (VIBRATO_PLACE, 63),
    (VIBRATO_FORM, 2),
    (TREMOLO_X, 15),
    (TREMOLO_Y, 1),
    (TREMOLO_PLACE, 1),
    (TREMOLO_FORM, 1),
    (SOUNDING, 31),
    (VOICE_PERIOD, 907),
    (VOICE_VOLUME, 1),
];

/// Sets a cell of a channel in the fresh state, and gives the number that every call answers.
fn judged(tag: Tag, channel: usize, changes: &[(usize, u32)]) -> u64 {
    let file = song_of(tag).bytes();
    let mut cells = fresh();
    for &(cell, number) in changes {
        cells[at(channel, cell)] = number;
    }
    let before = cells;
    let number = play(&file, &mut cells, 0, &mut []).number;
    assert_eq!(why_quiet(&file, &cells, 1).number, number);
    assert_eq!(touch(&file, &mut cells, 0, 0, 0).number, number);
    assert_eq!(
        touch_burst(&file, &mut cells, &[], &[], &[], &mut []).number,
        number
    );
    assert_eq!(cells, before);
    assert_eq!(change_page(&file, &mut cells).number, number);
    number
}

#[test]
fn channels_past_the_count_are_as_fresh() {
    let running = [(SOUNDING, 2), (INDEX, 7), (FRACTION, 65_535), (STOPPED, 0)];
    for (tag, count) in TAGS {
        for channel in 1..=8 {
            let expected = if channel <= count { 0 } else { 14 };
            for change in OTHER {
                assert_eq!(
                    judged(tag, channel, &[change]),
                    expected,
                    "{tag:?} {change:?}"
                );
            }
            assert_eq!(judged(tag, channel, &running), expected, "{tag:?}");
            assert_eq!(judged(tag, channel, &running[..0]), 0, "{tag:?}");
            for illegal in [(INDEX, 1), (FRACTION, 1), (STOPPED, 0), (STOPPED, 2)] {
                assert_eq!(judged(tag, channel, &[illegal]), 14, "{tag:?} {illegal:?}");
            }
        }
    }
}

#[test]
fn play_leaves_channels_past_the_count_as_fresh() {
    for (tag, count) in TAGS {
        let mut draft = song_of(tag);
        for row in draft.rows() {
            for cell in row {
                (cell.sample, cell.period, cell.effect, cell.parameter) = (2, 300, 4, 0x88);
            }
        }
        let cells = state_after(&draft, 30);
        let past = at(count, STOPPED) + 1;
        assert_eq!(cells[past..], fresh()[past..], "{tag:?}");
        assert_eq!(cells[at(count, VIBRATO_Y)], 8, "{tag:?}");
    }
}

#[test]
fn quiet_channels_are_1_to_the_count() {
    for (tag, count) in TAGS {
        let file = song_of(tag).bytes();
        let mut illegal = fresh();
        illegal[at(8, STOPPED)] = 2;
        for channel in (0..=9).chain([255, 256, 257, 260, 264, u32::MAX - 1, u32::MAX]) {
            let expected = match channel as usize {
                0 => refused(25, 0),
                channel if channel > count => refused(25, 0),
                _ => played(1),
            };
            assert_eq!(
                why_quiet(&file, &fresh(), channel),
                expected,
                "{tag:?}: {channel}"
            );
            assert_eq!(
                why_quiet(&file, &illegal, channel),
                refused(14, 0),
                "{tag:?}"
            );
        }
    }
}

#[test]
fn the_last_channel_has_its_own_cause() {
    for (tag, count) in TAGS {
        let mut draft = song_of(tag);
        draft.put(0, 0, count - 1, 2, 428, 0);
        let cells = state_after(&draft, 1);
        let file = draft.bytes();
        let causes = [1, count].map(|channel| why_quiet(&file, &cells, channel as u32).count);
        assert_eq!(causes, [1, 6], "{tag:?}");
    }
}

// Streams.

/// The answer to a stream with room for two ticks at tempo 125, from its first tick on and from any.
fn answer(tag: Tag, stream: &[u8]) -> second::Answer {
    let file = song_of(tag).bytes();
    let mut out = [7; 3_840];
    let whole = play_stream(stream, &file, &mut out);
    let part = play_stream_from(stream, &file, 1, &mut [0; 3_840]);
    assert_eq!((part.number, part.place), (whole.number, whole.place));
    let decoded = decode(stream, count(tag) as u32).map(|_| ());
    assert_eq!(decoded.is_ok(), whole.number == 0);
    assert!(whole.number == 0 || decoded == Err(whole) && out == [7; 3_840]);
    whole
}

#[test]
fn older_versions_play_on_for_four_channels() {
    for (tag, count) in TAGS {
        for version in [1, 2] {
            let expected = if count == 4 {
                played(1)
            } else {
                refused(28, 4)
            };
            let good = stream(version, 1, &[0, 125]);
            assert_eq!(answer(tag, &good), expected, "{tag:?} {version}");
            let empty = stream(version, 0, &[]);
            assert_eq!(answer(tag, &empty).number, expected.number, "{tag:?}");
        }
        assert_eq!(answer(tag, &counted(count as u8, 1, &[0, 125])), played(1));
    }
}

#[test]
fn a_count_other_than_the_modules_gets_28_at_4() {
    for (tag, count) in TAGS {
        for stated in 0..=255 {
            let expected = if usize::from(stated) == count { 0 } else { 28 };
            for records in [&[][..], &[0, 125], &[255, 31], &[0]] {
                let ticks = u32::from(!records.is_empty());
                let got = answer(tag, &counted(stated, ticks, records));
                if expected == 28 {
                    assert_eq!(got, refused(28, 4), "{tag:?}: {stated}");
                } else {
                    assert_ne!(got.number, 28, "{tag:?}: {stated}");
                }
            }
        }
    }
}

#[test]
fn nine_bytes_of_version_3_get_28() {
    for (tag, count) in TAGS {
        for bytes in [[0; 4], [count as u8, 0, 0, 0], [count as u8, 255, 1, 9]] {
            let nine = with_length(&[&[3], &bytes]);
            assert_eq!(nine.len(), 9);
            assert_eq!(answer(tag, &nine), refused(28, 4), "{tag:?}");
        }
        let ten = counted(count as u8, 0, &[]);
        assert_eq!(ten.len(), 10);
        assert_eq!(answer(tag, &ten), played(0), "{tag:?}");
        for kept in 0..9 {
            let short = &ten[..kept];
            assert_eq!(answer(tag, short), refused(21, kept as u64), "{tag:?}");
        }
        // Nine bytes that say ten.
        assert_eq!(answer(tag, &ten[..9]), refused(21, 9), "{tag:?}");
    }
}

#[test]
fn the_order_is_21_22_28_23() {
    for (tag, count) in TAGS {
        let wrong_count = count as u8 ^ 2;
        let bad = [255, 31];
        let mut all = with_length(&[&[4, wrong_count, 0, 0, 0, 9], &bad]);
        all[3] += 1;
        assert_eq!(answer(tag, &all), refused(21, 12), "{tag:?}");
        all[3] -= 1;
        assert_eq!(answer(tag, &all), refused(22, 4), "{tag:?}");
        all[4] = 3;
        assert_eq!(answer(tag, &all), refused(28, 4), "{tag:?}");
        all[5] = count as u8;
        assert_eq!(answer(tag, &all), refused(23, 10), "{tag:?}");
        if count > 4 {
            // For an older version these are other bytes, which aren't looked at.
            all[4] = 2;
            assert_eq!(answer(tag, &all), refused(28, 4), "{tag:?}");
        }
    }
}

#[test]
fn bits_at_or_past_the_count_are_bad() {
    for (tag, count) in TAGS {
        for bit in 0..8 {
            let record = [1 << bit, 125, 1, 64, 1, 172, 1, 0];
            let expected = if bit < count {
                played(1)
            } else {
                refused(23, 10)
            };
            let good_then_this = [&[0, 125][..], &record].concat();
            let one = counted(count as u8, 1, &record);
            assert_eq!(answer(tag, &one), expected, "{tag:?}: {bit}");
            let two = counted(count as u8, 2, &good_then_this);
            let number = answer(tag, &two);
            assert_eq!(
                number.place,
                if bit < count { 0 } else { 12 },
                "{tag:?}: {bit}"
            );
            if count == 4 {
                let old = stream(2, 1, &record);
                assert_eq!(answer(tag, &old).number, expected.number, "{tag:?}: {bit}");
            }
        }
    }
}

#[test]
fn whole_streams_of_one_tick() {
    for (tag, count) in TAGS {
        let mut draft = Draft::tagged(tag);
        let stated = count as u8;
        let empty = [0, 0, 0, 8, 3, stated, 0, 0, 0, 1, 0, 0x7D];
        assert_eq!(translated(&draft.bytes(), 1), empty, "{tag:?}");
        draft.add_sample(1, 64, &[1; 8]);
        for channel in 0..count {
            let mut one = draft.clone();
            one.put(0, 0, channel, 1, 428, 0);
            let head = [0, 0, 0, 14, 3, stated, 0, 0, 0, 1];
            let note = [1 << channel, 0x7D, 1, 0x40, 1, 0xAC, 1, 0];
            let expected = [&head[..], &note].concat();
            assert_eq!(translated(&one.bytes(), 1), expected, "{tag:?}: {channel}");
        }
    }
}

#[test]
fn a_record_holds_all_channels() {
    for (tag, count) in TAGS {
        let mut draft = song_of(tag);
        let mut record = vec![(255 >> (8 - count)) as u8, 125];
        for channel in 0..count {
            draft.put(0, 0, channel, 2, 200 + channel as u32, 0x901);
            record.extend_from_slice(&[2, 64, 0, 200 + channel as u8, 1, 1]);
        }
        assert_eq!(record.len(), 2 + 6 * count, "{tag:?}");
        let expected = counted(count as u8, 1, &record);
        let file = draft.bytes();
        assert_eq!(translated(&file, 1), expected, "{tag:?}");
        let needed = expected.len() as u64;
        let mut short = vec![5; expected.len() - 1];
        assert_eq!(
            translate(&file, 1, &mut short),
            refused(12, needed),
            "{tag:?}"
        );
        // One byte less, and the record runs out.
        let cut = with_length(&[&expected[4..expected.len() - 1]]);
        assert_eq!(answer(tag, &cut), refused(23, 10), "{tag:?}");
    }
}

#[test]
fn decoding_gives_the_ticks_and_their_channels() {
    for (tag, count) in TAGS {
        let mut draft = song_of(tag);
        draft.put(0, 0, count - 1, 2, 428, 0x047);
        let file = draft.bytes();
        let expected = Stream {
            version: 3,
            channels: count as u32,
            ticks: tick_list(&file, 9).expect("accepted"),
        };
        assert_eq!(decode(&translated(&file, 9), count as u32), Ok(expected));
    }
}

#[test]
fn the_board_holds_the_registers_of_every_channel() {
    for (tag, count) in TAGS {
        let last = 1 << (count - 1);
        let first = [last, 125, 5, 64, 1, 172, 1, 0];
        let same = [last, 125, 5, 64, 1, 172, 0, 0];
        let other = [last, 125, 4, 64, 1, 172, 0, 0];
        let two = |second: [u8; 8]| counted(count as u8, 2, &[first, second].concat());
        assert_eq!(answer(tag, &two(same)), played(2), "{tag:?}");
        assert_eq!(answer(tag, &two(other)), refused(23, 18), "{tag:?}");
    }
}

#[test]
fn player_and_board_play_the_same_on_each_count() {
    for (tag, count) in TAGS {
        let mut draft = sounding(tag, 128, 64, 1..=count);
        draft.put(0, 1, count - 1, 1, 200, 0x4F8);
        draft.put(0, 1, 0, 0, 0, 0xFFF);
        let file = draft.bytes();
        let mut player = vec![7; 30_000];
        let mut board = player.clone();
        let answer = play(&file, &mut fresh(), 18, &mut player);
        assert_eq!(answer, played(18), "{tag:?}");
        assert_eq!(
            play_stream(&translated(&file, 18), &file, &mut board),
            answer
        );
        assert!(player == board, "{tag:?}");
        assert!(player[20_000] != 0 && player[20_001] != 0, "{tag:?}");
    }
}

#[test]
fn version_3_plays_with_the_remainder() {
    for (tag, count) in TAGS {
        let file = song_of(tag).bytes();
        let stream = counted(count as u8, 255, &[0, 255].repeat(255));
        for (frames, ticks) in [(119_999, 254), (120_000, 255)] {
            let mut out = vec![0; 2 * frames];
            assert_eq!(
                play_stream(&stream, &file, &mut out),
                played(ticks),
                "{tag:?}"
            );
        }
    }
}

#[test]
fn version_2_and_3_sound_the_same_on_four_channels() {
    let records = [
        &[9, 255, 2, 64, 1, 172, 1, 0, 2, 30, 0, 200, 1, 1][..],
        &[0, 255],
        &[8, 254, 2, 20, 0, 113, 0, 0],
    ]
    .concat();
    for tag in [b"M.K.", b"4CHN"] {
        let file = song_of(tag).bytes();
        let [two, three] = [stream(2, 3, &records), counted(4, 3, &records)].map(|stream| {
            let mut out = vec![7; 3_000];
            assert_eq!(play_stream(&stream, &file, &mut out), played(3));
            out
        });
        assert!(two == three && two[2_000] != 0, "{tag:?}");
    }
}
