//! Modules of four, six and eight channels.
use crate::{accepted, add_note, empty_of, older, refused};
use lampthistle::{
    cell, channels, fresh, judge, play, play_stream, translate, why_quiet, Cause, Refusal, CHANNELS,
};

/// The tags, and the channels that they name.
const TAGS: [(&[u8; 4], usize); 4] = [(b"M.K.", 4), (b"4CHN", 4), (b"6CHN", 6), (b"8CHN", 8)];

#[test]
fn a_tag_names_its_channels() {
    for (tag, count) in TAGS {
        let file = empty_of(tag, count);
        assert_eq!(channels(&file), count as u32);
        assert_eq!(judge(&file), accepted(0));
        // A byte a channel and pattern too few; the tag alone says the count.
        let short = file.len() - 1;
        assert_eq!(judge(&file[..short]), refused(7, short as u64));
        assert_eq!(channels(&file[..1_084]), count as u32);
        assert_eq!((channels(&file[..1_083]), channels(&[])), (0, 0));
    }
    for tag in [b"M!K!", b"FLT4", b"2CHN", b"6CHM", b"8chn", b"CD81"] {
        let file = empty_of(tag, 8);
        assert_eq!((channels(&file), judge(&file)), (0, refused(2, 1_080)));
    }
}

#[test]
fn each_channel_is_heard_on_its_side() {
    for (tag, count) in TAGS {
        for channel in 0..count {
            let mut file = empty_of(tag, count);
            add_note(&mut file, channel);
            let mut out = [9; 1_920];
            assert_eq!(play(&file, &mut fresh(), 1, &mut out), accepted(1));
            let mut sides = [0, 0];
            let left = [0, 3, 4, 7].contains(&channel);
            sides[usize::from(!left)] = if count == 4 { 12_800 } else { 6_400 };
            assert_eq!(out[1_918..], sides, "{count}: {channel}");
        }
    }
}

#[test]
fn a_state_is_as_fresh_past_the_module_s_channels() {
    for (tag, count) in TAGS {
        let file = empty_of(tag, count);
        for channel in 0..CHANNELS {
            // Any legal number other than a fresh one: memory, and the voice's period.
            for which in [cell::SLIDE_MEMORY, cell::VOICE_PERIOD] {
                let mut state = fresh();
                state.0[cell::channel(channel) + which] = 214;
                let answer = if channel < count {
                    accepted(0)
                } else {
                    refused(14, 0)
                };
                assert_eq!(play(&file, &mut state, 0, &mut []), answer, "{count}");
            }
        }
    }
}

#[test]
fn a_stream_is_for_modules_of_its_channel_count() {
    for (tag, count) in TAGS {
        let (file, mut room) = (empty_of(tag, count), [0; 12]);
        assert_eq!(translate(&file, 1, &mut room), accepted(12));
        assert_eq!(room, [0, 0, 0, 8, 3, count as u8, 0, 0, 0, 1, 0, 125]);
        for (tag, others) in TAGS {
            let answer = if others == count {
                accepted(0)
            } else {
                refused(28, 4)
            };
            let other = empty_of(tag, others);
            assert_eq!(play_stream(&room, &other, &mut []), answer);
        }
        for version in [1, 2] {
            let answer = play_stream(&older(&room, version), &file, &mut []);
            assert_eq!(answer.number, if count == 4 { 0 } else { 28 });
        }
        // The version is judged before the count.
        (room[4], room[5]) = (4, 5);
        assert_eq!(play_stream(&room, &file, &mut []), refused(22, 4));
    }
}

#[test]
fn the_mask_s_bits_past_the_count_are_0() {
    for (tag, count) in TAGS {
        let mut stream = vec![0, 0, 0, 14, 3, count as u8, 0, 0, 0, 1, 0, 125];
        stream.extend_from_slice(&[0; 6]);
        for bit in 0..8 {
            stream[10] = 1 << bit;
            let answer = play_stream(&stream, &empty_of(tag, count), &mut []);
            let expected = if bit < count {
                accepted(0)
            } else {
                refused(23, 10)
            };
            assert_eq!(answer, expected, "{count}: {bit}");
        }
    }
}

#[test]
fn the_last_channel_is_the_module_s() {
    for (tag, count) in TAGS {
        let (file, state) = (empty_of(tag, count), fresh());
        let refusal = Err(Refusal {
            number: 25,
            place: 0,
        });
        for channel in 0..=9 {
            let there = (1..=count as u32).contains(&channel);
            let expected = if there { Ok(Cause::NoSample) } else { refusal };
            assert_eq!(why_quiet(&file, &state, channel), expected, "{count}");
        }
    }
}
