//! The safe wrappers, on modules small enough to know every answer.
mod arrival;
mod channels;
mod finetune;

use lampthistle::{
    cell, change_page, fresh, judge, play, play_floats, play_stream, play_stream_floats,
    play_stream_floats_from, play_stream_from, tick_floats, tick_frames, tick_numbers, tick_rest,
    touch, touch_burst, translate, why_quiet, Answer, Cause, Pair, Refusal, MONO, STEREO,
};

/// One empty pattern and no samples: 2,108 bytes.
fn empty() -> Vec<u8> {
    empty_of(b"M.K.", 4)
}

/// The same with a tag, and a pattern of so many channels.
fn empty_of(tag: &[u8; 4], channels: usize) -> Vec<u8> {
    let mut file = vec![0; 1_084 + 256 * channels];
    file[950] = 1;
    file[1080..1084].copy_from_slice(tag);
    file
}

/// The empty module with sample 1, looped and loud, and its note on channel 1.
fn one_note() -> Vec<u8> {
    let mut file = empty();
    add_note(&mut file, 0);
    file
}

/// Adds sample 1, looped and loud, to a module without samples, with its note on a channel, from 0.
fn add_note(file: &mut Vec<u8>, channel: usize) {
    (file[43], file[45], file[49]) = (4, 64, 4);
    file[1084 + 4 * channel..][..4].copy_from_slice(&[1, 0xAC, 0x10, 0]);
    file.extend_from_slice(&[100; 8]);
}

fn accepted(count: u64) -> Answer {
    Answer {
        number: 0,
        place: 0,
        count,
    }
}

fn refused(number: u64, place: u64) -> Answer {
    Answer {
        number,
        place,
        count: 0,
    }
}

#[test]
fn the_smallest_module_plays() {
    let file = empty();
    assert_eq!(judge(&file[..1_083]), refused(1, 1_083));
    assert_eq!(judge(&file[..2_107]), refused(7, 2_107));
    assert_eq!(judge(&file), accepted(0));
    let mut state = fresh();
    let mut out = [9; 1_921];
    assert_eq!(play(&file, &mut state, 5, &mut out), accepted(1));
    assert_eq!((state.clock(), state.tick(), state.tempo()), (1, 1, 125));
    assert_eq!(tick_numbers(&fresh(), &state), 1_920);
    assert!(out[..1_920].iter().all(|&number| number == 0) && out[1_920] == 9);
}

#[test]
fn touches_and_pages_are_answered() {
    let file = empty();
    let mut state = fresh();
    assert_eq!(touch(&file, &mut state, 0, 0, 0), accepted(0));
    assert_eq!(change_page(&file, &mut state), accepted(0));
    assert_eq!(state.page(), 1);
    let before = state;
    assert_eq!(touch(&file, &mut state, 0, 0, 0), refused(16, 0));
    assert_eq!(touch(&file, &mut state, 1, 1, 0), refused(17, 0));
    assert_eq!(touch(&file, &mut state, 1, 0, 1), refused(18, 0));
    assert_eq!(state, before);
    state.0[cell::ROW] = 64;
    assert_eq!(play(&file, &mut state, 0, &mut []), refused(14, 0));
}

#[test]
fn a_burst_is_single_touches_in_their_order() {
    let mut file = empty();
    file[950] = 3;
    let mut state = fresh();
    (state.0[cell::ROW], state.0[cell::PAGE]) = (9, 1);
    let (pages, mades) = ([1, 0, 1, 1, 1], [0, 0, 1, 0, 0]);
    let (positions, mut answers) = ([2, 0, 0, 3, 1], [9; 6]);
    let mut single = state;
    let answer = touch_burst(&file, &mut state, &pages, &mades, &positions, &mut answers);
    assert_eq!((answer, answers), (accepted(5), [0, 16, 17, 18, 0, 9]));
    for k in 0..5 {
        let answer = touch(&file, &mut single, pages[k], mades[k], positions[k]);
        assert_eq!(answer.number, u64::from(answers[k]));
    }
    assert_eq!(state, single);
    assert_eq!((state.position(), state.row()), (1, 0));
}

#[test]
fn a_burst_is_refused_by_its_lists() {
    let (file, zeros) = (empty(), [0; 66]);
    for (lengths, room, answer) in [
        ([0, 0, 0], 0, accepted(0)),
        ([0, 0, 0], 3, accepted(0)),
        ([64, 64, 64], 64, accepted(64)),
        ([65, 65, 65], 65, refused(26, 0)),
        ([0, 0, 65], 0, refused(26, 0)),
        ([64, 64, 64], 63, refused(27, 0)),
        ([1, 2, 1], 1, refused(27, 0)),
        ([1, 2, 2], 2, refused(34, 0)),
        ([2, 2, 0], 9, refused(34, 0)),
    ] {
        let [pages, mades, positions] = lengths.map(|length| &zeros[..length]);
        let mut state = fresh();
        state.0[cell::ROW] = 9;
        let before = state;
        let mut answers = vec![9; room];
        let given = touch_burst(&file, &mut state, pages, mades, positions, &mut answers);
        assert_eq!(given, answer, "{lengths:?}");
        if given.count == 0 {
            assert_eq!((state, answers), (before, vec![9; room]), "{lengths:?}");
        }
    }
    let mut state = fresh();
    state.0[cell::ROW] = 64;
    let answer = touch_burst(&file, &mut state, &zeros, &[], &[], &mut []);
    assert_eq!(answer, refused(14, 0));
}

/// A stream of four channels by an older version.
fn older(stream: &[u8], version: u8) -> Vec<u8> {
    let follow = stream.len() as u32 - 5;
    [&follow.to_be_bytes(), &[version][..], &stream[6..]].concat()
}

#[test]
fn the_two_whole_streams_are_given() {
    let quiet = [0, 0, 0, 8, 3, 4, 0, 0, 0, 1, 0, 0x7D];
    let note = [
        0, 0, 0, 0x0E, 3, 4, 0, 0, 0, 1, 1, 0x7D, 1, 0x40, 1, 0xAC, 1, 0,
    ];
    for (file, stream) in [(empty(), &quiet[..]), (one_note(), &note)] {
        let bytes = stream.len() as u64;
        assert_eq!(translate(&file, 1, &mut []), refused(12, bytes));
        let mut room = [7; 20];
        assert_eq!(translate(&file, 1, &mut room), accepted(bytes));
        assert_eq!(&room[..stream.len()], stream);
        assert!(room[stream.len()..].iter().all(|&byte| byte == 7));
        let mut player = [8; 1_920];
        assert_eq!(play(&file, &mut fresh(), 1, &mut player), accepted(1));
        // The same ticks by versions 1 and 2, which have no channel count, and as they were translated.
        for stream in [older(stream, 1), older(stream, 2), stream.to_vec()] {
            let mut board = [9; 1_920];
            assert_eq!(play_stream(&stream, &file, &mut board), accepted(1));
            assert_eq!(board, player);
        }
    }
    assert_eq!(translate(&empty(), 65_536, &mut []), refused(11, 0));
    assert_eq!(play_stream(&[], &empty(), &mut []), refused(21, 0));
}

/// A record that no call may change: NaNs, by their bits.
const HELD: [u32; 3] = [0x7FA1_2345, 0xFFC0_0001, 77];

fn held() -> Pair {
    let [left, right] = [HELD[0], HELD[1]].map(f32::from_bits);
    Pair {
        left,
        right,
        tick: HELD[2],
    }
}

fn bits(pair: &Pair) -> [u32; 3] {
    [pair.left.to_bits(), pair.right.to_bits(), pair.tick]
}

#[test]
fn floats_are_the_numbers_divided() {
    let file = one_note();
    let mut numbers = [0; 1_920];
    assert_eq!(play(&file, &mut fresh(), 1, &mut numbers), accepted(1));
    for (sides, divisor) in [(MONO, 65_536.0), (STEREO, 32_768.0)] {
        let (mut state, mut last) = (fresh(), held());
        let mut out = [9.0; 2_881];
        let floats = 960 * sides as usize;
        let room = &mut out[..floats + 959];
        let answer = play_floats(&file, &mut state, 5, sides, room, &mut last);
        assert_eq!(answer, accepted(1));
        assert_eq!(tick_floats(&fresh(), &state, sides), floats);
        // Left alone sounds.
        for (frame, pair) in numbers.chunks_exact(2).enumerate() {
            let left = out[sides as usize * frame];
            assert_eq!(left.to_bits(), (f32::from(pair[0]) / divisor).to_bits());
        }
        assert!(out[floats..].iter().all(|&float| float == 9.0));
        assert_eq!(bits(&last), [(12_800.0_f32 / 32_768.0).to_bits(), 0, 0]);
        let mut board = [9.0; 2_881];
        let mut stream = [0; 18];
        assert_eq!(translate(&file, 1, &mut stream), accepted(18));
        let mut its = held();
        let answer = play_stream_floats(&stream, &file, sides, &mut board, &mut its);
        assert_eq!((answer, bits(&its)), (accepted(1), bits(&last)));
        assert_eq!(board, out);
    }
}

#[test]
fn the_record_s_tick_counts_in_the_call_and_no_frame_keeps_it() {
    let (mut state, mut last) = (fresh(), held());
    let mut out = [9.0; 2_880];
    for (room, ticks, tick) in [(2_880, 9, 2), (960, 9, 0)] {
        let room = &mut out[..room];
        let answer = play_floats(&empty(), &mut state, ticks, MONO, room, &mut last);
        // A silence is a frame.
        assert_eq!(
            (answer, bits(&last)),
            (accepted(tick + 1), [0, 0, tick as u32])
        );
    }
    let (before, mut last) = (state, held());
    for (room, ticks) in [(0, 9), (1_919, 9), (1_920, 0)] {
        let room = &mut out[..room];
        let answer = play_floats(&empty(), &mut state, ticks, STEREO, room, &mut last);
        assert_eq!((answer, bits(&last)), (accepted(0), HELD));
    }
    assert_eq!(state, before);
}

#[test]
fn other_sides_than_1_and_2_are_refused() {
    let (mut state, mut last, mut out) = (fresh(), held(), [9.0; 2_000]);
    let short = &one_note()[..1_000];
    for sides in [0, 3, 257, u32::MAX] {
        let answer = play_floats(&one_note(), &mut state, 1, sides, &mut out, &mut last);
        assert_eq!((answer, state), (refused(24, 0), fresh()));
        let mut bad = fresh();
        bad.0[cell::ROW] = 64;
        let answer = play_floats(&one_note(), &mut bad, 1, sides, &mut out, &mut last);
        assert_eq!(answer, refused(14, 0));
        // On the board after 9 and before 21.
        let answer = play_stream_floats(&[], &one_note(), sides, &mut out, &mut last);
        assert_eq!(answer, refused(24, 0));
        let answer = play_stream_floats(&[], short, sides, &mut out, &mut last);
        assert_eq!(answer, refused(1, 1_000));
    }
    let answer = play_stream_floats(&[], &one_note(), MONO, &mut out, &mut last);
    assert_eq!(answer, refused(21, 0));
    assert_eq!((bits(&last), out), (HELD, [9.0; 2_000]));
}

/// Four ticks at tempo 255, of 470, 471, 470 and 471 frames, through which the note is held.
const HELD_NOTE: [u8; 23] = [
    0, 0, 0, 19, 2, 0, 0, 0, 4, 1, 255, 1, 0x40, 1, 0xAC, 1, 0, 0, 255, 0, 255, 0, 255,
];
const BEGINS: [usize; 5] = [0, 470, 941, 1_411, 1_882];

#[test]
fn a_stream_is_played_from_any_tick() {
    let (file, mut whole) = (one_note(), [9; 3_764]);
    assert_eq!(play_stream(&HELD_NOTE, &file, &mut whole), accepted(4));
    for from in 0..4 {
        let [begin, end] = [from, from + 1].map(|tick| 2 * BEGINS[tick]);
        for (room, ticks, filled) in [
            (end - begin - 1, 0, 0),
            (end - begin + 1, 1, end - begin),
            (4_000, 4 - from, 3_764 - begin),
        ] {
            let mut out = vec![9; room];
            let answer = play_stream_from(&HELD_NOTE, &file, from as u32, &mut out);
            assert_eq!(answer, accepted(ticks as u64), "from {from}");
            assert_eq!(out[..filled], whole[begin..begin + filled]);
            assert!(out[filled..].iter().all(|&number| number == 9));
        }
    }
    let mut out = [9; 3_764];
    for from in [4, 5, u32::MAX] {
        assert_eq!(
            play_stream_from(&HELD_NOTE, &file, from, &mut out),
            accepted(0)
        );
        let refusal = play_stream_from(&HELD_NOTE[..22], &file, from, &mut out);
        assert_eq!(refusal, refused(21, 22));
        let refusal = play_stream_from(&[], &file[..9], from, &mut out);
        assert_eq!(refusal, refused(1, 9));
    }
    assert_eq!(out, [9; 3_764]);
}

#[test]
fn floats_are_played_from_any_tick() {
    let file = one_note();
    for sides in [MONO, STEREO] {
        let (mut whole, mut last) = ([9.0; 3_764], held());
        let answer = play_stream_floats(&HELD_NOTE, &file, sides, &mut whole, &mut last);
        assert_eq!((answer, last.tick), (accepted(4), 3));
        for from in 0..4 {
            let begin = sides as usize * BEGINS[from as usize];
            let (mut out, mut its) = ([9.0; 3_764], held());
            let answer =
                play_stream_floats_from(&HELD_NOTE, &file, from, sides, &mut out, &mut its);
            assert_eq!(answer, accepted(4 - u64::from(from)));
            assert_eq!(out[..3_764 - begin], whole[begin..]);
            let [left, right, _] = bits(&last);
            assert_eq!(bits(&its), [left, right, 3 - from]);
        }
    }
    let (mut out, mut last) = ([9.0; 469], held());
    for (stream, from, sides, answer) in [
        (&HELD_NOTE[..], 0, MONO, accepted(0)),
        (&HELD_NOTE, 4, MONO, accepted(0)),
        (&HELD_NOTE, u32::MAX, STEREO, accepted(0)),
        (&HELD_NOTE[..22], 4, 3, refused(24, 0)),
        (&HELD_NOTE[..22], 4, STEREO, refused(21, 22)),
    ] {
        let given = play_stream_floats_from(stream, &file, from, sides, &mut out, &mut last);
        assert_eq!((given, bits(&last)), (answer, HELD), "from {from}");
    }
    assert_eq!(out, [9.0; 469]);
}

#[test]
fn a_quiet_channel_has_its_cause() {
    let file = one_note();
    let mut state = fresh();
    for channel in 1..=4 {
        assert_eq!(why_quiet(&file, &state, channel), Ok(Cause::NoSample));
    }
    assert_eq!(play(&file, &mut state, 1, &mut [0; 1_920]), accepted(1));
    assert_eq!(why_quiet(&file, &state, 1), Ok(Cause::Sounds));
    assert_eq!(why_quiet(&file, &state, 4), Ok(Cause::NoSample));
    // From the last cause to the first: each comes before those that hold already.
    let own = cell::channel(0);
    for (cells, cause) in [
        (&[(cell::VOICE_INDEX, 1)][..], Cause::ZeroByte),
        (&[(cell::VOICE_VOLUME, 0)], Cause::NoVolume),
        (
            &[
                (cell::VOICE_INDEX, 0),
                (cell::VOICE_FRACTION, 0),
                (cell::VOICE_STOPPED, 1),
            ],
            Cause::Stopped,
        ),
        (&[(cell::VOICE_PERIOD, 0)], Cause::NoPeriod),
        (&[(cell::VOICE_SAMPLE, 0)], Cause::NoSample),
    ] {
        for &(which, number) in cells {
            state.0[own + which] = number;
        }
        assert_eq!(why_quiet(&file, &state, 1), Ok(cause));
    }
}

#[test]
fn a_channel_that_is_not_there_is_refused() {
    let refusal = |number, place| Err(Refusal { number, place });
    let mut state = fresh();
    for channel in [0, 5, u32::MAX] {
        assert_eq!(why_quiet(&empty(), &state, channel), refusal(25, 0));
    }
    state.0[cell::ROW] = 64;
    assert_eq!(why_quiet(&empty(), &state, 5), refusal(14, 0));
    assert_eq!(why_quiet(&[], &state, 5), refusal(1, 0));
}

#[test]
fn a_cause_is_an_answer() {
    assert_eq!(Answer::from(Cause::Stopped), accepted(3));
    assert_eq!(Cause::Stopped.to_string(), "its sample has ended");
    let quiet = Cause::ALL.into_iter().filter(|cause| cause.is_quiet());
    assert_eq!(quiet.count(), 5);
}

#[test]
fn answers_are_shown_with_their_words() {
    assert_eq!(accepted(3).to_string(), "accepted");
    let text = "refused 9 at 1484: a cell's period is neither 0 nor 113 to 856";
    assert_eq!(refused(9, 1_484).to_string(), text);
}

#[test]
fn a_refusal_is_an_error() {
    fn ticks(file: &[u8]) -> Result<u64, Box<dyn std::error::Error>> {
        Ok(play(file, &mut fresh(), 3, &mut [0; 7_500]).accepted()?)
    }
    assert_eq!(ticks(&empty()).unwrap(), 3);
    let refusal = Refusal {
        number: 7,
        place: 2_107,
    };
    let error = ticks(&empty()[..2_107]).unwrap_err();
    assert_eq!(error.downcast_ref(), Some(&refusal));
    assert_eq!(error.to_string(), Answer::from(refusal).to_string());
}

#[test]
fn a_tick_has_its_frames() {
    let begun = [(125, 0), (32, 31), (255, 0), (255, 105), (0, 0)];
    let frames = begun.map(|(tempo, remainder)| tick_frames(tempo, remainder));
    assert_eq!(frames, [960, 3_750, 470, 471, 0]);
    let rests = begun.map(|(tempo, remainder)| tick_rest(tempo, remainder));
    assert_eq!(rests, [0, 31, 150, 0, 0]);
}

/// A fresh state at this tempo and remainder.
fn state_at(tempo: u32, remainder: u32) -> lampthistle::State {
    let mut state = fresh();
    (state.0[cell::TEMPO], state.0[cell::REMAINDER]) = (tempo, remainder);
    state
}

#[test]
fn ticks_at_one_tempo_do_not_drift() {
    let mut state = state_at(255, 0);
    let mut numbers = 0;
    for ticks in 1..=510 {
        let before = state;
        let mut out = [9; 7_500];
        assert_eq!(play(&empty(), &mut state, 1, &mut out), accepted(1));
        let written = tick_numbers(&before, &state);
        assert!(out[written - 1] == 0 && out[written] == 9);
        numbers += written;
        assert_eq!(numbers, 120_000 * ticks / 255 * 2);
    }
    assert_eq!((state.tempo(), state.remainder()), (255, 0));
}

#[test]
fn another_tempo_begins_without_a_remainder() {
    let mut file = empty();
    file[1084..1088].copy_from_slice(&[0, 0, 0x0F, 254]);
    let before = state_at(255, 254);
    let mut state = before;
    let mut out = [9; 946];
    assert_eq!(play(&file, &mut state, 1, &mut out), accepted(1));
    assert_eq!((state.tempo(), state.remainder()), (254, 112));
    assert_eq!(tick_numbers(&before, &state), 944);
    assert!(out[943] == 0 && out[944] == 9);
}

#[test]
fn touches_and_pages_keep_the_remainder() {
    let mut state = state_at(255, 254);
    assert_eq!(touch(&empty(), &mut state, 0, 0, 0), accepted(0));
    assert_eq!(change_page(&empty(), &mut state), accepted(0));
    assert_eq!(state.remainder(), 254);
    // 471 frames do not fit: nothing changes.
    let before = state;
    assert_eq!(play(&empty(), &mut state, 1, &mut [0; 941]), accepted(0));
    assert_eq!(state, before);
}

#[test]
fn a_remainder_is_below_its_tempo() {
    for (tempo, remainder, answer) in [
        (255, 254, accepted(0)),
        (32, 31, accepted(0)),
        (255, 255, refused(14, 0)),
        (125, 125, refused(14, 0)),
        (32, 33, refused(14, 0)),
        (125, 254, refused(14, 0)),
        (125, u32::MAX, refused(14, 0)),
    ] {
        let mut state = state_at(tempo, remainder);
        let before = state;
        assert_eq!(play(&empty(), &mut state, 0, &mut []), answer);
        assert_eq!(state, before);
    }
}

#[test]
fn a_version_has_its_own_lengths() {
    let mut stream = vec![0, 0, 0, 11, 2, 0, 0, 0, 3, 0, 255, 0, 255, 0, 255];
    // 1,411 frames; by version 1 three times 470.
    let count =
        |stream: &[u8], frames: usize| play_stream(stream, &empty(), &mut vec![0; 2 * frames]);
    assert_eq!(count(&stream, 1_411), accepted(3));
    assert_eq!(count(&stream, 1_410), accepted(2));
    stream[4] = 1;
    assert_eq!(count(&stream, 1_410), accepted(3));
    assert_eq!(count(&stream, 1_409), accepted(2));
    for version in [0, 4, 255] {
        stream[4] = version;
        assert_eq!(count(&stream, 1_411), refused(22, 4));
    }
    let stream = [0, 0, 0, 12, 3, 4, 0, 0, 0, 3, 0, 255, 0, 255, 0, 255];
    assert_eq!(count(&stream, 1_411), accepted(3));
    assert_eq!(count(&stream, 1_410), accepted(2));
}

#[test]
fn a_cut_header_is_refused_by_its_length() {
    for version in [1, 2, 3] {
        let whole = [0, 0, 0, 5, version, 0, 0, 0, 0];
        // Version 3 has a byte more.
        let answer = if version == 3 {
            refused(28, 4)
        } else {
            accepted(0)
        };
        assert_eq!(play_stream(&whole, &empty(), &mut []), answer);
        for length in 0..whole.len() {
            let mut cut = whole[..length].to_vec();
            let place = length as u64;
            assert_eq!(play_stream(&cut, &empty(), &mut []), refused(21, place));
            // Also where the first number says so.
            if length >= 4 {
                cut[3] = length as u8 - 4;
                assert_eq!(play_stream(&cut, &empty(), &mut []), refused(21, place));
            }
        }
    }
}
