//! Frames as floats: exact bits, silence, the record of the last frame, fitting and refusals.

use crate::common::*;
use second::generate::draft::Draft;
use second::{
    delivered, fresh, mono, play, play_floats, play_stream_floats, play_stream_floats_from, side,
    Frame,
};

/// A NaN whose bits must stay where nothing is stored.
const NAN_BITS: u32 = 0x7FA1_2345;

/// Whether these bits say number / 2^power: sign, significand and power of two, as whole numbers.
fn says(bits: u32, number: i32, power: u32) -> bool {
    if number == 0 {
        return bits == 0;
    }
    let significand = i64::from(bits % (1 << 23) + (1 << 23));
    let signed = if bits >> 31 == 1 {
        -significand
    } else {
        significand
    };
    // The float is signed × 2^(exponent - 150); both sides times 2^(23 + power) are whole.
    let exponent = bits >> 23 & 255;
    signed << (exponent + power - 127) == i64::from(number) << 23
}

#[test]
fn each_of_the_65536_numbers_is_exact() {
    for number in i16::MIN..=i16::MAX {
        let bits = side(number).to_bits();
        assert!(says(bits, number.into(), 15), "{number}: {bits:08X}");
        let divided = f32::from(number) / 32_768.0;
        assert_eq!(bits, divided.to_bits(), "{number}");
    }
}

#[test]
fn each_sum_is_exact() {
    for sum in -65_536..=65_534 {
        let left = (sum / 2) as i16;
        let right = (sum - sum / 2) as i16;
        let bits = mono(left, right).to_bits();
        assert!(says(bits, sum, 16), "{sum}: {bits:08X}");
        assert_eq!(mono(right, left).to_bits(), bits, "{sum}");
        let divided = (f32::from(left) + f32::from(right)) / 65_536.0;
        assert_eq!(bits, divided.to_bits(), "{sum}");
    }
}

#[test]
fn bits_at_the_edges() {
    for (number, bits) in [
        (0, 0),
        (1, 0x3800_0000),
        (-1, 0xB800_0000),
        (2, 0x3880_0000),
        (3, 0x38C0_0000),
        (32_767, 0x3F7F_FE00),
        (-32_767, 0xBF7F_FE00),
        (-32_768, 0xBF80_0000),
    ] {
        assert_eq!(side(number).to_bits(), bits, "{number}");
    }
    for (left, right, bits) in [
        (-32_768, -32_768, 0xBF80_0000),
        (32_767, 32_767, 0x3F7F_FE00),
        (1, 0, 0x3780_0000),
        (-3, 2, 0xB780_0000),
        (32_767, -32_768, 0xB780_0000),
        (-32_767, 32_767, 0),
    ] {
        assert_eq!(mono(left, right).to_bits(), bits, "{left} and {right}");
    }
}

#[test]
fn silence_is_both_sides_0() {
    assert_eq!(delivered(0, 0, 1), Frame::Silence);
    assert_eq!(delivered(0, 0, 2), Frame::Silence);
    assert_eq!(delivered(0, 2, 1), Frame::Mono(2.0 / 65_536.0));
    assert_eq!(delivered(2, 0, 2), Frame::Stereo(2.0 / 32_768.0, 0.0));
    assert_eq!(delivered(0, -2, 2), Frame::Stereo(0.0, -2.0 / 32_768.0));
    // Opposite sides are a mono number, positive zero, and not silence.
    let Frame::Mono(number) = delivered(-128, 128, 1) else {
        panic!("not a mono number");
    };
    assert_eq!(number.to_bits(), 0);
}

/// What a call left: answer, floats' bits, record's bits and tick.
#[derive(Debug, PartialEq)]
struct Left {
    answer: second::Answer,
    bits: Vec<u32>,
    pair: [u32; 2],
    tick: u32,
}

/// Plays from a state into so many floats, which were all NaN, as was the record; its tick was 77.
fn floats(draft: &Draft, cells: &mut Cells, ticks: u32, sides: u32, room: usize) -> Left {
    let nan = f32::from_bits(NAN_BITS);
    let (mut out, mut pair, mut tick) = (vec![nan; room], [nan; 2], 77);
    let file = draft.bytes();
    let answer = play_floats(&file, cells, ticks, sides, &mut out, &mut pair, &mut tick);
    left(answer, &out, pair, tick)
}

/// The same of the board.
fn board_floats(draft: &Draft, stream: &[u8], sides: u32, room: usize) -> Left {
    let nan = f32::from_bits(NAN_BITS);
    let (mut out, mut pair, mut tick) = (vec![nan; room], [nan; 2], 77);
    let file = draft.bytes();
    let answer = play_stream_floats(stream, &file, sides, &mut out, &mut pair, &mut tick);
    left(answer, &out, pair, tick)
}

/// The same of the board from a tick on.
fn board_floats_from(draft: &Draft, stream: &[u8], from: u32, sides: u32, room: usize) -> Left {
    let nan = f32::from_bits(NAN_BITS);
    let (mut out, mut pair, mut tick) = (vec![nan; room], [nan; 2], 77);
    let file = draft.bytes();
    let (held, held_tick) = (&mut pair, &mut tick);
    let answer = play_stream_floats_from(stream, &file, from, sides, &mut out, held, held_tick);
    left(answer, &out, pair, tick)
}

fn left(answer: second::Answer, out: &[f32], pair: [f32; 2], tick: u32) -> Left {
    Left {
        answer,
        bits: out.iter().map(|number| number.to_bits()).collect(),
        pair: pair.map(f32::to_bits),
        tick,
    }
}

/// An answer by which every float and the record stayed.
fn untouched(answer: second::Answer, room: usize) -> Left {
    Left {
        answer,
        bits: vec![NAN_BITS; room],
        pair: [NAN_BITS; 2],
        tick: 77,
    }
}

/// Sample 2 on channel 1 at volume 64 and on channel 2 at volume 10.
fn two_voices() -> Draft {
    row(&[(2, 428, 0x901), (2, 428, 0xC0A)])
}

#[test]
fn frames_are_the_numbers_divided() {
    let draft = two_voices();
    let mut numbers = [0; 1_920];
    play(&draft.bytes(), &mut fresh(), 1, &mut numbers);
    assert!(numbers.contains(&6_400) && numbers.contains(&1_000));
    let stereo = floats(&draft, &mut fresh(), 1, 2, 1_920);
    let single = floats(&draft, &mut fresh(), 1, 1, 960);
    for (frame, pair) in numbers.chunks_exact(2).enumerate() {
        let [left, right] = [f32::from(pair[0]), f32::from(pair[1])];
        assert_eq!(stereo.bits[2 * frame], (left / 32_768.0).to_bits());
        assert_eq!(stereo.bits[2 * frame + 1], (right / 32_768.0).to_bits());
        assert_eq!(single.bits[frame], ((left + right) / 65_536.0).to_bits());
    }
    assert_eq!(
        [single.bits[100], stereo.bits[200]],
        [(7_400.0_f32 / 65_536.0).to_bits(), 0x3E48_0000]
    );
}

#[test]
fn the_record_is_the_last_left_and_right_and_its_tick() {
    let draft = two_voices();
    let last = [6_400.0_f32, 1_000.0].map(|number| (number / 32_768.0).to_bits());
    // Also where mono is asked, and whatever the state's clock says.
    for (sides, room) in [(1, 2_999), (2, 5_999)] {
        let mut cells = fresh();
        cells[CLOCK] = 500;
        let played_three = floats(&draft, &mut cells, 9, sides, room);
        assert_eq!(played_three.answer, played(3));
        assert_eq!((played_three.pair, played_three.tick), (last, 2));
        let played_one = floats(&draft, &mut cells, 1, sides, room);
        assert_eq!(played_one.tick, 0);
    }
}

#[test]
fn no_frame_keeps_the_old_record() {
    for sides in [1, 2] {
        let room = 960 * sides as usize - 1;
        for (ticks, room) in [(0, 0), (0, 4_000), (5, room), (5, 0)] {
            let played_none = floats(&two_voices(), &mut fresh(), ticks, sides, room);
            assert_eq!(played_none, untouched(played(0), room));
        }
    }
}

#[test]
fn a_silence_is_a_frame() {
    for sides in [1, 2] {
        let room = 960 * sides as usize;
        let silent = floats(&song(), &mut fresh(), 1, sides, room + 1);
        assert_eq!(silent.bits[..room], vec![0; room]);
        assert_eq!(silent.bits[room], NAN_BITS);
        assert_eq!((silent.pair, silent.tick), ([0, 0], 0));
    }
}

#[test]
fn fitting_counts_numbers() {
    for (sides, room, count) in [
        (1, 959, 0),
        (1, 960, 1),
        (1, 1_919, 1),
        (1, 1_920, 2),
        (2, 1_919, 0),
        (2, 1_920, 1),
        (2, 3_839, 1),
        (2, 3_841, 2),
    ] {
        let mut cells = fresh();
        let left = floats(&song(), &mut cells, 9, sides, room);
        assert_eq!(left.answer, played(count), "{sides} sides, {room}");
        assert_eq!(u64::from(cells[CLOCK]), count);
        let filled = left.bits.iter().filter(|&&bits| bits == 0).count();
        assert_eq!(filled, 960 * (u64::from(sides) * count) as usize);
    }
}

#[test]
fn sides_other_than_1_and_2_get_24_after_14() {
    let illegal = {
        let mut cells = fresh();
        cells[ROW] = 64;
        cells
    };
    let mut bad = song();
    bad.put(0, 63, 3, 0, 112, 0);
    for sides in [0, 3, 4, 257, 65_538, 1 << 31, u32::MAX] {
        let mut cells = fresh();
        let refusal = floats(&two_voices(), &mut cells, 5, sides, 4_000);
        assert_eq!(refusal, untouched(refused(24, 0), 4_000), "{sides} sides");
        assert_eq!(cells, fresh());
        let refusal = floats(&song(), &mut fresh(), 0, sides, 0);
        assert_eq!(refusal, untouched(refused(24, 0), 0), "{sides} sides");
        let refusal = floats(&song(), &mut illegal.clone(), 5, sides, 9);
        assert_eq!(refusal, untouched(refused(14, 0), 9), "{sides} sides");
        let refusal = floats(&bad, &mut illegal.clone(), 5, sides, 9);
        assert_eq!(refusal, untouched(refused(9, 2_104), 9), "{sides} sides");
    }
}

#[test]
fn on_the_board_24_comes_after_9_and_before_the_stream() {
    let mut bad = song();
    bad.put(0, 63, 3, 0, 112, 0);
    let good = stream(2, 1, &[0, 125]);
    let wrong_version = stream(4, 1, &[0, 125]);
    let wrong_record = stream(2, 1, &[16, 125]);
    for sides in [0, 3, u32::MAX] {
        for bytes in [&good, &wrong_version, &wrong_record, &Vec::new()] {
            let refusal = board_floats(&song(), bytes, sides, 2_000);
            assert_eq!(refusal, untouched(refused(24, 0), 2_000), "{sides} sides");
            let refusal = board_floats(&bad, bytes, sides, 9);
            assert_eq!(refusal, untouched(refused(9, 2_104), 9), "{sides} sides");
        }
    }
    for sides in [1, 2] {
        let refusal = board_floats(&song(), &[], sides, 9);
        assert_eq!(refusal, untouched(refused(21, 0), 9));
        let refusal = board_floats(&song(), &wrong_version, sides, 9);
        assert_eq!(refusal, untouched(refused(22, 4), 9));
        let refusal = board_floats(&song(), &wrong_record, sides, 9);
        assert_eq!(refusal, untouched(refused(23, 9), 9));
    }
}

#[test]
fn the_board_gives_the_players_floats_and_record() {
    let (draft, stream) = (two_voices(), two_voices_stream(4));
    for (sides, length) in [(1, 0), (1, 1_000), (1, 3_840), (2, 5_000), (2, 9_001)] {
        let board = board_floats(&draft, &stream, sides, length);
        let player = floats(&draft, &mut fresh(), 4, sides, length);
        assert_eq!(board, player, "{sides} sides, {length}");
    }
}

/// The stream of the first ticks of two voices.
fn two_voices_stream(ticks: u32) -> Vec<u8> {
    translated(&two_voices().bytes(), ticks)
}

#[test]
fn from_a_tick_on_the_record_counts_in_the_call() {
    let (draft, stream) = (two_voices(), two_voices_stream(4));
    for sides in [1, 2] {
        let tick = 960 * sides as usize;
        let whole = board_floats(&draft, &stream, sides, 4 * tick);
        assert_eq!((whole.answer, whole.tick), (played(4), 3));
        for from in 0..4 {
            let begin = from as usize * tick;
            let rest = board_floats_from(&draft, &stream, from, sides, 4 * tick - begin);
            assert_eq!(rest.answer, played(u64::from(4 - from)));
            assert_eq!(rest.bits, whole.bits[begin..], "from {from}");
            assert_eq!((rest.pair, rest.tick), (whole.pair, 3 - from));
            let one = board_floats_from(&draft, &stream, from, sides, 2 * tick - 1);
            assert_eq!((one.answer, one.tick), (played(1), 0));
            assert_eq!(one.bits[..tick], whole.bits[begin..begin + tick]);
            assert!(one.bits[tick..].iter().all(|&bits| bits == NAN_BITS));
        }
    }
}

#[test]
fn without_a_frame_from_a_tick_on_the_record_stays() {
    let stream = two_voices_stream(4);
    for sides in [1, 2] {
        let short = 960 * sides as usize - 1;
        for (from, room) in [
            (0, 0),
            (1, short),
            (3, short),
            (4, 4_000),
            (5, 4_000),
            (u32::MAX, 4_000),
        ] {
            let none = board_floats_from(&two_voices(), &stream, from, sides, room);
            assert_eq!(none, untouched(played(0), room), "from {from}");
        }
    }
}

#[test]
fn from_any_tick_24_comes_after_9_and_before_the_stream() {
    let mut bad = song();
    bad.put(0, 63, 3, 0, 112, 0);
    let wrong_record = stream(2, 1, &[16, 125]);
    for from in [0, 1, 2, u32::MAX] {
        for (draft, stream, sides, answer) in [
            (&bad, &wrong_record, 3, refused(9, 2_104)),
            (&song(), &wrong_record, 3, refused(24, 0)),
            (&song(), &wrong_record, 0, refused(24, 0)),
            (&song(), &Vec::new(), 1, refused(21, 0)),
            (&song(), &stream(4, 1, &[16, 125]), 1, refused(22, 4)),
            (&song(), &wrong_record, 2, refused(23, 9)),
        ] {
            let refusal = board_floats_from(draft, stream, from, sides, 2_000);
            assert_eq!(refusal, untouched(answer, 2_000), "from {from}");
        }
    }
}
