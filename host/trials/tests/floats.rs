//! Frames as floats: the proved player and board against the second implementation, against 16-bit numbers, and against each other.
use trials::floats::numbers::{each_side, each_sum, side_numbers};
use trials::floats::{boards, compare, is_mono, is_side};

#[test]
fn calls_get_equal_answers_states_records_and_floats() {
    let tally = compare(0, 4_000).unwrap_or_else(|what| panic!("{what}"));
    for number in [0, 14, 21, 22, 23, 24, 28] {
        assert!(tally[number] > 100, "each answer is met often: {tally:?}");
    }
    assert!((1..=9).all(|number| tally[number] > 10), "{tally:?}");
}

#[test]
fn player_and_board_agree_on_floats() {
    let tally = boards::compare(0, 4_000).unwrap_or_else(|what| panic!("{what}"));
    assert!(tally[0] > 1_500 && tally[24] > 500, "{tally:?}");
    assert!((1..=9).all(|number| tally[number] > 5), "{tally:?}");
}

#[test]
fn each_number_that_a_side_can_have_is_played_exactly() {
    for (tag, numbers) in [
        (b"M.K.", 30_759),
        (b"4CHN", 30_759),
        (b"6CHN", 47_087),
        (b"8CHN", 63_407),
    ] {
        assert_eq!(each_side(tag), Ok(numbers));
    }
}

#[test]
fn each_sum_that_a_frame_can_have_is_played_exactly() {
    for (tag, sums) in [
        (b"M.K.", 63_407),
        (b"4CHN", 63_407),
        (b"6CHN", 96_047),
        (b"8CHN", 128_687),
    ] {
        assert_eq!(each_sum(tag), Ok(sums));
    }
}

#[test]
fn each_of_the_65536_numbers_and_each_sum_is_exact_in_the_second_implementation() {
    for number in i16::MIN..=i16::MAX {
        assert!(is_side(second::side(number), number), "{number}");
    }
    for sum in -65_536..=65_534_i32 {
        let left = (sum / 2) as i16;
        let right = (sum - sum / 2) as i16;
        assert!(is_mono(second::mono(left, right), left, right), "{sum}");
    }
    assert!(side_numbers(b"M.K.").iter().all(|number| number % 2 == 0));
}

#[test]
fn the_formula_takes_no_other_bits() {
    for number in [1, -1, 2, 3, 255, -32_768, 32_512, 32_767] {
        let bits = second::side(number).to_bits();
        for bit in 0..32 {
            assert!(!is_side(f32::from_bits(bits ^ (1 << bit)), number));
        }
    }
    assert!(!is_side(-0.0, 0) && !is_mono(-0.0, 5, -5) && !is_mono(f32::NAN, 0, 0));
}
