//! The board that is fed, through its wrapper.
use super::{accepted, empty_of, one_note, refused};
use lampthistle::{board_numbers, play_stream, translate, Answer, Board, Fed, BOARD_CELLS};

/// A tick at tempo 125 has 960 frames.
const TICK: usize = 1_920;

fn fed(answer: Answer, taken: u64) -> Fed {
    Fed { answer, taken }
}

/// The stream of the note's first three ticks: a header of ten bytes, and records of eight, two and two.
fn stream(file: &[u8]) -> Vec<u8> {
    let mut stream = vec![0; 22];
    assert_eq!(translate(file, 3, &mut stream), accepted(22));
    stream
}

#[test]
fn a_stream_in_pieces_plays_as_the_whole() {
    let file = one_note();
    let stream = stream(&file);
    let mut whole = [0; 3 * TICK];
    assert_eq!(play_stream(&stream, &file, &mut whole), accepted(3));
    let mut board = Board::fresh();
    let mut out = [0; 3 * TICK];
    let (first, rest) = out.split_at_mut(TICK);
    assert_eq!(
        board.feed(&file, &stream[..17], first),
        fed(accepted(0), 17)
    );
    // The second tick waits for room with its last byte.
    assert_eq!(board.feed(&file, &stream[17..], first), fed(accepted(1), 2));
    assert_eq!(board.feed(&file, &stream[19..], rest), fed(accepted(2), 3));
    assert!(out == whole);
    let played = board;
    assert_eq!(board.close(&file), accepted(0));
    assert_eq!(board, played);
    assert_eq!(board.feed(&file, &[0], &mut []), fed(refused(21, 23), 0));
    assert_eq!(board.close(&file), refused(21, 23));
}

#[test]
fn a_fault_comes_after_what_was_played_and_is_kept() {
    let file = one_note();
    let mut stream = stream(&file);
    // The tempo of the second record.
    stream[19] = 31;
    let mut board = Board::fresh();
    let mut out = [1; 2 * TICK];
    let fault = Answer {
        number: 23,
        place: 18,
        count: 1,
    };
    assert_eq!(board.feed(&file, &stream, &mut out), fed(fault, 20));
    assert_eq!(out[TICK..], [1; TICK]);
    let kept = board;
    assert_eq!(
        board.feed(&file, &stream, &mut out),
        fed(refused(23, 18), 0)
    );
    assert_eq!(board.close(&file), refused(23, 18));
    assert_eq!(board, kept);
}

#[test]
fn a_stream_that_ends_early_is_closed_short() {
    let file = one_note();
    let mut board = Board::fresh();
    assert_eq!(board.close(&file), refused(21, 0));
    let mut board = Board::fresh();
    let taken = board.feed(&file, &stream(&file)[..15], &mut []);
    assert_eq!(taken, fed(accepted(0), 15));
    assert_eq!(board.close(&file), refused(21, 15));
    assert_eq!(board.feed(&file, &[0], &mut []), fed(refused(21, 15), 0));
}

#[test]
fn any_numbers_are_judged() {
    let file = one_note();
    for cells in [[0; BOARD_CELLS], [u32::MAX; BOARD_CELLS]] {
        let mut board = Board::from_cells(cells);
        assert_eq!(board.feed(&file, &[0], &mut []), fed(refused(14, 0), 0));
        assert_eq!(board.close(&file), refused(14, 0));
        assert_eq!(board.cells(), &cells);
        assert_eq!(board.close(&[]), refused(1, 0));
    }
    // A module of another channel count, after the header.
    let mut board = Board::fresh();
    let taken = board.feed(&file, &stream(&file)[..10], &mut []);
    assert_eq!(taken, fed(accepted(0), 10));
    assert_eq!(board.close(&empty_of(b"6CHN", 6)), refused(14, 0));
}

/// A stream of four ticks at tempos 255, 255, 255 and 32, of any version.
fn tempos(version: u8) -> Vec<u8> {
    let mut stream = vec![0, 0, 0, 13, version];
    if version == 3 {
        (stream[3], stream[4]) = (14, 3);
        stream.push(4);
    }
    stream.extend([0, 0, 0, 4, 0, 255, 0, 255, 0, 255, 0, 32]);
    stream
}

#[test]
fn the_board_before_and_after_a_tick_says_its_numbers() {
    let file = one_note();
    for (version, lengths) in [
        (1, [940, 940, 940, 7_500]),
        (2, [940, 942, 940, 7_500]),
        (3, [940, 942, 940, 7_500]),
    ] {
        let (mut board, mut found) = (Board::fresh(), Vec::new());
        for byte in tempos(version) {
            let before = board;
            let fed = board.feed(&file, &[byte], &mut [0; 7_500]);
            assert_eq!(fed.taken, 1);
            if fed.answer == accepted(1) {
                found.push(board_numbers(&before, &board));
            }
        }
        assert_eq!(found, lengths, "version {version}");
        let all = lengths.iter().sum();
        let stream = tempos(version);
        assert_eq!(play_stream(&stream, &file, &mut vec![0; all]), accepted(4));
        let short = play_stream(&stream, &file, &mut vec![0; all - 1]);
        assert_eq!(short, accepted(3), "version {version}");
    }
}
