//! Which boards are legal for a module, and what goes on from those that are.

use super::*;

/// Both calls answer 14 and leave the board and the buffer.
fn is_14(file: &[u8], board: &Board) {
    let mut lent = *board;
    let mut out = [UNTOUCHED; EMPTY_NUMBERS];
    for bytes in [&[][..], &EMPTY] {
        let answer = board_feed(file, &mut lent, bytes, &mut out);
        assert_eq!(answer, fed(refused(14, 0), 0), "{board:?}");
    }
    assert_eq!(board_close(file, &mut lent), refused(14, 0), "{board:?}");
    assert_eq!((lent, out), (*board, [UNTOUCHED; EMPTY_NUMBERS]));
}

/// Both calls repeat the fault and leave the board.
fn repeats(file: &[u8], board: &Board, number: u64, place: u64) {
    let mut lent = *board;
    let answer = feed(file, &mut lent, &EMPTY);
    assert_eq!(answer, fed(refused(number, place), 0), "{board:?}");
    let refusal = refused(number, place);
    assert_eq!(board_close(file, &mut lent), refusal, "{board:?}");
    assert_eq!(lent, *board);
}

/// The board goes on with an empty call.
fn is_legal(file: &[u8], board: &Board) {
    assert_eq!(
        feed(file, &mut board.clone(), &[]),
        fed(ACCEPTED, 0),
        "{board:?}"
    );
}

fn with(board: &Board, changes: &[(usize, u32)]) -> Board {
    let mut board = *board;
    for &(cell, number) in changes {
        board[cell] = number;
    }
    board
}

/// After one of three records, the second of which is open with five bytes.
fn midway(file: &[u8]) -> Board {
    let records = [&NOTE[..], &NOTE, &EMPTY].concat();
    begun(file, &stream(2, 3, &records)[..22]).1
}

#[test]
fn the_module_is_judged_before_the_board_and_the_board_before_its_fault() {
    let file = song().bytes();
    let faulty = begun(&file, &head_of_9()).1;
    repeats(&file, &faulty, 22, 4);
    is_14(&file, &with(&faulty, &[(REMAINDER, 1)]));
    let mut refused_file = file.clone();
    refused_file[950] = 0;
    for board in [
        faulty,
        with(&faulty, &[(REMAINDER, 1)]),
        [u32::MAX; BOARD_CELLS],
    ] {
        let mut lent = board;
        let mut out = [UNTOUCHED; 4];
        let answer = board_feed(&refused_file, &mut lent, &[1], &mut out);
        assert_eq!(answer, fed(refused(3, 950), 0));
        assert_eq!(board_close(&refused_file, &mut lent), refused(3, 950));
        assert_eq!((lent, out), (board, [UNTOUCHED; 4]));
    }
}

/// Nine bytes of an unknown version.
fn head_of_9() -> Vec<u8> {
    stream(9, 0, &[])
}

#[test]
fn voices_are_legal_for_the_module_that_is_lent() {
    let file = song().bytes();
    let board = midway(&file);
    is_legal(&file, &board);
    let first = voice(1).start;
    for (cell, number) in [
        (0, 32),
        (1, 1),
        (1, 107),
        (1, 908),
        (2, 65),
        (3, 400),
        (4, 65_536),
    ] {
        is_14(&file, &with(&board, &[(first + cell, number)]));
    }
    for flag in [2, u32::MAX] {
        is_14(&file, &with(&board, &[(first + 5, flag)]));
    }
    // Stopped with an index or a fraction, and running without a sample.
    is_14(&file, &with(&board, &[(first + 5, 1)]));
    is_14(&file, &with(&board, &[(first, 0)]));
    // A sample that ends before the index.
    is_14(&file, &with(&board, &[(first, 1)]));
    is_legal(
        &file,
        &with(&board, &[(first + 3, 399), (first + 4, 65_535)]),
    );
    let mut other = song();
    other.headers[1].repeat = 0;
    other.headers[1].length = 82;
    is_14(&other.bytes(), &board);
    other.headers[1].length = 83;
    is_legal(&other.bytes(), &board);
}

#[test]
fn voices_past_the_channels_are_as_fresh() {
    for (tag, channels) in [(b"M.K.", 4), (b"6CHN", 6)] {
        let file = song_of(tag).bytes();
        for channel in channels + 1..=8 {
            for cell in voice(channel) {
                is_14(
                    &file,
                    &with(&board_fresh(), &[(cell, 1 - board_fresh()[cell])]),
                );
            }
        }
        is_legal(&file, &with(&board_fresh(), &[(voice(channels).start, 31)]));
    }
}

#[test]
fn a_remainder_is_0_or_below_the_tempo() {
    let file = song().bytes();
    for board in [board_fresh(), midway(&file)] {
        for (tempo, remainder) in [(0, 0), (1, 0), (125, 124), (255, 254), (254, 0), (1, 0)] {
            is_legal(
                &file,
                &with(&board, &[(TEMPO, tempo), (REMAINDER, remainder)]),
            );
        }
        for (tempo, remainder) in [(0, 1), (125, 125), (255, 255), (254, u32::MAX)] {
            is_14(
                &file,
                &with(&board, &[(TEMPO, tempo), (REMAINDER, remainder)]),
            );
        }
    }
}

#[test]
fn a_kept_fault_is_21_22_23_or_28_at_any_place() {
    let file = song().bytes();
    for board in [
        board_fresh(),
        midway(&file),
        begun(&file, &stream(2, 0, &[])).1,
    ] {
        for number in [1, 9, 14, 20, 24, 25, 27, 29, 256 + 21, u32::MAX] {
            is_14(&file, &with(&board, &[(NUMBER, number)]));
        }
        for number in [21, 22, 23, 28] {
            for place in [[0, 0], [4, 0], [17, 0], [7, 1], [u32::MAX; 2]] {
                let changes = [(NUMBER, number), (FAULT, place[0]), (FAULT + 1, place[1])];
                let place = u64::from(place[0]) + (u64::from(place[1]) << 32);
                repeats(&file, &with(&board, &changes), number.into(), place);
            }
        }
        // Without a number the place has no meaning.
        is_legal(&file, &with(&board, &[(FAULT, 5), (FAULT + 1, 5)]));
    }
}

#[test]
fn records_are_not_more_than_ticks() {
    let file = song().bytes();
    let board = midway(&file);
    is_legal(&file, &with(&board, &[(RECORDS, 2)]));
    for records in [4, 5, u32::MAX] {
        is_14(&file, &with(&board, &[(RECORDS, records)]));
    }
    is_14(&file, &with(&board, &[(TICKS, 0)]));
    // With an open header any record is too many.
    let (_, open) = begun(&file, &stream(2, 3, &EMPTY)[..7]);
    is_14(&file, &with(&open, &[(RECORDS, 1)]));
    is_14(&file, &with(&open, &[(RECORDS, 1), (TICKS, 5)]));
    is_14(&file, &with(&board_fresh(), &[(RECORDS, 1)]));
}

#[test]
fn bytes_are_not_more_than_declared() {
    let file = song().bytes();
    let board = midway(&file);
    // 22 bytes are in.
    for follow in [0, 5, 13, 17] {
        is_14(&file, &with(&board, &[(FOLLOW, follow)]));
    }
    is_legal(&file, &with(&board, &[(FOLLOW, 19)]));
    is_14(&file, &with(&board, &[(PLACE + 1, 1)]));
    is_14(
        &file,
        &with(&board, &[(PLACE, u32::MAX), (PLACE + 1, u32::MAX)]),
    );
    // An open header has kept its own first number: five bytes in, one of them after the end.
    let (_, open) = begun(&file, &[0, 0, 0, 0]);
    assert_eq!(kept_fault(&open), (21, 4));
    is_14(&file, &with(&open, &[(KEPT, 5), (BYTES + 1, 1)]));
}

#[test]
fn a_fault_in_kept_bytes_is_the_kept_one() {
    let file = song().bytes();
    let bad = stream(2, 3, &[&NOTE[..], &[1, 125, 32]].concat());
    for (board, number, place) in [
        (begun(&file, &bad).1, 23, 17),
        (begun(&file, &head_of_9()).1, 22, 4),
        (begun(&file, &counted(6, 0, &[])).1, 28, 4),
        (begun(&file, &[0, 0, 0, 2, 1, 0]).1, 21, 6),
    ] {
        repeats(&file, &board, number, place);
        is_14(&file, &with(&board, &[(NUMBER, 0), (FAULT, 0)]));
        is_14(&file, &with(&board, &[(NUMBER, 0)]));
        is_14(&file, &with(&board, &[(FAULT, place as u32 + 1)]));
        is_14(&file, &with(&board, &[(FAULT + 1, 1)]));
        for other in [21, 22, 23, 28]
            .into_iter()
            .filter(|&other| other != number)
        {
            is_14(&file, &with(&board, &[(NUMBER, other as u32)]));
        }
    }
    // What lies past the kept bytes isn't judged.
    let (_, board) = begun(&file, &bad[..19]);
    is_legal(
        &file,
        &with(&board, &[(BYTES, u32::from_le_bytes([1, 125, 255, 255]))]),
    );
    is_14(
        &file,
        &with(&board, &[(BYTES, u32::from_le_bytes([16, 125, 0, 0]))]),
    );
}

#[test]
fn a_missing_record_at_the_declared_end_is_kept() {
    let file = song().bytes();
    let (_, board) = begun(&file, &stream(2, 3, &EMPTY));
    repeats(&file, &board, 23, 11);
    is_14(&file, &with(&board, &[(NUMBER, 0)]));
    is_14(&file, &with(&board, &[(NUMBER, 21), (FAULT, 12)]));
    // The same with bytes of an open record, and with the header alone.
    let board = midway(&file);
    is_14(&file, &with(&board, &[(FOLLOW, 18)]));
    repeats(
        &file,
        &with(&board, &[(FOLLOW, 18), (NUMBER, 23), (FAULT, 17)]),
        23,
        17,
    );
    is_14(
        &file,
        &with(&board, &[(FOLLOW, 18), (NUMBER, 23), (FAULT, 22)]),
    );
}

#[test]
fn the_header_s_numbers_are_held_to_the_module() {
    let file = song().bytes();
    let board = midway(&file);
    for version in [0, 4, 255, 256 + 2, u32::MAX] {
        let board = with(&board, &[(VERSION, version)]);
        is_14(&file, &board);
        repeats(&file, &with(&board, &[(NUMBER, 22), (FAULT, 4)]), 22, 4);
    }
    let third = with(&board, &[(VERSION, 3), (CHANNELS, 4)]);
    is_legal(&file, &third);
    for channels in [0, 6, 8, 256 + 4] {
        let board = with(&third, &[(CHANNELS, channels)]);
        is_14(&file, &board);
        repeats(&file, &with(&board, &[(NUMBER, 28), (FAULT, 4)]), 28, 4);
    }
    // A header that is said to be in goes on from what it holds, also with nine bytes of version 3.
    let (_, board) = begun(&file, &stream(2, 0, &[]));
    let nine = with(&board, &[(VERSION, 3), (CHANNELS, 4)]);
    is_legal(&file, &nine);
    repeats(&file, &with(&nine, &[(NUMBER, 28), (FAULT, 4)]), 28, 4);
}

#[test]
fn a_module_of_another_channel_count_shows_28() {
    let four = song().bytes();
    let six = song_of(b"6CHN").bytes();
    for stream in [
        stream(1, 2, &EMPTY),
        stream(2, 2, &EMPTY),
        counted(4, 2, &EMPTY),
    ] {
        // The byte that names the channels: the version, or the count after it.
        let named = if stream[4] == 3 { 5 } else { 4 };
        for length in 0..stream.len() {
            let (_, mut board) = begun(&four, &stream[..length]);
            if length > named {
                is_14(&six, &board);
            } else {
                is_legal(&six, &board);
                // The fault is shown by that byte, and kept for both modules.
                let answer = feed(&six, &mut board, &stream[length..]);
                assert_eq!(answer, fed(refused(28, 4), (named + 1 - length) as u64));
                repeats(&six, &board, 28, 4);
                repeats(&four, &board, 28, 4);
            }
        }
    }
}

#[test]
fn kept_bytes_are_an_open_header_or_record() {
    let file = song().bytes();
    let stream = stream(2, 3, &[&NOTE[..], &EMPTY, &EMPTY].concat());
    let (_, header) = begun(&file, &stream[..8]);
    is_14(&file, &with(&header, &[(KEPT, 9)]));
    let (_, record) = begun(&file, &stream[..16]);
    for kept in [8, 9, 50, 52, 53, 1 << 16, u32::MAX] {
        is_14(&file, &with(&record, &[(KEPT, kept)]));
        // No kept fault makes them a state.
        for number in [21, 22, 23, 28] {
            is_14(
                &file,
                &with(&record, &[(KEPT, kept), (NUMBER, number), (FAULT, 9)]),
            );
        }
    }
    // A record's last byte that is bad leaves as many bytes as the record has.
    let (_, bad) = begun(&file, &super::stream(2, 3, &[0, 31]));
    assert_eq!(open(&bad), (9, 2));
    repeats(&file, &bad, 23, 9);
}

#[test]
fn the_first_fault_decides_whatever_is_kept_behind_it() {
    let file = song().bytes();
    // An unknown version, and a bad tempo: bytes past it, as far as there are cells for them.
    let (_, version) = begun(&file, &stream(9, 9, &[0; 90]));
    let (_, tempo) = begun(&file, &stream(2, 9, &[[0, 31], [0; 2]].concat()));
    for (board, number, place) in [(version, 22, 4), (tempo, 23, 9)] {
        // A header of ten bytes is open no more.
        let most = if open(&board).0 == 0 { 9 } else { 52 };
        for kept in board[KEPT]..=52 {
            let longer = with(&board, &[(KEPT, kept), (FOLLOW, 90)]);
            if kept <= most {
                repeats(&file, &longer, number, place);
            } else {
                is_14(&file, &longer);
            }
            is_14(&file, &with(&longer, &[(NUMBER, 0)]));
        }
        is_14(&file, &with(&board, &[(KEPT, 53), (FOLLOW, 90)]));
    }
    // The header's numbers come before a whole record.
    let whole = [(BYTES, u32::from_le_bytes([0, 125, 0, 0])), (KEPT, 2)];
    let board = with(&midway(&file), &whole);
    is_14(&file, &board);
    let fault = [(VERSION, 9), (NUMBER, 22), (FAULT, 4)];
    repeats(&file, &with(&board, &fault), 22, 4);
}

#[test]
fn any_other_board_goes_on_from_what_it_holds() {
    let file = song().bytes();
    let board = midway(&file);
    // Records and place need not belong together.
    let mut other = with(&board, &[(RECORDS, 0), (TICKS, 2)]);
    assert_eq!(feed(&file, &mut other, &NOTE[5..]), fed(played(1), 3));
    assert_eq!((open(&other), other[RECORDS]), ((25, 0), 1));
    // Another sounding sample is the register that the next record is held to.
    let mut other = with(&board_fresh(), &[(voice(1).start, 7)]);
    let kept = [1, 125, 7, 64, 1, 172, 0, 0];
    assert_eq!(
        feed(&file, &mut other, &stream(2, 1, &kept)),
        fed(played(1), 17)
    );
    assert_eq!(
        begun(&file, &stream(2, 1, &kept)).0,
        fed(refused(23, 9), 16)
    );
}

#[test]
fn places_reach_past_32_bits() {
    let file = song().bytes();
    let (_, board) = begun(&file, &stream(2, 1, &EMPTY));
    let end = [(FOLLOW, u32::MAX), (PLACE, 3), (PLACE + 1, 1)];
    let mut over = with(&board, &end);
    assert_eq!(
        feed(&file, &mut over, &[0]),
        fed(refused(21, (1 << 32) + 4), 0)
    );
    assert_eq!(kept_fault(&over), (21, (1 << 32) + 4));
    repeats(&file, &over, 21, (1 << 32) + 4);
    // One record more, whose bytes lie on both sides of 2^32.
    let mut crossing = with(&board, &end);
    crossing[TICKS] = 2;
    (crossing[PLACE], crossing[PLACE + 1]) = (u32::MAX, 0);
    assert_eq!(feed(&file, &mut crossing, &EMPTY), fed(played(1), 2));
    assert_eq!(open(&crossing), ((1 << 32) + 1, 0));
    assert_eq!(
        board_close(&file, &mut crossing),
        refused(21, (1 << 32) + 1)
    );
}
