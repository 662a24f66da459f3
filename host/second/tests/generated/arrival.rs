//! Boards fed with generated streams: however they are cut, whatever is wrong with them, and from
//! boards that were forged.

use crate::common::{accepted, refused, translated, UNTOUCHED};
use second::generate::arrivals::{arriving, each_damage, each_length, pieces};
use second::generate::boards::forged;
use second::generate::modules::{module, Size};
use second::generate::streams::{bad_stream, legal_stream};
use second::generate::Random;
use second::{
    board_close, board_feed, board_fresh, channels, decode, judge, play_stream, Answer, Fed,
    BOARD_CELLS,
};

type Board = [u32; BOARD_CELLS];

const NUMBER: usize = 21;
const REFUSED_BOARD: u64 = 14;

/// The numbers that the longest tick takes.
const TICK_NUMBERS: usize = 7_500;

fn file(seed: u64) -> Vec<u8> {
    module(seed % 100, Size::Small)
}

/// An accepted stream of the file: any, or a translated one.
fn good_stream(seed: u64, file: &[u8]) -> Vec<u8> {
    if seed.is_multiple_of(3) {
        translated(file, (seed % 40) as u32)
    } else {
        legal_stream(seed, file)
    }
}

/// The numbers of all of the stream's ticks, as the player of whole streams gives them.
fn whole_frames(file: &[u8], stream: &[u8]) -> Vec<i16> {
    let lengths = decode(stream, channels(file)).expect("accepted").lengths();
    let mut frames = vec![0; 2 * lengths.iter().sum::<usize>()];
    let answer = play_stream(stream, file, &mut frames);
    assert_eq!(answer, accepted(lengths.len() as u64));
    frames
}

/// What one call wrote: where two rooms, filled otherwise before, hold the same.
fn fed_frames(file: &[u8], board: &mut Board, bytes: &[u8], room: usize) -> (Fed, Vec<i16>) {
    let mut other_board = *board;
    let mut out = vec![UNTOUCHED; room];
    let mut other = vec![UNTOUCHED + 1; room];
    let fed = board_feed(file, board, bytes, &mut out);
    assert_eq!(board_feed(file, &mut other_board, bytes, &mut other), fed);
    assert_eq!(other_board, *board);
    let written = (0..room).take_while(|&k| out[k] == other[k]).count();
    assert!(out[written..].iter().all(|&number| number == UNTOUCHED));
    out.truncate(written);
    (fed, out)
}

/// Everything that feeding a stream in pieces gave: the ticks played, their frames, the bytes
/// taken, the last call's number and place, and the board.
#[derive(Debug, PartialEq)]
struct Course {
    ticks: u64,
    frames: Vec<i16>,
    taken: usize,
    end: (u64, u64),
    board: Board,
}

/// Feeds all that is taken, in rooms of any size; where a tick waits, the next room is large enough.
fn course(file: &[u8], from: &Board, stream: &[u8], pieces: &[usize], seed: u64) -> Course {
    let mut random = Random::new(seed);
    let mut course = Course {
        ticks: 0,
        frames: Vec::new(),
        taken: 0,
        end: (0, 0),
        board: *from,
    };
    let mut arrived = 0;
    for piece in pieces {
        arrived += piece;
        let mut waits = false;
        loop {
            let room = match random.below(6) {
                _ if waits => TICK_NUMBERS + random.below(2) as usize,
                0 => random.below(3) as usize,
                1 => random.below(TICK_NUMBERS as u32) as usize | 1,
                _ => random.below(30_000) as usize,
            };
            let bytes = &stream[course.taken..arrived];
            let (fed, frames) = fed_frames(file, &mut course.board, bytes, room);
            course.ticks += fed.answer.count;
            course.frames.extend(frames);
            course.taken += fed.taken as usize;
            course.end = (fed.answer.number, fed.answer.place);
            if course.end.0 != 0 {
                return course;
            }
            if course.taken == arrived {
                break;
            }
            waits = true;
        }
    }
    course
}

/// The same in one call with room for every tick.
fn at_once(file: &[u8], from: &Board, stream: &[u8]) -> Course {
    let mut board = *from;
    let room = (stream.len() / 2 + 1) * TICK_NUMBERS;
    let (fed, frames) = fed_frames(file, &mut board, stream, room);
    Course {
        ticks: fed.answer.count,
        frames,
        taken: fed.taken as usize,
        end: (fed.answer.number, fed.answer.place),
        board,
    }
}

#[test]
fn however_an_accepted_stream_is_cut_it_plays_as_the_whole() {
    for seed in 0..600 {
        let file = file(seed);
        let stream = good_stream(seed, &file);
        let pieces = pieces(seed, stream.len());
        let course = course(&file, &board_fresh(), &stream, &pieces, seed);
        assert_eq!((course.end, course.taken), ((0, 0), stream.len()), "{seed}");
        assert!(course.frames == whole_frames(&file, &stream), "seed {seed}");
        let mut board = course.board;
        if stream.len() < 500 {
            assert_eq!(course, at_once(&file, &board_fresh(), &stream), "{seed}");
        }
        assert_eq!(board_close(&file, &mut board), accepted(0), "seed {seed}");
        assert_eq!(board, course.board, "seed {seed}");
        let over = board_feed(&file, &mut board, &[0], &mut []);
        let refusal = refused(21, stream.len() as u64 + 1);
        assert_eq!((over.answer, over.taken), (refusal, 0), "seed {seed}");
    }
}

/// The fault that a stream shows on arrival, with room for all; none is number and place 0. It is
/// the same however the stream is cut.
fn arriving_fault(file: &[u8], stream: &[u8], seed: u64) -> (u64, u64) {
    let once = at_once(file, &board_fresh(), stream);
    let cut = course(
        file,
        &board_fresh(),
        stream,
        &pieces(seed, stream.len()),
        seed,
    );
    // Over the end no byte is taken, and no later piece changes anything.
    assert_eq!(once, cut, "seed {seed}: {stream:?}");
    once.end
}

/// Whether the stream has the length that it declares, and a whole header.
fn has_its_length(stream: &[u8]) -> bool {
    let Some(first) = stream.first_chunk::<4>() else {
        return false;
    };
    stream.len() >= 9 && u32::from_be_bytes(*first) as usize == stream.len() - 4
}

/// The whole's answer, where the stream has its length, is the arriving fault.
fn same_as_whole(file: &[u8], stream: &[u8], seed: u64) -> u64 {
    let (number, place) = arriving_fault(file, stream, seed);
    if has_its_length(stream) {
        let whole = play_stream(stream, file, &mut []);
        assert_eq!(
            (whole.number, whole.place),
            (number, place),
            "seed {seed}: {stream:?}"
        );
    }
    number
}

#[test]
fn bad_streams_of_their_length_show_the_whole_s_fault() {
    let mut seen = [0; 29];
    for seed in 0..1_500 {
        let file = file(seed);
        let bad = bad_stream(seed, &file);
        let number = same_as_whole(&file, &bad.bytes, seed);
        if has_its_length(&bad.bytes) {
            assert_eq!(number, bad.number, "seed {seed}");
        }
        seen[number as usize] += 1;
    }
    assert!(
        [21, 22, 23, 28].iter().all(|&number| seen[number] > 50),
        "{seen:?}"
    );
}

/// A stream of at most so many bytes.
fn short_stream(seed: u64, file: &[u8], most: usize) -> Vec<u8> {
    let mut seeds = seed..;
    let stream = seeds.find_map(|seed| {
        let stream = legal_stream(seed, file);
        (stream.len() <= most).then_some(stream)
    });
    stream.expect("some are short")
}

#[test]
fn each_byte_damaged_shows_the_whole_s_fault() {
    let mut seen = [0; 29];
    for seed in 0..40 {
        let file = file(seed);
        for damaged in each_damage(&short_stream(1_000 * seed, &file, 80)) {
            seen[same_as_whole(&file, &damaged, seed) as usize] += 1;
        }
    }
    assert!(
        [0, 21, 22, 23, 28].iter().all(|&number| seen[number] > 20),
        "{seen:?}"
    );
}

#[test]
fn each_declared_length_ends_the_stream_there() {
    for seed in 0..60 {
        let file = file(seed);
        let good = short_stream(1_000 * seed, &file, 60);
        let length = good.len() as u64;
        for stream in each_length(&good) {
            let follow = u32::from_be_bytes([stream[0], stream[1], stream[2], stream[3]]);
            let declared = 4 + u64::from(follow);
            let (number, place) = arriving_fault(&file, &stream, seed);
            let mut board = at_once(&file, &board_fresh(), &stream).board;
            let closed = board_close(&file, &mut board);
            if declared > length {
                // Nothing is wrong before the end that doesn't come.
                assert_eq!((number, closed), (0, refused(21, length)), "seed {seed}");
            } else if declared == length {
                assert_eq!((number, closed), (0, accepted(0)), "seed {seed}");
            } else {
                let expected = if declared < 9 { 21 } else { 23 };
                let whole = play_stream(&stream[..declared as usize], &file, &mut []);
                assert!([expected, 28].contains(&number), "seed {seed}");
                assert_eq!((number, place), (whole.number, whole.place), "seed {seed}");
                assert_eq!(closed, refused(number, place), "seed {seed}");
            }
        }
    }
}

#[test]
fn the_frames_before_a_fault_are_those_of_the_good_records() {
    for seed in 0..400 {
        let file = file(seed);
        let good = legal_stream(seed, &file);
        let frames = whole_frames(&file, &good);
        let mut random = Random::new(seed);
        let mut stream = good.clone();
        let place = random.below(stream.len() as u32) as usize;
        stream[place] = random.byte();
        let course = at_once(&file, &board_fresh(), &stream);
        // Up to the damaged byte both streams are the same.
        let before = at_once(&file, &board_fresh(), &stream[..place]);
        assert!(frames.starts_with(&before.frames), "seed {seed}");
        assert!(course.frames.starts_with(&before.frames), "seed {seed}");
        if course.end.0 != 0 && course.taken == place + 1 {
            assert_eq!(course.frames.len(), before.frames.len(), "seed {seed}");
            assert_eq!(course.ticks, before.ticks, "seed {seed}");
        }
    }
}

/// Calls on a board that keeps a fault or is refused answer this and leave everything.
fn stays(file: &[u8], before: &Board, answer: Answer) {
    let mut board = *before;
    let mut out = [UNTOUCHED; 2_000];
    for bytes in [&[][..], &[0, 125]] {
        let fed = board_feed(file, &mut board, bytes, &mut out);
        assert_eq!(fed, Fed { answer, taken: 0 });
    }
    assert_eq!(board_close(file, &mut board), answer);
    assert_eq!((board, out), (*before, [UNTOUCHED; 2_000]));
}

#[test]
fn faults_are_kept_and_repeated() {
    for seed in 0..2_000 {
        let file = file(seed);
        let stream = arriving(seed, &file);
        let mut course = at_once(&file, &board_fresh(), &stream);
        let mut answer = refused(course.end.0, course.end.1);
        if course.end.0 == 0 {
            answer = board_close(&file, &mut course.board);
        }
        if answer.number != 0 {
            stays(&file, &course.board, answer);
        }
    }
}

#[test]
fn forged_boards_are_refused_or_go_on_however_the_rest_is_cut() {
    let mut refused_boards = 0;
    let mut went_on = 0;
    let mut repeated = 0;
    for seed in 0..10_000 {
        let mut random = Random::new(seed);
        let file = file(seed);
        let stream = short_stream(20 * seed, &file, 200);
        let fed = random.below(stream.len() as u32 + 1) as usize;
        let reached = at_once(&file, &board_fresh(), &stream[..fed]);
        let board = forged(seed, &file, &reached.board);
        let answer = board_close(&file, &mut board.clone());
        if answer.number == REFUSED_BOARD {
            refused_boards += 1;
            stays(&file, &board, refused(REFUSED_BOARD, 0));
            continue;
        }
        if board[NUMBER] != 0 {
            repeated += 1;
            stays(&file, &board, answer);
            continue;
        }
        went_on += 1;
        let rest = &stream[fed..];
        let once = at_once(&file, &board, rest);
        let cut = course(&file, &board, rest, &pieces(seed, rest.len()), seed);
        assert_eq!(once, cut, "seed {seed}");
        // What a legal board becomes is legal.
        let again = board_feed(&file, &mut once.board.clone(), &[], &mut []);
        assert_eq!(
            (again.answer.number, again.answer.place),
            once.end,
            "seed {seed}"
        );
    }
    assert!(refused_boards > 2_500 && repeated > 250 && went_on > 1_000);
}

#[test]
fn another_module_is_judged_with_the_board() {
    let mut seen = [0; 29];
    for seed in 0..3_000 {
        let file = file(seed);
        let other = module(seed + 1, Size::Small);
        let stream = legal_stream(seed, &file);
        let fed = Random::new(seed).below(stream.len() as u32 + 1) as usize;
        let mut board = at_once(&file, &board_fresh(), &stream[..fed]).board;
        let before = board;
        let answer = board_feed(&other, &mut board, &stream[fed..], &mut [0; TICK_NUMBERS]);
        seen[answer.answer.number as usize] += 1;
        if answer.answer.number == REFUSED_BOARD {
            assert_eq!((board, answer.taken), (before, 0), "seed {seed}");
        }
        // A module that is refused comes first, and leaves the board.
        let damaged = &file[..file.len().min(1_000)];
        let mut lent = before;
        let refusal = board_feed(damaged, &mut lent, &stream[fed..], &mut []);
        assert_eq!(
            (refusal.answer, lent),
            (judge(damaged), before),
            "seed {seed}"
        );
    }
    assert!(
        [0, 14, 28].iter().all(|&number| seen[number] > 50),
        "{seen:?}"
    );
}
