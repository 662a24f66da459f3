//! The board that is fed: a whole stream in one call beside play_stream, ns a frame; in calls of 64 bytes, of one, and of a record, whole or
//! cut, ns a byte; and a call with no byte.
use super::modules::{busy, busy_by, large};
use crate::say::say;
use crate::timing::{medians, print_medians};
use lampthistle::Board;
use std::hint::black_box;

/// The numbers of a tick at tempo 125, which these modules keep.
const TICK: usize = 2 * 960;
const PIECE: usize = 64;
/// The bytes of a header of version 3.
const HEADER: usize = 10;

pub fn print() {
    say("feeding: a whole stream in one call beside play_stream, ns a frame");
    say("| | play_stream | board_feed | ratio | second, fed |");
    say("|---|---|---|---|---|");
    let file = busy();
    for ticks in [10, 100, 1_000] {
        whole(&format!("{ticks} ticks, four channels"), &file, ticks);
    }
    for channels in [6, 8] {
        let name = format!("100 ticks, {channels} channels");
        whole(&name, &busy_by(channels), 100);
    }
    say("feeding in pieces, 100 ticks");
    pieces(&file, 100);
    say("feeding no byte");
    nothing(&file, "1 pattern");
    nothing(&large(), "64 patterns");
}

fn translated(file: &[u8], ticks: u32) -> Vec<u8> {
    let needed = lampthistle::translate(file, ticks, &mut []).place;
    let mut stream = vec![0; needed as usize];
    assert!(lampthistle::translate(file, ticks, &mut stream).count == needed);
    stream
}

/// Where each piece of so many bytes ends.
fn every(stream: &[u8], piece: usize) -> Vec<usize> {
    let ends = (piece..stream.len()).step_by(piece);
    ends.chain([stream.len()]).collect()
}

/// Where the pieces end that are a header and then a record each, or that reach so many bytes into the next record.
fn by_record(stream: &[u8], into_next: usize) -> Vec<usize> {
    let (mut ends, mut at) = (vec![], HEADER);
    while at < stream.len() {
        ends.push(at + into_next);
        at += 2 + 6 * stream[at].count_ones() as usize;
    }
    ends.push(at);
    ends
}

/// Feeds the stream in pieces that end there; the board after it.
fn feed(file: &[u8], stream: &[u8], ends: &[usize], out: &mut [i16]) -> Board {
    let (mut board, mut from, mut at) = (Board::fresh(), 0, 0);
    for &end in ends {
        let piece = &stream[from..end];
        let fed = black_box(board.feed(black_box(file), piece, &mut out[at..]));
        at += TICK * fed.answer.count as usize;
        from = end;
    }
    board
}

fn whole(name: &str, file: &[u8], ticks: u32) {
    let stream = translated(file, ticks);
    let mut played = vec![0; TICK * ticks as usize];
    let (mut fed, mut other) = (played.clone(), played.clone());
    let took = medians(&mut [
        ("", &mut || {
            let _ = black_box(lampthistle::play_stream(&stream, file, &mut played));
        }),
        ("", &mut || {
            black_box(feed(file, &stream, &[stream.len()], &mut fed));
        }),
        ("", &mut || {
            let mut board = second::board_fresh();
            black_box(second::board_feed(file, &mut board, &stream, &mut other));
        }),
    ]);
    assert!(played == fed && played == other, "all play the same");
    let [played, fed, other] = [0, 1, 2].map(|k| took[k] * 2.0 / (TICK as f64 * f64::from(ticks)));
    let ratio = fed / played;
    say(&format!(
        "| {name} | {played:.3} | {fed:.3} | {ratio:.2} | {other:.3} |"
    ));
}

fn pieces(file: &[u8], ticks: u32) {
    let stream = translated(file, ticks);
    let ways = [
        ("proved, one call", vec![stream.len()]),
        ("proved, calls of 64 bytes", every(&stream, PIECE)),
        ("proved, byte by byte", every(&stream, 1)),
        ("proved, a record a call", by_record(&stream, 0)),
        ("proved, a record a call, each cut", by_record(&stream, 1)),
    ];
    let mut outs = vec![vec![0; TICK * ticks as usize]; ways.len()];
    let stream = &stream;
    let fed = ways.iter().zip(&mut outs).map(|((_, ends), out)| {
        move || {
            black_box(feed(file, stream, ends, out));
        }
    });
    let mut fed: Vec<_> = fed.collect();
    let mut works: Vec<(&str, &mut dyn FnMut())> = vec![];
    for ((name, _), work) in ways.iter().zip(&mut fed) {
        works.push((name, work));
    }
    print_medians("byte", stream.len() as f64, &mut works);
    assert!(outs.iter().all(|out| *out == outs[0]), "all play the same");
}

/// A call that takes nothing, in the middle of a stream: the module and the board are judged.
fn nothing(file: &[u8], name: &str) {
    let stream = translated(file, 2);
    let mut board = Board::fresh();
    let _ = board.feed(file, &stream[..stream.len() - 1], &mut [0; 2 * TICK]);
    print_medians(
        "call",
        1.0,
        &mut [
            (&format!("proved, {name}"), &mut || {
                let _ = black_box(board.feed(black_box(file), &[], &mut []));
            }),
            (&format!("judging alone, {name}"), &mut || {
                let _ = black_box(lampthistle::judge(black_box(file)));
            }),
        ],
    );
}
