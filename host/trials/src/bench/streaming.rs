//! Translation, ns a tick; the board against the player on the same module, ns a frame; and the ticks before a part, ns a tick.
use super::modules::{busy, busy_by, by_effect, sliding, tuned};
use crate::say::say;
use crate::timing::print_medians;
use lampthistle::MOST_TICKS;
use std::hint::black_box;

const FRAMES: usize = 960;

/// Room for the most bytes that any translation of the module takes.
fn room(file: &[u8]) -> Vec<u8> {
    let channels = lampthistle::channels(file) as usize;
    vec![0; 10 + (2 + 6 * channels) * MOST_TICKS as usize]
}

pub fn print() {
    let file = busy();
    say("translation of 655 to 65,535 ticks");
    for ticks in [MOST_TICKS / 100, MOST_TICKS / 10, MOST_TICKS] {
        translation(&file, ticks);
    }
    say("translation of a module without arpeggios");
    translation(&sliding(), MOST_TICKS / 10);
    for (name, file) in by_effect() {
        say(&format!("translation without finetunes: {name}"));
        translation(&file, MOST_TICKS / 10);
    }
    say("translation with finetunes: arpeggio, slides and vibrato in turn");
    translation(&tuned(), MOST_TICKS / 10);
    say("play_stream against play, 10 to 1,000 ticks");
    for ticks in [10, 100, 1_000] {
        board_and_player(&file, ticks);
    }
    say("play_stream_from the last of 100 to 10,000 ticks");
    for ticks in [100, 1_000, 10_000] {
        last_tick(&file, ticks);
    }
    for channels in [6, 8] {
        let file = busy_by(channels);
        say(&format!("{channels} channels: translation, play_stream against play, play_stream_from the last tick"));
        translation(&file, MOST_TICKS / 10);
        board_and_player(&file, 100);
        last_tick(&file, 1_000);
    }
}

fn translation(file: &[u8], ticks: u32) {
    let mut room = room(file);
    let mut other = room.clone();
    print_medians(
        "tick",
        f64::from(ticks),
        &mut [
            (&format!("proved, {ticks} ticks"), &mut || {
                let _ = black_box(lampthistle::translate(black_box(file), ticks, &mut room));
            }),
            (
                &format!("second implementation, {ticks} ticks"),
                &mut || {
                    black_box(second::translate(black_box(file), ticks, &mut other));
                },
            ),
        ],
    );
    assert!(room == other, "both write the same stream");
}

fn board_and_player(file: &[u8], ticks: u32) {
    let mut room = room(file);
    let bytes = lampthistle::translate(file, ticks, &mut room).count as usize;
    let stream = &room[..bytes];
    let mut board = vec![0; 2 * FRAMES * ticks as usize];
    let mut player = board.clone();
    let mut other = board.clone();
    print_medians(
        "frame",
        f64::from(ticks) * FRAMES as f64,
        &mut [
            (&format!("proved, play_stream, {ticks} ticks"), &mut || {
                let _ = black_box(lampthistle::play_stream(stream, file, &mut board));
            }),
            (&format!("proved, play, {ticks} ticks"), &mut || {
                let mut state = lampthistle::fresh();
                let _ = black_box(lampthistle::play(file, &mut state, ticks, &mut player));
            }),
            (&format!("second, play_stream, {ticks} ticks"), &mut || {
                black_box(second::play_stream(stream, file, &mut other));
            }),
        ],
    );
    assert!(board == player && board == other, "all play the same");
}

fn last_tick(file: &[u8], ticks: u32) {
    let mut room = room(file);
    let bytes = lampthistle::translate(file, ticks, &mut room).count as usize;
    let (stream, last) = (&room[..bytes], ticks - 1);
    let mut part = vec![0; 2 * FRAMES];
    let mut other = part.clone();
    print_medians(
        "tick",
        f64::from(ticks),
        &mut [
            (&format!("proved, {ticks} ticks"), &mut || {
                let _ = black_box(lampthistle::play_stream_from(stream, file, last, &mut part));
            }),
            (
                &format!("second implementation, {ticks} ticks"),
                &mut || {
                    black_box(second::play_stream_from(stream, file, last, &mut other));
                },
            ),
        ],
    );
    assert!(part == other, "both play the same");
}
