//! How play grows with the ticks of a call.
use super::modules::{busy, busy_by};
use crate::say::say;
use crate::timing::print_medians;
use std::hint::black_box;

const FRAMES: usize = 960;

pub fn print() {
    let file = busy();
    say("play from fresh, 10 to 1,000 ticks a call, four voices");
    for ticks in [10, 100, 1_000] {
        play(&file, ticks);
    }
    for channels in [6, 8] {
        say(&format!("play from fresh, {channels} channels and voices"));
        play(&busy_by(channels), 100);
    }
}

fn play(file: &[u8], ticks: u32) {
    let mut out = vec![0; 2 * FRAMES * ticks as usize];
    let mut other = out.clone();
    print_medians(
        "frame",
        f64::from(ticks) * FRAMES as f64,
        &mut [
            (&format!("proved, {ticks} ticks"), &mut || {
                let mut state = lampthistle::fresh();
                let _ = black_box(lampthistle::play(file, &mut state, ticks, &mut out));
            }),
            (
                &format!("second implementation, {ticks} ticks"),
                &mut || {
                    let mut cells = second::fresh();
                    black_box(second::play(file, &mut cells, ticks, &mut other));
                },
            ),
        ],
    );
    assert!(out == other, "both play the same");
}
