//! Play as floats beside 16-bit play: the same ticks, ns a frame, and how much longer floats take.
use super::mixing::{cases, Case};
use super::modules::{busy, held};
use crate::floats::{is_mono, is_side};
use crate::say::say;
use crate::timing::medians;
use lampthistle::{Pair, State, MONO, STEREO, TICK_NUMBERS};
use std::hint::black_box;

const TICKS: [u32; 3] = [10, 100, 1_000];

/// The frames of so many ticks, and the medians of 16-bit numbers, floats for two sides and floats for one, in ns a frame.
fn measure(file: &[u8], before: &State, ticks: u32) -> [f64; 3] {
    let most = TICK_NUMBERS * ticks as usize;
    let (mut numbers, mut stereo, mut mono) = (vec![0; most], vec![0.0; most], vec![0.0; most]);
    let frames = check(file, before, ticks, &mut numbers, &mut stereo, &mut mono);
    let floats = |sides: u32, out: &mut [f32]| {
        let (mut state, mut last) = (*before, Pair::default());
        let file = black_box(file);
        let played = lampthistle::play_floats(file, &mut state, ticks, sides, out, &mut last);
        let _ = black_box((played, last));
    };
    let took = medians(&mut [
        ("", &mut || {
            let mut state = *before;
            let file = black_box(file);
            let _ = black_box(lampthistle::play(file, &mut state, ticks, &mut numbers));
        }),
        ("", &mut || floats(STEREO, &mut stereo)),
        ("", &mut || floats(MONO, &mut mono)),
    ]);
    [took[0], took[1], took[2]].map(|ns| ns / frames as f64)
}

/// Plays all three, and holds the floats to the numbers; how many frames there are.
fn check(
    file: &[u8],
    before: &State,
    ticks: u32,
    numbers: &mut Vec<i16>,
    stereo: &mut Vec<f32>,
    mono: &mut Vec<f32>,
) -> usize {
    let mut last = Pair::default();
    let [mut whole, mut two, mut one] = [*before; 3];
    let answers = [
        lampthistle::play(file, &mut whole, ticks, numbers),
        lampthistle::play_floats(file, &mut two, ticks, STEREO, stereo, &mut last),
        lampthistle::play_floats(file, &mut one, ticks, MONO, mono, &mut last),
    ];
    assert!(answers.iter().all(|answer| answer.count == ticks.into()));
    assert!(whole == two && whole == one, "the same states");
    let mut cells = before.0;
    let tick = |_| second::trace_tick(file, &mut cells).map_or(0, |trace| trace.frames.len());
    let all = (0..ticks).map(tick).sum();
    numbers.truncate(all);
    stereo.truncate(all);
    mono.truncate(all / 2);
    for ((frame, two), one) in numbers.chunks(2).zip(stereo.chunks(2)).zip(mono.iter()) {
        let same = is_side(two[0], frame[0]) && is_side(two[1], frame[1]);
        assert!(same && is_mono(*one, frame[0], frame[1]), "{frame:?}");
    }
    all / 2
}

fn row(name: &str, [numbers, stereo, mono]: [f64; 3]) {
    let (two, one) = (stereo / numbers, mono / numbers);
    say(&format!(
        "| {name} | {numbers:.3} | {stereo:.3} | {two:.2} | {mono:.3} | {one:.2} |"
    ));
}

pub fn print() {
    say("play as floats beside 16-bit play, ns a frame");
    say("| | 16-bit | floats, two sides | ratio | floats, one side | ratio |");
    say("|---|---|---|---|---|---|");
    let (busy, held) = (busy(), held());
    for ticks in TICKS {
        let name = format!("{ticks} ticks from fresh, four voices");
        row(&name, measure(&busy, &lampthistle::fresh(), ticks));
    }
    for Case { name, state } in cases() {
        row(name, measure(&held, &state, 1));
    }
}
