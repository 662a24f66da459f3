//! Mixing: ns a frame of one tick, by what its voices do, beside the C loops and the second implementation.
use super::loops::{same_places, voices, Loop, EIGHT, FOUR, ONE_PASS, SIX, WAYS};
use super::modules::{held, held_by, ENDING, LOOPED, LOOP_START, PERIODS, SAMPLE_BYTES, SHORT};
use crate::say::say;
use crate::timing::medians;
use lampthistle::{cell, tick_numbers, State};
use std::hint::black_box;

const LOWEST_PERIOD: u32 = 113;
/// A byte in the middle of the long loop.
const FIRST_INDEX: u32 = 300;

/// A tick to mix: what it is, and the state before it.
pub struct Case {
    pub name: &'static str,
    pub state: State,
}

/// Sample, period and index of a voice at volume 64.
type Sounding = (u32, u32, u32);

/// A state in the middle of a row in which the first channels' voices sound.
fn state(tempo: u32, voices: &[Sounding]) -> State {
    let mut state = lampthistle::fresh();
    state.0[cell::TICK] = 1;
    state.0[cell::SPEED] = 31;
    state.0[cell::TEMPO] = tempo;
    for (channel, &(sample, period, index)) in voices.iter().enumerate() {
        let own = &mut state.0[cell::channel(channel)..];
        own[cell::VOLUME] = 64;
        own[cell::PERIOD] = period;
        own[cell::VOICE_SAMPLE] = sample;
        own[cell::VOICE_INDEX] = index;
        own[cell::VOICE_STOPPED] = 0;
    }
    state
}

/// The index from which a voice comes to its sample's end in about so many frames.
fn before_end(period: u32, frames: u32) -> u32 {
    SAMPLE_BYTES as u32 - frames * second::growth(period) / 65_536
}

pub fn cases() -> [Case; 6] {
    let four = |voice: &dyn Fn(u32, u32) -> Sounding| -> [Sounding; 4] {
        std::array::from_fn(|k| voice(k as u32, PERIODS[k]))
    };
    let looped = four(&|k, period| (LOOPED + k, period, FIRST_INDEX));
    // Each voice at another byte of its loop.
    let short = four(&|k, _| (SHORT + k, LOWEST_PERIOD, 2 * LOOP_START + k));
    let ending = four(&|k, period| (ENDING + k, period, before_end(period, 1_500 + 250 * k)));
    let case = |name, tempo, voices: &[Sounding]| Case {
        name,
        state: state(tempo, voices),
    };
    [
        case("3,750 frames, four voices", 32, &looped),
        case("the same, loops of two words, period 113", 32, &short),
        case("the same, samples that end in the middle", 32, &ending),
        case("3,750 frames, one voice", 32, &looped[..1]),
        case("3,750 frames, no voice", 32, &[]),
        case("470 frames at tempo 255, four voices", 255, &looped),
    ]
}

/// A tick of so many voices in long loops.
fn looped(name: &'static str, voices: usize) -> Case {
    let voice = |k: usize| (LOOPED + k as u32, PERIODS[k], FIRST_INDEX);
    let voices: Vec<Sounding> = (0..voices).map(voice).collect();
    Case {
        name,
        state: state(32, &voices),
    }
}

/// Plays the tick, and holds the second implementation and every C loop to its frames and voices; the numbers that it has.
fn check<const N: usize>(file: &[u8], before: &State, loops: &[Loop<N>]) -> usize {
    let mut after = *before;
    let mut out = vec![0; lampthistle::TICK_NUMBERS];
    let played = lampthistle::play(file, &mut after, 1, &mut out).count;
    assert!(played == 1, "the tick is played");
    out.truncate(tick_numbers(before, &after));
    let (mut cells, mut other) = (before.0, vec![1; out.len()]);
    second::play(file, &mut cells, 1, &mut other);
    assert!(other == out && cells == after.0, "both play the same");
    for mixer in loops {
        let (name, mut moved) = (mixer.name, voices(file, before));
        let mut mixed = vec![1; out.len()];
        mixer.mix(&mut moved, &mut mixed);
        assert!(mixed == out, "{name}: the same frames");
        let there = voices::<N>(file, &after);
        assert!(same_places(&moved, &there), "{name}: places");
    }
    out.len()
}

/// The medians of a tick in ns a frame: proved, the C loops, the second implementation.
fn measure<const N: usize>(file: &[u8], state: &State, loops: &[Loop<N>; WAYS]) -> Vec<f64> {
    let numbers = check(file, state, loops);
    let (mut out, mut other) = (vec![0; numbers], vec![0; numbers]);
    let mut proved = || {
        let mut state = *state;
        let _ = black_box(lampthistle::play(black_box(file), &mut state, 1, &mut out));
    };
    let mut second = || {
        let mut cells = state.0;
        black_box(second::play(black_box(file), &mut cells, 1, &mut other));
    };
    let before = voices(file, state);
    let mut loops = loops.map(|mixer| {
        let mut out = vec![0; numbers];
        move || {
            let mut voices = before;
            mixer.mix(&mut voices, black_box(&mut out));
            black_box(&voices);
        }
    });
    let [plain, sides, four, bytes] = &mut loops;
    let took = medians(&mut [
        ("", &mut proved),
        ("", plain),
        ("", sides),
        ("", four),
        ("", bytes),
        ("", &mut second),
    ]);
    let frames = (numbers / 2) as f64;
    took.into_iter().map(|ns| ns / frames).collect()
}

fn heading<const N: usize>(loops: &[Loop<N>; WAYS]) {
    let names = loops.map(|mixer| mixer.name).join(" | ");
    say(&format!(
        "| | proved | {names} | second | proved to the best C in one pass |"
    ));
    say("|---|---|---|---|---|---|---|---|");
}

fn row<const N: usize>(file: &[u8], case: &Case, loops: &[Loop<N>; WAYS]) {
    let took = measure(file, &case.state, loops);
    let best = took[1..=ONE_PASS].iter().copied().fold(f64::MAX, f64::min);
    let row: String = took.iter().map(|ns| format!(" {ns:.3} |")).collect();
    say(&format!("| {} |{row} {:.2} |", case.name, took[0] / best));
}

pub fn print() {
    let file = held();
    say("mixing one tick, ns a frame: proved is a call of play, C is mixing alone");
    heading(&FOUR);
    for case in cases() {
        row(&file, &case, &FOUR);
    }
    say("mixing one tick of six and of eight channels");
    heading(&SIX);
    let (six, eight) = (held_by(6), held_by(8));
    row(&six, &looped("3,750 frames, six voices", 6), &SIX);
    row(&eight, &looped("3,750 frames, eight voices", 8), &EIGHT);
    let four = looped("the same module, four of them", 4);
    row(&eight, &four, &EIGHT);
}
