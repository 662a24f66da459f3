//! One tick a call on a module of 64 patterns, as a panel plays, and the share of each part of a call. The parts are differences of calls:
//! judging is a call of judge; legality, with the state read and written back, is what a play of no tick takes more; sequencing is what a
//! tick takes more of the same patterns over empty samples, less what its silence takes, which grows with its frames; mixing is the rest.
use super::modules::{large, large_and_silent};
use crate::say::say;
use crate::timing::medians;
use lampthistle::{cell, State};
use std::hint::black_box;

/// Ticks after which a run of calls begins, and calls in it: four rows, so that each tick of a row has its share.
const BEFORE: u32 = 60;
const CALLS: u32 = 24;
const TEMPO: u32 = 125;
/// Two tempos at which every tick of a silent play has the same frames, 480 and 3,750.
const FAST: u32 = 250;
const SLOW: u32 = 32;

/// The same ticks of a module at a tempo, one a call.
struct Run<'a> {
    file: &'a [u8],
    state: State,
    out: Vec<i16>,
}

impl Run<'_> {
    fn new(file: &[u8], tempo: u32) -> Run<'_> {
        let mut state = lampthistle::fresh();
        state.0[cell::TEMPO] = tempo;
        let mut run = Run {
            file,
            state,
            out: vec![0; lampthistle::TICK_NUMBERS],
        };
        for _ in 0..BEFORE {
            let _ = lampthistle::play(file, &mut run.state, 1, &mut run.out);
        }
        run
    }

    fn proved(&mut self) {
        let mut state = self.state;
        for _ in 0..CALLS {
            let file = black_box(self.file);
            let _ = black_box(lampthistle::play(file, &mut state, 1, &mut self.out));
        }
    }

    fn no_tick(&mut self) {
        for _ in 0..CALLS {
            let file = black_box(self.file);
            let _ = black_box(lampthistle::play(file, &mut self.state, 0, &mut self.out));
        }
    }

    fn second(&mut self) {
        let mut cells = self.state.0;
        for _ in 0..CALLS {
            let file = black_box(self.file);
            black_box(second::play(file, &mut cells, 1, &mut self.out));
        }
    }
}

/// The median times of a call, in us.
struct Times {
    play: f64,
    judge: f64,
    no_tick: f64,
    fast: f64,
    slow: f64,
    second: f64,
}

fn measure() -> Times {
    let (file, silent) = (large(), large_and_silent());
    let [mut play, mut no_tick, mut second] = [(); 3].map(|()| Run::new(&file, TEMPO));
    let (mut fast, mut slow) = (Run::new(&silent, FAST), Run::new(&silent, SLOW));
    let took = medians(&mut [
        ("", &mut || play.proved()),
        ("", &mut || {
            for _ in 0..CALLS {
                let _ = black_box(lampthistle::judge(black_box(&file)));
            }
        }),
        ("", &mut || no_tick.no_tick()),
        ("", &mut || fast.proved()),
        ("", &mut || slow.proved()),
        ("", &mut || second.second()),
    ]);
    assert!(play.out == second.out, "both play the same");
    let [play, judge, no_tick, fast, slow, second] =
        std::array::from_fn(|k| took[k] / f64::from(CALLS) / 1e3);
    Times {
        play,
        judge,
        no_tick,
        fast,
        slow,
        second,
    }
}

pub fn print() {
    let took = measure();
    let frames = |tempo: u32| f64::from(lampthistle::tick_frames(tempo, 0) as u32);
    let silence = (took.slow - took.fast) / (frames(SLOW) - frames(FAST));
    let legality = took.no_tick - took.judge;
    let sequencing = took.fast - frames(FAST) * silence - took.no_tick;
    let mixing = took.play - took.no_tick - sequencing;
    say(
        "one tick a call, 960 frames, on a module of 64 patterns: us a call, and the share of play",
    );
    say("| | us a call | % |");
    say("|---|---|---|");
    for (name, us) in [
        ("proved, play of one tick", took.play),
        ("judging: judge alone", took.judge),
        ("legality: play of no tick, less judging", legality),
        (
            "sequencing: a silent tick, less both and its frames",
            sequencing,
        ),
        ("mixing: the rest", mixing),
    ] {
        let share = 100.0 * us / took.play;
        say(&format!("| {name} | {us:.3} | {share:.1} |"));
    }
    say(&format!(
        "| second implementation, play | {:.3} | |",
        took.second
    ));
}
