//! `compare COUNT [SEED]`: the proved library against the second implementation, and the player against the board, on generated inputs
//! from a seed on: COUNT files to judge, COUNT / 1,000 modules for long runs, and COUNT / 100 for each of the others.
use std::process::ExitCode;
use std::time::Instant;
use trials::runs::{shown, Tally};
use trials::say::say;
use trials::{agreement, arriving, bursts, floats, judging, lengths, playing, quiet, streaming};

/// A trial's name, its run over so many seeds from one on, and by how much fewer of them it takes.
type Trial = (&'static str, fn(u64, u64) -> Result<Tally, String>, u64);

const TRIALS: [Trial; 11] = [
    ("judge", judging::compare, 1),
    ("play, touch, page", playing::compare, 100),
    ("touch_burst", bursts::compare, 100),
    ("why_quiet", quiet::compare, 100),
    ("translate, play_stream", streaming::compare, 100),
    ("lengths of long runs", lengths::compare, 1_000),
    ("player and board", agreement::compare, 100),
    ("play_floats, play_stream_floats", floats::compare, 100),
    ("player and board as floats", floats::boards::compare, 100),
    ("boards fed", arriving::compare, 100),
    ("boards forged", arriving::compare_forged, 100),
];

fn main() -> ExitCode {
    let numbers: Option<Vec<u64>> = std::env::args().skip(1).map(|w| w.parse().ok()).collect();
    let (count, seed) = match numbers.as_deref() {
        Some([count]) => (*count, 0),
        Some([count, seed]) => (*count, *seed),
        _ => {
            eprintln!("usage: compare COUNT [SEED]");
            return ExitCode::from(2);
        }
    };
    let mut status = ExitCode::SUCCESS;
    for (name, run, share) in TRIALS {
        let seeds = count.div_ceil(share);
        let began = Instant::now();
        match run(seed, seeds) {
            Ok(tally) => {
                let took = began.elapsed().as_secs_f64();
                let numbers = shown(&tally);
                say(&format!(
                    "{name}: {seeds} seeds, equal, {took:.1} s; answers by number: {numbers}"
                ));
            }
            Err(what) => {
                say(&format!("{name}: DIFFERENT: {what}"));
                status = ExitCode::FAILURE;
            }
        }
    }
    status
}
