//! Medians of 101 runs.
use crate::say::say;
use std::time::Instant;

pub const RUNS: usize = 101;

/// The median time of one call of each work, in nanoseconds. The works take turns, so that a slow moment meets them all; each run
/// repeats its work so often that a run takes about 100 microseconds or one call.
pub fn medians(works: &mut [(&str, &mut dyn FnMut())]) -> Vec<f64> {
    let repeats: Vec<u32> = works.iter_mut().map(|(_, work)| repeats_of(work)).collect();
    let mut times = vec![Vec::with_capacity(RUNS); works.len()];
    for _ in 0..RUNS {
        for (k, (_, work)) in works.iter_mut().enumerate() {
            let began = Instant::now();
            for _ in 0..repeats[k] {
                work();
            }
            times[k].push(began.elapsed().as_secs_f64() * 1e9 / f64::from(repeats[k]));
        }
    }
    times
        .into_iter()
        .map(|mut t| {
            t.sort_by(f64::total_cmp);
            t[RUNS / 2]
        })
        .collect()
}

fn repeats_of(work: &mut dyn FnMut()) -> u32 {
    work();
    let began = Instant::now();
    work();
    let once = began.elapsed().as_secs_f64();
    (1e-4 / once.max(1e-9)).clamp(1.0, 1e6) as u32
}

/// A line for each work: its median, by the unit of which one call does `units`.
pub fn print_medians(unit: &str, units: f64, works: &mut [(&str, &mut dyn FnMut())]) {
    let took = medians(works);
    for ((name, _), ns) in works.iter().zip(took) {
        say(&format!(
            "  {name:<34} {:>12.3} us a call {:>10.3} ns a {unit}",
            ns / 1e3,
            ns / units
        ));
    }
}
