//! Runs of many seeds: on all cores, with a tally of the answers met, and the first difference of each core named by its seed.

/// The numbers that an answer may have: 0 to 36.
const ANSWERS: usize = 37;

/// How many answers had each number, by number; 0 is accepted.
pub type Tally = [u64; ANSWERS];

/// Tries `count` seeds from `first` on. `one` adds the answers that it met to the tally, or says what differs.
pub fn over(
    first: u64,
    count: u64,
    one: impl Fn(u64, &mut Tally) -> Result<(), String> + Sync,
) -> Result<Tally, String> {
    let threads = std::thread::available_parallelism().map_or(1, |n| n.get() as u64);
    let one = &one;
    let parts: Vec<Result<Tally, String>> = std::thread::scope(|scope| {
        let runs: Vec<_> = (0..threads)
            .map(|t| scope.spawn(move || part(first, (t..count).step_by(threads as usize), one)))
            .collect();
        runs.into_iter()
            .map(|run| {
                run.join()
                    .unwrap_or_else(|_| Err("a comparing thread panicked".into()))
            })
            .collect()
    });
    let mut sum = [0; ANSWERS];
    for tally in parts {
        for (s, t) in sum.iter_mut().zip(tally?) {
            *s += t;
        }
    }
    Ok(sum)
}

fn part(
    first: u64,
    steps: impl Iterator<Item = u64>,
    one: &impl Fn(u64, &mut Tally) -> Result<(), String>,
) -> Result<Tally, String> {
    let mut tally = [0; ANSWERS];
    for step in steps {
        let seed = first.wrapping_add(step);
        one(seed, &mut tally).map_err(|what| format!("seed {seed}: {what}"))?;
    }
    Ok(tally)
}

/// The numbers met, as `number: times`.
pub fn shown(tally: &Tally) -> String {
    tally
        .iter()
        .enumerate()
        .filter(|(_, &times)| times > 0)
        .map(|(number, times)| format!("{number}: {times}"))
        .collect::<Vec<_>>()
        .join(", ")
}
