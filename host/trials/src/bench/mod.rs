//! The benchmarks, each a part of one table: medians of 101 runs.
mod feeding;
mod floats;
mod judging;
mod loops;
mod mixing;
mod modules;
mod shares;
mod streaming;
mod ticks;

const PARTS: [(&str, fn()); 7] = [
    ("judging", judging::print),
    ("mixing", mixing::print),
    ("shares", shares::print),
    ("ticks", ticks::print),
    ("streaming", streaming::print),
    ("feeding", feeding::print),
    ("floats", floats::print),
];

/// Prints the whole table, or the one part that is named; whether there is such a part.
pub fn table(part: Option<&str>) -> bool {
    let named = |name: &str| part.is_none() || part == Some(name);
    let mut parts = PARTS.iter().filter(|(name, _)| named(name)).peekable();
    let any = parts.peek().is_some();
    parts.for_each(|(_, print)| print());
    any
}
