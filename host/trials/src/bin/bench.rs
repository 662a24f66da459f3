//! bench [PART]: the benchmarks, or one part of them: judging, mixing, shares, ticks, streaming, feeding or floats.
use std::process::ExitCode;

fn main() -> ExitCode {
    let part = std::env::args().nth(1);
    if trials::bench::table(part.as_deref()) {
        return ExitCode::SUCCESS;
    }
    eprintln!("usage: bench [judging|mixing|shares|ticks|streaming|feeding|floats]");
    ExitCode::from(2)
}
