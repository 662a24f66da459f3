//! store: writes the stored files and expected outputs of the programs that the gate runs, from the second implementation.
use std::path::Path;
use trials::cases::{judge_cases, judge_lines, Case};
use trials::play_cases::{play_cases, play_lines};

fn main() -> std::io::Result<()> {
    store("judge_cases", &judge_cases(), &judge_lines())?;
    store("play_cases", &play_cases(), &play_lines())
}

/// A program's folder: a file a case, their names in order, and what the program prints.
fn store(program: &str, cases: &[Case], lines: &str) -> std::io::Result<()> {
    let crates = Path::new(env!("CARGO_MANIFEST_DIR")).join("../../crates");
    let folder = crates.join(program);
    std::fs::create_dir_all(folder.join("data"))?;
    for (name, file) in cases {
        std::fs::write(folder.join("data").join(name), file)?;
    }
    let names: String = cases.iter().map(|(name, _)| format!("{name}\n")).collect();
    std::fs::write(folder.join("args"), names)?;
    std::fs::write(folder.join("stdout"), lines)
}
