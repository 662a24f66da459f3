//! What the gate's programs are run on and held to is what the generators and the second implementation give now.
use std::path::Path;
use trials::cases::{judge_cases, judge_lines, Case};
use trials::play_cases::{play_cases, play_lines};

fn stored(program: &str, cases: &[Case], lines: &str) {
    let crates = Path::new(env!("CARGO_MANIFEST_DIR")).join("../../crates");
    let folder = crates.join(program);
    for (name, file) in cases {
        assert!(
            std::fs::read(folder.join("data").join(name)).unwrap() == *file,
            "{name}"
        );
    }
    let names: Vec<&str> = cases.iter().map(|(name, _)| *name).collect();
    let args = std::fs::read_to_string(folder.join("args")).unwrap();
    assert_eq!(args.lines().collect::<Vec<_>>(), names);
    assert_eq!(
        std::fs::read_to_string(folder.join("stdout")).unwrap(),
        lines
    );
}

#[test]
fn judge_cases_are_as_generated() {
    stored("judge_cases", &judge_cases(), &judge_lines());
}

#[test]
fn play_cases_are_as_generated() {
    stored("play_cases", &play_cases(), &play_lines());
    for (name, file) in play_cases() {
        assert!(file.len() < 16_384, "{name}: {} bytes", file.len());
    }
}
