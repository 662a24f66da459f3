//! damaged FOLDER: writes inputs for the memory checker: k.mod, k.state (a state's cells, four bytes each, low byte first) and k.stream; most of
//! them damaged.
use second::generate::damage::any_file;
use second::generate::finetunes::finetuned;
use second::generate::modules::{module, Size};
use second::generate::states::{illegal_state, legal_state};
use second::generate::streams::{bad_stream, damaged_stream, legal_stream};
use second::generate::Random;
use std::path::Path;
use std::process::ExitCode;

const INPUTS: u64 = 400;

fn main() -> ExitCode {
    let mut words = std::env::args_os().skip(1);
    let (Some(folder), None) = (words.next(), words.next()) else {
        eprintln!("usage: damaged FOLDER");
        return ExitCode::from(2);
    };
    match write(Path::new(&folder)) {
        Ok(()) => ExitCode::SUCCESS,
        Err(e) => {
            eprintln!("{}: {e}", folder.to_string_lossy());
            ExitCode::from(2)
        }
    }
}

fn write(folder: &Path) -> std::io::Result<()> {
    std::fs::create_dir_all(folder)?;
    for seed in 0..INPUTS {
        let good = match seed % 7 {
            0 => finetuned(seed),
            _ => module(seed, Size::Small),
        };
        let file = if seed % 3 == 0 {
            any_file(seed)
        } else {
            good.clone()
        };
        let state = match seed % 5 {
            0 => second::fresh(),
            1 | 2 => illegal_state(seed, &good),
            _ => legal_state(seed, &good),
        };
        let state: Vec<u8> = state.iter().flat_map(|cell| cell.to_le_bytes()).collect();
        std::fs::write(folder.join(format!("{seed}.mod")), file)?;
        std::fs::write(folder.join(format!("{seed}.state")), state)?;
        std::fs::write(folder.join(format!("{seed}.stream")), stream(seed, &good))?;
    }
    Ok(())
}

fn stream(seed: u64, file: &[u8]) -> Vec<u8> {
    let mut random = Random::new(seed);
    match seed % 4 {
        0 => legal_stream(seed, file),
        1 => bad_stream(seed, file).bytes,
        2 => damaged_stream(seed, &legal_stream(seed, file)),
        _ => (0..random.below(40)).map(|_| random.byte()).collect(),
    }
}
