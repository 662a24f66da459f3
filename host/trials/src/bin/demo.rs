//! `demo FILE [WAVES [EIGHT [TUNED]]]`: writes the demo module, a second one with vibrato and tremolo, a third one of eight channels, and a fourth
//! one with finetunes.
use std::ffi::OsString;
use std::process::ExitCode;

fn main() -> ExitCode {
    let names: Vec<OsString> = std::env::args_os().skip(1).collect();
    if !(1..=4).contains(&names.len()) {
        eprintln!("usage: demo FILE [WAVES [EIGHT [TUNED]]]");
        return ExitCode::from(2);
    }
    let modules = [
        trials::demo::module(),
        trials::demo::waves::module(),
        trials::demo::eight::module(),
        trials::demo::tuned::module(),
    ];
    for (name, module) in names.iter().zip(modules) {
        if let Err(e) = std::fs::write(name, module) {
            eprintln!("{}: {e}", name.to_string_lossy());
            return ExitCode::from(2);
        }
    }
    ExitCode::SUCCESS
}
