//! Lines of text, and files written at once.
use super::input::{shown, Source};
use super::stop::Stop;
use super::target::Target;
use super::words::Words;
use lampthistle::RATE;
use std::ffi::OsStr;
use std::io::{self, IsTerminal, Write};

/// Text to standard output, at once.
pub fn say(text: &str) -> Result<(), Stop> {
    let mut out = io::stdout().lock();
    out.write_all(text.as_bytes())
        .and_then(|()| out.flush())
        .map_err(|e| Stop::Io("standard output".into(), e))
}

/// Text about a command's work: to standard error where the result itself goes to standard output.
pub fn tell(words: &Words, text: &str) -> Result<(), Stop> {
    if !words.result_to_stdout() {
        return say(text);
    }
    io::stderr()
        .write_all(text.as_bytes())
        .map_err(|e| Stop::Io("standard error".into(), e))
}

/// Stops where bytes that are no text would go to a terminal.
pub fn check_terminal(out: &OsStr) -> Result<(), Stop> {
    if out == "-" && io::stdout().is_terminal() {
        return Err(Stop::Usage(
            "--out -: standard output is a terminal; name a file, or pipe it to a program".into(),
        ));
    }
    Ok(())
}

/// A count with its unit: 1 tick, 2 ticks, 2 touches.
pub fn counted(count: u64, unit: &str) -> String {
    let many = match count {
        1 => "",
        _ if unit.ends_with("ch") => "es",
        _ => "s",
    };
    format!("{count} {unit}{many}")
}

/// What was played, for a person.
pub fn played(name: &str, ticks: u64, frames: u64) -> String {
    let (ticks, seconds) = (counted(ticks, "tick"), seconds(frames));
    let frames = counted(frames, "frame");
    format!("{name}: played {ticks}, {frames}, {seconds}\n")
}

/// How long so many frames sound.
pub fn seconds(frames: u64) -> String {
    format!("{:.3} seconds", frames as f64 / f64::from(RATE))
}

/// Writes bytes to a file, whole.
pub fn write_bytes(name: &OsStr, sources: &[&Source], bytes: &[u8]) -> Result<(), Stop> {
    let mut target = Target::create(name, sources)?;
    let done = target.write_all(bytes);
    done.map_err(|e| Stop::Io(shown(name), e))?;
    target.finish()
}
