//! Lines to standard output, as a pipe's reader takes them.
use std::io::{self, Write};
use std::process::exit;

/// Prints a line. A reader that goes away, as head does, ends the program, as does output that cannot be written.
pub fn say(line: &str) {
    if let Err(e) = writeln!(io::stdout(), "{line}") {
        if e.kind() != io::ErrorKind::BrokenPipe {
            eprintln!("standard output: {e}");
        }
        exit(2);
    }
}
