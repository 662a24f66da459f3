//! Why a command ends before its work is done, and the exit status that this gives.
use super::json::Fields;
use super::name::Name;
use lampthistle::Answer;
use std::io::{self, Write};

pub enum Stop {
    Usage(String),
    /// A name, and what the system says of it.
    Io(String, io::Error),
    Cannot(String),
    /// The reason is on standard error already.
    Told,
    Refused(Refusal),
}

/// A file that the library refuses.
pub struct Refusal {
    pub name: Name,
    pub answer: Answer,
    /// What it means for the command.
    pub meaning: &'static str,
    /// The place in words, and what stands there.
    pub found: Fields,
}

impl Refusal {
    pub fn line(&self) -> String {
        let (name, meaning) = (&self.name, self.meaning);
        let Answer { number, place, .. } = self.answer;
        format!("{name}: refused {number} at {place}: {meaning}")
    }
}

impl Stop {
    /// 1 for a refusal; 2 for wrong use, and for a file that cannot be read or written.
    pub fn status(&self) -> u8 {
        match self {
            Stop::Refused(_) => 1,
            _ => 2,
        }
    }

    /// Says on standard error why; a closed pipe is the reader's choice, and nothing to report.
    pub fn tell(&self) {
        let text = match self {
            Stop::Told => return,
            Stop::Io(_, e) if e.kind() == io::ErrorKind::BrokenPipe => return,
            Stop::Io(name, _) => format!("{name}: {}", self.reason()),
            _ => self.reason(),
        };
        // Nothing more can be done if standard error is closed, too.
        let _ = writeln!(io::stderr(), "lampthistle: {text}");
    }

    /// Why, in words.
    pub fn reason(&self) -> String {
        match self {
            Stop::Usage(what) | Stop::Cannot(what) => what.clone(),
            Stop::Io(_, e) => cause(e),
            Stop::Refused(refusal) => refusal.line(),
            Stop::Told => String::new(),
        }
    }
}

/// What the system says, without the number that Rust adds.
fn cause(e: &io::Error) -> String {
    let text = e.to_string();
    match text.rfind(" (os error ") {
        Some(end) => text[..end].into(),
        None => text,
    }
}
