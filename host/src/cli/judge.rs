//! judge FILE..: a line a file.
use super::input::{self, Source};
use super::json::{self, Value};
use super::name::{Name, FILE};
use super::notes::notes;
use super::output::say;
use super::report;
use super::stop::Stop;
use super::words::Words;
use super::Command;

pub const COMMAND: Command = Command {
    name: "judge",
    options: &[],
    flags: &["--notes"],
    help: "\
lampthistle judge [--notes] [--plain | --json] FILE..

Says whether each file is a module that can be played: a line a file, accepted, or the refusal's number, place and meaning, and what
stands there.
--notes adds a line for each effect that an accepted module asks for and that does nothing here, or that other players do otherwise, F00
and two of E6 in one row: in how many cells of the played patterns, and where first.
--plain prints NUMBER PLACE COUNT NAME instead, and - - - NAME for a file that cannot be read; a note is
note EFFECT CELLS PATTERN ROW CHANNEL NAME.
--json prints an object a file.

Examples:
  lampthistle judge song.mod
  song.mod: refused 9 at 1484: a cell's period is neither 0 nor 113 to 856 (pattern 0, row 25, channel 1, period 857)
  lampthistle judge --notes other.mod
  other.mod: accepted
  other.mod: effect ED (note delay) does nothing: 3 cells, first in pattern 0, row 16, channel 2

Exit status: 0 all accepted; 1 one refused; 2 wrong use, or a file that cannot be read.
",
    run,
};

fn run(words: &Words) -> Result<bool, Stop> {
    if words.files.is_empty() {
        return Err(Stop::Usage("no FILE".into()));
    }
    input::check_once(&words.files)?;
    let (mut all, mut read) = (true, true);
    for name in &words.files {
        let text = match input::module(name) {
            Ok(source) => match source.judge() {
                Err(Stop::Refused(refusal)) => {
                    all = false;
                    named(words, report::refusal_line(words, &refusal), &source.name)
                }
                judged => judged.map(|_| accepted(words, &source))?,
            },
            // The other files are judged all the same.
            Err(stop) => {
                stop.tell();
                read = false;
                unread(words, &Name::of(name), &stop)
            }
        };
        say(&text)?;
    }
    if read {
        Ok(all)
    } else {
        Err(Stop::Told)
    }
}

/// Bare lines end in the file's name: there may be many files.
fn named(words: &Words, line: String, name: &str) -> String {
    if words.plain {
        format!("{} {name}\n", line.trim_end())
    } else {
        line
    }
}

/// The lines of an accepted file.
fn accepted(words: &Words, source: &Source) -> String {
    let name = &source.name;
    let notes = if words.has("--notes") {
        notes(&source.bytes)
    } else {
        Vec::new()
    };
    if words.json {
        let mut fields = report::accepted(name);
        if words.has("--notes") {
            let notes = notes.iter().map(|note| note.fields());
            fields.push(("notes", Value::list(notes)));
        }
        return json::object(fields);
    }
    let first = if words.plain {
        format!("0 0 0 {name}\n")
    } else {
        format!("{name}: accepted\n")
    };
    let lines = notes.iter().map(|note| {
        if words.plain {
            format!("{} {name}\n", note.plain())
        } else {
            format!("{name}: {}\n", note.line())
        }
    });
    first + &lines.collect::<String>()
}

/// The line of a file that cannot be read, where scripts count on one.
fn unread(words: &Words, name: &Name, stop: &Stop) -> String {
    if words.json {
        let mut fields = name.fields(FILE);
        fields.push(("error", stop.reason().into()));
        json::object(fields)
    } else if words.plain {
        format!("- - - {name}\n")
    } else {
        String::new()
    }
}
