//! The commands, and how the program ends: 0 accepted; 1 refused or different; 2 wrong use, or a file that cannot be read or written.
mod board;
mod checksum;
mod compare;
mod compared;
mod course;
mod drawing;
mod info;
mod input;
mod json;
mod judge;
mod layout;
mod length;
mod lines;
mod marks;
mod name;
mod notes;
mod number;
mod offset;
mod output;
mod page;
mod picture;
mod place;
mod play;
mod player;
mod progress;
mod recording;
mod recordings;
mod records;
mod replay;
mod report;
mod scene;
mod script;
mod song;
mod sound;
mod state;
mod stop;
mod stream;
mod tally;
mod target;
mod trace;
mod trial;
mod waves;
mod why;
mod words;

use std::ffi::{OsStr, OsString};
use std::process::ExitCode;
use stop::Stop;
use words::Words;

/// One command: its options with and without a value, its help, and its work, which says whether all was accepted.
struct Command {
    name: &'static str,
    options: &'static [&'static str],
    flags: &'static [&'static str],
    help: &'static str,
    run: fn(&Words) -> Result<bool, Stop>,
}

const COMMANDS: [&Command; 10] = [
    &judge::COMMAND,
    &info::COMMAND,
    &play::COMMAND,
    &stream::TRANSLATE,
    &stream::BOARD,
    &trace::COMMAND,
    &why::COMMAND,
    &replay::COMMAND,
    &compare::COMMAND,
    &picture::COMMAND,
];

const HELP: &str = "\
lampthistle: plays ProTracker modules of four, six or eight channels (M.K., 4CHN, 6CHN, 8CHN) with the proved library

  lampthistle judge FILE..                         whether each file is a module that can be played
  lampthistle info FILE                            title, channels, patterns, samples, and how long it plays
  lampthistle play FILE --out OUT                  renders the module to OUT (.wav, .raw or -)
  lampthistle translate FILE --ticks N --out OUT   writes the tick stream of the first N ticks
  lampthistle board STREAM FILE --out OUT          plays a tick stream with the module's samples, also while it arrives
  lampthistle trace FILE                           a line a tick of a module or a stream
  lampthistle why FILE                             why each channel is quiet, or that it sounds
  lampthistle replay FILE SCRIPT                   runs a trial again, records it, or checks its record
  lampthistle compare FILE [STREAM | SOUND]        the player against the board, a stream or a recording; or two recordings
  lampthistle picture FILE --out OUT               the song, or a trial of it, drawn along time (.svg, .html)
  lampthistle help COMMAND                         more on a command, with an example
  lampthistle --version

A file named - is standard input. --plain prints bare numbers: NUMBER PLACE COUNT, with number 0 for accepted; --json prints an object a
line (docs/FORMATS.md). -o is --out, and --out=OUT is --out OUT.

Example:
  lampthistle play song.mod --once --out song.wav

Exit status: 0 accepted; 1 refused or different; 2 wrong use, or a file that cannot be read or written.
";

/// Runs the command that the words name.
pub fn run(words: &[OsString]) -> ExitCode {
    match dispatch(words) {
        Ok(true) => ExitCode::SUCCESS,
        Ok(false) => ExitCode::from(1),
        Err(stop) => {
            stop.tell();
            ExitCode::from(stop.status())
        }
    }
}

fn dispatch(words: &[OsString]) -> Result<bool, Stop> {
    let Some(first) = words.first() else {
        return Err(Stop::Usage("no command\nTry: lampthistle --help".into()));
    };
    match first.to_str() {
        Some("help") if words.len() > 1 => {
            check_end(words, 2)?;
            run_command(named(&words[1])?, &["--help".into()])
        }
        Some("--help" | "-h" | "help") => {
            check_end(words, 1)?;
            output::say(HELP).map(|()| true)
        }
        Some("--version" | "-V") => {
            check_end(words, 1)?;
            output::say(&format!("lampthistle {}\n", lampthistle::RELEASE)).map(|()| true)
        }
        _ => run_command(named(first)?, &words[1..]),
    }
}

/// Stops where more words are given than so many.
fn check_end(words: &[OsString], most: usize) -> Result<(), Stop> {
    let Some(extra) = words.get(most) else {
        return Ok(());
    };
    let (first, extra) = (input::quoted(&words[0]), input::quoted(extra));
    Err(Stop::Usage(format!(
        "{first}: one word too many: {extra}\nTry: lampthistle --help"
    )))
}

/// The command of this name.
fn named(name: &OsStr) -> Result<&'static Command, Stop> {
    let command = COMMANDS.into_iter().find(|command| name == command.name);
    command.ok_or_else(|| {
        Stop::Usage(format!(
            "no such command: {}\nTry: lampthistle --help",
            input::quoted(name)
        ))
    })
}

fn run_command(command: &Command, words: &[OsString]) -> Result<bool, Stop> {
    let asked = Words::parse(words, command).and_then(|words| {
        if words.help {
            return output::say(command.help).map(|()| true);
        }
        match (command.run)(&words) {
            Err(Stop::Refused(refusal)) => report::refused(&words, &refusal).map(|()| false),
            done => done,
        }
    });
    asked.map_err(|stop| match stop {
        Stop::Usage(what) => Stop::Usage(format!(
            "{0}: {what}\nTry: lampthistle {0} --help",
            command.name
        )),
        other => other,
    })
}
