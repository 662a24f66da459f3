//! replay FILE SCRIPT: runs a trial again, records it, or checks its record.
use super::input::{self, Source};
use super::json::{self, Fields, Value};
use super::name::{Name, FILE};
use super::number::Kind;
use super::output::{self, counted, write_bytes};
use super::report::{self, plain_accepted};
use super::script::{self, Call, Differs, Results, Script};
use super::song::TICK_FRAMES;
use super::sound::{self, check_room, Sound};
use super::state;
use super::stop::Stop;
use super::target;
use super::trial::Trial;
use super::words::Words;
use super::{why, Command};
use lampthistle::{Answer, Cause, State};
use std::ffi::OsStr;

pub const COMMAND: Command = Command {
    name: "replay",
    options: &["--out", "--record", "--from", "--save"],
    flags: &["--check"],
    help: "\
lampthistle replay FILE SCRIPT [--from STATE] [--out OUT] [--record RECORD] [--save STATE] [--plain | --json]
lampthistle replay FILE RECORD --check [--out OUT] [--plain | --json]

Runs a trial again, from a fresh state, a record from the state that it names. A line of SCRIPT is one call:
  play N                     plays N ticks
  touch PAGE MADE POSITION   a touch made on PAGE at clock MADE for a song position
  burst PAGE MADE POSITION [PAGE MADE POSITION ..]
                             touches that are handed over at once, 64 at most
  page                       a page change
  why                        why each channel is quiet, as why says it
# begins a comment. Prints each call's answer, and the clock, page and place after it; the frames go to OUT, as in play. A refused touch
changes nothing, and the trial goes on: a trial that ran ends with 0.
--from begins from the state that a file holds, --save writes the one after the last call: a line of text (docs/FORMATS.md). No output may
be another output or a file that is read.
--record writes the script again to RECORD, with the module's checksum, and for each call its answer, the clock and a checksum of the
frames so far; its last line says how many calls it has, with a checksum of the record (docs/FORMATS.md). A record is a script, too.
--check plays a record, and says that every answer and checksum came again, or which line differs first and how. A record that was cut or
changed after it was written does not hold; nor does one of version 1, as programs before 0.7.0 wrote it, which does not say where it ends.
--plain prints NUMBER PLACE COUNT CLOCK PAGE POSITION ROW TICK a call, and after them each touch's answer, of burst, or each channel's
cause, of why; with --check NUMBER PLACE COUNT, the count in calls. --json prints an object a call; with --check one.

Examples:
  lampthistle replay song.mod trial.txt --record trial.record
  lampthistle replay song.mod trial.record --check
  trial.record: 13 calls, 214 ticks: every answer and checksum came again

Exit status: 0 it ran, and with --check came again; 1 the module is refused, or the record differs; 2 wrong use, a bad line, or a file
that cannot be read or written.
",
    run,
};

/// Where results go.
const OUTPUTS: [&str; 3] = ["--out", "--record", "--save"];

fn run(words: &Words) -> Result<bool, Stop> {
    check_outputs(words)?;
    let (source, text, from) = read(words)?;
    let lines = String::from_utf8_lossy(&text.bytes);
    let script = script::parse(&text.name, &lines)?;
    let _ = source.judge()?;
    let mut sources = vec![&source, &text];
    sources.extend(&from);
    for name in OUTPUTS.into_iter().filter_map(|option| words.value(option)) {
        target::check_unread(name, &sources)?;
    }
    if words.has("--check") {
        if let Some(differs) = other_record(&source, &script, &text)? {
            return checked(words, &text.name, &script, Some(differs));
        }
    }
    let state = from.as_ref().map_or(Ok(script.state()), state::parse)?;
    state::check_legal(&source, from.as_ref().unwrap_or(&text), state)?;
    let sound = words.value("--out");
    let sound = sound.map(|name| open(name, &sources, &script, state));
    let mut trial = Trial::new(&source.bytes, state, sound.transpose()?);
    if words.has("--check") {
        let differs = check(&mut trial, &script, &text)?;
        if differs.is_none() {
            trial.finish()?;
        }
        return checked(words, &text.name, &script, differs);
    }
    let recorded = replay(words, &mut trial, &source, &script)?;
    let saved = state::line(trial.state());
    trial.finish()?;
    for (option, text) in [("--record", recorded), ("--save", saved)] {
        if let Some(name) = words.value(option) {
            write_bytes(name, &sources, text.as_bytes())?;
        }
    }
    Ok(true)
}

/// Reads the module, the script and the state from which it begins, if one is named.
fn read(words: &Words) -> Result<(Source, Source, Option<Source>), Stop> {
    let [file, script] = words.files(["FILE", "SCRIPT"])?;
    let Some(from) = words.value("--from") else {
        let [source, text] = input::read_all([file, script])?;
        return Ok((source, text, None));
    };
    let [source, text, from] = input::read_all([file, script, from])?;
    Ok((source, text, Some(from)))
}

/// Opens the sound file; the first of what was read is the module.
fn open(name: &OsStr, sources: &[&Source], script: &Script, state: State) -> Result<Sound, Stop> {
    check_room(name, Kind::Whole, most(script), |room| {
        frames_of(sources[0], script, state, room)
    })?;
    Sound::create(name, Kind::Whole, sources)
}

/// Stops where the outputs cannot be what is asked for, before anything is read.
fn check_outputs(words: &Words) -> Result<(), Stop> {
    words.value("--out").map(sound::format).transpose()?;
    let wrong = |what: String| Err(Stop::Usage(what));
    for option in ["--record", "--from", "--save"] {
        if words.has("--check") && words.value(option).is_some() {
            return wrong(format!("--check and {option} exclude each other"));
        }
    }
    let outputs = OUTPUTS.map(|option| (option, words.value(option)));
    for (k, (first, one)) in outputs.into_iter().enumerate() {
        for (second, other) in outputs.into_iter().skip(k + 1) {
            match (one, other) {
                (Some(one), Some(other)) if one == "-" && other == "-" => {
                    return wrong(format!("{first} and {second} are both -"));
                }
                (Some(one), Some(other)) if target::are_one(one, other) => {
                    return wrong(format!("{first} and {second} are one file"));
                }
                _ => {}
            }
        }
    }
    Ok(())
}

/// The frames at most of all calls.
fn most(script: &Script) -> u64 {
    ticks(script) * TICK_FRAMES as u64
}

fn ticks(script: &Script) -> u64 {
    let ticks = script.calls().map(|call| match call {
        Call::Play(ticks) => u64::from(*ticks),
        _ => 0,
    });
    ticks.sum()
}

/// The frames of all calls, counted until they are more than `limit`.
fn frames_of(source: &Source, script: &Script, state: State, limit: u64) -> Result<u64, Stop> {
    let mut trial = Trial::silent(&source.bytes, state, limit);
    for call in script.calls() {
        trial.call(call)?;
    }
    Ok(trial.frames())
}

/// Runs all calls and tells of each; gives the record.
fn replay(
    words: &Words,
    trial: &mut Trial,
    source: &Source,
    script: &Script,
) -> Result<String, Stop> {
    let mut recorded = script::header(&source.bytes, trial.state());
    for line in &script.lines {
        let results = match &line.call {
            Some((call, _)) => {
                let results = trial.call(call)?;
                let text = told(words, &source.name, call, &results, trial.state());
                output::tell(words, &text)?;
                Some(results)
            }
            None => None,
        };
        recorded += &line.recorded(results.as_ref());
    }
    let end = script::end(script.call_count(), &recorded);
    Ok(recorded + &end)
}

/// How a record is not as it was written, or of another module.
fn other_record(source: &Source, script: &Script, text: &Source) -> Result<Option<Differs>, Stop> {
    let not = |what: &str| Stop::Cannot(format!("{}: not a record: {what}", text.name));
    let Some((number, recorded)) = script.module else {
        return Err(not("it names no module"));
    };
    if !script.is_record() {
        return Err(not("it names no state"));
    }
    if let Some(differs) = script.changed(&text.bytes) {
        return Ok(Some(differs));
    }
    let own = script::module_sum(&source.bytes);
    Ok((own != recorded).then(|| (number, format!("module {own}, recorded {recorded}"))))
}

/// Runs a record's calls; the first line that differs.
fn check(trial: &mut Trial, script: &Script, text: &Source) -> Result<Option<Differs>, Stop> {
    for line in &script.lines {
        let Some((call, recorded)) = &line.call else {
            continue;
        };
        let number = line.number;
        let Some(recorded) = recorded else {
            let name = &text.name;
            return Err(Stop::Cannot(format!(
                "{name}:{number}: {call}: has no results"
            )));
        };
        let results = trial.call(call)?;
        if let Some(what) = results.difference(call, recorded) {
            return Ok(Some((number, format!("{call}: {what}"))));
        }
    }
    Ok(script.endless())
}

/// Tells whether a record came again, and gives it.
fn checked(
    words: &Words,
    name: &Name,
    script: &Script,
    differs: Option<Differs>,
) -> Result<bool, Stop> {
    let (calls, ticks) = (script.call_count(), ticks(script));
    let again = differs.is_none();
    let text = match differs {
        differs if words.json => {
            let (line, how) = differs.unzip();
            let mut fields = name.fields(FILE);
            fields.extend([
                ("came_again", again.into()),
                ("calls", calls.into()),
                ("ticks", ticks.into()),
                ("line", line.into()),
                ("difference", how.into()),
            ]);
            json::object(fields)
        }
        Some((line, how)) => {
            Stop::Cannot(format!("{name}:{line}: {how}")).tell();
            return Ok(false);
        }
        None if words.plain => plain_accepted(calls),
        None => {
            let (calls, ticks) = (counted(calls, "call"), counted(ticks, "tick"));
            format!("{name}: {calls}, {ticks}: every answer and checksum came again\n")
        }
    };
    output::tell(words, &text).map(|()| again)
}

/// A call's line, and below it a line for each that it counts.
fn told(words: &Words, file: &Name, call: &Call, results: &Results, state: &State) -> String {
    if words.json {
        return json::object(fields(file, call, results, state));
    }
    let answer = &results.answer;
    let (clock, page) = (state.clock(), state.page());
    let (position, row, tick) = (state.position(), state.row(), state.tick());
    if words.plain {
        let bare = report::plain(answer);
        let bare = bare.trim_end();
        let each: String = results.each.iter().map(|n| format!(" {n}")).collect();
        return format!("{bare} {clock} {page} {position} {row} {tick}{each}\n");
    }
    let unit = match call {
        Call::Play(_) => Some("tick"),
        Call::Burst(_) => Some("touch"),
        _ => None,
    };
    let unit = unit.filter(|_| answer.is_accepted());
    let count = unit.map_or_else(String::new, |unit| {
        format!(", {}", counted(answer.count, unit))
    });
    let line = format!(
        "{call}: {answer}{count}; clock {clock}, page {page}, position {position}, row {row}, tick {tick}\n"
    );
    line + &below(call, results)
}

/// A line for each that a call counts.
fn below(call: &Call, results: &Results) -> String {
    let each = results.each.iter().enumerate();
    let lines = each.filter_map(|(k, &number)| match call {
        Call::Burst(touches) => Some(format!("touch {}: {}", touches[k], answered(number))),
        Call::Why => Cause::of(number).map(|cause| why::said(k as u32 + 1, cause)),
        _ => None,
    });
    lines.map(|line| format!("  {line}\n")).collect()
}

/// A touch's answer in a burst.
fn answered(number: u64) -> Answer {
    Answer {
        number,
        place: 0,
        count: 0,
    }
}

fn fields(file: &Name, call: &Call, results: &Results, state: &State) -> Fields {
    let mut fields = report::answered(file, &results.answer);
    fields.extend([
        ("count", results.answer.count.into()),
        ("call", call.to_string().into()),
        ("clock", state.clock().into()),
        ("page", state.page().into()),
        ("position", state.position().into()),
        ("row", state.row().into()),
        ("tick", state.tick().into()),
        ("sound", results.sound.to_string().into()),
    ]);
    let each = Value::list(results.each.iter().copied());
    match call {
        Call::Burst(_) => fields.push(("answers", each)),
        Call::Why => fields.push(("causes", each)),
        _ => {}
    }
    fields
}
