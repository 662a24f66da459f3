//! picture FILE: a song, or a trial of it, as something to look at.
use super::course::once;
use super::drawing::Drawing;
use super::input::{self, Source};
use super::length::ticks_asked;
use super::output::{counted, tell, write_bytes};
use super::page;
use super::report::{self, plain_accepted};
use super::scene::Scene;
use super::script;
use super::state;
use super::stop::Stop;
use super::words::Words;
use super::Command;
use std::ffi::OsStr;
use std::path::Path;

pub const COMMAND: Command = Command {
    name: "picture",
    options: &["--ticks", "--trial", "--out"],
    flags: &["--once"],
    help: "\
lampthistle picture FILE [--once | --ticks N] --out OUT.svg [--plain | --json]
lampthistle picture FILE --trial RECORD --out OUT.html [--plain | --json]

Draws a module along time: positions and rows, a band for each channel, in which a mark's pattern and colour say the sample, its height
the sounded period, and its thickness and strength the volume; and left and right as envelopes below. Without --ticks it is the song until
it comes back to a place where it has been, as info tells.
--trial draws a trial instead, from its script or its record, as one page: the same with page changes, and with every touch at the clock
at which it was made and at which it came, accepted, or refused and why, and its age in ticks; below that the same as a table.
OUT is one file that needs no other, - is standard output. It is readable in black and white, follows a light or dark screen, and has text
for every mark. A picture has 20,000 ticks at most.
--plain prints NUMBER PLACE COUNT, the count in ticks. --json prints one object.

Examples:
  lampthistle picture song.mod --out song.svg
  lampthistle picture song.mod --trial trial.record --out trial.html

Exit status: 0 it was drawn; 1 refused, and OUT is not written; 2 wrong use, a bad line, or a file that cannot be read or written.
",
    run,
};

fn run(words: &Words) -> Result<bool, Stop> {
    let out = words.needed("--out")?;
    let [name] = words.files(["FILE"])?;
    let (scene, text, sources) = match words.value("--trial") {
        None => {
            check_ending(out, "svg")?;
            let source = input::module(name)?;
            let _ = source.judge()?;
            let asked = ticks_asked(words, &source)?;
            let ticks = asked.map_or_else(|| once(&source), Ok)?;
            let scene = Scene::of_song(&source, ticks)?;
            let text = Drawing::new(&source, &scene).svg();
            (scene, text, vec![source])
        }
        Some(trial) => {
            check_ending(out, "html")?;
            if words.value("--ticks").is_some() || words.has("--once") {
                return Err(Stop::Usage("a trial has its own length".into()));
            }
            let [source, trial] = input::read_all([name, trial])?;
            let _ = source.judge()?;
            let (scene, text) = of_trial(&source, &trial)?;
            (scene, text, vec![source, trial])
        }
    };
    let all: Vec<&Source> = sources.iter().collect();
    write_bytes(out, &all, text.as_bytes())?;
    let (ticks, marks) = (scene.ticks.len() as u64, scene.runs().len() as u64);
    let name = &sources[0].name;
    let line = if words.json {
        let counts = vec![("ticks", ticks.into()), ("marks", marks.into())];
        report::written(name, out, counts)
    } else if words.plain {
        plain_accepted(ticks)
    } else {
        let (ticks, marks) = (counted(ticks, "tick"), counted(marks, "mark"));
        format!("{name}: drew {ticks}, {marks}\n")
    };
    tell(words, &line).map(|()| true)
}

fn of_trial(source: &Source, trial: &Source) -> Result<(Scene, String), Stop> {
    let lines = String::from_utf8_lossy(&trial.bytes);
    let script = script::parse(&trial.name, &lines)?;
    let state = script.state();
    state::check_legal(source, trial, state)?;
    let scene = Scene::of_trial(source, &script, state)?;
    let text = page::page(source, trial, &scene);
    Ok((scene, text))
}

fn check_ending(out: &OsStr, ending: &str) -> Result<(), Stop> {
    if out == "-" || Path::new(out).extension() == Some(OsStr::new(ending)) {
        return Ok(());
    }
    Err(Stop::Usage(format!(
        "--out: {}: the name must end in .{ending}, or be -",
        input::shown(out)
    )))
}
