//! translate FILE: writes a module's tick stream. board STREAM FILE: plays one.
use super::board::{self, Board, Line};
use super::input::{self, Source};
use super::length::ticks_asked;
use super::name::Name;
use super::number::{Kind, Number, FLOAT, MONO_FLAG};
use super::output::{self, check_terminal, counted, tell, write_bytes};
use super::progress::Progress;
use super::records;
use super::report::{self, plain_accepted};
use super::sound::{self, check_room, Sound};
use super::stop::Stop;
use super::words::Words;
use super::Command;
use lampthistle::refusal;
use std::ffi::OsStr;
use std::os::unix::fs::FileTypeExt;

pub const TRANSLATE: Command = Command {
    name: "translate",
    options: &["--ticks", "--out"],
    flags: &["--once"],
    help: "\
lampthistle translate FILE (--once | --ticks N) --out OUT [--plain | --json]

Writes the tick stream, of version 3, of the module's first N ticks, 65,535 at most, to OUT; - is standard output. --once takes the
ticks until the song comes back to a place where it has been, as info tells.
--plain prints NUMBER PLACE COUNT, the count in bytes. --json prints one object.

Example:
  lampthistle translate song.mod --ticks 3000 --out song.stream

Exit status: 0 accepted; 1 refused, and OUT is not written; 2 wrong use, or a file that cannot be read or written.
",
    run: run_translate,
};

pub const BOARD: Command = Command {
    name: "board",
    options: &["--out"],
    flags: &[FLOAT, MONO_FLAG],
    help: "\
lampthistle board STREAM FILE [--float [--mono]] --out OUT [--plain | --json]

Plays a tick stream of version 1, 2 or 3 as the sound board does, with the samples of the module FILE, which has as many channels as the
stream is for: versions 1 and 2 are for four. OUT as in play: .wav, .raw or -.
A STREAM that is a regular file is judged before anything is written. From a pipe, a named pipe or a device it is played while it arrives,
each tick when its last byte is in: the first fault ends it, with how far it came, and OUT keeps the ticks before that. A pipe is read to
its end, a device to the stream's declared end. A serial device is made ready first, as by stty -F DEVICE raw -echo 57600.
--float writes 32-bit floats, and with --mono one number a frame, as in play.
--plain prints NUMBER PLACE COUNT, the count in ticks: of a fault as the stream arrives, those before it. --json prints one object.

Example:
  lampthistle board song.stream song.mod --out song.wav
  lampthistle board /dev/ttyS0 song.mod --out - | aplay -f S16_LE -c 2 -r 48000

Exit status: 0 accepted; 1 refused, and OUT is not written unless a tick of an arriving stream was played; 2 wrong use, or a file that
cannot be read or written.
",
    run: run_board,
};

fn run_translate(words: &Words) -> Result<bool, Stop> {
    let out = words.needed("--out")?;
    check_terminal(out)?;
    let [name] = words.files(["FILE"])?;
    let source = input::module(name)?;
    let Some(ticks) = ticks_asked(words, &source)? else {
        return Err(Stop::Usage("no --ticks".into()));
    };
    let stream = translated(&source, ticks)?;
    write_bytes(out, &[&source], &stream)?;
    let bytes = stream.len();
    let text = if words.json {
        let counts = vec![("ticks", ticks.into()), ("bytes", bytes.into())];
        report::written(&source.name, out, counts)
    } else if words.plain {
        plain_accepted(bytes as u64)
    } else {
        let ticks = counted(ticks.into(), "tick");
        format!("{}: {ticks} in {bytes} bytes\n", source.name)
    };
    tell(words, &text).map(|()| true)
}

/// The stream of so many ticks. The first call, with no room, asks for the length.
fn translated(source: &Source, ticks: u32) -> Result<Vec<u8>, Stop> {
    let asked = lampthistle::translate(&source.bytes, ticks, &mut []);
    if asked.number != refusal::ROOM {
        return Err(source.refused(asked));
    }
    let mut room = vec![0; asked.place as usize];
    let answer = lampthistle::translate(&source.bytes, ticks, &mut room);
    if !answer.is_accepted() {
        return Err(source.refused(answer));
    }
    Ok(room)
}

/// The same for a command that has other words for too many ticks.
pub fn translated_for(
    source: &Source,
    ticks: u32,
    too_many: &'static str,
) -> Result<Vec<u8>, Stop> {
    translated(source, ticks).map_err(|stop| match stop {
        Stop::Refused(mut refused) if refused.answer.number == refusal::TICKS => {
            refused.meaning = too_many;
            Stop::Refused(refused)
        }
        other => other,
    })
}

fn run_board(words: &Words) -> Result<bool, Stop> {
    let (kind, out) = (Kind::asked(words)?, words.needed("--out")?);
    sound::format(out)?;
    let names = words.files(["STREAM", "FILE"])?;
    input::check_once(&names)?;
    let about = input::about(names[0])?;
    let ([stream, module], played) = if about.is_file() {
        play_whole(names, kind, out)?
    } else {
        let stays_open = about.file_type().is_char_device();
        play_arriving(names, stays_open, kind, out)?
    };
    let text = if words.json {
        let mut about = module.fields(["module", "module_bytes"]);
        about.extend(board::came(played.ticks, played.bytes));
        about.push(("frames", played.frames.into()));
        report::written(&stream, out, about)
    } else if words.plain {
        plain_accepted(played.ticks)
    } else {
        output::played(&stream, played.ticks, played.frames)
    };
    tell(words, &text).map(|()| true)
}

/// How much of a stream was played.
#[derive(Default)]
struct Played {
    ticks: u64,
    bytes: u64,
    frames: u64,
}

/// Plays a stream that is at hand, and so judged before anything is written; its name and the module's.
fn play_whole(names: [&OsStr; 2], kind: Kind, out: &OsStr) -> Result<([Name; 2], Played), Stop> {
    let (stream, file) = (input::open(names[0])?.whole()?, input::module(names[1])?);
    let _ = board::judge(&stream, &file)?;
    let frames = records::frames(&stream.bytes);
    check_room(out, kind, frames, |_| Ok(frames))?;
    let mut sound = Sound::create(out, kind, &[&stream, &file])?;
    let line = Line::of(&stream.name, &stream.bytes);
    let mut played = Played::default();
    render(line, &file, kind, &mut sound, &mut played)?;
    sound.finish()?;
    Ok(([stream.name, file.name], played))
}

/// Plays a stream while it arrives; its name and the module's. However it ends, the sound before that stands.
fn play_arriving(
    names: [&OsStr; 2],
    stays_open: bool,
    kind: Kind,
    out: &OsStr,
) -> Result<([Name; 2], Played), Stop> {
    let file = input::module(names[1])?;
    let _ = file.judge()?;
    let stream = input::open(names[0])?;
    let mut sound = Sound::create(out, kind, &[&file])?.at_once();
    let line = Line {
        name: &stream.name,
        from: stream.from,
        stays_open,
    };
    let mut played = Played::default();
    let ended = render(line, &file, kind, &mut sound, &mut played);
    if ended.is_ok() || played.ticks > 0 {
        sound.finish()?;
    }
    ended.map(|()| ([stream.name, file.name], played))
}

/// Plays the stream of a line to the sound file, and counts what is played.
fn render(
    line: Line,
    file: &Source,
    kind: Kind,
    sound: &mut Sound,
    played: &mut Played,
) -> Result<(), Stop> {
    match kind {
        Kind::Whole => render_with::<i16>(line, file, kind, sound, played),
        Kind::Floats(_) => render_with::<f32>(line, file, kind, sound, played),
    }
}

fn render_with<N: Number>(
    line: Line,
    file: &Source,
    kind: Kind,
    sound: &mut Sound,
    played: &mut Played,
) -> Result<(), Stop> {
    let mut board = Board::<N>::new(line, file, kind.sides());
    let mut progress = Progress::new();
    while let Some(numbers) = board.next()? {
        sound.write(numbers)?;
        played.ticks += 1;
        played.frames += (numbers.len() / kind.sides()) as u64;
        progress.show("ticks", played.ticks, board.all_ticks());
    }
    played.bytes = board.bytes_taken();
    Ok(())
}
