//! play FILE: renders a module tick by tick, so that memory does not grow with the length.
use super::input::{self, Source};
use super::length::Length;
use super::number::{Kind, Number, FLOAT, MONO_FLAG};
use super::output::tell;
use super::progress::Progress;
use super::report::{self, plain_accepted};
use super::song::Song;
use super::sound::{self, check_room, Sound};
use super::stop::Stop;
use super::words::Words;
use super::{output, Command};

pub const COMMAND: Command = Command {
    name: "play",
    options: &["--ticks", "--seconds", "--out"],
    flags: &["--once", FLOAT, MONO_FLAG],
    help: "\
lampthistle play FILE [--once | --ticks N | --seconds S] [--float [--mono]] --out OUT [--plain | --json]

Renders the module from its beginning: 48,000 frames a second, two channels. OUT ends in .wav, or in .raw for bare 16-bit numbers, low
byte first; - writes bare numbers to standard output. --once plays until the song comes back to a place where it has been, as info
tells; --ticks N plays N ticks; --seconds S the whole ticks that fit into S seconds; without them it plays 60 seconds. A song that ends
goes on from its beginning. OUT gets its name when it is whole; until then it is OUT.0.part, which the next run takes away if it is left.
--float writes 32-bit floats instead, left / 32,768 and right / 32,768, each exact; with --mono one number a frame, the sum of both /
65,536.
--plain prints NUMBER PLACE COUNT, the count in ticks. --json prints one object; beside the sound, with --out -, it goes to standard error.

Examples:
  lampthistle play song.mod --once --out song.wav
  lampthistle play song.mod --out - | aplay -f S16_LE -c 2 -r 48000
  lampthistle play song.mod --once --float --mono --out song.wav

Exit status: 0 accepted; 1 refused, and OUT is not written; 2 wrong use, or a file that cannot be read or written.
",
    run,
};

fn run(words: &Words) -> Result<bool, Stop> {
    let asked = Length::asked(words)?;
    let (kind, out) = (Kind::asked(words)?, words.needed("--out")?);
    sound::format(out)?;
    let [name] = words.files(["FILE"])?;
    let source = input::module(name)?;
    let _ = source.judge()?;
    let length = asked.length(&source)?;
    check_room(out, kind, length.most(), |room| {
        frames_of(&source, length, room)
    })?;
    let mut sound = Sound::create(out, kind, &[&source])?;
    let (ticks, frames) = match kind {
        Kind::Whole => render::<i16>(&source, length, kind, &mut sound)?,
        Kind::Floats(_) => render::<f32>(&source, length, kind, &mut sound)?,
    };
    sound.finish()?;
    let text = if words.json {
        let counts = vec![("ticks", ticks.into()), ("frames", frames.into())];
        report::written(&source.name, out, counts)
    } else if words.plain {
        plain_accepted(ticks)
    } else {
        output::played(&source.name, ticks, frames)
    };
    tell(words, &text).map(|()| true)
}

/// Plays to the sound file; the ticks and frames played.
fn render<N: Number>(
    source: &Source,
    length: Length,
    kind: Kind,
    sound: &mut Sound,
) -> Result<(u64, u64), Stop> {
    let mut song = Song::<N>::for_sides(&source.bytes, kind.sides());
    let mut progress = Progress::new();
    let (mut ticks, mut frames) = (0, 0);
    while let Some(most) = length.left(ticks, frames) {
        let next = song.next(most).map_err(|answer| source.refused(answer))?;
        let Some(numbers) = next else {
            break;
        };
        sound.write(numbers)?;
        ticks += 1;
        frames += (numbers.len() / kind.sides()) as u64;
        length.show(&mut progress, ticks, frames);
    }
    Ok((ticks, frames))
}

/// The frames that `render` plays, counted until they are more than `limit`.
fn frames_of(source: &Source, length: Length, limit: u64) -> Result<u64, Stop> {
    let mut song = Song::silent(&source.bytes);
    let (mut ticks, mut frames) = (0, 0);
    while let Some(most) = length.left(ticks, frames).filter(|_| frames <= limit) {
        match song.next(most).map_err(|answer| source.refused(answer))? {
            Some(numbers) => frames += numbers.len() as u64 / 2,
            None => break,
        }
        ticks += 1;
    }
    Ok(frames)
}
