//! why FILE: why each channel is quiet after so many ticks, or that it sounds.
use super::course;
use super::input::{self, Source};
use super::json;
use super::length::{Asked, Length};
use super::output::{counted, say, seconds};
use super::progress::Progress;
use super::report;
use super::song::{Song, TICK_FRAMES};
use super::stop::Stop;
use super::words::Words;
use super::Command;
use lampthistle::{Answer, Cause};

pub const COMMAND: Command = Command {
    name: "why",
    options: &["--ticks", "--seconds", "--position", "--row", "--channel"],
    flags: &[],
    help: "\
lampthistle why FILE [--ticks N | --seconds S | --position P [--row R]] [--channel C] [--plain | --json]

Plays the module without writing its sound, and says why each channel, or channel C alone, is quiet in the frame after that, or that it
sounds. --ticks N plays the first N ticks, one without another length; --seconds S the whole ticks that fit into S seconds; --position P
up to the first tick of song position P, and with --row R of this row there; positions and rows count from 0, as info and trace show them.
With --seconds and --position a first line says where that is. Channels count from 1; info shows how many there are. The first of these
that holds is the cause:
  1  it has no sample                       nothing was started, or a note before any sample
  2  its period is 0                        which no note has
  3  its sample has ended                   or was started past its end
  4  its volume is 0
  5  its sample is at a byte that reads 0   as the first two of each sample do
6 is a channel that sounds. The next tick's work is not done first: a note that begins in it is not heard yet.
--plain prints NUMBER PLACE COUNT CHANNEL a channel, the count being the cause's number. --json prints an object a channel, with the
ticks that were played and the last one's position and row.

Example:
  lampthistle why song.mod --seconds 1.92
  after 96 ticks, 1.920 seconds, in position 0, row 15
  channel 1: quiet: its volume is 0
  channel 2: sounds
  channel 3: sounds
  channel 4: quiet: its sample has ended

Exit status: 0 it was said; 1 refused; 2 wrong use, or a file that cannot be read.
",
    run,
};

/// How far the song is played.
enum Until {
    Length(Length),
    /// The first tick of a position, and of a row of it.
    Place(u32, Option<u32>),
}

const TICKS: Until = Until::Length(Length::Ticks(1));

impl Until {
    fn asked(words: &Words) -> Result<Until, Stop> {
        let (position, row) = (words.number("--position")?, words.number("--row")?);
        match (Length::asked(words)?, position) {
            (_, None) if row.is_some() => Err(Stop::Usage("--row goes with --position".into())),
            (Asked::Length(length), None) => Ok(Until::Length(length)),
            (_, None) => Ok(TICKS),
            (Asked::Nothing, Some(position)) => Ok(Until::Place(position, row)),
            _ => Err(Stop::Usage(
                "--ticks, --seconds and --position exclude each other".into(),
            )),
        }
    }

    /// How many ticks this is, of an accepted module.
    fn ticks(&self, source: &Source) -> Result<u32, Stop> {
        match *self {
            Until::Length(Length::Ticks(ticks)) => Ok(ticks),
            Until::Length(length) => ticks_in(source, length),
            Until::Place(position, row) => course::ticks_to(source, position, row),
        }
    }

    /// Whether somebody who asked by it wants to be told where it is.
    fn is_by_ticks(&self) -> bool {
        matches!(self, Until::Length(Length::Ticks(_)))
    }
}

/// The whole ticks that fit into a length.
fn ticks_in(source: &Source, length: Length) -> Result<u32, Stop> {
    let mut song = Song::silent(&source.bytes);
    let (mut ticks, mut frames) = (0, 0);
    while let Some(most) = length.left(ticks.into(), frames) {
        match song.next(most).map_err(|answer| source.refused(answer))? {
            Some(numbers) => frames += numbers.len() as u64 / 2,
            None => break,
        }
        ticks += 1;
    }
    Ok(ticks)
}

/// Where a song was asked: after so many ticks and frames; of the last of them position and row, none before the first.
struct Asking {
    ticks: u32,
    frames: u64,
    place: Option<(u32, u32)>,
}

impl Asking {
    fn line(&self) -> String {
        let (ticks, seconds) = (counted(self.ticks.into(), "tick"), seconds(self.frames));
        let place = match self.place {
            Some((position, row)) => format!("in position {position}, row {row}"),
            None => "before the first row".into(),
        };
        format!("after {ticks}, {seconds}, {place}\n")
    }
}

fn run(words: &Words) -> Result<bool, Stop> {
    let (until, asked) = (Until::asked(words)?, words.number("--channel")?);
    let [name] = words.files(["FILE"])?;
    let source = input::module(name)?;
    let _ = source.judge()?;
    let mut song = Song::new(&source.bytes);
    let channels = match asked {
        Some(channel) => channel..=channel,
        None => 1..=song.channels(),
    };
    // A channel that there is not is found before anything is played.
    ask(&song, &source, *channels.start())?;
    let asking = play(&mut song, &source, until.ticks(&source)?)?;
    let mut text = String::new();
    if !until.is_by_ticks() && !words.plain && !words.json {
        text += &asking.line();
    }
    for channel in channels {
        let cause = ask(&song, &source, channel)?;
        text += &line(words, &source, &asking, channel, cause);
    }
    say(&text).map(|()| true)
}

/// Plays so many ticks.
fn play(song: &mut Song, source: &Source, ticks: u32) -> Result<Asking, Stop> {
    let mut progress = Progress::new();
    let (mut frames, mut place) = (0, None);
    for played in 1..=ticks {
        place = Some((song.state.position(), song.state.row()));
        let next = song.next(TICK_FRAMES);
        let numbers = next.map_err(|answer| source.refused(answer))?;
        frames += numbers.unwrap_or(&[]).len() as u64 / 2;
        progress.show("ticks", played.into(), ticks.into());
    }
    Ok(Asking {
        ticks,
        frames,
        place,
    })
}

fn ask(song: &Song, source: &Source, channel: u32) -> Result<Cause, Stop> {
    let asked = song.why_quiet(channel);
    asked.map_err(|refusal| source.refused(refusal.into()))
}

/// A channel's cause for a person.
pub fn said(channel: u32, cause: Cause) -> String {
    if cause.is_quiet() {
        format!("channel {channel}: quiet: {cause}")
    } else {
        format!("channel {channel}: sounds")
    }
}

fn line(words: &Words, source: &Source, asking: &Asking, channel: u32, cause: Cause) -> String {
    if words.json {
        let mut fields = report::accepted(&source.name);
        fields.extend([
            ("ticks", asking.ticks.into()),
            (
                "position",
                asking.place.map(|(position, _)| position).into(),
            ),
            ("row", asking.place.map(|(_, row)| row).into()),
            ("channel", channel.into()),
            ("cause", cause.number().into()),
            ("says", cause.meaning().into()),
        ]);
        return json::object(fields);
    }
    if words.plain {
        let bare = report::plain(&Answer::from(cause));
        return format!("{} {channel}\n", bare.trim_end());
    }
    said(channel, cause) + "\n"
}
