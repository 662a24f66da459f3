//! compare FILE: the player, number by number, with the sound board, a given stream or a recording; or two recordings.
use super::board::{self, Board, Line};
use super::compared::{Compared, End, Pair};
use super::course::{course, MOST_TICKS};
use super::input::{self, Source};
use super::length::ticks_asked;
use super::name::Name;
use super::number::{Kind, Number, FLOAT, MONO_FLAG};
use super::offset::{Beginning, Offset};
use super::output::counted;
use super::player::Player;
use super::progress::Progress;
use super::recording::{self, Recording};
use super::recordings;
use super::records;
use super::song::{Song, TICK_FRAMES};
use super::sound::Format;
use super::stop::Stop;
use super::stream::translated_for;
use super::tally::Tally;
use super::words::Words;
use super::Command;
use lampthistle::RATE;
use std::ffi::OsString;

pub const COMMAND: Command = Command {
    name: "compare",
    options: &["--ticks", "--offset"],
    flags: &["--once", FLOAT, MONO_FLAG],
    help: "\
lampthistle compare FILE [STREAM] [--once | --ticks N] [--float [--mono]] [--plain | --json]
lampthistle compare FILE SOUND.raw|SOUND.wav [--once | --ticks N] [--offset search | --offset K] [--float [--mono]] [--plain | --json]
lampthistle compare SOUND SOUND [--offset search | --offset K] [--float [--mono]] [--plain | --json]

Plays the module and says that something else sounds the same, number by number, or how they differ: where first and where last, with tick,
position and row, in how many frames, and by how much at most. The other is
  without a second file, the board with the module's own stream: of N ticks, 1,000 without --ticks and 65,535 at most;
  with a STREAM, the board with that stream and the module's samples;
  with a SOUND, a recording of 48,000 frames a second; a .wav file on standard input, named -, is one, too.
Two recordings are compared in the same way, without places of a song.
All of the other is compared, and how long the song is once through is said beside it. With --ticks N the other must have N ticks: one
that ends before or goes on is different. --once asks for the ticks until the song comes back to a place where it has been, as info tells.
A hint follows where the cause is simple: sides swapped, a side silent, all numbers times a factor, a recording that began late or early,
another end.
--offset search finds the frame of the song at which a recording begins, up to the song's end once through, or how many frames of silence
stand before the song, and compares from there on; of two recordings within their first ten seconds. --offset K says it: K frames of the
first sound are left out, or with a K below 0 so many of the other.
--float compares the frames as 32-bit floats, bit for bit, and with --mono one number a frame, as play writes them.
--plain prints NUMBER PLACE COUNT, the count in ticks, of two recordings in frames; a difference is told on standard error. --json prints
one object.

Examples:
  lampthistle compare song.mod --ticks 3000
  song.mod: 3000 ticks, 2880000 frames: player and board are equal
  lampthistle compare song.mod late.wav --offset search
  song.mod: 3 ticks, 3480 frames: player and late.wav are equal from frame 120 on; the song once through is 1470 ticks

Exit status: 0 equal; 1 refused or different; 2 wrong use, or a file that cannot be read.
",
    run,
};

const TICKS: u32 = 1_000;

/// What the player is compared with.
enum Other<'a, N> {
    /// A stream of so many ticks.
    Board(Box<Board<'a, N>>, u64),
    Recording(Recording<N>),
}

impl<N: Number> Other<'_, N> {
    /// How many ticks it has, where that is known.
    fn ticks(&self) -> Option<u64> {
        match self {
            Other::Board(_, ticks) => Some(*ticks),
            Other::Recording(_) => None,
        }
    }

    /// Whether it may end within a tick.
    fn may_be_cut(&self) -> bool {
        matches!(self, Other::Recording(_))
    }

    /// The numbers beside a tick of the player that has so many; none after the last.
    fn next(&mut self, numbers: usize) -> Result<&[N], Stop> {
        match self {
            Other::Board(board, _) => Ok(board.next()?.unwrap_or(&[])),
            Other::Recording(recording) => recording.next(numbers),
        }
    }
}

/// Frames of a recording by which it is searched for, and of two recordings those that are searched.
pub const LOOK_AHEAD: usize = 10 * RATE as usize;
/// How long the other is to be.
pub enum Length {
    /// So many ticks, as was asked for.
    Asked(u32),
    /// As long as it is, beside a song of so many ticks once through; none where it does not come back.
    Whole(Option<u32>),
}

impl Length {
    /// The length that the words ask for, of an accepted module.
    fn of(words: &Words, file: &Source) -> Result<Length, Stop> {
        match ticks_asked(words, file)? {
            Some(0) => Err(Stop::Usage("--ticks 0: nothing to compare".into())),
            Some(ticks) => Ok(Length::Asked(ticks)),
            None => Ok(Length::Whole(course(file)?.map(|course| course.ticks))),
        }
    }

    pub fn asked(&self) -> Option<u32> {
        match self {
            Length::Asked(ticks) => Some(*ticks),
            Length::Whole(_) => None,
        }
    }

    pub fn song(&self) -> Option<u32> {
        match self {
            Length::Asked(_) => None,
            Length::Whole(song) => *song,
        }
    }

    /// How much of the song the whole of the other is, for the end of a line.
    pub fn beside(&self) -> String {
        match self {
            Length::Asked(_) => String::new(),
            Length::Whole(Some(song)) => {
                let song = counted((*song).into(), "tick");
                format!("; the song once through is {song}")
            }
            Length::Whole(None) => {
                format!("; the song does not come back to a place within {MOST_TICKS} ticks")
            }
        }
    }
}

fn run(words: &Words) -> Result<bool, Stop> {
    let kind = Kind::asked(words)?;
    match kind {
        Kind::Whole => run_with::<i16>(words, kind),
        Kind::Floats(_) => run_with::<f32>(words, kind),
    }
}

/// Compares numbers of this kind.
fn run_with<N: Number>(words: &Words, kind: Kind) -> Result<bool, Stop> {
    let offset = Offset::asked(words)?;
    let second = match words.files.len() {
        0 | 1 => None,
        _ => Some(words.files(["FILE", "STREAM or SOUND"])?[1]),
    };
    let Some(first) = words.files.first().map(OsString::as_os_str) else {
        return Err(Stop::Usage("no FILE".into()));
    };
    if let Some(format) = Format::of(first) {
        return recordings::run::<N>(words, kind, (first, format), second, offset);
    }
    let Some(second) = second else {
        let file = input::module(first)?;
        let _ = file.judge()?;
        let length = Length::of(words, &file)?;
        let ticks = length.asked().unwrap_or(TICKS);
        let stream = translated_for(&file, ticks, "more than 65,535 ticks for the board to play")?;
        let board = (&Name::from("board"), stream.as_slice());
        return with_board::<N>(words, &file, kind, board, &length);
    };
    input::check_once(&[first, second])?;
    let (file, mut other) = (input::module(first)?, input::open(second)?);
    match recording::format(second, &mut other)? {
        None => {
            let stream = other.whole()?;
            let judged = board::judge(&stream, &file);
            let _ = judged.map_err(|stop| recording::no_stream(&stream, stop))?;
            let length = Length::of(words, &file)?;
            let stream = (&stream.name, stream.bytes.as_slice());
            with_board::<N>(words, &file, kind, stream, &length)
        }
        Some(format) => {
            let _ = file.judge()?;
            let recording = Recording::<N>::of(other, format, kind)?;
            let length = Length::of(words, &file)?;
            with_recording(words, &file, kind, recording, &length, offset)
        }
    }
}

/// The player of a module and something else.
fn pair<'a>(file: &'a Name, other: &'a Name, length: &'a Length) -> Pair<'a> {
    Pair {
        file,
        other,
        length: Some(length),
    }
}

/// The board plays an accepted stream of this name.
fn with_board<N: Number>(
    words: &Words,
    file: &Source,
    kind: Kind,
    (name, stream): (&Name, &[u8]),
    length: &Length,
) -> Result<bool, Stop> {
    if words.value("--offset").is_some() {
        return Err(Stop::Usage("--offset goes with a recording".into()));
    }
    let board = Board::<N>::new(Line::of(name, stream), file, kind.sides());
    let other = Other::Board(Box::new(board), records::ticks(stream));
    let compared = compare(file, kind, other, length.asked(), None)?;
    pair(&file.name, name, length).tell(words, &compared)
}

fn with_recording<N: Number>(
    words: &Words,
    file: &Source,
    kind: Kind,
    mut recording: Recording<N>,
    length: &Length,
    offset: Offset,
) -> Result<bool, Stop> {
    let name = recording.name.clone();
    let ahead = recording.look_ahead(LOOK_AHEAD * kind.sides())?;
    let search = || search_song(file, kind, &ahead);
    let frames = offset.frames(search)?;
    let other = Other::Recording(recording);
    let mut compared = compare(file, kind, other, length.asked(), frames)?;
    if compared.is_unexplained() && frames.is_none() {
        compared.found = search_song(file, kind, &ahead)?.filter(|&frames| frames != 0);
    }
    pair(&file.name, &name, length).tell(words, &compared)
}

/// The frame of the song at which a recording of this beginning sets in, within the song once through.
fn search_song<N: Number>(file: &Source, kind: Kind, ahead: &[N]) -> Result<Option<i64>, Stop> {
    /// Ticks that are searched at once, more than what is searched for has.
    const TICKS: u64 = 64;
    let Some(beginning) = Beginning::of(ahead, kind.sides()) else {
        return Ok(None);
    };
    let most = course(file)?.map_or(MOST_TICKS, |course| course.ticks.into());
    let mut song = Song::<N>::for_sides(&file.bytes, kind.sides());
    let (mut played, mut progress) = (0, Progress::new());
    // A recording may go on where the song comes back.
    let most = most + TICKS;
    beginning.search(|heard| {
        for _ in 0..TICKS.min(most - played) {
            let next = song.next(TICK_FRAMES);
            let numbers = next.map_err(|answer| file.refused(answer))?;
            heard.extend_from_slice(numbers.unwrap_or(&[]));
            played += 1;
        }
        progress.show("ticks searched", played, most);
        Ok(played < most)
    })
}

/// Plays the module beside the other, for the ticks that are asked for or until the other ends.
fn compare<N: Number>(
    file: &Source,
    kind: Kind,
    mut other: Other<N>,
    asked: Option<u32>,
    offset: Option<i64>,
) -> Result<Compared, Stop> {
    let (sides, asked) = (kind.sides(), asked.map(u64::from));
    let mut compared = Compared::new(Tally::new(kind), offset);
    let skip = compared.skip(&mut |numbers| Ok(other.next(numbers)?.len()), sides)?;
    let mut player = Player::new(file, sides, skip);
    let (mut progress, all) = (Progress::new(), asked.or(other.ticks()));
    let (mut tick, may_be_cut) = (0, other.may_be_cut());
    while asked.is_none_or(|asked| tick < asked) {
        let (place, numbers, is_whole) = player.next()?;
        if !numbers.is_empty() {
            let heard = other.next(numbers.len())?;
            let ended = heard.is_empty() || may_be_cut && heard.len() < numbers.len();
            let numbers = if ended {
                &numbers[..heard.len()]
            } else {
                numbers
            };
            compared.add(place, numbers, heard, is_whole && !ended);
            if ended {
                let frames = place.from_begin + (heard.len() / sides) as u64;
                compared.end = asked.map(|asked| End::Short {
                    tick,
                    asked,
                    frames,
                });
                return Ok(compared);
            }
        }
        tick = player.tick;
        progress.show("ticks", tick, all.unwrap_or(tick));
    }
    if !other.next(sides)?.is_empty() {
        let frames = player.from_begin;
        compared.end = Some(End::Long { tick, frames });
    }
    Ok(compared)
}
