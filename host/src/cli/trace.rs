//! trace FILE: a line a tick, of a module or of a stream.
use super::input::{self, Source};
use super::json::{self, Fields, Value};
use super::layout;
use super::length::ticks_asked;
use super::name::FILE;
use super::output::say;
use super::records::{channels, records, version, Command as Registers, Lengths, Record};
use super::report::plain_accepted;
use super::song::{Song, TICK_FRAMES};
use super::stop::Stop;
use super::stream::translated_for;
use super::waves;
use super::words::Words;
use super::Command;
use lampthistle::State;

pub const COMMAND: Command = Command {
    name: "trace",
    options: &["--ticks"],
    flags: &["--once", "--waves"],
    help: "\
lampthistle trace FILE [--once | --ticks N] [--waves] [--plain | --json]

Shows the first N ticks of a module or of a tick stream, 100 without --ticks, a line a tick: its number, the module's position and row,
the tempo, the remainder that the tick leaves, its frames, and the sample, sounded volume and sounded period of each channel that the file
has. A * stands before a channel that changes or starts; behind its period a module's finetune as the tick leaves it, where it is not 0;
and @ with the byte offset where the channel starts. --once shows a module's ticks until it comes back to a place where it has been, as
info tells. --waves shows each channel's vibrato, v, and tremolo, t, too, as the tick leaves them: x and y as an effect has them, the
place, 0 to 63, and the form.
--plain prints NUMBER PLACE COUNT, the count in bytes of the stream, then a line a tick: tick, position, row, tempo, remainder and
frames, and for each channel seven numbers: 1 if it is in the record, sample, volume, period, start, offset / 256, finetune. --waves adds
x, y, place and form of its vibrato and of its tremolo; the forms are 0 sine, 1 ramp, 2 square. A stream has - - for position and row, and
- for each finetune. --json prints an object a tick, with the finetunes and waves of a module.

Example:
  lampthistle trace song.mod --ticks 4
   tick  pos row tempo rem frames   channel 1              channel 2              channel 3              channel 4
      0    0   0   125   0    960  * 1 64 407 +7 @0         0  0   0               0  0   0               0  0   0

Exit status: 0 accepted; 1 refused; 2 wrong use, or a file that cannot be read.
",
    run,
};

const TICKS: u32 = 100;
/// Text is written in pieces of about so many bytes.
const PIECE: usize = 1 << 16;

/// A tick as it is shown.
struct Tick<'a> {
    number: usize,
    /// Position and row of a module, and the state that the tick leaves.
    place: Option<(u32, u32)>,
    state: Option<State>,
    /// What it leaves for the next, and how long it is.
    remainder: u32,
    frames: usize,
    record: &'a Record,
    /// Of each channel that there is.
    registers: &'a [Registers],
}

fn run(words: &Words) -> Result<bool, Stop> {
    let [name] = words.files(["FILE"])?;
    let source = input::open(name)?.module_or_whole()?;
    let (stream, mut song, ticks) = asked(words, &source)?;
    let channels = channels(&stream);
    let mut text = heading(words, stream.len() as u64, channels);
    let mut lengths = Lengths::of(version(&stream));
    let mut registers = vec![Registers::default(); channels];
    for (number, record) in records(&stream).take(ticks as usize).enumerate() {
        for (register, command) in registers.iter_mut().zip(&record.commands) {
            *register = command.unwrap_or(*register);
        }
        let place = song.as_mut().map(|song| step(song, &source)).transpose()?;
        let frames = lengths.next(record.tempo);
        text += &line(
            words,
            &source,
            &Tick {
                number,
                place,
                state: song.as_ref().map(|song| song.state),
                remainder: lengths.remainder,
                frames,
                record: &record,
                registers: &registers,
            },
        );
        if text.len() > PIECE {
            say(&text)?;
            text.clear();
        }
    }
    say(&text).map(|()| true)
}

/// The stream to show, the song beside it where it is a module's, and how many ticks.
fn asked(words: &Words, source: &Source) -> Result<(Vec<u8>, Option<Song<'static>>, u32), Stop> {
    if !is_stream(source)? {
        let ticks = ticks_asked(words, source)?.unwrap_or(TICKS);
        let song = Song::silent(&source.bytes);
        let stream = translated_for(source, ticks, "more than 65,535 ticks of a module to show")?;
        return Ok((stream, Some(song), ticks));
    }
    if words.has("--once") {
        return Err(Stop::Usage("--once: a stream has no places".into()));
    }
    if words.has("--waves") {
        return Err(Stop::Usage("--waves: a stream has no waves".into()));
    }
    let ticks = ticks_asked(words, source)?.unwrap_or(TICKS);
    Ok((source.bytes.clone(), None, ticks))
}

/// Whether a file that is not accepted as a module is a stream. It is one by its length, which a stream tells, or by its name.
fn is_stream(source: &Source) -> Result<bool, Stop> {
    const NOT_BY_LENGTH: u64 = 21;
    if lampthistle::judge(&source.bytes).is_accepted() {
        return Ok(false);
    }
    let module = layout::empty(channels(&source.bytes));
    let answer = lampthistle::play_stream(&source.bytes, &module, &mut []);
    if answer.number == NOT_BY_LENGTH && !source.name.ends_with(".stream") {
        return source.judge().map(|_| false);
    }
    if !answer.is_accepted() {
        return Err(source.refused(answer));
    }
    Ok(true)
}

/// The position and row of the next tick, which is played.
fn step(song: &mut Song, source: &Source) -> Result<(u32, u32), Stop> {
    let place = (song.state.position(), song.state.row());
    let played = song.next(TICK_FRAMES);
    played.map_err(|answer| source.refused(answer))?;
    Ok(place)
}

fn line(words: &Words, source: &Source, tick: &Tick) -> String {
    if words.json {
        return json::object(fields(source, tick));
    }
    let (number, tempo) = (tick.number, tick.record.tempo);
    let (remainder, frames) = (tick.remainder, tick.frames);
    let show = if words.plain { bare } else { marked };
    let [position, row] = match tick.place {
        Some((position, row)) => [position.to_string(), row.to_string()],
        None => ["-".into(), "-".into()],
    };
    let mut line = if words.plain {
        format!("{number} {position} {row} {tempo} {remainder} {frames}")
    } else {
        format!("{number:>5} {position:>4} {row:>3} {tempo:>5} {remainder:>3} {frames:>6}")
    };
    let show_waves = if words.plain {
        waves::bare
    } else {
        waves::marked
    };
    let waving = tick.state.filter(|_| words.has("--waves"));
    for channel in 0..tick.registers.len() {
        line += &show(tick, channel);
        line += &waving.map_or(String::new(), |state| show_waves(&state, channel));
    }
    line.trim_end().to_string() + "\n"
}

fn heading(words: &Words, bytes: u64, channels: usize) -> String {
    if words.json {
        return String::new();
    }
    if words.plain {
        return plain_accepted(bytes);
    }
    let mut text = String::from(" tick  pos row tempo rem frames");
    let width = if words.has("--waves") { 42 } else { 12 };
    for channel in 1..=channels {
        text += &format!("   channel {channel:<width$}");
    }
    text.trim_end().to_string() + "\n"
}

/// A channel's finetune as the tick leaves it; a stream has none.
fn finetune(tick: &Tick, channel: usize) -> Option<i32> {
    tick.state.as_ref().map(|state| state.finetune(channel))
}

fn marked(tick: &Tick, channel: usize) -> String {
    let Registers {
        sample,
        volume,
        period,
        ..
    } = tick.registers[channel];
    let command = tick.record.commands[channel];
    let mark = if command.is_some() { '*' } else { ' ' };
    let finetune = finetune(tick, channel).filter(|&finetune| finetune != 0);
    let finetune = finetune.map_or(String::new(), |finetune| format!("{finetune:+}"));
    let start = match command {
        Some(command) if command.start => format!("@{}", command.start_byte()),
        _ => String::new(),
    };
    format!("  {mark}{sample:>2} {volume:>2} {period:>3} {finetune:>2} {start:<7}")
}

fn bare(tick: &Tick, channel: usize) -> String {
    let command = tick.record.commands[channel];
    let registers = tick.registers[channel];
    let (start, offset) = command.map_or((false, 0), |command| (command.start, command.offset));
    let finetune = finetune(tick, channel).map_or("-".into(), |finetune| finetune.to_string());
    format!(
        " {} {} {} {} {} {offset} {finetune}",
        u8::from(command.is_some()),
        registers.sample,
        registers.volume,
        registers.period,
        u8::from(start),
    )
}

fn fields(source: &Source, tick: &Tick) -> Fields {
    let channels = (0..tick.registers.len()).map(|channel| -> Fields {
        let (command, registers) = (tick.record.commands[channel], tick.registers[channel]);
        let start = command.filter(|command| command.start);
        let mut fields: Fields = vec![
            ("changed", command.is_some().into()),
            ("sample", registers.sample.into()),
            ("volume", registers.volume.into()),
            ("period", registers.period.into()),
            (
                "starts_at",
                start.map(|command| command.start_byte()).into(),
            ),
            ("finetune", finetune(tick, channel).into()),
        ];
        fields.extend(waves::fields(tick.state.as_ref(), channel));
        fields
    });
    let mut fields = source.name.fields(FILE);
    fields.extend([
        ("tick", tick.number.into()),
        ("position", tick.place.map(|(position, _)| position).into()),
        ("row", tick.place.map(|(_, row)| row).into()),
        ("tempo", tick.record.tempo.into()),
        ("remainder", tick.remainder.into()),
        ("frames", tick.frames.into()),
        ("channels", Value::list(channels)),
    ]);
    fields
}
