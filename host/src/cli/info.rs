//! info FILE: what an accepted module holds, and how long it plays.
use super::course::{course, Course, MOST_TICKS};
use super::input::{self, Source};
use super::json::{self, Fields, Value};
use super::layout::{channels, headers, pattern_count, played, readable, Header, TITLE};
use super::notes::notes;
use super::output::{counted, say, seconds};
use super::report::{self, plain_accepted};
use super::stop::Stop;
use super::words::Words;
use super::Command;

pub const COMMAND: Command = Command {
    name: "info",
    options: &[],
    flags: &[],
    help: "\
lampthistle info [--plain | --json] FILE

Shows a module's title, channel count, song length, pattern count and table; how long it plays until it comes back to a place where it
has been; its samples with lengths, in bytes, volumes, finetunes, -8 to 7, and loops; and what it asks for that does nothing here or that
other players do otherwise, as judge --notes does.
--plain prints NUMBER PLACE COUNT of the judging; then song length, pattern count and channel count; the played table entries; ticks and
frames until it comes back, and that position and row, or - - - - if it does not; a line a sample that has bytes: its number, length,
volume, loop start and loop length, 0 0 without a loop, and finetune; and a line a note: note EFFECT CELLS PATTERN ROW CHANNEL.
--json prints all of it as one object.

Example:
  lampthistle info song.mod

Exit status: 0 accepted; 1 refused; 2 wrong use, or a file that cannot be read.
",
    run,
};

fn run(words: &Words) -> Result<bool, Stop> {
    let [name] = words.files(["FILE"])?;
    let source = input::module(name)?;
    let _ = source.judge()?;
    let course = course(&source)?;
    let (file, course) = (&source.bytes, course.as_ref());
    let text = if words.json {
        json::object(fields(&source, course))
    } else if words.plain {
        bare(file, course)
    } else {
        page(file, course)
    };
    say(&text).map(|()| true)
}

/// The samples that have bytes.
fn samples(file: &[u8]) -> impl Iterator<Item = Header<'_>> {
    headers(file).filter(|header| header.length > 0)
}

fn table(file: &[u8]) -> String {
    let entries: Vec<String> = played(file).iter().map(u8::to_string).collect();
    entries.join(" ")
}

/// What a person reads.
fn page(file: &[u8], course: Option<&Course>) -> String {
    let mut lines = vec![
        format!("title        {}", readable(&file[TITLE])),
        format!("channels     {}", channels(file)),
        format!("song length  {}", played(file).len()),
        format!("patterns     {}", pattern_count(file)),
        format!("table        {}", table(file)),
        format!("plays        {}", lasting(course)),
        "sample  bytes   volume  finetune  loop             name".into(),
    ];
    lines.extend(samples(file).map(|header| {
        let (number, length) = (header.number, header.length);
        let (volume, finetune) = (header.volume, header.finetune);
        let looped = match header.looped() {
            Some((start, length)) => format!("{start} to {}", start + length),
            None => "none".into(),
        };
        let name = readable(header.name);
        format!("{number:>6}  {length:>6}  {volume:>6}  {finetune:>8}  {looped:<15}  {name}")
    }));
    lines.extend(notes(file).iter().map(|note| note.line()));
    let lines = lines.iter().map(|line| line.trim_end().to_string() + "\n");
    lines.collect()
}

/// How long the song is.
fn lasting(course: Option<&Course>) -> String {
    match course {
        Some(course) => {
            let (ticks, seconds) = (counted(course.ticks.into(), "tick"), seconds(course.frames));
            let (position, row) = (course.position, course.row);
            format!("{ticks}, {seconds}, then on from position {position}, row {row}")
        }
        None => format!("on and on: it does not come back to a place within {MOST_TICKS} ticks"),
    }
}

/// Numbers for scripts.
fn bare(file: &[u8], course: Option<&Course>) -> String {
    let mut text = plain_accepted(0);
    let (entries, patterns) = (played(file).len(), pattern_count(file));
    text += &format!("{entries} {patterns} {}\n{}\n", channels(file), table(file));
    text += &match course {
        Some(c) => format!("{} {} {} {}\n", c.ticks, c.frames, c.position, c.row),
        None => "- - - -\n".into(),
    };
    for header in samples(file) {
        let (number, length) = (header.number, header.length);
        let (volume, finetune) = (header.volume, header.finetune);
        let (start, repeat) = header.looped().unwrap_or((0, 0));
        text += &format!("{number} {length} {volume} {start} {repeat} {finetune}\n");
    }
    for note in notes(file) {
        text += &format!("{}\n", note.plain());
    }
    text
}

fn fields(source: &Source, course: Option<&Course>) -> Fields {
    let file = &source.bytes;
    let mut fields = report::accepted(&source.name);
    let comes_back = course.map(|course| -> Fields {
        vec![
            ("position", course.position.into()),
            ("row", course.row.into()),
        ]
    });
    fields.extend(named(["title", "title_bytes"], &file[TITLE]));
    fields.extend([
        ("channels", channels(file).into()),
        ("song_length", played(file).len().into()),
        ("patterns", pattern_count(file).into()),
        ("table", Value::list(played(file).iter().copied())),
        ("ticks", course.map(|course| course.ticks).into()),
        ("frames", course.map(|course| course.frames).into()),
        ("comes_back_to", comes_back.into()),
        ("samples", Value::list(samples(file).map(sample_fields))),
        ("notes", Value::list(notes(file).iter().map(|n| n.fields()))),
    ]);
    fields
}

fn sample_fields(header: Header) -> Fields {
    let looped = header.looped();
    let mut fields: Fields = vec![("sample", header.number.into())];
    fields.extend(named(["name", "name_bytes"], header.name));
    fields.extend([
        ("bytes", header.length.into()),
        ("volume", header.volume.into()),
        ("finetune", header.finetune.into()),
        ("loop_start", looped.map(|(start, _)| start).into()),
        ("loop_length", looped.map(|(_, length)| length).into()),
    ]);
    fields
}

/// A text of the file, and all its bytes where it has others than those that it shows, and zeros behind them.
fn named(keys: [&'static str; 2], bytes: &[u8]) -> Fields {
    let text = readable(bytes);
    match bytes.strip_prefix(text.as_bytes()) {
        Some(rest) if rest.iter().all(|&byte| byte == 0) => vec![(keys[0], text.into())],
        _ => json::exact(keys, &text, bytes),
    }
}
