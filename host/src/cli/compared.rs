//! How two sounds compare, and how that is told.
use super::compare::Length;
use super::json::{self, Fields, Value};
use super::name::{Name, FILE};
use super::number::Number;
use super::output::{counted, say};
use super::report::{self, plain_accepted};
use super::stop::Stop;
use super::tally::{Difference, Place, Tally};
use super::words::Words;

/// Where the other ends otherwise than the first, or than was asked; after so many frames of the first.
pub enum End {
    /// After so many whole ticks of those that were asked for.
    Short {
        tick: u64,
        asked: u64,
        frames: u64,
    },
    /// It goes on after the ticks that were asked for.
    Long {
        tick: u64,
        frames: u64,
    },
    /// Of two recordings.
    Ends(u64),
    GoesOn(u64),
}

impl End {
    /// Whether the other ends first.
    fn is_short(&self) -> bool {
        matches!(self, End::Short { .. } | End::Ends(_))
    }

    fn line(&self, name: &Name) -> String {
        let [ticks, frames] = match *self {
            End::Short { tick, frames, .. } | End::Long { tick, frames } => [tick, frames],
            End::Ends(frames) | End::GoesOn(frames) => [0, frames],
        };
        let ticks = counted(ticks, "tick");
        let frames = format!("{} from the beginning", counted(frames, "frame"));
        match self {
            End::Short { asked, .. } => format!("{name} ends after {ticks} of {asked}, {frames}"),
            End::Long { .. } => format!("{name} goes on after {ticks}, {frames}"),
            End::Ends(_) => format!("{name} ends after {frames}"),
            End::GoesOn(_) => format!("{name} goes on after {frames}"),
        }
    }
}

pub struct Compared {
    tally: Tally,
    /// Whole ticks before the first difference.
    ticks: u64,
    /// Frames of the first sound that were left out, below 0 of the other.
    offset: Option<i64>,
    pub end: Option<End>,
    /// The offset that would make them equal for long.
    pub found: Option<i64>,
}

impl Compared {
    pub fn new(tally: Tally, offset: Option<i64>) -> Compared {
        Compared {
            tally,
            ticks: 0,
            offset,
            end: None,
            found: None,
        }
    }

    /// Leaves out the frames of the other, as `next` gives so many numbers of it; how many of the first are to be left out.
    pub fn skip(
        &self,
        next: &mut dyn FnMut(usize) -> Result<usize, Stop>,
        sides: usize,
    ) -> Result<usize, Stop> {
        let offset = self.offset.unwrap_or(0);
        let mut left = offset.min(0).unsigned_abs() as usize * sides;
        while left > 0 {
            match next(left.min(1 << 12))? {
                0 => break,
                gone => left -= gone,
            }
        }
        Ok(offset.max(0) as usize)
    }

    /// Adds the frames of both from a place on, which may be a whole tick.
    pub fn add<N: Number>(&mut self, place: Place, first: &[N], other: &[N], is_tick: bool) {
        self.tally.add(place, first, other);
        if self.tally.first.is_none() {
            self.ticks += u64::from(is_tick);
        }
    }

    pub fn is_equal(&self) -> bool {
        self.tally.first.is_none() && self.end.is_none()
    }

    /// Whether numbers differ, and no hint says why.
    pub fn is_unexplained(&self) -> bool {
        self.tally.first.is_some() && self.tally.hints("", "").is_empty()
    }
}

/// Two sounds: the name of the first one's file, and of the other; the length that was asked for, where the first is played.
pub struct Pair<'a> {
    pub file: &'a Name,
    pub other: &'a Name,
    pub length: Option<&'a Length>,
}

impl Pair<'_> {
    /// What the first sound is called.
    fn first(&self) -> &str {
        self.length.map_or(self.file, |_| "player")
    }

    /// Tells how both compare, and gives whether they are equal.
    pub fn tell(&self, words: &Words, compared: &Compared) -> Result<bool, Stop> {
        let equal = compared.is_equal();
        if equal && compared.tally.frames == 0 {
            let name = self.other;
            return Err(Stop::Cannot(format!("{name}: no frame to compare")));
        }
        if words.json {
            say(&json::object(self.fields(compared)))?;
        } else if !equal {
            for line in self.differences(compared) {
                Stop::Cannot(format!("{}: {line}", self.file)).tell();
            }
        } else if words.plain {
            let count = self
                .length
                .map_or(compared.tally.frames, |_| compared.ticks);
            say(&plain_accepted(count))?;
        } else {
            say(&self.equal_line(compared))?;
        }
        Ok(equal)
    }

    fn equal_line(&self, compared: &Compared) -> String {
        let (file, other, first) = (self.file, self.other, self.first());
        let frames = counted(compared.tally.frames, "frame");
        let from = match compared.offset.unwrap_or(0) {
            0 => String::new(),
            frames @ 1.. => format!(" from frame {frames} on"),
            frames => format!(
                " after {} of {other}",
                counted(frames.unsigned_abs(), "frame")
            ),
        };
        match self.length {
            Some(length) => {
                let (ticks, beside) = (counted(compared.ticks, "tick"), length.beside());
                format!("{file}: {ticks}, {frames}: {first} and {other} are equal{from}{beside}\n")
            }
            None => format!("{file}: {frames}: both are equal, with {other}{from}\n"),
        }
    }

    /// Lines on how both differ.
    fn differences(&self, compared: &Compared) -> Vec<String> {
        let (tally, mut lines) = (&compared.tally, Vec::new());
        if let Some(found) = &tally.first {
            lines.push(format!("DIFFERENT: {}", self.difference_line(found)));
            let frames = format!("differing frames: {} of {}", tally.differing, tally.frames);
            let most = tally.largest().map_or(String::new(), |largest| {
                format!(", by {} at most", largest.bare())
            });
            let last = tally.last.as_ref().map_or(String::new(), place_line);
            lines.push(format!("{frames}{most}; last at {last}"));
        }
        let end = compared.end.as_ref().map(|end| end.line(self.other));
        match end {
            Some(end) if lines.is_empty() => lines.push(format!("DIFFERENT: {end}")),
            end => lines.extend(end),
        }
        let hints = self.hints(compared);
        lines.extend(hints.iter().map(|hint| format!("hint: {hint}")));
        lines
    }

    fn difference_line(&self, found: &Difference) -> String {
        let [first, other] = [&found.first, &found.other].map(|number| match number {
            Some(number) => number.bare(),
            None => "none".into(),
        });
        let (place, side) = (place_line(&found.place), found.side);
        let names = (self.first(), self.other);
        format!("{place}, {side}: {} {first}, {} {other}", names.0, names.1)
    }

    fn hints(&self, compared: &Compared) -> Vec<String> {
        let (first, other) = (self.first(), self.other);
        let mut hints = compared.tally.hints(first, other);
        match compared.found {
            Some(frames @ 1..) => {
                hints.push(format!("{other} begins at frame {frames} of {first}"))
            }
            Some(frames) => {
                let frames = counted(frames.unsigned_abs(), "frame");
                hints.push(format!("{first} begins after {frames} of {other}"));
            }
            None => (),
        }
        hints
    }

    fn fields(&self, compared: &Compared) -> Fields {
        let tally = &compared.tally;
        let mut fields = match self.length {
            Some(_) => report::accepted(self.file),
            None => self.file.fields(FILE),
        };
        let ticks = self.length.map(|_| compared.ticks);
        let end = compared.end.as_ref();
        fields.extend(self.other.fields(["with", "with_bytes"]));
        fields.extend([
            ("equal", compared.is_equal().into()),
            ("ticks", ticks.into()),
            ("frames", tally.frames.into()),
            ("asked_ticks", self.length.and_then(Length::asked).into()),
            ("song_ticks", self.length.and_then(Length::song).into()),
            ("offset", compared.offset.into()),
            (
                "end",
                end.map(|end| if end.is_short() { "short" } else { "long" })
                    .into(),
            ),
            ("differing_frames", tally.differing.into()),
            ("largest_difference", tally.largest().into()),
            ("first", tally.first.as_ref().map(first_fields).into()),
            ("last", tally.last.as_ref().map(place_fields).into()),
            ("hints", Value::list(self.hints(compared))),
        ]);
        fields
    }
}

/// A place in words.
fn place_line(place: &Place) -> String {
    let Place {
        tick,
        frame,
        from_begin,
    } = place;
    match tick {
        Some(tick) => {
            let (number, position, row) = (tick.number, tick.position, tick.row);
            format!("tick {number} (position {position}, row {row}), frame {frame} ({from_begin} from the beginning)")
        }
        None => format!("frame {from_begin}"),
    }
}

fn first_fields(found: &Difference) -> Fields {
    let mut fields = place_fields(&found.place);
    fields.extend([
        ("side", found.side.into()),
        ("player", found.first.clone().into()),
        ("other", found.other.clone().into()),
    ]);
    fields
}

fn place_fields(place: &Place) -> Fields {
    vec![
        ("tick", place.tick.map(|tick| tick.number).into()),
        ("position", place.tick.map(|tick| tick.position).into()),
        ("row", place.tick.map(|tick| tick.row).into()),
        ("frame", place.frame.into()),
        ("from_beginning", place.from_begin.into()),
    ]
}
