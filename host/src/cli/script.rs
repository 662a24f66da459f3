//! Trial scripts, and records of what came of them (docs/FORMATS.md).
use super::checksum::Checksum;
use super::input::quoted;
use super::lines::{self, Said, HEADER};
use super::output::counted;
use super::state;
use super::stop::Stop;
use lampthistle::{Answer, State};
use std::ffi::OsStr;
use std::fmt;

/// One call of a trial.
pub enum Call {
    Play(u32),
    Touch(Touch),
    Burst(Vec<Touch>),
    Page,
    Why,
}

#[derive(Clone, Copy)]
pub struct Touch {
    pub page: u32,
    pub made: u32,
    pub position: u32,
}

impl Touch {
    pub fn of(&[page, made, position]: &[u32; 3]) -> Touch {
        Touch {
            page,
            made,
            position,
        }
    }
}

impl Call {
    pub fn name(&self) -> &'static str {
        match self {
            Call::Play(_) => "play",
            Call::Touch(_) => "touch",
            Call::Burst(_) => "burst",
            Call::Page => "page",
            Call::Why => "why",
        }
    }

    /// What a call counts that has a number for each of them, and what that number is.
    pub fn each(&self) -> Option<(&'static str, &'static str)> {
        match self {
            Call::Burst(_) => Some(("touch", "number")),
            Call::Why => Some(("channel", "cause")),
            _ => None,
        }
    }
}

/// What came of a call: its answer, the clock after it, and the checksum of all frames so far.
#[derive(Clone)]
pub struct Results {
    pub answer: Answer,
    /// A number for each that the call counts: of `burst` each touch's answer, of `why` each channel's cause. Empty for the other calls.
    pub each: Vec<u64>,
    pub clock: u32,
    pub sound: Checksum,
}

/// A line of a script.
pub struct Line<'a> {
    /// From 1.
    pub number: usize,
    /// A call, with its results in a record.
    pub call: Option<(Call, Option<Results>)>,
    /// From # on; may be empty.
    pub comment: &'a str,
}

/// The line and the checksum of a record's module.
pub type Module = (usize, Checksum);

/// A record's line that differs, and how.
pub type Differs = (usize, String);

/// A record's last line: how many calls stand before it, and the checksum of all bytes before it.
struct End {
    number: usize,
    calls: u64,
    sum: Checksum,
}

/// A script. Of a record's header version, module and state are looked at.
#[derive(Default)]
pub struct Script<'a> {
    version: Option<&'static str>,
    pub module: Option<Module>,
    state: Option<Box<State>>,
    pub lines: Vec<Line<'a>>,
    end: Option<End>,
    /// How many lines the text has.
    length: usize,
}

impl Script<'_> {
    pub fn calls(&self) -> impl Iterator<Item = &Call> {
        let calls = self.lines.iter().filter_map(|line| line.call.as_ref());
        calls.map(|(call, _)| call)
    }

    /// The state from which a record begins; without one it is fresh.
    pub fn state(&self) -> State {
        self.state
            .as_deref()
            .copied()
            .unwrap_or(lampthistle::fresh())
    }

    /// Whether it has all that the header of its version has.
    pub fn is_record(&self) -> bool {
        self.module.is_some() && (self.state.is_some() || self.version == Some(ENDLESS))
    }

    pub fn call_count(&self) -> u64 {
        self.calls().count() as u64
    }

    /// How a record of these bytes differs from what its end says.
    pub fn changed(&self, bytes: &[u8]) -> Option<Differs> {
        let end = self.end.as_ref()?;
        let calls = self.call_count();
        let sum = Checksum::of(before(bytes, end.number));
        let what = if calls != end.calls {
            format!("calls {calls}, recorded {}", end.calls)
        } else if sum != end.sum {
            format!("checksum {sum}, recorded {}", end.sum)
        } else {
            return None;
        };
        let what = format!("end: {what}; the record is not as it was written");
        Some((end.number, what))
    }

    /// What is known of a record without an end whose calls came again.
    pub fn endless(&self) -> Option<Differs> {
        if self.end.is_some() {
            return None;
        }
        let again = format!("its {} came again", counted(self.call_count(), "call"));
        let what = match self.version {
            Some(VERSION) => format!("the record is cut; {again}"),
            _ => format!(
                "a record of version 1 does not say how many calls it had; {again}, and whether more followed cannot be known"
            ),
        };
        Some((self.length + 1, format!("no end: {what}")))
    }
}

/// The bytes before a line, which counts from 1.
fn before(bytes: &[u8], line: usize) -> &[u8] {
    let from = bytes.splitn(line, |&byte| byte == b'\n').last();
    &bytes[..bytes.len() - from.map_or(0, <[u8]>::len)]
}

/// The version that is written, and the first one, whose records have no state and no end.
pub const VERSION: &str = "2";
pub const ENDLESS: &str = "1";
/// A mark that some editors write at the beginning of a text.
const UTF8_MARK: char = '\u{FEFF}';

/// Reads a whole script, so that a bad line is found before anything is played.
pub fn parse<'a>(name: &str, text: &'a str) -> Result<Script<'a>, Stop> {
    let text = text.strip_prefix(UTF8_MARK).unwrap_or(text);
    let mut script = Script::default();
    let mut header = &HEADER[..];
    for line in text.lines() {
        script.length += 1;
        let wrong = |what: &str, said: &str| {
            let (number, said) = (script.length, quoted(OsStr::new(said.trim())));
            Stop::Cannot(format!("{name}:{number}: {what}: {said}"))
        };
        if script.end.is_none() {
            let (said, comment) = line.split_at(line.find('#').unwrap_or(line.len()));
            let read = lines::read(said, &mut header).map_err(|what| wrong(&what, said))?;
            match read {
                Said::End(..) if script.version != Some(VERSION) => {
                    return Err(wrong(NO_END, said))
                }
                Said::End(..) if !comment.is_empty() => return Err(wrong(AFTER_END, comment)),
                _ => script.add(read, comment.trim_end()),
            }
        } else if !line.trim().is_empty() {
            return Err(wrong(AFTER_END, line));
        }
    }
    Ok(script)
}

const NO_END: &str = "an end, but not of a record of version 2";
/// Nothing stands there: the end does not count it.
const AFTER_END: &str = "after the record's end";

impl<'a> Script<'a> {
    /// Takes what the last line says.
    fn add(&mut self, said: Said, comment: &'a str) {
        let number = self.length;
        let mut call = None;
        let is_kept = matches!(said, Said::Nothing | Said::Call(..)) || !comment.is_empty();
        match said {
            Said::Nothing | Said::Program => {}
            Said::Version(version) => self.version = Some(version),
            Said::Module(sum) => self.module = Some((number, sum)),
            Said::State(state) => self.state = Some(state),
            Said::Call(own, results) => call = Some((own, results)),
            Said::End(calls, sum) => self.end = Some(End { number, calls, sum }),
        }
        if is_kept {
            self.lines.push(Line {
                number,
                call,
                comment,
            });
        }
    }
}

/// The checksum by which a record knows its module.
pub fn module_sum(file: &[u8]) -> Checksum {
    Checksum::of(file)
}

/// The header of a record of this module that begins from a state.
pub fn header(file: &[u8], state: &State) -> String {
    let (program, sum) = (env!("CARGO_PKG_VERSION"), module_sum(file));
    let state = state::line(state);
    format!("record {VERSION}\nprogram lampthistle {program}\nmodule {sum}\n{state}")
}

/// The end of a record that stands before it, with so many calls.
pub fn end(calls: u64, record: &str) -> String {
    format!("end {calls} {}\n", Checksum::of(record.as_bytes()))
}

impl Line<'_> {
    /// The line as it stands in a record.
    pub fn recorded(&self, results: Option<&Results>) -> String {
        let said = match (&self.call, results) {
            (Some((call, _)), Some(results)) => format!("{call} = {results} "),
            _ => String::new(),
        };
        (said + self.comment).trim_end().to_string() + "\n"
    }
}

impl fmt::Display for Touch {
    fn fmt(&self, f: &mut fmt::Formatter) -> fmt::Result {
        write!(f, "{} {} {}", self.page, self.made, self.position)
    }
}

impl fmt::Display for Call {
    fn fmt(&self, f: &mut fmt::Formatter) -> fmt::Result {
        f.write_str(self.name())?;
        match self {
            Call::Play(ticks) => write!(f, " {ticks}"),
            Call::Touch(touch) => write!(f, " {touch}"),
            Call::Burst(touches) => touches.iter().try_for_each(|touch| write!(f, " {touch}")),
            Call::Page | Call::Why => Ok(()),
        }
    }
}

impl fmt::Display for Results {
    fn fmt(&self, f: &mut fmt::Formatter) -> fmt::Result {
        let Answer {
            number,
            place,
            count,
        } = self.answer;
        write!(f, "{number} {place} {count}")?;
        for number in &self.each {
            write!(f, " {number}")?;
        }
        write!(f, " {} {}", self.clock, self.sound)
    }
}

impl Results {
    /// How a recorded result of the call differs from this one; none where both are the same.
    pub fn difference(&self, call: &Call, recorded: &Results) -> Option<String> {
        let pairs = [
            ("number", self.answer.number, recorded.answer.number),
            ("place", self.answer.place, recorded.answer.place),
            ("count", self.answer.count, recorded.answer.count),
            ("clock", self.clock.into(), recorded.clock.into()),
        ];
        let differs = pairs.iter().find(|(_, own, other)| own != other);
        if let Some((what, own, other)) = differs {
            return Some(format!("{what} {own}, recorded {other}"));
        }
        let (counted, what) = call.each().unwrap_or_default();
        for (k, (own, other)) in (1..).zip(self.each.iter().zip(&recorded.each)) {
            if own != other {
                return Some(format!("{counted} {k}: {what} {own}, recorded {other}"));
            }
        }
        let (own, other) = (self.sound, recorded.sound);
        (own != other).then(|| format!("sound {own}, recorded {other}"))
    }
}
