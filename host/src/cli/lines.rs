//! A line of a trial script or a record: what it says, or what is wrong in it (docs/FORMATS.md).
use super::checksum::Checksum;
use super::input::quoted;
use super::output::counted;
use super::script::{Call, Results, Touch, ENDLESS, VERSION};
use super::state;
use lampthistle::{Answer, State};
use std::ffi::OsStr;
use std::str::FromStr;

/// The first words of a record's header, in their order.
pub const HEADER: [&str; 4] = ["record", "program", "module", state::NAME];

/// What a line says before its comment.
pub enum Said {
    Nothing,
    Version(&'static str),
    Program,
    Module(Checksum),
    State(Box<State>),
    Call(Call, Option<Results>),
    End(u64, Checksum),
}

/// Reads a line; `header` is what is still to come of a record's header, of which nothing may come after the first call.
pub fn read(said: &str, header: &mut &[&str]) -> Result<Said, String> {
    let words: Vec<&str> = said.split_whitespace().collect();
    let [first, rest @ ..] = words.as_slice() else {
        return Ok(Said::Nothing);
    };
    if header.first() == Some(first) {
        *header = &header[1..];
        return read_header(first, rest);
    }
    *header = &[];
    match *first {
        "end" => read_end(rest),
        _ => read_call(said),
    }
}

/// A line of a record's header, by its first word.
fn read_header(first: &str, rest: &[&str]) -> Result<Said, String> {
    match (first, rest) {
        ("program", _) => Ok(Said::Program),
        (state::NAME, _) => state::read(rest).map(|state| Said::State(state.into())),
        ("record", [VERSION]) => Ok(Said::Version(VERSION)),
        ("record", [ENDLESS]) => Ok(Said::Version(ENDLESS)),
        ("record", [version]) => Err(format!(
            "a record's version is {ENDLESS} or {VERSION}, not {}",
            shown(version)
        )),
        ("module", [sum]) => checksum(sum).map(Said::Module),
        _ => Err(format!("{first} takes one word, and has {}", rest.len())),
    }
}

fn read_end(rest: &[&str]) -> Result<Said, String> {
    match rest {
        [calls, sum] => Ok(Said::End(number(calls)?, checksum(sum)?)),
        _ => Err(format!(
            "end takes the number of calls and a checksum, and has {}",
            counted(rest.len() as u64, "word")
        )),
    }
}

/// What the numbers of a call are.
fn takes(name: &str) -> Result<&'static str, String> {
    match name {
        "play" => Ok("one number, N"),
        "touch" => Ok("three numbers, PAGE MADE POSITION"),
        "burst" => Ok("three numbers for each touch, PAGE MADE POSITION, one touch at least"),
        "page" | "why" => Ok("no number"),
        _ if HEADER.contains(&name) => Err(format!(
            "a record's header is {}, before all else and in this order",
            HEADER.join(", ")
        )),
        _ => Err("no such call; there are play, touch, burst, page and why".into()),
    }
}

fn read_call(said: &str) -> Result<Said, String> {
    let (said, results) = match said.split_once('=') {
        Some((said, results)) => (said, Some(results)),
        None => (said, None),
    };
    let mut words = said.split_whitespace();
    let name = words.next().unwrap_or_default();
    let takes = takes(name)?;
    let numbers: Vec<u32> = words.map(number).collect::<Result<_, _>>()?;
    let (touches, rest) = numbers.as_chunks();
    let touches = touches.iter().map(Touch::of);
    let call = match (name, numbers.as_slice()) {
        ("play", &[ticks]) => Call::Play(ticks),
        ("touch", &[page, made, position]) => Call::Touch(Touch::of(&[page, made, position])),
        ("burst", [_, ..]) if rest.is_empty() => Call::Burst(touches.collect()),
        ("page", []) => Call::Page,
        ("why", []) => Call::Why,
        _ => return Err(format!("{name} takes {takes}, and has {}", numbers.len())),
    };
    let results = results.map(|text| read_results(&call, text)).transpose()?;
    Ok(Said::Call(call, results))
}

fn read_results(call: &Call, text: &str) -> Result<Results, String> {
    let words: Vec<&str> = text.split_whitespace().collect();
    let [first, place, count, each @ .., clock, sound] = words.as_slice() else {
        let words = counted(words.len() as u64, "word");
        return Err(format!(
            "results are number, place, count, clock and checksum, and have {words}"
        ));
    };
    let each = each.iter().map(|word| number(word));
    let results = Results {
        answer: Answer {
            number: number(first)?,
            place: number(place)?,
            count: number(count)?,
        },
        each: each.collect::<Result<_, _>>()?,
        clock: number(clock)?,
        sound: checksum(sound)?,
    };
    let (own, numbers) = (results.each.len() as u64, results.answer.count);
    match call.each() {
        Some((unit, what)) if own != numbers => {
            let (numbers, own) = (counted(numbers, unit), counted(own, what));
            Err(format!("results count {numbers}, and have {own}"))
        }
        None if own > 0 => Err(format!(
            "results of {} have nothing between count and clock",
            call.name()
        )),
        _ => Ok(results),
    }
}

/// A decimal number, in digits alone.
pub fn number<N: FromStr>(word: &str) -> Result<N, String> {
    if !word.bytes().all(|c| c.is_ascii_digit()) {
        return Err(format!("{} is not a number in digits", shown(word)));
    }
    let parsed = word.parse();
    parsed.map_err(|_| format!("{} is too large a number", shown(word)))
}

fn checksum(word: &str) -> Result<Checksum, String> {
    Checksum::read(word).ok_or_else(|| {
        format!(
            "{} is not a checksum, 16 digits from 0 to 9 and a to f",
            shown(word)
        )
    })
}

fn shown(word: &str) -> String {
    quoted(OsStr::new(word))
}
