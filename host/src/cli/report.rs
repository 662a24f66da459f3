//! An answer as a line: for a person, bare, or as an object.
use super::json::{self, Fields};
use super::name::{Name, FILE};
use super::output;
use super::place;
use super::stop::{Refusal, Stop};
use super::words::Words;
use lampthistle::Answer;
use std::ffi::OsStr;

/// Tells a refusal as the command's result.
pub fn refused(words: &Words, refusal: &Refusal) -> Result<(), Stop> {
    output::tell(words, &refusal_line(words, refusal))
}

pub fn refusal_line(words: &Words, refusal: &Refusal) -> String {
    let (line, found) = (refusal.line(), &refusal.found);
    if words.json {
        json::object(refusal_fields(refusal))
    } else if words.plain {
        plain(&refusal.answer)
    } else if found.is_empty() {
        format!("{line}\n")
    } else {
        format!("{line} ({})\n", place::shown(found))
    }
}

fn refusal_fields(refusal: &Refusal) -> Fields {
    let mut fields = meant(&refusal.name, &refusal.answer, refusal.meaning);
    let found = refusal.found.iter();
    fields.extend(found.map(|(name, value)| (*name, value.clone())));
    fields
}

/// The object of work whose result was written to a file of this name.
pub fn written(name: &Name, out: &OsStr, counts: Fields) -> String {
    let mut fields = accepted(name);
    fields.extend(counts);
    fields.extend(Name::of(out).fields(["out", "out_bytes"]));
    json::object(fields)
}

/// The first fields of an object of a file that is accepted.
pub fn accepted(name: &Name) -> Fields {
    answered(name, &ACCEPTED)
}

/// The first fields of an answer's object.
pub fn answered(name: &Name, answer: &Answer) -> Fields {
    meant(name, answer, answer.meaning())
}

fn meant(name: &Name, answer: &Answer, meaning: &str) -> Fields {
    let mut fields = name.fields(FILE);
    fields.extend([
        ("number", answer.number.into()),
        ("place", answer.place.into()),
        ("meaning", meaning.into()),
    ]);
    fields
}

const ACCEPTED: Answer = Answer {
    number: 0,
    place: 0,
    count: 0,
};

/// A bare answer that is accepted.
pub fn plain_accepted(count: u64) -> String {
    plain(&Answer { count, ..ACCEPTED })
}

pub fn plain(answer: &Answer) -> String {
    format!("{} {} {}\n", answer.number, answer.place, answer.count)
}
