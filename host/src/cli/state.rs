//! States as text: the word state, and fresh or all cells (docs/FORMATS.md).
use super::input::Source;
use super::lines::number;
use super::stop::{Refusal, Stop};
use lampthistle::{State, STATE_CELLS};

pub const NAME: &str = "state";
const FRESH: &str = "fresh";

/// The state that the words after the first say, or what is wrong in them.
pub fn read(words: &[&str]) -> Result<State, String> {
    if words == [FRESH] {
        return Ok(lampthistle::fresh());
    }
    let cells: Vec<u32> = words
        .iter()
        .map(|word| number(word))
        .collect::<Result<_, _>>()?;
    let state = cells.try_into().map(State);
    state.map_err(|cells| {
        let has = cells.len();
        format!("a state is {FRESH} or {STATE_CELLS} numbers, and has {has}")
    })
}

/// The line that says a state.
pub fn line(state: &State) -> String {
    if state.0 == lampthistle::fresh().0 {
        return format!("{NAME} {FRESH}\n");
    }
    let cells: String = state.0.iter().map(|cell| format!(" {cell}")).collect();
    format!("{NAME}{cells}\n")
}

/// The state of a file that holds one line; without the line's end it may be cut.
pub fn parse(source: &Source) -> Result<State, Stop> {
    let text = String::from_utf8_lossy(&source.bytes);
    let words: Vec<&str> = text.split_whitespace().collect();
    let state = match words.as_slice() {
        [NAME, cells @ ..] if text.ends_with('\n') => read(cells).ok(),
        _ => None,
    };
    state.ok_or_else(|| {
        let name = &source.name;
        Stop::Cannot(format!(
            "{name}: not a line of the word state and {FRESH} or {STATE_CELLS} numbers"
        ))
    })
}

/// Stops where the state that a file holds is not legal for an accepted module.
pub fn check_legal(module: &Source, holds: &Source, mut state: State) -> Result<(), Stop> {
    let answer = lampthistle::play(&module.bytes, &mut state, 0, &mut []);
    if answer.is_accepted() {
        return Ok(());
    }
    Err(Stop::Refused(Refusal {
        name: holds.name.clone(),
        answer,
        meaning: answer.meaning(),
        found: Vec::new(),
    }))
}
