//! How long a song is: it is played without its sound until it comes back to a place where it has been.
use super::input::Source;
use super::progress::Progress;
use super::song::{Song, TICK_FRAMES};
use super::stop::Stop;
use lampthistle::{cell, State};
use std::collections::HashSet;

/// Ticks that are played at most: more than five hours at tempo 125.
pub const MOST_TICKS: u64 = 1_000_000;

/// A song until it comes back.
pub struct Course {
    pub ticks: u32,
    pub frames: u64,
    /// Where it goes on.
    pub position: u32,
    pub row: u32,
}

/// What says where a song is before a row: how fast it plays and how it sounds is left out.
const PLACE: [usize; 4] = [cell::POSITION, cell::ROW, cell::LOOP_ROW, cell::LOOP_COUNT];

fn place(state: &State) -> [u32; PLACE.len()] {
    PLACE.map(|cell| state.0[cell])
}

/// The course of an accepted module; none if it does not come back within the ticks that are played.
pub fn course(source: &Source) -> Result<Option<Course>, Stop> {
    let mut song = Song::silent(&source.bytes);
    let mut been = HashSet::from([place(&song.state)]);
    let mut progress = Progress::new();
    let mut frames = 0;
    for ticks in 1..=MOST_TICKS {
        let next = song.next(TICK_FRAMES);
        let numbers = next.map_err(|answer| source.refused(answer))?;
        frames += numbers.unwrap_or(&[]).len() as u64 / 2;
        progress.show("ticks at most", ticks, MOST_TICKS);
        let state = &song.state;
        if state.tick() == 0 && !been.insert(place(state)) {
            return Ok(Some(Course {
                ticks: state.clock(),
                frames,
                position: state.position(),
                row: state.row(),
            }));
        }
    }
    Ok(None)
}

/// The ticks of a song that comes back.
pub fn once(source: &Source) -> Result<u32, Stop> {
    match course(source)? {
        Some(course) => Ok(course.ticks),
        None => Err(Stop::Cannot(format!(
            "{}: does not come back to a place within {MOST_TICKS} ticks; say --ticks",
            source.name
        ))),
    }
}

/// The ticks up to the first one of a position, with a row of a row there, and with it.
pub fn ticks_to(source: &Source, position: u32, row: Option<u32>) -> Result<u32, Stop> {
    let most = course(source)?.map_or(MOST_TICKS, |course| course.ticks.into());
    let mut song = Song::silent(&source.bytes);
    for ticks in 1..=most {
        let state = &song.state;
        if state.position() == position && row.is_none_or(|row| state.row() == row) {
            return Ok(ticks as u32);
        }
        let next = song.next(TICK_FRAMES);
        let _ = next.map_err(|answer| source.refused(answer))?;
    }
    let row = row.map_or(String::new(), |row| format!(", row {row}"));
    Err(Stop::Cannot(format!(
        "{}: does not come to position {position}{row} within {most} ticks",
        source.name
    )))
}
