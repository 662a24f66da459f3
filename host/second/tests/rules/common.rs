//! What the rule tests share: names of the state's cells, a small song, and ways to play it.

use second::generate::draft::Draft;
use second::{fresh, trace_tick, translate, Answer, Trace, STATE_CELLS};

pub const POSITION: usize = 0;
pub const ROW: usize = 1;
pub const TICK: usize = 2;
pub const DELAY: usize = 3;
pub const NEXT_POSITION: usize = 4;
pub const NEXT_ROW: usize = 5;
pub const LOOP_ROW: usize = 6;
pub const LOOP_COUNT: usize = 7;
pub const SPEED: usize = 8;
pub const TEMPO: usize = 9;
pub const REMAINDER: usize = 10;
pub const CLOCK: usize = 11;
pub const PAGE: usize = 12;

/// Channel cells, counted from the channel's first.
pub const LATCHED: usize = 0;
pub const FINETUNE: usize = 1;
pub const VOLUME: usize = 2;
pub const PERIOD: usize = 3;
pub const TARGET: usize = 4;
pub const MEMORY: usize = 5;
pub const VIBRATO_X: usize = 6;
pub const VIBRATO_Y: usize = 7;
pub const VIBRATO_PLACE: usize = 8;
pub const VIBRATO_FORM: usize = 9;
pub const TREMOLO_X: usize = 10;
pub const TREMOLO_Y: usize = 11;
pub const TREMOLO_PLACE: usize = 12;
pub const TREMOLO_FORM: usize = 13;
pub const SOUNDING: usize = 14;
pub const VOICE_PERIOD: usize = 15;
pub const VOICE_VOLUME: usize = 16;
pub const INDEX: usize = 17;
pub const FRACTION: usize = 18;
pub const STOPPED: usize = 19;

pub const ACCEPTED: Answer = Answer {
    number: 0,
    place: 0,
    count: 0,
};

pub type Cells = [u32; STATE_CELLS];

pub fn refused(number: u64, place: u64) -> Answer {
    Answer {
        number,
        place,
        count: 0,
    }
}

pub fn played(count: u64) -> Answer {
    Answer {
        number: 0,
        place: 0,
        count,
    }
}

/// The place of a channel's cell in the state, channels counted from 1 as in the paper.
pub fn at(channel: usize, cell: usize) -> usize {
    13 + 20 * (channel - 1) + cell
}

pub type Tag = &'static [u8; 4];

/// The tags, each with its channels.
pub const TAGS: [(Tag, usize); 4] = [(b"M.K.", 4), (b"4CHN", 4), (b"6CHN", 6), (b"8CHN", 8)];

/// A song of four channels.
pub fn song() -> Draft {
    song_of(b"M.K.")
}

/// Sample 1: 20 words of 100, volume 40. Sample 2: 300 words of 50, looped from word 100 to
/// word 200, volume 64. Sample 3: empty, volume 20.
pub fn song_of(tag: Tag) -> Draft {
    let mut draft = Draft::tagged(tag);
    draft.add_sample(1, 40, &[100; 40]);
    draft.add_looped(2, 64, 100, 100, &[50; 600]);
    draft.headers[2].volume = 20;
    draft
}

/// A song whose first row has these cells, on channels 1, 2 and so on, each as sample number,
/// period and effect.
pub fn row(cells: &[(u32, u32, u32)]) -> Draft {
    rows(&[cells])
}

/// A song whose first rows have these cells.
pub fn rows(rows: &[&[(u32, u32, u32)]]) -> Draft {
    rows_of(b"M.K.", rows)
}

/// The same of another tag.
pub fn rows_of(tag: Tag, rows: &[&[(u32, u32, u32)]]) -> Draft {
    let mut draft = song_of(tag);
    for (row, cells) in rows.iter().enumerate() {
        for (channel, &(sample, period, effect)) in cells.iter().enumerate() {
            draft.put(0, row, channel, sample, period, effect);
        }
    }
    draft
}

/// Plays ticks one by one from a state.
pub fn traces_from(draft: &Draft, cells: &mut Cells, ticks: usize) -> Vec<Trace> {
    let file = draft.bytes();
    (0..ticks)
        .map(|_| trace_tick(&file, cells).expect("a legal call"))
        .collect()
}

/// Plays ticks one by one from the fresh state.
pub fn traces(draft: &Draft, ticks: usize) -> Vec<Trace> {
    traces_from(draft, &mut fresh(), ticks)
}

/// The state some ticks after the fresh one.
pub fn state_after(draft: &Draft, ticks: usize) -> Cells {
    let mut cells = fresh();
    traces_from(draft, &mut cells, ticks);
    cells
}

/// The places of the ticks that begin a row, as position and row.
pub fn places(draft: &Draft, ticks: usize) -> Vec<(u32, u32)> {
    let mut places = Vec::new();
    for trace in traces(draft, ticks) {
        if trace.tick == 0 {
            places.push((trace.position, trace.row));
        }
    }
    places
}

/// A stream of these records whose version has no count of channels.
pub fn stream(version: u8, count: u32, records: &[u8]) -> Vec<u8> {
    with_length(&[&[version], &count.to_be_bytes()[..], records])
}

/// A stream of version 3 for so many channels.
pub fn counted(channels: u8, count: u32, records: &[u8]) -> Vec<u8> {
    with_length(&[&[3, channels], &count.to_be_bytes()[..], records])
}

/// These bytes after the count of them.
pub fn with_length(parts: &[&[u8]]) -> Vec<u8> {
    let following = parts.concat();
    let length = following.len() as u32;
    [&length.to_be_bytes()[..], &following].concat()
}

/// The stream of a module's first ticks.
pub fn translated(file: &[u8], ticks: u32) -> Vec<u8> {
    // Ten bytes, and for each tick two and six a channel at most.
    let mut room = vec![0; 10 + 50 * ticks as usize];
    let answer = translate(file, ticks, &mut room);
    assert_eq!(answer.number, 0, "the file is accepted");
    room.truncate(answer.count as usize);
    room
}

/// The sounded periods of channel 1, tick by tick.
pub fn periods(draft: &Draft, ticks: usize) -> Vec<u32> {
    traces(draft, ticks)
        .iter()
        .map(|trace| trace.voices[0].period)
        .collect()
}

/// The sounded volumes of channel 1, tick by tick.
pub fn volumes(draft: &Draft, ticks: usize) -> Vec<u32> {
    traces(draft, ticks)
        .iter()
        .map(|trace| trace.voices[0].volume)
        .collect()
}
