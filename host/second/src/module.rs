//! Reads a module file: the refusals 1 to 9, and the parts an accepted file hands on.

use crate::finetune::signed;
use crate::Answer;

pub const HEADERS: usize = 20;
pub const HEADER_BYTES: usize = 30;
pub const SAMPLES: usize = 31;
pub const SONG_LENGTH: usize = 950;
pub const TABLE: usize = 952;
pub const TABLE_ENTRIES: usize = 128;
pub const TAG: usize = 1080;
pub const PATTERNS: usize = 1084;
pub const ROWS: usize = 64;
pub const CELL_BYTES: usize = 4;
/// Bytes of a channel in one pattern.
pub const CHANNEL_BYTES: usize = ROWS * CELL_BYTES;

/// A tag has as many bytes.
pub const TAG_BYTES: usize = 4;
/// The tags, each with the channels that it names.
pub const TAGS: [(&[u8; TAG_BYTES], u32); 4] =
    [(b"M.K.", 4), (b"4CHN", 4), (b"6CHN", 6), (b"8CHN", 8)];

pub const LAST_SAMPLE: u32 = 31;
pub const LOUDEST: u32 = 64;
/// The limits of a cell's period.
pub const LOWEST_NOTE: u32 = 113;
pub const HIGHEST_NOTE: u32 = 856;

/// One sample of an accepted module.
#[derive(Clone, Copy)]
pub struct Sample<'a> {
    pub bytes: &'a [u8],
    pub finetune: i32,
    pub volume: u32,
    pub looped: bool,
    /// The loop's first byte; without meaning where the sample isn't looped.
    pub loop_first: u32,
    /// The byte index at which a voice loops or stops.
    pub end: u32,
}

impl Sample<'_> {
    /// What the byte at an index below the end reads as: bytes 0 and 1 of each sample as 0.
    pub fn read(&self, index: u32) -> i8 {
        if index < 2 {
            0
        } else {
            self.bytes[index as usize] as i8
        }
    }
}

#[derive(Clone, Copy, Debug, PartialEq, Eq, Default)]
pub struct Cell {
    pub sample: u32,
    pub period: u32,
    pub effect: u32,
    pub parameter: u32,
}

/// An accepted module file.
#[derive(Clone, Copy)]
pub struct Module<'a> {
    file: &'a [u8],
    samples: [Sample<'a>; SAMPLES],
    pub channels: u32,
    pub song_length: u32,
}

impl<'a> Module<'a> {
    /// The module in `file`, or the file's refusal.
    pub fn read(file: &'a [u8]) -> Result<Module<'a>, Answer> {
        check_start(file)?;
        check_table(file)?;
        check_volumes(file)?;
        check_loops(file)?;
        let channels = channels(file);
        let pattern_bytes = CHANNEL_BYTES * channels as usize;
        let patterns_end = PATTERNS + pattern_bytes * pattern_count(file);
        if file.len() < patterns_end + all_sample_bytes(file) {
            return Err(Answer::refused(7, file.len()));
        }
        check_cells(&file[PATTERNS..patterns_end])?;
        Ok(Module {
            file,
            samples: samples(file, patterns_end),
            channels,
            song_length: u32::from(file[SONG_LENGTH]),
        })
    }

    /// The sample of this number, 1 to 31; none for 0.
    pub fn sample(&self, number: u32) -> Option<&Sample<'a>> {
        if number == 0 {
            None
        } else {
            Some(&self.samples[number as usize - 1])
        }
    }

    /// The cell of a channel, counted from 0, at a song position and row.
    pub fn cell(&self, position: u32, row: u32, channel: usize) -> Cell {
        let pattern = usize::from(self.file[TABLE + position as usize]);
        let rows_before = ROWS * pattern + row as usize;
        let cells_before = self.channels as usize * rows_before + channel;
        let place = PATTERNS + CELL_BYTES * cells_before;
        read_cell(&self.file[place..place + CELL_BYTES])
    }
}

/// The channels that the file's tag names; 0 where the file is too short for one or it is unknown.
pub fn channels(file: &[u8]) -> u32 {
    file.get(TAG..TAG + TAG_BYTES).map_or(0, tag_channels)
}

/// The channels that a tag names; 0 where it is unknown.
pub fn tag_channels(tag: &[u8]) -> u32 {
    let named = TAGS.iter().find(|(known, _)| *known == tag);
    named.map_or(0, |&(_, channels)| channels)
}

/// No note, or one whose period is within the limits.
fn legal_note(period: u32) -> bool {
    period == 0 || (LOWEST_NOTE..=HIGHEST_NOTE).contains(&period)
}

fn word(file: &[u8], place: usize) -> u32 {
    u32::from(file[place]) * 256 + u32::from(file[place + 1])
}

fn header(number: usize) -> usize {
    HEADERS + HEADER_BYTES * number
}

fn length_words(file: &[u8], number: usize) -> u32 {
    word(file, header(number) + 22)
}

/// The finetune in the header's low four bits.
fn finetune(file: &[u8], number: usize) -> i32 {
    signed(u32::from(file[header(number) + 24]) % 16)
}

fn volume_place(number: usize) -> usize {
    header(number) + 25
}

fn repeat_start_place(number: usize) -> usize {
    header(number) + 26
}

fn repeat_length(file: &[u8], number: usize) -> u32 {
    word(file, header(number) + 28)
}

fn check_start(file: &[u8]) -> Result<(), Answer> {
    if file.len() < PATTERNS {
        return Err(Answer::refused(1, file.len()));
    }
    if channels(file) == 0 {
        return Err(Answer::refused(2, TAG));
    }
    if file[SONG_LENGTH] == 0 || file[SONG_LENGTH] > 128 {
        return Err(Answer::refused(3, SONG_LENGTH));
    }
    Ok(())
}

fn check_table(file: &[u8]) -> Result<(), Answer> {
    for place in TABLE..TABLE + TABLE_ENTRIES {
        if file[place] > 63 {
            return Err(Answer::refused(4, place));
        }
    }
    Ok(())
}

fn check_volumes(file: &[u8]) -> Result<(), Answer> {
    for number in 0..SAMPLES {
        let place = volume_place(number);
        if u32::from(file[place]) > LOUDEST {
            return Err(Answer::refused(5, place));
        }
    }
    Ok(())
}

fn check_loops(file: &[u8]) -> Result<(), Answer> {
    for number in 0..SAMPLES {
        let place = repeat_start_place(number);
        let start = word(file, place);
        let repeat = repeat_length(file, number);
        if repeat > 1 && start + repeat > length_words(file, number) {
            return Err(Answer::refused(6, place));
        }
    }
    Ok(())
}

/// One more than the largest of all 128 entries, played or not.
pub fn pattern_count(file: &[u8]) -> usize {
    let mut largest = 0;
    for place in TABLE..TABLE + TABLE_ENTRIES {
        largest = largest.max(usize::from(file[place]));
    }
    largest + 1
}

fn all_sample_bytes(file: &[u8]) -> usize {
    let mut words = 0;
    for number in 0..SAMPLES {
        words += length_words(file, number) as usize;
    }
    2 * words
}

fn check_cells(patterns: &[u8]) -> Result<(), Answer> {
    for (number, bytes) in patterns.chunks_exact(CELL_BYTES).enumerate() {
        let cell = read_cell(bytes);
        let place = PATTERNS + CELL_BYTES * number;
        if cell.sample > LAST_SAMPLE {
            return Err(Answer::refused(8, place));
        }
        if !legal_note(cell.period) {
            return Err(Answer::refused(9, place));
        }
    }
    Ok(())
}

fn read_cell(bytes: &[u8]) -> Cell {
    let b0 = u32::from(bytes[0]);
    let b1 = u32::from(bytes[1]);
    let b2 = u32::from(bytes[2]);
    let b3 = u32::from(bytes[3]);
    Cell {
        sample: b0 / 16 * 16 + b2 / 16,
        period: b0 % 16 * 256 + b1,
        effect: b2 % 16,
        parameter: b3,
    }
}

fn samples(file: &[u8], patterns_end: usize) -> [Sample<'_>; SAMPLES] {
    let silent = Sample {
        bytes: &[],
        finetune: 0,
        volume: 0,
        looped: false,
        loop_first: 0,
        end: 0,
    };
    let mut samples = [silent; SAMPLES];
    let mut place = patterns_end;
    for (number, sample) in samples.iter_mut().enumerate() {
        let length = 2 * length_words(file, number);
        let start = word(file, repeat_start_place(number));
        let repeat = repeat_length(file, number);
        let looped = repeat > 1;
        *sample = Sample {
            bytes: &file[place..place + length as usize],
            finetune: finetune(file, number),
            volume: u32::from(file[volume_place(number)]),
            looped,
            loop_first: 2 * start,
            end: if looped { 2 * (start + repeat) } else { length },
        };
        place += length as usize;
    }
    samples
}
