//! A module under construction, and the bytes of its file.

use super::Random;
use crate::module::{
    tag_channels, Cell, CELL_BYTES, CHANNEL_BYTES, PATTERNS, ROWS, TABLE_ENTRIES, TAG_BYTES,
};
use crate::voice::CHANNELS;

/// Cells of a pattern: rows of eight, of which the file gets those of the tag's channels.
pub const CELLS: usize = ROWS * CHANNELS;

/// What tags are drawn from: four channels are as common as six and eight together.
const TAGS: [&[u8; TAG_BYTES]; 8] = [
    b"M.K.", b"M.K.", b"M.K.", b"4CHN", b"6CHN", b"6CHN", b"8CHN", b"8CHN",
];

/// One sample's header, lengths and starts in words.
#[derive(Clone, Debug)]
pub struct Header {
    pub name: [u8; 22],
    pub length: u32,
    pub finetune: u8,
    pub volume: u8,
    pub start: u32,
    pub repeat: u32,
}

#[derive(Clone, Debug)]
pub struct Draft {
    pub title: [u8; 20],
    pub headers: Vec<Header>,
    pub song_length: u8,
    pub ignored: u8,
    pub table: [u8; TABLE_ENTRIES],
    /// One of the accepted tags.
    pub tag: [u8; TAG_BYTES],
    pub patterns: Vec<[Cell; CELLS]>,
    /// All samples' bytes in order.
    pub sample_bytes: Vec<u8>,
    pub extra: Vec<u8>,
}

impl Draft {
    /// One empty pattern of four channels, played once, and no samples.
    pub fn empty() -> Draft {
        Draft::tagged(b"M.K.")
    }

    /// The same with any of the tags.
    pub fn any(random: &mut Random) -> Draft {
        Draft::tagged(random.pick(&TAGS))
    }

    /// The same with another tag and its channels.
    pub fn tagged(tag: &[u8; TAG_BYTES]) -> Draft {
        let header = Header {
            name: [0; 22],
            length: 0,
            finetune: 0,
            volume: 0,
            start: 0,
            repeat: 0,
        };
        Draft {
            title: [0; 20],
            headers: vec![header; 31],
            song_length: 1,
            ignored: 127,
            table: [0; TABLE_ENTRIES],
            tag: *tag,
            patterns: vec![[Cell::default(); CELLS]],
            sample_bytes: Vec::new(),
            extra: Vec::new(),
        }
    }

    /// The channels that the tag names.
    pub fn channels(&self) -> usize {
        tag_channels(&self.tag) as usize
    }

    /// The rows of all patterns in the file's order, each with the cells that the file gets.
    pub fn rows(&mut self) -> impl Iterator<Item = &mut [Cell]> {
        let channels = self.channels();
        let rows = self.patterns.as_flattened_mut().chunks_exact_mut(CHANNELS);
        rows.map(move |row| &mut row[..channels])
    }

    /// The row that is played first.
    pub fn first_row(&mut self) -> &mut [Cell] {
        let first = usize::from(self.table[0]);
        self.rows()
            .nth(ROWS * first)
            .expect("a pattern of the table")
    }

    /// Adds an unlooped sample with these bytes; samples are added in the order of their numbers.
    pub fn add_sample(&mut self, number: usize, volume: u8, bytes: &[u8]) {
        self.add_looped(number, volume, 0, 0, bytes);
    }

    /// Adds a sample that repeats `repeat` words from word `start`.
    pub fn add_looped(&mut self, number: usize, volume: u8, start: u32, repeat: u32, bytes: &[u8]) {
        let header = &mut self.headers[number - 1];
        header.length = bytes.len() as u32 / 2;
        header.volume = volume;
        header.start = start;
        header.repeat = repeat;
        self.sample_bytes.extend_from_slice(bytes);
    }

    /// Sets a cell of a pattern; `effect` is the effect and its parameter as trackers print
    /// them, 0xE62 for effect E with 6 and 2.
    pub fn put(
        &mut self,
        pattern: usize,
        row: usize,
        channel: usize,
        sample: u32,
        period: u32,
        effect: u32,
    ) {
        self.patterns[pattern][CHANNELS * row + channel] = Cell {
            sample,
            period,
            effect: effect / 256,
            parameter: effect % 256,
        };
    }

    pub fn bytes(&self) -> Vec<u8> {
        let pattern_bytes = CHANNEL_BYTES * self.channels() * self.patterns.len();
        let mut file = Vec::with_capacity(
            PATTERNS + pattern_bytes + self.sample_bytes.len() + self.extra.len(),
        );
        file.extend_from_slice(&self.title);
        for header in &self.headers {
            file.extend_from_slice(&header.name);
            file.extend_from_slice(&word(header.length));
            file.extend_from_slice(&[header.finetune, header.volume]);
            file.extend_from_slice(&word(header.start));
            file.extend_from_slice(&word(header.repeat));
        }
        file.extend_from_slice(&[self.song_length, self.ignored]);
        file.extend_from_slice(&self.table);
        file.extend_from_slice(&self.tag);
        for row in self.patterns.as_flattened().chunks_exact(CHANNELS) {
            for cell in &row[..self.channels()] {
                file.extend_from_slice(&cell_bytes(cell));
            }
        }
        file.extend_from_slice(&self.sample_bytes);
        file.extend_from_slice(&self.extra);
        file
    }
}

fn word(number: u32) -> [u8; 2] {
    [(number / 256) as u8, (number % 256) as u8]
}

fn cell_bytes(cell: &Cell) -> [u8; CELL_BYTES] {
    [
        (cell.sample / 16 * 16 + cell.period / 256) as u8,
        (cell.period % 256) as u8,
        (cell.sample % 16 * 16 + cell.effect) as u8,
        cell.parameter as u8,
    ]
}
