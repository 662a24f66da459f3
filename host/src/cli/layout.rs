//! Where the parts of a module lie (docs/FORMATS.md). Whether a file is a module at all, and how many channels it has, the library says.
use std::ops::Range;

pub const TITLE: Range<usize> = 0..20;
pub const HEADERS: Range<usize> = 20..950;
pub const HEADER_BYTES: usize = 30;
pub const SONG_LENGTH: usize = 950;
pub const TABLE: Range<usize> = 952..1080;
pub const TAG: Range<usize> = 1080..1084;
const PATTERNS: usize = 1084;
const ROWS: usize = 64;
const CELL_BYTES: usize = 4;
const MOST_PATTERNS: usize = 64;
const SAMPLES: usize = (HEADERS.end - HEADERS.start) / HEADER_BYTES;

/// The bytes of the largest module: no file's bytes after them are looked at.
pub const MOST_BYTES: usize = PATTERNS
    + MOST_PATTERNS * ROWS * CELL_BYTES * lampthistle::CHANNELS
    + SAMPLES * 2 * u16::MAX as usize;

/// A header's parts, from its first byte on.
const NAME: Range<usize> = 0..22;
const LENGTH: usize = 22;
const FINETUNE: usize = 24;
const VOLUME: usize = 25;
const LOOP_START: usize = 26;
const LOOP_LENGTH: usize = 28;

/// A sample's header, lengths in bytes.
pub struct Header<'a> {
    pub number: usize,
    pub name: &'a [u8],
    pub length: u32,
    /// -8 to 7.
    pub finetune: i8,
    pub volume: u8,
    pub loop_start: u32,
    pub loop_length: u32,
}

impl Header<'_> {
    /// Start and length of the loop; a repeat length of one word is none.
    pub fn looped(&self) -> Option<(u32, u32)> {
        (self.loop_length > 2).then_some((self.loop_start, self.loop_length))
    }
}

/// All headers in order; samples are numbered from 1.
pub fn headers(file: &[u8]) -> impl Iterator<Item = Header<'_>> {
    let word =
        |bytes: &[u8], at: usize| 2 * (u32::from(bytes[at]) * 256 + u32::from(bytes[at + 1]));
    let all = file[HEADERS].chunks_exact(HEADER_BYTES).enumerate();
    all.map(move |(k, bytes)| Header {
        number: k + 1,
        name: &bytes[NAME],
        length: word(bytes, LENGTH),
        finetune: signed(bytes[FINETUNE] % 16),
        volume: bytes[VOLUME],
        loop_start: word(bytes, LOOP_START),
        loop_length: word(bytes, LOOP_LENGTH),
    })
}

/// Four bits as a number with a sign: 8 to 15 are -8 to -1.
fn signed(bits: u8) -> i8 {
    let number = bits as i8;
    if number < 8 {
        number
    } else {
        number - 16
    }
}

/// The table's entries that are played: the pattern at each song position.
pub fn played(file: &[u8]) -> &[u8] {
    &file[TABLE][..file[SONG_LENGTH].into()]
}

pub fn pattern_count(file: &[u8]) -> usize {
    let last = file[TABLE].iter().max();
    last.map_or(0, |&last| usize::from(last) + 1)
}

/// How many channels a module has.
pub fn channels(file: &[u8]) -> usize {
    lampthistle::channels(file) as usize
}

/// The bytes of a row of so many channels, and of a pattern.
fn row_bytes(channels: usize) -> usize {
    CELL_BYTES * channels
}

fn pattern_bytes(channels: usize) -> usize {
    ROWS * row_bytes(channels)
}

/// Where a cell is; channels from 1, the others from 0.
#[derive(Clone, Copy)]
pub struct Spot {
    pub pattern: usize,
    pub row: usize,
    pub channel: usize,
}

/// What a cell holds.
pub struct Cell {
    pub sample: u8,
    pub period: u16,
    /// E0 to EF are 0xE0 to 0xEF.
    pub effect: u8,
    pub parameter: u8,
}

/// The cell at a byte of the patterns of so many channels.
pub fn spot(channels: usize, place: usize) -> Spot {
    let (at, row) = (place - PATTERNS, row_bytes(channels));
    Spot {
        pattern: at / row / ROWS,
        row: at / row % ROWS,
        channel: at % row / CELL_BYTES + 1,
    }
}

pub fn cell(file: &[u8], place: usize) -> Cell {
    const EXTENDED: u8 = 0xE;
    let [b0, b1, b2, b3] = [0, 1, 2, 3].map(|k| file[place + k]);
    let effect = b2 % 16;
    Cell {
        sample: b0 / 16 * 16 + b2 / 16,
        period: u16::from(b0 % 16) * 256 + u16::from(b1),
        effect: if effect == EXTENDED {
            EXTENDED * 16 + b3 / 16
        } else {
            effect
        },
        parameter: b3,
    }
}

/// The cells of the patterns that are played, each pattern once, in the song's order.
pub fn played_cells(file: &[u8]) -> impl Iterator<Item = (Spot, Cell)> + '_ {
    let mut patterns: Vec<usize> = Vec::new();
    for &pattern in played(file) {
        if !patterns.contains(&pattern.into()) {
            patterns.push(pattern.into());
        }
    }
    let channels = channels(file);
    let begin = move |pattern| PATTERNS + pattern_bytes(channels) * pattern;
    let places = patterns
        .into_iter()
        .flat_map(move |pattern| (begin(pattern)..begin(pattern + 1)).step_by(CELL_BYTES));
    places.map(move |place| (spot(channels, place), cell(file, place)))
}

/// A module without notes and samples, where a stream is judged alone: of the stream's channels, or of four where no module has as many.
pub fn empty(channels: usize) -> Vec<u8> {
    let (channels, tag) = match channels {
        6 => (6, b"6CHN"),
        8 => (8, b"8CHN"),
        _ => (4, b"4CHN"),
    };
    let mut file = vec![0; PATTERNS + pattern_bytes(channels)];
    file[SONG_LENGTH] = 1;
    file[TAG].copy_from_slice(tag);
    file
}

/// The module without its samples' bytes: it plays the same ticks (the sequencer's `same_ticks`), with every voice silent, so that a
/// tick takes little time.
pub fn silenced(file: &[u8]) -> Vec<u8> {
    let end = PATTERNS + pattern_bytes(channels(file)) * pattern_count(file);
    let mut silent = file[..end].to_vec();
    for header in silent[HEADERS].chunks_exact_mut(HEADER_BYTES) {
        header[LENGTH..LENGTH + 2].fill(0);
        header[LOOP_START..].fill(0);
    }
    silent
}

/// Text of a file up to its first zero byte.
pub fn readable(bytes: &[u8]) -> String {
    printable(bytes.split(|&byte| byte == 0).next().unwrap_or(bytes))
}

/// Bytes as text, with a dot for what does not print.
pub fn printable(bytes: &[u8]) -> String {
    let shown = |&byte: &u8| match byte {
        b' '..=b'~' => char::from(byte),
        _ => '.',
    };
    bytes.iter().map(shown).collect()
}
