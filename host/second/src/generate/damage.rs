//! Files aimed at each refusal of the reader, files at the edge of it, and files damaged at random.

use super::draft::Draft;
use super::modules::{self, draft, Size};
use super::{cells, Damaged, Random};
use crate::module::{
    pattern_count, CELL_BYTES, CHANNEL_BYTES, HEADERS, HEADER_BYTES, PATTERNS, ROWS, SAMPLES,
    SONG_LENGTH, TABLE, TABLE_ENTRIES, TAG, TAGS, TAG_BYTES,
};

/// Any file for the reader: valid, at the edge, aimed at a refusal, or damaged at random.
pub fn any_file(seed: u64) -> Vec<u8> {
    let kind = Random::new(seed ^ 0x5EED).below(100);
    match kind {
        0..=29 => modules::module(seed, Size::Small),
        30..=39 => at_edge(seed),
        40..=74 => aimed(seed, 1 + u64::from(kind) % 9).bytes,
        _ => at_random(seed),
    }
}

/// A file that gets this refusal, 1 to 9, and mostly holds faults of higher numbers, too.
pub fn aimed(seed: u64, number: u64) -> Damaged {
    let mut random = Random::new(seed);
    let mut draft = draft(&mut random, Size::Small);
    draft.extra.clear();
    if number >= 7 {
        return aimed_late(&mut random, &draft, number);
    }
    let mut file = draft.bytes();
    let place = if number == 1 {
        0
    } else {
        add_fault(&mut random, &mut file, number)
    };
    add_later_faults(&mut random, &mut file, number);
    if number == 1 {
        file.truncate(random.edge_or(&[0, 1, 1080, 1083], 0, 1083) as usize);
        return Damaged {
            place: file.len() as u64,
            bytes: file,
            number,
        };
    }
    Damaged {
        bytes: file,
        number,
        place: place as u64,
    }
}

/// Refusals 7 to 9, in which the file's exact length counts.
fn aimed_late(random: &mut Random, draft: &Draft, number: u64) -> Damaged {
    let mut file = draft.bytes();
    let cells = (ROWS * draft.channels() * draft.patterns.len()) as u32;
    if number == 7 {
        for _ in 0..random.below(3) {
            let cell = random.below(cells);
            break_cell(random, &mut file, cell);
        }
        shorten(random, &mut file);
        return Damaged {
            place: file.len() as u64,
            bytes: file,
            number,
        };
    }
    let first = random.edge_or(&[0, 255, cells - 1], 0, cells - 1);
    for _ in 0..random.below(4) {
        let later = random.between(first, cells - 1);
        break_cell(random, &mut file, later);
    }
    let place = cell_place(first);
    if number == 8 {
        break_sample_number(random, &mut file, place);
        if random.chance(50) {
            break_period(random, &mut file, place);
        }
    } else {
        file[place] %= 32;
        break_period(random, &mut file, place);
    }
    Damaged {
        bytes: file,
        number,
        place: place as u64,
    }
}

/// An accepted file in which some numbers stand at the last value that is still good.
pub fn at_edge(seed: u64) -> Vec<u8> {
    let mut random = Random::new(seed);
    let mut draft = draft(&mut random, Size::Small);
    draft.extra.clear();
    if random.chance(50) {
        draft.song_length = random.pick(&[1, 128]);
    }
    if random.chance(5) {
        draft.table[random.below(TABLE_ENTRIES as u32) as usize] = 63;
        let pattern = draft.patterns[0];
        draft.patterns.resize(64, pattern);
    }
    for header in &mut draft.headers {
        header.volume = random.pick(&[0, header.volume, 64]);
        if header.length >= 2 && random.chance(50) {
            header.start = random.below(header.length - 1);
            header.repeat = header.length - header.start;
        } else if header.repeat <= 1 {
            header.start = random.pick(&[0, header.length, header.length + 1, 65_535]);
        }
    }
    for (number, row) in draft.rows().enumerate() {
        if [0, ROWS - 1].contains(&(number % ROWS)) {
            for _ in 0..4 {
                let cell = cells::any(&mut random, row);
                cell.period = random.pick(&[0, 113, 856]);
                cell.sample = random.pick(&[0, 15, 16, 31]);
            }
        }
    }
    draft.bytes()
}

/// A file damaged without aim; it may still be accepted.
pub fn at_random(seed: u64) -> Vec<u8> {
    let mut random = Random::new(seed);
    let mut file = draft(&mut random, Size::Small).bytes();
    let length = file.len() as u32;
    match random.below(9) {
        0 => file.truncate(random.below(length) as usize),
        1 => file.truncate((length - random.between(1, 4)) as usize),
        2 => {
            file.remove(random.below(length) as usize);
        }
        3 => file.insert(random.below(length) as usize, random.byte()),
        4 => scatter(&mut random, &mut file, PATTERNS as u32),
        5 => random_bytes(&mut random, &mut file),
        6 => put_tag(&mut random, &mut file),
        _ => scatter(&mut random, &mut file, length),
    }
    file
}

/// Flips bits or sets bytes below `limit`.
fn scatter(random: &mut Random, file: &mut [u8], limit: u32) {
    for _ in 0..random.between(1, 6) {
        let place = random.below(limit) as usize;
        if random.chance(70) {
            file[place] ^= 1 << random.below(8);
        } else {
            file[place] = random.byte();
        }
    }
}

/// Nothing but random bytes, at times with a good tag.
fn random_bytes(random: &mut Random, file: &mut Vec<u8>) {
    file.truncate(random.edge_or(&[0, 1, 1084, 2108, 2620, 3132], 0, 3500) as usize);
    for byte in file.iter_mut() {
        *byte = random.byte();
    }
    if file.len() >= PATTERNS && random.chance(70) {
        put_tag(random, file);
    }
}

/// Puts a good tag on bytes that may be of another count of channels.
fn put_tag(random: &mut Random, file: &mut [u8]) {
    let (tag, _) = random.pick(&TAGS);
    file[TAG..TAG + TAG_BYTES].copy_from_slice(tag);
}

fn add_later_faults(random: &mut Random, file: &mut Vec<u8>, number: u64) {
    for later in [2, 3, 4, 5, 6, 8, 9] {
        if later > number && random.chance(30) {
            add_fault(random, file, later);
        }
    }
    if random.chance(30) {
        shorten(random, file);
    }
}

/// Adds a fault of a number from 2 to 9 but 7, and gives its place.
fn add_fault(random: &mut Random, file: &mut [u8], number: u64) -> usize {
    match number {
        2 => break_tag(random, file),
        3 => break_song_length(random, file),
        4 => break_table(random, file),
        5 => break_volumes(random, file),
        6 => break_loops(random, file),
        _ => {
            let cell = random.below(256);
            break_cell(random, file, cell)
        }
    }
}

fn break_tag(random: &mut Random, file: &mut [u8]) -> usize {
    let tags: [&[u8]; 20] = [
        b"M!K!", b"FLT4", b"FLT8", b"m.k.", b"M.K,", b"N.K.", b"M.L.", b"M/K.", b"2CHN", b"5CHN",
        b"7CHN", b"9CHN", b"6CHM", b"8CHO", b"4DHN", b"6CIN", b"8chn", b"10CH", b"CHN4", b"OCTA",
    ];
    file[TAG..TAG + TAG_BYTES].copy_from_slice(random.pick(&tags));
    TAG
}

fn break_song_length(random: &mut Random, file: &mut [u8]) -> usize {
    file[SONG_LENGTH] = random.edge_or(&[0, 129, 255], 129, 255) as u8;
    SONG_LENGTH
}

fn break_table(random: &mut Random, file: &mut [u8]) -> usize {
    let last = TABLE_ENTRIES as u32 - 1;
    let first = random.edge_or(&[0, last], 0, last);
    file[TABLE + first as usize] = random.edge_or(&[64, 255], 64, 255) as u8;
    for _ in 0..random.below(3) {
        let later = random.between(first, last);
        file[TABLE + later as usize] = random.edge_or(&[64, 255], 64, 255) as u8;
    }
    TABLE + first as usize
}

fn header_place(number: u32) -> usize {
    HEADERS + HEADER_BYTES * number as usize
}

fn break_volumes(random: &mut Random, file: &mut [u8]) -> usize {
    let last = SAMPLES as u32 - 1;
    let first = random.edge_or(&[0, last], 0, last);
    file[header_place(first) + 25] = random.edge_or(&[65, 255], 65, 255) as u8;
    for _ in 0..random.below(3) {
        let later = random.between(first, last);
        file[header_place(later) + 25] = random.edge_or(&[65, 255], 65, 255) as u8;
    }
    header_place(first) + 25
}

fn break_loops(random: &mut Random, file: &mut [u8]) -> usize {
    let last = SAMPLES as u32 - 1;
    let first = random.edge_or(&[0, last], 0, last);
    break_loop(random, file, first);
    for _ in 0..random.below(3) {
        let later = random.between(first, last);
        break_loop(random, file, later);
    }
    header_place(first) + 26
}

/// A repeat length above 1 that reaches past the length, by one word or by so much that the
/// sum leaves two bytes.
fn break_loop(random: &mut Random, file: &mut [u8], number: u32) {
    let header = header_place(number);
    let length = u32::from(file[header + 22]) * 256 + u32::from(file[header + 23]);
    let (start, repeat) = match random.below(4) {
        0 => (65_535, random.edge_or(&[2, 65_535], 2, 65_535)),
        1 => (random.below(length.max(1)), 65_535),
        2 => (length.max(1) - 1, 2),
        _ => {
            let start = random.below(length.max(1));
            (start, (length + 1 - start).max(2))
        }
    };
    file[header + 26..header + 28].copy_from_slice(&(start as u16).to_be_bytes());
    file[header + 28..header + 30].copy_from_slice(&(repeat as u16).to_be_bytes());
}

fn cell_place(cell: u32) -> usize {
    PATTERNS + CELL_BYTES * cell as usize
}

fn break_cell(random: &mut Random, file: &mut [u8], cell: u32) -> usize {
    let place = cell_place(cell);
    if random.chance(50) {
        break_sample_number(random, file, place);
    } else {
        break_period(random, file, place);
    }
    place
}

fn break_sample_number(random: &mut Random, file: &mut [u8], place: usize) {
    let high = random.edge_or(&[2, 15], 2, 15) as u8;
    file[place] = file[place] % 16 + 16 * high;
}

fn break_period(random: &mut Random, file: &mut [u8], place: usize) {
    let low = random.edge_or(&[1, 107, 108, 112], 1, 112);
    let high = random.edge_or(&[857, 907, 908, 4_095], 857, 4_095);
    let period = random.pick(&[low, high]);
    file[place] = file[place] / 16 * 16 + (period / 256) as u8;
    file[place + 1] = (period % 256) as u8;
}

/// Cuts an exact file, mostly by one byte or where the patterns of fewer channels would end, never
/// below its start.
fn shorten(random: &mut Random, file: &mut Vec<u8>) {
    let last = file.len() as u32 - 1;
    let channels = random.pick(&[4, 6, 8]);
    let patterns_end = PATTERNS + CHANNEL_BYTES * channels * pattern_count(file);
    let fewer = last.min(patterns_end as u32);
    let cut = random.edge_or(&[last, last - 1, 1084, fewer, fewer - 1], 1084, last);
    file.truncate(cut as usize);
}
