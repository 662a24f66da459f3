//! Valid modules that use every effect, in combination and at the edges.

use super::cells::{self, put_effect, Palette};
use super::draft::{Draft, Header, CELLS};
use super::{finetunes, scenes, Random};
use crate::module::{Cell, ROWS, TABLE_ENTRIES};

/// How large a generated module may be.
#[derive(Clone, Copy, Debug, PartialEq, Eq)]
pub enum Size {
    /// One or two patterns and a few hundred bytes of samples.
    Small,
    /// To five patterns and some thousand bytes of samples.
    Medium,
    /// To 64 patterns and samples of up to 131,070 bytes.
    Large,
}

/// The bytes of a valid module.
pub fn module(seed: u64, size: Size) -> Vec<u8> {
    draft(&mut Random::new(seed), size).bytes()
}

/// A valid module, not yet written out.
pub fn draft(random: &mut Random, size: Size) -> Draft {
    let mut draft = Draft::any(random);
    fill_names(random, &mut draft);
    let favourites = favourites(random);
    fill_samples(random, &mut draft, size, &favourites);
    let patterns = pattern_count(random, size);
    fill_table(random, &mut draft, patterns);
    let palette = Palette {
        mix: cells::mix(random),
        favourites,
        song_length: draft.song_length.into(),
    };
    draft.patterns = vec![[Cell::default(); CELLS]; patterns];
    fill_rows(random, &mut draft, &palette);
    open_row(random, &mut draft);
    if random.chance(30) {
        for _ in 0..random.edge_or(&[1, 2, 3], 1, 40) {
            draft.extra.push(random.byte());
        }
    }
    draft
}

fn fill_names(random: &mut Random, draft: &mut Draft) {
    draft.ignored = random.byte();
    for byte in &mut draft.title {
        *byte = random.byte();
    }
    for header in &mut draft.headers {
        header.name[random.below(22) as usize] = random.byte();
        header.finetune = finetunes::header_byte(random);
    }
}

fn favourites(random: &mut Random) -> [u32; 4] {
    let mut numbers = [0; 4];
    for number in &mut numbers {
        *number = random.edge_or(&[1, 2, 15, 16, 17, 31], 1, 31);
    }
    numbers
}

fn fill_samples(random: &mut Random, draft: &mut Draft, size: Size, favourites: &[u32; 4]) {
    for number in 1..=31 {
        let favourite = favourites.contains(&number);
        let header = &mut draft.headers[number as usize - 1];
        header.volume = random.edge_or(&[0, 1, 63, 64, 64, 64], 0, 64) as u8;
        let empty = random.chance(if favourite { 8 } else { 85 });
        header.length = if empty { 0 } else { sample_words(random, size) };
        fill_loop(random, header);
        let extreme = random.chance(20);
        for _ in 0..2 * header.length {
            let byte = if extreme {
                random.pick(&[127, 128])
            } else {
                random.byte()
            };
            draft.sample_bytes.push(byte);
        }
    }
}

fn sample_words(random: &mut Random, size: Size) -> u32 {
    let near_offset = random.pick(&[127, 128, 129, 256, 257]);
    match (size, random.below(100)) {
        (_, 0..=24) => random.between(1, 4),
        (Size::Small, 25..=74) => random.between(2, 40),
        (Size::Small, _) => near_offset,
        (_, 25..=49) => near_offset,
        (Size::Large, 98..) => random.pick(&[65_535, 32_768, 32_767]),
        (Size::Large, 80..=97) => random.between(500, 5_000),
        _ => random.between(5, 600),
    }
}

/// A loop that fits, or a repeat length of at most 1 with any start.
fn fill_loop(random: &mut Random, header: &mut Header) {
    let length = header.length;
    if length < 2 || random.chance(35) {
        header.repeat = random.below(2);
        header.start = random.edge_or(&[0, 0, length, 65_535], 0, 65_535);
        return;
    }
    header.start = random
        .edge_or(&[0, 0, 1, length - 2], 0, length - 2)
        .min(length - 2);
    let longest = length - header.start;
    header.repeat = random.edge_or(&[2, longest, longest], 2, longest);
    // A loop that ends at byte 256, which is offset 1 of effect 9.
    if header.start <= 126 && length > 128 && random.chance(40) {
        header.repeat = 128 - header.start;
    }
}

fn pattern_count(random: &mut Random, size: Size) -> usize {
    let count = match size {
        Size::Small => random.pick(&[1, 1, 1, 1, 2]),
        Size::Medium => random.between(1, 5),
        Size::Large => random.edge_or(&[1, 2, 4, 8, 64], 1, 12),
    };
    count as usize
}

fn fill_table(random: &mut Random, draft: &mut Draft, patterns: usize) {
    draft.song_length = match random.below(10) {
        0 => random.edge_or(&[127, 128], 1, 128),
        1..=3 => 1,
        _ => random.between(1, 5),
    } as u8;
    let past = random.chance(40);
    for (place, entry) in draft.table.iter_mut().enumerate() {
        if past || place < usize::from(draft.song_length) {
            *entry = random.below(patterns as u32) as u8;
        }
    }
    let raising = if random.chance(50) {
        random.below(draft.song_length.into()) as usize
    } else {
        random.below(TABLE_ENTRIES as u32) as usize
    };
    draft.table[raising] = patterns as u8 - 1;
}

fn fill_rows(random: &mut Random, draft: &mut Draft, palette: &Palette) {
    for row in draft.rows() {
        for cell in row.iter_mut() {
            *cell = cells::cell(random, palette);
        }
        if random.chance(palette.mix.scenes) {
            scenes::fill(random, palette, row);
        }
    }
    for last in draft.rows().skip(ROWS - 1).step_by(ROWS) {
        if random.chance(40) {
            scenes::nested_loops(random, last);
        }
    }
}

/// Often begins the song fast, so that few ticks see many rows.
fn open_row(random: &mut Random, draft: &mut Draft) {
    if random.chance(70) {
        let code = 0xF00 + random.pick(&[0, 1, 1, 2, 2, 3]);
        put_effect(cells::any(random, draft.first_row()), code);
    }
}
