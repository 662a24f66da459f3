//! All counts of channels: modules, damage, states and streams meet each of them often, and what is
//! aimed at wish 8 meets each of its edges.

use crate::common::*;
use second::generate::breaks::breaking;
use second::generate::damage::{aimed, any_file};
use second::generate::ends::ends;
use second::generate::finetunes::finetuned;
use second::generate::floats::opposite;
use second::generate::modules::{module, Size};
use second::generate::quiet::hushed;
use second::generate::states::{illegal_state, legal_state};
use second::generate::streams::{bad_stream, legal_stream};
use second::generate::tempos::{changing, steady};
use second::generate::waves::wavering;
use second::{channels, decode, fresh, judge, play, trace_tick};
use std::collections::BTreeMap;

const TAG: usize = 1_080;
const TAGS: [&[u8]; 4] = [b"M.K.", b"4CHN", b"6CHN", b"8CHN"];
const COUNTS: [u32; 3] = [4, 6, 8];
const SONG_CELLS: usize = 13;
const CHANNEL_CELLS: usize = 20;

#[test]
fn every_maker_meets_every_tag() {
    let makers: [fn(u64) -> Vec<u8>; 10] = [
        |seed| module(seed, Size::Small),
        |seed| module(seed, Size::Medium),
        |seed| steady(seed, 255),
        changing,
        ends,
        breaking,
        hushed,
        opposite,
        wavering,
        finetuned,
    ];
    for (number, maker) in makers.into_iter().enumerate() {
        let mut seen = [0; 4];
        for seed in 0..400 {
            let file = maker(seed);
            assert_eq!(judge(&file).number, 0, "maker {number}, seed {seed}");
            let tag = TAGS.iter().position(|tag| file[TAG..TAG + 4] == **tag);
            seen[tag.expect("an accepted tag")] += 1;
        }
        let [old, four, six, eight] = seen;
        assert!(old > 120 && four > 30, "maker {number}: {seen:?}");
        assert!(six > 70 && eight > 70, "maker {number}: {seen:?}");
    }
}

#[test]
fn every_channel_sounds() {
    let mut seen = [0; 8];
    for seed in 0..400 {
        let file = file(seed);
        let mut cells = fresh();
        for _ in 0..12 {
            let trace = trace_tick(&file, &mut cells).expect("accepted");
            for (channel, voice) in trace.voices.iter().enumerate() {
                seen[channel] += u32::from(!voice.stopped && voice.volume > 0 && voice.period > 0);
            }
        }
    }
    assert!(seen.iter().all(|&ticks| ticks > 100), "{seen:?}");
}

#[test]
fn bad_cells_are_met_on_every_channel_of_every_count() {
    let mut seen = BTreeMap::new();
    for seed in 0..4_000 {
        for number in [8, 9] {
            let damaged = aimed(seed, number);
            let count = u64::from(channels(&damaged.bytes));
            let channel = (damaged.place - 1_084) / 4 % count;
            *seen.entry((number, count, channel)).or_insert(0) += 1;
        }
    }
    assert_eq!(seen.len(), 2 * (4 + 6 + 8), "{seen:?}");
    assert!(seen.values().all(|&times| times > 30), "{seen:?}");
}

#[test]
fn files_are_cut_where_other_counts_end() {
    // By the module's channels, at the end of the patterns of fewer or one byte before it.
    let mut seen = BTreeMap::new();
    for seed in 0..4_000 {
        let damaged = aimed(seed, 7);
        let patterns = 1 + u64::from(*damaged.bytes[952..1_080].iter().max().expect("entries"));
        let count = channels(&damaged.bytes);
        for fewer in COUNTS.into_iter().filter(|&fewer| fewer < count) {
            let end = 1_084 + 256 * u64::from(fewer) * patterns;
            let near = damaged.place == end || damaged.place == end - 1;
            *seen.entry((count, fewer)).or_insert(0) += u32::from(near);
        }
    }
    assert_eq!(seen.len(), 3, "{seen:?}");
    assert!(seen.values().all(|&times| times > 30), "{seen:?}");
}

#[test]
fn any_files_have_every_tag_near_tags_and_others_bytes() {
    let mut seen = BTreeMap::new();
    for seed in 0..20_000 {
        let file = any_file(seed);
        let tag = file.get(TAG..TAG + 4).unwrap_or(&[]).to_vec();
        *seen.entry(tag).or_insert(0) += 1;
    }
    let near: [&[u8]; 8] = [
        b"M!K!", b"2CHN", b"6CHM", b"m.k.", b"10CH", b"FLT4", b"8chn", b"5CHN",
    ];
    for tag in TAGS {
        assert!(seen[tag] > 1_000, "{tag:?}");
    }
    for tag in near {
        assert!(seen[tag] > 20, "{tag:?}");
    }
}

#[test]
fn legal_states_are_fresh_past_the_count() {
    for seed in 0..1_000 {
        let file = file(seed % 100);
        let cells = legal_state(seed, &file);
        let past = SONG_CELLS + CHANNEL_CELLS * channels(&file) as usize;
        assert_eq!(cells[past..], fresh()[past..], "seed {seed}");
    }
}

#[test]
fn illegal_states_have_each_number_past_each_count() {
    // By count, channel and cell: how often it alone isn't as fresh, and how often channels whole.
    let mut alone = BTreeMap::new();
    let mut whole = [0; 2];
    let files: Vec<Vec<u8>> = (0..200).map(wavering).collect();
    for seed in 0..40_000 {
        let file = &files[seed as usize % files.len()];
        let count = channels(file) as usize;
        let past = SONG_CELLS + CHANNEL_CELLS * count;
        let cells = illegal_state(seed, file);
        let differs = |place: &usize| cells[*place] != fresh()[*place];
        let places: Vec<usize> = (past..cells.len()).filter(differs).collect();
        match places[..] {
            [] => {}
            [place] => *alone.entry((count, place)).or_insert(0) += 1,
            _ => whole[count / 6] += 1,
        }
        if !places.is_empty() {
            // Nothing else is wrong with it.
            let mut cells = cells;
            cells[past..].copy_from_slice(&fresh()[past..]);
            assert_eq!(play(file, &mut cells, 0, &mut []), accepted(0));
        }
    }
    assert_eq!(alone.len(), (4 + 2) * CHANNEL_CELLS);
    assert!(alone.values().all(|&times| times > 10), "{alone:?}");
    assert!(whole.iter().all(|&times| times > 200), "{whole:?}");
}

#[test]
fn legal_streams_meet_every_version_and_channel() {
    let mut versions = BTreeMap::new();
    let mut commands = BTreeMap::new();
    for seed in 0..3_000 {
        let file = file(seed % 60);
        let count = channels(&file);
        let stream = decode(&legal_stream(seed, &file), count).expect("legal");
        assert_eq!(stream.channels, count, "seed {seed}");
        *versions.entry((count, stream.version)).or_insert(0) += 1;
        for tick in &stream.ticks {
            for (channel, command) in tick.commands.iter().enumerate() {
                *commands.entry((count, channel)).or_insert(0) += u32::from(command.start);
            }
        }
    }
    let all = [(4, 1), (4, 2), (4, 3), (6, 3), (8, 3)];
    assert!(versions.keys().eq(&all), "{versions:?}");
    assert!(versions.values().all(|&times| times > 200), "{versions:?}");
    for ((count, channel), starts) in commands {
        let within = channel < count as usize;
        assert_eq!(starts > 500, within, "{count}, {channel}: {starts}");
        assert!(within || starts == 0, "{count}, {channel}");
    }
}

#[test]
fn refused_counts_are_met_of_each_kind() {
    // By the module's channels: nine bytes, older versions, and counts that are said.
    let mut nine = BTreeMap::new();
    let mut old = BTreeMap::new();
    let mut said = BTreeMap::new();
    for seed in 0..30_000 {
        let file = module(seed % 50, Size::Small);
        let count = channels(&file);
        let bad = bad_stream(seed, &file);
        if bad.number != 28 {
            continue;
        }
        let kind = match bad.bytes[4] {
            3 if bad.bytes.len() == 9 => nine.entry((count, 3)),
            3 => said.entry((count, bad.bytes[5])),
            version => old.entry((count, version)),
        };
        *kind.or_insert(0) += 1;
    }
    assert_eq!([nine.len(), old.len()], [3, 4]);
    for kinds in [&nine, &old] {
        assert!(kinds.values().all(|&times| times > 100), "{kinds:?}");
    }
    for count in COUNTS {
        for other in [0, 4, 6, 8, 255] {
            let times = said.get(&(count, other)).copied().unwrap_or(0);
            assert_eq!(times > 20, u32::from(other) != count, "{count}: {other}");
        }
    }
}

#[test]
fn bad_masks_have_every_bit_past_the_count() {
    let mut seen = BTreeMap::new();
    for seed in 0..30_000 {
        let file = module(seed % 50, Size::Small);
        let bad = bad_stream(seed, &file);
        let mask = match bad.bytes.get(bad.place as usize) {
            Some(&mask) if bad.number == 23 => u32::from(mask),
            _ => continue,
        };
        let count = channels(&file);
        if count < 8 && mask >> count != 0 {
            *seen.entry((count, mask >> count)).or_insert(0) += 1;
        }
    }
    for bit in [
        (4, 1),
        (4, 2),
        (4, 4),
        (4, 8),
        (6, 1),
        (6, 2),
        (4, 15),
        (6, 3),
    ] {
        assert!(seen[&bit] > 5, "{bit:?}: {seen:?}");
    }
}
