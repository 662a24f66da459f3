//! Tick streams aimed at each refusal of the stream's reader.

use super::streams::{assemble, fix_length, older, place_of, record, some_records, writer, Writer};
use super::{Damaged, Random};
use crate::records::COUNTED;
use crate::voice::CHANNELS;

/// The bytes of the shortest stream.
const SHORTEST: u32 = 9;
/// Where a stream of version 3 says its channels.
const CHANNEL_COUNT: usize = 5;
/// What it says there at times: each count that a module may have, and others.
const COUNTS: [u8; 12] = [0, 1, 3, 4, 5, 6, 7, 8, 9, 16, 128, 255];

/// A stream and the refusal 21, 22, 28 or 23 that it must get; `file` is accepted.
pub fn bad_stream(seed: u64, file: &[u8]) -> Damaged {
    let mut random = Random::new(seed);
    let mut writer = writer(&mut random, file);
    let records = some_records(&mut random, &mut writer);
    match random.below(10) {
        0 => wrong_length(&mut random, &writer, &records),
        1 => wrong_version(&mut random, &writer, &records),
        2 | 3 => wrong_channels(&mut random, &mut writer, &records),
        4 | 5 => runs_out(&mut random, &writer, &records),
        6 => bytes_left(&mut random, &writer, &records),
        7 => wrong_count(&mut random, &writer, &records),
        _ => bad_record(&mut random, &mut writer, &records),
    }
}

fn wrong_length(random: &mut Random, writer: &Writer, records: &[Vec<u8>]) -> Damaged {
    let mut stream = assemble(writer, records, records.len() as u32);
    if random.chance(40) {
        stream.truncate(random.below(SHORTEST) as usize);
        if stream.len() >= 4 {
            fix_length(&mut stream);
        }
    } else {
        let right = stream.len() as u32 - 4;
        let wrong = [
            right + 1,
            right - 1,
            right + 4,
            0,
            right + 256,
            1 << 31,
            u32::MAX,
        ];
        stream[..4].copy_from_slice(&random.pick(&wrong).to_be_bytes());
        stream[4] = random.pick(&[0, 1, 2, 3, 4]);
    }
    Damaged {
        place: stream.len() as u64,
        bytes: stream,
        number: 21,
    }
}

fn wrong_version(random: &mut Random, writer: &Writer, records: &[Vec<u8>]) -> Damaged {
    let count = records.len() as u32 + random.below(2);
    let mut stream = assemble(writer, records, count);
    stream[4] = random.pick(&[0, 4, 5, 128, 255]);
    Damaged {
        bytes: stream,
        number: 22,
        place: 4,
    }
}

/// Nine bytes of version 3, a version before it where the module hasn't four channels, or another
/// count than the module's; the records may be bad, too.
fn wrong_channels(random: &mut Random, writer: &mut Writer, records: &[Vec<u8>]) -> Damaged {
    let count = records.len() as u32 + random.below(2);
    writer.version = COUNTED;
    let mut stream = assemble(writer, records, count);
    match random.below(3) {
        0 => {
            if random.chance(50) {
                stream[CHANNEL_COUNT] = random.pick(&COUNTS);
            }
            stream.truncate(SHORTEST as usize);
            fix_length(&mut stream);
        }
        1 if writer.channels != 4 => stream = older(&stream, random.pick(&[1, 2])),
        _ => {
            let others = COUNTS
                .into_iter()
                .filter(|&c| u32::from(c) != writer.channels);
            stream[CHANNEL_COUNT] = random.pick(&others.collect::<Vec<u8>>());
        }
    }
    Damaged {
        bytes: stream,
        number: 28,
        place: 4,
    }
}

/// The stream ends inside a record, or where one should begin.
fn runs_out(random: &mut Random, writer: &Writer, records: &[Vec<u8>]) -> Damaged {
    let number = random.below(records.len() as u32) as usize;
    let kept = random.below(records[number].len() as u32) as usize;
    let mut cut = records[..=number].to_vec();
    cut[number].truncate(kept);
    Damaged {
        bytes: assemble(writer, &cut, records.len() as u32),
        number: 23,
        place: place_of(writer, records, number),
    }
}

fn bytes_left(random: &mut Random, writer: &Writer, records: &[Vec<u8>]) -> Damaged {
    let mut stream = assemble(writer, records, records.len() as u32);
    let place = stream.len() as u64;
    for _ in 0..random.edge_or(&[1, 2], 1, 9) {
        stream.push(random.pick(&[0, 125, 255]));
    }
    fix_length(&mut stream);
    Damaged {
        bytes: stream,
        number: 23,
        place,
    }
}

fn wrong_count(random: &mut Random, writer: &Writer, records: &[Vec<u8>]) -> Damaged {
    let right = records.len() as u32;
    let count = random.pick(&[0, right - 1, right + 1, 65_536, 1 << 31, u32::MAX]);
    Damaged {
        bytes: assemble(writer, records, count),
        number: 23,
        place: place_of(writer, records, count.min(right) as usize),
    }
}

/// One record in which a single number is wrong; good records stand before and behind it.
fn bad_record(random: &mut Random, writer: &mut Writer, records: &[Vec<u8>]) -> Damaged {
    let channel = random.below(writer.channels) as usize;
    let before = writer.registers[channel];
    let mask = 1 << channel | random.below(1 << writer.channels) as u8;
    let mut bad = record(random, writer, mask);
    // Commands of the lower channels stand before this channel's own.
    let own = 2 + 6 * (mask & ((1 << channel) - 1)).count_ones() as usize;
    match random.below(9) {
        0 if writer.channels < CHANNELS as u32 => bad[0] |= past_bits(random, writer.channels),
        1 => bad[1] = random.pick(&[0, 1, 31]),
        2 => bad[own] = random.pick(&[32, 33, 255]),
        3 => bad[own + 1] = random.pick(&[65, 66, 255]),
        4 => bad[own + 2..own + 4].copy_from_slice(&bad_period(random)),
        5 => bad[own + 4] = random.pick(&[2, 3, 255]),
        6 => {
            bad[own] = (before[0] + random.pick(&[1, 31])) % 32;
            bad[own + 4..own + 6].copy_from_slice(&[0, 0]);
        }
        7 => {
            bad[own] = before[0];
            bad[own + 4..own + 6].copy_from_slice(&[0, random.pick(&[1, 255])]);
        }
        _ => bad[1] = random.below(32) as u8,
    }
    let mut all = records.to_vec();
    all.push(bad);
    for _ in 0..random.below(3) {
        all.push(vec![0, 125]);
    }
    Damaged {
        bytes: assemble(writer, &all, all.len() as u32),
        number: 23,
        place: place_of(writer, &all, records.len()),
    }
}

/// One bit or more of a mask at or past the count, which is below eight.
fn past_bits(random: &mut Random, channels: u32) -> u8 {
    let past = CHANNELS as u32 - channels;
    let one = 1 << random.below(past);
    let bits = random.edge_or(&[one], 1, (1 << past) - 1);
    (bits << channels) as u8
}

fn bad_period(random: &mut Random) -> [u8; 2] {
    let period: u16 = random.pick(&[1, 106, 107, 908, 909, 4_095, 65_535]);
    period.to_be_bytes()
}
