//! Tick streams: legal ones that no translator would write, and streams damaged at random.

use super::{finetunes, Random};
use crate::module::Module;
use crate::records::COUNTED;
use crate::voice::CHANNELS;

pub use super::bad_streams::bad_stream;

/// A channel's sample, volume and two period bytes.
type Registers = [[u8; 4]; CHANNELS];

/// A stream's version and channels, what its records are drawn from, and the tempo and registers so
/// far.
pub(super) struct Writer {
    pub(super) version: u8,
    pub(super) channels: u32,
    sounding: Vec<u8>,
    tempo: u8,
    pub(super) registers: Registers,
}

/// A legal stream, of any version where the module has four channels, that often sets bits without
/// change; `file` is accepted.
pub fn legal_stream(seed: u64, file: &[u8]) -> Vec<u8> {
    let mut random = Random::new(seed);
    let mut writer = writer(&mut random, file);
    let records = match random.below(10) {
        0 => empty_records(&mut random),
        1 => Vec::new(),
        _ => some_records(&mut random, &mut writer),
    };
    assemble(&writer, &records, records.len() as u32)
}

/// The same ticks of a translated stream, which is of version 3, in an older version.
pub fn older(translated: &[u8], version: u8) -> Vec<u8> {
    let mut stream = translated.to_vec();
    stream.remove(5);
    stream[4] = version;
    fix_length(&mut stream);
    stream
}

/// A good stream damaged without aim; it may still be accepted.
pub fn damaged_stream(seed: u64, good: &[u8]) -> Vec<u8> {
    let mut random = Random::new(seed);
    let mut stream = good.to_vec();
    for _ in 0..random.between(1, 3) {
        if stream.is_empty() {
            break;
        }
        let place = random.below(stream.len() as u32) as usize;
        match random.below(6) {
            0 => stream.truncate(place),
            1 => stream.insert(place, random.byte()),
            2 => {
                stream.remove(place);
            }
            3 => stream[place] = random.byte(),
            _ => stream[place] ^= 1 << random.below(8),
        }
    }
    if stream.len() >= 4 && random.chance(70) {
        fix_length(&mut stream);
    }
    stream
}

/// The tick from which a stream of so many is played: any of them, often the first, the last, or a
/// number past it.
pub fn first_tick(seed: u64, ticks: u32) -> u32 {
    let mut random = Random::new(seed);
    match random.below(10) {
        0 => 0,
        1 | 2 => ticks.saturating_sub(1),
        3 => ticks,
        4 => ticks.saturating_add(1),
        5 => u32::MAX,
        _ => random.below(ticks.max(1)),
    }
}

pub(super) fn writer(random: &mut Random, file: &[u8]) -> Writer {
    let module = Module::read(file).expect("the file is accepted");
    let mut sounding = Vec::new();
    for number in 1..=31 {
        if module.sample(number).is_some_and(|sample| sample.end > 0) {
            sounding.push(number as u8);
        }
    }
    let version = match module.channels {
        4 => random.pick(&[1, 2, COUNTED, COUNTED]),
        _ => COUNTED,
    };
    Writer {
        version,
        channels: module.channels,
        sounding,
        tempo: 125,
        registers: [[0; 4]; CHANNELS],
    }
}

/// The bytes before the first record.
fn head(writer: &Writer, count: u32) -> Vec<u8> {
    let mut head = vec![0, 0, 0, 0, writer.version];
    if writer.version == COUNTED {
        head.push(writer.channels as u8);
    }
    head.extend_from_slice(&count.to_be_bytes());
    head
}

/// Where the record of this number begins.
pub(super) fn place_of(writer: &Writer, records: &[Vec<u8>], number: usize) -> u64 {
    let before: usize = records[..number].iter().map(Vec::len).sum();
    (head(writer, 0).len() + before) as u64
}

pub(super) fn assemble(writer: &Writer, records: &[Vec<u8>], count: u32) -> Vec<u8> {
    let mut stream = head(writer, count);
    for record in records {
        stream.extend_from_slice(record);
    }
    fix_length(&mut stream);
    stream
}

/// Writes the count of bytes that follow.
pub(super) fn fix_length(stream: &mut [u8]) {
    let following = stream.len() as u32 - 4;
    stream[..4].copy_from_slice(&following.to_be_bytes());
}

fn empty_records(random: &mut Random) -> Vec<Vec<u8>> {
    let count = random.edge_or(&[1, 255, 256, 257], 1, 600) as usize;
    let tempo = random.edge_or(&[32, 33, 254, 255], 32, 255) as u8;
    vec![vec![0, tempo]; count]
}

pub(super) fn some_records(random: &mut Random, writer: &mut Writer) -> Vec<Vec<u8>> {
    let mut records = Vec::new();
    for _ in 0..random.between(1, 30) {
        let mask = random.below(1 << writer.channels) as u8;
        records.push(record(random, writer, mask));
    }
    records
}

/// A record, mostly at the tempo of the one before.
pub(super) fn record(random: &mut Random, writer: &mut Writer, mask: u8) -> Vec<u8> {
    if random.chance(30) {
        writer.tempo = random.edge_or(&[32, 33, 125, 254, 255], 32, 255) as u8;
    }
    let mut record = vec![mask, writer.tempo];
    for channel in 0..CHANNELS {
        if mask >> channel & 1 == 1 {
            record.extend_from_slice(&command(random, writer, channel));
        }
    }
    record
}

/// A channel's six bytes: without change, changed, or started.
fn command(random: &mut Random, writer: &mut Writer, channel: usize) -> [u8; 6] {
    let kind = random.below(10);
    let mut offset = 0;
    let mut start = 0;
    if kind >= 3 {
        let period = if random.chance(10) {
            0
        } else {
            finetunes::period(random)
        };
        let volume = random.edge_or(&[0, 63, 64], 0, 64) as u8;
        let [high, low] = (period as u16).to_be_bytes();
        writer.registers[channel][1..].copy_from_slice(&[volume, high, low]);
    }
    if kind >= 5 || kind == 0 {
        start = 1;
        offset = random.edge_or(&[0, 0, 1, 2, 255], 0, 3) as u8;
        if !writer.sounding.is_empty() && random.chance(75) {
            writer.registers[channel][0] = random.pick(&writer.sounding);
        } else {
            writer.registers[channel][0] = random.edge_or(&[0, 31], 0, 31) as u8;
        }
    }
    let [sample, volume, high, low] = writer.registers[channel];
    [sample, volume, high, low, start, offset]
}
