//! What stands at a refusal's place, in the words of somebody who looks for it in a tracker.
use super::json::{self, Fields};
use super::layout::{self, Spot, HEADERS, HEADER_BYTES, SONG_LENGTH, TABLE, TAG};
use super::records;
use lampthistle::{refusal, Answer};

/// The place of a refusal of a module or a stream, and the value found there; empty where there is nothing to add.
pub fn found(file: &[u8], answer: &Answer) -> Fields {
    let place = answer.place as usize;
    match answer.number {
        refusal::TAG => {
            let tag = &file[TAG];
            json::exact(["tag", "tag_bytes"], &layout::printable(tag), tag)
        }
        refusal::SONG_LENGTH => vec![("song_length", file[SONG_LENGTH].into())],
        refusal::TABLE_ENTRY => vec![
            ("entry", (place - TABLE.start).into()),
            ("pattern", file[place].into()),
        ],
        refusal::VOLUME => vec![
            ("sample", sample_at(place).into()),
            ("volume", file[place].into()),
        ],
        refusal::LOOP => looped(file, sample_at(place)),
        refusal::SAMPLE_NUMBER => cell(file, place, true),
        refusal::PERIOD => cell(file, place, false),
        refusal::CHANNEL_COUNT => vec![
            ("version", records::version(file).into()),
            ("channels", records::channels(file).into()),
        ],
        refusal::CHANNEL => vec![("channels", layout::channels(file).into())],
        _ => Vec::new(),
    }
}

/// The number of the sample in whose header a place lies.
fn sample_at(place: usize) -> usize {
    (place - HEADERS.start) / HEADER_BYTES + 1
}

fn looped(file: &[u8], sample: usize) -> Fields {
    let header = layout::headers(file).nth(sample - 1);
    header.map_or(Vec::new(), |header| {
        vec![
            ("sample", sample.into()),
            ("bytes", header.length.into()),
            ("loop_start", header.loop_start.into()),
            ("loop_length", header.loop_length.into()),
        ]
    })
}

/// A cell's pattern, row and channel, and its sample number or its period.
fn cell(file: &[u8], place: usize, sample: bool) -> Fields {
    let cell = layout::cell(file, place);
    let mut fields = spot(&layout::spot(layout::channels(file), place));
    fields.push(if sample {
        ("sample", cell.sample.into())
    } else {
        ("period", cell.period.into())
    });
    fields
}

pub fn spot(spot: &Spot) -> Fields {
    vec![
        ("pattern", spot.pattern.into()),
        ("row", spot.row.into()),
        ("channel", spot.channel.into()),
    ]
}

/// Names and values for a person: pattern 0, row 25.
pub fn shown(fields: &Fields) -> String {
    let parts = fields
        .iter()
        .map(|(name, value)| format!("{} {}", name.replace('_', " "), value.bare()));
    parts.collect::<Vec<_>>().join(", ")
}
