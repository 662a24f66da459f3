//! The stored files of crates/judge_cases: a file for each refusal, and the cases that the paper asks to be run.
use second::generate::draft::Draft;

/// A stored file's name, in the order of the program's arguments, and its bytes.
pub type Case = (&'static str, Vec<u8>);

/// A module of so many channels, 4, 6 or 8: one empty pattern, no samples.
pub fn wide(channels: usize) -> Draft {
    Draft::tagged(match channels {
        6 => b"6CHN",
        8 => b"8CHN",
        _ => b"M.K.",
    })
}

/// 2,108 good bytes: one pattern, no samples.
fn good() -> Vec<u8> {
    Draft::empty().bytes()
}

/// A good file with some bytes changed.
fn changed(mut file: Vec<u8>, changes: &[(usize, u8)]) -> Vec<u8> {
    for &(at, byte) in changes {
        file[at] = byte;
    }
    file
}

/// The good file of four channels with some bytes changed.
fn with(changes: &[(usize, u8)]) -> Vec<u8> {
    changed(good(), changes)
}

/// A good file of so many channels with another tag.
fn tagged(channels: usize, tag: &[u8; 4]) -> Vec<u8> {
    let mut draft = wide(channels);
    draft.tag = *tag;
    draft.bytes()
}

pub fn judge_cases() -> Vec<Case> {
    let mut cases = four_channels();
    cases.extend(more_channels());
    cases
}

/// Each tag, and tags that are near them; a byte less than six channels take; a bad cell on the last channel.
fn more_channels() -> Vec<Case> {
    const LAST_OF_6: usize = 1084 + 4 * (6 * 25 + 5);
    const LAST_OF_8: usize = 1084 + 4 * (8 * 25 + 7);
    let (six, eight) = (wide(6).bytes(), wide(8).bytes());
    vec![
        ("tag_4CHN", tagged(4, b"4CHN")),
        ("tag_6CHN", six.clone()),
        ("tag_8CHN", eight.clone()),
        ("tag_MK_marked", tagged(4, b"M!K!")),
        ("tag_2CHN", tagged(4, b"2CHN")),
        ("tag_6CHM", tagged(6, b"6CHM")),
        ("bytes_2619_of_6", six[..2619].to_vec()),
        ("number_32_on_8", changed(eight, &[(LAST_OF_8, 0x20)])),
        ("period_112_on_6", changed(six, &[(LAST_OF_6 + 1, 112)])),
    ]
}

fn four_channels() -> Vec<Case> {
    const CELL: usize = 1084 + 4 * 100;
    vec![
        ("empty", Vec::new()),
        ("bytes_1083", good()[..1083].to_vec()),
        ("bytes_1084", good()[..1084].to_vec()),
        ("bytes_2107", good()[..2107].to_vec()),
        ("bytes_2108", good()),
        ("tag", with(&[(1083, b'!')])),
        ("song_0", with(&[(950, 0)])),
        ("song_128", with(&[(950, 128)])),
        ("song_129", with(&[(950, 129)])),
        ("entry_64", with(&[(1000, 64), (1079, 65)])),
        ("entry_unplayed", with(&[(1079, 1)])),
        ("volume_64", with(&[(20 + 30 * 30 + 25, 64)])),
        ("volume_65", with(&[(20 + 30 * 30 + 25, 65)])),
        (
            "loop",
            with(&[(20 + 30 * 7 + 27, 3), (20 + 30 * 7 + 29, 2)]),
        ),
        (
            "repeat_1",
            with(&[(20 + 30 * 7 + 27, 3), (20 + 30 * 7 + 29, 1)]),
        ),
        ("number_31", with(&[(CELL, 0x10), (CELL + 2, 0xF0)])),
        ("number_32", with(&[(CELL, 0x20)])),
        ("period_112", with(&[(CELL + 1, 112)])),
        ("period_113", with(&[(CELL + 1, 113)])),
        ("period_856", with(&[(CELL, 3), (CELL + 1, 88)])),
        ("period_857", with(&[(CELL, 3), (CELL + 1, 89)])),
        (
            "period_then_number",
            with(&[(CELL + 1, 1), (CELL + 4, 0x20)]),
        ),
        ("both_in_one_cell", with(&[(CELL, 0x21), (CELL + 1, 1)])),
        ("tag_and_song", with(&[(1080, b'm'), (950, 0)])),
    ]
}

/// What the program prints, by the second implementation: a line a case, its name, number and place.
pub fn judge_lines() -> String {
    judge_cases()
        .iter()
        .map(|(name, file)| {
            let answer = second::judge(file);
            format!("{name} {} {}\n", answer.number, answer.place)
        })
        .collect()
}
