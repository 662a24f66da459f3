//! Judging: number, place and count of both implementations on generated files, valid and damaged, and the channels that a file has.
use crate::answers::same_answer;
use crate::runs::{over, Tally};
use second::generate::damage::any_file;

/// Judges `count` files from a seed on, with both. A difference is named by its seed.
pub fn compare(first: u64, count: u64) -> Result<Tally, String> {
    over(first, count, |seed, tally| {
        tally[same(&any_file(seed))? as usize] += 1;
        Ok(())
    })
}

/// The number that both give, or what differs.
pub fn same(file: &[u8]) -> Result<u64, String> {
    same_answer(lampthistle::judge(file), second::judge(file))
        .and_then(|number| same_channels(file).map(|()| number))
        .map_err(|what| format!("{} bytes: {what}", file.len()))
}

fn same_channels(file: &[u8]) -> Result<(), String> {
    let (first, other) = (lampthistle::channels(file), second::channels(file));
    if first == other {
        return Ok(());
    }
    Err(format!("{first} and {other} channels"))
}
