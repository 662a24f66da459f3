//! Touches of any age, page and position.

use super::states::accepted;
use super::Random;
use crate::STATE_CELLS;

/// What a touch carries.
#[derive(Clone, Copy, Debug, PartialEq, Eq)]
pub struct Touch {
    pub page: u32,
    pub made: u32,
    pub position: u32,
}

/// A touch, good or refused, for a state of an accepted module.
pub fn touch(seed: u64, file: &[u8], state: &[u32; STATE_CELLS]) -> Touch {
    let song_length = accepted(file).song_length;
    any_touch(&mut Random::new(seed), song_length, state)
}

pub(super) fn any_touch(
    random: &mut Random,
    song_length: u32,
    state: &[u32; STATE_CELLS],
) -> Touch {
    let (clock, page) = (state[11], state[12]);
    let near = [0, 1, 24, 25, 26, 27, u32::MAX, u32::MAX - 1, 1 << 31];
    let age = if random.chance(60) {
        random.between(0, 25)
    } else {
        random.pick(&near)
    };
    let other = [page.wrapping_add(1), page.wrapping_sub(1), 0, u32::MAX];
    let past = [
        song_length,
        song_length + 1,
        128,
        255,
        256,
        song_length + 256,
        u32::MAX,
    ];
    Touch {
        page: if random.chance(80) {
            page
        } else {
            random.pick(&other)
        },
        made: clock.wrapping_sub(age),
        position: if random.chance(75) {
            random.edge_or(&[0, song_length - 1], 0, song_length - 1)
        } else {
            random.pick(&past)
        },
    }
}
