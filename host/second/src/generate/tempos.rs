//! Modules for the lengths of ticks: one tempo throughout, or changes in every place of a row.

use super::modules::{draft, Size};
use super::{cells, Random};

/// The least parameter of F that sets the tempo.
const LOWEST_TEMPO: u32 = 32;

/// A valid module all of whose ticks from a fresh state have this tempo, 32 to 255.
pub fn steady(seed: u64, tempo: u32) -> Vec<u8> {
    let mut random = Random::new(seed);
    let mut draft = draft(&mut random, Size::Small);
    for cell in draft.rows().flatten() {
        if cell.effect == 0xF && cell.parameter >= LOWEST_TEMPO {
            cell.parameter = tempo;
        }
    }
    let cell = cells::any(&mut random, draft.first_row());
    cells::put_effect(cell, 0xF00 + tempo);
    draft.bytes()
}

/// A valid module with tempos on any of a row's channels, drawn from so few that a row often ends
/// at the tempo it began with.
pub fn changing(seed: u64) -> Vec<u8> {
    let mut random = Random::new(seed);
    let mut draft = draft(&mut random, Size::Small);
    let tempos = [
        random.pick(&[125, 255]),
        random.pick(&[254, 33, 32]),
        random.between(LOWEST_TEMPO, 255),
    ];
    for row in draft.rows() {
        if random.chance(40) {
            continue;
        }
        for cell in row {
            if random.chance(50) {
                cells::put_effect(cell, 0xF00 + random.pick(&tempos));
            } else if cell.effect == 0xF {
                cell.parameter = random.between(1, 3);
            }
        }
    }
    draft.bytes()
}
