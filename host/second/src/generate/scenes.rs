//! Rows on which several rules meet: the combinations that are easily got wrong.

use super::cells::{self, put_effect, with_effect, Palette};
use super::{finetunes, Random};
use crate::module::Cell;

/// Fills a row with one of the scenes; channels that the scene leaves free stay as they are.
pub fn fill(random: &mut Random, palette: &Palette, row: &mut [Cell]) {
    match random.below(19) {
        0 | 1 => nested_loops(random, row),
        2 | 3 => jump_and_break(random, palette, row),
        4 | 5 => many_delays(random, row),
        6 => delayed_effects(random, palette, row),
        7 => offsets(random, palette, row),
        8 => restarts(random, row),
        9 => slides_to_note(random, palette, row),
        10 => arpeggios(random, palette, row),
        11 => slides_to_limits(random, row),
        12 => speeds(random, row),
        13 => numbers_alone(random, palette, row),
        14 | 15 => waves(random, palette, row),
        16 => delayed_waves(random, palette, row),
        17 => retuned(random, palette, row),
        _ => loop_and_break(random, palette, row),
    }
}

/// E6 on several channels: begins, counts and jumps in one row.
pub fn nested_loops(random: &mut Random, row: &mut [Cell]) {
    for cell in row {
        if random.chance(75) {
            put_effect(cell, 0xE60 + random.pick(&[0, 0, 1, 1, 2, 2, 3, 15]));
        }
    }
}

/// B and D in either order, some twice.
fn jump_and_break(random: &mut Random, palette: &Palette, row: &mut [Cell]) {
    for cell in row {
        match random.below(4) {
            0 => put_effect(cell, cells::jump(random, palette.song_length)),
            1 | 2 => put_effect(cell, cells::break_to(random)),
            _ => {}
        }
    }
}

/// E6 beside B or D.
fn loop_and_break(random: &mut Random, palette: &Palette, row: &mut [Cell]) {
    nested_loops(random, row);
    let code = if random.chance(50) {
        cells::break_to(random)
    } else {
        cells::jump(random, palette.song_length)
    };
    put_effect(cells::any(random, row), code);
}

/// EE on several channels, the last one 0 at times, with a change of speed.
fn many_delays(random: &mut Random, row: &mut [Cell]) {
    for cell in row.iter_mut() {
        if random.chance(60) {
            put_effect(cell, 0xEE0 + random.pick(&[0, 0, 1, 2, 3]));
        }
    }
    if random.chance(60) {
        let code = cells::speed(random);
        put_effect(cells::any(random, row), code);
    }
}

/// Effects that come again in each repetition under EE.
fn delayed_effects(random: &mut Random, palette: &Palette, row: &mut [Cell]) {
    for cell in row.iter_mut() {
        let code = random.pick(&[0xE91, 0xE92, 0xE93, 0xEC0, 0xEC1, 0xEC2, 0xE11, 0xE22]);
        let own = random.pick(&[0xA01, 0xA20, 0x102, 0x203, 0x304, 0x047, 0xEA1, 0xEB1]);
        let code = if random.chance(50) { code } else { own };
        *cell = with_effect(cells::sample(random, palette), cells::period(random), code);
    }
    let code = 0xEE0 + random.between(1, 3);
    put_effect(cells::any(random, row), code);
}

/// 9 with and without a period, at, before and past the end.
fn offsets(random: &mut Random, palette: &Palette, row: &mut [Cell]) {
    for cell in row {
        let sample = if random.chance(60) {
            cells::sample(random, palette)
        } else {
            0
        };
        let period = if random.chance(50) {
            cells::period(random)
        } else {
            0
        };
        let offset = random.pick(&[0, 1, 1, 2, 2, 3, 4, 255]);
        *cell = with_effect(sample, period, 0x900 + offset);
    }
}

/// E9 with any period of repetition, mostly without a note.
fn restarts(random: &mut Random, row: &mut [Cell]) {
    for cell in row {
        let period = if random.chance(30) {
            cells::period(random)
        } else {
            0
        };
        *cell = with_effect(0, period, 0xE90 + random.pick(&[0, 1, 2, 3, 4, 5, 15]));
    }
}

/// 3 and 5 with and without a period, a parameter and a sample number.
fn slides_to_note(random: &mut Random, palette: &Palette, row: &mut [Cell]) {
    for cell in row {
        let sample = if random.chance(40) {
            cells::sample(random, palette)
        } else {
            0
        };
        let period = if random.chance(50) {
            cells::period(random)
        } else {
            0
        };
        let code = if random.chance(70) {
            0x300 + random.pick(&[0, 0, 1, 7, 10, 100, 255])
        } else {
            0x500 + cells::volume_slide(random)
        };
        *cell = with_effect(sample, period, code);
    }
}

/// Vibrato, tremolo, what runs them from memory, and their forms, with and without a note.
fn waves(random: &mut Random, palette: &Palette, row: &mut [Cell]) {
    for cell in row {
        if random.chance(30) {
            cell.sample = cells::sample(random, palette);
        }
        if random.chance(40) {
            cell.period = random.pick(&[113, 114, 142, 143, 428, 826, 827, 855, 856]);
        }
        let code = match random.below(6) {
            0..=2 => cells::wave(random),
            3 | 4 => random.pick(&[0x500, 0x600]) + cells::volume_slide(random),
            _ => cells::form(random),
        };
        put_effect(cell, code);
    }
}

/// Waves that go on in each repetition under EE.
fn delayed_waves(random: &mut Random, palette: &Palette, row: &mut [Cell]) {
    waves(random, palette, row);
    let code = 0xEE0 + random.between(1, 3);
    put_effect(cells::any(random, row), code);
}

/// E5 with and without a note and a sample number.
fn retuned(random: &mut Random, palette: &Palette, row: &mut [Cell]) {
    for cell in row {
        if random.chance(40) {
            cell.sample = cells::sample(random, palette);
        }
        if random.chance(50) {
            cell.period = cells::period(random);
        }
        put_effect(cell, finetunes::set(random));
    }
}

fn arpeggios(random: &mut Random, palette: &Palette, row: &mut [Cell]) {
    for cell in row {
        let period = if random.chance(60) {
            cells::period(random)
        } else {
            0
        };
        let code = cells::arpeggio(random);
        *cell = with_effect(cells::sample(random, palette), period, code);
    }
}

/// Large steps of period and volume.
fn slides_to_limits(random: &mut Random, row: &mut [Cell]) {
    let codes = [
        0x1FF, 0x2FF, 0xE1F, 0xE2F, 0xAF0, 0xA0F, 0xAFF, 0xEAF, 0xEBF, 0xC40, 0xC41,
    ];
    for cell in row {
        put_effect(cell, random.pick(&codes));
        if random.chance(30) {
            cell.period = random.pick(&[113, 114, 127, 128, 129, 840, 841, 842, 855, 856]);
        }
    }
}

/// F on several channels; of two speeds or two tempos the later counts, which may be the old one.
fn speeds(random: &mut Random, row: &mut [Cell]) {
    let codes = [
        0xF00, 0xF01, 0xF02, 0xF1F, 0xF20, 0xF21, 0xF7D, 0xF7D, 0xFFE, 0xFFF,
    ];
    for cell in row {
        if random.chance(70) {
            put_effect(cell, random.pick(&codes));
        }
    }
}

/// Sample numbers without a note, and notes without a sample number.
fn numbers_alone(random: &mut Random, palette: &Palette, row: &mut [Cell]) {
    for cell in row {
        if random.chance(60) {
            cell.sample = cells::sample(random, palette);
            cell.period = 0;
        } else {
            cell.sample = 0;
            cell.period = cells::period(random);
        }
    }
}
