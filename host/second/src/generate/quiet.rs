//! For the causes of quiet: samples with zeros, states in which causes meet, channel numbers.

use super::modules::{draft, Size};
use super::states::{accepted, legal_state};
use super::Random;
use crate::module::{Module, Sample};
use crate::state::State;
use crate::voice::{Voice, CHANNELS};
use crate::STATE_CELLS;

/// A valid module whose samples have many zeros.
pub fn hushed(seed: u64) -> Vec<u8> {
    let mut random = Random::new(seed);
    let mut draft = draft(&mut random, Size::Small);
    for byte in &mut draft.sample_bytes {
        if random.chance(30) {
            *byte = 0;
        }
    }
    draft.bytes()
}

/// The cells of a legal state whose voices have any set of the causes; `file` is accepted.
pub fn quiet_state(seed: u64, file: &[u8]) -> [u32; STATE_CELLS] {
    let module = accepted(file);
    let mut random = Random::new(seed);
    let mut cells = legal_state(random.number(), file);
    let mut state = State::read(&cells, &module).expect("a legal state");
    for channel in 0..module.channels as usize {
        quiet_voice(&mut random, &module, &mut state.voices[channel]);
        // A channel that says otherwise than its voice.
        if random.chance(50) {
            state.channels[channel].volume = random.pick(&[0, 64]);
            state.channels[channel].period = random.pick(&[0, 428]);
            state.channels[channel].latched = random.pick(&[0, 1]);
        }
    }
    state.write(&mut cells);
    cells
}

fn quiet_voice(random: &mut Random, module: &Module, voice: &mut Voice) {
    voice.volume = random.pick(&[0, 1, 64, 64, 64]);
    voice.period = random.pick(&[0, 108, 428, 428, 907]);
    let stop = random.chance(25);
    match module.sample(voice.sample) {
        Some(sample) if !voice.stopped && !stop => {
            voice.index = index(random, sample, voice.index);
        }
        _ => {
            voice.stopped = true;
            voice.index = 0;
            voice.fraction = 0;
        }
    }
}

/// An index below the sample's end: the one it was, the first, the last, or one whose byte is 0.
fn index(random: &mut Random, sample: &Sample, index: u32) -> u32 {
    let last = sample.end - 1;
    let zeros = (0..sample.end).filter(|&at| sample.bytes[at as usize] == 0);
    let zeros: Vec<u32> = zeros.collect();
    match random.below(4) {
        0 => random.below(4).min(last),
        1 if !zeros.is_empty() => random.pick(&zeros),
        2 => random.between(0, last),
        _ => index,
    }
}

/// A channel's number, mostly 1 to 8.
pub fn channel(seed: u64) -> u32 {
    let mut random = Random::new(seed);
    if random.chance(80) {
        random.between(1, CHANNELS as u32)
    } else {
        random.pick(&[0, 9, 10, 256, 257, 1 << 31, u32::MAX - 1, u32::MAX])
    }
}
