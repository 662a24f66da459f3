//! The modules that the benchmarks play.
use crate::cases::wide;
use second::generate::draft::Draft;
use second::generate::Random;

/// 64 patterns of good cells, so that judging takes its longest, and 31 samples of 1,024 words, the half of them looped.
pub fn large() -> Vec<u8> {
    let mut draft = large_patterns();
    for number in 1..=31 {
        draft.add_looped(
            number,
            64,
            0,
            number as u32 % 2 * 1024,
            &noise(number as u64),
        );
    }
    accepted(draft.bytes())
}

/// The same patterns over empty samples: no voice ever sounds.
pub fn large_and_silent() -> Vec<u8> {
    let mut draft = large_patterns();
    for header in &mut draft.headers {
        header.volume = 64;
    }
    accepted(draft.bytes())
}

fn large_patterns() -> Draft {
    let mut draft = Draft::empty();
    draft.song_length = 64;
    for (place, entry) in draft.table[..64].iter_mut().enumerate() {
        *entry = place as u8;
    }
    draft.patterns = vec![draft.patterns[0].clone(); 64];
    let mut random = Random::new(1);
    for cell in draft.patterns.iter_mut().flatten() {
        if random.chance(50) {
            cell.period = random.pick(&[113, 214, 428, 856]);
            cell.sample = random.between(0, 31);
        }
        cell.parameter = random.below(256);
    }
    draft
}

/// The bytes of a sample, and the words of a loop.
pub const SAMPLE_BYTES: usize = 2_048;
pub const LOOP_START: u32 = 100;
const LOOP_LENGTH: u32 = 900;
const SHORT_LOOP: u32 = 2;

/// The channels' periods, of four the first.
pub const PERIODS: [u32; 8] = [428, 285, 214, 160, 404, 269, 202, 151];

/// The first of the four samples of `held` that have the long loop, the one of two words, or none.
pub const LOOPED: u32 = 1;
pub const SHORT: u32 = 5;
pub const ENDING: u32 = 9;

/// A looped sample for each channel and one empty pattern.
fn looped_samples(channels: usize) -> Draft {
    let mut draft = wide(channels);
    for number in 1..=channels {
        let bytes = noise(number as u64);
        draft.add_looped(number, 64, LOOP_START, LOOP_LENGTH, &bytes);
    }
    draft
}

/// Four samples of each kind and nothing to do: a state's voices sound on.
pub fn held() -> Vec<u8> {
    let mut draft = looped_samples(4);
    for (first, repeat) in [(SHORT, SHORT_LOOP), (ENDING, 0)] {
        for number in first as usize..first as usize + 4 {
            draft.add_looped(number, 64, LOOP_START, repeat, &noise(number as u64));
        }
    }
    accepted(draft.bytes())
}

/// A sample in a long loop for each of so many channels, and nothing to do.
pub fn held_by(channels: usize) -> Vec<u8> {
    accepted(looped_samples(channels).bytes())
}

/// A note on each channel in every fourth row, arpeggios and slides between.
pub fn busy() -> Vec<u8> {
    busy_by(4)
}

/// The same by so many channels.
pub fn busy_by(channels: usize) -> Vec<u8> {
    repeating(channels, [0x047, 0x102, 0x202, 0x037])
}

/// The first without arpeggios.
pub fn sliding() -> Vec<u8> {
    repeating(4, [0x000, 0x102, 0x202, 0x000])
}

/// Modules with one effect in every row, or with none.
pub fn by_effect() -> [(&'static str, Vec<u8>); 5] {
    [
        ("no effects", 0x000),
        ("arpeggio", 0x047),
        ("slides of 1", 0x102),
        ("slides of 2", 0x202),
        ("vibrato", 0x484),
    ]
    .map(|(name, effect)| (name, repeating(4, [effect; 4])))
}

/// Finetunes as headers have them: 3, -5, 7 and -8.
const FINETUNES: [u8; 4] = [3, 11, 7, 8];

/// Arpeggio, slides and vibrato in turn, with a finetune for each sample.
pub fn tuned() -> Vec<u8> {
    let mut draft = repeated(4, [0x047, 0x102, 0x202, 0x484]);
    for (header, finetune) in draft.headers.iter_mut().zip(FINETUNES) {
        header.finetune = finetune;
    }
    accepted(draft.bytes())
}

/// Looped samples and one pattern, whose rows have these effects in turn, the first of them with a note on each channel.
fn repeating(channels: usize, effects: [u32; 4]) -> Vec<u8> {
    accepted(repeated(channels, effects).bytes())
}

/// The same, before it is a file.
fn repeated(channels: usize, effects: [u32; 4]) -> Draft {
    let mut draft = looped_samples(channels);
    for row in 0..64 {
        for channel in 0..channels {
            let (sample, period) = match row % 4 {
                0 => (channel as u32 + 1, PERIODS[channel]),
                _ => (0, 0),
            };
            draft.put(0, row, channel, sample, period, effects[row % 4]);
        }
    }
    draft
}

/// Bytes of a sample.
fn noise(seed: u64) -> Vec<u8> {
    let mut random = Random::new(seed);
    (0..SAMPLE_BYTES).map(|_| random.byte()).collect()
}

fn accepted(file: Vec<u8>) -> Vec<u8> {
    assert!(lampthistle::judge(&file).is_accepted());
    file
}
