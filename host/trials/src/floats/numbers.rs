//! Every number that a side can have, and every sum of two, as the library delivers it. A side is the sum of its voices, of two with four
//! channels, which is doubled, of three with six and of four with eight; a voice gives a byte times a volume. So of the 65,536 numbers a side
//! has those of `side_numbers` and no other.
use super::{is_mono, is_side};
use lampthistle::{cell, Pair, State, MONO, STEREO};
use second::generate::draft::Draft;

/// The channels on the left, from 0.
const LEFT: [usize; 4] = [0, 3, 4, 7];

/// A voice's byte and its volume.
#[derive(Clone, Copy)]
struct Voice {
    byte: u8,
    volume: u32,
}

fn given(voice: &Voice) -> i32 {
    i32::from(voice.byte as i8) * voice.volume as i32
}

/// A voice for each number that one can give.
fn voices() -> Vec<Voice> {
    let all = (0..=255).flat_map(|byte| (0..=64).map(move |volume| Voice { byte, volume }));
    let mut voices: Vec<Voice> = all.collect();
    voices.sort_by_key(given);
    voices.dedup_by_key(|voice| given(voice));
    voices
}

/// Voices that make each sum, from -32,768 on; none where as many can't.
type Made = Vec<Option<Vec<Voice>>>;

const SUMS: std::ops::RangeInclusive<i32> = -32_768..=32_767;

/// A sum's place; past the end for a sum that isn't of 16 bits.
fn place(sum: i32) -> usize {
    sum.wrapping_sub(*SUMS.start()) as usize
}

/// What voices make, with one more of these.
fn with_one_more(made: &Made, one: &[Voice]) -> Made {
    let add = |sum: i32, voice: &Voice| {
        let rest = made.get(place(sum - given(voice)))?.as_ref()?;
        Some([&rest[..], &[*voice]].concat())
    };
    SUMS.map(|sum| one.iter().find_map(|voice| add(sum, voice)))
        .collect()
}

/// The numbers that a side can have with so many channels, in order, and voices that make each.
struct Sides {
    channels: usize,
    times: i32,
    numbers: Vec<i16>,
    made: Made,
}

impl Sides {
    fn all(channels: usize) -> Sides {
        let one = voices();
        let mut made: Made = SUMS.map(|sum| (sum == 0).then(Vec::new)).collect();
        for _ in 0..channels / 2 {
            made = with_one_more(&made, &one);
        }
        let times = if channels == 4 { 2 } else { 1 };
        let number = |sum| i16::try_from(times * sum).expect("a side is a 16-bit number");
        let sums = SUMS.filter(|&sum| made[place(sum)].is_some());
        Sides {
            channels,
            times,
            numbers: sums.map(number).collect(),
            made,
        }
    }

    fn has(&self, number: i32) -> bool {
        number % self.times == 0
            && matches!(self.made.get(place(number / self.times)), Some(Some(_)))
    }

    fn voices(&self, number: i16) -> &[Voice] {
        let made = self.made[place(i32::from(number) / self.times)].as_ref();
        made.expect("a number that a side can have")
    }

    /// A left and a right for each sum that two can have.
    fn sums(&self) -> Vec<(i16, i16)> {
        let [least, most] = [self.numbers.first(), self.numbers.last()]
            .map(|number| i32::from(*number.expect("0 is one of them")));
        let sums = (2 * least..=2 * most).step_by(self.times as usize);
        let split = |sum: i32| {
            self.numbers.iter().find_map(|&left| {
                let right = i16::try_from(sum - i32::from(left)).ok()?;
                self.has(right.into()).then_some((left, right))
            })
        };
        sums.filter_map(split).collect()
    }
}

/// The numbers that a side can have in a module of this tag, in order.
pub fn side_numbers(tag: &[u8; 4]) -> Vec<i16> {
    all(tag).0.numbers
}

/// The index of the sample's first byte that is read; the two before it read 0.
const FIRST_BYTE: u32 = 2;

/// What sides can have, and a module with a sample of all bytes and nothing to do.
fn all(tag: &[u8; 4]) -> (Sides, Vec<u8>) {
    let mut draft = Draft::tagged(tag);
    let bytes: Vec<u8> = [0; FIRST_BYTE as usize]
        .into_iter()
        .chain(0..=255)
        .collect();
    draft.add_looped(1, 64, 0, 0, &bytes);
    (Sides::all(draft.channels()), draft.bytes())
}

/// A state in the middle of a row whose next frame has these numbers.
fn state(sides: &Sides, left: i16, right: i16) -> State {
    let (mut left, mut right) = (sides.voices(left).iter(), sides.voices(right).iter());
    let mut state = lampthistle::fresh();
    state.0[cell::TICK] = 1;
    state.0[cell::TEMPO] = 255;
    for channel in 0..sides.channels {
        let side = if LEFT.contains(&channel) {
            &mut left
        } else {
            &mut right
        };
        let voice = side.next().expect("half of the channels are on a side");
        let own = &mut state.0[cell::channel(channel)..];
        own[cell::VOLUME] = voice.volume;
        own[cell::PERIOD] = 856;
        own[cell::VOICE_SAMPLE] = 1;
        own[cell::VOICE_INDEX] = FIRST_BYTE + u32::from(voice.byte);
        own[cell::VOICE_STOPPED] = 0;
    }
    state
}

/// The first frame of a tick, for so many sides.
fn first_frame(file: &[u8], state: &State, sides: u32) -> Result<Vec<f32>, String> {
    let mut out = [f32::NAN; lampthistle::TICK_NUMBERS];
    let mut state = *state;
    let played =
        lampthistle::play_floats(file, &mut state, 1, sides, &mut out, &mut Pair::default());
    match played.accepted() {
        Ok(1) => Ok(out[..sides as usize].to_vec()),
        _ => Err(format!("{played:?}")),
    }
}

/// Plays every number that a side of a module of this tag can have, on both sides; gives how many there are.
pub fn each_side(tag: &[u8; 4]) -> Result<usize, String> {
    let (sides, file) = all(tag);
    for (left, right) in sides.numbers.iter().zip(sides.numbers.iter().rev()) {
        let state = state(&sides, *left, *right);
        has_numbers(&file, &state, *left, *right)?;
        let frame = first_frame(&file, &state, STEREO)?;
        if !is_side(frame[0], *left) || !is_side(frame[1], *right) {
            return Err(format!("{left} and {right} as {frame:?}"));
        }
    }
    Ok(sides.numbers.len())
}

/// Plays every sum that a left and a right of such a module can have, as mono; gives how many there are.
pub fn each_sum(tag: &[u8; 4]) -> Result<usize, String> {
    let (sides, file) = all(tag);
    let sums = sides.sums();
    for (left, right) in &sums {
        let state = state(&sides, *left, *right);
        has_numbers(&file, &state, *left, *right)?;
        let frame = first_frame(&file, &state, MONO)?;
        if !is_mono(frame[0], *left, *right) {
            return Err(format!("{left} and {right} as {frame:?}"));
        }
    }
    Ok(sums.len())
}

/// Whether the state's next frame has these 16-bit numbers.
fn has_numbers(file: &[u8], state: &State, left: i16, right: i16) -> Result<(), String> {
    let mut out = [0; lampthistle::TICK_NUMBERS];
    let played = lampthistle::play(file, &mut state.clone(), 1, &mut out);
    match (played.accepted(), &out[..2]) {
        (Ok(1), frame) if frame == [left, right] => Ok(()),
        (_, frame) => Err(format!("{left} and {right}: {played:?}, {frame:?}")),
    }
}
