//! The C loops (c/mix.c), and the voices that they take.
use lampthistle::{cell, State};
use second::module::Module;

/// A voice as c/mix.c takes it.
#[repr(C)]
#[derive(Clone, Copy)]
pub struct Voice {
    bytes: *const i8,
    end: u32,
    first: u32,
    looped: u32,
    stopped: u32,
    period: u32,
    volume: i32,
    index: u32,
    fraction: u32,
}

/// A loop over so many voices.
#[derive(Clone, Copy)]
pub struct Loop<const N: usize> {
    pub name: &'static str,
    mix: unsafe extern "C" fn(*mut Voice, *mut i16, usize),
}

macro_rules! loops {
    ($($list:ident: $count:literal = $($mix:ident $name:literal),*;)*) => {
        extern "C" {
            $($(fn $mix(voices: *mut Voice, out: *mut i16, frames: usize);)*)*
        }
        $(pub const $list: [Loop<$count>; WAYS] = [$(Loop { name: $name, mix: $mix }),*];)*
    };
}

/// The ways of mixing; the first of them go over the frames once, with the voices in registers.
pub const WAYS: usize = 4;
pub const ONE_PASS: usize = 3;

loops! {
    FOUR: 4 = mix_plain "C, plain", mix_sides "C, by sides", mix_four "C, four at once", mix_bytes "C, by bytes";
    SIX: 6 = mix_plain_six "C, plain", mix_sides_six "C, by sides", mix_six "C, all at once", mix_bytes_six "C, by bytes";
    EIGHT: 8 = mix_plain_eight "C, plain", mix_sides_eight "C, by sides", mix_eight "C, all at once", mix_bytes_eight "C, by bytes";
}

/// The voices of a state that is legal for an accepted module of so many channels.
pub fn voices<const N: usize>(file: &[u8], state: &State) -> [Voice; N] {
    let Ok(module) = Module::read(file) else {
        panic!("the module is refused");
    };
    std::array::from_fn(|channel| {
        let own = &state.0[cell::channel(channel)..];
        let sample = module.sample(own[cell::VOICE_SAMPLE]);
        Voice {
            bytes: sample.map_or(file, |s| s.bytes).as_ptr().cast(),
            end: sample.map_or(0, |s| s.end),
            first: sample.map_or(0, |s| s.loop_first),
            looped: sample.is_some_and(|s| s.looped).into(),
            stopped: own[cell::VOICE_STOPPED],
            period: own[cell::PERIOD],
            volume: own[cell::VOLUME] as i32,
            index: own[cell::VOICE_INDEX],
            fraction: own[cell::VOICE_FRACTION],
        }
    })
}

impl<const N: usize> Loop<N> {
    /// Fills `out` and moves the voices.
    pub fn mix(&self, voices: &mut [Voice; N], out: &mut [i16]) {
        // SAFETY: as many voices as it takes, whose indexes stay below their ends, which are inside their samples, and pairs of numbers.
        unsafe { (self.mix)(voices.as_mut_ptr(), out.as_mut_ptr(), out.len() / 2) };
    }
}

/// Whether the voices are where the others are.
pub fn same_places(one: &[Voice], other: &[Voice]) -> bool {
    let place = |voice: &Voice| (voice.index, voice.fraction, voice.stopped);
    one.iter().map(place).eq(other.iter().map(place))
}
