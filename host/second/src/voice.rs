//! Voices: starting, stopping, moving by one frame, and the frames of one tick.

use crate::module::Module;

/// The channels of a state, of which a module has the first four, six or all.
pub const CHANNELS: usize = 8;

#[derive(Clone, Copy, Debug, PartialEq, Eq)]
pub struct Voice {
    pub sample: u32,
    pub period: u32,
    pub volume: u32,
    pub index: u32,
    pub fraction: u32,
    pub stopped: bool,
}

impl Voice {
    pub fn fresh() -> Voice {
        Voice {
            sample: 0,
            period: 0,
            volume: 0,
            index: 0,
            fraction: 0,
            stopped: true,
        }
    }

    /// Starts a sample, 0 for none, at an offset in bytes.
    pub fn start(&mut self, module: &Module, sample: u32, offset: u32) {
        self.sample = sample;
        let Some(sample) = module.sample(sample) else {
            self.stop();
            return;
        };
        if offset < sample.end {
            self.run_from(offset);
        } else if sample.looped {
            self.run_from(sample.loop_first);
        } else {
            self.stop();
        }
    }

    fn run_from(&mut self, index: u32) {
        self.index = index;
        self.fraction = 0;
        self.stopped = false;
    }

    fn stop(&mut self) {
        self.index = 0;
        self.fraction = 0;
        self.stopped = true;
    }

    fn sounds(&self) -> bool {
        !self.stopped && self.sample != 0 && self.period != 0
    }

    /// What the voice gives to this frame.
    fn gives(&self, module: &Module) -> i32 {
        if !self.sounds() {
            return 0;
        }
        let Some(sample) = module.sample(self.sample) else {
            return 0;
        };
        i32::from(sample.read(self.index)) * self.volume as i32
    }

    /// Moves by one frame; `growth` is the growth of the fraction at the voice's period.
    fn step(&mut self, module: &Module, growth: u32) {
        if !self.sounds() {
            return;
        }
        let Some(sample) = module.sample(self.sample) else {
            return;
        };
        self.fraction += growth;
        if self.fraction > 65_535 {
            self.fraction -= 65_536;
            self.index += 1;
        }
        if self.index == sample.end {
            if sample.looped {
                self.index = sample.loop_first;
            } else {
                self.stop();
            }
        }
    }
}

/// What a frame adds to the fraction at this period; nothing at period 0.
pub fn growth(period: u32) -> u32 {
    if period == 0 {
        return 0;
    }
    // The PAL clock is 3,546,894.6 Hz, so both it and the rate are taken ten times.
    (35_468_946 * 65_536 / (480_000 * u64::from(period))) as u32
}

/// The count of channels with which a side is twice its sum.
const DOUBLED: u32 = 4;

/// The frames of one tick: each call gives the next one, left and right, and moves the voices.
pub fn frames<'a>(
    module: &'a Module,
    voices: &'a mut [Voice; CHANNELS],
) -> impl FnMut() -> (i16, i16) + 'a {
    let growths = voices.map(|voice| growth(voice.period));
    let times = if module.channels == DOUBLED { 2 } else { 1 };
    move || {
        let (mut left, mut right) = (0, 0);
        for channel in 0..module.channels as usize {
            let given = times * voices[channel].gives(module);
            if is_left(channel) {
                left += given;
            } else {
                right += given;
            }
            voices[channel].step(module, growths[channel]);
        }
        (left as i16, right as i16)
    }
}

/// Whether a channel, counted from 0, is on the left: the first and the last of each four.
pub fn is_left(channel: usize) -> bool {
    matches!(channel % 4, 0 | 3)
}

/// A frame of a tick in which a voice comes to its sample's end.
#[derive(Clone, Copy, Debug, PartialEq, Eq)]
pub struct End {
    pub channel: usize,
    pub frame: usize,
    /// Whether it stops there; it loops otherwise.
    pub stops: bool,
}

/// The ends that these voices come to in so many frames, channel by channel.
pub fn ends(module: &Module, voices: &[Voice; CHANNELS], frames: usize) -> Vec<End> {
    let mut ends = Vec::new();
    for channel in 0..CHANNELS {
        let mut voice = voices[channel];
        for frame in 0..frames {
            let index = voice.index;
            voice.step(module, growth(voice.period));
            if voice.index < index {
                ends.push(End {
                    channel,
                    frame,
                    stops: voice.stopped,
                });
            }
        }
    }
    ends
}
