//! The player's state, its cells and which states are legal.

use crate::finetune::{self, legal_period};
use crate::module::{Module, LAST_SAMPLE, LOUDEST};
use crate::voice::{Voice, CHANNELS};
use crate::wave::Wave;
use crate::{Answer, STATE_CELLS};

/// Cells before the first channel's.
pub const SONG_CELLS: usize = 13;
pub const CHANNEL_CELLS: usize = 20;
/// Where a channel's waves and its voice stand among its cells.
pub const VIBRATO: usize = 6;
pub const TREMOLO: usize = 10;
pub const VOICE: usize = 14;

#[derive(Clone, Copy, Debug, PartialEq, Eq)]
pub struct Channel {
    pub latched: u32,
    pub finetune: i32,
    pub volume: u32,
    pub period: u32,
    pub target: u32,
    pub memory: u32,
    pub vibrato: Wave,
    pub tremolo: Wave,
}

impl Channel {
    fn fresh() -> Channel {
        Channel {
            latched: 0,
            finetune: 0,
            volume: 0,
            period: 0,
            target: 0,
            memory: 0,
            vibrato: Wave::fresh(),
            tremolo: Wave::fresh(),
        }
    }
}

#[derive(Clone, Copy, Debug, PartialEq, Eq)]
pub struct State {
    pub position: u32,
    pub row: u32,
    /// The tick in the row, u.
    pub tick: u32,
    pub delay: u32,
    pub next_position: u32,
    pub next_row: u32,
    pub loop_row: u32,
    pub loop_count: u32,
    pub speed: u32,
    pub tempo: u32,
    /// What the ticks at this tempo so far left over, below the tempo.
    pub remainder: u32,
    pub clock: u32,
    pub page: u32,
    pub channels: [Channel; CHANNELS],
    pub voices: [Voice; CHANNELS],
}

impl State {
    pub fn fresh() -> State {
        State {
            position: 0,
            row: 0,
            tick: 0,
            delay: 0,
            next_position: 0,
            next_row: 0,
            loop_row: 0,
            loop_count: 0,
            speed: 6,
            tempo: 125,
            remainder: 0,
            clock: 0,
            page: 0,
            channels: [Channel::fresh(); CHANNELS],
            voices: [Voice::fresh(); CHANNELS],
        }
    }

    /// The state in the cells, or refusal 14 if it isn't legal for this module.
    pub fn read(cells: &[u32; STATE_CELLS], module: &Module) -> Result<State, Answer> {
        let mut state = State::fresh();
        state.position = cells[0];
        state.row = cells[1];
        state.tick = cells[2];
        state.delay = cells[3];
        state.next_position = cells[4];
        state.next_row = cells[5];
        state.loop_row = cells[6];
        state.loop_count = cells[7];
        state.speed = cells[8];
        state.tempo = cells[9];
        state.remainder = cells[10];
        state.clock = cells[11];
        state.page = cells[12];
        let mut flags_legal = true;
        for channel in 0..CHANNELS {
            let own = &cells[SONG_CELLS + CHANNEL_CELLS * channel..];
            state.channels[channel] = read_channel(own);
            state.voices[channel] = read_voice(&own[VOICE..]);
            flags_legal = flags_legal && own[VOICE + 5] <= 1;
        }
        if flags_legal && state.legal(module) {
            Ok(state)
        } else {
            Err(Answer::refused(14, 0))
        }
    }

    pub fn write(&self, cells: &mut [u32; STATE_CELLS]) {
        cells[0] = self.position;
        cells[1] = self.row;
        cells[2] = self.tick;
        cells[3] = self.delay;
        cells[4] = self.next_position;
        cells[5] = self.next_row;
        cells[6] = self.loop_row;
        cells[7] = self.loop_count;
        cells[8] = self.speed;
        cells[9] = self.tempo;
        cells[10] = self.remainder;
        cells[11] = self.clock;
        cells[12] = self.page;
        for channel in 0..CHANNELS {
            let own = &mut cells[SONG_CELLS + CHANNEL_CELLS * channel..];
            write_channel(&self.channels[channel], own);
            write_voice(&self.voices[channel], &mut own[VOICE..]);
        }
    }

    fn legal(&self, module: &Module) -> bool {
        if self.position >= module.song_length || self.next_position >= module.song_length {
            return false;
        }
        if self.row > 63 || self.next_row > 63 || self.loop_row > 63 {
            return false;
        }
        if self.speed < 1 || self.speed > 31 || self.tempo < 32 || self.tempo > 255 {
            return false;
        }
        if self.remainder >= self.tempo {
            return false;
        }
        if self.delay > 15 || self.loop_count > 15 {
            return false;
        }
        if self.tick >= self.speed * (1 + self.delay) {
            return false;
        }
        (0..CHANNELS).all(|channel| self.legal_at(channel, module))
    }

    /// Whether a channel and its voice are legal; past the module's channels they are as fresh.
    fn legal_at(&self, channel: usize, module: &Module) -> bool {
        let (own, voice) = (&self.channels[channel], &self.voices[channel]);
        if channel < module.channels as usize {
            legal_channel(own) && legal_voice(voice, module)
        } else {
            *own == Channel::fresh() && *voice == Voice::fresh()
        }
    }
}

fn legal_channel(channel: &Channel) -> bool {
    channel.latched <= LAST_SAMPLE
        && finetune::legal(channel.finetune)
        && channel.volume <= LOUDEST
        && legal_period(channel.period)
        && legal_period(channel.target)
        && channel.memory <= 255
        && channel.vibrato.legal()
        && channel.tremolo.legal()
}

pub fn legal_voice(voice: &Voice, module: &Module) -> bool {
    if voice.sample > LAST_SAMPLE || voice.volume > LOUDEST || !legal_period(voice.period) {
        return false;
    }
    if voice.stopped {
        return voice.index == 0 && voice.fraction == 0;
    }
    match module.sample(voice.sample) {
        None => false,
        Some(sample) => voice.index < sample.end && voice.fraction <= 65_535,
    }
}

fn read_channel(cells: &[u32]) -> Channel {
    Channel {
        latched: cells[0],
        finetune: cells[1] as i32,
        volume: cells[2],
        period: cells[3],
        target: cells[4],
        memory: cells[5],
        vibrato: read_wave(&cells[VIBRATO..]),
        tremolo: read_wave(&cells[TREMOLO..]),
    }
}

fn read_wave(cells: &[u32]) -> Wave {
    Wave {
        x: cells[0],
        y: cells[1],
        place: cells[2],
        form: cells[3],
    }
}

pub fn read_voice(cells: &[u32]) -> Voice {
    Voice {
        sample: cells[0],
        period: cells[1],
        volume: cells[2],
        index: cells[3],
        fraction: cells[4],
        stopped: cells[5] != 0,
    }
}

fn write_channel(channel: &Channel, cells: &mut [u32]) {
    cells[0] = channel.latched;
    cells[1] = channel.finetune as u32;
    cells[2] = channel.volume;
    cells[3] = channel.period;
    cells[4] = channel.target;
    cells[5] = channel.memory;
    write_wave(&channel.vibrato, &mut cells[VIBRATO..]);
    write_wave(&channel.tremolo, &mut cells[TREMOLO..]);
}

fn write_wave(wave: &Wave, cells: &mut [u32]) {
    cells[0] = wave.x;
    cells[1] = wave.y;
    cells[2] = wave.place;
    cells[3] = wave.form;
}

pub fn write_voice(voice: &Voice, cells: &mut [u32]) {
    cells[0] = voice.sample;
    cells[1] = voice.period;
    cells[2] = voice.volume;
    cells[3] = voice.index;
    cells[4] = voice.fraction;
    cells[5] = u32::from(voice.stopped);
}
