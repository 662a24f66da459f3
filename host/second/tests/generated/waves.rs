//! Wavering modules sound as the paper's words say and meet every kind of wave often; states hold
//! any wave, and illegal ones break each of its numbers alone.

use crate::common::*;
use crate::printed::within;
use second::generate::modules::{module, Size};
use second::generate::states::{illegal_state, legal_state};
use second::generate::waves::wavering;
use second::{channels, fresh, judge, play, play_stream, trace_tick, Trace};

/// Cells of the state and, counted from a channel's first, of its own.
const DELAY: usize = 3;
const SPEED: usize = 8;
const FIRST_CHANNEL: usize = 13;
const CHANNEL_CELLS: usize = 20;
const LATCHED: usize = 0;
const FINETUNE: usize = 1;
const VOLUME: usize = 2;
const PERIOD: usize = 3;
const TARGET: usize = 4;
const VIBRATO: usize = 6;
const TREMOLO: usize = 10;

/// The largest legal x, y, place and form.
const LASTS: [u32; 4] = [15, 15, 63, 2];

/// The sine's first half, which the second repeats with the sign changed.
const HALF_SINE: [i32; 32] = [
    0, 24, 49, 74, 97, 120, 141, 161, 180, 197, 212, 224, 235, 244, 250, 253, 255, 253, 250, 244,
    235, 224, 212, 197, 180, 161, 141, 120, 97, 74, 49, 24,
];

/// One channel in one tick: its cell, its numbers before and after, and what its voice took.
struct Met<'a> {
    sample: u8,
    note: bool,
    effect: u8,
    x: u8,
    y: u8,
    /// The tick in the row and its place among those of the speed.
    u: u32,
    t: u32,
    speed: u32,
    delay: u32,
    before: &'a [u32],
    after: &'a [u32],
    period: u32,
    volume: u32,
    heard: bool,
}

impl<'a> Met<'a> {
    fn new(
        file: &[u8],
        before: &'a Cells,
        after: &'a Cells,
        trace: &Trace,
        channel: usize,
    ) -> Self {
        let cell = &row(file, trace.position, trace.row)[4 * channel..4 * channel + 4];
        let own = FIRST_CHANNEL + CHANNEL_CELLS * channel;
        let voice = trace.voices[channel];
        Met {
            sample: cell[0] / 16 * 16 + cell[2] / 16,
            note: [cell[0] % 16, cell[1]] != [0, 0],
            effect: cell[2] % 16,
            x: cell[3] / 16,
            y: cell[3] % 16,
            u: trace.tick,
            t: trace.tick % after[SPEED],
            speed: after[SPEED],
            delay: before[DELAY],
            before: &before[own..own + CHANNEL_CELLS],
            after: &after[own..own + CHANNEL_CELLS],
            period: voice.period,
            volume: voice.volume,
            heard: trace.frames.iter().any(|&number| number != 0),
        }
    }

    /// Whether the effect is E with this x.
    fn extended(&self, x: u8) -> bool {
        self.effect == 0xE && self.x == x
    }

    fn vibrates(&self) -> bool {
        self.t > 0 && (self.effect == 4 || self.effect == 6)
    }

    fn trembles(&self) -> bool {
        self.t > 0 && self.effect == 7
    }

    /// The vibrato's offset before it is kept in its limits.
    fn vibrato(&self) -> i32 {
        product(&self.before[VIBRATO..]) / 128
    }

    fn tremolo(&self) -> i32 {
        product(&self.before[TREMOLO..]) / 64
    }

    /// The period that vibrato makes, before it is kept in its limits.
    fn wide_period(&self) -> i32 {
        self.after[PERIOD] as i32 + self.vibrato()
    }

    fn wide_volume(&self) -> i32 {
        self.after[VOLUME] as i32 + self.tremolo()
    }

    /// Whether vibrato of this form moves a period above 0, and whether upwards.
    fn vibrato_is(&self, form: u32, up: bool) -> bool {
        let moves = self.vibrates() && self.after[PERIOD] > 0;
        moves && self.before[VIBRATO + 3] == form && self.vibrato().signum() == sign(up)
    }

    fn tremolo_is(&self, form: u32, up: bool) -> bool {
        let form_is = self.before[TREMOLO + 3] == form;
        self.trembles() && form_is && self.tremolo().signum() == sign(up)
    }

    /// Whether the tick begins a repetition in which this effect waits.
    fn waits(&self, effect: u8, offset: i32) -> bool {
        self.t == 0 && self.u > 0 && self.effect == effect && offset != 0
    }

    /// Whether a place of either wave isn't 0 before the tick, and is the same after it.
    fn keeps_place(&self) -> bool {
        let places = |own: &[u32]| [own[VIBRATO + 2], own[TREMOLO + 2]];
        places(self.before) != [0, 0] && places(self.before) == places(self.after)
    }

    fn clears(&self, wave: usize) -> bool {
        self.before[wave + 2] > 0 && self.u == 0 && self.after[wave + 2] == 0
    }

    fn wraps(&self, wave: usize) -> bool {
        self.t > 0 && self.after[wave + 2] < self.before[wave + 2]
    }

    fn slid(&self, cell: usize, up: bool) -> bool {
        let change = self.after[cell] as i32 - self.before[cell] as i32;
        self.t > 0 && change.signum() == sign(up)
    }

    /// Whether an effect other than the waves' comes to a channel that wavers.
    fn between(&self) -> bool {
        self.keeps_place() && self.after[PERIOD] > 0
    }

    /// Whether a row begins with this effect and its halves are, or aren't, 0.
    fn halves(&self, effect: u8, x: bool, y: bool) -> bool {
        let halves = (self.x > 0, self.y > 0);
        self.u == 0 && self.effect == effect && halves == (x, y)
    }
}

fn sign(up: bool) -> i32 {
    if up {
        1
    } else {
        -1
    }
}

/// A wave's number at its place times its depth; its cells are x, y, place and form.
pub fn product(wave: &[u32]) -> i32 {
    let (y, place) = (wave[1] as i32, wave[2] as i32);
    let half = HALF_SINE[place as usize % 32];
    let entry = match (wave[3], place < 32) {
        (0, true) => half,
        (0, false) => -half,
        (1, true) => 8 * place,
        (1, false) => 8 * (place - 32) - 255,
        (_, true) => 255,
        (_, false) => -255,
    };
    entry * y
}

/// Holds one channel of a tick against the paper's words.
fn check(met: &Met, case: &str) {
    let period = match met.after[PERIOD] {
        0 => 0,
        _ if met.vibrates() => within(met.wide_period(), met.after[FINETUNE] as i32),
        // Arpeggio has its own rule.
        _ if met.effect == 0 => met.period,
        period => period,
    };
    let volume = match met.trembles() {
        true => met.wide_volume().clamp(0, 64) as u32,
        false => met.after[VOLUME],
    };
    assert_eq!([met.period, met.volume], [period, volume], "{case}");
    for (wave, moves) in [(VIBRATO, met.vibrates()), (TREMOLO, met.trembles())] {
        if met.t > 0 {
            let gain = if moves { met.before[wave] } else { 0 };
            let place = (met.before[wave + 2] + gain) % 64;
            assert_eq!(met.after[wave + 2], place, "{case}");
        }
    }
}

type Test = fn(&Met) -> bool;

/// Ticks of a kind, and how many were met.
struct Kind {
    name: &'static str,
    is: Test,
    met: u32,
}

fn kinds() -> Vec<Kind> {
    let kind = |(name, is)| Kind { name, is, met: 0 };
    let all = [offsets(), limits(), rows(), starts(), slides(), company()];
    all.concat().into_iter().map(kind).collect()
}

fn offsets() -> Vec<(&'static str, Test)> {
    vec![
        ("vibrato's sine upwards", |m| m.vibrato_is(0, true)),
        ("vibrato's sine downwards", |m| m.vibrato_is(0, false)),
        ("vibrato's ramp upwards", |m| m.vibrato_is(1, true)),
        ("vibrato's ramp downwards", |m| m.vibrato_is(1, false)),
        ("vibrato's square upwards", |m| m.vibrato_is(2, true)),
        ("vibrato's square downwards", |m| m.vibrato_is(2, false)),
        ("tremolo's sine upwards", |m| m.tremolo_is(0, true)),
        ("tremolo's sine downwards", |m| m.tremolo_is(0, false)),
        ("tremolo's ramp upwards", |m| m.tremolo_is(1, true)),
        ("tremolo's ramp downwards", |m| m.tremolo_is(1, false)),
        ("tremolo's square upwards", |m| m.tremolo_is(2, true)),
        ("tremolo's square downwards", |m| m.tremolo_is(2, false)),
        ("a period lowered with a rest", |m| {
            m.vibrates() && m.after[PERIOD] > 0 && product(&m.before[VIBRATO..]) % 128 < 0
        }),
        ("a volume lowered with a rest", |m| {
            m.trembles() && product(&m.before[TREMOLO..]) % 64 < 0
        }),
        ("a wave that is heard", |m| {
            m.heard && (m.vibrates() && m.vibrato() != 0 || m.trembles() && m.tremolo() != 0)
        }),
    ]
}

fn limits() -> Vec<(&'static str, Test)> {
    vec![
        ("a period kept at 856", |m| {
            m.vibrates() && m.after[PERIOD] > 0 && m.wide_period() > 856
        }),
        ("a period kept at 113", |m| {
            m.vibrates() && m.after[PERIOD] > 0 && m.wide_period() < 113
        }),
        ("a volume kept at 64", |m| {
            m.trembles() && m.wide_volume() > 64
        }),
        ("a volume kept at 0", |m| {
            m.trembles() && m.wide_volume() < 0
        }),
        ("a period that just reaches an end", |m| {
            m.vibrates() && m.vibrato() != 0 && [113, 856].contains(&m.wide_period())
        }),
        ("a volume that just reaches an end", |m| {
            m.trembles() && m.tremolo() != 0 && [0, 64].contains(&m.wide_volume())
        }),
        ("a period of 0 under vibrato", |m| {
            m.vibrates() && m.after[PERIOD] == 0 && m.before[VIBRATO] > 0
        }),
        ("vibrato of depth 0", |m| {
            m.vibrates() && m.before[VIBRATO + 1] == 0 && m.before[VIBRATO] > 0
        }),
        ("tremolo of depth 0", |m| {
            m.trembles() && m.before[TREMOLO + 1] == 0 && m.before[TREMOLO] > 0
        }),
        ("vibrato past place 63", |m| m.wraps(VIBRATO)),
        ("tremolo past place 63", |m| m.wraps(TREMOLO)),
    ]
}

fn rows() -> Vec<(&'static str, Test)> {
    vec![
        ("4 waits", |m| m.waits(4, m.vibrato())),
        ("6 waits", |m| m.waits(6, m.vibrato())),
        ("7 waits", |m| m.waits(7, m.tremolo())),
        ("4 in a repetition", |m| {
            m.effect == 4 && m.vibrates() && m.delay > 0
        }),
        ("4 with both halves", |m| m.halves(4, true, true)),
        ("4 with x alone", |m| m.halves(4, true, false)),
        ("4 with y alone", |m| m.halves(4, false, true)),
        ("400", |m| m.halves(4, false, false)),
        ("7 with both halves", |m| m.halves(7, true, true)),
        ("7 with x alone", |m| m.halves(7, true, false)),
        ("7 with y alone", |m| m.halves(7, false, true)),
        ("700", |m| m.halves(7, false, false)),
        ("a wave at speed 1", |m| m.effect == 4 && m.speed == 1),
        ("a wave at speed 2", |m| m.vibrates() && m.speed == 2),
        ("a wave at speed 3", |m| m.vibrates() && m.speed == 3),
        ("a wave at speed 6", |m| m.trembles() && m.speed == 6),
        ("a wave at speed 31", |m| m.trembles() && m.speed == 31),
        ("a wave without a note", |m| {
            m.u == 0 && !m.note && m.sample == 0 && (m.effect == 4 || m.effect == 7)
        }),
    ]
}

fn starts() -> Vec<(&'static str, Test)> {
    vec![
        ("a note that clears vibrato", |m| {
            m.note && m.clears(VIBRATO)
        }),
        ("a note that clears tremolo", |m| {
            m.note && m.clears(TREMOLO)
        }),
        ("a note beside 4", |m| m.u == 0 && m.note && m.effect == 4),
        ("a note beside 6", |m| m.u == 0 && m.note && m.effect == 6),
        ("a note beside 7", |m| m.u == 0 && m.note && m.effect == 7),
        ("a note without a latched sample", |m| {
            m.u == 0 && m.note && m.after[LATCHED] == 0
        }),
        ("a note beside 3 that keeps a place", |m| {
            m.u == 0 && m.note && m.effect == 3 && m.keeps_place()
        }),
        ("a note beside 5 that keeps a place", |m| {
            m.u == 0 && m.note && m.effect == 5 && m.keeps_place()
        }),
        ("9 that keeps a place", |m| {
            m.u == 0 && !m.note && m.effect == 9 && m.keeps_place()
        }),
        ("E9 that keeps a place", |m| {
            m.t > 0 && m.extended(9) && m.keeps_place()
        }),
        ("a number alone beside a wave", |m| {
            m.u == 0 && !m.note && m.sample > 0 && m.keeps_place()
        }),
        ("E4 that changes the form", |m| {
            m.extended(4) && m.before[VIBRATO + 3] != m.after[VIBRATO + 3]
        }),
        ("E7 that changes the form", |m| {
            m.extended(7) && m.before[TREMOLO + 3] != m.after[TREMOLO + 3]
        }),
    ]
}

fn slides() -> Vec<(&'static str, Test)> {
    vec![
        ("5 up to its target", |m| {
            m.effect == 5 && m.slid(PERIOD, true)
        }),
        ("5 down to its target", |m| {
            m.effect == 5 && m.slid(PERIOD, false)
        }),
        ("5 that stays at its target", |m| {
            m.effect == 5 && m.t > 0 && m.before[TARGET] > 0 && m.before[PERIOD] == m.before[TARGET]
        }),
        ("5 without a target", |m| {
            m.effect == 5 && m.t > 0 && m.before[TARGET] == 0
        }),
        ("5 louder", |m| m.effect == 5 && m.slid(VOLUME, true)),
        ("5 softer", |m| m.effect == 5 && m.slid(VOLUME, false)),
        ("6 louder", |m| m.effect == 6 && m.slid(VOLUME, true)),
        ("6 softer", |m| m.effect == 6 && m.slid(VOLUME, false)),
    ]
}

fn company() -> Vec<(&'static str, Test)> {
    vec![
        ("an arpeggio between", |m| {
            m.effect == 0 && m.between() && m.period < m.after[PERIOD]
        }),
        ("1 between", |m| {
            m.effect == 1 && m.between() && m.slid(PERIOD, false)
        }),
        ("2 between", |m| {
            m.effect == 2 && m.between() && m.slid(PERIOD, true)
        }),
        ("3 between", |m| m.effect == 3 && m.between()),
        ("A between", |m| m.effect == 0xA && m.between()),
        ("C between", |m| m.effect == 0xC && m.between()),
        ("E1 between", |m| m.extended(1) && m.between()),
        ("E2 between", |m| m.extended(2) && m.between()),
        ("EA between", |m| m.extended(0xA) && m.between()),
        ("EB between", |m| m.extended(0xB) && m.between()),
        ("EC between", |m| m.extended(0xC) && m.between()),
        ("EE between", |m| m.extended(0xE) && m.between()),
    ]
}

/// Plays a tick and shows each channel of it.
fn tick(file: &[u8], cells: &mut Cells, mut show: impl FnMut(&Met)) {
    let before = *cells;
    let trace = trace_tick(file, cells).expect("legal");
    for channel in 0..channels(file) as usize {
        show(&Met::new(file, &before, cells, &trace, channel));
    }
}

#[test]
fn wavering_modules_meet_every_kind_often() {
    let mut kinds = kinds();
    for seed in 0..150 {
        let file = wavering(seed);
        assert_eq!(judge(&file), accepted(0), "seed {seed}");
        let mut cells = fresh();
        for _ in 0..200 {
            tick(&file, &mut cells, |met| {
                for kind in &mut kinds {
                    kind.met += u32::from((kind.is)(met));
                }
            });
        }
    }
    for kind in &kinds {
        assert!(kind.met > 100, "{}: {}", kind.name, kind.met);
    }
}

#[test]
fn waves_sound_as_the_paper_says() {
    for seed in 0..300 {
        let wavers = seed % 2 == 0;
        let file = if wavers { wavering(seed) } else { file(seed) };
        for mut cells in [fresh(), legal_state(seed, &file)] {
            for _ in 0..30 {
                tick(&file, &mut cells, |met| check(met, &format!("seed {seed}")));
            }
        }
    }
}

#[test]
fn every_parameter_stands_in_some_wavering_module() {
    let mut seen = [[0; 256]; 16];
    let mut volumes = [0; 65];
    for seed in 0..300 {
        let file = wavering(seed);
        for cell in file[1_084..2_108].chunks_exact(4) {
            seen[usize::from(cell[2] % 16)][usize::from(cell[3])] += 1;
        }
        for sample in 0..4 {
            volumes[usize::from(file[20 + 30 * sample + 25])] += 1;
        }
    }
    for effect in [4, 5, 6, 7] {
        let least = seen[effect].iter().min();
        assert!(least > Some(&0), "effect {effect}");
    }
    for extended in [0x40, 0x70] {
        let least = seen[0xE][extended..extended + 16].iter().min();
        assert!(least > Some(&20), "E{extended:X}");
    }
    assert!(volumes[0] > 200 && volumes[64] > 200, "{volumes:?}");
    assert!(volumes[1..64].iter().all(|&times| times > 0), "{volumes:?}");
}

#[test]
fn general_modules_waver_too() {
    let mut seen = [0; 16];
    let mut forms = [0; 16];
    for seed in 0..300 {
        let file = module(seed, Size::Small);
        for cell in file[1_084..2_108].chunks_exact(4) {
            seen[usize::from(cell[2] % 16)] += 1;
            if cell[2] % 16 == 0xE {
                forms[usize::from(cell[3] / 16)] += 1;
            }
        }
    }
    assert!(seen[4..=7].iter().all(|&times| times > 500), "{seen:?}");
    assert!(forms[4] > 200 && forms[7] > 200, "{forms:?}");
}

#[test]
fn the_board_plays_wavering_modules_as_the_player_does() {
    for seed in 0..150 {
        let file = wavering(seed);
        let ticks = 5 + seed as u32 % 40;
        let stream = translated(&file, ticks);
        let mut player = vec![UNTOUCHED; 40_000 + seed as usize];
        let mut board = player.clone();
        let answer = play(&file, &mut fresh(), ticks, &mut player);
        assert_eq!(play_stream(&stream, &file, &mut board), answer);
        assert!(player == board, "seed {seed}");
    }
}

/// The four cells of each of a state's waves, two for each of the module's channels.
fn waves<'a>(file: &[u8], cells: &'a Cells) -> Vec<&'a [u32]> {
    let all = cells[FIRST_CHANNEL..].chunks_exact(CHANNEL_CELLS);
    let own = all.take(channels(file) as usize);
    let waves = own.flat_map(|own| [&own[VIBRATO..TREMOLO], &own[TREMOLO..TREMOLO + 4]]);
    waves.collect()
}

#[test]
fn legal_states_hold_any_wave() {
    let mut seen = [[0; 64]; 64];
    let files: Vec<Vec<u8>> = (0..200).map(wavering).collect();
    for seed in 0..20_000 {
        let file = &files[seed as usize % files.len()];
        let cells = legal_state(seed, file);
        for (wave, numbers) in waves(file, &cells).into_iter().enumerate() {
            for (number, &held) in numbers.iter().enumerate() {
                seen[4 * wave + number][held as usize] += 1;
            }
        }
    }
    for (number, held) in seen.iter().enumerate() {
        let last = LASTS[number % 4] as usize;
        assert!(held[..=last].iter().all(|&times| times > 5), "{held:?}");
        assert!(held[last + 1..].iter().all(|&times| times == 0));
    }
}

#[test]
fn illegal_states_break_each_number_of_a_wave_alone() {
    // For each wave's numbers, how often the one past the last, and how often a huge one.
    let mut seen = [[0; 2]; 64];
    let files: Vec<Vec<u8>> = (0..200).map(wavering).collect();
    for seed in 0..60_000 {
        let file = &files[seed as usize % files.len()];
        let cells = illegal_state(seed, file);
        let mut wrong = 0;
        for (wave, numbers) in waves(file, &cells).into_iter().enumerate() {
            for (number, (&held, last)) in numbers.iter().zip(LASTS).enumerate() {
                wrong += u32::from(held > last);
                seen[4 * wave + number][0] += u32::from(held == last + 1);
                seen[4 * wave + number][1] += u32::from(held > 60_000);
            }
        }
        assert!(wrong <= 1, "seed {seed}");
        let answer = play(file, &mut cells.clone(), 0, &mut []);
        assert_eq!(answer, refused(14, 0), "seed {seed}");
    }
    assert!(
        seen.as_flattened().iter().all(|&times| times > 4),
        "{seen:?}"
    );
}
