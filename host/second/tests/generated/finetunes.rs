//! Finetuned modules sound as the paper's words say, by the printed rows, and meet every kind of
//! finetune often; states, streams and files meet each finetune and the limits' neighbours.

use crate::common::*;
use crate::printed::{printed, within, FINETUNES, PLACES};
use crate::waves::product;
use second::generate::damage::aimed;
use second::generate::finetunes::finetuned;
use second::generate::modules::{module, Size};
use second::generate::states::{illegal_state, legal_state};
use second::generate::streams::{bad_stream, legal_stream};
use second::{channels, decode, fresh, judge, play, play_stream, trace_tick, Trace};
use std::collections::BTreeMap;

/// Cells of the state and, counted from a channel's first, of its own.
const SPEED: usize = 8;
const FIRST_CHANNEL: usize = 13;
const CHANNEL_CELLS: usize = 20;
const FINETUNE: usize = 1;
const PERIOD: usize = 3;
const TARGET: usize = 4;
const MEMORY: usize = 5;
const VIBRATO: usize = 6;
const VOICE_PERIOD: usize = 15;

/// The finetune that four bits say.
fn signed(bits: u8) -> i32 {
    i32::from(bits) - if bits > 7 { 16 } else { 0 }
}

/// A channel's finetune, period and target.
#[derive(Clone, Copy, Debug, PartialEq, Eq)]
struct Own {
    finetune: i32,
    period: u32,
    target: u32,
}

impl Own {
    fn of(cells: &[u32]) -> Own {
        Own {
            finetune: cells[FINETUNE] as i32,
            period: cells[PERIOD],
            target: cells[TARGET],
        }
    }

    /// Whether the period is beyond the first entry of the row, and beyond the last.
    fn above(&self) -> bool {
        self.period > printed(self.finetune)[0]
    }

    fn below(&self) -> bool {
        self.period > 0 && self.period < printed(self.finetune)[PLACES - 1]
    }

    fn inside(&self) -> bool {
        self.period > 0 && !self.above() && !self.below()
    }
}

/// One channel in one tick: its cell, its numbers before and after, and what its voice took.
struct Met {
    sample: u8,
    /// The finetune of the cell's sample.
    header: i32,
    note: u32,
    effect: u8,
    parameter: u8,
    u: u32,
    t: u32,
    before: Own,
    after: Own,
    /// The slide memory, and the vibrato's entry times depth.
    memory: u32,
    product: i32,
    sounded: u32,
}

impl Met {
    fn new(file: &[u8], before: &Cells, after: &Cells, trace: &Trace, channel: usize) -> Met {
        let cell = &row(file, trace.position, trace.row)[4 * channel..4 * channel + 4];
        let sample = cell[0] / 16 * 16 + cell[2] / 16;
        let header = match sample {
            0 => 0,
            _ => signed(file[20 + 30 * (usize::from(sample) - 1) + 24] % 16),
        };
        let own = FIRST_CHANNEL + CHANNEL_CELLS * channel;
        Met {
            sample,
            header,
            note: u32::from(cell[0] % 16) * 256 + u32::from(cell[1]),
            effect: cell[2] % 16,
            parameter: cell[3],
            u: trace.tick,
            t: trace.tick % after[SPEED],
            before: Own::of(&before[own..]),
            after: Own::of(&after[own..]),
            memory: after[own + MEMORY],
            product: product(&before[own + VIBRATO..]),
            sounded: trace.voices[channel].period,
        }
    }

    /// The effect with its x where it is E, and the number that it works by.
    fn named(&self) -> (u32, i32) {
        match self.effect {
            0xE => (
                0xE0 + u32::from(self.parameter / 16),
                (self.parameter % 16).into(),
            ),
            _ => (self.effect.into(), self.parameter.into()),
        }
    }

    /// Whether the tick is one in which this effect works.
    fn works(&self, effect: u32) -> bool {
        let when = if effect > 0xE0 {
            self.u == 0
        } else {
            self.t > 0
        };
        when && self.named().0 == effect
    }

    fn sets(&self) -> bool {
        self.works(0xE5)
    }

    fn slides_to_target(&self) -> bool {
        self.works(3) || self.works(5)
    }

    fn vibrates(&self) -> bool {
        self.works(4) || self.works(6)
    }

    fn targeted(&self) -> bool {
        self.u == 0 && self.note > 0 && [3, 5].contains(&self.effect)
    }

    fn started(&self) -> bool {
        self.u == 0 && self.note > 0 && !self.targeted()
    }

    /// The semitones of an arpeggio at work on a period; 0 for none.
    fn semitones(&self) -> usize {
        match (self.effect, self.t % 3) {
            (0, 1) if self.after.period > 0 => (self.parameter / 16).into(),
            (0, 2) if self.after.period > 0 => (self.parameter % 16).into(),
            _ => 0,
        }
    }

    /// The finetune, period and target by the paper's words.
    fn expected(&self) -> Own {
        let mut own = self.before;
        if self.u == 0 {
            if self.sample > 0 {
                own.finetune = self.header;
            }
            if self.sets() {
                own.finetune = signed(self.parameter % 16);
            }
            if self.targeted() {
                own.target = tuned(self.note, own.finetune);
            } else if self.note > 0 {
                own.period = tuned(self.note, own.finetune);
            }
        }
        own.period = self.slid(own);
        own
    }

    /// The period after the tick's slide.
    fn slid(&self, own: Own) -> u32 {
        let period = own.period as i32;
        let by = self.named().1;
        if period == 0 {
            0
        } else if self.works(1) || self.works(0xE1) {
            within(period - by, own.finetune)
        } else if self.works(2) || self.works(0xE2) {
            within(period + by, own.finetune)
        } else if self.slides_to_target() && own.target > 0 {
            let memory = self.memory as i32;
            let way = own.target as i32 - period;
            (period + way.clamp(-memory, memory)) as u32
        } else {
            own.period
        }
    }

    /// The sounded period by the paper's words.
    fn expected_sound(&self) -> u32 {
        let Own {
            finetune, period, ..
        } = self.after;
        if period > 0 && self.vibrates() {
            return within(period as i32 + self.product / 128, finetune);
        }
        match self.semitones() {
            0 => period,
            semitones => {
                let row = printed(finetune);
                let first = row.iter().position(|&entry| entry <= period);
                row[(first.unwrap_or(PLACES - 1) + semitones).min(PLACES - 1)]
            }
        }
    }

    /// Whether vibrato works, and whether by more than 0.
    fn wavers(&self, deep: bool) -> bool {
        self.vibrates() && (self.product != 0) == deep
    }
}

/// What a note becomes: by the place at which the row of 0 is first at or below it.
fn tuned(note: u32, finetune: i32) -> u32 {
    let place = printed(0).iter().position(|&zero| zero <= note);
    match finetune {
        0 => note,
        _ => printed(finetune)[place.expect("the last is 113")],
    }
}

/// Plays a tick and shows each channel of it.
fn tick(file: &[u8], cells: &mut Cells, mut show: impl FnMut(&Met)) {
    let before = *cells;
    let trace = trace_tick(file, cells).expect("legal");
    for channel in 0..channels(file) as usize {
        show(&Met::new(file, &before, cells, &trace, channel));
    }
}

#[test]
fn finetunes_sound_as_the_paper_says() {
    for seed in 0..400 {
        let file = match seed % 4 {
            0 => file(seed),
            _ => finetuned(seed),
        };
        for mut cells in [fresh(), legal_state(seed, &file)] {
            for _ in 0..60 {
                tick(&file, &mut cells, |met| {
                    assert_eq!(met.after, met.expected(), "seed {seed}");
                    assert_eq!(met.sounded, met.expected_sound(), "seed {seed}");
                });
            }
        }
    }
}

type Test = fn(&Met) -> bool;

fn kinds() -> Vec<(&'static str, Test)> {
    [notes(), sets(), targets(), pulls(), waves(), arpeggios()].concat()
}

fn notes() -> Vec<(&'static str, Test)> {
    vec![
        ("a note in another row", |m| {
            m.started() && m.after.finetune != 0
        }),
        ("a note between entries in another row", |m| {
            m.started() && m.after.finetune != 0 && !printed(0).contains(&m.note)
        }),
        ("a note between entries in row 0", |m| {
            m.started() && m.after.finetune == 0 && !printed(0).contains(&m.note)
        }),
        ("a note of the finetune before", |m| {
            m.started() && m.sample == 0 && !m.sets() && m.before.finetune != 0
        }),
        ("a period above 856", |m| m.sounded > 856),
        ("a period below 113", |m| m.sounded > 0 && m.sounded < 113),
    ]
}

fn sets() -> Vec<(&'static str, Test)> {
    vec![
        ("E5 beside a sample of another finetune, and a note", |m| {
            m.sets() && m.started() && m.sample > 0 && m.header != m.after.finetune
        }),
        ("E5 beside a sample alone", |m| {
            m.sets() && m.note == 0 && m.sample > 0 && m.header != m.after.finetune
        }),
        ("E5 alone", |m| {
            m.sets()
                && m.note == 0
                && m.sample == 0
                && m.before.finetune != m.after.finetune
                && m.after.period > 0
        }),
        ("E5 beside a note alone", |m| {
            m.sets() && m.started() && m.sample == 0 && m.before.finetune != m.after.finetune
        }),
        ("a sample alone that changes the row", |m| {
            m.u == 0 && m.note == 0 && m.header != m.before.finetune && m.sample > 0 && !m.sets()
        }),
        ("a sample that sets its finetune again", |m| {
            m.u == 0 && m.sample > 0 && m.header == 0 && m.before.finetune != 0 && !m.sets()
        }),
        ("a change of row that leaves the period outside", |m| {
            m.before.inside() && m.u == 0 && (m.after.above() || m.after.below())
        }),
    ]
}

fn targets() -> Vec<(&'static str, Test)> {
    vec![
        ("a target of 3 in another row", |m| {
            m.targeted() && m.effect == 3 && m.after.finetune != 0
        }),
        ("a target of 5 in another row", |m| {
            m.targeted() && m.effect == 5 && m.after.finetune != 0
        }),
        ("a target of a row that is left", |m| {
            m.slides_to_target()
                && m.after.target > 0
                && !printed(m.after.finetune).contains(&m.after.target)
        }),
        ("3 or 5 outside the row", |m| {
            m.slides_to_target()
                && m.before.period != m.after.period
                && (m.after.above() || m.after.below())
        }),
    ]
}

/// Slides that end at an end of the row, from inside and from beyond.
fn pulls() -> Vec<(&'static str, Test)> {
    vec![
        ("1 to the last", |m| {
            m.works(1) && m.before.inside() && (m.before.period as i32) - m.named().1 < last(m)
        }),
        ("2 to the first", |m| {
            m.works(2) && m.before.inside() && m.before.period as i32 + m.named().1 > first(m)
        }),
        ("E1 to the last", |m| {
            m.works(0xE1) && m.after.period as i32 == last(m) && m.named().1 > 0
        }),
        ("E2 to the first", |m| {
            m.works(0xE2) && m.after.period as i32 == first(m) && m.named().1 > 0
        }),
        ("1 from above", |m| m.works(1) && m.before.above()),
        ("2 from above", |m| m.works(2) && m.before.above()),
        ("1 from below", |m| m.works(1) && m.before.below()),
        ("2 from below", |m| m.works(2) && m.before.below()),
        ("100 pulls", |m| m.works(1) && m.named().1 == 0 && moved(m)),
        ("200 pulls", |m| m.works(2) && m.named().1 == 0 && moved(m)),
        ("E10 pulls", |m| {
            m.works(0xE1) && m.note == 0 && m.named().1 == 0 && moved(m)
        }),
        ("E20 pulls", |m| {
            m.works(0xE2) && m.note == 0 && m.named().1 == 0 && moved(m)
        }),
    ]
}

fn first(met: &Met) -> i32 {
    printed(met.after.finetune)[0] as i32
}

fn last(met: &Met) -> i32 {
    printed(met.after.finetune)[PLACES - 1] as i32
}

fn moved(met: &Met) -> bool {
    met.before.period != met.after.period
}

fn waves() -> Vec<(&'static str, Test)> {
    vec![
        ("vibrato kept at the first", |m| {
            m.wavers(true) && m.after.inside() && m.sounded as i32 == first(m)
        }),
        ("vibrato kept at the last", |m| {
            m.wavers(true) && m.after.inside() && m.sounded as i32 == last(m)
        }),
        ("vibrato from above", |m| m.wavers(true) && m.after.above()),
        ("vibrato from below", |m| m.wavers(true) && m.after.below()),
        ("vibrato by 0 from above", |m| {
            m.wavers(false) && m.after.above()
        }),
        ("vibrato by 0 from below", |m| {
            m.wavers(false) && m.after.below()
        }),
        ("vibrato that waits outside, at t = 0", |m| {
            m.t == 0 && [4, 6].contains(&m.effect) && (m.after.above() || m.after.below())
        }),
        ("a repetition that begins outside", |m| {
            m.t == 0 && m.u > 0 && (m.after.above() || m.after.below())
        }),
    ]
}

fn arpeggios() -> Vec<(&'static str, Test)> {
    vec![
        ("arpeggio in another row", |m| {
            m.semitones() > 0 && m.after.finetune != 0
        }),
        ("arpeggio from beyond the last", |m| {
            m.semitones() > 0 && m.after.below()
        }),
        ("arpeggio from beyond the last in row 0", |m| {
            m.semitones() > 0 && m.after.below() && m.after.finetune == 0
        }),
        ("arpeggio from above the first", |m| {
            m.semitones() > 0 && m.after.above()
        }),
        ("arpeggio from between entries", |m| {
            m.semitones() > 0 && !printed(m.after.finetune).contains(&m.after.period)
        }),
        ("arpeggio to the last", |m| {
            m.semitones() > 0 && m.after.inside() && m.sounded as i32 == last(m)
        }),
    ]
}

#[test]
fn finetuned_modules_meet_every_kind_often() {
    let mut kinds: Vec<_> = kinds().into_iter().map(|kind| (kind, 0)).collect();
    let mut set = BTreeMap::new();
    for seed in 0..150 {
        let file = finetuned(seed);
        assert_eq!(judge(&file), accepted(0), "seed {seed}");
        let mut cells = fresh();
        for _ in 0..200 {
            tick(&file, &mut cells, |met| {
                for ((_, is), times) in &mut kinds {
                    *times += u32::from(is(met));
                }
                if met.u == 0 && (met.sample > 0 || met.sets()) {
                    *set.entry((met.sets(), met.after.finetune)).or_insert(0) += 1;
                }
            });
        }
    }
    for ((name, _), times) in kinds {
        assert!(times > 100, "{name}: {times}");
    }
    assert_eq!(set.len(), 2 * 16);
    assert!(set.values().all(|&times| times > 200), "{set:?}");
}

#[test]
fn the_board_plays_finetuned_modules_as_the_player_does() {
    for seed in 0..150 {
        let file = finetuned(seed);
        let ticks = 5 + seed as u32 % 40;
        let mut player = vec![UNTOUCHED; 40_000 + seed as usize];
        let mut board = player.clone();
        let answer = play(&file, &mut fresh(), ticks, &mut player);
        let stream = translated(&file, ticks);
        assert_eq!(play_stream(&stream, &file, &mut board), answer);
        assert!(player == board, "seed {seed}");
    }
}

#[test]
fn general_modules_have_every_finetune() {
    let mut headers = [0; 16];
    let mut high_bits = [0; 16];
    let mut e5 = [0; 16];
    for seed in 0..300 {
        let file = module(seed, Size::Small);
        for header in file[20..950].chunks_exact(30) {
            headers[usize::from(header[24] % 16)] += 1;
            high_bits[usize::from(header[24] / 16)] += 1;
        }
        for cell in file[1_084..2_108].chunks_exact(4) {
            if cell[2] % 16 == 0xE && cell[3] / 16 == 5 {
                e5[usize::from(cell[3] % 16)] += 1;
            }
        }
    }
    assert!(headers.iter().all(|&times| times > 200), "{headers:?}");
    assert!(headers[0] > 300 * 31 / 4, "{headers:?}");
    assert!(high_bits.iter().all(|&times| times > 200), "{high_bits:?}");
    assert!(e5.iter().all(|&times| times > 50), "{e5:?}");
}

/// The cells of each of the module's channels.
fn own<'a>(file: &[u8], cells: &'a Cells) -> Vec<&'a [u32]> {
    let all = cells[FIRST_CHANNEL..].chunks_exact(CHANNEL_CELLS);
    all.take(channels(file) as usize).collect()
}

#[test]
fn legal_states_hold_any_finetune_and_the_limits() {
    let mut finetunes = BTreeMap::new();
    let mut periods = BTreeMap::new();
    for seed in 0..8_000 {
        let file = finetuned(seed % 50);
        for own in own(&file, &legal_state(seed, &file)) {
            *finetunes.entry(own[FINETUNE] as i32).or_insert(0) += 1;
            for place in [PERIOD, TARGET, VOICE_PERIOD] {
                *periods.entry((place, own[place])).or_insert(0) += 1;
            }
        }
    }
    assert!(finetunes.keys().copied().eq(FINETUNES), "{finetunes:?}");
    assert!(finetunes.values().all(|&times| times > 500));
    for place in [PERIOD, TARGET, VOICE_PERIOD] {
        for period in [108, 112, 113, 856, 857, 907] {
            assert!(periods[&(place, period)] > 100, "{place}: {period}");
        }
    }
}

#[test]
fn illegal_states_break_the_finetune_and_the_limits_alone() {
    let mut finetunes = BTreeMap::new();
    let mut periods = BTreeMap::new();
    for seed in 0..40_000 {
        let file = finetuned(seed % 50);
        let mut cells = illegal_state(seed, &file);
        assert_eq!(play(&file, &mut cells, 0, &mut []), refused(14, 0));
        for own in own(&file, &cells) {
            let finetune = own[FINETUNE];
            if !FINETUNES.contains(&(finetune as i32)) {
                *finetunes.entry(finetune).or_insert(0) += 1;
            }
            for place in [PERIOD, TARGET, VOICE_PERIOD] {
                *periods.entry((place, own[place])).or_insert(0) += 1;
            }
        }
    }
    for finetune in [8, 9, 15, 16, 255, 4_294_967_287] {
        assert!(finetunes[&finetune] > 20, "{finetune}: {finetunes:?}");
    }
    for place in [PERIOD, TARGET, VOICE_PERIOD] {
        for period in [107, 908] {
            assert!(periods[&(place, period)] > 50, "{place}: {period}");
        }
    }
}

#[test]
fn streams_meet_the_limits_and_their_neighbours() {
    let mut good = BTreeMap::new();
    let mut bad = BTreeMap::new();
    for seed in 0..12_000 {
        let file = module(seed % 50, Size::Small);
        let stream = legal_stream(seed, &file);
        for tick in decode(&stream, channels(&file)).expect("legal").ticks {
            for command in tick.commands.iter().filter(|command| command.start) {
                *good.entry(command.period).or_insert(0) += 1;
            }
        }
        let stream = bad_stream(seed, &file);
        // A record's first command begins after mask and tempo; its period after two bytes more.
        let period = stream.place as usize + 4;
        if let (23, Some(period)) = (stream.number, stream.bytes.get(period..period + 2)) {
            *bad.entry([period[0], period[1]]).or_insert(0) += 1;
        }
    }
    for period in [108, 112, 113, 856, 857, 907] {
        assert!(good[&period] > 500, "{period}");
    }
    for period in [107_u16, 908] {
        assert!(bad[&period.to_be_bytes()] > 10, "{period}");
    }
}

#[test]
fn refused_cells_meet_the_wider_limits() {
    let mut seen = BTreeMap::new();
    for seed in 0..4_000 {
        let damaged = aimed(seed, 9);
        let cell = &damaged.bytes[damaged.place as usize..][..2];
        let period = u32::from(cell[0] % 16) * 256 + u32::from(cell[1]);
        *seen.entry(period).or_insert(0) += 1;
    }
    for period in [107, 108, 112, 857, 907, 908] {
        assert!(seen[&period] > 50, "{period}: {seen:?}");
    }
}
