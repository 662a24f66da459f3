//! Modules aimed at the ends of samples meet them as they should, and often.

use second::generate::ends::ends;
use second::{channels, fresh, judge, trace_tick, End, Trace, Voice};

/// The channels on the left, from 0.
const LEFT: [usize; 4] = [0, 3, 4, 7];

/// Whether two channels are two of one side.
fn beside(one: usize, other: usize) -> bool {
    one != other && LEFT.contains(&one) == LEFT.contains(&other)
}

type Test = fn(&Met) -> bool;

/// Ends of a kind, and how many were met.
struct Kind {
    name: &'static str,
    is: Test,
    met: u32,
}

/// An end, its tick with all ends in it, and its sample's repeat start and length.
struct Met<'a> {
    channels: usize,
    end: End,
    all: &'a [End],
    trace: &'a Trace,
    start: u32,
    repeat: u32,
}

impl Met<'_> {
    fn first(&self) -> bool {
        self.end.frame == 0
    }

    fn last(&self) -> bool {
        2 * (self.end.frame + 1) == self.trace.frames.len()
    }

    /// How many of the side's other voices have an end this many frames after it.
    fn followers(&self, apart: usize) -> usize {
        let frame = self.end.frame + apart;
        let near = |other: &&End| beside(self.end.channel, other.channel) && other.frame == frame;
        self.all.iter().filter(near).count()
    }

    fn followed(&self, apart: usize) -> bool {
        self.followers(apart) > 0
    }

    /// Whether one of the side's other voices is so.
    fn has_beside(&self, is: impl Fn(&Voice) -> bool) -> bool {
        let mut others = (0..self.channels).filter(|&other| beside(self.end.channel, other));
        others.any(|other| is(&self.trace.voices[other]))
    }

    fn period(&self) -> u32 {
        self.trace.voices[self.end.channel].period
    }

    fn two_words(&self) -> bool {
        self.repeat == 2
    }
}

fn kinds() -> Vec<Kind> {
    let kinds: [(&str, Test); 21] = [
        ("stops in a tick's first frame", |m| {
            m.end.stops && m.first()
        }),
        ("stops in a tick's last frame", |m| m.end.stops && m.last()),
        ("loops in a tick's first frame", |m| {
            !m.end.stops && m.first()
        }),
        ("loops in a tick's last frame", |m| !m.end.stops && m.last()),
        ("in one frame with the other", |m| m.followed(0)),
        ("in one frame with two others", |m| m.followers(0) == 2),
        ("in one frame with three others", |m| m.followers(0) == 3),
        ("of six channels", |m| m.channels == 6),
        ("of eight channels", |m| m.channels == 8),
        ("1 frame before the other", |m| m.followed(1)),
        ("2 frames before the other", |m| m.followed(2)),
        ("3 frames before the other", |m| m.followed(3)),
        ("4 frames before the other", |m| m.followed(4)),
        ("5 frames before the other", |m| m.followed(5)),
        ("of a repeat length of 1", |m| m.repeat == 1),
        ("of two words from byte 0", |m| {
            m.two_words() && m.start == 0
        }),
        ("of two words elsewhere", |m| m.two_words() && m.start > 0),
        ("at period 113", |m| m.period() == 113),
        ("at period 856", |m| m.period() == 856),
        ("beside volume 0", |m| {
            m.has_beside(|voice| voice.volume == 0)
        }),
        ("beside a stopped voice", |m| {
            m.has_beside(|voice| voice.stopped)
        }),
    ];
    let kind = |(name, is)| Kind { name, is, met: 0 };
    kinds.into_iter().map(kind).collect()
}

/// Repeat start and length of a sample.
fn repeats(file: &[u8], sample: u32) -> (u32, u32) {
    let header = &file[20 + 30 * (sample as usize - 1)..];
    let word = |at: usize| u32::from(header[at]) * 256 + u32::from(header[at + 1]);
    (word(26), word(28))
}

fn count(file: &[u8], trace: &Trace, kinds: &mut [Kind]) {
    let all = trace.ends(file).expect("accepted");
    for &end in &all {
        let (start, repeat) = repeats(file, trace.voices[end.channel].sample);
        let met = Met {
            channels: channels(file) as usize,
            end,
            all: &all,
            trace,
            start,
            repeat,
        };
        for kind in kinds.iter_mut() {
            kind.met += u32::from((kind.is)(&met));
        }
    }
}

#[test]
fn aimed_ends_are_met_often() {
    let mut kinds = kinds();
    for seed in 0..600 {
        let file = ends(seed);
        assert_eq!(judge(&file).number, 0, "seed {seed}");
        let mut cells = fresh();
        for _ in 0..12 {
            let trace = trace_tick(&file, &mut cells).expect("legal");
            count(&file, &trace, &mut kinds);
        }
    }
    for kind in &kinds {
        assert!(kind.met > 200, "{}: {}", kind.name, kind.met);
    }
}
