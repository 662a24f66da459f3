//! A recording of a module, read as it is compared: .wav, or bare numbers.
use super::input::{Opened, Source};
use super::name::Name;
use super::number::{Kind, Number};
use super::output::counted;
use super::sound::{wav_kind, Format, WAV_FLOATS, WAV_WHOLE};
use super::stop::Stop;
use lampthistle::RATE;
use std::collections::VecDeque;
use std::ffi::OsStr;
use std::io::{self, BufReader, ErrorKind, Read};

/// A .wav file's first bytes, how many tell what a file is, and the format's name.
const RIFF: &[u8; 4] = b"RIFF";
const START: u64 = 12;
const WAV: &str = ".wav";
/// What is said of a .wav file that has no more than its beginning.
const CUT: &str = "is cut: it ends before its sound";

/// The format of a recording: by its name's ending, or on standard input by its first bytes. None for a stream, which is shorter there than
/// those bytes would say.
pub fn format(name: &OsStr, file: &mut Opened) -> Result<Option<Format>, Stop> {
    match Format::of(name) {
        None if name == "-" => {
            let start = file.start(RIFF.len() as u64)?;
            Ok((start == RIFF).then_some(Format::Wav))
        }
        format => Ok(format),
    }
}

pub struct Recording<N> {
    pub name: Name,
    kind: Kind,
    from: BufReader<Box<dyn Read>>,
    /// The bytes that a header says are still to come; none where it leaves that open.
    left: Option<u64>,
    /// Numbers that were read ahead, and those that were given last.
    ahead: VecDeque<N>,
    numbers: Vec<N>,
}

impl<N: Number> Recording<N> {
    /// A recording of numbers of this kind.
    pub fn of(file: Opened, format: Format, kind: Kind) -> Result<Recording<N>, Stop> {
        let (name, mut from) = (file.name, BufReader::new(file.from));
        let left = match format {
            Format::Raw => None,
            Format::Wav => match wav_sound(&mut from, kind) {
                Ok(Ok(left)) => left,
                Ok(Err(what)) => return Err(Stop::Cannot(format!("{name}: {what}"))),
                Err(e) => return Err(Stop::Io(name.to_string(), e)),
            },
        };
        Ok(Recording {
            name,
            kind,
            from,
            left,
            ahead: VecDeque::new(),
            numbers: Vec::new(),
        })
    }

    /// The next numbers, at most so many, which stay the next ones; fewer at the end.
    pub fn look_ahead(&mut self, most: usize) -> Result<Vec<N>, Stop> {
        if self.ahead.len() < most {
            let more = self.read(most - self.ahead.len())?;
            self.ahead.extend(more);
        }
        Ok(self.ahead.iter().take(most).copied().collect())
    }

    /// The next numbers, at most so many; fewer at the end, and none after it.
    pub fn next(&mut self, most: usize) -> Result<&[N], Stop> {
        let kept = self.ahead.len().min(most);
        let mut numbers: Vec<N> = self.ahead.drain(..kept).collect();
        if kept < most {
            numbers.extend(self.read(most - kept)?);
        }
        self.numbers = numbers;
        Ok(&self.numbers)
    }

    fn read(&mut self, most: usize) -> Result<Vec<N>, Stop> {
        let asked = (N::BYTES * most) as u64;
        let asked = self.left.map_or(asked, |left| left.min(asked));
        let mut bytes = Vec::with_capacity(asked as usize);
        let read = self.from.by_ref().take(asked).read_to_end(&mut bytes);
        read.map_err(|e| Stop::Io(self.name.to_string(), e))?;
        let cannot = |what: String| Err(Stop::Cannot(format!("{}: {what}", self.name)));
        if let Some(left) = &mut self.left {
            *left -= bytes.len() as u64;
            if (bytes.len() as u64) < asked {
                return cannot(format!("is cut: {left} bytes of its sound are not there"));
            }
        }
        if bytes.len() % self.kind.frame_bytes() != 0 {
            return cannot("ends within a frame".into());
        }
        Ok(bytes.chunks_exact(N::BYTES).map(N::read).collect())
    }
}

/// Reads a .wav file up to its sound, and gives the sound's bytes, none where they are left open; or says what is wrong.
fn wav_sound(from: &mut impl Read, kind: Kind) -> io::Result<Result<Option<u64>, String>> {
    /// Lengths that are left open: ours, and what sox writes to a pipe.
    const OPEN: [u32; 2] = [u32::MAX, 0x7FFF_F000];
    let mut start = Vec::new();
    from.take(START).read_to_end(&mut start)?;
    if let Err(what) = wav_start(&start) {
        return Ok(Err(what));
    }
    let mut right = Err("says nothing of its numbers before its sound".to_string());
    loop {
        let mut chunk = [0; 8];
        match from.read_exact(&mut chunk) {
            Err(e) if e.kind() == ErrorKind::UnexpectedEof => return Ok(Err(CUT.into())),
            read => read?,
        }
        let size = u32::from_le_bytes([chunk[4], chunk[5], chunk[6], chunk[7]]);
        let mut rest = u64::from(size);
        match &chunk[..4] {
            b"data" => return Ok(right.map(|()| (!OPEN.contains(&size)).then_some(rest))),
            b"fmt " => {
                let mut about = Vec::new();
                let read = from.take(rest.min(WAV_ABOUT)).read_to_end(&mut about)?;
                rest -= read as u64;
                right = wav_format(&about, kind);
            }
            _ => (),
        }
        // A part of odd length is followed by a byte that does not count.
        skip(from, rest + u64::from(size % 2))?;
    }
}

/// Whether a file's first bytes are a .wav file's; or says what is wrong.
fn wav_start(start: &[u8]) -> Result<(), String> {
    match (start, sound_format(start)) {
        ([], _) => Err("is empty".into()),
        (_, Some(WAV)) => Ok(()),
        (_, Some(format)) => Err(format!("is a sound file of format {format}, not .wav")),
        _ if start.len() < START as usize && start.iter().zip(RIFF).all(|(a, b)| a == b) => {
            Err(CUT.into())
        }
        _ => Err("is not a .wav file".into()),
    }
}

/// The format that a sound file's first bytes tell.
fn sound_format(start: &[u8]) -> Option<&'static str> {
    match (start.get(..4)?, start.get(8..START as usize)) {
        (b"RIFF", Some(b"WAVE")) => Some(WAV),
        (b"FORM", Some(b"AIFF" | b"AIFC")) => Some("AIFF"),
        (b"RF64", _) => Some("RF64"),
        (b"fLaC", _) => Some("FLAC"),
        (b"OggS", _) => Some("Ogg"),
        (b"caff", _) => Some("CAF"),
        (b".snd", _) => Some("AU"),
        _ => None,
    }
}

/// Why a file that is refused as a stream is none, where its first bytes tell that it is a sound file.
pub fn no_stream(file: &Source, stop: Stop) -> Stop {
    let start = &file.bytes[..file.bytes.len().min(START as usize)];
    match (&stop, sound_format(start)) {
        (Stop::Refused(refusal), Some(format)) if *refusal.name == *file.name => {
            let name = &file.name;
            Stop::Cannot(format!(
                "{name}: is a sound file of format {format}; a recording's name ends in .wav or .raw"
            ))
        }
        _ => stop,
    }
}

fn skip(from: &mut impl Read, bytes: u64) -> io::Result<()> {
    io::copy(&mut from.take(bytes), &mut io::sink()).map(|_| ())
}

/// The bytes about its numbers that a .wav file has at most, and those that always follow where the kind stands among them.
const WAV_ABOUT: u64 = 40;
const AFTER_KIND: [u8; 14] = *b"\0\0\0\0\x10\0\x80\0\0\xAA\0\x38\x9B\x71";

/// Whether the numbers are as ours: 48,000 frames a second of numbers of this kind.
fn wav_format(about: &[u8], kind: Kind) -> Result<(), String> {
    /// What the numbers are is said further on.
    const ELSEWHERE: u16 = 0xFFFE;
    let word = |at: usize| {
        about
            .get(at..at + 2)
            .map_or(0, |b| u16::from_le_bytes([b[0], b[1]]))
    };
    let rate = u32::from(word(4)) + (u32::from(word(6)) << 16);
    let (sides, bits) = (word(2), word(14));
    let found = match word(0) {
        ELSEWHERE if about.get(26..40) == Some(&AFTER_KIND) => word(24),
        found => found,
    };
    let own = (RATE, kind.sides() as u16, 8 * kind.number_bytes() as u16);
    if wav_kind(kind) == found && (rate, sides, bits) == own {
        return Ok(());
    }
    let expected = match kind {
        Kind::Whole => "two whole 16-bit numbers",
        Kind::Floats(1) => "one float",
        Kind::Floats(_) => "two floats",
    };
    let numbers = match found {
        WAV_WHOLE => counted(sides.into(), "whole number"),
        WAV_FLOATS => counted(sides.into(), "float"),
        _ => format!("{} of kind {found}", counted(sides.into(), "number")),
    };
    Err(format!(
        "is not {RATE} frames a second of {expected}, but {rate} of {numbers} of {bits} bits"
    ))
}
