//! Sound files that are written: .wav, or bare numbers.
use super::input::{shown, Source};
use super::number::{Kind, Number};
use super::output::check_terminal;
use super::stop::Stop;
use super::target::Target;
use lampthistle::RATE;
use std::ffi::OsStr;
use std::io::{BufWriter, Seek, SeekFrom, Write};
use std::path::Path;

/// Bytes of a .wav file's start that its first length does not count.
const WAV_UNCOUNTED: u32 = 8;

/// All lengths of a .wav file as long as it is not finished: as far as the file goes.
const UNFINISHED: u32 = u32::MAX;

/// The kinds of a .wav file's numbers that are ours: whole ones, and floats.
pub const WAV_WHOLE: u16 = 1;
pub const WAV_FLOATS: u16 = 3;

/// How frames are written.
#[derive(Clone, Copy, PartialEq, Eq)]
pub enum Format {
    /// A .wav file.
    Wav,
    /// Bare numbers, low byte first.
    Raw,
}

impl Format {
    /// The format that a name's ending says.
    pub fn of(name: &OsStr) -> Option<Format> {
        let ending = Path::new(name).extension().and_then(OsStr::to_str);
        match ending.map(str::to_ascii_lowercase).as_deref() {
            Some("wav") => Some(Format::Wav),
            Some("raw") => Some(Format::Raw),
            _ => None,
        }
    }
}

/// The format of a sound file to write: by its ending, and raw for standard output.
pub fn format(name: &OsStr) -> Result<Format, Stop> {
    check_terminal(name)?;
    let raw = (name == "-").then_some(Format::Raw);
    Format::of(name).or(raw).ok_or_else(|| {
        Stop::Usage(format!(
            "--out: {}: the name must end in .wav or .raw, or be -",
            shown(name)
        ))
    })
}

/// Stops where a sound file of this name cannot hold the frames. `exact` counts them, with so many as its limit, and is asked only if
/// the most that they can be is too much.
pub fn check_room(
    name: &OsStr,
    kind: Kind,
    most: u64,
    exact: impl FnOnce(u64) -> Result<u64, Stop>,
) -> Result<(), Stop> {
    let room = match format(name)? {
        Format::Wav => wav_room(kind),
        Format::Raw => return Ok(()),
    };
    if most <= room || exact(room)? <= room {
        return Ok(());
    }
    Err(too_long(&shown(name), room))
}

fn too_long(name: &str, room: u64) -> Stop {
    Stop::Cannot(format!(
        "{name}: a .wav file holds {room} frames at most, and these are more; name a .raw file"
    ))
}

/// A sound file that is being written.
pub struct Sound {
    format: Format,
    kind: Kind,
    to: BufWriter<Target>,
    bytes: u64,
    /// The bytes of sound that it holds at most.
    room: u64,
    /// Whether all numbers are handed on as soon as they are written, to somebody who listens.
    at_once: bool,
}

impl Sound {
    pub fn create(name: &OsStr, kind: Kind, sources: &[&Source]) -> Result<Sound, Stop> {
        let format = format(name)?;
        let target = Target::create(name, sources)?;
        let mut sound = Sound {
            format,
            kind,
            to: BufWriter::with_capacity(1 << 16, target),
            bytes: 0,
            room: match format {
                Format::Wav => wav_room(kind) * kind.frame_bytes() as u64,
                Format::Raw => u64::MAX,
            },
            at_once: false,
        };
        if format == Format::Wav {
            sound.put(&wav_start(kind, None))?;
        }
        Ok(sound)
    }

    /// The same file, which hands on all numbers at once.
    pub fn at_once(self) -> Sound {
        Sound {
            at_once: true,
            ..self
        }
    }

    fn put(&mut self, bytes: &[u8]) -> Result<(), Stop> {
        let mut done = self.to.write_all(bytes);
        if self.at_once {
            done = done.and_then(|()| self.to.flush());
        }
        done.map_err(|e| Stop::Io(self.to.get_ref().name.clone(), e))
    }

    /// Numbers of the sound's kind. It stops before it holds too many.
    pub fn write<N: Number>(&mut self, numbers: &[N]) -> Result<(), Stop> {
        let mut bytes = Vec::with_capacity(N::BYTES * numbers.len());
        numbers.iter().for_each(|number| number.put(&mut bytes));
        if bytes.len() as u64 > self.room - self.bytes {
            return Err(too_long(&self.to.get_ref().name, wav_room(self.kind)));
        }
        self.bytes += bytes.len() as u64;
        self.put(&bytes)
    }

    /// Writes what is left and, where it can go back, a .wav file's lengths.
    pub fn finish(mut self) -> Result<(), Stop> {
        let name = self.to.get_ref().name.clone();
        let told = |e| Stop::Io(name.clone(), e);
        if self.format == Format::Wav && self.to.get_ref().can_go_back() {
            let start = wav_start(self.kind, Some(self.bytes as u32));
            self.to.seek(SeekFrom::Start(0)).map_err(told)?;
            self.put(&start)?;
        }
        let target = self.to.into_inner();
        target.map_err(|e| told(e.into_error()))?.finish()
    }
}

/// The frames that a .wav file holds at most.
fn wav_room(kind: Kind) -> u64 {
    let start = wav_start(kind, None).len() as u64;
    (u64::from(u32::MAX) - start) / kind.frame_bytes() as u64
}

/// A .wav file up to its sound, which has so many bytes where that is known. Of floats it also says how many frames there are.
fn wav_start(kind: Kind, bytes: Option<u32>) -> Vec<u8> {
    let (sides, frame_bytes) = (kind.sides() as u16, kind.frame_bytes() as u32);
    let mut about = Vec::new();
    about.extend_from_slice(&wav_kind(kind).to_le_bytes());
    about.extend_from_slice(&sides.to_le_bytes());
    about.extend_from_slice(&RATE.to_le_bytes());
    about.extend_from_slice(&(RATE * frame_bytes).to_le_bytes());
    about.extend_from_slice(&(frame_bytes as u16).to_le_bytes());
    about.extend_from_slice(&(8 * kind.number_bytes() as u16).to_le_bytes());
    let mut parts = Vec::new();
    match kind {
        Kind::Whole => put_part(&mut parts, b"fmt ", &about),
        Kind::Floats(_) => {
            // Nothing more to say: no bytes follow.
            about.extend_from_slice(&0u16.to_le_bytes());
            put_part(&mut parts, b"fmt ", &about);
            let frames = bytes.map_or(UNFINISHED, |bytes| bytes / frame_bytes);
            put_part(&mut parts, b"fact", &frames.to_le_bytes());
        }
    }
    let before = b"RIFF....WAVE".len() + parts.len() + b"data....".len();
    let all = bytes.map_or(UNFINISHED, |bytes| bytes + before as u32 - WAV_UNCOUNTED);
    let mut start = b"RIFF".to_vec();
    start.extend_from_slice(&all.to_le_bytes());
    start.extend_from_slice(b"WAVE");
    start.extend_from_slice(&parts);
    start.extend_from_slice(b"data");
    start.extend_from_slice(&bytes.unwrap_or(UNFINISHED).to_le_bytes());
    start
}

/// What a .wav file calls its numbers.
pub fn wav_kind(kind: Kind) -> u16 {
    match kind {
        Kind::Whole => WAV_WHOLE,
        Kind::Floats(_) => WAV_FLOATS,
    }
}

fn put_part(parts: &mut Vec<u8>, name: &[u8; 4], bytes: &[u8]) {
    parts.extend_from_slice(name);
    parts.extend_from_slice(&(bytes.len() as u32).to_le_bytes());
    parts.extend_from_slice(bytes);
}

#[cfg(test)]
mod tests {
    use super::*;

    /// A stream that arrives says no length before: the file stops it, and what fits stays.
    #[test]
    fn a_file_that_is_full_takes_no_more() {
        let name = format!("lampthistle-full-{}.wav", std::process::id());
        let path = std::env::temp_dir().join(name);
        let mut sound = Sound::create(path.as_os_str(), Kind::Whole, &[])
            .ok()
            .unwrap();
        sound.room = 8;
        assert!(sound.write::<i16>(&[1, 2]).is_ok());
        let stopped = sound.write::<i16>(&[3, 4, 5, 6]).unwrap_err();
        assert!(stopped.reason().contains("a .wav file holds"));
        assert!(sound.finish().is_ok());
        let bytes = std::fs::read(&path).unwrap();
        assert_eq!(bytes[bytes.len() - 8..], [4, 0, 0, 0, 1, 0, 2, 0]);
        std::fs::remove_file(path).unwrap();
    }
}
