//! Reading the files that are named.
use super::layout;
use super::name::Name;
use super::place;
use super::stop::{Refusal, Stop};
use lampthistle::Answer;
use std::ffi::OsStr;
use std::fs::{self, File, Metadata};
use std::io::{self, Cursor, Read};
use std::os::fd::AsFd;
use std::os::unix::fs::MetadataExt;

/// Bytes read at most: the longest stream's, and fewer of what may have no end, such as /dev/zero.
const MOST_BYTES: u64 = 4 + u32::MAX as u64;
const MOST_ENDLESS: u64 = 1 << 28;
/// Bytes read of a module: all that are looked at, and one more, which says that others follow.
const MODULE_BYTES: u64 = 1 + layout::MOST_BYTES as u64;

/// Which file it is, by device and number.
pub type Identity = (u64, u64);

/// A file's name and its bytes.
pub struct Source {
    pub name: Name,
    pub bytes: Vec<u8>,
    pub identity: Option<Identity>,
}

impl Source {
    /// The library's answer for a module that it accepts.
    pub fn judge(&self) -> Result<Answer, Stop> {
        let answer = lampthistle::judge(&self.bytes);
        if answer.is_accepted() {
            Ok(answer)
        } else {
            Err(self.refused(answer))
        }
    }

    /// This file's refusal.
    pub fn refused(&self, answer: Answer) -> Stop {
        Stop::Refused(Refusal {
            name: self.name.clone(),
            answer,
            meaning: answer.meaning(),
            found: place::found(&self.bytes, &answer),
        })
    }
}

/// A name for a message, without control characters.
pub fn shown(name: &OsStr) -> String {
    let text = name.to_string_lossy();
    text.replace(|c: char| c.is_control(), "?")
}

/// What somebody wrote, for a message: not more of it than tells what it is.
pub fn quoted(text: &OsStr) -> String {
    const MOST: usize = 60;
    let text = shown(text);
    match text.char_indices().nth(MOST) {
        Some((end, _)) => format!("{}..", &text[..end]),
        None => text,
    }
}

/// Reads the files; standard input, named -, at most once.
pub fn read_all<const N: usize>(names: [&OsStr; N]) -> Result<[Source; N], Stop> {
    check_once(&names)?;
    let mut sources = Vec::with_capacity(N);
    for name in names {
        sources.push(open(name)?.whole()?);
    }
    sources
        .try_into()
        .map_err(|_| Stop::Cannot("not all files were read".into()))
}

/// Stops where standard input is named more than once.
pub fn check_once(names: &[impl AsRef<OsStr>]) -> Result<(), Stop> {
    if names.iter().filter(|name| name.as_ref() == "-").count() > 1 {
        return Err(Stop::Usage(
            "standard input (-) can be read only once".into(),
        ));
    }
    Ok(())
}

/// A file as far as it says whether it is a module, and its sound.
pub fn module(name: &OsStr) -> Result<Source, Stop> {
    let mut file = open(name)?;
    let bytes = file.take(MODULE_BYTES)?;
    Ok(file.source(bytes))
}

/// What standard input is called.
const STANDARD_INPUT: &str = "standard input";

/// What an input's name finds. A pipe is not opened, which would wait for its other end.
pub fn about(name: &OsStr) -> Result<Metadata, Stop> {
    let about = match name.to_str() {
        Some("-") => io::stdin().as_fd().try_clone_to_owned(),
        _ => return fs::metadata(name).map_err(|e| Stop::Io(shown(name), e)),
    };
    let about = about.and_then(|input| File::from(input).metadata());
    about.map_err(|e| Stop::Io(STANDARD_INPUT.into(), e))
}

/// A file that is open: standard input is named -.
pub fn open(name: &OsStr) -> Result<Opened, Stop> {
    if name == "-" {
        return Ok(Opened {
            name: STANDARD_INPUT.into(),
            from: Box::new(io::stdin()),
            identity: None,
        });
    }
    let file = File::open(name).map_err(|e| Stop::Io(shown(name), e))?;
    let identity = file.metadata().ok().and_then(|about| identity(&about));
    Ok(Opened {
        name: Name::of(name),
        from: Box::new(file),
        identity,
    })
}

/// A file's name, and what is still to be read of it.
pub struct Opened {
    pub name: Name,
    pub from: Box<dyn Read>,
    identity: Option<Identity>,
}

impl Opened {
    fn source(self, bytes: Vec<u8>) -> Source {
        Source {
            name: self.name,
            bytes,
            identity: self.identity,
        }
    }

    fn take(&mut self, most: u64) -> Result<Vec<u8>, Stop> {
        let mut bytes = Vec::new();
        match self.from.by_ref().take(most).read_to_end(&mut bytes) {
            Ok(_) => Ok(bytes),
            Err(e) => Err(Stop::Io(self.name.to_string(), e)),
        }
    }

    /// The first bytes, at most so many; they are still to be read.
    pub fn start(&mut self, most: u64) -> Result<Vec<u8>, Stop> {
        let bytes = self.take(most)?;
        let rest = std::mem::replace(&mut self.from, Box::new(io::empty()));
        self.from = Box::new(Cursor::new(bytes.clone()).chain(rest));
        Ok(bytes)
    }

    /// All of the file.
    pub fn whole(mut self) -> Result<Source, Stop> {
        let most = self.identity.map_or(MOST_ENDLESS, |_| MOST_BYTES);
        let bytes = self.take(most + 1)?;
        if bytes.len() as u64 > most {
            let name = self.name;
            return Err(Stop::Cannot(format!("{name}: larger than {most} bytes")));
        }
        Ok(self.source(bytes))
    }

    /// A module as far as it is looked at, or all of another file.
    pub fn module_or_whole(mut self) -> Result<Source, Stop> {
        let bytes = self.start(MODULE_BYTES)?;
        if (bytes.len() as u64) < MODULE_BYTES || lampthistle::judge(&bytes).is_accepted() {
            return Ok(self.source(bytes));
        }
        self.whole()
    }
}

/// A regular file's identity.
pub fn identity(about: &Metadata) -> Option<Identity> {
    about.is_file().then(|| (about.dev(), about.ino()))
}
