//! A file that is written. A regular file gets its name only when all of it is there; until then it stands beside it, and what had the
//! name before stays. A pipe or a device is written as it is.
use super::input::{identity, shown, Source};
use super::stop::Stop;
use std::ffi::OsStr;
use std::fs::{self, File, Metadata, TryLockError};
use std::io::{self, Seek, SeekFrom, Write};
use std::os::fd::AsFd;
use std::os::unix::ffi::OsStrExt;
use std::os::unix::fs::{FileTypeExt, MetadataExt};
use std::path::{Path, PathBuf};

pub struct Target {
    file: File,
    /// The name as messages show it.
    pub name: String,
    part: Option<Part>,
}

/// The name that an unfinished file has, and the one that it gets.
struct Part {
    beside: PathBuf,
    finished: PathBuf,
}

impl Target {
    /// Opens a file by its name, standard output for -, but none of the files that were read.
    pub fn create(name: &OsStr, sources: &[&Source]) -> Result<Target, Stop> {
        let told = |e| Stop::Io(shown(name), e);
        let of = |file, part| Target {
            file,
            name: shown(name),
            part,
        };
        check_unread(name, sources)?;
        if name == "-" {
            return Ok(of(standard_output().map_err(told)?, None));
        }
        // Looked at by name: opening a pipe waits for its other end, and opening a device may do more.
        let about = match fs::metadata(name) {
            Err(e) if e.kind() == io::ErrorKind::NotFound => {
                let (file, part) = beside(past_links(name), sources).map_err(told)?;
                return Ok(of(file, Some(part)));
            }
            about => about.map_err(told)?,
        };
        let file = File::options().write(true).open(name).map_err(told)?;
        if !about.is_file() {
            return Ok(of(file, None));
        }
        // A link stays one: the file that it names is replaced.
        let finished = fs::canonicalize(name).map_err(told)?;
        let (file, part) = beside(finished, sources).map_err(told)?;
        let target = of(file, Some(part));
        let same = target.file.set_permissions(about.permissions());
        same.map(|()| target).map_err(told)
    }

    /// Whether bytes that were written can be written again, as in a regular file.
    pub fn can_go_back(&self) -> bool {
        self.part.is_some()
    }

    /// Gives the file its name.
    pub fn finish(mut self) -> Result<(), Stop> {
        let Some(part) = self.part.take() else {
            return Ok(());
        };
        fs::rename(&part.beside, &part.finished).map_err(|e| {
            let _ = fs::remove_file(&part.beside);
            Stop::Io(self.name.clone(), e)
        })
    }
}

fn standard_output() -> io::Result<File> {
    let out = io::stdout().as_fd().try_clone_to_owned();
    out.map(File::from)
}

/// Stops where a file that is to be written is one of those that were read.
pub fn check_unread(name: &OsStr, sources: &[&Source]) -> Result<(), Stop> {
    let there = about(name).ok().and_then(|about| identity(&about));
    if there.is_some() && sources.iter().any(|source| source.identity == there) {
        return Err(Stop::Cannot(format!("{}: is read, too", shown(name))));
    }
    Ok(())
}

/// What an output's name finds.
fn about(name: &OsStr) -> io::Result<Metadata> {
    match name.to_str() {
        Some("-") => standard_output()?.metadata(),
        _ => fs::metadata(name),
    }
}

/// Where a name leads that finds no file: past the links, which stay.
fn past_links(name: &OsStr) -> PathBuf {
    /// As many as the system follows.
    const MOST: usize = 40;
    let mut path = PathBuf::from(name);
    for _ in 0..MOST {
        match fs::read_link(&path) {
            Ok(next) => path = path.with_file_name(next),
            Err(_) => break,
        }
    }
    path
}

/// Where an output goes: to what is there, by device and number, or to a new path.
#[derive(PartialEq)]
enum Place {
    There(u64, u64),
    New(PathBuf),
}

/// Where an output of this name goes. None for a device, which may take two, and where it cannot be known.
fn place(name: &OsStr) -> Option<Place> {
    match about(name) {
        Ok(about) if about.file_type().is_char_device() => None,
        Ok(about) => Some(Place::There(about.dev(), about.ino())),
        Err(_) => {
            let path = Path::new(".").join(past_links(name));
            let folder = fs::canonicalize(path.parent()?).ok()?;
            Some(Place::New(folder.join(path.file_name()?)))
        }
    }
}

/// Whether two outputs go to one file or pipe.
pub fn are_one(first: &OsStr, second: &OsStr) -> bool {
    let place_of = place(first);
    first == second || place_of.is_some() && place_of == place(second)
}

/// A new file beside the one with this name: NAME.0.part, or the next number that is free. It is locked as long as it is written.
fn beside(finished: PathBuf, sources: &[&Source]) -> io::Result<(File, Part)> {
    for part in parts(&finished) {
        take_away(&part, sources);
    }
    let own = finished.file_name().unwrap_or_default();
    for k in 0.. {
        let mut name = own.to_os_string();
        name.push(format!(".{k}.part"));
        let beside = finished.with_file_name(name);
        match File::create_new(&beside) {
            Err(e) if e.kind() == io::ErrorKind::AlreadyExists => continue,
            // Another run looks whether it was left over, and takes it away.
            Ok(file) if is_locked(file.try_lock()) || !is_at(&file, &beside) => continue,
            file => return Ok((file?, Part { beside, finished })),
        }
    }
    Err(io::ErrorKind::AlreadyExists.into())
}

/// The unfinished files beside one of this name, by any number.
fn parts(finished: &Path) -> Vec<PathBuf> {
    let own = finished.file_name().unwrap_or_default().as_bytes();
    let is_part = |name: &[u8]| {
        let number = name
            .strip_prefix(own)
            .and_then(|rest| rest.strip_prefix(b"."));
        let number = number.and_then(|rest| rest.strip_suffix(b".part"));
        number.is_some_and(|k| !k.is_empty() && k.iter().all(u8::is_ascii_digit))
    };
    // A folder that cannot be listed shows none.
    let here = Path::new(".").join(finished);
    let entries = here.parent().and_then(|folder| fs::read_dir(folder).ok());
    let entries = entries.into_iter().flatten().flatten();
    let parts = entries.filter(|entry| is_part(entry.file_name().as_bytes()));
    parts.map(|entry| entry.path()).collect()
}

/// Takes away a part that an interrupted run left: a file that no run has locked and none has read. What cannot be known is left.
fn take_away(part: &Path, sources: &[&Source]) {
    let there = fs::symlink_metadata(part).ok();
    let there = there.and_then(|about| identity(&about));
    if there.is_none() || sources.iter().any(|source| source.identity == there) {
        return;
    }
    let file = File::options().write(true).open(part);
    if let Ok(file) = file.and_then(|file| Ok(file.try_lock().map(|()| file)?)) {
        if is_at(&file, part) {
            let _ = fs::remove_file(part);
        }
    }
}

/// Whether another run has the lock. A system that knows no locks says something else.
fn is_locked(tried: Result<(), TryLockError>) -> bool {
    matches!(tried, Err(TryLockError::WouldBlock))
}

/// Whether a file still has this name.
fn is_at(file: &File, name: &Path) -> bool {
    let about = [file.metadata(), fs::symlink_metadata(name)];
    let [own, there] = about.map(|about| about.ok().and_then(|about| identity(&about)));
    own.is_some() && own == there
}

impl Write for Target {
    fn write(&mut self, bytes: &[u8]) -> io::Result<usize> {
        self.file.write(bytes)
    }

    fn flush(&mut self) -> io::Result<()> {
        self.file.flush()
    }
}

impl Seek for Target {
    fn seek(&mut self, to: SeekFrom) -> io::Result<u64> {
        self.file.seek(to)
    }
}

impl Drop for Target {
    /// Work that failed leaves nothing behind.
    fn drop(&mut self) {
        if let Some(part) = &self.part {
            let _ = fs::remove_file(&part.beside);
        }
    }
}
