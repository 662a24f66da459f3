//! A file's name: as messages show it, and exactly.
use super::input::shown;
use super::json::{self, Fields};
use std::ffi::OsStr;
use std::fmt;
use std::ops::Deref;
use std::os::unix::ffi::OsStrExt;

#[derive(Clone)]
pub struct Name {
    shown: String,
    bytes: Vec<u8>,
}

impl Name {
    /// A name that was given: - is standard input or output.
    pub fn of(name: &OsStr) -> Name {
        Name {
            shown: shown(name),
            bytes: name.as_bytes().into(),
        }
    }

    /// The keys of an object for the name, and for its bytes where the text is not just these.
    pub fn fields(&self, keys: [&'static str; 2]) -> Fields {
        json::exact(keys, &self.shown, &self.bytes)
    }
}

/// The keys of the file that an object is about.
pub const FILE: [&str; 2] = ["file", "file_bytes"];

impl From<&str> for Name {
    fn from(name: &str) -> Name {
        Name::of(OsStr::new(name))
    }
}

/// What messages show.
impl Deref for Name {
    type Target = str;

    fn deref(&self) -> &str {
        &self.shown
    }
}

impl fmt::Display for Name {
    fn fmt(&self, f: &mut fmt::Formatter) -> fmt::Result {
        f.write_str(&self.shown)
    }
}
