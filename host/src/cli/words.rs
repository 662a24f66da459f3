//! The words of a command line: files, options with and without a value.
use super::input::quoted;
use super::stop::Stop;
use super::Command;
use std::ffi::{OsStr, OsString};
use std::os::unix::ffi::OsStrExt;

pub struct Words {
    pub plain: bool,
    pub json: bool,
    pub help: bool,
    pub files: Vec<OsString>,
    flags: Vec<&'static str>,
    values: Vec<(&'static str, OsString)>,
}

/// Options of every command.
const PLAIN: &str = "--plain";
const JSON: &str = "--json";
const HELP: &str = "--help";
/// Short names of options.
const SHORT: [(&str, &str); 2] = [("-h", HELP), ("-o", "--out")];

impl Words {
    /// Sorts the words of a command. After -- every word is a file.
    pub fn parse(words: &[OsString], command: &Command) -> Result<Words, Stop> {
        let mut sorted = Words {
            plain: false,
            json: false,
            help: false,
            files: Vec::new(),
            flags: Vec::new(),
            values: Vec::new(),
        };
        let mut rest = words.iter();
        while let Some(word) = rest.next() {
            if word == "--" {
                sorted.files.extend(rest.by_ref().cloned());
            } else if word == "-" || !word.as_bytes().starts_with(b"-") {
                sorted.files.push(word.clone());
            } else {
                sorted.option(word, &mut rest, command)?;
            }
        }
        sorted.plain = sorted.has(PLAIN);
        sorted.json = sorted.has(JSON);
        sorted.help = sorted.has(HELP);
        if sorted.plain && sorted.json {
            return Err(Stop::Usage("--plain and --json exclude each other".into()));
        }
        Ok(sorted)
    }

    /// Takes an option; its value is after = or the next word.
    fn option<'a>(
        &mut self,
        word: &'a OsStr,
        rest: &mut impl Iterator<Item = &'a OsString>,
        command: &Command,
    ) -> Result<(), Stop> {
        let bytes = word.as_bytes();
        let equals = bytes.iter().position(|&byte| byte == b'=');
        let given = OsStr::from_bytes(&bytes[..equals.unwrap_or(bytes.len())]);
        let value = equals.map(|at| OsStr::from_bytes(&bytes[at + 1..]));
        let short = SHORT.iter().find(|(short, _)| given == *short);
        let name = short.map_or(given, |(_, long)| OsStr::new(long));
        let named = |options: &[&'static str]| options.iter().copied().find(|o| name == *o);
        if let Some(flag) = named(&[PLAIN, JSON, HELP]).or_else(|| named(command.flags)) {
            if value.is_some() {
                return Err(Stop::Usage(format!("{flag} takes no value")));
            }
            self.flags.push(flag);
            return Ok(());
        }
        match named(command.options) {
            Some(option) => self.add(option, value.or_else(|| rest.next().map(|word| &**word))),
            None => Err(Stop::Usage(format!("no such option: {}", quoted(given)))),
        }
    }

    fn add(&mut self, option: &'static str, value: Option<&OsStr>) -> Result<(), Stop> {
        let Some(value) = value else {
            return Err(Stop::Usage(format!("{option} needs a value")));
        };
        if self.value(option).is_some() {
            return Err(Stop::Usage(format!("{option} is given twice")));
        }
        self.values.push((option, value.into()));
        Ok(())
    }

    /// Whether an option without a value is given.
    pub fn has(&self, flag: &str) -> bool {
        self.flags.contains(&flag)
    }

    pub fn value(&self, option: &str) -> Option<&OsStr> {
        let given = self.values.iter().find(|(name, _)| *name == option);
        given.map(|(_, value)| value.as_os_str())
    }

    /// The value of an option that must be there.
    pub fn needed(&self, option: &str) -> Result<&OsStr, Stop> {
        self.value(option)
            .ok_or_else(|| Stop::Usage(format!("no {option}")))
    }

    /// An option's number.
    pub fn number(&self, option: &str) -> Result<Option<u32>, Stop> {
        let Some(value) = self.value(option) else {
            return Ok(None);
        };
        match value.to_str().and_then(|text| text.parse().ok()) {
            Some(number) => Ok(Some(number)),
            None => Err(Stop::Usage(format!(
                "{option}: not a number from 0 to {}: {}",
                u32::MAX,
                quoted(value)
            ))),
        }
    }

    /// The files, one for each of these names.
    pub fn files<const N: usize>(&self, names: [&str; N]) -> Result<[&OsStr; N], Stop> {
        if let Some(missing) = names.get(self.files.len()) {
            return Err(Stop::Usage(format!("no {missing}")));
        }
        if let Some(extra) = self.files.get(N) {
            return Err(Stop::Usage(format!("one word too many: {}", quoted(extra))));
        }
        Ok(std::array::from_fn(|k| self.files[k].as_os_str()))
    }

    /// Whether the command's result goes to standard output.
    pub fn result_to_stdout(&self) -> bool {
        ["--out", "--record", "--save"]
            .map(|option| self.value(option))
            .contains(&Some(OsStr::new("-")))
    }
}
