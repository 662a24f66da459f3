//! Objects of each kind, as the commands print them.
use std::ffi::OsStr;
use std::os::unix::ffi::OsStrExt;
use std::path::{Path, PathBuf};
use std::process::{Command, Stdio};
use std::sync::OnceLock;

pub fn root() -> PathBuf {
    Path::new(env!("CARGO_MANIFEST_DIR")).join("..")
}

/// The objects that a command prints, run in the repository; how it ends does not matter here.
pub fn printed<S: AsRef<OsStr>>(words: &[S]) -> Vec<String> {
    let mut command = Command::new(env!("CARGO_BIN_EXE_lampthistle"));
    command.args(words).arg("--json").stdin(Stdio::null());
    let output = command.current_dir(root()).output().unwrap();
    let text = String::from_utf8(output.stdout).unwrap();
    text.lines().map(String::from).collect()
}

/// A file's name in the tests' own folder.
fn own(name: &str) -> String {
    let path = Path::new(env!("CARGO_TARGET_TMPDIR")).join(name);
    path.to_str().unwrap().into()
}

/// A name in the tests' own folder that is no UTF-8 and has a control character.
fn odd(name: &str) -> PathBuf {
    let name = [b"o\x1B\xFF", name.as_bytes()].concat();
    Path::new(env!("CARGO_TARGET_TMPDIR")).join(OsStr::from_bytes(&name))
}

const FLOW: &str = "crates/play_cases/data/flow";
pub const EFFECTS: &str = "crates/play_cases/data/effects";
const SCRIPT: &str = "examples/trial.txt";

/// A module made to be odd: names of escape codes and high bytes, with more behind a zero.
pub fn odd_module() -> PathBuf {
    static MODULE: OnceLock<PathBuf> = OnceLock::new();
    let module = MODULE.get_or_init(|| {
        let mut file = std::fs::read(root().join(EFFECTS)).unwrap();
        file[..8].copy_from_slice(b"\x1B[31m\xE9\0x");
        file[20..24].copy_from_slice(b"\x1B]0;");
        let path = odd("module.mod");
        std::fs::write(&path, file).unwrap();
        path
    });
    module.clone()
}

/// A module of rows of 31 * 16 ticks, which does not come back for four million.
fn endless_module() -> String {
    let mut file = vec![0; 1_084 + 1_024];
    file[950] = 128;
    file[1_080..1_084].copy_from_slice(b"M.K.");
    for row in file[1_084..].chunks_exact_mut(16) {
        row[2..4].copy_from_slice(&[0xE, 0xEF]);
    }
    file[1_086..1_088].copy_from_slice(&[0xF, 0x1F]);
    let name = own("endless.mod");
    std::fs::write(&name, file).unwrap();
    name
}

/// The stored files of the refusals.
fn refused_files() -> Vec<PathBuf> {
    let cases = std::fs::read_dir(root().join("crates/judge_cases/data")).unwrap();
    cases.map(|case| case.unwrap().path()).collect()
}

/// The headings that describe an object, and the object.
pub type Described = (Vec<&'static str>, String);

/// Objects of each kind: accepted, refused, noted, equal and different. They are printed once for all tests, which would overwrite each other's files.
pub fn objects() -> &'static [Described] {
    static OBJECTS: OnceLock<Vec<Described>> = OnceLock::new();
    OBJECTS.get_or_init(|| {
        let mut objects = Objects(Vec::new());
        objects.judged();
        objects.written();
        objects.played();
        objects.compared();
        objects.0
    })
}

struct Objects(Vec<Described>);

/// A file of this name and these bytes in the tests' own folder.
fn file(name: &str, bytes: &[u8]) -> String {
    let name = own(name);
    std::fs::write(&name, bytes).unwrap();
    name
}

impl Objects {
    fn add<S: AsRef<OsStr>>(&mut self, headings: &[&'static str], words: &[S]) {
        for object in printed(words) {
            let headings = [&["Every object"], headings].concat();
            self.0.push((headings, object));
        }
    }

    /// What a module is, or why it is none.
    fn judged(&mut self) {
        let refused = ["Answers", "Refusals"];
        for path in refused_files() {
            self.add(&refused, &[OsStr::new("judge"), path.as_os_str()]);
        }
        self.add(&refused, &["judge", &file("objects_tag.mod", &[0; 1_084])]);
        self.add(&refused, &["why", FLOW, "--channel", "9"]);
        let uncounted = file("objects.stream", &[0, 0, 0, 5, 3, 4, 0, 0, 0]);
        self.add(&refused, &["trace", &uncounted]);
        // A device is played as it arrives.
        let words = ["board", "/dev/null", FLOW, "--out", &own("nothing.raw")];
        self.add(&refused, &words);
        let words = ["judge", "--notes", EFFECTS, "no/such"];
        self.add(&["Answers", "judge", "Notes"], &words);
        for module in [odd_module(), endless_module().into()] {
            let words = [OsStr::new("info"), module.as_os_str()];
            self.add(&["Answers", "info", "Notes"], &words);
        }
    }

    /// Files with odd names.
    fn written(&mut self) {
        let module = odd_module();
        let (stream, sound, svg) = (odd("out.stream"), odd("out.raw"), odd("out.svg"));
        for (heading, file, out) in [
            ("play", None, &sound),
            ("translate", None, &stream),
            ("board", Some(&stream), &sound),
            ("picture", None, &svg),
        ] {
            let mut words = vec![OsStr::new(heading)];
            words.extend(file.map(|path| path.as_os_str()));
            words.extend([module.as_os_str(), OsStr::new("--out"), out.as_os_str()]);
            if file.is_none() {
                words.push(OsStr::new("--ticks=9"));
            }
            self.add(&["Answers", heading], &words);
        }
    }

    /// Ticks, causes and calls.
    fn played(&mut self) {
        self.add(&["trace"], &["trace", FLOW]);
        self.add(
            &["trace"],
            &[OsStr::new("trace"), odd("out.stream").as_os_str()],
        );
        for ticks in ["--ticks=0", "--seconds=1"] {
            self.add(&["Answers", "why"], &["why", FLOW, ticks]);
        }
        for script in [SCRIPT, &file("objects.txt", b"why\n")] {
            self.add(&["Answers", "replay"], &["replay", FLOW, script]);
        }
        let record = own("objects.record");
        printed(&["replay", FLOW, SCRIPT, "--record", &record]);
        for module in [FLOW, EFFECTS] {
            let words = ["replay", "--check", module, &record];
            self.add(&["replay --check"], &words);
        }
    }

    fn compared(&mut self) {
        let sound = &file("objects.raw", &[1; 4_000]);
        let no_numbers = &file("objects_nan.raw", &[0xFF; 4_000]);
        // The second tick a frame longer, and by version 1 a frame shorter.
        let stream = std::fs::read(odd("out.stream")).unwrap();
        let mut longer = stream.clone();
        longer[25] = 254;
        let follow = stream.len() as u32 - 5;
        let shorter = [&follow.to_be_bytes(), &[1][..], &stream[6..]].concat();
        for words in [
            &["compare", EFFECTS, "--ticks", "3"][..],
            &["compare", FLOW, sound],
            &["compare", FLOW, sound, "--offset=1"],
            &["compare", FLOW, no_numbers, "--float"],
            &["compare", EFFECTS, sound, "--ticks", "9"],
            &["compare", EFFECTS, &file("longer.stream", &longer)],
            &["compare", EFFECTS, &file("shorter.stream", &shorter)],
        ] {
            self.add(&["Answers", "compare"], words);
        }
        self.add(&["compare"], &["compare", sound, no_numbers]);
        let words = ["compare", no_numbers, sound, "--float"];
        self.add(&["compare"], &words);
        for ticks in ["--ticks=2", "--ticks=20"] {
            let (module, stream) = (odd_module(), odd("out.stream"));
            let words = [
                OsStr::new("compare"),
                module.as_os_str(),
                stream.as_os_str(),
                OsStr::new(ticks),
            ];
            self.add(&["Answers", "compare"], &words);
        }
    }
}
