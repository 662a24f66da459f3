//! Links the proved archive that is there, and hands the package its release: its version, with the commit where it is built in a git
//! repository. The archive is never made here: `make lib` does that, with the Rattle kit.
//!
//! LAMPTHISTLE_LIB_DIR: a folder that holds liblampthistle.a; without it out/ of the repository.
use std::path::{Path, PathBuf};
use std::process::Command;
use std::{env, fs};

const ARCHIVE: &str = "liblampthistle.a";

fn main() {
    let manifest = env::var_os("CARGO_MANIFEST_DIR").expect("cargo sets it");
    let root = Path::new(&manifest).parent().expect("the repository");
    link(root);
    println!("cargo:rustc-env=LAMPTHISTLE_RELEASE={}", release(root));
}

fn link(root: &Path) {
    println!("cargo:rerun-if-env-changed=LAMPTHISTLE_LIB_DIR");
    let out = PathBuf::from(env::var_os("OUT_DIR").expect("cargo sets OUT_DIR"));
    let given = env::var_os("LAMPTHISTLE_LIB_DIR").map(PathBuf::from);
    let made = given.unwrap_or(root.join("out")).join(ARCHIVE);
    println!("cargo:rerun-if-changed={}", made.display());
    // A copy: a link must not depend on when the archive is made anew.
    if let Err(e) = fs::copy(&made, out.join(ARCHIVE)) {
        println!(
            "cargo::error={}: {e}: run make lib in the repository, or set LAMPTHISTLE_LIB_DIR to a folder that holds {ARCHIVE}",
            made.display()
        );
        return;
    }
    println!("cargo:rustc-link-search=native={}", out.display());
    println!("cargo:rustc-link-lib=static=lampthistle");
}

/// The version, and the commit in brackets; a source tree without git has the version alone.
fn release(root: &Path) -> String {
    let version = env::var("CARGO_PKG_VERSION").expect("cargo sets it");
    // Git's log of the branch grows with every commit and checkout. Named though it is missing, it would count as changed each time.
    let log = git(root, &["rev-parse", "--git-path", "logs/HEAD"]).map(|log| root.join(log));
    if let Some(log) = log.filter(|log| log.exists()) {
        println!("cargo:rerun-if-changed={}", log.display());
    }
    match git(root, &["rev-parse", "--short=12", "HEAD"]) {
        Some(commit) => format!("{version} ({commit})"),
        None => version,
    }
}

/// What git says of the repository at `root`, and of no other that it may lie in.
fn git(root: &Path, words: &[&str]) -> Option<String> {
    if !root.join(".git").exists() {
        return None;
    }
    let ran = Command::new("git").args(words).current_dir(root).output();
    let said = ran.ok().filter(|ran| ran.status.success())?;
    Some(String::from_utf8(said.stdout).ok()?.trim().to_string())
}
