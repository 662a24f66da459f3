//! Compiles the plain C loops that the benchmark prints beside the proved code, with clang where there is one: the proved code is
//! compiled by LLVM, too.
use std::path::PathBuf;
use std::process::Command;
use std::{env, fs};

const LOOPS: [&str; 2] = ["scan", "mix"];

fn main() {
    let out = PathBuf::from(env::var_os("OUT_DIR").expect("cargo sets OUT_DIR"));
    let archive = out.join("libloops.a");
    let _ = fs::remove_file(&archive);
    for name in LOOPS {
        let source = format!("c/{name}.c");
        println!("cargo:rerun-if-changed={source}");
        let object = out.join(format!("{name}.o"));
        let built = ["clang", "cc"].iter().find(|compiler| {
            Command::new(compiler)
                .args(["-O3", "-c", &source, "-o"])
                .arg(&object)
                .status()
                .is_ok_and(|status| status.success())
        });
        let compiler = built.expect("a C compiler: clang or cc");
        println!("cargo:rustc-env=C_COMPILER={compiler} -O3");
        let status = Command::new("ar")
            .arg("crs")
            .arg(&archive)
            .arg(&object)
            .status();
        assert!(status.is_ok_and(|s| s.success()), "ar failed");
    }
    println!("cargo:rustc-link-search=native={}", out.display());
    println!("cargo:rustc-link-lib=static=loops");
}
