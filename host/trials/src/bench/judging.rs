//! Judging: ns a cell, beside C scans (c/scan.c).
use super::modules::large;
use crate::say::say;
use crate::timing::print_medians;
use std::hint::black_box;

extern "C" {
    fn scan_plain(file: *const u8, len: usize) -> u32;
    fn scan_branch_free(file: *const u8, len: usize) -> u32;
}

pub fn print() {
    let file = large();
    say(&format!(
        "judging 64 patterns, 16,384 cells (C: {})",
        env!("C_COMPILER")
    ));
    // SAFETY: both read `len` bytes from the pointer.
    let scan =
        |f: unsafe extern "C" fn(*const u8, usize) -> u32| unsafe { f(file.as_ptr(), file.len()) };
    print_medians(
        "cell",
        16_384.0,
        &mut [
            ("proved", &mut || {
                let _ = black_box(lampthistle::judge(black_box(&file)));
            }),
            ("C, branch-free scan", &mut || {
                black_box(scan(scan_branch_free));
            }),
            ("C, plain scan", &mut || {
                black_box(scan(scan_plain));
            }),
            ("second implementation", &mut || {
                black_box(second::judge(black_box(&file)));
            }),
        ],
    );
}
