//! Which library is linked, and whose states it plays on.
use crate::sys;

/// The version that these wrappers are for: major times 1,000,000, plus minor times 1,000, plus patch.
pub const VERSION: u32 = 8_000;

/// This package's version, with the commit that it was built from where that is known: `0.8.0 (1856cfe0f1a2)`.
pub const RELEASE: &str = env!("LAMPTHISTLE_RELEASE");

/// The version of the library that is linked.
pub fn version() -> u32 {
    // SAFETY: nothing is lent.
    unsafe { sys::lampthistle_version() }
}

/// Whether a state that was stored by this version can be played on: cells, refusals and calls are the same in versions that differ in
/// their last number alone.
pub const fn same_cells(version: u32) -> bool {
    version / 1_000 == VERSION / 1_000
}
