//! The files that calls are compared on.
use second::generate::breaks::breaking;
use second::generate::damage::any_file;
use second::generate::ends::ends;
use second::generate::finetunes::finetuned;
use second::generate::floats::opposite;
use second::generate::modules::{module, Size};
use second::generate::quiet::hushed;
use second::generate::tempos::{changing, steady};
use second::generate::waves::wavering;
use second::generate::Random;

/// Tempos whose ticks leave something over, the fastest and nearly the slowest.
pub const UNEVEN: [u32; 3] = [255, 254, 33];

/// A file of a seed: damaged ones, modules of every size, at one tempo throughout, with tempos in every place of a row, aimed at the ends
/// of samples, with breaks on most rows, with many zeros in their samples, with sides that are opposite, dense in vibrato and tremolo, and dense in
/// finetunes at the ends of their rows.
pub fn file(random: &mut Random, seed: u64) -> Vec<u8> {
    match random.below(100) {
        0..=11 => any_file(seed),
        12..=23 => module(seed, Size::Medium),
        24 => module(seed, Size::Large),
        25..=30 => steady(seed, random.pick(&UNEVEN)),
        31..=40 => changing(seed),
        41..=50 => ends(seed),
        51..=54 => breaking(seed),
        55..=59 => hushed(seed),
        60..=64 => opposite(seed),
        65..=76 => wavering(seed),
        77..=91 => finetuned(seed),
        _ => module(seed, Size::Small),
    }
}
