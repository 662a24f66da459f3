//! The papers' rules one by one, each shown on a small module built for it.

mod arrival;
mod bursts;
mod calls;
mod cases;
mod channels;
mod common;
mod effects;
mod finetune;
mod floats;
mod flow;
mod lengths;
mod notes;
mod parts;
#[path = "../printed/mod.rs"]
mod printed;
mod quiet;
mod streams;
mod voices;
mod waves;
