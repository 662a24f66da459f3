//! Generated modules, states, touches and streams: what holds of all of them.

mod arrival;
mod breaks;
mod bursts;
mod channels;
mod common;
mod ends;
mod finetunes;
mod floats;
mod lengths;
mod parts;
mod playing;
#[path = "../printed/mod.rs"]
mod printed;
mod quiet;
mod states;
mod streams;
mod waves;
