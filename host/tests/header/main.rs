//! include/lampthistle.h is where refusals, cells and limits are written down; all else that names them is held to it here.
mod documents;
mod parse;
mod wrappers;
