//! Runs the other implementation beside the model and names the first difference: its replay
//! program over recordings, its calls one by one and in long sessions, and its replay of recordings
//! in pieces.

pub mod calls;
pub mod cases;
mod guards;
pub mod ledger;
#[cfg(feature = "static-library")]
pub mod library;
pub mod long_sessions;
mod pair;
pub mod pieces;
pub mod program;
