//! A second implementation of the processor boot manager, written from its papers alone, and the
//! harness that compares it with the first.
//!
//! `board`, `bytes`, `outcome`, `record`, `message` and `wait` are the parts; `description`,
//! `access`, `block` and `manager` are the board call, the list call, the block call and the
//! message call over lent memory; `session` replays recordings, and `stream` those that come in
//! pieces. `bench` has the fixed cases, and `harness` makes and compares the random ones.

pub mod access;
pub mod bench;
pub mod block;
pub mod board;
pub mod bytes;
pub mod description;
pub mod harness;
pub mod manager;
pub mod message;
pub mod outcome;
pub mod record;
#[cfg(feature = "static-library")]
pub mod replay_library;
pub mod session;
#[cfg(feature = "static-library")]
pub mod static_library;
pub mod stream;
pub mod wait;
