//! What is always the same: recordings, descriptions and blocks at every limit, with every fault
//! and with every byte.

pub mod block_recordings;
pub mod blocks;
pub mod boards;
pub mod recordings;
pub mod worked;
