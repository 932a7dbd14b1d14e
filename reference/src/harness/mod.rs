//! Makes recordings and calls that steer into every outcome, runs them through both
//! implementations, and counts what they reach.
//!
//! `generate` makes the random ones and `edges` those that are always the same; `compare` runs them
//! and names the first difference; `coverage` counts what a run has reached, and `situations` has
//! the table of what it has to meet by name.

mod clusters;
pub mod compare;
pub mod coverage;
pub mod edges;
pub mod generate;
pub mod situations;

/// What a run has the other implementation do.
#[derive(Clone, Copy, Debug, PartialEq, Eq)]
pub enum Run {
    /// replay recordings
    Recordings,
    /// take calls to its static library
    Calls,
    /// take recordings in pieces
    Pieces,
}
