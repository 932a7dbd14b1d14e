//! What a message call reports.

use crate::access::Role;

/// How a message call ends, by the name that is printed. Declared in the order of the tests.
#[derive(Clone, Copy, Debug, PartialEq, Eq, PartialOrd, Ord)]
pub enum Outcome {
    /// answer buffer shorter than 29
    R1,
    /// message shorter than 8 or longer than 60
    R2,
    /// no list accepted
    N1,
    /// channel host not a board host, or 0, or unlike the header's host
    N2,
    /// type not in the table
    N3,
    /// shorter than its structure
    N4,
    /// authenticated boot
    N5,
    /// processor not on the board
    N6,
    /// sender lacks the right
    N7,
    /// operand wrong
    N8,
    /// too few status words
    R3,
    /// wait ran out
    N9,
    /// carried out
    OK,
}

/// Every outcome, in the order in which they are tested.
pub const OUTCOMES: [Outcome; 13] = [
    Outcome::R1,
    Outcome::R2,
    Outcome::N1,
    Outcome::N2,
    Outcome::N3,
    Outcome::N4,
    Outcome::N5,
    Outcome::N6,
    Outcome::N7,
    Outcome::N8,
    Outcome::R3,
    Outcome::N9,
    Outcome::OK,
];

impl Outcome {
    /// The number that the static library gives it.
    pub fn number(self) -> u32 {
        match self {
            Outcome::OK => 0,
            Outcome::N1 => 1,
            Outcome::N2 => 2,
            Outcome::N3 => 3,
            Outcome::N4 => 4,
            Outcome::N5 => 5,
            Outcome::N6 => 6,
            Outcome::N7 => 7,
            Outcome::N8 => 8,
            Outcome::N9 => 9,
            Outcome::R1 => 101,
            Outcome::R2 => 102,
            Outcome::R3 => 103,
        }
    }

    /// Whether nothing is written, even where an answer was asked for.
    pub fn is_silent(self) -> bool {
        matches!(self, Outcome::R1 | Outcome::R2 | Outcome::R3)
    }
}

/// All that a message call tells besides the bytes it writes.
#[derive(Clone, Copy, Debug, PartialEq, Eq)]
pub struct Report {
    /// for the log alone, never in the answer
    pub outcome: Outcome,
    /// the sender's for the processor of a request that got to N7 or OK, else none; for the log
    /// alone
    pub role: Role,
    /// status words that a wait examined
    pub checks: u32,
    /// the delays that a wait took
    pub microseconds: u32,
    /// bytes written to the answer buffer, from its start
    pub written: usize,
}
