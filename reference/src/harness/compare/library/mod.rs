//! The static libraries: their calls with the lines that tell of them, and comparisons with the
//! model on what a recording cannot say.

mod lent;
mod messages;
mod offers;

pub use messages::compare_messages;
pub use offers::{compare_blocks, compare_boards, compare_lists, compare_starts};

use crate::block::Abi;
use crate::board::{Board, BOARD_BYTES};
use crate::harness::compare::calls::{Calls, Memory};
use crate::harness::compare::pieces::Replays;
use crate::manager::Call;
use crate::replay_library;
use crate::static_library::{self, RawReport, RawVerdict};
use crate::stream::lent::Lent;

/// The calls of the static library, with its numbers turned into lines.
pub struct StaticLibrary;

impl Calls for StaticLibrary {
    fn start(&self) -> Board {
        let mut board = Board([0xA5; BOARD_BYTES]);
        static_library::start(&mut board.0);
        board
    }

    fn board(&self, memory: &mut Memory, description: &[u8]) -> String {
        match static_library::board(&mut memory.board.0, &memory.access, description) {
            0 => "board OK".to_string(),
            number @ ..200 => format!("board A{number}"),
            number => format!("board D{}", number - 200),
        }
    }

    fn list(&self, memory: &mut Memory, list: &[u8]) -> String {
        match static_library::list(&memory.board.0, &mut memory.access, list) {
            0 => "list OK".to_string(),
            number => format!("list A{number}"),
        }
    }

    fn block(&self, memory: &mut Memory, abi: Abi, block: &[u8]) -> String {
        let Memory { board, access, .. } = memory;
        let RawVerdict { number, loop_host } = static_library::block(&board.0, access, abi, block);
        let name = match number {
            0 => "OK".to_string(),
            1..100 => format!("A{number}"),
            _ => format!("B{}", number - 100),
        };
        match loop_host {
            0 => format!("block {name}"),
            host => format!("block {name} {host}"),
        }
    }

    fn message(&self, memory: &mut Memory, call: &Call, answer: &mut [u8]) -> (String, u32) {
        let Memory { board, access, records } = memory;
        let RawReport { outcome, checks, microseconds, written, role } =
            static_library::message(&board.0, access, records, call, answer);
        let name = match outcome {
            0 => "OK".to_string(),
            1..=9 => format!("N{outcome}"),
            _ => format!("R{}", outcome.wrapping_sub(100)),
        };
        let bytes = match written {
            0 => "-".to_string(),
            _ => answer.get(..written as usize).map_or("more than the buffer".into(), hex),
        };
        (format!("{name} {checks} {microseconds} {bytes}"), role)
    }
}

/// The calls of the static library that replays recordings in pieces.
pub struct ReplayLibrary;

impl Replays for ReplayLibrary {
    fn start(&self, lent: Lent) {
        replay_library::start(lent);
    }

    fn feed(&self, lent: Lent, piece: &[u8], out: &mut [u8]) -> u32 {
        replay_library::feed(lent, piece, out)
    }

    fn end(&self, lent: Lent, out: &mut [u8]) -> u32 {
        replay_library::end(lent, out)
    }
}

fn hex(bytes: &[u8]) -> String {
    bytes.iter().map(|byte| format!("{byte:02x}")).collect()
}
