//! The recording that both programs are timed on.

use std::io::{self, Write};

use crate::board::ROWS;
use crate::harness::generate::clients::{
    boot_cycle, client_entries, client_list, client_status, Sent,
};
use crate::harness::generate::descriptions::{full_fields, FULL_BOARD_FROM};
use crate::harness::generate::lists::{entry, list_of};
use crate::harness::generate::random::Random;
use crate::harness::generate::recordings::{field, message_field, status_field};
use crate::session::{TAG_BOARD, TAG_LIST};

/// Core, host and next host of each cycle. Most start with the recovery master, which gets the core
/// back from whoever was left with it by a changed message.
const CYCLES: [(u8, u8, u8); 6] =
    [(1, 3, 5), (2, 3, 12), (32, 10, 12), (33, 10, 13), (1, 12, 4), (32, 12, 10)];

/// Which board the messages meet.
#[derive(Clone, Copy, Debug, PartialEq, Eq)]
pub enum TimedBoard {
    /// the one that stands at the start
    First,
    /// 64 hosts and 32 processors, those of the first board in the last rows
    Full,
}

/// A recording for timing: a good list, status words and whole boot cycles, so that each type is an
/// eighth of the messages. One message in sixteen has a byte changed. The status words and messages
/// are the same on both boards.
pub fn write_timing_recording(
    seed: u64,
    messages: usize,
    board: TimedBoard,
    out: &mut impl Write,
) -> io::Result<()> {
    let mut random = Random::new(seed, 0);
    out.write_all(&start_of(board))?;
    out.write_all(&status_field(&client_status(&mut random)))?;
    let mut queue: Vec<Sent> = Vec::new();
    for _ in 0..messages {
        if queue.is_empty() {
            queue = next_cycle(&mut random);
        }
        let Some((channel, mut message)) = queue.pop() else {
            break;
        };
        if random.one_in(16) {
            // A byte behind the type, which stays what it is.
            let at = random.between(2, 30);
            message[at] ^= 1 << random.below(8);
        }
        out.write_all(&message_field(channel, &message))?;
    }
    out.flush()
}

/// The fields before the status words: the board unless it stands already, and a list.
fn start_of(board: TimedBoard) -> Vec<u8> {
    match board {
        TimedBoard::First => field(TAG_LIST, &client_list()),
        TimedBoard::Full => {
            let description = field(TAG_BOARD, &full_fields().concat());
            [description, field(TAG_LIST, &full_list())].concat()
        }
    }
}

/// A list with an entry for each processor of the full board: those of the clients' list, which
/// come last, and before them the rest.
fn full_list() -> Vec<u8> {
    let clients = client_entries();
    let others = (ROWS - clients.len()) as u8;
    let others = (0..others).map(|n| entry(FULL_BOARD_FROM + n, [3, 10, 12, 100]));
    list_of(&others.chain(clients).collect::<Vec<_>>())
}

/// A boot cycle that the list allows, in reverse.
fn next_cycle(random: &mut Random) -> Vec<Sent> {
    let (core, host, next) = random.pick(&CYCLES);
    let mut cycle = boot_cycle(random, core, host, next);
    cycle.reverse();
    cycle
}

#[cfg(test)]
mod tests {
    use super::*;
    use crate::session::lines_of;

    fn recording(board: TimedBoard) -> Vec<u8> {
        let mut recording = Vec::new();
        write_timing_recording(1, 4000, board, &mut recording).unwrap();
        recording
    }

    #[test]
    fn messages_are_the_same_on_both_boards() {
        let [first, full] = [TimedBoard::First, TimedBoard::Full]
            .map(|board| (recording(board), start_of(board).len()));
        assert_eq!(first.0[first.1..], full.0[full.1..]);
    }

    /// A changed byte may name another processor or host, which only the larger board has.
    #[test]
    fn nearly_all_lines_are_the_same_on_both_boards() {
        let lines = |board| lines_of(&recording(board));
        let (first, full) = (lines(TimedBoard::First), lines(TimedBoard::Full));
        let behind = full.strip_prefix("board OK\n").unwrap();
        assert!(first.starts_with("list OK\n") && behind.starts_with("list OK\n"));
        let differing = first.lines().zip(behind.lines()).filter(|(a, b)| a != b).count();
        assert!(first.lines().count() == behind.lines().count() && differing < 60, "{differing}");
    }
}
