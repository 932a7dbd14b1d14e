//! Which faults a block has, each looked for by itself, and which of several is told.

use crate::access::{ListFault, LIST_BYTES, LIST_MAGIC};
use crate::block::{
    BlockFault, BLOCK_BYTES, BLOCK_FAULTS, HIERARCHY_AT, HIERARCHY_BYTES, HIERARCHY_MAGIC, LIST_AT,
    OTP_AT, OTP_BYTES, OTP_MAGIC,
};
use crate::bytes::u16_at;
use crate::harness::situations::Offered;

const A1: BlockFault = BlockFault::List(ListFault::A1);

impl Offered<'_> {
    /// Whether the block has this fault, wherever it stands and whatever is told. What is cut off
    /// has no fault. A1 is none of the block itself.
    pub(super) fn has_fault(&self, fault: BlockFault) -> bool {
        match fault {
            BlockFault::List(fault) => self.has_list_fault(fault),
            BlockFault::B1 => self.block.len() != BLOCK_BYTES,
            BlockFault::B2 => self.block.get(..LIST_AT).is_some_and(|bytes| bytes != self.abi),
            BlockFault::B3 => self.is_unlike(HIERARCHY_AT, HIERARCHY_MAGIC),
            BlockFault::B4 => self.is_unlike(HIERARCHY_AT + 2, HIERARCHY_BYTES as u16),
            BlockFault::B5 => self.links().iter().any(|link| self.is_absent(link.host)),
            BlockFault::B6 => self.links().iter().any(|link| self.is_absent(link.supervisor)),
            BlockFault::B7 => has_repeat(self.links().iter().map(|link| link.host)),
            BlockFault::B8(_) => self.links().iter().any(|link| self.way(link.host).is_loop()),
            BlockFault::B9 => self.is_unlike(OTP_AT, OTP_MAGIC),
            BlockFault::B10 => self.is_unlike(OTP_AT + 2, OTP_BYTES as u16),
        }
    }

    fn has_list_fault(&self, fault: ListFault) -> bool {
        let entries = self.list_entries();
        let any = |test: &dyn Fn(&[u8]) -> bool| entries.iter().any(|entry| test(entry));
        match fault {
            ListFault::A1 => self.verdict == Err(A1),
            ListFault::A2 => false,
            ListFault::A3 => self.is_unlike(LIST_AT, LIST_MAGIC),
            ListFault::A4 => self.is_unlike(LIST_AT + 2, LIST_BYTES as u16),
            ListFault::A5 => any(&|entry| self.board.row_of(entry[0]).is_none()),
            ListFault::A6 => has_repeat(entries.iter().map(|entry| entry[0])),
            ListFault::A7 => any(&|entry| !self.board.can_send(u16_at(entry, 1))),
            ListFault::A8 => {
                any(&|entry| [3, 5, 7].iter().any(|&at| !self.board.has_host(u16_at(entry, at))))
            }
        }
    }

    /// Whether the number there is another one.
    fn is_unlike(&self, at: usize, number: u16) -> bool {
        self.block.len() >= at + 2 && u16_at(self.block, at) != number
    }
}

fn has_repeat(numbers: impl Iterator<Item = u8>) -> bool {
    let numbers: Vec<_> = numbers.collect();
    (0..numbers.len()).any(|place| numbers[..place].contains(&numbers[place]))
}

/// How often each fault was told of a block that has another one as well, which is tested later.
#[derive(Default)]
pub struct FaultPairs([[u64; BLOCK_FAULTS.len()]; BLOCK_FAULTS.len()]);

impl FaultPairs {
    /// Counts the faults behind the one that is told.
    pub fn count(&mut self, offered: &Offered) {
        let Err(told) = offered.verdict else {
            return;
        };
        let counts = self.0[told.place()].iter_mut().zip(BLOCK_FAULTS);
        for (count, later) in counts.skip(told.place() + 1) {
            *count += u64::from(offered.has_fault(later));
        }
    }

    /// The pairs that were never met.
    pub fn gaps(&self) -> Vec<String> {
        let places = 0..BLOCK_FAULTS.len();
        let pairs = places.flat_map(|later| (0..later).map(move |told| (told, later)));
        let never = pairs.filter(|&(told, later)| self.0[told][later] == 0);
        never
            .map(|(told, later)| format!("block {} before {}: 0", name(told), name(later)))
            .collect()
    }

    /// A line for each fault told: the later fault that was met least with it.
    pub fn table(&self) -> String {
        let least = |told: usize| self.0[told][told + 1..].iter().min();
        let told = (0..BLOCK_FAULTS.len()).filter_map(|told| Some((told, least(told)?)));
        let cells: String = told.map(|(told, count)| format!(" {} {count}", name(told))).collect();
        format!("\nblocks with a later fault as well, met least:{cells}")
    }
}

/// The name of a fault, without a loop's host.
pub(super) fn name(place: usize) -> String {
    let text = BLOCK_FAULTS[place].to_string();
    text.split(' ').next().unwrap_or_default().to_string()
}

#[cfg(test)]
mod tests {
    use super::*;
    use crate::access::has_list;
    use crate::block::accept_block;
    use crate::harness::generate::blocks::{any_block_call, BlockCall};
    use crate::harness::generate::random::Random;

    /// What is told is found, and nothing is found in what is accepted.
    #[test]
    fn faults_are_found_as_they_are_told() {
        for number in 0..4000 {
            let BlockCall { board, mut access, abi, block } =
                any_block_call(&mut Random::new(23, number));
            let listed = has_list(&access);
            let verdict = accept_block(&board, &mut access, abi, &block);
            let offered = Offered { board: &board, abi, block: &block, verdict };
            let found: Vec<_> =
                BLOCK_FAULTS.into_iter().filter(|fault| offered.has_fault(*fault)).collect();
            let told = verdict.err().map(|fault| fault.number());
            assert_eq!(told.is_none(), found.is_empty(), "{number}");
            assert_eq!(told == Some(1), listed, "{number}");
            assert!(told.is_none_or(|told| found.iter().any(|fault| fault.number() == told)));
        }
    }

    #[test]
    fn names_have_no_host() {
        let names: Vec<_> = (0..BLOCK_FAULTS.len()).map(name).collect();
        assert_eq!(names[..4], ["A1", "B1", "B2", "A3"]);
        assert_eq!(names[13..], ["B7", "B8", "B9", "B10"]);
    }
}
