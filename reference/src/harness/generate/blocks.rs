//! Makes blocks: good ones, and ones with one or several faults.

use crate::access::{AccessMemory, ListFault, LIST_BYTES, LIST_MAGIC};
use crate::block::{
    Abi, BlockFault, BLOCK_BYTES, BLOCK_FAULTS, HIERARCHY_BYTES, HIERARCHY_ENTRIES,
    HIERARCHY_MAGIC, LIST_AT, OTP_BYTES, OTP_MAGIC, PART_HEADER_BYTES,
};
use crate::board::Board;
use crate::harness::generate::lists::{faulty_list, good_list};
use crate::harness::generate::memories::{any_access_before, any_board};
use crate::harness::generate::random::Random;
use crate::session::RECORDED_ABI;

/// Bytes of the OTP part behind its header.
const OTP_REST: usize = OTP_BYTES - PART_HEADER_BYTES;

/// Lengths worth trying besides random ones; some end with or within a part.
const ODD_LENGTHS: [usize; 15] =
    [0, 1, 2, 3, 292, 293, 294, 295, 361, 362, 363, 366, 430, 432, 512];

/// Numbers that a magic may be mistaken for, and that a size may.
const MAGICS: [u16; 6] = [0, LIST_MAGIC, HIERARCHY_MAGIC, OTP_MAGIC, 0x278D, 0x8140];
const SIZES: [u16; 9] = [0, 64, 65, 68, 69, 292, 324, 325, 431];

/// The longest block that is offered to the static library, but for a few that are far longer.
const LONGEST_CALL: usize = 600;
const FAR_LONGER: [usize; 3] = [65_535, 65_536, 65_536 + BLOCK_BYTES];

/// Magic and size of a part.
pub type PartHeader = [u16; 2];

/// Host and supervisor of each entry of a hierarchy.
pub type Pairs = [[u8; 2]; HIERARCHY_ENTRIES];

/// A block by its parts, each of any content.
#[derive(Clone)]
pub struct BlockDraft {
    pub abi: Abi,
    pub list: Vec<u8>,
    pub hierarchy: PartHeader,
    pub pairs: Pairs,
    pub otp: PartHeader,
    pub otp_rest: [u8; OTP_REST],
}

impl BlockDraft {
    /// A block with this list and no more: no entry of its hierarchy is used, and the OTP part has
    /// zeros.
    pub fn new(abi: Abi, list: Vec<u8>) -> BlockDraft {
        BlockDraft {
            abi,
            list,
            hierarchy: [HIERARCHY_MAGIC, HIERARCHY_BYTES as u16],
            pairs: [[0; 2]; HIERARCHY_ENTRIES],
            otp: [OTP_MAGIC, OTP_BYTES as u16],
            otp_rest: [0; OTP_REST],
        }
    }

    /// The block's bytes.
    pub fn to_bytes(&self) -> Vec<u8> {
        let header = |header: PartHeader| header.map(u16::to_le_bytes).concat();
        let hierarchy = [header(self.hierarchy), self.pairs.concat()].concat();
        let otp = [header(self.otp), self.otp_rest.to_vec()].concat();
        [self.abi.to_vec(), self.list.clone(), hierarchy, otp].concat()
    }
}

/// A block call: what is lent, the ABI bytes that the caller names, and the block.
pub struct BlockCall {
    pub board: Board,
    pub access: AccessMemory,
    pub abi: Abi,
    pub block: Vec<u8>,
}

/// A block call over memories of any content, with any ABI bytes and a block of any length.
pub fn any_block_call(random: &mut Random) -> BlockCall {
    let board = any_board(random).board;
    let access = any_access_before(random);
    let any = [random.u8(), random.u8()];
    let abi = random.pick(&[RECORDED_ABI, [1, 0], [any[0]; 2], any]);
    let mut block = any_block(random, &board, abi, LONGEST_CALL);
    if random.one_in(200) {
        block.resize(random.pick(&FAR_LONGER), 0);
    }
    BlockCall { board, access, abi, block }
}

/// A good block, one with faults, or noise.
pub fn any_block(random: &mut Random, board: &Board, abi: Abi, longest: usize) -> Vec<u8> {
    match random.below(8) {
        0 => {
            let length = random.pick_or(&[BLOCK_BYTES], |random| random.between(0, longest));
            random.bytes(length)
        }
        1 | 2 => {
            let list = good_list(random, board);
            good_block(random, board, abi, &list)
        }
        _ => {
            let fault = random.pick(&BLOCK_FAULTS);
            faulty_block(random, board, abi, fault, longest)
        }
    }
}

/// A block that the board takes if it takes the list, with any bytes that are not judged.
pub fn good_block(random: &mut Random, board: &Board, abi: Abi, list: &[u8]) -> Vec<u8> {
    good_draft(random, board, abi, list).to_bytes()
}

/// A block with the given fault, sometimes with others as well. It cannot have A1 in itself, so
/// nothing is planted for that.
pub fn faulty_block(
    random: &mut Random,
    board: &Board,
    abi: Abi,
    fault: BlockFault,
    longest: usize,
) -> Vec<u8> {
    let list = good_list(random, board);
    let mut draft = good_draft(random, board, abi, &list);
    for _ in 0..random.pick(&[0, 0, 0, 1, 2, 5]) {
        let other = random.pick(&BLOCK_FAULTS);
        plant(random, board, &mut draft, other);
    }
    plant(random, board, &mut draft, fault);
    let mut block = draft.to_bytes();
    if fault == BlockFault::B1 {
        let length = random.pick_or(&ODD_LENGTHS, |random| random.between(0, longest));
        block.resize(length, 0);
    }
    block
}

fn good_draft(random: &mut Random, board: &Board, abi: Abi, list: &[u8]) -> BlockDraft {
    let mut draft = BlockDraft::new(abi, list.to_vec());
    draft.pairs = good_pairs(random, board);
    if random.one_in(2) {
        draft.otp_rest.fill_with(|| random.u8());
    }
    draft
}

/// A hierarchy without a fault: each used entry has a supervisor that is 0, has no entry or stands
/// before it in an order of hosts, which the order of the entries follows, reverses or ignores.
fn good_pairs(random: &mut Random, board: &Board) -> Pairs {
    let mut hosts = sender_bytes(board);
    random.shuffle(&mut hosts);
    let most = hosts.len().min(HIERARCHY_ENTRIES);
    let count = random.pick_or(&[0, most, most], |random| random.between(0, most));
    let others = [&[0], &hosts[count..]].concat();
    let in_one_way = random.one_in(2);
    let mut used: Vec<_> = (0..count)
        .map(|place| match place {
            0 => [hosts[0], random.pick(&others)],
            _ if in_one_way || random.one_in(2) => [hosts[place], hosts[place - 1]],
            _ => [hosts[place], random.pick(&[&others, &hosts[..place]].concat())],
        })
        .collect();
    match random.below(3) {
        0 => used.reverse(),
        1 => random.shuffle(&mut used),
        _ => {}
    }
    spread(random, &used)
}

/// The used entries in their order, with unused ones between them, which may have any supervisor.
fn spread(random: &mut Random, used: &[[u8; 2]]) -> Pairs {
    let mut pairs = [[0; 2]; HIERARCHY_ENTRIES];
    if random.one_in(2) {
        pairs.fill_with(|| [0, random.u8()]);
    }
    let mut slots: Vec<_> = (0..HIERARCHY_ENTRIES).collect();
    random.shuffle(&mut slots);
    slots.truncate(used.len());
    slots.sort();
    slots.iter().zip(used).for_each(|(&slot, pair)| pairs[slot] = *pair);
    pairs
}

/// The hosts of the board but 0.
fn sender_bytes(board: &Board) -> Vec<u8> {
    (1..=u8::MAX).filter(|&host| board.has_host(u16::from(host))).collect()
}

/// A byte that is no host of the board, or any where all are.
fn absent_host(random: &mut Random, board: &Board) -> u8 {
    let absent: Vec<u8> = (1..=u8::MAX).filter(|&host| !board.has_host(u16::from(host))).collect();
    match absent.len() {
        0 => random.u8(),
        _ => random.pick(&absent),
    }
}

/// Puts one fault into the block, sometimes with another in the same entry.
fn plant(random: &mut Random, board: &Board, draft: &mut BlockDraft, fault: BlockFault) {
    match fault {
        // Neither is in a part of the block.
        BlockFault::List(ListFault::A1) | BlockFault::B1 => {}
        BlockFault::B2 => spoil_abi(random, &mut draft.abi),
        BlockFault::List(fault) => draft.list = faulty_list(random, board, fault, LIST_BYTES),
        BlockFault::B3 => spoil_number(random, &mut draft.hierarchy[0], &MAGICS),
        BlockFault::B4 => spoil_number(random, &mut draft.hierarchy[1], &SIZES),
        BlockFault::B5 | BlockFault::B6 | BlockFault::B7 => {
            plant_in_entry(random, board, &mut draft.pairs, fault)
        }
        BlockFault::B8(_) => draft.pairs = looped_pairs(random, board),
        BlockFault::B9 => spoil_number(random, &mut draft.otp[0], &MAGICS),
        BlockFault::B10 => spoil_number(random, &mut draft.otp[1], &SIZES),
    }
}

/// Swaps the bytes or changes one of them.
fn spoil_abi(random: &mut Random, abi: &mut Abi) {
    if abi[0] != abi[1] && random.one_in(3) {
        abi.swap(0, 1);
    } else {
        abi[random.below(LIST_AT)] ^= random.between(1, 255) as u8;
    }
}

/// Gives another number: one that stands elsewhere, or one with another bit.
fn spoil_number(random: &mut Random, number: &mut u16, mistaken: &[u16]) {
    let flipped = *number ^ (1 << random.below(16));
    let other = random.pick(mistaken);
    *number = if other == *number || random.one_in(2) { flipped } else { other };
}

/// Puts one of the faults B5 to B7 into some entry, sometimes with another in the same entry.
fn plant_in_entry(random: &mut Random, board: &Board, pairs: &mut Pairs, fault: BlockFault) {
    let last = HIERARCHY_ENTRIES - 1;
    let slot = random.pick_or(&[0, last], |random| random.between(0, last));
    let hosts = [&[0], sender_bytes(board).as_slice()].concat();
    // Host 0 only where the board has no other.
    let host = random.pick(&hosts[hosts.len().min(2) - 1..]);
    let [supervisor, other] = [(); 2].map(|()| random.pick(&hosts));
    let absent = absent_host(random, board);
    pairs[slot] = match fault {
        BlockFault::B5 => [absent, supervisor],
        BlockFault::B6 => [host, absent],
        _ => {
            let named = if pairs[slot][0] == 0 { host } else { pairs[slot][0] };
            pairs[random.below(HIERARCHY_ENTRIES)] = [named, supervisor];
            [named, random.pick(&[supervisor, other])]
        }
    };
    if random.one_in(4) {
        pairs[slot][1] = absent_host(random, board);
    }
}

/// A hierarchy with a loop, if the board has a host: a way that leads into a loop of all others, or
/// hosts with any of them as supervisors, of which some may have an end.
fn looped_pairs(random: &mut Random, board: &Board) -> Pairs {
    let mut hosts = sender_bytes(board);
    random.shuffle(&mut hosts);
    let most = hosts.len().min(HIERARCHY_ENTRIES);
    let few = [most, most, most.min(1), most.min(2)];
    let count = random.pick_or(&few, |random| random.between(0, most));
    let (used, others) = hosts.split_at(count);
    let last = count.saturating_sub(1);
    let way_in = random.pick_or(&[0, 0, last], |random| random.between(0, last));
    let mut near = used.to_vec();
    if random.one_in(2) {
        near.extend([&[0], others].concat());
    }
    let in_one_way = random.one_in(2);
    let mut pairs: Vec<_> = (0..count)
        .map(|place| match in_one_way {
            true if place == last => [used[place], used[way_in]],
            true => [used[place], used[place + 1]],
            false => [used[place], random.pick(&near)],
        })
        .collect();
    if random.one_in(2) {
        random.shuffle(&mut pairs);
    }
    spread(random, &pairs)
}

#[cfg(test)]
mod tests {
    use super::*;
    use crate::access::ACCESS_WORDS;
    use crate::block::accept_block;

    fn verdict(board: &Board, abi: Abi, block: &[u8]) -> Result<(), BlockFault> {
        accept_block(board, &mut [0; ACCESS_WORDS], abi, block)
    }

    #[test]
    fn good_blocks_are_accepted() {
        let mut random = Random::new(21, 0);
        for _ in 0..400 {
            let board = any_board(&mut random).board;
            let abi = [random.u8(), random.u8()];
            let list = good_list(&mut random, &board);
            let block = good_block(&mut random, &board, abi, &list);
            assert_eq!(block.len(), BLOCK_BYTES);
            assert_eq!(verdict(&board, abi, &block), Ok(()));
        }
    }

    #[test]
    fn faulty_blocks_reach_each_fault() {
        let mut random = Random::new(22, 0);
        let board = Board::first();
        for fault in &BLOCK_FAULTS[1..] {
            let reached = (0..200).any(|_| {
                let block = faulty_block(&mut random, &board, RECORDED_ABI, *fault, 512);
                let given = verdict(&board, RECORDED_ABI, &block);
                given.is_err_and(|given| given.number() == fault.number())
            });
            assert!(reached, "{fault:?}");
        }
    }
}
