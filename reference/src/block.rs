//! The security board configuration, called the block: ABI bytes, access list, host hierarchy and
//! OTP part. How it is judged (A1, A3 to A8, B1 to B10), and what accepting it leaves in memory.

use std::fmt;

use crate::access::{has_list, read_list, AccessMemory, ListFault, LIST_BYTES};
use crate::board::{Board, NO_HOST};
use crate::bytes::u16_at;

/// The two ABI bytes that a block starts with.
pub type Abi = [u8; 2];

/// Where the list, the hierarchy and the OTP part start.
pub const LIST_AT: usize = 2;
pub const HIERARCHY_AT: usize = LIST_AT + LIST_BYTES;
pub const OTP_AT: usize = HIERARCHY_AT + HIERARCHY_BYTES;

/// Bytes of a whole block.
pub const BLOCK_BYTES: usize = OTP_AT + OTP_BYTES;

/// Bytes of the hierarchy and of the OTP part, also the values of their size fields.
pub const HIERARCHY_BYTES: usize = PART_HEADER_BYTES + 2 * HIERARCHY_ENTRIES;
pub const OTP_BYTES: usize = PART_HEADER_BYTES + 2 * 32 + 1;

/// The first numbers of the hierarchy and of the OTP part.
pub const HIERARCHY_MAGIC: u16 = 0x8D27;
pub const OTP_MAGIC: u16 = 0x4081;

/// Bytes of a part before its entries: magic and size.
pub const PART_HEADER_BYTES: usize = 4;

/// Entries of the hierarchy, used or not.
pub const HIERARCHY_ENTRIES: usize = 32;

/// Why a block is refused. Its list, and a list before it, have the faults of lists.
#[derive(Clone, Copy, Debug, PartialEq, Eq)]
pub enum BlockFault {
    /// a fault of the list inside, or A1: a list or block was accepted before
    List(ListFault),
    /// length is not 431
    B1,
    /// ABI bytes unlike those that the caller names
    B2,
    /// magic of the hierarchy
    B3,
    /// size field of the hierarchy
    B4,
    /// an entry's host is not a board host
    B5,
    /// an entry's supervisor is not a board host
    B6,
    /// an entry's host is named by an earlier used entry
    B7,
    /// a loop; the first host in the order of the entries that lies on one
    B8(u8),
    /// magic of the OTP part
    B9,
    /// size field of the OTP part
    B10,
}

/// Every fault, in the order in which they are tested, each without its loop host.
pub const BLOCK_FAULTS: [BlockFault; 17] = [
    BlockFault::List(ListFault::A1),
    BlockFault::B1,
    BlockFault::B2,
    BlockFault::List(ListFault::A3),
    BlockFault::List(ListFault::A4),
    BlockFault::List(ListFault::A5),
    BlockFault::List(ListFault::A6),
    BlockFault::List(ListFault::A7),
    BlockFault::List(ListFault::A8),
    BlockFault::B3,
    BlockFault::B4,
    BlockFault::B5,
    BlockFault::B6,
    BlockFault::B7,
    BlockFault::B8(0),
    BlockFault::B9,
    BlockFault::B10,
];

impl BlockFault {
    /// The number that the static library gives it: k for Ak and 100 + k for Bk.
    pub fn number(self) -> u32 {
        match self {
            BlockFault::List(fault) => fault as u32,
            BlockFault::B1 => 101,
            BlockFault::B2 => 102,
            BlockFault::B3 => 103,
            BlockFault::B4 => 104,
            BlockFault::B5 => 105,
            BlockFault::B6 => 106,
            BlockFault::B7 => 107,
            BlockFault::B8(_) => 108,
            BlockFault::B9 => 109,
            BlockFault::B10 => 110,
        }
    }

    /// The loop's host, or 0 for every other fault.
    pub fn loop_host(self) -> u8 {
        match self {
            BlockFault::B8(host) => host,
            _ => 0,
        }
    }

    /// Its place in the order of the tests.
    pub fn place(self) -> usize {
        let same = |other: &BlockFault| other.number() == self.number();
        BLOCK_FAULTS.iter().position(same).expect("only A2 is no fault of a block")
    }
}

/// As it is printed: the number, and behind B8 the loop's host.
impl fmt::Display for BlockFault {
    fn fmt(&self, f: &mut fmt::Formatter) -> fmt::Result {
        match self {
            BlockFault::List(fault) => write!(f, "{fault:?}"),
            BlockFault::B8(host) => write!(f, "B8 {host}"),
            other => write!(f, "{other:?}"),
        }
    }
}

/// Takes the block's list, or says the first fault. The memory is then what the lone list leaves;
/// a refused block leaves it as it was.
pub fn accept_block(
    board: &Board,
    access: &mut AccessMemory,
    abi: Abi,
    block: &[u8],
) -> Result<(), BlockFault> {
    if has_list(access) {
        return Err(BlockFault::List(ListFault::A1));
    }
    *access = read_block(board, abi, block)?;
    Ok(())
}

/// The memory that the block's list leaves, or the first fault but A1.
fn read_block(board: &Board, abi: Abi, block: &[u8]) -> Result<AccessMemory, BlockFault> {
    if block.len() != BLOCK_BYTES {
        return Err(BlockFault::B1);
    }
    if block[..LIST_AT] != abi {
        return Err(BlockFault::B2);
    }
    let access = read_list(board, &block[LIST_AT..HIERARCHY_AT]).map_err(BlockFault::List)?;
    check_hierarchy(board, &block[HIERARCHY_AT..OTP_AT])?;
    check_otp(&block[OTP_AT..])?;
    Ok(access)
}

/// B3 to B8.
fn check_hierarchy(board: &Board, part: &[u8]) -> Result<(), BlockFault> {
    if u16_at(part, 0) != HIERARCHY_MAGIC {
        return Err(BlockFault::B3);
    }
    if usize::from(u16_at(part, 2)) != HIERARCHY_BYTES {
        return Err(BlockFault::B4);
    }
    let links = used_links(part);
    for place in 0..links.len() {
        check_link(board, links[place], &links[..place])?;
    }
    match first_on_loop(&links) {
        Some(host) => Err(BlockFault::B8(host)),
        None => Ok(()),
    }
}

/// B9 and B10. What the part holds besides is not judged.
fn check_otp(part: &[u8]) -> Result<(), BlockFault> {
    if u16_at(part, 0) != OTP_MAGIC {
        return Err(BlockFault::B9);
    }
    if usize::from(u16_at(part, 2)) != OTP_BYTES {
        return Err(BlockFault::B10);
    }
    Ok(())
}

/// A used entry of the hierarchy.
#[derive(Clone, Copy, Debug, PartialEq, Eq)]
pub struct Link {
    pub host: u8,
    pub supervisor: u8,
}

/// The used entries of a hierarchy in their order. Host 0 marks an unused one, whatever its
/// supervisor is.
fn used_links(part: &[u8]) -> Vec<Link> {
    let pairs = part[PART_HEADER_BYTES..].chunks_exact(2);
    let links = pairs.map(|pair| Link { host: pair[0], supervisor: pair[1] });
    links.filter(|link| u16::from(link.host) != NO_HOST).collect()
}

/// B5 to B7 of one used entry.
fn check_link(board: &Board, link: Link, earlier: &[Link]) -> Result<(), BlockFault> {
    if !board.has_host(u16::from(link.host)) {
        return Err(BlockFault::B5);
    }
    if !board.has_host(u16::from(link.supervisor)) {
        return Err(BlockFault::B6);
    }
    if earlier.iter().any(|other| other.host == link.host) {
        return Err(BlockFault::B7);
    }
    Ok(())
}

/// The first host in the order of the entries that lies on a loop.
fn first_on_loop(links: &[Link]) -> Option<u8> {
    links.iter().map(|link| link.host).find(|&host| lies_on_loop(links, host))
}

/// Whether following supervisors from this host leads back to it. A way that has not come back
/// after as many steps as there are entries never does: it ran into another loop.
fn lies_on_loop(links: &[Link], host: u8) -> bool {
    let mut at = host;
    for _ in links {
        match supervisor_of(links, at) {
            Some(supervisor) if supervisor == host => return true,
            Some(supervisor) => at = supervisor,
            None => return false,
        }
    }
    false
}

/// The supervisor of a host, or none where it has no entry, as host 0 never has.
pub fn supervisor_of(links: &[Link], host: u8) -> Option<u8> {
    links.iter().find(|link| link.host == host).map(|link| link.supervisor)
}

#[cfg(test)]
mod tests;
