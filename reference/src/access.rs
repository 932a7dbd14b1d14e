//! The access list: how it is judged (A1 to A8), what accepting it leaves in memory, and which role
//! a host has for a processor.

use crate::board::{Board, NO_HOST, ROWS};
use crate::bytes::u16_at;

/// Words of access memory: the acceptance word, then four words a row.
pub const ACCESS_WORDS: usize = 1 + ENTRY_WORDS * ROWS;

/// Access memory as it is lent. Word 0 is nonzero once a list, lone or in a block, was accepted.
/// Each row has the recovery master (0 for no entry) and three secondaries (0 for unused). Any
/// content is a state.
pub type AccessMemory = [u16; ACCESS_WORDS];

/// Bytes of a whole list, also the value of its size field.
pub const LIST_BYTES: usize = 292;

/// The first number of every list.
pub const LIST_MAGIC: u16 = 0xF1EA;

/// Bytes before the first entry: magic and size.
pub const LIST_HEADER_BYTES: usize = 4;

/// Bytes of one entry.
pub const ENTRY_BYTES: usize = 9;

const ENTRY_WORDS: usize = 4;
const ACCEPTED: u16 = 1;

/// Why a list is refused, by the number that is printed. Declared in the order of the tests.
#[derive(Clone, Copy, Debug, PartialEq, Eq, PartialOrd, Ord)]
pub enum ListFault {
    /// a list or block was accepted before
    A1 = 1,
    /// length is not 292
    A2,
    /// magic
    A3,
    /// size field
    A4,
    /// processor not on the board
    A5,
    /// processor named by an earlier used entry
    A6,
    /// master is not a board host, or is 0
    A7,
    /// a secondary is neither 0 nor a board host
    A8,
}

/// Every fault, in the order in which they are tested.
pub const LIST_FAULTS: [ListFault; 8] = [
    ListFault::A1,
    ListFault::A2,
    ListFault::A3,
    ListFault::A4,
    ListFault::A5,
    ListFault::A6,
    ListFault::A7,
    ListFault::A8,
];

/// What a host is to a processor. The numbers are those of the static library.
#[derive(Clone, Copy, Debug, PartialEq, Eq)]
pub enum Role {
    /// not permitted
    None = 0,
    /// also where a secondary place names the host as well
    RecoveryMaster = 1,
    Secondary0 = 2,
    Secondary1 = 3,
    Secondary2 = 4,
    /// permitted because the processor has no entry
    OpenProcessor = 5,
}

/// Every role, in the order of the numbers.
pub const ROLES: [Role; 6] = [
    Role::None,
    Role::RecoveryMaster,
    Role::Secondary0,
    Role::Secondary1,
    Role::Secondary2,
    Role::OpenProcessor,
];

/// The role that each place of an entry gives.
const PLACE_ROLES: [Role; ENTRY_WORDS] =
    [Role::RecoveryMaster, Role::Secondary0, Role::Secondary1, Role::Secondary2];

impl Role {
    /// The number that the static library gives it.
    pub fn number(self) -> u32 {
        self as u32
    }
}

/// Takes the list, or says the first fault. All of the memory is rewritten by an accepted list and
/// none of it by a refused one.
pub fn accept_list(board: &Board, access: &mut AccessMemory, list: &[u8]) -> Result<(), ListFault> {
    if has_list(access) {
        return Err(ListFault::A1);
    }
    *access = read_list(board, list)?;
    Ok(())
}

/// Whether a list was accepted, lone or in a block.
pub fn has_list(access: &AccessMemory) -> bool {
    access[0] != 0
}

/// The memory that the list leaves, or its first fault of A2 to A8.
pub fn read_list(board: &Board, list: &[u8]) -> Result<AccessMemory, ListFault> {
    if list.len() != LIST_BYTES {
        return Err(ListFault::A2);
    }
    if u16_at(list, 0) != LIST_MAGIC {
        return Err(ListFault::A3);
    }
    if usize::from(u16_at(list, 2)) != LIST_BYTES {
        return Err(ListFault::A4);
    }
    let mut access = [0; ACCESS_WORDS];
    access[0] = ACCEPTED;
    let entries: Vec<_> = list[LIST_HEADER_BYTES..].chunks_exact(ENTRY_BYTES).collect();
    // Processor 0 marks an unused entry, whatever follows it.
    for place in (0..entries.len()).filter(|&place| entries[place][0] != 0) {
        let (row, words) = read_entry(board, entries[place], &entries[..place])?;
        row_words_mut(&mut access, row).copy_from_slice(&words);
    }
    Ok(access)
}

/// Row, master and secondaries of a used entry, or its first fault of A5 to A8. A repeat is one of
/// the processor's number, also on a board where two numbers have one row.
fn read_entry(
    board: &Board,
    entry: &[u8],
    earlier: &[&[u8]],
) -> Result<(usize, [u16; ENTRY_WORDS]), ListFault> {
    let row = board.row_of(entry[0]).ok_or(ListFault::A5)?;
    let words = [1, 3, 5, 7].map(|at| u16_at(entry, at));
    if earlier.iter().any(|other| other[0] == entry[0]) {
        return Err(ListFault::A6);
    }
    if !board.can_send(words[0]) {
        return Err(ListFault::A7);
    }
    // Host 0 is on the board, so this admits an unused secondary as well.
    if !words[1..].iter().all(|&secondary| board.has_host(secondary)) {
        return Err(ListFault::A8);
    }
    Ok((row, words))
}

/// The role of `host` for the processor in `row`: that of the first place which names the host. An
/// unused place names nobody.
pub fn role_of(board: &Board, access: &AccessMemory, row: usize, host: u16) -> Role {
    if !has_entry(access, row) {
        return if board.can_send(host) { Role::OpenProcessor } else { Role::None };
    }
    let names = |&word: &u16| word == host && word != NO_HOST;
    let place = row_words(access, row).iter().position(names);
    place.map_or(Role::None, |place| PLACE_ROLES[place])
}

/// Whether `host` is permitted for the processor in `row`, in any role.
pub fn is_permitted(board: &Board, access: &AccessMemory, row: usize, host: u16) -> bool {
    role_of(board, access, row, host) != Role::None
}

/// Whether `host` is the recovery master of the processor in `row`. Without an entry there is none.
pub fn is_recovery_master(board: &Board, access: &AccessMemory, row: usize, host: u16) -> bool {
    role_of(board, access, row, host) == Role::RecoveryMaster
}

/// Whether the row has a master, which every used entry has.
pub fn has_entry(access: &AccessMemory, row: usize) -> bool {
    row_words(access, row)[0] != NO_HOST
}

/// Master and secondaries of a row.
pub fn row_words(access: &AccessMemory, row: usize) -> &[u16] {
    &access[1 + ENTRY_WORDS * row..][..ENTRY_WORDS]
}

/// Master and secondaries of a row, to be changed.
pub fn row_words_mut(access: &mut AccessMemory, row: usize) -> &mut [u16] {
    &mut access[1 + ENTRY_WORDS * row..][..ENTRY_WORDS]
}

#[cfg(test)]
mod tests;
