//! Situations of blocks that a run has to meet: header fields and ABI bytes, what is not judged,
//! and what only calls to the static library can have.

use crate::block::{
    Abi, BlockFault, BLOCK_BYTES, HIERARCHY_AT, HIERARCHY_BYTES, HIERARCHY_MAGIC, LIST_AT, OTP_AT,
    OTP_BYTES, OTP_MAGIC, PART_HEADER_BYTES,
};
use crate::board::{Board, ROWS};
use crate::bytes::u16_at;
use crate::harness::situations::boards::used_entries;
use crate::harness::situations::Named;
use crate::session::{LONGEST_BLOCK, RECORDED_ABI};
use BlockFault::{B1, B10, B2, B3, B4, B9};

/// A block that was offered, under which board and ABI bytes, and what it came to.
pub struct Offered<'a> {
    pub board: &'a Board,
    pub abi: Abi,
    pub block: &'a [u8],
    pub verdict: Result<(), BlockFault>,
}

impl Offered<'_> {
    pub(super) fn ok(&self) -> bool {
        self.verdict.is_ok()
    }

    pub(super) fn refused(&self, fault: BlockFault) -> bool {
        self.verdict == Err(fault)
    }

    /// The bytes from one place to another, as far as the block has them.
    pub(super) fn bytes(&self, from: usize, to: usize) -> &[u8] {
        let end = to.min(self.block.len());
        self.block.get(from..end).unwrap_or_default()
    }

    /// The used entries of the list that are there.
    pub fn list_entries(&self) -> Vec<&[u8]> {
        used_entries(self.bytes(LIST_AT, HIERARCHY_AT))
    }

    /// Whether the board lacks this host.
    pub fn is_absent(&self, host: u8) -> bool {
        !self.board.has_host(u16::from(host))
    }

    /// Whether one byte of the number is wrong and the other right, and this is refused for it.
    fn refused_for_byte(&self, fault: BlockFault, at: usize, number: u16, low: bool) -> bool {
        let right = number.to_le_bytes();
        let is_wrong = |byte: usize| self.block[at + byte] != right[byte];
        self.refused(fault) && is_wrong(0) == low && is_wrong(1) != low
    }

    /// Whether this is refused for its ABI bytes, which are these.
    fn refused_abi(&self, test: impl Fn(Abi) -> bool) -> bool {
        self.refused(B2) && test([self.block[0], self.block[1]])
    }

    /// Whether the hierarchy and the OTP part have each the other's number, and this is refused.
    fn swapped(&self, fault: BlockFault, at: usize, numbers: [u16; 2]) -> bool {
        let given = || [HIERARCHY_AT, OTP_AT].map(|part| u16_at(self.block, part + at));
        self.refused(fault) && given() == [numbers[1], numbers[0]]
    }

    /// Whether this is taken with OTP bytes that pass the test.
    fn otp(&self, test: impl Fn(&[u8]) -> bool) -> bool {
        self.ok() && test(self.bytes(OTP_AT + PART_HEADER_BYTES, BLOCK_BYTES))
    }
}

const HIERARCHY_SIZE: u16 = HIERARCHY_BYTES as u16;
const OTP_SIZE: u16 = OTP_BYTES as u16;

/// A block's parts.
pub const PARTS: Named<fn(&Offered) -> bool> = &[
    ("block of an empty list and nothing else", |o| {
        o.ok() && o.list_entries().is_empty() && o.links().is_empty()
    }),
    ("block with an entry for each of 32 processors", |o| o.ok() && o.list_entries().len() == ROWS),
    ("block on a board of nothing", |o| o.ok() && o.board.senders().is_empty()),
    ("first ABI byte alone wrong", |o| {
        o.refused_abi(|abi| abi[0] != o.abi[0] && abi[1] == o.abi[1])
    }),
    ("second ABI byte alone wrong", |o| {
        o.refused_abi(|abi| abi[0] == o.abi[0] && abi[1] != o.abi[1])
    }),
    ("ABI bytes swapped", |o| o.refused_abi(|abi| abi == [o.abi[1], o.abi[0]])),
    ("B3 for the low byte", |o| o.refused_for_byte(B3, HIERARCHY_AT, HIERARCHY_MAGIC, true)),
    ("B3 for the high byte", |o| o.refused_for_byte(B3, HIERARCHY_AT, HIERARCHY_MAGIC, false)),
    ("B4 for the low byte", |o| o.refused_for_byte(B4, HIERARCHY_AT + 2, HIERARCHY_SIZE, true)),
    ("B4 for the high byte", |o| o.refused_for_byte(B4, HIERARCHY_AT + 2, HIERARCHY_SIZE, false)),
    ("B9 for the low byte", |o| o.refused_for_byte(B9, OTP_AT, OTP_MAGIC, true)),
    ("B9 for the high byte", |o| o.refused_for_byte(B9, OTP_AT, OTP_MAGIC, false)),
    ("B10 for the low byte", |o| o.refused_for_byte(B10, OTP_AT + 2, OTP_SIZE, true)),
    ("B10 for the high byte", |o| o.refused_for_byte(B10, OTP_AT + 2, OTP_SIZE, false)),
    ("magics of hierarchy and OTP part swapped", |o| {
        o.swapped(B3, 0, [HIERARCHY_MAGIC, OTP_MAGIC])
    }),
    ("sizes of hierarchy and OTP part swapped", |o| o.swapped(B4, 2, [HIERARCHY_SIZE, OTP_SIZE])),
    ("OTP bytes of zeros", |o| o.otp(|bytes| bytes.iter().all(|&byte| byte == 0))),
    ("OTP bytes without a zero", |o| o.otp(|bytes| !bytes.contains(&0))),
    ("OTP row of a host not on the board", |o| o.otp(|bytes| o.is_absent(bytes[0]))),
    ("OTP write host not on the board", |o| {
        o.otp(|bytes| bytes.last().is_some_and(|&host| o.is_absent(host)))
    }),
];

/// What only calls to the static library can have.
pub const CALLED: Named<fn(&Offered) -> bool> = &[
    ("block with other ABI bytes than a recording's", |o| o.ok() && o.abi != RECORDED_ABI),
    ("block with two ABI bytes alike", |o| o.ok() && o.abi[0] == o.abi[1]),
    ("block with a recording's ABI bytes, others named", |o| {
        o.refused_abi(|abi| abi == RECORDED_ABI)
    }),
    ("block too long for a recording", |o| o.refused(B1) && o.block.len() > LONGEST_BLOCK),
    ("block whose length is 431 in the lowest 16 bits", |o| {
        o.refused(B1) && o.block.len() % 0x1_0000 == BLOCK_BYTES
    }),
    ("hierarchy with a host byte above 2", |o| {
        o.has_link(|link, _, _| o.board.0[usize::from(link.host)] > 2)
    }),
];
