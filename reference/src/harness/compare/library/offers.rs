//! Compares start, board, list and block calls over memories of any content.

use crate::access::{accept_list, AccessMemory, ListFault};
use crate::block::{accept_block, BlockFault, HIERARCHY_AT, LIST_AT};
use crate::board::Board;
use crate::description::{take_board, BoardFault};
use crate::harness::compare::calls::same;
use crate::harness::compare::guards::{between_guards, guarded, lent_part};
use crate::harness::compare::library::hex;
use crate::harness::compare::library::lent::Lent;
use crate::harness::coverage::Coverage;
use crate::harness::edges::block_recordings::edge_calls;
use crate::harness::edges::boards::edge_descriptions;
use crate::harness::generate::blocks::{any_block_call, BlockCall};
use crate::harness::generate::descriptions::any_description;
use crate::harness::generate::lists::any_list;
use crate::harness::generate::memories::{any_access_before, any_board};
use crate::harness::generate::random::Random;
use crate::harness::situations::{Listed, Offered};
use crate::static_library::{self, RawVerdict};

const LONGEST_LIST: usize = 600;
const LONGEST_BOARD: usize = 700;

/// Compares this many start calls, over memory of any content.
pub fn compare_starts(seed: u64, calls: u64) -> Result<(), String> {
    for number in 0..calls {
        let mut random = Random::new(seed ^ 0x5374_6172, number);
        let mut lent = guarded(&any_board(&mut random).board.0, 0x5A);
        static_library::start(lent_part(&mut lent));
        same("board memory", &guarded(&Board::first().0, 0x5A), &lent)
            .map_err(|text| format!("start call {number}: {text}"))?;
    }
    Ok(())
}

/// Compares the board calls that are always the same, before a list, and then this many others.
pub fn compare_boards(seed: u64, calls: u64, coverage: &mut Coverage) -> Result<(), String> {
    let edges = edge_descriptions();
    let edge_count = edges.len();
    let random = (0..calls).map(|number| {
        any_description(&mut Random::new(seed ^ 0x426F_6172, number), 8, LONGEST_BOARD)
    });
    for (number, description) in edges.into_iter().chain(random).enumerate() {
        let mut random = Random::new(seed ^ 0x4472_6177, number as u64);
        let board = any_board(&mut random).board;
        let mut access = any_access_before(&mut random);
        if number < edge_count {
            access[0] = 0;
        }
        let verdict = compare_board(&board, &access, &description).map_err(|text| {
            let (board, description) = (hex(&board.0), hex(&description));
            let told = format!(" board {board}\n access {access:?}\n description {description}");
            format!("board call {number}: {text}\n{told}")
        })?;
        coverage.count_board(&description, verdict);
    }
    Ok(())
}

fn compare_board(
    board: &Board,
    access: &AccessMemory,
    description: &[u8],
) -> Result<Result<(), BoardFault>, String> {
    let mut expected = *board;
    let verdict = take_board(&mut expected, access, description);
    let number = verdict.map_or_else(|fault| fault as u32, |()| 0);
    let (mut lent, mut description) = (Lent::new(board, access), guarded(description, 0xC3));
    let (lent_board, lent_access) = lent.parts();
    let given = static_library::board(lent_board, lent_access, between_guards(&mut description));
    same("verdict", &number, &given)?;
    lent.compare(&expected, access)?;
    Ok(verdict)
}

/// Compares this many list calls.
pub fn compare_lists(seed: u64, calls: u64, coverage: &mut Coverage) -> Result<(), String> {
    for number in 0..calls {
        let mut random = Random::new(seed ^ 0x4C69_7374, number);
        let board = any_board(&mut random).board;
        let list = any_list(&mut random, &board, LONGEST_LIST);
        let access = any_access_before(&mut random);
        let verdict = compare_list(&board, &access, &list).map_err(|text| {
            let (board, list) = (hex(&board.0), hex(&list));
            let told = format!(" board {board}\n access {access:?}\n list {list}");
            format!("list call {number}: {text}\n{told}")
        })?;
        coverage.count_list(&Listed { board: &board, list: &list, verdict });
    }
    Ok(())
}

fn compare_list(
    board: &Board,
    access: &AccessMemory,
    list: &[u8],
) -> Result<Result<(), ListFault>, String> {
    let mut expected = *access;
    let verdict = accept_list(board, &mut expected, list);
    let number = verdict.map_or_else(|fault| fault as u32, |()| 0);
    let (mut lent, mut list) = (Lent::new(board, access), guarded(list, 0xC3));
    let (lent_board, lent_access) = lent.parts();
    let given = static_library::list(lent_board, lent_access, between_guards(&mut list));
    same("verdict", &number, &given)?;
    lent.compare(board, &expected)?;
    Ok(verdict)
}

/// Compares the block calls that are always the same, and then this many others.
pub fn compare_blocks(seed: u64, calls: u64, coverage: &mut Coverage) -> Result<(), String> {
    let random =
        (0..calls).map(|number| any_block_call(&mut Random::new(seed ^ 0x426C_6F63, number)));
    for (number, call) in edge_calls().into_iter().chain(random).enumerate() {
        let verdict = compare_block(&call).map_err(|text| {
            let BlockCall { board, access, abi, block } = &call;
            let (board, block) = (hex(&board.0), hex(block));
            let told = format!(" board {board}\n access {access:?}\n ABI {abi:?}\n block {block}");
            format!("block call {number}: {text}\n{told}")
        })?;
        let BlockCall { board, abi, block, .. } = &call;
        coverage.count_block(&Offered { board, abi: *abi, block, verdict });
    }
    Ok(())
}

/// Makes the call both ways. Where the block is accepted, the list call with its list has to leave
/// the same memory.
fn compare_block(call: &BlockCall) -> Result<Result<(), BlockFault>, String> {
    let BlockCall { board, access, abi, block } = call;
    let mut expected = *access;
    let verdict = accept_block(board, &mut expected, *abi, block);
    let (mut lent, mut lent_block) = (Lent::new(board, access), guarded(block, 0xC3));
    let (lent_board, lent_access) = lent.parts();
    let given =
        static_library::block(lent_board, lent_access, *abi, between_guards(&mut lent_block));
    same("verdict", &raw_verdict(verdict), &given)?;
    lent.compare(board, &expected)?;
    if verdict.is_ok() {
        let mut by_list = *access;
        static_library::list(&board.0, &mut by_list, &block[LIST_AT..HIERARCHY_AT]);
        same("access memory of the lone list", &expected, &by_list)?;
    }
    Ok(verdict)
}

/// The verdict by the library's numbers.
fn raw_verdict(verdict: Result<(), BlockFault>) -> RawVerdict {
    match verdict {
        Ok(()) => RawVerdict { number: 0, loop_host: 0 },
        Err(fault) => {
            RawVerdict { number: fault.number(), loop_host: u32::from(fault.loop_host()) }
        }
    }
}
