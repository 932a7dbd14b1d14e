//! Makes access lists: good ones, and ones with one or several faults.

use crate::access::{
    ListFault, ENTRY_BYTES, LIST_BYTES, LIST_FAULTS, LIST_HEADER_BYTES, LIST_MAGIC,
};
use crate::board::{Board, NO_HOST};
use crate::harness::generate::random::Random;

const SLOTS: usize = (LIST_BYTES - LIST_HEADER_BYTES) / ENTRY_BYTES;

/// Numbers that are seldom a board host, among them hosts with a bit in the high byte.
const ODD_HOSTS: [u16; 12] = [1, 2, 7, 14, 255, 256, 259, 266, 268, 0x0300, 0x0A00, 0xFF03];

/// Lengths worth trying besides random ones; 164 is the older form of the list.
const ODD_LENGTHS: [usize; 9] = [0, 1, 3, 4, 13, 164, 291, 293, 512];

/// A good list, one with a fault, or noise.
pub fn any_list(random: &mut Random, board: &Board, longest: usize) -> Vec<u8> {
    match random.below(8) {
        0 => random.noise(longest),
        1 => good_list(random, board),
        _ => {
            let fault = random.pick(&LIST_FAULTS);
            faulty_list(random, board, fault, longest)
        }
    }
}

/// A list that the board takes: entries for some of the processors or for all, anywhere in the
/// list, and sometimes odd bytes in the unused entries.
pub fn good_list(random: &mut Random, board: &Board) -> Vec<u8> {
    let mut list = empty_list(random);
    let first = random.below(SLOTS);
    // A step that shares no factor with the number of slots visits each of them once.
    let step = 2 * random.below(SLOTS / 2) + 1;
    let senders = board.senders();
    let all = random.one_in(4);
    for (place, processor) in listed(random, board).into_iter().enumerate() {
        if !senders.is_empty() && (all || !random.one_in(4)) {
            let slot = (first + place * step) % SLOTS;
            let entry = good_entry(random, &senders, processor);
            put(&mut list, slot, &entry);
        }
    }
    list
}

/// As many processors as fit in a list, from a random one on. Processor 0, which an odd board may
/// have, cannot be listed.
fn listed(random: &mut Random, board: &Board) -> Vec<u8> {
    let mut processors = board.processors();
    processors.retain(|&number| number != 0);
    let count = processors.len();
    if count > 0 {
        processors.rotate_left(random.below(count));
    }
    processors.truncate(SLOTS);
    processors
}

/// A list with these entries from the first slot on, and zeros behind them.
pub fn list_of(entries: &[[u8; ENTRY_BYTES]]) -> Vec<u8> {
    let mut list = list_header();
    list.resize(LIST_BYTES, 0);
    for (slot, entry) in entries.iter().enumerate() {
        put(&mut list, slot, entry);
    }
    list
}

/// The nine bytes of an entry: processor, master, secondaries.
pub fn entry(processor: u8, hosts: [u16; 4]) -> [u8; ENTRY_BYTES] {
    let mut bytes = [processor; ENTRY_BYTES];
    for (place, host) in hosts.iter().enumerate() {
        bytes[1 + 2 * place..][..2].copy_from_slice(&host.to_le_bytes());
    }
    bytes
}

/// A list with the given fault, sometimes with others as well. A list cannot have A1 in itself, so
/// nothing is planted for that.
pub fn faulty_list(
    random: &mut Random,
    board: &Board,
    fault: ListFault,
    longest: usize,
) -> Vec<u8> {
    let mut list = good_list(random, board);
    for _ in 0..random.pick(&[0, 0, 0, 1, 2]) {
        let other = random.pick(&[ListFault::A5, ListFault::A6, ListFault::A7, ListFault::A8]);
        plant_in_entry(random, board, &mut list, other);
    }
    for (other, at) in [(ListFault::A3, 0), (ListFault::A4, 2)] {
        if fault == other || random.one_in(8) {
            flip_bit(random, &mut list, at);
        }
    }
    if fault >= ListFault::A5 {
        plant_in_entry(random, board, &mut list, fault);
    }
    if fault == ListFault::A2 {
        resize(random, &mut list, longest);
    }
    list
}

/// Puts one of the faults A5 to A8 into some entry, sometimes with later ones in the same entry.
fn plant_in_entry(random: &mut Random, board: &Board, list: &mut [u8], fault: ListFault) {
    let slot = random.pick_or(&[0, SLOTS - 1], |random| random.below(SLOTS));
    let senders = board.senders();
    let processor = one_of(random, &board.processors());
    let mut bytes = good_entry(random, &senders, processor);
    match fault {
        ListFault::A5 => bytes[0] = odd_processor(random, board),
        ListFault::A6 => {
            let other = good_entry(random, &senders, processor);
            put(list, random.below(SLOTS), &other);
        }
        _ => {}
    }
    if fault == ListFault::A7 || (fault < ListFault::A7 && random.one_in(3)) {
        let master = if random.one_in(4) { 0 } else { odd_host(random, board) };
        bytes[1..3].copy_from_slice(&master.to_le_bytes());
    }
    if fault == ListFault::A8 || random.one_in(3) {
        let at = random.pick(&[3, 5, 7]);
        bytes[at..at + 2].copy_from_slice(&odd_host(random, board).to_le_bytes());
    }
    put(list, slot, &bytes);
}

/// One of the numbers, or any where there is none to choose.
fn one_of<T: Copy + From<u8>>(random: &mut Random, numbers: &[T]) -> T {
    if numbers.is_empty() {
        T::from(random.u8())
    } else {
        random.pick(numbers)
    }
}

/// A number that no processor of the board has, nor an unused entry, as far as a try finds one.
fn odd_processor(random: &mut Random, board: &Board) -> u8 {
    let number = random.pick_or(&[1, 2, 3, 31, 32, 33, 34, 129, 255], Random::u8);
    if number == 0 || board.row_of(number).is_some() {
        3
    } else {
        number
    }
}

/// A number that no host of the board has, as far as a try finds one.
pub fn odd_host(random: &mut Random, board: &Board) -> u16 {
    let host = random.pick_or(&[3, 10, 13], Random::u16);
    if random.one_in(3) && !board.has_host(host) {
        host
    } else {
        random.pick(&ODD_HOSTS)
    }
}

/// An entry with hosts of the board. One in four secondaries is unused. One entry in three has two
/// hosts at most, so that a host stands in several places.
fn good_entry(random: &mut Random, senders: &[u16], processor: u8) -> [u8; ENTRY_BYTES] {
    let mut hosts = [0; 4].map(|_: u16| one_of(random, senders));
    if random.one_in(3) {
        let pair = [hosts[0], hosts[1]];
        hosts = hosts.map(|_| random.pick(&pair));
    }
    for secondary in &mut hosts[1..] {
        if random.one_in(4) {
            *secondary = NO_HOST;
        }
    }
    entry(processor, hosts)
}

fn list_header() -> Vec<u8> {
    let mut list = LIST_MAGIC.to_le_bytes().to_vec();
    list.extend((LIST_BYTES as u16).to_le_bytes());
    list
}

/// A list with no used entry; one in three has odd bytes behind the zero processors.
fn empty_list(random: &mut Random) -> Vec<u8> {
    let mut list = list_of(&[]);
    if random.one_in(3) {
        for slot in 0..SLOTS {
            let hosts = [random.u16(), random.u16(), random.u16(), random.u16()];
            put(&mut list, slot, &entry(0, hosts));
        }
    }
    list
}

/// Writes one entry of a list.
pub fn put(list: &mut [u8], slot: usize, entry: &[u8; ENTRY_BYTES]) {
    list[LIST_HEADER_BYTES + ENTRY_BYTES * slot..][..ENTRY_BYTES].copy_from_slice(entry);
}

fn resize(random: &mut Random, list: &mut Vec<u8>, longest: usize) {
    let length =
        if random.one_in(2) { random.pick(&ODD_LENGTHS) } else { random.between(0, longest) };
    list.resize(length, 0);
}

fn flip_bit(random: &mut Random, list: &mut [u8], at: usize) {
    list[at + random.below(2)] ^= 1 << random.below(8);
}

#[cfg(test)]
mod tests {
    use super::*;
    use crate::access::{accept_list, ACCESS_WORDS};
    use crate::harness::generate::memories::any_board;

    #[test]
    fn good_lists_are_accepted() {
        let mut random = Random::new(2, 0);
        for _ in 0..400 {
            let board = any_board(&mut random).board;
            let list = good_list(&mut random, &board);
            assert_eq!(accept_list(&board, &mut [0; ACCESS_WORDS], &list), Ok(()));
        }
    }

    #[test]
    fn faulty_lists_reach_each_fault() {
        let mut random = Random::new(3, 0);
        for fault in &LIST_FAULTS[1..] {
            let reached = (0..200).any(|_| {
                let list = faulty_list(&mut random, &Board::first(), *fault, 512);
                accept_list(&Board::first(), &mut [0; ACCESS_WORDS], &list) == Err(*fault)
            });
            assert!(reached, "{fault:?}");
        }
    }
}
