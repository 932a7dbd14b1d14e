//! Lent memories of any content.

use crate::access::{accept_list, row_words_mut, AccessMemory, ACCESS_WORDS};
use crate::board::{flag_mask, Board, Word, BOARD_BYTES, ROWS};
use crate::description::take_board;
use crate::harness::clusters::Clusters;
use crate::harness::generate::descriptions::{first_fields, good_fields};
use crate::harness::generate::lists::good_list;
use crate::harness::generate::random::Random;
use crate::record::{Record, RecordMemory, Tallies, RECORD_WORDS};

/// Where board memory has hosts, places, classes and homes, and where it ends.
const BOARD_PARTS: [usize; 5] = [0, 256, 512, 544, BOARD_BYTES];

/// Where board memory has the place of processor 0, which no description lists.
const PLACE_OF_0: usize = BOARD_PARTS[1];

/// Tallies worth trying besides small and random ones: those at the largest number and just below
/// it, and those where one more changes several bytes or the highest bit.
const ODD_TALLIES: [u32; 14] = [
    u32::MAX,
    u32::MAX,
    u32::MAX,
    u32::MAX - 1,
    u32::MAX - 1,
    0x7FFF_FFFF,
    0x8000_0000,
    0xFFFF_FF00,
    0xFF_FFFF,
    0x1_0000,
    0xFFFF,
    0xFFFF,
    0x100,
    0xFF,
];

/// A lent board, and the clusters that its description named.
pub struct LentBoard {
    pub board: Board,
    pub clusters: Clusters,
}

/// Board memory of any content: mere noise, or what a description leaves, often with some bytes
/// changed.
pub fn any_board(random: &mut Random) -> LentBoard {
    if random.one_in(6) {
        let mut board = Board(std::array::from_fn(|_| random.u8()));
        if random.one_in(3) {
            board.0[PLACE_OF_0] = random.below(ROWS) as u8;
        }
        return LentBoard { board, clusters: Clusters::default() };
    }
    let fields = if random.one_in(3) { first_fields() } else { good_fields(random) };
    let (mut board, description) = (Board::first(), fields.concat());
    take_board(&mut board, &[0; ACCESS_WORDS], &description).expect("a good board is taken");
    for _ in 0..random.pick(&[0, 0, 0, 1, 3, 9]) {
        let part = random.below(BOARD_PARTS.len() - 1);
        let place = random.between(BOARD_PARTS[part], BOARD_PARTS[part + 1] - 1);
        board.0[place] = random.pick_or(&[0, 1, 2, 31, 32, 255], Random::u8);
    }
    LentBoard { board, clusters: Clusters::of(&description) }
}

/// Memory of any content, mostly with the word that says that no list was accepted.
pub fn any_access_before(random: &mut Random) -> AccessMemory {
    let mut access = std::array::from_fn(|_| random.u16());
    access[0] = random.pick_or(&[0, 0, 0, 0, 0, 0, 1, 0x100], Random::u16);
    access
}

/// Access memory of any content: mere noise, or what a list leaves with some words changed.
pub fn any_access(random: &mut Random, board: &Board) -> AccessMemory {
    if random.one_in(6) {
        return std::array::from_fn(|_| random.u16());
    }
    let mut access = [0; ACCESS_WORDS];
    accept_list(board, &mut access, &good_list(random, board)).expect("a good list is accepted");
    let hosts = hosts_and_none(board);
    for _ in 0..random.pick(&[0, 0, 1, 3, 6]) {
        let word = random.below(ACCESS_WORDS);
        let near = access[word] ^ 0x100;
        let host = random.pick(&hosts);
        access[word] = random.pick_or(&[0, 7, near, host], Random::u16);
    }
    for _ in 0..random.pick(&[0, 1, 2, 4]) {
        blur_entry(random, board, &mut access);
    }
    if random.one_in(8) {
        access[0] = 0;
    }
    access
}

/// Changes a word of some processor's row: to one that has a byte in common with a host of the row
/// or with no host, or to 0.
fn blur_entry(random: &mut Random, board: &Board, access: &mut AccessMemory) {
    let rows = processor_rows(board);
    if rows.is_empty() {
        return;
    }
    let words = row_words_mut(access, random.pick(&rows));
    let word = random.pick(words);
    let high = (random.between(1, 255) as u16) << 8;
    words[random.below(words.len())] = random.pick(&[word | high, word | high, word << 8, high, 0]);
}

/// Record memory of any content: mere noise, or plausible records with some words changed.
pub fn any_records(random: &mut Random, board: &Board) -> RecordMemory {
    if random.one_in(6) {
        return std::array::from_fn(|_| random.u32());
    }
    // What no record uses keeps what is here: half of the time noise.
    let mut records = [0; RECORD_WORDS];
    if random.one_in(2) {
        records.fill_with(|| random.u32());
    }
    let hosts = hosts_and_none(board);
    for row in 0..ROWS {
        let class = board.class_at(row);
        let record = Record {
            controller: u32::from(random.pick(&hosts)),
            vector_low: random.u32(),
            vector_high: random.u32(),
            config: random.u32() & flag_mask(class, Word::Config),
            tallies: any_tallies(random),
            control: random.u32() & flag_mask(class, Word::Control),
        };
        record.store(board, &mut records, row);
    }
    for _ in 0..random.pick(&[0, 0, 1, 3]) {
        let word = random.below(RECORD_WORDS);
        let near = records[word] ^ random.pick(&[0x100, 0x1_0000, 0x1000_0000, 0x8000_0000]);
        records[word] = random.pick_or(&[0, near, near], Random::u32);
    }
    for _ in 0..random.pick(&[0, 0, 1, 4]) {
        blur_controller(random, board, &mut records);
    }
    records
}

/// Tallies that calls may have left, or not: each has a number of its own.
fn any_tallies(random: &mut Random) -> Tallies {
    Tallies::from_words([(); 4].map(|()| any_tally(random)))
}

fn any_tally(random: &mut Random) -> u32 {
    match random.below(8) {
        0 | 1 => 0,
        2 | 3 => random.below(10) as u32,
        4 => random.u32(),
        _ => random.pick(&ODD_TALLIES),
    }
}

/// Gives some processor a controller word that is no byte and has a host's number as its low byte.
fn blur_controller(random: &mut Random, board: &Board, records: &mut RecordMemory) {
    let rows = processor_rows(board);
    if rows.is_empty() {
        return;
    }
    let row = random.pick(&rows);
    let mut record = Record::load(board, records, row);
    let high = random.pick(&[0x100, 0x100, 0x1_0000, 0x8000_0000]);
    record.controller = u32::from(random.pick(&hosts_and_none(board))) | high;
    record.store(board, records, row);
}

/// The rows that processors have, by rising number of these.
fn processor_rows(board: &Board) -> Vec<usize> {
    board.processors().iter().filter_map(|&number| board.row_of(number)).collect()
}

/// The hosts of the board, with one place in eight for no host.
fn hosts_and_none(board: &Board) -> Vec<u16> {
    let mut hosts = board.senders();
    hosts.resize(hosts.len() + hosts.len() / 7 + 1, 0);
    hosts
}
