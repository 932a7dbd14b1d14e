//! Each fault of a description, their order, and what is left.

use super::*;
use crate::access::ACCESS_WORDS;

const NO_LIST: AccessMemory = [0; ACCESS_WORDS];

fn host(number: u8, mark: u8) -> Vec<u8> {
    Item::Host { number, mark }.to_bytes()
}

fn processor(number: u8, class: u8, cluster: u8) -> Vec<u8> {
    Item::Processor { number, class, cluster }.to_bytes()
}

/// The board of document 01, as a description.
fn first_description() -> Vec<u8> {
    let hosts = [(3, 1), (10, 1), (4, 0), (5, 0), (6, 0), (12, 0), (13, 0)];
    let mut bytes: Vec<u8> = hosts.iter().flat_map(|&(number, mark)| host(number, mark)).collect();
    for (number, class, cluster) in [(1, 0, 0), (2, 0, 0), (32, 1, 1), (33, 1, 1)] {
        bytes.extend(processor(number, class, cluster));
    }
    bytes
}

fn verdict(fields: &[Vec<u8>]) -> Result<(), BoardFault> {
    take_board(&mut Board::first(), &NO_LIST, &fields.concat())
}

fn hosts(count: u8) -> Vec<Vec<u8>> {
    (1..=count).map(|number| host(number, 0)).collect()
}

fn processors(count: u8) -> Vec<Vec<u8>> {
    (1..=count).map(|number| processor(number, 1, 1)).collect()
}

#[test]
fn first_board_is_one_description() {
    let mut board = Board([0xA5; 576]);
    assert_eq!(take_board(&mut board, &NO_LIST, &first_description()), Ok(()));
    assert_eq!(board, Board::first());
}

#[test]
fn refused_description_changes_nothing() {
    let before = Board([0xA5; 576]);
    for cut in 0..first_description().len() {
        let mut board = before;
        let verdict = take_board(&mut board, &NO_LIST, &first_description()[..cut]);
        let whole = (cut <= 35 && cut % 5 == 0) || (cut >= 35 && (cut - 35) % 6 == 0);
        assert_eq!(verdict, if whole { Ok(()) } else { Err(BoardFault::D1) }, "{cut}");
        assert_eq!(board == before, !whole, "{cut}");
    }
}

#[test]
fn empty_description_leaves_host_0_alone() {
    let mut board = Board::first();
    assert_eq!(take_board(&mut board, &NO_LIST, &[]), Ok(()));
    assert_eq!(board, Board::new(&[], &[]));
    assert!(board.has_host(0) && board.senders().is_empty() && board.processors().is_empty());
}

#[test]
fn any_nonzero_first_word_gives_a1() {
    for word in [1, 2, 0x100, 0x8000] {
        let mut access = NO_LIST;
        access[0] = word;
        let mut board = Board::first();
        assert_eq!(take_board(&mut board, &access, &[]), Err(BoardFault::A1));
        assert_eq!(take_board(&mut board, &access, &[9]), Err(BoardFault::A1));
        assert_eq!(board, Board::first());
    }
}

#[test]
fn fields_have_one_form() {
    let bad: [&[u8]; 11] = [
        &[0],
        &[3],
        &[1],
        &[1, 2],
        &[1, 2, 0, 3],
        &[1, 3, 0, 3, 1, 0],
        &[1, 1, 0, 3],
        &[1, 2, 1, 3, 1],
        &[2, 2, 0, 3, 1],
        &[2, 4, 0, 3, 1, 0, 0],
        &[2, 3, 0, 3, 1],
    ];
    for bytes in bad {
        assert_eq!(verdict(&[bytes.to_vec()]), Err(BoardFault::D1), "{bytes:?}");
    }
}

#[test]
fn item_faults_in_order() {
    assert_eq!(verdict(&[host(0, 2)]), Err(BoardFault::D2));
    assert_eq!(verdict(&[host(9, 1), host(9, 2)]), Err(BoardFault::D3));
    assert_eq!(verdict(&[host(9, 2)]), Err(BoardFault::D4));
    assert_eq!(verdict(&[processor(0, 2, 1)]), Err(BoardFault::D2));
    assert_eq!(verdict(&[processor(9, 0, 1), processor(9, 2, 1)]), Err(BoardFault::D3));
    assert_eq!(verdict(&[processor(9, 0, 1), processor(8, 2, 1)]), Err(BoardFault::D4));
    assert_eq!(verdict(&[processor(9, 0, 1), processor(8, 1, 1)]), Err(BoardFault::D5));
    assert_eq!(verdict(&[processor(9, 0, 0), processor(8, 1, 0)]), Ok(()));
}

#[test]
fn limits_come_last() {
    assert_eq!(verdict(&[hosts(64), processors(32)].concat()), Ok(()));
    assert_eq!(verdict(&hosts(65)), Err(BoardFault::D6));
    assert_eq!(verdict(&processors(33)), Err(BoardFault::D6));
    let one_more = |field: Vec<u8>| verdict(&[hosts(64), processors(32), vec![field]].concat());
    let of_hosts = [host(0, 0), host(64, 0), host(65, 2), host(65, 0)].map(one_more);
    use BoardFault::{D2, D3, D4, D5, D6};
    assert_eq!(of_hosts, [D2, D3, D4, D6].map(Err));
    let fields =
        [processor(0, 1, 1), processor(32, 1, 1), processor(33, 2, 1), processor(33, 0, 1)];
    assert_eq!(fields.map(one_more), [D2, D3, D4, D5].map(Err));
    assert_eq!(one_more(processor(33, 1, 1)), Err(D6));
}

#[test]
fn first_bad_item_decides() {
    let faults = [host(9, 1), host(8, 2), processor(0, 0, 0), vec![7]];
    assert_eq!(verdict(&faults), Err(BoardFault::D4));
    assert_eq!(verdict(&faults[2..]), Err(BoardFault::D2));
    assert_eq!(verdict(&[vec![7], host(0, 0)]), Err(BoardFault::D1));
}

#[test]
fn kinds_are_counted_apart() {
    assert_eq!(verdict(&[host(9, 0), processor(9, 0, 0)]), Ok(()));
    assert_eq!(verdict(&[processor(255, 1, 255), host(255, 1), host(1, 1)]), Ok(()));
}
