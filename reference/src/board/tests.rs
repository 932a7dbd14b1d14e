//! What the board memory says, that of the first board and odd ones.

use super::*;

fn armv8(number: u8, cluster: u8) -> Processor {
    Processor { number, class: Class::Armv8, cluster }
}

#[test]
fn first_board_as_bytes() {
    let Board(memory) = Board::first();
    assert_eq!(memory.len(), 576);
    let hosts: Vec<_> = (0..256).filter(|&n| memory[n] != 0).map(|n| (n, memory[n])).collect();
    assert_eq!(hosts, [(3, 2), (4, 1), (5, 1), (6, 1), (10, 2), (12, 1), (13, 1)]);
    let places: Vec<_> = (0..256).filter(|&n| memory[256 + n] != 32).collect();
    assert_eq!(places, [1, 2, 32, 33]);
    assert_eq!([1, 2, 32, 33].map(|n| memory[256 + n]), [0, 1, 2, 3]);
    assert_eq!(memory[512..516], [0, 0, 1, 1]);
    assert!(memory[516..544].iter().all(|&class| class == 0));
    assert_eq!(memory[544..548], [0, 1, 2, 2]);
    assert!((4..32).all(|row| memory[544 + row] == row as u8));
}

#[test]
fn application_cores_share_a_control_word() {
    let board = Board::first();
    assert_eq!([0, 1, 2, 3].map(|row| board.home_at(row)), [0, 1, 2, 2]);
    let shared = [1, 2, 32, 33].map(|number| board.sharers(number));
    assert_eq!(shared, [vec![], vec![], vec![33], vec![32]]);
}

#[test]
fn hosts_are_sixteen_bits_wide() {
    let board = Board::first();
    assert!(board.has_host(10) && board.can_send(10) && board.is_secure(10));
    assert!(!board.has_host(266) && !board.has_host(259) && !board.is_secure(266));
    assert!(board.has_host(0) && !board.can_send(0) && !board.is_secure(0));
    assert_eq!((0..=u16::MAX).filter(|&h| board.can_send(h)).count(), 7);
    assert_eq!(board.senders(), [3, 4, 5, 6, 10, 12, 13]);
}

#[test]
fn clusters_of_any_size_and_order() {
    let processors = [armv8(9, 0), armv8(8, 7), armv8(7, 2), armv8(6, 7), armv8(5, 0), armv8(4, 7)];
    let board = Board::new(&[], &processors);
    assert_eq!([0, 1, 2, 3, 4, 5, 6].map(|row| board.home_at(row)), [0, 1, 2, 1, 4, 1, 6]);
    assert_eq!(board.sharers(6), [4, 8]);
    assert_eq!(board.sharers(7), [0; 0]);
}

#[test]
fn r5_clusters_share_nothing() {
    let r5 = |number| Processor { number, class: Class::R5, cluster: 1 };
    let board = Board::new(&[], &[r5(1), r5(2), r5(3)]);
    assert_eq!([0, 1, 2].map(|row| board.home_at(row)), [0, 1, 2]);
}

#[test]
fn odd_memory_is_a_board() {
    let board = Board([0xFF; BOARD_BYTES]);
    assert!(board.can_send(255) && !board.is_secure(255) && !board.can_send(256));
    assert_eq!(board.processors(), [0; 0]);
    assert_eq!((board.class_at(31), board.home_at(31)), (Class::Armv8, 31));
    let board = Board([34; BOARD_BYTES]);
    assert_eq!((board.class_at(0), board.home_at(0)), (Class::R5, 2));
    let board = Board([0; BOARD_BYTES]);
    assert!(board.has_host(0) && !board.can_send(1));
    assert_eq!(board.processors().len(), 256);
}

#[test]
fn masks_by_class_and_word() {
    assert_eq!(flag_mask(Class::R5, Word::Config), 0xFF03);
    assert_eq!(flag_mask(Class::R5, Word::Control), 0x3);
    assert_eq!(flag_mask(Class::Armv8, Word::Config), 0x10F);
    assert_eq!(flag_mask(Class::Armv8, Word::Control), 0x103);
}
