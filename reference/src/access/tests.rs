//! Each list fault, their order, and the role of each host.

use super::*;

const ONE: [u8; 9] = [1, 3, 0, 5, 0, 0, 0, 0, 0];
const TWO: [u8; 9] = [2, 3, 0, 6, 0, 10, 0, 0, 0];

fn list_of(entries: &[(usize, [u8; 9])]) -> Vec<u8> {
    let mut list = vec![0; 292];
    list[..4].copy_from_slice(&[0xEA, 0xF1, 0x24, 0x01]);
    for (slot, entry) in entries {
        list[4 + 9 * slot..][..9].copy_from_slice(entry);
    }
    list
}

fn accept(access: &mut AccessMemory, list: &[u8]) -> Result<(), ListFault> {
    accept_list(&Board::first(), access, list)
}

fn verdict(list: &[u8]) -> Result<(), ListFault> {
    accept(&mut [0; ACCESS_WORDS], list)
}

fn verdict_of(entries: &[(usize, [u8; 9])]) -> Result<(), ListFault> {
    verdict(&list_of(entries))
}

#[test]
fn accepted_list_rewrites_every_word() {
    let mut access = [0x5A5A; ACCESS_WORDS];
    access[0] = 0;
    assert_eq!(accept(&mut access, &list_of(&[(0, ONE), (31, TWO)])), Ok(()));
    assert_eq!(access[..9], [1, 3, 5, 0, 0, 3, 6, 10, 0]);
    assert_eq!(access[9..], [0; 120]);
}

#[test]
fn refused_list_changes_nothing() {
    let mut access = [7; ACCESS_WORDS];
    access[0] = 0;
    let before = access;
    let bad = [2, 3, 0, 7, 0, 0, 0, 0, 0];
    assert_eq!(accept(&mut access, &list_of(&[(0, ONE), (1, bad)])), Err(ListFault::A8));
    assert_eq!(access, before);
}

#[test]
fn any_nonzero_first_word_gives_a1() {
    for word in [1, 2, 0x100, 0x8000] {
        let mut access = [0; ACCESS_WORDS];
        access[0] = word;
        assert_eq!(accept(&mut access, &list_of(&[])), Err(ListFault::A1));
        assert_eq!(accept(&mut access, &[]), Err(ListFault::A1));
    }
}

#[test]
fn frame_faults_in_order() {
    let good = list_of(&[(0, ONE)]);
    assert_eq!(verdict(&good), Ok(()));
    assert_eq!(verdict(&good[..291]), Err(ListFault::A2));
    assert_eq!(verdict(&[]), Err(ListFault::A2));
    let mut list = good.clone();
    list[3] = 2;
    assert_eq!(verdict(&list), Err(ListFault::A4));
    list[0] = 0xEB;
    assert_eq!(verdict(&list), Err(ListFault::A3));
    list.push(0);
    assert_eq!(verdict(&list), Err(ListFault::A2));
}

#[test]
fn entry_faults_in_order() {
    assert_eq!(verdict_of(&[(0, [3, 7, 0, 7, 0, 0, 0, 0, 0])]), Err(ListFault::A5));
    assert_eq!(verdict_of(&[(0, ONE), (9, [1, 7, 0, 7, 0, 0, 0, 0, 0])]), Err(ListFault::A6));
    assert_eq!(verdict_of(&[(0, [1, 7, 0, 7, 0, 0, 0, 0, 0])]), Err(ListFault::A7));
    assert_eq!(verdict_of(&[(0, [1, 0, 0, 3, 0, 0, 0, 0, 0])]), Err(ListFault::A7));
    assert_eq!(verdict_of(&[(0, [1, 0x0A, 1, 3, 0, 0, 0, 0, 0])]), Err(ListFault::A7));
    for at in [3, 5, 7] {
        let mut entry = TWO;
        entry[at..at + 2].copy_from_slice(&[3, 1]);
        assert_eq!(verdict_of(&[(31, entry)]), Err(ListFault::A8));
    }
}

#[test]
fn first_bad_entry_decides() {
    let no_processor = [9, 3, 0, 0, 0, 0, 0, 0, 0];
    let bad_secondary = [2, 3, 0, 0, 0, 0, 0, 1, 0];
    let faults = [(0, ONE), (4, bad_secondary), (5, no_processor), (6, ONE)];
    assert_eq!(verdict_of(&faults), Err(ListFault::A8));
    assert_eq!(verdict_of(&faults[2..]), Err(ListFault::A5));
}

#[test]
fn unused_entries_are_not_looked_at() {
    let odd = [0, 7, 7, 7, 7, 7, 7, 7, 7];
    assert_eq!(verdict_of(&[(0, odd), (1, ONE), (2, odd)]), Ok(()));
}

#[test]
fn permission_with_and_without_entry() {
    let mut access = [0; ACCESS_WORDS];
    accept(&mut access, &list_of(&[(0, ONE)])).unwrap();
    let board = Board::first();
    let permitted = |row| (0..300).filter(|&h| is_permitted(&board, &access, row, h)).collect();
    let with_entry: Vec<u16> = permitted(0);
    let open: Vec<u16> = permitted(3);
    assert_eq!(with_entry, [3, 5]);
    assert_eq!(open, [3, 4, 5, 6, 10, 12, 13]);
    let masters = |row| (0..300).filter(|&h| is_recovery_master(&board, &access, row, h)).collect();
    let (with_entry, open): (Vec<u16>, Vec<u16>) = (masters(0), masters(3));
    assert_eq!((with_entry, open), (vec![3], vec![]));
}

/// The hosts below 300 that have a role in a row with these words, on the first board.
fn roles_in(words: [u16; 4]) -> Vec<(u16, Role)> {
    let mut access = [0; ACCESS_WORDS];
    row_words_mut(&mut access, 2).copy_from_slice(&words);
    let role = |host| (host, role_of(&Board::first(), &access, 2, host));
    (0..300).map(role).filter(|(_, role)| *role != Role::None).collect()
}

#[test]
fn role_numbers() {
    assert_eq!(ROLES.map(Role::number), [0, 1, 2, 3, 4, 5]);
    assert_eq!(PLACE_ROLES.map(Role::number), [1, 2, 3, 4]);
}

#[test]
fn each_place_gives_its_role() {
    use Role::*;
    let all = [(3, RecoveryMaster), (4, Secondary0), (5, Secondary1), (6, Secondary2)];
    assert_eq!(roles_in([3, 4, 5, 6]), all);
    let open = [3, 4, 5, 6, 10, 12, 13].map(|host| (host, OpenProcessor));
    assert_eq!(roles_in([0, 0, 0, 0]), open);
}

#[test]
fn first_place_of_several_counts() {
    use Role::*;
    assert_eq!(roles_in([3, 3, 3, 3]), [(3, RecoveryMaster)]);
    for words in [[3, 3, 0, 0], [3, 0, 3, 0], [3, 0, 0, 3]] {
        assert_eq!(roles_in(words), [(3, RecoveryMaster)]);
    }
    assert_eq!(roles_in([3, 5, 5, 5]), [(3, RecoveryMaster), (5, Secondary0)]);
    assert_eq!(roles_in([3, 5, 3, 5]), [(3, RecoveryMaster), (5, Secondary0)]);
    assert_eq!(roles_in([3, 3, 5, 5]), [(3, RecoveryMaster), (5, Secondary1)]);
}

#[test]
fn unused_places_name_nobody_and_are_counted() {
    use Role::*;
    assert_eq!(roles_in([3, 0, 5, 0]), [(3, RecoveryMaster), (5, Secondary1)]);
    assert_eq!(roles_in([3, 0, 0, 6]), [(3, RecoveryMaster), (6, Secondary2)]);
    assert_eq!(roles_in([3, 5, 0, 6]), [(3, RecoveryMaster), (5, Secondary0), (6, Secondary2)]);
    assert_eq!(roles_in([3, 0, 0, 0]), [(3, RecoveryMaster)]);
}

/// In words that no list leaves: the low byte alone names nobody, and a master's word with a low
/// byte of 0 is an entry. Without a master the secondaries are not looked at.
#[test]
fn roles_in_odd_words() {
    use Role::*;
    assert_eq!(roles_in([266, 10, 0, 0]), [(10, Secondary0), (266, RecoveryMaster)]);
    assert_eq!(
        roles_in([3, 266, 10, 0]),
        [(3, RecoveryMaster), (10, Secondary1), (266, Secondary0)]
    );
    assert_eq!(roles_in([266, 0x0A00, 0xFF0A, 0x010A]), [(266, RecoveryMaster)]);
    assert_eq!(roles_in([0x0A00, 0, 0, 0]), []);
    assert_eq!(roles_in([0x0100, 5, 0, 0]), [(5, Secondary0), (256, RecoveryMaster)]);
    assert_eq!(roles_in([0, 5, 7, 266]), roles_in([0; 4]));
    assert_eq!(roles_in([7, 9, 0, 0]), [(7, RecoveryMaster), (9, Secondary0)]);
}

#[test]
fn odd_memory_is_compared_by_full_words() {
    let mut access = [0; ACCESS_WORDS];
    row_words_mut(&mut access, 1).copy_from_slice(&[266, 7, 0, 0]);
    row_words_mut(&mut access, 2).copy_from_slice(&[0, 7, 3, 0]);
    let permitted = |row, host| is_permitted(&Board::first(), &access, row, host);
    assert!(!permitted(1, 10) && permitted(1, 7) && !permitted(1, 0));
    assert!(!permitted(2, 7) && permitted(2, 13));
}

/// On such a board a repeat is still one of a number, and the later entry has the row.
#[test]
fn two_processors_on_one_row() {
    let mut board = Board::first();
    board.0[256 + 2] = 0;
    let mut access = [0; ACCESS_WORDS];
    let list = list_of(&[(3, ONE), (9, TWO)]);
    assert_eq!(accept_list(&board, &mut access, &list), Ok(()));
    assert_eq!(access[..9], [1, 3, 6, 10, 0, 0, 0, 0, 0]);
    let list = list_of(&[(3, ONE), (9, TWO), (10, ONE)]);
    assert_eq!(accept_list(&board, &mut [0; ACCESS_WORDS], &list), Err(ListFault::A6));
}

#[test]
fn processor_0_is_unused_on_every_board() {
    let mut board = Board::first();
    board.0[256] = 5;
    let mut access = [0; ACCESS_WORDS];
    let list = list_of(&[(0, [0, 3, 0, 0, 0, 0, 0, 0, 0])]);
    assert_eq!(accept_list(&board, &mut access, &list), Ok(()));
    assert_eq!(access[1..], [0; 128]);
}
