//! The message call over memories that lists cannot leave, the order of its tests, the role that it
//! reports, and the tallies.

use super::*;
use crate::access::{row_words_mut, ACCESS_WORDS, ROLES};
use crate::bench::bytes_of;
use crate::harness::generate::drafts::{draft, Draft, Scene};
use crate::harness::generate::goals::goals;
use crate::harness::generate::memories::{any_access, any_board, any_records};
use crate::harness::generate::random::Random;
use crate::message::{Kind, MSG_PROC_REQUEST};
use crate::record::RECORD_WORDS;

/// What the bench list leaves.
const LISTED: AccessMemory = {
    let mut access = [0; ACCESS_WORDS];
    (access[0], access[1], access[2]) = (1, 3, 5);
    (access[5], access[6], access[7]) = (3, 6, 10);
    access
};

const NO_RECORDS: RecordMemory = [0; RECORD_WORDS];

/// Carries out a message and gives its report, the records and the answer buffer, which held 0xEE.
fn run(
    access: AccessMemory,
    mut records: RecordMemory,
    text: &str,
    status: &[u32],
) -> (Report, RecordMemory, Vec<u8>) {
    let message = bytes_of(text);
    let call = Call { channel: message[2], message: &message, status };
    let mut answer = vec![0xEE; 40];
    let setup = Setup { board: &Board::first(), access: &access };
    let report = handle(setup, &mut records, &call, &mut answer);
    (report, records, answer)
}

fn outcome(access: AccessMemory, records: RecordMemory, text: &str) -> Outcome {
    run(access, records, text, &[]).0.outcome
}

fn records_with(words: &[(usize, u32)]) -> RecordMemory {
    let mut records = NO_RECORDS;
    for (place, word) in words {
        records[*place] = *word;
    }
    records
}

/// A wait on processor 1 with every fault at once; each step takes away the first one.
#[test]
fn outcomes_come_in_order() {
    let mut access = LISTED;
    access[0] = 0;
    let mut message = vec![0x02, 0xC4, 4, 0, 2, 0, 0, 0, 3, 0, 2, 0, 0];
    message.resize(61, 0);
    let (mut channel, mut room, mut status) = (7, 28, vec![]);
    let mut seen = Vec::new();
    for step in 0..13 {
        match step {
            1 => room = 29,
            2 => message.truncate(28),
            3 => access[0] = 1,
            4 => channel = 4,
            5 => message[0] = 0x01,
            6 => message.push(0),
            7 => message[8] = 1,
            8 => (channel, message[2]) = (5, 5),
            9 => (message[9], message[13]) = (1, 1),
            10 => message[9] = 2,
            11 => status = vec![1, 0],
            12 => status = vec![1, 1],
            _ => {}
        }
        let call = Call { channel, message: &message, status: &status };
        let setup = Setup { board: &Board::first(), access: &access };
        seen.push(handle(setup, &mut NO_RECORDS.clone(), &call, &mut vec![0; room]).outcome);
    }
    use Outcome::*;
    assert_eq!(seen, [R1, R2, N1, N2, N3, N4, N6, N7, N8, N8, R3, N9, OK]);
}

#[test]
fn refusals_change_no_record_and_answer_nak() {
    let held = records_with(&[(0, 5), (3, 0x100), (256, 1)]);
    let (report, records, answer) = run(LISTED, held, "01 C0 03 09 02 00 00 00 01", &[]);
    assert_eq!((report.outcome, report.written), (Outcome::N7, 8));
    assert_eq!(records, held);
    assert_eq!(answer[..8], bytes_of("01 C0 03 09 00 00 00 00"));
    assert!(answer[8..].iter().all(|&byte| byte == 0xEE));
}

#[test]
fn status_answer_is_29_bytes_and_no_more_is_written() {
    let held = records_with(&[(1, 0x0403_0201), (2, 5), (3, 0x100), (256, 3)]);
    let (report, records, answer) = run(LISTED, held, "00 C4 05 01 FF 00 00 00 01", &[0x13, 7]);
    assert_eq!((report.outcome, report.written), (Outcome::OK, 29));
    assert_eq!(records, held);
    let expected = "00 C4 05 01 02 00 00 00 01 01 02 03 04 05 00 00 00 00 01 00 00 03 00 00 00 \
        13 00 00 00";
    assert_eq!(answer[..29], bytes_of(expected));
    assert!(answer[29..].iter().all(|&byte| byte == 0xEE));
}

#[test]
fn nothing_is_written_unless_asked_for() {
    let (report, records, answer) = run(LISTED, NO_RECORDS, "00 C0 05 01 FD FF FF FF 01", &[]);
    assert_eq!((report.outcome, report.written), (Outcome::OK, 0));
    assert_eq!(records, records_with(&[(0, 5), (4, 1)]));
    assert!(answer.iter().all(|&byte| byte == 0xEE));
}

#[test]
fn channel_has_to_be_a_board_host_and_the_header_host() {
    let message = |host: u8| {
        let mut message = bytes_of("00 C0 00 01 02 00 00 00 01");
        message[2] = host;
        message
    };
    let judged = |channel, host| {
        let call = Call { channel, message: &message(host), status: &[] };
        let setup = Setup { board: &Board::first(), access: &LISTED };
        handle(setup, &mut NO_RECORDS.clone(), &call, &mut [0; 29]).outcome
    };
    assert_eq!(judged(3, 3), Outcome::OK);
    assert_eq!([judged(0, 0), judged(7, 7), judged(3, 5), judged(5, 3)], [Outcome::N2; 4]);
}

#[test]
fn processor_without_entry_is_open() {
    let request = "00 C0 0D 01 02 00 00 00 20";
    assert_eq!(outcome(LISTED, NO_RECORDS, request), Outcome::OK);
    assert_eq!(outcome(LISTED, records_with(&[(16, 13)]), request), Outcome::N7);
    let handover = "05 C0 0D 01 02 00 00 00 20";
    let to = |host: &str| outcome(LISTED, records_with(&[(16, 13)]), &[handover, host].join(" "));
    assert_eq!([to("0C"), to("0D"), to("00"), to("07")], {
        use Outcome::{N8, OK};
        [OK, OK, N8, N8]
    });
}

#[test]
fn odd_memory_is_judged_by_full_words() {
    let mut access = LISTED;
    access[1] = 0x103;
    access[2] = 7;
    let request = "00 C0 03 01 02 00 00 00 01";
    assert_eq!(outcome(access, NO_RECORDS, request), Outcome::N7);
    let release = "01 C0 03 01 02 00 00 00 01";
    assert_eq!(outcome(LISTED, records_with(&[(0, 0x103)]), release), Outcome::N7);
    let handover = "05 C0 03 01 02 00 00 00 01 07";
    assert_eq!(outcome(access, records_with(&[(0, 3)]), handover), Outcome::OK);
}

#[test]
fn set_words_add_and_remove_bits() {
    let held = records_with(&[(16, 3), (19, 0x1000_0009), (258, 0x103)]);
    let config = "00 C1 03 01 02 00 00 00 20 01 00 00 00 02 00 00 00 06 01 00 00 01 00 00 00";
    let (report, records, _) = run(LISTED, held, config, &[]);
    assert_eq!(report.outcome, Outcome::OK);
    assert_eq!(records[16..24], [3, 1, 2, 0x1000_010E, 0, 0, 0, 0]);
    assert_eq!(records[256..260], [0, 0, 0x103, 0]);
    let control = "01 C1 03 01 02 00 00 00 20 02 00 00 00 01 01 00 00";
    let (report, records, _) = run(LISTED, held, control, &[]);
    assert_eq!(report.outcome, Outcome::OK);
    assert_eq!(records[16..24], [3, 0, 0, 0x1000_0009, 0, 0, 0, 0]);
    assert_eq!(records[256..260], [0, 0, 2, 0]);
}

#[test]
fn set_through_the_second_core_changes_the_word_of_the_first() {
    let held = records_with(&[(16, 5), (258, 0x8000_0103), (24, 3), (259, 0xEEEE_EEEE)]);
    let control = "01 C1 03 01 02 00 00 00 21 00 00 00 00 01 01 00 00";
    let (report, records, _) = run(LISTED, held, control, &[]);
    assert_eq!(report.outcome, Outcome::OK);
    let changed = [(16, 5), (258, 0x8000_0002), (24, 3), (259, 0xEEEE_EEEE)];
    assert_eq!(records, records_with(&changed));
    let (_, _, answer) = run(LISTED, records, "00 C4 03 01 02 00 00 00 21", &[0]);
    assert_eq!(answer[21..25], bytes_of("02 00 00 80"));
}

/// Over memories of any content: the control word at a home that no row of the board has decides
/// nothing, and it keeps its value.
#[test]
fn place_of_no_home_is_not_used() {
    const PLACE: usize = 256 + 3;
    let (mut random, goals, board) = (Random::new(7, 0), goals(), Board::first());
    for _ in 0..20_000 {
        let access = any_access(&mut random, &board);
        let before = any_records(&mut random, &board);
        let setup = Setup { board: &board, access: &access };
        let scene = Scene { setup, records: &before, status: &[], focus: &[], most_words: 255 };
        let goal = random.pick(&goals);
        let draft = draft(&mut random, &scene, goal);
        let status = draft.status.unwrap_or_default();
        let call = Call { channel: draft.channel, message: &draft.message, status: &status };
        let given = |place: u32| {
            let (mut records, mut answer) = (before, [0xEE; ANSWER_BYTES]);
            records[PLACE] = place;
            let report = handle(setup, &mut records, &call, &mut answer);
            let kept = std::mem::replace(&mut records[PLACE], 0);
            assert_eq!(kept, place);
            (report, answer, records)
        };
        assert_eq!(given(before[PLACE]), given(random.u32()));
    }
}

#[test]
fn bit_28_keeps_the_vector_and_is_never_stored() {
    let held = records_with(&[(0, 3), (1, 0x80), (3, 0x1000_0001)]);
    let config = "00 C1 03 01 02 00 00 00 01 01 00 00 00 02 00 00 00 00 01 00 00 01 00 00 10";
    let (report, records, _) = run(LISTED, held, config, &[]);
    assert_eq!(report.outcome, Outcome::OK);
    assert_eq!(records[..4], [3, 0x80, 0, 0x100]);
}

#[test]
fn wrong_flags_are_refused() {
    let held = records_with(&[(0, 3), (16, 3)]);
    let control = |processor: &str, words: &str| {
        outcome(LISTED, held, &["01 C1 03 01 02 00 00 00", processor, words].join(" "))
    };
    assert_eq!(control("01", "03 00 00 00 00 00 00 00"), Outcome::OK);
    assert_eq!(control("01", "04 00 00 00 00 00 00 00"), Outcome::N8);
    assert_eq!(control("01", "01 00 00 00 01 00 00 00"), Outcome::N8);
    assert_eq!(control("01", "00 00 00 00 00 00 00 10"), Outcome::N8);
    assert_eq!(control("20", "00 01 00 00 03 00 00 00"), Outcome::OK);
    let set_bit_28 = "00 C1 03 01 02 00 00 00 20 00 00 00 00 00 00 00 00 00 00 00 10 00 00 00 00";
    assert_eq!(outcome(LISTED, held, set_bit_28), Outcome::N8);
}

#[test]
fn too_few_words_come_before_an_early_run() {
    let wait = "01 C4 03 0E 02 00 00 00 01 03 01 00 00 01 00 00 00 00 00 00 00 00 00 00 00 00 00 \
        00 00";
    assert_eq!(bytes_of(wait).len(), Kind::WaitStatus.size());
    let (report, _, _) = run(LISTED, NO_RECORDS, wait, &[1, 1]);
    assert_eq!((report.outcome, report.checks, report.written), (Outcome::R3, 0, 0));
    assert_eq!(run(LISTED, NO_RECORDS, wait, &[1, 1, 1]).0.checks, 1);
}

/// Waits 3 and matches 4, with no words, with as many as waits and with as many as matches.
#[test]
fn matches_above_waits_come_before_the_words() {
    let held = records_with(&[(0, 3), (1, 0x80), (3, 0x100), (256, 1)]);
    let rest = "01 03 04 02 05 01 00 00 00 00 00 00 00 00 00 00 00 00 00 00 00";
    let nak = bytes_of("01 C4 03 0E 00 00 00 00");
    for status in [&[][..], &[1; 3], &[0; 3], &[1; 4]] {
        for (flags, written) in [("02 00 00 00", nak.len()), ("FD FF FF FF", 0)] {
            let text = ["01 C4 03 0E", flags, rest].join(" ");
            let (report, records, answer) = run(LISTED, held, &text, status);
            assert_eq!((report.outcome, report.written), (Outcome::N8, written));
            assert_eq!((report.checks, report.microseconds), (0, 0));
            assert_eq!(records, held);
            assert_eq!(answer[..written], nak[..written]);
            assert!(answer[written..].iter().all(|&byte| byte == 0xEE));
        }
    }
}

/// The answer names the processor that the message names, and both have what the row has.
#[test]
fn two_processors_on_one_row_have_one_record() {
    let mut board = Board::first();
    board.0[256 + 200] = 0;
    let setup = Setup { board: &board, access: &LISTED };
    let records = records_with(&[(0, 3), (1, 0x80), (256, 2)]);
    for processor in [1, 200] {
        let mut message = bytes_of("00 C4 03 01 02 00 00 00 00");
        message[8] = processor;
        let call = Call { channel: 3, message: &message, status: &[0x13] };
        let mut answer = [0; ANSWER_BYTES];
        assert_eq!(handle(setup, &mut records.clone(), &call, &mut answer).outcome, Outcome::OK);
        let fields = [&[processor], &bytes_of("80 00 00 00 00 00 00 00 00 00 00 00 02")[..]];
        assert_eq!(answer[8..22], fields.concat());
    }
}

/// The board says who is a host and which class a row has; a home may be anywhere.
#[test]
fn odd_boards_are_read_as_they_are() {
    let mut board = Board::first();
    (board.0[77], board.0[256], board.0[512 + 9], board.0[544 + 9]) = (0xFF, 9, 0x80, 0xE1);
    let setup = Setup { board: &board, access: &LISTED };
    let mut records = records_with(&[(72, 77), (257, 1)]);
    let mut judged = |text: &str| {
        let message = bytes_of(text);
        let call = Call { channel: 77, message: &message, status: &[0x13] };
        handle(setup, &mut records, &call, &mut [0; ANSWER_BYTES]).outcome
    };
    assert_eq!(judged("01 C1 4D 01 02 00 00 00 00 00 01 00 00 00 00 00 00"), Outcome::N8);
    assert_eq!(judged("01 C1 4D 01 02 00 00 00 00 02 00 00 00 01 00 00 00"), Outcome::OK);
    assert_eq!(records, records_with(&[(72, 77), (257, 2)]));
}

/// What `LISTED` leaves, with these words for processor 1.
fn entry_of(words: [u16; 4]) -> AccessMemory {
    let mut access = LISTED;
    row_words_mut(&mut access, 0).copy_from_slice(&words);
    access
}

/// Outcome and role of a request of processor 1 by this host, with this controller.
fn requested(access: AccessMemory, controller: u32, host: u8) -> (Outcome, Role) {
    let text = format!("00 C0 {host:02X} 01 02 00 00 00 01");
    let (report, _, _) = run(access, records_with(&[(0, controller)]), &text, &[]);
    (report.outcome, report.role)
}

#[test]
fn request_of_a_free_processor_tells_each_role() {
    let told = |host| requested(entry_of([3, 4, 5, 6]), 0, host);
    assert_eq!(told(3), (Outcome::OK, Role::RecoveryMaster));
    assert_eq!(told(4), (Outcome::OK, Role::Secondary0));
    assert_eq!(told(5), (Outcome::OK, Role::Secondary1));
    assert_eq!(told(6), (Outcome::OK, Role::Secondary2));
    assert_eq!(told(13), (Outcome::N7, Role::None));
    assert_eq!(requested(entry_of([0; 4]), 0, 13), (Outcome::OK, Role::OpenProcessor));
}

#[test]
fn request_of_a_held_processor_tells_each_role() {
    for controller in [12, 4, 0x103] {
        let told = |host| requested(entry_of([3, 4, 5, 6]), controller, host);
        assert_eq!(told(3), (Outcome::OK, Role::RecoveryMaster));
        assert_eq!(told(4), (Outcome::N7, Role::Secondary0));
        assert_eq!(told(5), (Outcome::N7, Role::Secondary1));
        assert_eq!(told(6), (Outcome::N7, Role::Secondary2));
        assert_eq!(told(13), (Outcome::N7, Role::None));
        let open = requested(entry_of([0; 4]), controller, 4);
        assert_eq!(open, (Outcome::N7, Role::OpenProcessor));
    }
}

#[test]
fn request_by_a_host_in_several_places_tells_the_first() {
    let told = |words, controller, host| requested(entry_of(words), controller, host);
    for words in [[3, 3, 0, 0], [3, 5, 3, 0], [3, 0, 0, 3], [3, 3, 3, 3]] {
        assert_eq!(told(words, 5, 3), (Outcome::OK, Role::RecoveryMaster));
    }
    assert_eq!(told([3, 5, 5, 5], 0, 5), (Outcome::OK, Role::Secondary0));
    assert_eq!(told([3, 5, 0, 5], 5, 5), (Outcome::N7, Role::Secondary0));
    assert_eq!(told([3, 0, 5, 5], 0, 5), (Outcome::OK, Role::Secondary1));
    assert_eq!(told([3, 0, 0, 5], 3, 5), (Outcome::N7, Role::Secondary2));
}

#[test]
fn request_is_told_by_full_words() {
    let told = |words| requested(entry_of(words), 0, 10);
    assert_eq!(told([266, 3, 0, 0]), (Outcome::N7, Role::None));
    assert_eq!(told([3, 266, 266, 266]), (Outcome::N7, Role::None));
    assert_eq!(told([266, 10, 0, 0]), (Outcome::OK, Role::Secondary0));
    assert_eq!(told([3, 266, 0, 10]), (Outcome::OK, Role::Secondary2));
    assert_eq!(told([0x0A00, 0, 0, 0]), (Outcome::N7, Role::None));
    assert_eq!(told([0, 266, 10, 3]), (Outcome::OK, Role::OpenProcessor));
    assert_eq!(requested(entry_of([266, 10, 0, 0]), 3, 10), (Outcome::N7, Role::Secondary0));
}

/// Requests of the recovery master that have every fault at once; each step takes away the first.
#[test]
fn request_refused_before_n7_tells_no_role() {
    let mut access = LISTED;
    access[0] = 0;
    let mut message = vec![0, 0xC0, 5, 0, 2, 0, 0, 0, 3];
    message.resize(61, 0);
    let mut room = 28;
    let mut seen = Vec::new();
    for step in 0..7 {
        match step {
            1 => room = 29,
            2 => message.truncate(8),
            3 => access[0] = 1,
            4 => message[2] = 3,
            5 => message.push(3),
            6 => message[8] = 1,
            _ => {}
        }
        let call = Call { channel: 3, message: &message, status: &[] };
        let setup = Setup { board: &Board::first(), access: &access };
        let report = handle(setup, &mut NO_RECORDS.clone(), &call, &mut vec![0; room]);
        seen.push((report.outcome, report.role));
    }
    use Outcome::*;
    let mut expected = [R1, R2, N1, N2, N4, N6, OK].map(|outcome| (outcome, Role::None));
    expected[6].1 = Role::RecoveryMaster;
    assert_eq!(seen, expected);
}

/// Messages of the recovery master, which controls the processor or not.
#[test]
fn other_messages_tell_no_role() {
    let messages = [
        "01 C0 03 01 02 00 00 00 01",
        "05 C0 03 01 02 00 00 00 01 05",
        "05 C0 03 01 02 00 00 00 01 06",
        "00 C1 03 01 02 00 00 00 01 80 00 00 00 00 00 00 00 00 00 00 00 00 00 00 00",
        "01 C1 03 01 02 00 00 00 01 03 00 00 00 00 00 00 00",
        "01 C1 03 01 02 00 00 00 01 04 00 00 00 00 00 00 00",
        "20 C1 03 01 02 00 00 00 01 00 00 00 00 00 00 00",
        "00 C4 03 01 02 00 00 00 01",
        "01 C4 03 01 02 00 00 00 01 01 01 00 00 01 00 00 00 00 00 00 00 00 00 00 00 00 00 00 00",
        "01 C4 03 01 02 00 00 00 01 00 01 00 00 01 00 00 00 00 00 00 00 00 00 00 00 00 00 00 00",
        "02 C0 03 01 02 00 00 00 01",
    ];
    for (controller, status) in [(3, 1), (3, 0), (5, 1), (0, 0)] {
        for text in messages {
            let records = records_with(&[(0, controller)]);
            assert_eq!(run(LISTED, records, text, &[status]).0.role, Role::None, "{text}");
            assert_eq!(run(LISTED, records, text, &[]).0.role, Role::None, "{text}");
        }
    }
}

/// Whatever the role is: eight bytes that repeat the header, and no more are written.
#[test]
fn answers_do_not_tell_the_role() {
    let answers = |host: u8, controller, words| {
        let text = format!("00 C0 {host:02X} 01 02 00 00 00 01");
        let records = records_with(&[(0, controller)]);
        let (report, _, answer) = run(entry_of(words), records, &text, &[]);
        (report.role, report.written, answer)
    };
    let words = [[3, 0, 0, 0], [5, 3, 0, 0], [5, 0, 3, 0], [5, 0, 0, 3], [0, 0, 0, 0]];
    let granted = words.map(|words| answers(3, 0, words));
    assert_eq!(granted.clone().map(|given| given.0), ROLES[1..]);
    let ack = [bytes_of("00 C0 03 01 02 00 00 00"), vec![0xEE; 32]].concat();
    assert!(granted.iter().all(|given| (given.1, &given.2) == (8, &ack)));
    let words = [[5, 4, 0, 0], [5, 3, 0, 0], [5, 0, 3, 0], [5, 0, 0, 3], [0, 0, 0, 0]];
    let refused = words.map(|words| answers(3, 12, words));
    let roles = [ROLES[0], ROLES[2], ROLES[3], ROLES[4], ROLES[5]];
    assert_eq!(refused.clone().map(|given| given.0), roles);
    let nak = [bytes_of("00 C0 03 01 00 00 00 00"), vec![0xEE; 32]].concat();
    assert!(refused.iter().all(|given| (given.1, &given.2) == (8, &nak)));
}

/// Over memories of any content: a request tells the role of its sender from N7 on, and nothing
/// else tells one.
#[test]
fn role_is_told_of_requests_from_n7_on() {
    let (mut random, goals) = (Random::new(13, 0), goals());
    for _ in 0..20_000 {
        let board = any_board(&mut random).board;
        let access = any_access(&mut random, &board);
        let mut records = any_records(&mut random, &board);
        let setup = Setup { board: &board, access: &access };
        let scene = Scene { setup, records: &records, status: &[], focus: &[], most_words: 255 };
        let goal = random.pick(&goals);
        let Draft { channel, message, status } = draft(&mut random, &scene, goal);
        let call = Call { channel, message: &message, status: &status.unwrap_or_default() };
        let report = handle(setup, &mut records, &call, &mut [0; ANSWER_BYTES]);
        let request = message.starts_with(&MSG_PROC_REQUEST.to_le_bytes());
        let expected = if request && report.outcome >= Outcome::N7 {
            role_of(&board, &access, board.row_of(message[8]).unwrap(), u16::from(channel))
        } else {
            Role::None
        };
        assert_eq!(report.role, expected, "{message:x?}");
    }
}

/// The words of processor 1 after a message, in a memory where it has this controller and these
/// tallies; the outcome comes first. All other words have to stay.
fn counted(controller: u32, tallies: [u32; 4], text: &str) -> (Outcome, u32, [u32; 4]) {
    let mut before: RecordMemory = std::array::from_fn(|i| 0x7700 + i as u32);
    before[0] = controller;
    before[4..8].copy_from_slice(&tallies);
    let (report, records, _) = run(entry_of([3, 5, 10, 0]), before, text, &[0x13]);
    for place in (0..RECORD_WORDS).filter(|place| ![0, 4, 5, 6, 7].contains(place)) {
        assert_eq!(records[place], before[place], "word {place}, {text}");
    }
    let tallies = [records[4], records[5], records[6], records[7]];
    (report.outcome, records[0], tallies)
}

const REQUEST_BY_3: &str = "00 C0 03 01 02 00 00 00 01";
const REQUEST_BY_5: &str = "00 C0 05 01 02 00 00 00 01";
const RELEASE_BY_3: &str = "01 C0 03 01 02 00 00 00 01";
const RELEASE_BY_5: &str = "01 C0 05 01 02 00 00 00 01";

/// Handovers by host 3 and by host 5, which lack the new host.
const HANDOVER_BY_3: &str = "05 C0 03 01 02 00 00 00 01 ";
const HANDOVER_BY_5: &str = "05 C0 05 01 02 00 00 00 01 ";

const MOST: u32 = 4_294_967_295;

#[test]
fn request_of_a_free_processor_counts_a_grant() {
    for (text, host) in [(REQUEST_BY_3, 3), (REQUEST_BY_5, 5)] {
        let given = counted(0, [10, 20, 30, 40], text);
        assert_eq!(given, (Outcome::OK, host, [11, 20, 30, 40]));
    }
}

#[test]
fn request_that_takes_the_processor_counts_an_override() {
    for controller in [5, 10, 6, 0x103, 0x8000_0003, MOST] {
        let given = counted(controller, [10, 20, 30, 40], REQUEST_BY_3);
        assert_eq!(given, (Outcome::OK, 3, [10, 21, 30, 40]));
    }
}

#[test]
fn request_of_what_the_master_holds_counts_nowhere() {
    assert_eq!(counted(3, [10, 20, 30, 40], REQUEST_BY_3), (Outcome::OK, 3, [10, 20, 30, 40]));
    assert_eq!(counted(3, [MOST; 4], REQUEST_BY_3), (Outcome::OK, 3, [MOST; 4]));
}

#[test]
fn handover_to_another_host_counts() {
    let to_5 = counted(3, [10, 20, 30, 40], &format!("{HANDOVER_BY_3}05"));
    assert_eq!(to_5, (Outcome::OK, 5, [10, 20, 31, 40]));
    let to_3 = counted(5, [10, 20, 30, 40], &format!("{HANDOVER_BY_5}03"));
    assert_eq!(to_3, (Outcome::OK, 3, [10, 20, 31, 40]));
}

#[test]
fn handover_to_oneself_counts_nowhere() {
    let by_3 = counted(3, [10, 20, 30, 40], &format!("{HANDOVER_BY_3}03"));
    assert_eq!(by_3, (Outcome::OK, 3, [10, 20, 30, 40]));
    let by_5 = counted(5, [10, 20, 30, 40], &format!("{HANDOVER_BY_5}05"));
    assert_eq!(by_5, (Outcome::OK, 5, [10, 20, 30, 40]));
}

#[test]
fn release_counts() {
    assert_eq!(counted(3, [10, 20, 30, 40], RELEASE_BY_3), (Outcome::OK, 0, [10, 20, 30, 41]));
    assert_eq!(counted(5, [10, 20, 30, 40], RELEASE_BY_5), (Outcome::OK, 0, [10, 20, 30, 41]));
}

#[test]
fn tallies_stay_at_the_largest_number() {
    let handover = format!("{HANDOVER_BY_3}05");
    let counting =
        [(0, REQUEST_BY_5, 5), (5, REQUEST_BY_3, 3), (3, &handover, 5), (5, RELEASE_BY_5, 0)];
    for (place, (controller, text, host)) in counting.into_iter().enumerate() {
        for (tally, expected) in [(MOST - 1, MOST), (MOST, MOST), (0x7FFF_FFFF, 0x8000_0000)] {
            let (mut before, mut after) = ([1, 2, 3, 4], [1, 2, 3, 4]);
            (before[place], after[place]) = (tally, expected);
            assert_eq!(counted(controller, before, text), (Outcome::OK, host, after), "{text}");
        }
        let given = counted(controller, [MOST; 4], text);
        assert_eq!(given, (Outcome::OK, host, [MOST; 4]), "{text}");
    }
}

#[test]
fn tallies_count_without_an_answer() {
    let silent = |text: &str| text.replacen("02 00 00 00", "FD FF FF FF", 1);
    let handover = format!("{HANDOVER_BY_3}05");
    let one = |controller, text: &str| counted(controller, [0; 4], &silent(text)).2;
    assert_eq!(one(0, REQUEST_BY_5), [1, 0, 0, 0]);
    assert_eq!(one(5, REQUEST_BY_3), [0, 1, 0, 0]);
    assert_eq!(one(3, &handover), [0, 0, 1, 0]);
    assert_eq!(one(5, RELEASE_BY_5), [0, 0, 0, 1]);
}

/// Refusals, and the messages that leave the controller alone.
#[test]
fn other_messages_count_nowhere() {
    let refused = [
        (3, REQUEST_BY_5.to_string(), Outcome::N7),
        (5, REQUEST_BY_5.to_string(), Outcome::N7),
        (0, "00 C0 06 01 02 00 00 00 01".to_string(), Outcome::N7),
        (5, RELEASE_BY_3.to_string(), Outcome::N7),
        (0, RELEASE_BY_3.to_string(), Outcome::N7),
        (0x103, RELEASE_BY_3.to_string(), Outcome::N7),
        (5, format!("{HANDOVER_BY_3}05"), Outcome::N7),
        (3, format!("{HANDOVER_BY_3}06"), Outcome::N8),
        (3, format!("{HANDOVER_BY_3}00"), Outcome::N8),
        (3, "20 C1 03 01 02 00 00 00 01 00 00 00 00 00 00 00".to_string(), Outcome::N5),
        (3, "00 C0 03 01 02 00 00 00 03".to_string(), Outcome::N6),
    ];
    let config = "00 C1 03 01 02 00 00 00 01 00 00 00 00 00 00 00 00 00 00 00 00 00 00 00 10";
    let control = "01 C1 03 01 02 00 00 00 01 00 00 00 00 00 00 00 00";
    let wait = "01 C4 03 01 02 00 00 00 01 01 01 00 00 13 00 00 00 00 00 00 00 00 00 00 00 00 00 \
        00 00";
    let others = [config, control, "00 C4 03 01 02 00 00 00 01", wait];
    let others = others.map(|text| (3, text.to_string(), Outcome::OK));
    for (controller, text, outcome) in refused.into_iter().chain(others) {
        for tallies in [[0; 4], [10, 20, 30, 40], [MOST; 4]] {
            assert_eq!(counted(controller, tallies, &text), (outcome, controller, tallies));
        }
    }
}

/// The place in a row of the tally that counts a message which gave the processor another
/// controller word; none where it is the same.
fn tally_of(message: &[u8], old: u32, new: u32) -> Option<usize> {
    match (old, new) {
        _ if old == new => None,
        (0, _) => Some(4),
        (_, 0) => Some(7),
        _ if message.starts_with(&MSG_PROC_REQUEST.to_le_bytes()) => Some(5),
        _ => Some(6),
    }
}

/// Over memories of any content: the change of the controller says which tally counts one more, and
/// with no change none does.
#[test]
fn tallies_follow_the_controller() {
    let (mut random, goals) = (Random::new(17, 0), goals());
    for _ in 0..20_000 {
        let board = any_board(&mut random).board;
        let access = any_access(&mut random, &board);
        let before = any_records(&mut random, &board);
        let setup = Setup { board: &board, access: &access };
        let scene = Scene { setup, records: &before, status: &[], focus: &[], most_words: 255 };
        let goal = random.pick(&goals);
        let Draft { channel, message, status } = draft(&mut random, &scene, goal);
        let call = Call { channel, message: &message, status: &status.unwrap_or_default() };
        let mut records = before;
        handle(setup, &mut records, &call, &mut [0; ANSWER_BYTES]);
        for (old, new) in before[..256].chunks(8).zip(records[..256].chunks(8)) {
            let mut expected = old[4..].to_vec();
            if let Some(place) = tally_of(&message, old[0], new[0]) {
                expected[place - 4] = if old[place] == MOST { MOST } else { old[place] + 1 };
            }
            assert_eq!(new[4..], expected, "{message:x?}");
        }
    }
}
