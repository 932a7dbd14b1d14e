//! The fixed cases of board descriptions: what each of them is refused for, and what a board that
//! is taken changes.

use super::{bench_list, bytes_of, list_step, list_with, sends, Case, Step, REQUEST, REQUEST_OK};

/// Document 01's board, as its page lists it: hosts, then processors.
const FIRST: &str =
    "01 02 00 03 01  01 02 00 0A 01  01 02 00 04 00  01 02 00 05 00  01 02 00 06 00 \
    01 02 00 0C 00  01 02 00 0D 00 \
    02 03 00 01 00 00  02 03 00 02 00 00  02 03 00 20 01 01  02 03 00 21 01 01";

/// Host 3, which is secure, and the ARMv8 processors 7, 8 and 9 of cluster 4 and 10 alone.
const THREE: &str = "01 02 00 03 01 \
    02 03 00 07 01 04  02 03 00 08 01 04  02 03 00 0A 01 00  02 03 00 09 01 04";

/// Host 3 requests processor 8 and sets its control word to 0x103.
const REQUEST_8: &str = "00 C0 03 40 02 00 00 00 08";
const REQUEST_8_OK: &str = "OK 0 0 00c0034002000000";
const SET_103_THROUGH_8: &str = "01 C1 03 41 02 00 00 00 08 03 01 00 00 00 00 00 00";
const SET_103_THROUGH_8_OK: &str = "OK 0 0 01c1034102000000";

/// Every case of boards.
pub(super) fn cases() -> Vec<Case> {
    let mut cases = vec![
        first_described(),
        refused(),
        order_of_faults(),
        clusters_and_kinds(),
        limits(),
        replaced(),
        replaced_twice(),
        behind_the_list(),
        numbers_1_and_255(),
        one_number_twice(),
        cluster_of_three(),
        r5_cluster(),
        nothing(),
        no_processor(),
        full_board(),
        standing_words(),
    ];
    cases.extend(refused_one_by_one());
    cases
}

/// A case as it is, but with document 01's board described first.
pub(super) fn described(case: &Case) -> Case {
    let steps = [&[board(FIRST, "board OK")], case.steps.as_slice()].concat();
    Case { name: format!("{}, on the described board", case.name), steps }
}

pub(super) fn named(name: &str, steps: Vec<Step>) -> Case {
    Case { name: name.to_string(), steps }
}

pub(super) fn board(description: &str, line: &'static str) -> Step {
    Step::Board { description: bytes_of(description), line }
}

/// Hosts from number 1 on, not secure.
pub(super) fn hosts(count: usize) -> String {
    (1..=count).map(|number| format!("01 02 00 {number:02X} 00 ")).collect()
}

/// Processors from number 1 on, ARMv8 and alone.
pub(super) fn processors(count: usize) -> String {
    (1..=count).map(|number| format!("02 03 00 {number:02X} 01 00 ")).collect()
}

/// Two descriptions, one behind the other.
pub(super) fn both(first: &str, second: &str) -> String {
    format!("{first} {second}")
}

/// What shows that document 01's board stands.
fn first_stands() -> Vec<Step> {
    vec![list_step(bench_list(), "list OK"), sends(REQUEST, REQUEST_OK)]
}

/// Every host byte asks for the status of 33 and every processor byte is asked for, without an
/// answer.
fn first_described() -> Case {
    let mut steps = vec![
        board(FIRST, "board OK"),
        list_step(list_with(&[]), "list OK"),
        Step::Status { words: vec![0x13] },
    ];
    for host in 0..=255u8 {
        let on_board = [3, 4, 5, 6, 10, 12, 13].contains(&host);
        let message = format!("00 C4 {host:02X} 00 00 00 00 00 21");
        steps.push(sends(&message, if on_board { "OK 0 0 -" } else { "N2 0 0 -" }));
    }
    for processor in 0..=255u8 {
        let on_board = [1, 2, 32, 33].contains(&processor);
        let message = format!("00 C0 0D 00 00 00 00 00 {processor:02X}");
        steps.push(sends(&message, if on_board { "OK 0 0 -" } else { "N6 0 0 -" }));
    }
    named("document 01's board is one description", steps)
}

/// One description for each way to be refused.
fn refusals() -> Vec<(&'static str, String)> {
    let host = "01 02 00 09 01 ";
    let processor = "02 03 00 09 00 05 ";
    let of = |text: &str| text.to_string();
    vec![
        ("board D1", of("00")),
        ("board D1", of("03 02 00 09 01")),
        ("board D1", of("01")),
        ("board D1", of("01 02")),
        ("board D1", of("01 02 00 09")),
        ("board D1", of("01 01 00 09")),
        ("board D1", of("01 03 00 09 01 00")),
        ("board D1", of("01 02 01 09 01")),
        ("board D1", of("02 02 00 09 01")),
        ("board D1", of("02 03 00 09 01")),
        ("board D1", both(host, "02 03 00 09")),
        ("board D2", of("01 02 00 00 01")),
        ("board D2", of("02 03 00 00 00 00")),
        ("board D2", both(processor, "01 02 00 00 00")),
        ("board D3", both(host, host)),
        ("board D3", both(host, "01 02 00 09 00")),
        ("board D3", both(processor, processor)),
        ("board D3", both(processor, "02 03 00 09 01 00")),
        ("board D4", of("01 02 00 09 02")),
        ("board D4", of("02 03 00 09 02 00")),
        ("board D4", both(host, "02 03 00 09 FF 05")),
        ("board D5", both(processor, "02 03 00 08 01 05")),
        ("board D5", both("02 03 00 07 01 FF", "02 03 00 08 00 FF")),
        ("board D6", hosts(65)),
        ("board D6", processors(33)),
    ]
}

/// After each refusal the board before it stands.
fn refused_one_by_one() -> Vec<Case> {
    let case = |(number, (line, description)): (usize, (&'static str, String))| {
        let steps = [vec![board(&description, line)], first_stands()].concat();
        named(&format!("{line}, refusal {}", number + 1), steps)
    };
    refusals().into_iter().enumerate().map(case).collect()
}

/// After all refusals the last board that was taken stands.
fn refused() -> Case {
    let mut steps = vec![board(THREE, "board OK")];
    steps.extend(refusals().iter().map(|(line, description)| board(description, line)));
    steps.push(list_step(bench_list(), "list A5"));
    steps.push(list_step(list_with(&["0A 03 00 00 00 00 00 00 00"]), "list OK"));
    steps.push(sends(REQUEST_8, REQUEST_8_OK));
    steps.push(sends(REQUEST, "N6 0 0 00c0030700000000"));
    named("a refused description changes nothing", steps)
}

/// Of an item with several faults the first in the table is told, and of several items the first.
fn order_of_faults() -> Case {
    let (host, processor) = ("01 02 00 09 01", "02 03 00 09 00 05");
    let mut steps = vec![
        board("01 02 00 00 02", "board D2"),
        board("02 03 00 00 02 05", "board D2"),
        board(&both(host, "01 02 00 09 02"), "board D3"),
        board(&both(processor, "02 03 00 09 02 05"), "board D3"),
        board(&both(processor, "02 03 00 09 01 05"), "board D3"),
        board(&both(processor, "02 03 00 08 02 05"), "board D4"),
        board(&both("01 02 00 09 02", "00"), "board D4"),
        board(&both("00", "01 02 00 00 02"), "board D1"),
        board(&both(&hosts(64), "01 02 00 00 00"), "board D2"),
        board(&both(&hosts(64), "01 02 00 40 00"), "board D3"),
        board(&both(&hosts(64), "01 02 00 41 02"), "board D4"),
        board(&both(&hosts(65), "01 02 00 00 00"), "board D6"),
        board(&both(&processors(32), "02 03 00 20 01 00"), "board D3"),
        board(&both(&processors(32), "02 03 00 21 02 00"), "board D4"),
    ];
    let mixed = both(&processors(31), "02 03 00 20 00 07 02 03 00 21 01 07");
    steps.push(board(&mixed, "board D5"));
    named("the first fault decides", [steps, first_stands()].concat())
}

/// Cluster 0 is no cluster, and hosts and processors are two kinds.
fn clusters_and_kinds() -> Case {
    let steps = vec![
        board("02 03 00 01 00 00 02 03 00 02 01 00", "board OK"),
        board("02 03 00 01 00 01 02 03 00 02 01 02", "board OK"),
        board("02 03 00 01 00 01 02 03 00 02 00 01", "board OK"),
        board("02 03 00 01 01 01", "board OK"),
        board("01 02 00 09 00 02 03 00 09 00 09", "board OK"),
        board("02 03 00 09 00 09 01 02 00 09 00", "board OK"),
    ];
    named("clusters of one class, and one number for a host and a processor", steps)
}

/// Each kind has a limit of its own.
fn limits() -> Case {
    let steps = vec![
        board(&hosts(64), "board OK"),
        board(&hosts(65), "board D6"),
        board(&processors(32), "board OK"),
        board(&processors(33), "board D6"),
        board(&both(&hosts(64), &processors(32)), "board OK"),
        board(&both(&processors(32), &hosts(64)), "board OK"),
    ];
    named("64 hosts and 32 processors", steps)
}

/// Neither the hosts nor the processors of document 01's board are left.
fn replaced() -> Case {
    let steps = vec![
        board("01 02 00 14 01 02 03 00 28 00 00", "board OK"),
        list_step(bench_list(), "list A5"),
        list_step(list_with(&["28 03 00 00 00 00 00 00 00"]), "list A7"),
        list_step(list_with(&["28 14 00 05 00 00 00 00 00"]), "list A8"),
        list_step(list_with(&["28 14 00 00 00 14 00 00 00"]), "list OK"),
        sends(REQUEST, "N2 0 0 00c0030700000000"),
        sends("00 C0 14 42 02 00 00 00 01", "N6 0 0 00c0144200000000"),
        sends("00 C0 14 43 02 00 00 00 28", "OK 0 0 00c0144302000000"),
    ];
    named("a board that is taken replaces the one before it whole", steps)
}

fn replaced_twice() -> Case {
    let steps = vec![
        board("01 02 00 14 01 02 03 00 28 00 00", "board OK"),
        board("01 02 00 15 00 02 03 00 29 01 00", "board OK"),
        list_step(list_with(&["28 15 00 00 00 00 00 00 00"]), "list A5"),
        list_step(list_with(&["29 14 00 00 00 00 00 00 00"]), "list A7"),
        list_step(list_with(&[]), "list OK"),
        sends("00 C0 14 43 02 00 00 00 29", "N2 0 0 00c0144300000000"),
        sends("00 C0 15 44 02 00 00 00 28", "N6 0 0 00c0154400000000"),
        sends("00 C0 15 45 02 00 00 00 29", "OK 0 0 00c0154502000000"),
    ];
    named("the last board that was taken stands", steps)
}

/// A refused list leaves the way open; an accepted one closes it for any description.
fn behind_the_list() -> Case {
    let mut steps = vec![
        list_step(bench_list()[..291].to_vec(), "list A2"),
        board("", "board OK"),
        board(FIRST, "board OK"),
    ];
    steps.extend(first_stands());
    steps.extend([board(THREE, "board A1"), board("", "board A1"), board("00", "board A1")]);
    steps.push(sends(REQUEST, REQUEST_OK));
    steps.push(sends(REQUEST_8, "N6 0 0 00c0034000000000"));
    named("a board behind the list", steps)
}

fn numbers_1_and_255() -> Case {
    let steps = vec![
        board("01 02 00 01 00 01 02 00 FF 01 02 03 00 FF 00 FF 02 03 00 01 01 FF", "board D5"),
        board("01 02 00 01 00 01 02 00 FF 01 02 03 00 FF 01 FF 02 03 00 01 01 FF", "board OK"),
        list_step(list_with(&["FF FF 00 01 00 00 00 00 00"]), "list OK"),
        Step::Status { words: vec![0x13] },
        sends("00 C0 FF 46 02 00 00 00 FF", "OK 0 0 00c0ff4602000000"),
        sends("01 C1 FF 47 02 00 00 00 FF 00 01 00 00 00 00 00 00", "OK 0 0 01c1ff4702000000"),
        sends(
            "00 C4 01 48 02 00 00 00 01",
            "OK 0 0 00c4014802000000010000000000000000000000000001000013000000",
        ),
        sends("00 C0 FE 49 02 00 00 00 01", "N2 0 0 00c0fe4900000000"),
        sends("00 C0 FF 4A 02 00 00 00 FE", "N6 0 0 00c0ff4a00000000"),
    ];
    named("hosts and processors 1 and 255", steps)
}

fn one_number_twice() -> Case {
    let steps = vec![
        board("02 03 00 09 00 00 01 02 00 09 00", "board OK"),
        list_step(list_with(&["09 09 00 00 00 00 00 00 00"]), "list OK"),
        sends("00 C0 09 4B 02 00 00 00 09", "OK 0 0 00c0094b02000000"),
        sends("05 C0 09 4C 02 00 00 00 09 09", "OK 0 0 05c0094c02000000"),
    ];
    named("a host and a processor of one number", steps)
}

/// The processor between them in the description is alone and keeps its own word.
fn cluster_of_three() -> Case {
    let look = |processor: &str, line| sends(&both("00 C4 03 4D 02 00 00 00", processor), line);
    let steps = vec![
        board(THREE, "board OK"),
        list_step(list_with(&[]), "list OK"),
        Step::Status { words: vec![0x13] },
        sends(REQUEST_8, REQUEST_8_OK),
        sends(SET_103_THROUGH_8, SET_103_THROUGH_8_OK),
        look("07", "OK 0 0 00c4034d02000000070000000000000000000000000301000013000000"),
        look("08", "OK 0 0 00c4034d02000000080000000000000000000000000301000013000000"),
        look("09", "OK 0 0 00c4034d02000000090000000000000000000000000301000013000000"),
        look("0A", "OK 0 0 00c4034d020000000a0000000000000000000000000000000013000000"),
        sends("01 C1 03 4E 02 00 00 00 09 00 00 00 00 01 00 00 00", "N7 0 0 01c1034e00000000"),
        sends("00 C0 03 4F 02 00 00 00 09", "OK 0 0 00c0034f02000000"),
        sends("01 C1 03 4E 02 00 00 00 09 00 00 00 00 01 00 00 00", "OK 0 0 01c1034e02000000"),
        look("07", "OK 0 0 00c4034d02000000070000000000000000000000000201000013000000"),
        look("08", "OK 0 0 00c4034d02000000080000000000000000000000000201000013000000"),
    ];
    named("a cluster of three has one control word", steps)
}

fn r5_cluster() -> Case {
    let look = |processor: &str, line| sends(&both("00 C4 03 50 02 00 00 00", processor), line);
    let steps = vec![
        board("01 02 00 03 00 02 03 00 07 00 04 02 03 00 08 00 04 02 03 00 09 00 04", "board OK"),
        list_step(list_with(&[]), "list OK"),
        Step::Status { words: vec![0x13] },
        sends(REQUEST_8, REQUEST_8_OK),
        sends(SET_103_THROUGH_8, "N8 0 0 01c1034100000000"),
        sends("01 C1 03 51 02 00 00 00 08 03 00 00 00 00 00 00 00", "OK 0 0 01c1035102000000"),
        look("07", "OK 0 0 00c4035002000000070000000000000000000000000000000013000000"),
        look("08", "OK 0 0 00c4035002000000080000000000000000000000000300000013000000"),
        look("09", "OK 0 0 00c4035002000000090000000000000000000000000000000013000000"),
    ];
    named("an R5 cluster shares nothing", steps)
}

/// Host 0 alone is left, which never sends.
fn nothing() -> Case {
    let mut steps = vec![board("", "board OK"), list_step(bench_list(), "list A5")];
    for processor in 1..=255u8 {
        let entry = format!("{processor:02X} 03 00 00 00 00 00 00 00");
        steps.push(list_step(list_with(&[&entry]), "list A5"));
    }
    steps.push(list_step(list_with(&[]), "list OK"));
    for host in 0..=255u8 {
        steps.push(sends(&format!("00 C0 {host:02X} 00 00 00 00 00 01"), "N2 0 0 -"));
    }
    named("the empty description is taken and leaves host 0 alone", steps)
}

fn no_processor() -> Case {
    let steps = vec![
        board("01 02 00 03 00", "board OK"),
        list_step(bench_list(), "list A5"),
        list_step(list_with(&[]), "list OK"),
        sends(REQUEST, "N6 0 0 00c0030700000000"),
        sends("20 C1 03 52 02 00 00 00 00 00 00 00 00 00 00 00", "N5 0 0 20c1035200000000"),
    ];
    named("hosts without a processor", steps)
}

/// The last host controls the last processor, and an entry for it has its own row.
fn full_board() -> Case {
    let steps = vec![
        board(&both(&hosts(64), &processors(32)), "board OK"),
        list_step(list_with(&["20 40 00 3F 00 00 00 00 00"]), "list OK"),
        Step::Status { words: vec![0x13] },
        sends("00 C0 3E 53 02 00 00 00 20", "N7 0 0 00c03e5300000000"),
        sends("00 C0 3E 53 02 00 00 00 1F", "OK 0 0 00c03e5302000000"),
        sends("00 C0 3F 54 02 00 00 00 20", "OK 0 0 00c03f5402000000"),
        sends("00 C0 40 55 02 00 00 00 20", "OK 0 0 00c0405502000000"),
        sends(
            "00 C1 40 56 02 00 00 00 20 11 00 00 00 22 00 00 00 0F 00 00 00 00 00 00 00",
            "OK 0 0 00c1405602000000",
        ),
        sends("01 C1 40 57 02 00 00 00 20 03 01 00 00 00 00 00 00", "OK 0 0 01c1405702000000"),
        sends(
            "00 C4 3F 58 02 00 00 00 20",
            "OK 0 0 00c43f58020000002011000000220000000f0000000301000013000000",
        ),
        sends(
            "00 C4 3E 59 02 00 00 00 1F",
            "OK 0 0 00c43e59020000001f0000000000000000000000000000000013000000",
        ),
        sends("00 C0 40 5A 02 00 00 00 21", "N6 0 0 00c0405a00000000"),
        sends("00 C0 41 5B 02 00 00 00 20", "N2 0 0 00c0415b00000000"),
    ];
    named("the last host and the last processor of a full board", steps)
}

/// Status words stay when a board is taken.
fn standing_words() -> Case {
    let steps = vec![
        Step::Status { words: vec![0x0403_0201] },
        board(THREE, "board OK"),
        list_step(list_with(&[]), "list OK"),
        sends(
            "00 C4 03 5C 02 00 00 00 0A",
            "OK 0 0 00c4035c020000000a0000000000000000000000000000000001020304",
        ),
    ];
    named("status words stand when a board is taken", steps)
}
