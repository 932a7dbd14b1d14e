//! The fixed cases: the pack on the bench, the change requests and the worked session, with what
//! they have to give.

use crate::access::Role;
use crate::block::Abi;
use crate::message::ANSWER_BYTES;
use crate::record::Tallies;

mod blocks;
mod boards;
mod cluster;
mod roles;
mod tallies;
mod waits;

/// One thing that happens in a case. The line is what has to be printed. No line tells the role
/// that the message before it has to report, nor the tallies that a processor has to have. Stored
/// tallies are put into the record memory, as no call does it.
#[derive(Clone, Debug)]
pub enum Step {
    Board { description: Vec<u8>, line: &'static str },
    List { list: Vec<u8>, line: &'static str },
    Block { abi: Abi, block: Vec<u8>, line: &'static str },
    Status { words: Vec<u32> },
    Message { channel: u8, message: Vec<u8>, room: usize, line: &'static str },
    Told { role: Role },
    Tallies { processor: u8, tallies: Tallies },
    Stored { processor: u8, tallies: Tallies },
}

/// A named run of steps from the start.
#[derive(Clone, Debug)]
pub struct Case {
    pub name: String,
    pub steps: Vec<Step>,
}

/// Host 3 requests processor 1, and the answer.
const REQUEST: &str = "00 C0 03 07 02 00 00 00 01";
const REQUEST_OK: &str = "OK 0 0 00c0030702000000";

/// Host 5 requests processor 1.
const REQUEST_BY_5: &str = "00 C0 05 01 02 00 00 00 01";
const REQUEST_BY_5_OK: &str = "OK 0 0 00c0050102000000";
const REQUEST_BY_5_N7: &str = "N7 0 0 00c0050100000000";

/// Hosts 3 and 5 release processor 1, which shows who controls it.
const RELEASE: &str = "01 C0 03 08 02 00 00 00 01";
const RELEASE_OK: &str = "OK 0 0 01c0030802000000";
const RELEASE_N7: &str = "N7 0 0 01c0030800000000";
const RELEASE_BY_5: &str = "01 C0 05 09 02 00 00 00 01";
const RELEASE_BY_5_OK: &str = "OK 0 0 01c0050902000000";
const RELEASE_BY_5_N7: &str = "N7 0 0 01c0050900000000";

/// Host 3 asks for the status of processor 1, which shows its vector.
const GET_STATUS: &str = "00 C4 03 0A 02 00 00 00 01";

/// Host 3 sets the config of processor 1.
const CONFIG_ALIGNED: &str =
    "00 C1 03 0B 02 00 00 00 01 80 00 C0 41 00 00 00 00 00 00 00 00 00 00 00 00";
const CONFIG_UNALIGNED: &str =
    "00 C1 03 0C 02 00 00 00 01 40 00 C0 41 00 00 00 00 00 00 00 00 00 00 00 00";
const CONFIG_NO_VECTOR: &str =
    "00 C1 03 0D 02 00 00 00 01 40 00 C0 41 00 00 00 00 00 00 00 00 00 00 00 10";

/// Host 3 waits on processor 1: waits 10, matches 2, delays 2 and 0, set-any 3, clear-all 0x10.
const WAIT: &str =
    "01 C4 03 0E 02 00 00 00 01 0A 02 02 00 00 00 00 00 03 00 00 00 10 00 00 00 00 00 00 00";

/// Every fixed case: those of document 01's board as it stands at the start, the same on that board
/// once it is described, those of other boards, all of these with their lists in blocks, and those
/// of blocks.
pub fn cases() -> Vec<Case> {
    let groups = [list_cases(), request_cases(), handover_cases(), config_cases(), wait_cases()];
    let mut cases = groups.concat();
    cases.extend(length_cases());
    cases.extend(open_cases());
    cases.extend(processor_cases());
    cases.extend(cluster::cases());
    cases.extend(roles::cases());
    cases.extend(waits::cases());
    cases.extend(tallies::cases());
    cases.push(worked_session());
    let described: Vec<_> = cases.iter().map(boards::described).collect();
    let full_boards = vec![roles::full_board(), tallies::full_board()];
    let listed = [cases, described, boards::cases(), full_boards].concat();
    let in_blocks = listed.iter().map(blocks::in_block).collect();
    [listed, in_blocks, blocks::cases()].concat()
}

/// The bytes that a text of hexadecimal pairs spells.
pub fn bytes_of(text: &str) -> Vec<u8> {
    let pair = |pair| u8::from_str_radix(pair, 16).expect("two hexadecimal digits");
    text.split_whitespace().map(pair).collect()
}

/// The list of the bench.
pub fn bench_list() -> Vec<u8> {
    list_with(&["01 03 00 05 00 00 00 00 00", "02 03 00 06 00 0A 00 00 00"])
}

/// A block with the list of the bench and a hierarchy of some hosts.
pub fn bench_block() -> Vec<u8> {
    blocks::block_with(&bench_list(), &["0A 00", "03 0A", "05 03", "06 03"])
}

/// A list with these entries, and zeros behind them.
fn list_with(entries: &[&str]) -> Vec<u8> {
    let mut list = bytes_of("EA F1 24 01");
    entries.iter().for_each(|entry| list.extend(bytes_of(entry)));
    list.resize(292, 0);
    list
}

fn list_step(list: Vec<u8>, line: &'static str) -> Step {
    Step::List { list, line }
}

fn sends(message: &str, line: &'static str) -> Step {
    sends_bytes(bytes_of(message), ANSWER_BYTES, line)
}

/// A message that comes by the channel of the host in its header.
fn sends_bytes(message: Vec<u8>, room: usize, line: &'static str) -> Step {
    Step::Message { channel: message[2], message, room, line }
}

/// A case that starts with the bench list.
fn case(name: &str, steps: &[Step]) -> Case {
    let first = list_step(bench_list(), "list OK");
    Case { name: name.to_string(), steps: [&[first], steps].concat() }
}

/// A case that starts with the bench list and host 3 controlling processor 1.
fn controlled(name: &str, steps: &[Step]) -> Case {
    case(name, &[&[sends(REQUEST, REQUEST_OK)], steps].concat())
}

fn list_cases() -> Vec<Case> {
    let mut master_266 = bench_list();
    master_266[5..7].copy_from_slice(&bytes_of("0A 01"));
    let short = bench_list()[..291].to_vec();
    vec![
        case("list accepted", &[]),
        case("second list", &[list_step(bench_list(), "list A1")]),
        Case { name: "master 266".to_string(), steps: vec![list_step(master_266, "list A7")] },
        Case { name: "291 bytes".to_string(), steps: vec![list_step(short, "list A2")] },
    ]
}

fn request_cases() -> Vec<Case> {
    vec![
        controlled("request", &[]),
        controlled("request of a held processor", &[sends(REQUEST_BY_5, REQUEST_BY_5_N7)]),
        controlled(
            "request again by the recovery master",
            &[
                sends(REQUEST_BY_5, REQUEST_BY_5_N7),
                sends(REQUEST, REQUEST_OK),
                sends(RELEASE, RELEASE_OK),
            ],
        ),
        case(
            "request again by a secondary",
            &[
                sends(REQUEST_BY_5, REQUEST_BY_5_OK),
                sends(REQUEST_BY_5, REQUEST_BY_5_N7),
                sends(RELEASE_BY_5, RELEASE_BY_5_OK),
            ],
        ),
        case(
            "recovery master takes over",
            &[
                sends(REQUEST_BY_5, REQUEST_BY_5_OK),
                sends(REQUEST, REQUEST_OK),
                sends(RELEASE_BY_5, RELEASE_BY_5_N7),
                sends(RELEASE, RELEASE_OK),
            ],
        ),
    ]
}

fn handover_cases() -> Vec<Case> {
    vec![
        controlled(
            "handover to a permitted host",
            &[
                sends("05 C0 03 0F 02 00 00 00 01 05", "OK 0 0 05c0030f02000000"),
                sends(RELEASE, RELEASE_N7),
                sends(RELEASE_BY_5, RELEASE_BY_5_OK),
            ],
        ),
        controlled(
            "handover to another host",
            &[
                sends("05 C0 03 10 02 00 00 00 01 06", "N8 0 0 05c0031000000000"),
                sends(RELEASE, RELEASE_OK),
            ],
        ),
        controlled(
            "handover to host 0",
            &[
                sends("05 C0 03 11 02 00 00 00 01 00", "N8 0 0 05c0031100000000"),
                sends(RELEASE, RELEASE_OK),
            ],
        ),
    ]
}

fn config_cases() -> Vec<Case> {
    let status = Step::Status { words: vec![0x13] };
    let none = "OK 0 0 00c4030a02000000010000000000000000000000000000000013000000";
    let stored = "OK 0 0 00c4030a02000000018000c04100000000000000000000000013000000";
    vec![
        controlled(
            "config with an aligned vector",
            &[
                status.clone(),
                sends(CONFIG_ALIGNED, "OK 0 0 00c1030b02000000"),
                sends(GET_STATUS, stored),
            ],
        ),
        controlled(
            "config with an unaligned vector",
            &[
                status.clone(),
                sends(CONFIG_UNALIGNED, "N8 0 0 00c1030c00000000"),
                sends(GET_STATUS, none),
            ],
        ),
        controlled(
            "config without a vector",
            &[
                status.clone(),
                sends(CONFIG_NO_VECTOR, "OK 0 0 00c1030d02000000"),
                sends(GET_STATUS, none),
            ],
        ),
        controlled(
            "config without a vector keeps the one there is",
            &[
                status,
                sends(CONFIG_ALIGNED, "OK 0 0 00c1030b02000000"),
                sends(CONFIG_NO_VECTOR, "OK 0 0 00c1030d02000000"),
                sends(GET_STATUS, stored),
            ],
        ),
    ]
}

fn wait_cases() -> Vec<Case> {
    let run = Step::Status { words: vec![0, 2, 0x12, 1, 2, 0, 0, 0, 0, 0] };
    let alternating = Step::Status { words: [2, 0].repeat(5) };
    vec![
        case("wait that ends", &[run, sends(WAIT, "OK 5 10 01c4030e02000000")]),
        case("wait that runs out", &[alternating, sends(WAIT, "N9 10 20 01c4030e00000000")]),
    ]
}

fn length_cases() -> Vec<Case> {
    let resized = |length| {
        let mut message = bytes_of(REQUEST);
        message.resize(length, 0);
        message
    };
    let sized = |length, room, line| sends_bytes(resized(length), room, line);
    vec![
        case("7 bytes", &[sized(7, ANSWER_BYTES, "R2 0 0 -")]),
        case("8 bytes", &[sized(8, ANSWER_BYTES, "N4 0 0 00c0030700000000")]),
        case("60 bytes", &[sized(60, ANSWER_BYTES, REQUEST_OK)]),
        case("61 bytes", &[sized(61, ANSWER_BYTES, "R2 0 0 -")]),
        case("buffer of 28", &[sized(9, ANSWER_BYTES - 1, "R1 0 0 -")]),
    ]
}

/// Errors that the sources invite: status kept for the controller alone, and a processor without an
/// entry taken as closed.
fn open_cases() -> Vec<Case> {
    let status = Step::Status { words: vec![0x13] };
    let answer = "OK 0 0 00c4051202000000010000000000000000000000000000000013000000";
    vec![
        controlled(
            "status for a permitted host",
            &[status, sends("00 C4 05 12 02 00 00 00 01", answer)],
        ),
        case(
            "processor without an entry",
            &[
                sends("00 C0 0D 13 02 00 00 00 20", "OK 0 0 00c00d1302000000"),
                sends("05 C0 0D 14 02 00 00 00 20 04", "OK 0 0 05c00d1402000000"),
                sends("00 C0 04 15 02 00 00 00 20", "N7 0 0 00c0041500000000"),
                sends("05 C0 04 16 02 00 00 00 20 00", "N8 0 0 05c0041600000000"),
            ],
        ),
    ]
}

/// Every processor byte: which are on the board, in messages and in lists, and that each of those has
/// a vector and config of its own.
fn processor_cases() -> Vec<Case> {
    let with = |message: &str, byte: u8| [bytes_of(message), vec![byte]].concat();
    let requests = (0..=255).map(|byte| {
        let line = if on_board(byte) { REQUEST_OK } else { "N6 0 0 00c0030700000000" };
        sends_bytes(with("00 C0 03 07 02 00 00 00", byte), ANSWER_BYTES, line)
    });
    let configs = [
        "00 C1 03 17 00 00 00 00 01 80 00 00 00 01 00 00 00 01 00 00 00 00 00 00 00",
        "00 C1 03 17 00 00 00 00 02 00 01 00 00 02 00 00 00 02 00 00 00 00 00 00 00",
        "00 C1 03 17 00 00 00 00 20 03 00 00 00 03 00 00 00 04 00 00 00 00 00 00 00",
        "00 C1 03 17 00 00 00 00 21 04 00 00 00 04 00 00 00 08 00 00 00 00 00 00 00",
    ];
    let reads = (0..=255).map(|byte| {
        let line = match byte {
            1 => "OK 0 0 00c4031802000000018000000001000000010000000000000013000000",
            2 => "OK 0 0 00c4031802000000020001000002000000020000000000000013000000",
            32 => "OK 0 0 00c4031802000000200300000003000000040000000000000013000000",
            33 => "OK 0 0 00c4031802000000210400000004000000080000000000000013000000",
            _ => "N6 0 0 00c4031800000000",
        };
        sends_bytes(with("00 C4 03 18 02 00 00 00", byte), ANSWER_BYTES, line)
    });
    let mut steps: Vec<_> = requests.collect();
    steps.extend(configs.map(|message| sends(message, "OK 0 0 -")));
    steps.push(Step::Status { words: vec![0x13] });
    steps.extend(reads);
    vec![case("every processor byte in messages", &steps), listed_processors()]
}

/// Lists whose first entry names each processor byte that is not on the board, and then one that is.
fn listed_processors() -> Case {
    let naming = |byte: u8| {
        let mut list = bench_list();
        list[4..].fill(0);
        list[4..7].copy_from_slice(&[byte, 3, 0]);
        list
    };
    let refused = (1..=255).filter(|&byte| !on_board(byte));
    let mut steps: Vec<_> = refused.map(|byte| list_step(naming(byte), "list A5")).collect();
    steps.push(list_step(naming(33), "list OK"));
    steps.push(list_step(naming(3), "list A1"));
    Case { name: "every processor byte in lists".to_string(), steps }
}

fn on_board(byte: u8) -> bool {
    [1, 2, 32, 33].contains(&byte)
}

fn worked_session() -> Case {
    let steps = [
        sends("00 C0 03 07 02 00 00 00 01", "OK 0 0 00c0030702000000"),
        sends("00 C0 05 01 02 00 00 00 01", "N7 0 0 00c0050100000000"),
        sends("01 C0 03 08 00 00 00 00 01", "OK 0 0 -"),
    ];
    case("worked session", &steps)
}
