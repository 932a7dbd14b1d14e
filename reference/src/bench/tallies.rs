//! The fixed cases of tallies: which messages count, and in which of the four. No line and no
//! answer tells them.

use super::boards::{board, both, hosts, named, processors};
use super::{
    bench_block, bench_list, bytes_of, case, controlled, list_step, list_with, sends, sends_bytes,
    Case, Step, CONFIG_ALIGNED, GET_STATUS, RELEASE, RELEASE_BY_5, RELEASE_BY_5_N7,
    RELEASE_BY_5_OK, RELEASE_N7, RELEASE_OK, REQUEST, REQUEST_BY_5, REQUEST_BY_5_N7,
    REQUEST_BY_5_OK, REQUEST_OK, WAIT,
};
use crate::message::ANSWER_BYTES;
use crate::record::Tallies;

/// Hosts 3 and 5 hand processor 1 to each other, and to themselves.
const FROM_3_TO_5: &str = "05 C0 03 B0 02 00 00 00 01 05";
const FROM_3_TO_5_OK: &str = "OK 0 0 05c003b002000000";
const FROM_3_TO_5_N7: &str = "N7 0 0 05c003b000000000";
const FROM_5_TO_3: &str = "05 C0 05 B1 02 00 00 00 01 03";
const FROM_5_TO_3_OK: &str = "OK 0 0 05c005b102000000";
const FROM_5_TO_3_N7: &str = "N7 0 0 05c005b100000000";
const FROM_3_TO_3: &str = "05 C0 03 B2 02 00 00 00 01 03";
const FROM_3_TO_3_OK: &str = "OK 0 0 05c003b202000000";
const FROM_5_TO_5: &str = "05 C0 05 B3 02 00 00 00 01 05";
const FROM_5_TO_5_OK: &str = "OK 0 0 05c005b302000000";

/// The largest number, at which a tally stays.
const MOST: u32 = 4_294_967_295;

/// Every case of tallies on the first board.
pub(super) fn cases() -> Vec<Case> {
    vec![
        grants(),
        overrides(),
        handovers(),
        refusals(),
        earlier_refusals(),
        unanswered(),
        processors_apart(),
        other_messages(),
        before_the_list(),
        under_a_block(),
        to_the_largest_number(),
        at_the_largest_number(),
        each_at_the_largest_number(),
    ]
}

/// What the tallies of a processor have to be: grants, overrides, handovers, releases.
fn has(processor: u8, tallies: [u32; 4]) -> Step {
    Step::Tallies { processor, tallies: Tallies::from_words(tallies) }
}

/// Puts tallies into the record memory.
fn stores(processor: u8, tallies: [u32; 4]) -> Step {
    Step::Stored { processor, tallies: Tallies::from_words(tallies) }
}

/// A message, and the tallies of processor 1 behind it.
fn counts(message: &str, line: &'static str, tallies: [u32; 4]) -> [Step; 2] {
    [sends(message, line), has(1, tallies)]
}

/// To a secondary and to the recovery master, each with its release.
fn grants() -> Case {
    let steps = [
        counts(REQUEST_BY_5, REQUEST_BY_5_OK, [1, 0, 0, 0]),
        counts(RELEASE_BY_5, RELEASE_BY_5_OK, [1, 0, 0, 1]),
        counts(REQUEST, REQUEST_OK, [2, 0, 0, 1]),
        counts(RELEASE, RELEASE_OK, [2, 0, 0, 2]),
    ];
    case("grants and releases counted", &[&[has(1, [0; 4])], &steps.concat()[..]].concat())
}

/// The recovery master takes the processor; what it asks for again it has already.
fn overrides() -> Case {
    let steps = [
        counts(REQUEST_BY_5, REQUEST_BY_5_OK, [1, 0, 0, 0]),
        counts(REQUEST, REQUEST_OK, [1, 1, 0, 0]),
        counts(REQUEST, REQUEST_OK, [1, 1, 0, 0]),
        counts(FROM_3_TO_5, FROM_3_TO_5_OK, [1, 1, 1, 0]),
        counts(REQUEST, REQUEST_OK, [1, 2, 1, 0]),
        counts(RELEASE, RELEASE_OK, [1, 2, 1, 1]),
        counts(REQUEST, REQUEST_OK, [2, 2, 1, 1]),
        counts(REQUEST, REQUEST_OK, [2, 2, 1, 1]),
    ];
    case("overrides counted", &steps.concat())
}

/// One to oneself counts nowhere.
fn handovers() -> Case {
    let steps = [
        counts(FROM_3_TO_3, FROM_3_TO_3_OK, [1, 0, 0, 0]),
        counts(FROM_3_TO_5, FROM_3_TO_5_OK, [1, 0, 1, 0]),
        counts(FROM_5_TO_5, FROM_5_TO_5_OK, [1, 0, 1, 0]),
        counts(FROM_5_TO_3, FROM_5_TO_3_OK, [1, 0, 2, 0]),
        counts(FROM_3_TO_3, FROM_3_TO_3_OK, [1, 0, 2, 0]),
        counts(RELEASE, RELEASE_OK, [1, 0, 2, 1]),
    ];
    controlled("handovers counted", &steps.concat())
}

/// By hosts without the right, of a held processor and of a free one, and with a wrong new host.
fn refusals() -> Case {
    let to_6 = "05 C0 03 B4 02 00 00 00 01 06";
    let to_0 = "05 C0 03 B5 02 00 00 00 01 00";
    let request_by_6 = "00 C0 06 B6 02 00 00 00 01";
    let held = [
        counts(REQUEST_BY_5, REQUEST_BY_5_N7, [1, 0, 0, 0]),
        counts(request_by_6, "N7 0 0 00c006b600000000", [1, 0, 0, 0]),
        counts(FROM_5_TO_3, FROM_5_TO_3_N7, [1, 0, 0, 0]),
        counts(to_6, "N8 0 0 05c003b400000000", [1, 0, 0, 0]),
        counts(to_0, "N8 0 0 05c003b500000000", [1, 0, 0, 0]),
        counts(RELEASE_BY_5, RELEASE_BY_5_N7, [1, 0, 0, 0]),
    ];
    let free = [
        counts(RELEASE, RELEASE_OK, [1, 0, 0, 1]),
        counts(RELEASE, RELEASE_N7, [1, 0, 0, 1]),
        counts(FROM_3_TO_5, FROM_3_TO_5_N7, [1, 0, 0, 1]),
        counts(request_by_6, "N7 0 0 00c006b600000000", [1, 0, 0, 1]),
        counts(REQUEST_BY_5, REQUEST_BY_5_OK, [2, 0, 0, 1]),
        counts(REQUEST_BY_5, REQUEST_BY_5_N7, [2, 0, 0, 1]),
    ];
    controlled("refusals counted nowhere", &[held.concat(), free.concat()].concat())
}

/// Requests of the recovery master that are refused before N7.
fn earlier_refusals() -> Case {
    let sized = |length, room, line| {
        let mut message = bytes_of(REQUEST);
        message.resize(length, 0);
        [sends_bytes(message, room, line), has(1, [1, 0, 0, 0])]
    };
    let by_7 = [
        Step::Message {
            channel: 7,
            message: bytes_of(REQUEST),
            room: ANSWER_BYTES,
            line: "N2 0 0 00c0030700000000",
        },
        has(1, [1, 0, 0, 0]),
    ];
    let steps = [
        counts(REQUEST_BY_5, REQUEST_BY_5_OK, [1, 0, 0, 0]),
        sized(9, ANSWER_BYTES - 1, "R1 0 0 -"),
        sized(61, ANSWER_BYTES, "R2 0 0 -"),
        by_7,
        counts("02 C0 03 B7 02 00 00 00 01", "N3 0 0 02c003b700000000", [1, 0, 0, 0]),
        sized(8, ANSWER_BYTES, "N4 0 0 00c0030700000000"),
        counts("00 C0 03 B8 02 00 00 00 03", "N6 0 0 00c003b800000000", [1, 0, 0, 0]),
        counts(REQUEST, REQUEST_OK, [1, 1, 0, 0]),
    ];
    case("refusals before N7 counted nowhere", &steps.concat())
}

/// Messages that ask for no answer, some with all other flag bits.
fn unanswered() -> Case {
    let steps = [
        counts("00 C0 05 B9 00 00 00 00 01", "OK 0 0 -", [1, 0, 0, 0]),
        counts("00 C0 03 BA 00 00 00 00 01", "OK 0 0 -", [1, 1, 0, 0]),
        counts("05 C0 03 BB 00 00 00 00 01 05", "OK 0 0 -", [1, 1, 1, 0]),
        counts("01 C0 05 BC 00 00 00 00 01", "OK 0 0 -", [1, 1, 1, 1]),
        counts("01 C0 05 BC 00 00 00 00 01", "N7 0 0 -", [1, 1, 1, 1]),
        counts("00 C0 05 BD FD FF FF FF 01", "OK 0 0 -", [2, 1, 1, 1]),
        counts("00 C0 03 BE FD FF FF FF 01", "OK 0 0 -", [2, 2, 1, 1]),
        counts("05 C0 03 BF FD FF FF FF 01 05", "OK 0 0 -", [2, 2, 2, 1]),
        counts("01 C0 05 C0 FD FF FF FF 01", "OK 0 0 -", [2, 2, 2, 2]),
    ];
    case("unanswered messages counted", &steps.concat())
}

/// Also those of the cluster, which share a control word and no tally.
fn processors_apart() -> Case {
    let all = |tallies: [[u32; 4]; 4]| {
        [has(1, tallies[0]), has(2, tallies[1]), has(32, tallies[2]), has(33, tallies[3])]
    };
    let none = [0; 4];
    let one = [1, 0, 0, 0];
    let handed = "05 C0 0C C4 02 00 00 00 20 0D";
    let set_1_through_32 = "01 C1 0D C5 02 00 00 00 20 01 00 00 00 00 00 00 00";
    let steps = [
        vec![sends("00 C0 0C C1 02 00 00 00 20", "OK 0 0 00c00cc102000000")],
        all([none, none, one, none]).to_vec(),
        vec![sends("00 C0 06 C2 02 00 00 00 02", "OK 0 0 00c006c202000000")],
        all([none, one, one, none]).to_vec(),
        vec![sends("00 C0 0D C3 02 00 00 00 21", "OK 0 0 00c00dc302000000")],
        all([none, one, one, one]).to_vec(),
        vec![sends(handed, "OK 0 0 05c00cc402000000")],
        vec![sends(set_1_through_32, "OK 0 0 01c10dc502000000")],
        all([none, one, [1, 0, 1, 0], one]).to_vec(),
        vec![sends("01 C0 0D C6 02 00 00 00 21", "OK 0 0 01c00dc602000000")],
        all([none, one, [1, 0, 1, 0], [1, 0, 0, 1]]).to_vec(),
        vec![sends("00 C0 03 C7 02 00 00 00 02", "OK 0 0 00c003c702000000")],
        vec![sends(REQUEST, REQUEST_OK)],
        all([one, [1, 1, 0, 0], [1, 0, 1, 0], [1, 0, 0, 1]]).to_vec(),
    ];
    case("tallies of each processor apart", &steps.concat())
}

/// What the controller does besides, and authenticated boot, which is refused.
fn other_messages() -> Case {
    let boot = "20 C1 03 C8 02 00 00 00 01 00 00 00 00 00 00 00";
    let control = "01 C1 03 C9 02 00 00 00 01 03 00 00 00 00 00 00 00";
    let shown = "OK 0 0 00c4030a02000000018000c04100000000000000000300000013000000";
    let steps = [
        counts(CONFIG_ALIGNED, "OK 0 0 00c1030b02000000", [1, 0, 0, 0]),
        counts(control, "OK 0 0 01c103c902000000", [1, 0, 0, 0]),
        counts(GET_STATUS, shown, [1, 0, 0, 0]),
        counts(WAIT, "N9 10 20 01c4030e00000000", [1, 0, 0, 0]),
        counts(boot, "N5 0 0 20c103c800000000", [1, 0, 0, 0]),
    ];
    let words = |words: &[u32]| Step::Status { words: words.to_vec() };
    let over = counts(WAIT, "OK 2 4 01c4030e02000000", [1, 0, 0, 0]);
    let steps = [&[words(&[0x13; 10])], &steps.concat()[..], &[words(&[1; 10])], &over].concat();
    controlled("other messages counted nowhere", &steps)
}

/// Counting starts with the list, and what is offered behind it leaves the tallies.
fn before_the_list() -> Case {
    let refused = list_with(&["01 0A 01 05 00 00 00 00 00"]);
    let block = Step::Block { abi: [0, 1], block: bench_block(), line: "block A1" };
    let steps = [
        counts(REQUEST, "N1 0 0 00c0030700000000", [0; 4]).to_vec(),
        vec![list_step(refused, "list A7"), has(1, [0; 4])],
        counts(REQUEST, "N1 0 0 00c0030700000000", [0; 4]).to_vec(),
        vec![list_step(bench_list(), "list OK"), has(1, [0; 4])],
        counts(REQUEST_BY_5, REQUEST_BY_5_OK, [1, 0, 0, 0]).to_vec(),
        counts(REQUEST, REQUEST_OK, [1, 1, 0, 0]).to_vec(),
        vec![list_step(bench_list(), "list A1"), has(1, [1, 1, 0, 0])],
        vec![block, has(1, [1, 1, 0, 0])],
        vec![board("", "board A1"), has(1, [1, 1, 0, 0])],
        counts(RELEASE, RELEASE_OK, [1, 1, 0, 1]).to_vec(),
    ];
    named("tallies before, under and behind the list", steps.concat())
}

/// Counting starts with the block as it does with a list.
fn under_a_block() -> Case {
    let block = |line| Step::Block { abi: [0, 1], block: bench_block(), line };
    let steps = [
        counts(REQUEST, "N1 0 0 00c0030700000000", [0; 4]).to_vec(),
        vec![block("block OK"), has(1, [0; 4])],
        counts(REQUEST_BY_5, REQUEST_BY_5_OK, [1, 0, 0, 0]).to_vec(),
        counts(REQUEST, REQUEST_OK, [1, 1, 0, 0]).to_vec(),
        vec![block("block A1"), list_step(bench_list(), "list A1"), has(1, [1, 1, 0, 0])],
        counts(FROM_3_TO_5, FROM_3_TO_5_OK, [1, 1, 1, 0]).to_vec(),
        counts(RELEASE_BY_5, RELEASE_BY_5_OK, [1, 1, 1, 1]).to_vec(),
    ];
    named("tallies under a block", steps.concat())
}

/// From one below it, each by its own kind of message.
fn to_the_largest_number() -> Case {
    const BELOW: u32 = MOST - 1;
    let steps = [
        counts(REQUEST_BY_5, REQUEST_BY_5_OK, [MOST, BELOW, BELOW, BELOW]),
        counts(REQUEST, REQUEST_OK, [MOST, MOST, BELOW, BELOW]),
        counts(FROM_3_TO_5, FROM_3_TO_5_OK, [MOST, MOST, MOST, BELOW]),
        counts(RELEASE_BY_5, RELEASE_BY_5_OK, [MOST; 4]),
    ];
    let start = [stores(1, [BELOW; 4]), stores(2, [7; 4])];
    case("tallies to 4294967295", &[&start, &steps.concat()[..], &[has(2, [7; 4])]].concat())
}

/// Every message is carried out all the same, as the next one shows.
fn at_the_largest_number() -> Case {
    let steps = [
        counts(REQUEST_BY_5, REQUEST_BY_5_OK, [MOST; 4]),
        counts(REQUEST_BY_5, REQUEST_BY_5_N7, [MOST; 4]),
        counts(REQUEST, REQUEST_OK, [MOST; 4]),
        counts(RELEASE_BY_5, RELEASE_BY_5_N7, [MOST; 4]),
        counts(REQUEST, REQUEST_OK, [MOST; 4]),
        counts(FROM_3_TO_5, FROM_3_TO_5_OK, [MOST; 4]),
        counts(RELEASE, RELEASE_N7, [MOST; 4]),
        counts(FROM_5_TO_5, FROM_5_TO_5_OK, [MOST; 4]),
        counts(RELEASE_BY_5, RELEASE_BY_5_OK, [MOST; 4]),
        counts(RELEASE_BY_5, RELEASE_BY_5_N7, [MOST; 4]),
    ];
    case("tallies at 4294967295", &[&[stores(1, [MOST; 4])], &steps.concat()[..]].concat())
}

/// One tally after the other is at its largest number, and the others go on.
fn each_at_the_largest_number() -> Case {
    let round = |start: [u32; 4], [first, second, third, fourth]: [[u32; 4]; 4]| {
        let steps = [
            counts(REQUEST_BY_5, REQUEST_BY_5_OK, first),
            counts(REQUEST, REQUEST_OK, second),
            counts(FROM_3_TO_5, FROM_3_TO_5_OK, third),
            counts(RELEASE_BY_5, RELEASE_BY_5_OK, fourth),
        ];
        [&[stores(1, start)], &steps.concat()[..]].concat()
    };
    let steps = [
        round(
            [MOST, 0, 255, 65_535],
            [
                [MOST, 0, 255, 65_535],
                [MOST, 1, 255, 65_535],
                [MOST, 1, 256, 65_535],
                [MOST, 1, 256, 65_536],
            ],
        ),
        round(
            [0, MOST, 0, 0],
            [[1, MOST, 0, 0], [1, MOST, 0, 0], [1, MOST, 1, 0], [1, MOST, 1, 1]],
        ),
        round(
            [0, 0, MOST, 0],
            [[1, 0, MOST, 0], [1, 1, MOST, 0], [1, 1, MOST, 0], [1, 1, MOST, 1]],
        ),
        round(
            [0, 0, 0, MOST],
            [[1, 0, 0, MOST], [1, 1, 0, MOST], [1, 1, 1, MOST], [1, 1, 1, MOST]],
        ),
    ];
    case("one tally at 4294967295", &steps.concat())
}

/// The last row counts in its own words, and the row before it keeps none.
pub(super) fn full_board() -> Case {
    let steps = [
        sends("00 C0 3F CA 02 00 00 00 20", "OK 0 0 00c03fca02000000"),
        sends("00 C0 40 CB 02 00 00 00 20", "OK 0 0 00c040cb02000000"),
        has(32, [1, 1, 0, 0]),
        sends("05 C0 40 CC 02 00 00 00 20 3E", "OK 0 0 05c040cc02000000"),
        sends("01 C0 3E CD 02 00 00 00 20", "OK 0 0 01c03ecd02000000"),
        has(32, [1, 1, 1, 1]),
        has(31, [0; 4]),
        sends("00 C0 01 CE 02 00 00 00 1F", "OK 0 0 00c001ce02000000"),
        has(31, [1, 0, 0, 0]),
        has(32, [1, 1, 1, 1]),
        has(1, [0; 4]),
    ];
    let start = [
        board(&both(&hosts(64), &processors(32)), "board OK"),
        list_step(list_with(&["20 40 00 3F 00 3E 00 3D 00"]), "list OK"),
    ];
    named("tallies in the last row of a full board", [&start[..], &steps].concat())
}
