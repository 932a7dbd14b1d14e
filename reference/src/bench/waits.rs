//! The fixed cases of waits whose matches are above, equal to or below their waits. Host 3 controls
//! processor 1, and a look at the end of each case shows that its record is as it was.

use super::{bytes_of, controlled, sends, sends_bytes, Case, Step, RELEASE, RELEASE_OK};
use crate::message::ANSWER_BYTES;

/// Host 3 gives processor 1 a vector, a config word and a control word, and asks for its status.
const CONFIG: &str = "00 C1 03 A0 02 00 00 00 01 80 00 C0 41 02 00 00 00 01 00 00 00 00 00 00 00";
const CONFIG_OK: &str = "OK 0 0 00c103a002000000";
const CONTROL: &str = "01 C1 03 A1 02 00 00 00 01 03 00 00 00 00 00 00 00";
const CONTROL_OK: &str = "OK 0 0 01c103a102000000";
const STATUS: &str = "00 C4 03 A2 02 00 00 00 01";
const STATUS_OK: &str = "OK 0 0 00c403a202000000018000c04102000000010000000300000013000000";

/// Host 3 waits on processor 1 and asks for an answer, or not. Host 6 is not permitted for it.
const ASKED: &str = "01 C4 03 A3 02 00 00 00 01";
const SILENT: &str = "01 C4 03 A4 00 00 00 00 01";
const BY_6: &str = "01 C4 06 A5 02 00 00 00 01";

/// Delays of 2 and 5, and set-all 1.
const RUN: &str = "02 05 01 00 00 00 00 00 00 00 00 00 00 00 00 00 00 00";

/// The same with clear-all 1, and with no mask at all.
const CONTRADICTION: &str = "02 05 01 00 00 00 00 00 00 00 01 00 00 00 00 00 00 00";
const NO_MASK: &str = "02 05 00 00 00 00 00 00 00 00 00 00 00 00 00 00 00 00";

/// The lines of the wait that asks for an answer.
const ASKED_N8: &str = "N8 0 0 01c403a300000000";
const RAN_OUT_AT_3: &str = "N9 3 11 01c403a300000000";
const OVER_AT_3: &str = "OK 3 11 01c403a302000000";
const OVER_AT_254: &str = "OK 254 513 01c403a302000000";

/// Every case of these waits.
pub(super) fn cases() -> Vec<Case> {
    vec![above(), equal(), below(), limits(), zeros(), order(), contradiction()]
}

/// A case with steps that leave the record of processor 1.
fn kept(name: &str, steps: &[&[Step]]) -> Case {
    let before = [sends(CONFIG, CONFIG_OK), sends(CONTROL, CONTROL_OK)];
    let behind = [words(&[0x13]), sends(STATUS, STATUS_OK), sends(RELEASE, RELEASE_OK)];
    controlled(name, &[&before, steps.concat().as_slice(), &behind].concat())
}

fn words(words: &[u32]) -> Step {
    Step::Status { words: words.to_vec() }
}

/// A wait with these waits and matches, and then delays and masks.
fn wait(head: &str, counts: [u8; 2], rest: &str, line: &'static str) -> Step {
    sends_bytes([bytes_of(head), counts.to_vec(), bytes_of(rest)].concat(), ANSWER_BYTES, line)
}

/// A wait that asks for an answer.
fn asks(counts: [u8; 2], line: &'static str) -> Step {
    wait(ASKED, counts, RUN, line)
}

/// Whatever words are lent, they are not looked at.
fn above() -> Case {
    let lent: [&[u32]; 6] = [&[], &[1; 2], &[1; 3], &[0; 3], &[1; 4], &[1; 255]];
    let refused = |status: &&[u32]| {
        [words(status), asks([3, 4], ASKED_N8), wait(SILENT, [3, 4], RUN, "N8 0 0 -")]
    };
    let steps: Vec<_> = lent.iter().flat_map(refused).collect();
    kept("matches above waits", &[&steps])
}

/// Every checked word has to match, and there have to be as many as waits.
fn equal() -> Case {
    kept(
        "matches equal to waits",
        &[
            &[words(&[1; 3]), asks([3, 3], OVER_AT_3)],
            &[wait(SILENT, [3, 3], RUN, "OK 3 11 -")],
            &[words(&[0, 1, 1, 1]), asks([3, 3], RAN_OUT_AT_3)],
            &[words(&[1, 0, 1]), asks([3, 3], RAN_OUT_AT_3)],
            &[
                words(&[1, 1, 0]),
                asks([3, 3], RAN_OUT_AT_3),
                wait(SILENT, [3, 3], RUN, "N9 3 11 -"),
            ],
            &[words(&[1; 2]), asks([3, 3], "R3 0 0 -")],
            &[words(&[]), asks([3, 3], "R3 0 0 -")],
        ],
    )
}

fn below() -> Case {
    kept(
        "matches below waits",
        &[
            &[words(&[1; 4]), asks([4, 3], OVER_AT_3)],
            &[words(&[0, 1, 1, 1]), asks([4, 3], "OK 4 13 01c403a302000000")],
            &[words(&[1, 1, 0, 1]), asks([4, 3], "N9 4 13 01c403a300000000")],
            &[words(&[1; 3]), asks([4, 3], "R3 0 0 -")],
        ],
    )
}

/// The smallest and the largest numbers.
fn limits() -> Case {
    kept(
        "matches above and equal to waits at their limits",
        &[
            &[words(&[1; 255]), asks([1, 1], "OK 1 7 01c403a302000000")],
            &[asks([1, 2], ASKED_N8), asks([1, 255], ASKED_N8), asks([253, 255], ASKED_N8)],
            &[asks([254, 254], OVER_AT_254), asks([254, 255], ASKED_N8)],
            &[asks([255, 254], OVER_AT_254)],
            &[asks([255, 255], "OK 255 515 01c403a302000000")],
        ],
    )
}

/// Waits or matches of 0 are refused as before, also where they are equal.
fn zeros() -> Case {
    let refused = [[0, 0], [0, 1], [0, 255], [1, 0], [255, 0]].map(|counts| asks(counts, ASKED_N8));
    kept("waits or matches of 0", &[&[words(&[1; 255])], &refused])
}

/// The right is tested before the operands, of which several may be wrong, and these before the
/// words.
fn order() -> Case {
    kept(
        "matches above waits in the order of the tests",
        &[
            &[wait(BY_6, [3, 4], RUN, "N7 0 0 01c406a500000000")],
            &[wait(ASKED, [3, 4], NO_MASK, ASKED_N8), wait(ASKED, [3, 3], NO_MASK, ASKED_N8)],
            &[asks([3, 4], ASKED_N8), asks([3, 3], "R3 0 0 -")],
        ],
    )
}

/// Masks that no word can match are no wrong operands.
fn contradiction() -> Case {
    kept(
        "masks that no word can match",
        &[
            &[words(&[0, 1, u32::MAX]), wait(ASKED, [3, 1], CONTRADICTION, RAN_OUT_AT_3)],
            &[wait(ASKED, [3, 3], CONTRADICTION, RAN_OUT_AT_3)],
            &[wait(ASKED, [3, 4], CONTRADICTION, ASKED_N8)],
            &[words(&[0, 1]), wait(ASKED, [3, 3], CONTRADICTION, "R3 0 0 -")],
        ],
    )
}
