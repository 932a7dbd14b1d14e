//! The fixed cases of the application cores 32 and 33, which form one cluster and have one control
//! word. The bench list has no entry for them, so that every host may request either.

use super::{case, list_step, list_with, sends, Case, Step};

/// Host 12 requests processor 32, and host 13 processor 33.
const REQUEST_32: &str = "00 C0 0C 20 02 00 00 00 20";
const REQUEST_32_OK: &str = "OK 0 0 00c00c2002000000";
const REQUEST_33: &str = "00 C0 0D 21 02 00 00 00 21";
const REQUEST_33_OK: &str = "OK 0 0 00c00d2102000000";

/// Host 4, which controls neither, asks for the status of 32 and of 33.
const STATUS_32: &str = "00 C4 04 22 02 00 00 00 20";
const STATUS_33: &str = "00 C4 04 23 02 00 00 00 21";

/// The status of 32 and of 33 with the same control word, and with no vector and no config.
const SHOW_0: [&str; 2] = [
    "OK 0 0 00c4042202000000200000000000000000000000000000000013000000",
    "OK 0 0 00c4042302000000210000000000000000000000000000000013000000",
];
const SHOW_1: [&str; 2] = [
    "OK 0 0 00c4042202000000200000000000000000000000000100000013000000",
    "OK 0 0 00c4042302000000210000000000000000000000000100000013000000",
];
const SHOW_3: [&str; 2] = [
    "OK 0 0 00c4042202000000200000000000000000000000000300000013000000",
    "OK 0 0 00c4042302000000210000000000000000000000000300000013000000",
];
const SHOW_101: [&str; 2] = [
    "OK 0 0 00c4042202000000200000000000000000000000000101000013000000",
    "OK 0 0 00c4042302000000210000000000000000000000000101000013000000",
];
const SHOW_103: [&str; 2] = [
    "OK 0 0 00c4042202000000200000000000000000000000000301000013000000",
    "OK 0 0 00c4042302000000210000000000000000000000000301000013000000",
];

/// Host 12 sets bits 0, 1 and 8 of the control word through 32. No answer is asked for, as boot
/// code does it.
const SET_103_THROUGH_32: &str = "01 C1 0C 24 00 00 00 00 20 03 01 00 00 00 00 00 00";

/// Host 12 sets bit 0 through 32, and tries to set bit 1 through 33.
const SET_1_THROUGH_32: &str = "01 C1 0C 25 02 00 00 00 20 01 00 00 00 00 00 00 00";
const SET_1_THROUGH_32_OK: &str = "OK 0 0 01c10c2502000000";
const SET_2_BY_12_THROUGH_33: &str = "01 C1 0C 26 02 00 00 00 21 02 00 00 00 00 00 00 00";
const SET_2_BY_12_THROUGH_33_N7: &str = "N7 0 0 01c10c2600000000";

/// Every case of the cluster.
pub(super) fn cases() -> Vec<Case> {
    vec![
        set_through_32(),
        cleared_through_33(),
        set_by_each_controller(),
        set_through_a_free_core(),
        set_without_permission_for_33(),
        wrong_bits(),
        vector_and_config(),
        other_messages(),
        r5_cores(),
    ]
}

/// A case that starts with the bench list and one status word.
fn watched(name: &str, steps: &[&[Step]]) -> Case {
    case(name, &[&[Step::Status { words: vec![0x13] }], steps.concat().as_slice()].concat())
}

/// The status of 32 and then of 33, with the lines that they have to give.
fn looks(lines: [&'static str; 2]) -> [Step; 2] {
    [sends(STATUS_32, lines[0]), sends(STATUS_33, lines[1])]
}

/// The word starts at 0, as every word does.
fn set_through_32() -> Case {
    watched(
        "control set through 32 shows in the status of 33",
        &[
            &looks(SHOW_0),
            &[sends(REQUEST_32, REQUEST_32_OK), sends(SET_103_THROUGH_32, "OK 0 0 -")],
            &looks(SHOW_103),
        ],
    )
}

fn cleared_through_33() -> Case {
    let clear_2 = "01 C1 0D 27 02 00 00 00 21 00 00 00 00 02 00 00 00";
    let set_2_clear_100 = "01 C1 0D 28 02 00 00 00 21 02 00 00 00 00 01 00 00";
    watched(
        "control cleared through 33 shows in the status of 32",
        &[
            &[sends(REQUEST_32, REQUEST_32_OK), sends(SET_103_THROUGH_32, "OK 0 0 -")],
            &[sends(REQUEST_33, REQUEST_33_OK), sends(clear_2, "OK 0 0 01c10d2702000000")],
            &looks(SHOW_101),
            &[sends(set_2_clear_100, "OK 0 0 01c10d2802000000")],
            &looks(SHOW_3),
        ],
    )
}

/// Control of the processor named is what counts, and it is enough.
fn set_by_each_controller() -> Case {
    let set_2_by_13 = "01 C1 0D 29 02 00 00 00 21 02 00 00 00 00 00 00 00";
    let clear_1_by_13 = "01 C1 0D 2A 02 00 00 00 20 00 00 00 00 01 00 00 00";
    watched(
        "two controllers set the word of the cluster, each through its own core",
        &[
            &[sends(REQUEST_32, REQUEST_32_OK), sends(REQUEST_33, REQUEST_33_OK)],
            &[sends(SET_1_THROUGH_32, SET_1_THROUGH_32_OK)],
            &looks(SHOW_1),
            &[sends(SET_2_BY_12_THROUGH_33, SET_2_BY_12_THROUGH_33_N7)],
            &looks(SHOW_1),
            &[sends(set_2_by_13, "OK 0 0 01c10d2902000000")],
            &looks(SHOW_3),
            &[sends(clear_1_by_13, "N7 0 0 01c10d2a00000000")],
            &looks(SHOW_3),
        ],
    )
}

fn set_through_a_free_core() -> Case {
    watched(
        "control of 32 is no right to set through 33, free as it is",
        &[
            &[sends(REQUEST_32, REQUEST_32_OK)],
            &[sends(SET_2_BY_12_THROUGH_33, SET_2_BY_12_THROUGH_33_N7)],
            &looks(SHOW_0),
            &[sends(SET_1_THROUGH_32, SET_1_THROUGH_32_OK)],
            &looks(SHOW_1),
        ],
    )
}

/// Host 12 is not permitted for 33, whose entry names host 10 alone, and sets its word through 32.
fn set_without_permission_for_33() -> Case {
    let list = list_with(&["21 0A 00 00 00 00 00 00 00"]);
    let status_by_12 = "00 C4 0C 2B 02 00 00 00 21";
    let status_by_10 = "00 C4 0A 2C 02 00 00 00 21";
    let shows_1 = "OK 0 0 00c40a2c02000000210000000000000000000000000100000013000000";
    let steps = vec![
        list_step(list, "list OK"),
        Step::Status { words: vec![0x13] },
        sends(REQUEST_32, REQUEST_32_OK),
        sends(SET_1_THROUGH_32, SET_1_THROUGH_32_OK),
        sends(status_by_12, "N7 0 0 00c40c2b00000000"),
        sends(status_by_10, shows_1),
    ];
    let name = "host that is not permitted for 33 sets its word through 32".to_string();
    Case { name, steps }
}

/// The operands are judged by the class of the processor named.
fn wrong_bits() -> Case {
    let set_4 = "01 C1 0D 2D 02 00 00 00 21 04 00 00 00 00 00 00 00";
    let set_and_clear_1 = "01 C1 0D 2E 02 00 00 00 21 01 00 00 00 01 00 00 00";
    watched(
        "wrong control bits through 33 leave the word of the cluster",
        &[
            &[sends(REQUEST_32, REQUEST_32_OK), sends(SET_103_THROUGH_32, "OK 0 0 -")],
            &[sends(REQUEST_33, REQUEST_33_OK), sends(set_4, "N8 0 0 01c10d2d00000000")],
            &[sends(set_and_clear_1, "N8 0 0 01c10d2e00000000")],
            &looks(SHOW_103),
        ],
    )
}

fn vector_and_config() -> Case {
    let config_32 = "00 C1 0C 2F 02 00 00 00 20 00 00 00 80 01 00 00 00 04 00 00 00 00 00 00 00";
    let config_33 = "00 C1 0D 30 02 00 00 00 21 03 00 00 90 02 00 00 00 08 00 00 00 00 00 00 00";
    watched(
        "vector and config of 32 and 33 stay apart",
        &[
            &[sends(REQUEST_32, REQUEST_32_OK), sends(REQUEST_33, REQUEST_33_OK)],
            &[sends(config_32, "OK 0 0 00c10c2f02000000")],
            &looks([
                "OK 0 0 00c4042202000000200000008001000000040000000000000013000000",
                SHOW_0[1],
            ]),
            &[sends(SET_1_THROUGH_32, SET_1_THROUGH_32_OK)],
            &[sends(config_33, "OK 0 0 00c10d3002000000")],
            &looks([
                "OK 0 0 00c4042202000000200000008001000000040000000100000013000000",
                "OK 0 0 00c4042302000000210300009002000000080000000100000013000000",
            ]),
        ],
    )
}

/// Whoever controls the cores, and if nobody does.
fn other_messages() -> Case {
    let release_32 = "01 C0 0C 31 02 00 00 00 20";
    let handover_33_to_4 = "05 C0 0D 32 02 00 00 00 21 04";
    let release_33_by_4 = "01 C0 04 33 02 00 00 00 21";
    watched(
        "request, handover and release leave the word of the cluster",
        &[
            &[sends(REQUEST_32, REQUEST_32_OK), sends(SET_103_THROUGH_32, "OK 0 0 -")],
            &[sends(release_32, "OK 0 0 01c00c3102000000")],
            &looks(SHOW_103),
            &[sends(REQUEST_33, REQUEST_33_OK)],
            &looks(SHOW_103),
            &[sends(handover_33_to_4, "OK 0 0 05c00d3202000000")],
            &looks(SHOW_103),
            &[sends(release_33_by_4, "OK 0 0 01c0043302000000")],
            &looks(SHOW_103),
            &[sends(REQUEST_32, REQUEST_32_OK)],
            &looks(SHOW_103),
        ],
    )
}

/// Host 3 controls both R5 cores, which stay single.
fn r5_cores() -> Case {
    let request_1 = sends("00 C0 03 34 02 00 00 00 01", "OK 0 0 00c0033402000000");
    let request_2 = sends("00 C0 03 35 02 00 00 00 02", "OK 0 0 00c0033502000000");
    let set_3_through_1 = "01 C1 03 36 02 00 00 00 01 03 00 00 00 00 00 00 00";
    let set_2_through_2 = "01 C1 03 37 02 00 00 00 02 02 00 00 00 00 00 00 00";
    let status_1 = "00 C4 03 38 02 00 00 00 01";
    let status_2 = "00 C4 03 39 02 00 00 00 02";
    let shows_3 = "OK 0 0 00c4033802000000010000000000000000000000000300000013000000";
    let shows_0 = "OK 0 0 00c4033902000000020000000000000000000000000000000013000000";
    let shows_2 = "OK 0 0 00c4033902000000020000000000000000000000000200000013000000";
    watched(
        "the R5 cores keep a control word each",
        &[
            &[request_1, request_2, sends(set_3_through_1, "OK 0 0 01c1033602000000")],
            &[sends(status_1, shows_3), sends(status_2, shows_0)],
            &[sends(set_2_through_2, "OK 0 0 01c1033702000000")],
            &[sends(status_1, shows_3), sends(status_2, shows_2)],
            &looks(SHOW_0),
        ],
    )
}
