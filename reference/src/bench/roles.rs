//! The fixed cases of roles: which one a request reports, and that nothing else reports one. No
//! line and no answer tells it.

use super::boards::{board, both, hosts, named, processors};
use super::{bytes_of, case, list_step, list_with, sends, sends_bytes, Case, Step};
use crate::access::Role;
use crate::message::ANSWER_BYTES;

/// Every case of the first board's roles.
pub(super) fn cases() -> Vec<Case> {
    vec![
        bench_roles(),
        three_secondaries(),
        several_places(),
        unused_places(),
        before_n7(),
        other_messages(),
    ]
}

/// A message, and the role that it has to report.
fn tells(message: &str, line: &'static str, role: Role) -> [Step; 2] {
    [sends(message, line), Step::Told { role }]
}

/// A message whose report tells no role.
fn tells_none(message: &str, line: &'static str) -> [Step; 2] {
    tells(message, line, Role::None)
}

/// Processor 1 has master 3 and a secondary, 2 has master 3 and two secondaries, and 32 is open.
fn bench_roles() -> Case {
    let steps = [
        tells("00 C0 03 60 02 00 00 00 01", "OK 0 0 00c0036002000000", Role::RecoveryMaster),
        tells("00 C0 05 61 02 00 00 00 01", "N7 0 0 00c0056100000000", Role::Secondary0),
        tells_none("00 C0 06 62 02 00 00 00 01", "N7 0 0 00c0066200000000"),
        tells("00 C0 03 63 00 00 00 00 01", "OK 0 0 -", Role::RecoveryMaster),
        tells("00 C0 06 64 02 00 00 00 02", "OK 0 0 00c0066402000000", Role::Secondary0),
        tells("00 C0 0A 65 02 00 00 00 02", "N7 0 0 00c00a6500000000", Role::Secondary1),
        tells("00 C0 06 66 02 00 00 00 02", "N7 0 0 00c0066600000000", Role::Secondary0),
        tells("00 C0 03 67 02 00 00 00 02", "OK 0 0 00c0036702000000", Role::RecoveryMaster),
        tells_none("00 C0 05 68 02 00 00 00 02", "N7 0 0 00c0056800000000"),
        tells("00 C0 0D 69 02 00 00 00 20", "OK 0 0 00c00d6902000000", Role::OpenProcessor),
        tells("00 C0 03 6A 02 00 00 00 20", "N7 0 0 00c0036a00000000", Role::OpenProcessor),
        tells("00 C0 0D 6B 00 00 00 00 20", "N7 0 0 -", Role::OpenProcessor),
    ];
    case("roles under the bench list", &steps.concat())
}

/// A free processor goes to each of them, and to nobody without a role.
fn three_secondaries() -> Case {
    let steps = [
        tells_none("00 C0 0C 6C 02 00 00 00 01", "N7 0 0 00c00c6c00000000"),
        tells("00 C0 04 6D 02 00 00 00 01", "OK 0 0 00c0046d02000000", Role::Secondary0),
        tells_none("01 C0 04 6E 02 00 00 00 01", "OK 0 0 01c0046e02000000"),
        tells("00 C0 05 6F 02 00 00 00 01", "OK 0 0 00c0056f02000000", Role::Secondary1),
        tells("00 C0 06 70 02 00 00 00 01", "N7 0 0 00c0067000000000", Role::Secondary2),
        tells_none("01 C0 05 71 02 00 00 00 01", "OK 0 0 01c0057102000000"),
        tells("00 C0 06 72 02 00 00 00 01", "OK 0 0 00c0067202000000", Role::Secondary2),
        tells("00 C0 05 73 02 00 00 00 01", "N7 0 0 00c0057300000000", Role::Secondary1),
        tells("00 C0 03 74 02 00 00 00 01", "OK 0 0 00c0037402000000", Role::RecoveryMaster),
    ];
    listed("three secondaries", &["01 03 00 04 00 05 00 06 00"], &steps)
}

fn listed(name: &str, entries: &[&str], steps: &[[Step; 2]]) -> Case {
    named(name, [vec![list_step(list_with(entries), "list OK")], steps.concat()].concat())
}

/// The master's place counts before all others, and of the others the lowest.
fn several_places() -> Case {
    let entries = [
        "01 03 00 03 00 05 00 05 00",
        "02 0A 00 06 00 0A 00 06 00",
        "20 0C 00 0D 00 0D 00 0C 00",
        "21 04 00 04 00 04 00 04 00",
    ];
    let steps = [
        tells("00 C0 05 75 02 00 00 00 01", "OK 0 0 00c0057502000000", Role::Secondary1),
        tells("00 C0 03 76 02 00 00 00 01", "OK 0 0 00c0037602000000", Role::RecoveryMaster),
        tells("00 C0 05 77 02 00 00 00 01", "N7 0 0 00c0057700000000", Role::Secondary1),
        tells("00 C0 06 78 02 00 00 00 02", "OK 0 0 00c0067802000000", Role::Secondary0),
        tells("00 C0 06 79 02 00 00 00 02", "N7 0 0 00c0067900000000", Role::Secondary0),
        tells("00 C0 0A 7A 02 00 00 00 02", "OK 0 0 00c00a7a02000000", Role::RecoveryMaster),
        tells("00 C0 0D 7B 02 00 00 00 20", "OK 0 0 00c00d7b02000000", Role::Secondary0),
        tells("00 C0 0C 7C 02 00 00 00 20", "OK 0 0 00c00c7c02000000", Role::RecoveryMaster),
        tells("00 C0 04 7D 02 00 00 00 21", "OK 0 0 00c0047d02000000", Role::RecoveryMaster),
    ];
    listed("host in several places", &entries, &steps)
}

/// An unused place names nobody, and the places behind it keep their numbers.
fn unused_places() -> Case {
    let entries = [
        "01 03 00 00 00 05 00 05 00",
        "02 03 00 00 00 00 00 06 00",
        "20 03 00 04 00 00 00 06 00",
        "21 03 00 00 00 00 00 00 00",
    ];
    let steps = [
        tells("00 C0 05 7E 02 00 00 00 01", "OK 0 0 00c0057e02000000", Role::Secondary1),
        tells("00 C0 06 7F 02 00 00 00 02", "OK 0 0 00c0067f02000000", Role::Secondary2),
        tells("00 C0 04 80 02 00 00 00 20", "OK 0 0 00c0048002000000", Role::Secondary0),
        tells("00 C0 06 81 02 00 00 00 20", "N7 0 0 00c0068100000000", Role::Secondary2),
        tells_none("00 C0 06 82 02 00 00 00 21", "N7 0 0 00c0068200000000"),
        tells("00 C0 03 83 02 00 00 00 21", "OK 0 0 00c0038302000000", Role::RecoveryMaster),
    ];
    listed("unused secondaries", &entries, &steps)
}

/// Requests by the recovery master that are refused before N7; the first meets no list. Host 3 is
/// also the channel's host where the header has another, and the header's where the channel has.
fn before_n7() -> Case {
    let request = "00 C0 03 84 02 00 00 00 01";
    let sized = |length, room, line| {
        let mut message = bytes_of(request);
        message.resize(length, 0);
        [sends_bytes(message, room, line), Step::Told { role: Role::None }]
    };
    let by = |channel, host, line| {
        let mut message = bytes_of(request);
        message[2] = host;
        let sent = Step::Message { channel, message, room: ANSWER_BYTES, line };
        [sent, Step::Told { role: Role::None }]
    };
    let list = list_with(&["01 03 00 05 00 00 00 00 00"]);
    let no_list = tells_none(request, "N1 0 0 00c0038400000000");
    let listed = [list_step(list, "list OK")];
    let steps = [
        sized(9, ANSWER_BYTES - 1, "R1 0 0 -"),
        sized(7, ANSWER_BYTES, "R2 0 0 -"),
        sized(61, ANSWER_BYTES, "R2 0 0 -"),
        by(3, 5, "N2 0 0 00c0058400000000"),
        by(5, 3, "N2 0 0 00c0038400000000"),
        by(7, 3, "N2 0 0 00c0038400000000"),
        by(0, 0, "N2 0 0 00c0008400000000"),
        sized(8, ANSWER_BYTES, "N4 0 0 00c0038400000000"),
        tells_none("00 C0 03 84 02 00 00 00 03", "N6 0 0 00c0038400000000"),
        tells(request, "OK 0 0 00c0038402000000", Role::RecoveryMaster),
    ];
    named("request refused before N7", [&no_list[..], &listed, &steps.concat()].concat())
}

/// By hosts that have a role, whatever comes of it.
fn other_messages() -> Case {
    let wait = "01 C4 03 85 02 00 00 00 01 02 01 00 00 03 00 00 00 00 00 00 00 00 00 00 00 00 00 \
        00 00";
    let config = "00 C1 03 86 02 00 00 00 01 80 00 00 00 00 00 00 00 00 00 00 00 00 00 00 00";
    let unaligned = "00 C1 03 87 02 00 00 00 01 40 00 00 00 00 00 00 00 00 00 00 00 00 00 00 00";
    let status = "00 C4 05 88 02 00 00 00 01";
    let shown = "OK 0 0 00c4058802000000018000000000000000000000000300000013000000";
    let before = [
        tells_none(status, "R3 0 0 -"),
        tells_none(wait, "R3 0 0 -"),
        tells_none("01 C0 03 89 02 00 00 00 01", "N7 0 0 01c0038900000000"),
        tells("00 C0 03 8A 02 00 00 00 01", "OK 0 0 00c0038a02000000", Role::RecoveryMaster),
        tells_none(config, "OK 0 0 00c1038602000000"),
        tells_none(unaligned, "N8 0 0 00c1038700000000"),
        tells_none("01 C1 03 8B 02 00 00 00 01 03 00 00 00 00 00 00 00", "OK 0 0 01c1038b02000000"),
        tells_none("01 C1 05 8C 02 00 00 00 01 03 00 00 00 00 00 00 00", "N7 0 0 01c1058c00000000"),
        tells_none("20 C1 03 8D 02 00 00 00 01 00 00 00 00 00 00 00", "N5 0 0 20c1038d00000000"),
        tells_none("02 C0 03 8E 02 00 00 00 01", "N3 0 0 02c0038e00000000"),
    ];
    let words = [Step::Status { words: vec![0x13, 0] }];
    let behind = [
        tells_none(status, shown),
        tells_none(wait, "OK 1 0 01c4038502000000"),
        tells_none("05 C0 03 8F 02 00 00 00 01 06", "N8 0 0 05c0038f00000000"),
        tells_none("05 C0 03 90 02 00 00 00 01 05", "OK 0 0 05c0039002000000"),
        tells_none("01 C0 05 91 02 00 00 00 01", "OK 0 0 01c0059102000000"),
        tells("00 C0 05 92 02 00 00 00 01", "OK 0 0 00c0059202000000", Role::Secondary0),
    ];
    case("no role but for requests", &[&before.concat()[..], &words, &behind.concat()].concat())
}

/// The last row has a role in every place, and the row before it none.
pub(super) fn full_board() -> Case {
    let steps = [
        tells("00 C0 3D 93 02 00 00 00 20", "OK 0 0 00c03d9302000000", Role::Secondary2),
        tells("00 C0 3E 94 02 00 00 00 20", "N7 0 0 00c03e9400000000", Role::Secondary1),
        tells("00 C0 3F 95 02 00 00 00 20", "N7 0 0 00c03f9500000000", Role::Secondary0),
        tells("00 C0 40 96 02 00 00 00 20", "OK 0 0 00c0409602000000", Role::RecoveryMaster),
        tells_none("00 C0 01 97 02 00 00 00 20", "N7 0 0 00c0019700000000"),
        tells("00 C0 01 98 02 00 00 00 1F", "OK 0 0 00c0019802000000", Role::OpenProcessor),
        tells("00 C0 40 99 02 00 00 00 1F", "N7 0 0 00c0409900000000", Role::OpenProcessor),
    ];
    let start = [
        board(&both(&hosts(64), &processors(32)), "board OK"),
        list_step(list_with(&["20 40 00 3F 00 3E 00 3D 00"]), "list OK"),
    ];
    named("roles in the last row of a full board", [&start[..], &steps.concat()].concat())
}
