//! The fixed cases of blocks: what each is refused for and in which order, ways and loops of the
//! host hierarchy, and that an accepted block is like its list.

use super::boards::{board, both, hosts, named, processors};
use super::{
    bench_block, bench_list, bytes_of, list_step, list_with, sends, Case, Step, RELEASE,
    RELEASE_OK, REQUEST, REQUEST_BY_5, REQUEST_BY_5_N7, REQUEST_OK,
};

/// Bytes of a block, and where it has its list, its hierarchy and its OTP part.
const BYTES: usize = 431;
const LIST: usize = 2;
const HIERARCHY: usize = 294;
const OTP: usize = 362;

/// Where the hierarchy has its entries, of two bytes each.
const ENTRIES: usize = 298;

/// Every case of blocks.
pub(super) fn cases() -> Vec<Case> {
    let mut cases = vec![
        accepted(),
        behind_a_block(),
        behind_a_list(),
        refused(),
        mended(),
        lengths(),
        abi(),
        other_abi(),
        entries(),
        entry_order(),
        unused_entries(),
        loops(),
        ways_into_loops(),
        long_ways(),
        long_loops(),
        otp_bytes(),
        board_before(),
    ];
    cases.extend(refused_one_by_one());
    cases
}

/// A case as it is, but with each list in a block.
pub(super) fn in_block(case: &Case) -> Case {
    let wrapped = |step: &Step| match step {
        Step::List { list, line } => block(block_with(list, &[]), block_line(line)),
        other => other.clone(),
    };
    let steps = case.steps.iter().map(wrapped).collect();
    Case { name: format!("{}, in a block", case.name), steps }
}

/// The line of a block whose list would have this line. A block is too short if its list is.
fn block_line(line: &str) -> &'static str {
    match line {
        "list OK" => "block OK",
        "list A1" => "block A1",
        "list A2" => "block B1",
        "list A5" => "block A5",
        "list A7" => "block A7",
        "list A8" => "block A8",
        other => panic!("no case has {other}"),
    }
}

/// A block with ABI 0 and 1, this list, these pairs of host and supervisor from the first entry of
/// its hierarchy on, and zeros behind them and in the OTP part.
pub(super) fn block_with(list: &[u8], pairs: &[&str]) -> Vec<u8> {
    let mut hierarchy = bytes_of("27 8D 44 00");
    pairs.iter().for_each(|pair| hierarchy.extend(bytes_of(pair)));
    hierarchy.resize(68, 0);
    let mut otp = bytes_of("81 40 45 00");
    otp.resize(69, 0);
    [&bytes_of("00 01"), list, &hierarchy, &otp].concat()
}

/// A block that comes in a recording.
fn block(block: Vec<u8>, line: &'static str) -> Step {
    Step::Block { abi: [0, 1], block, line }
}

/// The bench's block with these pairs in its hierarchy, and no others.
fn hierarchy(pairs: &[&str], line: &'static str) -> Step {
    block(block_with(&bench_list(), pairs), line)
}

/// A block without a fault but for the size of the OTP part, for which it is refused.
fn good_but_for_otp(mut bytes: Vec<u8>) -> Step {
    bytes[OTP + 2] = 0x44;
    block(bytes, "block B10")
}

/// The bench's block with other bytes from a place on.
fn changed(at: usize, bytes: &str, line: &'static str) -> Step {
    let (mut changed, bytes) = (bench_block(), bytes_of(bytes));
    changed[at..at + bytes.len()].copy_from_slice(&bytes);
    block(changed, line)
}

/// What shows that no list is in force yet, and that one can be.
fn nothing_kept() -> Vec<Step> {
    vec![
        sends(REQUEST, "N1 0 0 00c0030700000000"),
        list_step(bench_list(), "list OK"),
        sends(REQUEST, REQUEST_OK),
    ]
}

/// What shows that the bench's list is in force.
fn in_force() -> Vec<Step> {
    vec![
        sends(REQUEST, REQUEST_OK),
        sends(REQUEST_BY_5, REQUEST_BY_5_N7),
        sends(RELEASE, RELEASE_OK),
        sends("00 C0 06 60 02 00 00 00 01", "N7 0 0 00c0066000000000"),
        sends("00 C0 06 61 02 00 00 00 02", "OK 0 0 00c0066102000000"),
        sends("00 C0 0D 62 02 00 00 00 20", "OK 0 0 00c00d6202000000"),
    ]
}

fn accepted() -> Case {
    let steps = [vec![block(bench_block(), "block OK")], in_force()].concat();
    named("block accepted", steps)
}

/// Whatever is offered, it gets A1 and changes nothing.
fn behind_a_block() -> Case {
    let mut steps = vec![
        block(bench_block(), "block OK"),
        block(bench_block(), "block A1"),
        block(Vec::new(), "block A1"),
        changed(0, "09", "block A1"),
        changed(ENTRIES, "05 05", "block A1"),
        list_step(bench_list(), "list A1"),
        list_step(list_with(&[]), "list A1"),
        list_step(Vec::new(), "list A1"),
        board("", "board A1"),
        board("00", "board A1"),
    ];
    steps.extend(in_force());
    named("behind a block", steps)
}

fn behind_a_list() -> Case {
    let mut steps = vec![
        list_step(bench_list(), "list OK"),
        block(bench_block(), "block A1"),
        block(Vec::new(), "block A1"),
        block(block_with(&list_with(&[]), &[]), "block A1"),
        changed(OTP + 2, "44", "block A1"),
        board("", "board A1"),
    ];
    steps.extend(in_force());
    named("a block behind a list", steps)
}

/// One block for each way to be refused, and more for some.
fn refusals() -> Vec<Step> {
    let mut long = bench_block();
    long.push(0);
    vec![
        block(Vec::new(), "block B1"),
        block(bench_block()[..430].to_vec(), "block B1"),
        block(long, "block B1"),
        block(bench_list(), "block B1"),
        changed(0, "01 00", "block B2"),
        changed(0, "00 00", "block B2"),
        changed(0, "01 01", "block B2"),
        changed(LIST, "EB", "block A3"),
        changed(LIST + 1, "F0", "block A3"),
        changed(LIST + 2, "25", "block A4"),
        changed(LIST + 3, "00", "block A4"),
        changed(LIST + 4, "03", "block A5"),
        changed(LIST + 13, "01", "block A6"),
        changed(LIST + 5, "0A 01", "block A7"),
        changed(LIST + 5, "00 00", "block A7"),
        changed(LIST + 11, "07 00", "block A8"),
        changed(HIERARCHY, "EA F1", "block B3"),
        changed(HIERARCHY, "8D 27", "block B3"),
        changed(HIERARCHY + 2, "45", "block B4"),
        changed(HIERARCHY + 3, "01", "block B4"),
        changed(ENTRIES, "07 00", "block B5"),
        changed(ENTRIES + 62, "FF 00", "block B5"),
        changed(ENTRIES, "03 07", "block B6"),
        changed(ENTRIES + 62, "0D FF", "block B6"),
        changed(ENTRIES + 62, "0A 00", "block B7"),
        changed(ENTRIES, "0D 0D", "block B8 13"),
        changed(OTP, "27 8D", "block B9"),
        changed(OTP + 1, "41", "block B9"),
        changed(OTP + 2, "44", "block B10"),
        changed(OTP + 3, "01", "block B10"),
    ]
}

/// Of each refused block nothing is kept.
fn refused_one_by_one() -> Vec<Case> {
    let case = |(number, step): (usize, Step)| {
        let steps = [vec![step], nothing_kept()].concat();
        named(&format!("refused block {}", number + 1), steps)
    };
    refusals().into_iter().enumerate().map(case).collect()
}

fn refused() -> Case {
    let mut steps = refusals();
    steps.push(block(bench_block(), "block OK"));
    steps.extend(in_force());
    named("a block behind all refused ones", steps)
}

/// A block with every fault at once, which are mended one by one in the order of the tests.
fn mended() -> Case {
    let mut bytes = block_with(&list_with(&["03 07 00 07 00 00 00 00 00"]), &["07 07", "03 04"]);
    bytes.push(0);
    let wrong = [(0, 9), (LIST, 0), (LIST + 2, 0), (HIERARCHY, 0), (HIERARCHY + 2, 0), (OTP, 0)];
    wrong.iter().for_each(|&(at, byte)| bytes[at] = byte);
    bytes[OTP + 2] = 0;
    let mut steps = vec![block(bytes.clone(), "block B1")];
    bytes.pop();
    let mends = [
        (0, 0, "block B2"),
        (LIST, 0xEA, "block A3"),
        (LIST + 2, 0x24, "block A4"),
        (LIST + 4, 1, "block A5"),
        (LIST + 5, 3, "block A7"),
        (LIST + 7, 0, "block A8"),
        (HIERARCHY, 0x27, "block B3"),
        (HIERARCHY + 2, 0x44, "block B4"),
        (ENTRIES, 3, "block B5"),
        (ENTRIES + 1, 0, "block B6"),
        (ENTRIES + 2, 4, "block B7"),
        (ENTRIES + 3, 0, "block B8 4"),
        (OTP, 0x81, "block B9"),
        (OTP + 2, 0x45, "block B10"),
    ];
    for (at, byte, line) in mends {
        steps.push(block(bytes.clone(), line));
        bytes[at] = byte;
    }
    steps.push(block(bytes, "block OK"));
    named("a block mended fault by fault", steps)
}

/// Every length that a recording can have, the good one last.
fn lengths() -> Case {
    let of_length = |length| {
        let mut bytes = bench_block();
        bytes.resize(length, 0);
        bytes
    };
    let bad = (0..=512).filter(|&length| length != BYTES);
    let mut steps: Vec<_> = bad.map(|length| block(of_length(length), "block B1")).collect();
    steps.push(block(of_length(BYTES), "block OK"));
    named("every length of a block", steps)
}

/// Each byte in the place of each ABI byte.
fn abi() -> Case {
    let first = (1..=255u8).map(|byte| format!("{byte:02X} 01"));
    let second = (0..=255u8).filter(|&byte| byte != 1).map(|byte| format!("00 {byte:02X}"));
    let mut steps: Vec<_> = first.chain(second).map(|abi| changed(0, &abi, "block B2")).collect();
    steps.push(changed(0, "00 01", "block OK"));
    named("ABI bytes of a recording", steps)
}

/// The caller may name other bytes, each for its place.
fn other_abi() -> Case {
    let step = |abi, given: [u8; 2], line| {
        let mut block = bench_block();
        block[..LIST].copy_from_slice(&given);
        Step::Block { abi, block, line }
    };
    let steps = vec![
        step([1, 0], [0, 1], "block B2"),
        step([0, 2], [0, 1], "block B2"),
        step([2, 1], [0, 1], "block B2"),
        step([0, 1], [1, 0], "block B2"),
        step([0xFF, 0x80], [0x80, 0xFF], "block B2"),
        step([0xFF, 0x80], [0xFF, 0x00], "block B2"),
        step([0xFF, 0x80], [0xFF, 0x80], "block OK"),
    ];
    named("ABI bytes that the caller names", steps)
}

/// Hosts and supervisors are board hosts, each host once; supervisor 0 is one.
fn entries() -> Case {
    let mut steps = vec![
        hierarchy(&["07 00"], "block B5"),
        hierarchy(&["80 00"], "block B5"),
        hierarchy(&["03 07"], "block B6"),
        hierarchy(&["03 80"], "block B6"),
        hierarchy(&["03 00", "03 00"], "block B7"),
        hierarchy(&["03 00", "03 0A"], "block B7"),
        hierarchy(&["03 00", "0A 00", "04 03", "0A 03"], "block B7"),
        good_but_for_otp(block_with(&bench_list(), &["03 00"])),
        good_but_for_otp(block_with(&bench_list(), &["03 00", "0A 00"])),
    ];
    for host in (0..=255u8).filter(|host| ![0, 3, 4, 5, 6, 10, 12, 13].contains(host)) {
        steps.push(hierarchy(&[&format!("{host:02X} 03")], "block B5"));
        steps.push(hierarchy(&[&format!("03 {host:02X}")], "block B6"));
    }
    steps.push(hierarchy(
        &["03 00", "0A 00", "04 03", "05 03", "06 04", "0C 0A", "0D 0A"],
        "block OK",
    ));
    named("hosts and supervisors of the hierarchy", steps)
}

/// In one entry the order of the numbers decides, and of several entries the first.
fn entry_order() -> Case {
    let steps = vec![
        hierarchy(&["07 09"], "block B5"),
        hierarchy(&["03 00", "03 09"], "block B6"),
        hierarchy(&["03 09", "07 00"], "block B6"),
        hierarchy(&["03 00", "03 00", "07 00"], "block B7"),
        hierarchy(&["03 00", "03 00", "04 09"], "block B7"),
        hierarchy(&["07 00", "03 00", "03 00"], "block B5"),
        hierarchy(&["05 05", "07 00"], "block B5"),
        hierarchy(&["05 05", "03 09"], "block B6"),
        hierarchy(&["05 05", "05 00"], "block B7"),
        hierarchy(&["05 00", "05 05"], "block B7"),
    ];
    named("the first faulty entry decides, and loops come last", [steps, nothing_kept()].concat())
}

/// Of an entry with host 0 the supervisor is not looked at.
fn unused_entries() -> Case {
    let steps = vec![
        hierarchy(&["00 07", "03 07"], "block B6"),
        hierarchy(&["00 07", "03 03", "00 03"], "block B8 3"),
        hierarchy(&["00 07", "03 0A", "00 FF", "00 03", "0A 00", "00 09"], "block OK"),
    ];
    named("unused entries of the hierarchy", steps)
}

/// The first host in the order of the entries that lies on a loop.
fn loops() -> Case {
    let steps = vec![
        hierarchy(&["05 05"], "block B8 5"),
        hierarchy(&["03 00", "05 05"], "block B8 5"),
        hierarchy(&["03 0A", "0A 03"], "block B8 3"),
        hierarchy(&["0A 03", "03 0A"], "block B8 10"),
        hierarchy(&["0D 0C", "04 0D", "0C 04"], "block B8 13"),
        hierarchy(&["04 00", "05 04", "06 0D", "0D 0C", "0C 06"], "block B8 6"),
        hierarchy(&["0D 0D", "03 03"], "block B8 13"),
        hierarchy(&["0C 0D", "03 04", "0D 0C", "04 03"], "block B8 12"),
        hierarchy(&["03 04", "0C 0D", "04 03", "0D 0C"], "block B8 3"),
        hierarchy(&["0A 03", "03 04", "04 05", "05 06", "06 0C", "0C 0D", "0D 0A"], "block B8 10"),
    ];
    named("loops of the hierarchy", [steps, nothing_kept()].concat())
}

/// A host that leads into a loop does not lie on it.
fn ways_into_loops() -> Case {
    let steps = vec![
        hierarchy(&["03 05", "05 05"], "block B8 5"),
        hierarchy(&["03 04", "04 05", "05 04"], "block B8 4"),
        hierarchy(&["03 04", "05 04", "04 05"], "block B8 5"),
        hierarchy(&["03 04", "04 05", "06 0C", "0C 0C", "05 05"], "block B8 12"),
        hierarchy(&["03 04", "04 0A", "0A 0C", "0C 0D", "0D 0C", "05 03"], "block B8 12"),
        hierarchy(&["0C 0D", "0D 0C", "03 04", "04 0C"], "block B8 12"),
    ];
    named("ways into loops of the hierarchy", [steps, nothing_kept()].concat())
}

/// Hosts 1 to 64 and processors 1 and 2.
fn large_board() -> Step {
    board(&both(&hosts(64), &processors(2)), "board OK")
}

/// Hosts 1 to this one with the next as supervisor, and the last with another.
fn way(length: usize, end: usize) -> Vec<String> {
    let next = |host| if host == length { end } else { host + 1 };
    (1..=length).map(|host| format!("{host:02X} {:02X}", next(host))).collect()
}

/// A block for the large board, whose list is empty. The entries may be turned around.
fn large_block(way: &[String], turned: bool) -> Vec<u8> {
    let mut pairs: Vec<_> = way.iter().map(String::as_str).collect();
    if turned {
        pairs.reverse();
    }
    block_with(&list_with(&[]), &pairs)
}

/// All 32 entries in one way, which ends.
fn long_ways() -> Case {
    let ends = [(0, false), (0, true), (33, false), (64, true)];
    let mut steps = vec![large_board()];
    steps.extend(ends.map(|(end, turned)| good_but_for_otp(large_block(&way(32, end), turned))));
    steps.push(block(large_block(&way(32, 65), false), "block B6"));
    steps.push(block(large_block(&way(32, 0), false), "block OK"));
    steps.push(sends("00 C0 40 63 02 00 00 00 02", "OK 0 0 00c0406302000000"));
    named("ways of 32 entries", steps)
}

/// All 32 entries in one loop, or in a way into one.
fn long_loops() -> Case {
    let large = |way: &[String], turned, line| block(large_block(way, turned), line);
    let steps = vec![
        large_board(),
        large(&way(32, 1), false, "block B8 1"),
        large(&way(32, 1), true, "block B8 32"),
        large(&way(32, 32), false, "block B8 32"),
        large(&way(32, 31), false, "block B8 31"),
        large(&way(32, 31), true, "block B8 32"),
        large(&way(32, 16), false, "block B8 16"),
        large(&way(31, 31), false, "block B8 31"),
        list_step(list_with(&[]), "list OK"),
    ];
    named("loops of 32 entries", steps)
}

/// What the OTP part holds behind its header is not judged.
fn otp_bytes() -> Case {
    let mut bytes = bench_block();
    bytes[OTP + 4..].fill(0xFF);
    let steps = [vec![block(bytes, "block OK")], in_force()].concat();
    named("OTP bytes of any content", steps)
}

/// The board in force judges a block.
fn board_before() -> Case {
    let steps = vec![
        board("01 02 00 14 01 02 03 00 28 00 00", "board OK"),
        block(bench_block(), "block A5"),
        hierarchy(&[], "block A5"),
        block(block_with(&list_with(&[]), &["03 00"]), "block B5"),
        block(block_with(&list_with(&[]), &["14 03"]), "block B6"),
        board("", "board OK"),
        block(block_with(&list_with(&[]), &["14 00"]), "block B5"),
        board("01 02 00 14 01 02 03 00 28 00 00", "board OK"),
        block(block_with(&list_with(&["28 14 00 00 00 00 00 00 00"]), &["14 00"]), "block OK"),
        sends("00 C0 14 64 02 00 00 00 28", "OK 0 0 00c0146402000000"),
    ];
    named("blocks on another board", steps)
}
