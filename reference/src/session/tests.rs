//! What is printed, and where a recording is bad or cut.

use super::*;
use crate::bench::{bench_block, bench_list};
use crate::harness::generate::recordings::{field, message_field, status_field};

const GET_STATUS: [u8; 9] = [0, 0xC4, 3, 0, 2, 0, 0, 0, 1];

/// Gives one byte at a time, as a slow pipe may.
struct Drip<'a>(&'a [u8]);

impl Read for Drip<'_> {
    fn read(&mut self, buffer: &mut [u8]) -> io::Result<usize> {
        let count = buffer.len().min(1);
        self.0.read(&mut buffer[..count])
    }
}

#[test]
fn empty_recording_prints_nothing() {
    assert_eq!(lines_of(&[]), "");
}

#[test]
fn status_words_stand_until_the_next_ones() {
    let message = message_field(3, &GET_STATUS);
    let fields = [
        field(TAG_LIST, &bench_list()),
        message.clone(),
        status_field(&[0x0403_0201, 9]),
        message.clone(),
        message.clone(),
        status_field(&[]),
        message,
    ];
    let answer = "OK 0 0 00c40300020000000100000000000000000000000000000000\
        01020304\n";
    let expected = ["list OK\n", "R3 0 0 -\n", answer, answer, "R3 0 0 -\n"].concat();
    assert_eq!(lines_of(&fields.concat()), expected);
    let mut out = Vec::new();
    replay(Drip(&fields.concat()), &mut out).unwrap();
    assert_eq!(out, expected.as_bytes());
}

#[test]
fn verdicts_are_printed_by_number() {
    let fields = [field(TAG_LIST, &[]), field(TAG_LIST, &bench_list()), field(TAG_LIST, &[])];
    assert_eq!(lines_of(&fields.concat()), "list A2\nlist OK\nlist A1\n");
}

#[test]
fn bad_tags_are_judged_alone() {
    for tag in [0, 5, 7, 131, 132, 134, 255] {
        assert_eq!(lines_of(&[tag]), "bad record\n");
        assert_eq!(lines_of(&[&[tag], &field(TAG_LIST, &[])[..]].concat()), "bad record\n");
    }
}

#[test]
fn cut_fields() {
    assert_eq!(lines_of(&[3]), "cut record\n");
    assert_eq!(lines_of(&[3, 0]), "cut record\n");
    assert_eq!(lines_of(&[3, 2, 0, 3]), "cut record\n");
    assert_eq!(lines_of(&[3, 1, 0]), "cut record\n");
    assert_eq!(lines_of(&[2, 4, 0, 1, 2, 3]), "cut record\n");
}

#[test]
fn bad_lengths_are_judged_before_the_body() {
    let judged = |tag, length: u16| {
        let low_high = length.to_le_bytes();
        lines_of(&[tag, low_high[0], low_high[1]])
    };
    let bad = [
        (1, 513),
        (2, 1),
        (2, 1022),
        (2, 1024),
        (3, 0),
        (3, 513),
        (1, 0xFFFF),
        (4, 513),
        (4, 0xFFFF),
        (6, 513),
        (6, 768),
    ];
    for (tag, length) in bad {
        assert_eq!(judged(tag, length), "bad record\n", "{tag} {length}");
    }
    for (tag, length) in [(1, 512), (2, 1020), (3, 512), (3, 1), (4, 512), (6, 512)] {
        assert_eq!(judged(tag, length), "cut record\n", "{tag} {length}");
    }
}

#[test]
fn blocks_are_printed_by_number_and_loop_host() {
    let mut swapped = bench_block();
    swapped.swap(0, 1);
    let mut master_266 = bench_block();
    master_266[7..9].copy_from_slice(&[10, 1]);
    let mut looped = bench_block();
    looped[298..300].copy_from_slice(&[13, 13]);
    let mut otp_size = bench_block();
    otp_size[364] = 68;
    let blocks = [Vec::new(), swapped, master_266, looped, otp_size, bench_block(), bench_block()];
    let fields = blocks.map(|block| field(TAG_BLOCK, &block)).concat();
    let expected = "block B1\nblock B2\nblock A7\nblock B8 13\nblock B10\nblock OK\nblock A1\n";
    assert_eq!(lines_of(&fields), expected);
    let behind = [field(TAG_LIST, &bench_list()), field(TAG_BOARD, &[])].concat();
    let expected = format!("{expected}list A1\nboard A1\n");
    assert_eq!(lines_of(&[fields, behind].concat()), expected);
}

#[test]
fn message_may_be_empty_or_long() {
    assert_eq!(lines_of(&message_field(3, &[])), "R2 0 0 -\n");
    assert_eq!(lines_of(&message_field(3, &[0; 511])), "R2 0 0 -\n");
    assert_eq!(lines_of(&message_field(3, &GET_STATUS)), "N1 0 0 00c4030000000000\n");
}

#[test]
fn boards_are_printed_by_number() {
    let host = [1, 2, 0, 9, 1];
    let fields = [
        field(TAG_BOARD, &host),
        field(TAG_BOARD, &host[..4]),
        field(TAG_BOARD, &[host, host].concat()),
        field(TAG_BOARD, &[]),
        field(TAG_LIST, &bench_list()),
        field(TAG_BOARD, &[1, 2, 0, 3, 1, 2, 3, 0, 1, 0, 0]),
        field(TAG_LIST, &bench_list()[..291]),
    ];
    let expected = "board OK\nboard D1\nboard D3\nboard OK\nlist A5\nboard OK\nlist A2\n";
    assert_eq!(lines_of(&fields.concat()), expected);
}
