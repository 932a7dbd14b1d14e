//! What pieces print: any cutting prints what the whole recording does, each judgement comes as
//! soon as its bytes are there, and nothing comes behind the end.

use super::*;
use crate::bench::{bench_block, bench_list, bytes_of};
use crate::harness::edges::recordings::edge_recordings;
use crate::harness::generate::cuts::{any_cuts, any_room, pieces};
use crate::harness::generate::random::Random;
use crate::harness::generate::recordings::{field, message_field, recording, status_field};
use crate::session::{lines_of, TAG_BLOCK, TAG_BOARD, TAG_LIST};

/// Room for all lines of a test.
const ROOMY: usize = 1 << 20;

const GET_STATUS: [u8; 9] = [0, 0xC4, 3, 0, 2, 0, 0, 0, 1];

/// The lines that these pieces print, the end announced behind them.
fn printed<'a>(pieces: impl IntoIterator<Item = &'a [u8]>) -> String {
    let mut stream = Stream::default();
    let mut lines = Vec::new();
    for piece in pieces {
        let turn = stream.feed(piece, ROOMY);
        assert_eq!(turn.taken, piece.len());
        assert_ne!(turn.status, Status::Full);
        lines.extend(turn.lines);
    }
    lines.extend(stream.end(ROOMY).lines);
    String::from_utf8(lines).expect("lines are text")
}

/// A recording with fields of every tag, a message before and behind its status words.
fn sample() -> Vec<u8> {
    [
        message_field(3, &GET_STATUS),
        field(TAG_BOARD, &[]),
        field(TAG_BOARD, &[1, 2, 0, 3, 1, 2, 3, 0, 1, 0, 0, 2, 3, 0, 2, 0, 0]),
        field(TAG_LIST, &bench_list()[..20]),
        field(TAG_BLOCK, &bench_block()[..9]),
        status_field(&[0x0403_0201, 9]),
        message_field(3, &GET_STATUS),
        status_field(&[]),
        message_field(3, &GET_STATUS),
    ]
    .concat()
}

#[test]
fn two_pieces_cut_anywhere_print_the_same() {
    let whole = sample();
    for cut in 0..=whole.len() {
        let (one, other) = whole.split_at(cut);
        assert_eq!(printed([one, other]), lines_of(&whole), "{cut}");
        assert_eq!(printed([one, &[], other, &[]]), lines_of(&whole), "{cut}");
    }
}

#[test]
fn three_pieces_cut_anywhere_print_the_same() {
    let whole = sample();
    for first in 0..=whole.len() {
        for second in first..=whole.len() {
            let cut = [&whole[..first], &whole[first..second], &whole[second..]];
            assert_eq!(printed(cut), lines_of(&whole), "{first} {second}");
        }
    }
}

#[test]
fn bytes_one_by_one_print_the_same() {
    for recording in edge_recordings().iter().filter(|recording| recording.len() < 4000) {
        assert_eq!(printed(recording.chunks(1)), lines_of(recording), "{recording:?}");
    }
}

#[test]
fn random_cuts_print_the_same() {
    let mut random = Random::new(43, 0);
    for number in 0..120 {
        let recording = recording(43, number);
        for _ in 0..5 {
            let cuts = any_cuts(&mut random, &recording);
            assert_eq!(printed(pieces(&recording, &cuts)), lines_of(&recording), "{cuts:?}");
        }
    }
}

/// The recording is over wherever it is cut off, and only the announced end says so.
#[test]
fn cut_record_is_printed_for_the_end_alone() {
    let whole = sample();
    for cut in 0..=whole.len() {
        let mut stream = Stream::default();
        let lines = stream.feed(&whole[..cut], ROOMY).lines;
        assert!(!lines.ends_with(b"cut record\n"), "{cut}");
        let last = stream.end(ROOMY);
        assert_eq!(last.status, Status::Over);
        let text = String::from_utf8([lines, last.lines].concat()).unwrap();
        assert_eq!(text, lines_of(&whole[..cut]), "{cut}");
    }
}

#[test]
fn bad_tag_is_judged_alone() {
    for tag in (0..=255).filter(|tag| !TAGS.contains(tag)) {
        let mut stream = Stream::default();
        assert_eq!(stream.feed(&status_field(&[7]), ROOMY).lines, b"");
        let turn = stream.feed(&[tag], ROOMY);
        assert_eq!((turn.status, turn.lines.as_slice()), (Status::Over, &b"bad record\n"[..]));
        assert_eq!(turn.taken, 1);
    }
}

/// One of its bytes alone says nothing, also where no good length has such a byte.
#[test]
fn bad_length_is_judged_once_both_bytes_are_there() {
    let bad = [(1, 513), (2, 1), (2, 1022), (2, 1024), (3, 0), (3, 513), (4, 0xFFFF), (6, 768)];
    for (tag, length) in bad {
        let [low, high] = u16::to_le_bytes(length);
        for first in [vec![tag, low], vec![tag]] {
            let mut stream = Stream::default();
            let turn = stream.feed(&first, ROOMY);
            assert_eq!((turn.status, turn.lines.len()), (Status::Fed, 0), "{tag} {length}");
            assert_eq!(stream.carry, first);
            let rest = &[tag, low, high][first.len()..];
            let turn = stream.feed(rest, ROOMY);
            assert_eq!(turn.lines, b"bad record\n", "{tag} {length}");
            assert_eq!((turn.status, turn.taken), (Status::Over, rest.len()));
        }
    }
}

#[test]
fn nothing_is_printed_behind_a_bad_record() {
    let mut stream = Stream::default();
    let good = field(TAG_LIST, &bench_list());
    let turn = stream.feed(&[&[9], good.as_slice()].concat(), ROOMY);
    assert_eq!((turn.taken, turn.lines.as_slice()), (296, &b"bad record\n"[..]));
    let over = |taken| Turn { status: Status::Over, taken, ..Turn::default() };
    assert_eq!(stream.feed(&good, ROOMY), over(295));
    assert_eq!(stream.feed(&good, 0), over(295));
    assert_eq!(stream.feed(&[], ROOMY), over(0));
    assert_eq!(stream.end(ROOMY), over(0));
    assert_eq!(stream.end(0), over(0));
    assert_eq!(stream.state, State::default());
}

#[test]
fn nothing_is_printed_behind_the_end() {
    let good = field(TAG_LIST, &bench_list());
    for (first, last) in [(&good[..], ""), (&good[..294], "cut record\n"), (&[], "")] {
        let mut stream = Stream::default();
        stream.feed(first, ROOMY);
        let left = stream.state.clone();
        assert_eq!(stream.end(ROOMY).lines, last.as_bytes());
        let over = |taken| Turn { status: Status::Over, taken, ..Turn::default() };
        assert_eq!(stream.end(ROOMY), over(0));
        assert_eq!(stream.feed(&good[294..], ROOMY), over(1));
        assert_eq!(stream.feed(&good, ROOMY), over(295));
        assert_eq!(stream.end(0), over(0));
        assert_eq!(stream.state, left);
    }
}

#[test]
fn pieces_and_sessions_may_be_empty() {
    assert_eq!(printed([]), "");
    assert_eq!(printed([&[][..], &[], &[]]), "");
    let mut stream = Stream::default();
    assert_eq!(stream.feed(&[], ROOMY), Turn::default());
    assert_eq!(stream.feed(&[], 0), Turn::default());
    assert_eq!(stream, Stream::default());
}

/// The longest field fills the carry to its last byte but one, and the last byte completes it.
#[test]
fn longest_field_is_completed_over_the_carry() {
    let words: [u32; 255] = std::array::from_fn(|place| 1 + place as u32);
    let longest = status_field(&words);
    assert_eq!((longest.len(), CARRY_BYTES), (1023, 1023));
    for step in [1, 7, 1022] {
        let mut stream = Stream::default();
        longest[..1022].chunks(step).for_each(|piece| {
            assert_eq!(stream.feed(piece, ROOMY).events, []);
        });
        assert_eq!((stream.carry.len(), stream.state.status.len()), (1022, 0));
        assert_eq!(stream.feed(&longest[1022..], ROOMY).events, [Event::Status]);
        assert_eq!((stream.carry.len(), stream.state.status.as_slice()), (0, &words[..]));
    }
}

/// Words that came in one piece are those of a message in a later one, until others come.
#[test]
fn status_words_stand_over_pieces() {
    let mut stream = Stream::default();
    let mut feed = |bytes: &[u8]| String::from_utf8(stream.feed(bytes, ROOMY).lines).unwrap();
    assert_eq!(feed(&field(TAG_LIST, &bench_list())), "list OK\n");
    assert_eq!(feed(&status_field(&[0x13])), "");
    let look = message_field(3, &GET_STATUS);
    assert!(feed(&look).ends_with("13000000\n"));
    let other = status_field(&[0x14]);
    assert_eq!(feed(&other[..6]), "");
    assert!(feed(&[&other[6..], &look].concat()).ends_with("14000000\n"));
}

/// With less than the room for a line no field is carried out, status words neither.
#[test]
fn short_outputs_carry_nothing_out() {
    let [list, status] = [field(TAG_LIST, &bench_list()), status_field(&[7])];
    for whole in [&list[..], &status, &[9], &[3, 0, 0]] {
        for room in [0, 1, 66, 95] {
            let mut stream = Stream::default();
            let full = Turn { status: Status::Full, ..Turn::default() };
            assert_eq!(stream.feed(whole, room), full);
            assert_eq!(stream, Stream::default());
            assert_eq!(stream.feed(whole, 96).events.len(), 1);
            let open = whole.len() - 1;
            let mut stream = Stream::default();
            assert_eq!(stream.feed(&whole[..open], room).status, Status::Fed);
            assert_eq!(stream.carry, whole[..open]);
            assert_eq!(stream.feed(&whole[open..], room), full);
            assert_eq!((&stream.state, stream.carry.len()), (&State::default(), open));
            assert_eq!(stream.feed(&whole[open..], 96).events.len(), 1);
        }
    }
}

#[test]
fn end_waits_for_room() {
    let mut stream = Stream::default();
    stream.feed(&[1, 36], ROOMY);
    let before = stream.clone();
    assert_eq!(stream.end(95), Turn { status: Status::Full, ..Turn::default() });
    assert_eq!(stream, before);
    assert_eq!(stream.end(96).lines, b"cut record\n");
}

/// A line of 24 bytes: of 119 bytes 95 are left behind it, of 120 there are 96.
#[test]
fn a_line_needs_room_behind_the_others() {
    let refused = message_field(3, &GET_STATUS);
    let both = [refused.clone(), refused].concat();
    for (room, events) in [(95, 0), (96, 1), (119, 1), (120, 2)] {
        let mut stream = Stream::default();
        let turn = stream.feed(&both, room);
        assert_eq!(turn.lines, b"N1 0 0 00c4030000000000\n".repeat(events));
        let status = if events == 2 { Status::Fed } else { Status::Full };
        assert_eq!((turn.status, turn.taken), (status, 13 * events));
    }
}

#[test]
fn outputs_of_any_length_print_the_same() {
    let mut random = Random::new(44, 0);
    for number in 0..120 {
        let recording = recording(44, number);
        let cuts = any_cuts(&mut random, &recording);
        let (mut stream, mut lines) = (Stream::default(), Vec::new());
        for mut piece in pieces(&recording, &cuts) {
            loop {
                let turn = stream.feed(piece, any_room(&mut random));
                lines.extend(turn.lines);
                piece = &piece[turn.taken..];
                if turn.status != Status::Full {
                    break;
                }
            }
            assert!(piece.is_empty() && stream.carry.len() < CARRY_BYTES);
        }
        lines.extend(stream.end(96).lines);
        assert_eq!(String::from_utf8(lines).unwrap(), lines_of(&recording));
    }
}

/// The longest lines are those of a status answer and of a wait with the largest counts.
#[test]
fn any_line_fits() {
    let mut stream = Stream::default();
    let fields = [field(TAG_LIST, &bench_list()), status_field(&[0; 255])].concat();
    stream.feed(&fields, ROOMY);
    let mut wait = bytes_of("01 C4 03 0E 02 00 00 00 01 FF FF FF FF 01");
    wait.resize(29, 0);
    let mut line = |message: &[u8]| stream.feed(&message_field(3, message), LINE_BYTES).lines;
    assert_eq!(line(&wait), b"N9 255 65280 01c4030e00000000\n");
    assert_eq!(line(&GET_STATUS).len(), 7 + 2 * 29 + 1);
}
