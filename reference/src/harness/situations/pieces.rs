//! Situations of recordings in pieces: where they are cut, how much is carried, when a record waits
//! for room, and what comes behind the end.

use crate::harness::situations::Named;
use crate::message::ANSWER_BYTES;
use crate::session::{write_line, Event, TAGS, TAG_STATUS};
use crate::stream::{Front, Status, Turn, CARRY_BYTES, HEADER_BYTES, LINE_BYTES};

/// Fields of a piece that are many.
const MANY: usize = 20;

/// How far a recording has come.
#[derive(Clone, Copy, Debug, Default, PartialEq, Eq)]
enum Phase {
    #[default]
    GoesOn,
    /// a bad record was printed
    Bad,
    /// the end was announced
    Ended,
}

/// Follows the pieces of one recording.
#[derive(Default)]
pub struct PieceWatch {
    phase: Phase,
    /// pieces so far
    pieces: u64,
    /// pieces that hold bytes of the field that is carried
    holding: u64,
    /// the piece that brought the status words that stand
    words: u64,
    /// whether any byte was fed
    any_byte: bool,
    /// whether the piece has had no call yet
    fresh: bool,
}

impl PieceWatch {
    /// A piece is fed from now on, in one call or several.
    pub fn next_piece(&mut self, piece: &[u8]) {
        self.pieces += 1;
        self.holding += u64::from(!piece.is_empty());
        self.any_byte |= !piece.is_empty();
        self.fresh = true;
    }

    /// A call with these carried bytes and this rest of the piece, which has left so many bytes in
    /// the carry.
    pub fn feed<'a>(
        &mut self,
        (carry, piece): (&'a [u8], &'a [u8]),
        room: usize,
        turn: &'a Turn,
        left: usize,
    ) -> Feeding<'a> {
        let (before, pieces, fresh) = (self.phase, self.holding, self.fresh);
        self.fresh = false;
        if !turn.events.is_empty() {
            self.holding = u64::from(left > 0 || turn.status == Status::Full);
        }
        if turn.events.last() == Some(&Event::Bad) {
            self.phase = Phase::Bad;
        }
        let earlier_words = self.follow_words(&turn.events);
        Feeding { before, fresh, carry, piece, room, turn, left, pieces, earlier_words }
    }

    /// Whether one of these messages was answered by status words of an earlier piece.
    fn follow_words(&mut self, events: &[Event]) -> bool {
        let mut earlier = false;
        for event in events {
            match event {
                Event::Status => self.words = self.pieces,
                Event::Message(report, _) => {
                    let used = report.checks > 0 || report.written == ANSWER_BYTES;
                    earlier |= used && self.words < self.pieces;
                }
                _ => {}
            }
        }
        earlier
    }

    /// The end announced with so many carried bytes.
    pub fn end<'a>(&mut self, carried: usize, room: usize, turn: &'a Turn) -> Ending<'a> {
        let before = self.phase;
        if before == Phase::GoesOn && turn.status == Status::Over {
            self.phase = Phase::Ended;
        }
        Ending { before, carried, room, turn, any_byte: self.any_byte }
    }
}

/// One call that feeds a piece or the rest of one.
pub struct Feeding<'a> {
    before: Phase,
    /// whether it is the first one with the piece
    fresh: bool,
    /// what was carried before it
    carry: &'a [u8],
    piece: &'a [u8],
    room: usize,
    turn: &'a Turn,
    /// how many bytes are carried behind it
    left: usize,
    /// pieces, this one included, with bytes of the field that was carried
    pieces: u64,
    /// whether a message was answered by status words of an earlier piece
    earlier_words: bool,
}

impl Feeding<'_> {
    fn goes_on(&self) -> bool {
        self.before == Phase::GoesOn
    }

    fn is_fed(&self) -> bool {
        self.goes_on() && self.turn.status == Status::Fed
    }

    /// Whether it is a piece without a byte, in a recording that goes on.
    fn is_empty(&self) -> bool {
        self.is_fed() && self.fresh && self.piece.is_empty()
    }

    fn is_full(&self) -> bool {
        self.turn.status == Status::Full
    }

    /// What the first record came to, if it was carried out.
    fn first(&self) -> Option<&Event> {
        self.turn.events.first()
    }

    /// Whether a carried field was completed.
    fn completed(&self) -> bool {
        !self.carry.is_empty() && self.first().is_some_and(|event| *event != Event::Bad)
    }

    /// Whether a field was completed of which so many bytes were carried.
    fn completed_behind(&self, carried: usize) -> bool {
        self.completed() && self.carry.len() == carried
    }

    /// Whether a field of this kind was completed.
    fn completed_kind(&self, is_kind: impl Fn(&Event) -> bool) -> bool {
        self.completed() && self.first().is_some_and(is_kind)
    }

    /// The bytes that the call met, as far as one field goes.
    fn met(&self) -> Vec<u8> {
        let bytes = self.carry.iter().chain(self.piece);
        bytes.take(CARRY_BYTES).copied().collect()
    }

    /// The bytes of the first field, if it was carried out.
    fn first_length(&self) -> Option<usize> {
        self.first()?;
        match Front::of(&self.met()) {
            Front::Whole { body, .. } => Some(HEADER_BYTES + body.len()),
            _ => None,
        }
    }

    /// Whether the call began with a bad record of which so many bytes were carried.
    fn bad_behind(&self, carried: usize) -> bool {
        self.carry.len() == carried && self.first() == Some(&Event::Bad)
    }

    fn has_good_tag(&self) -> bool {
        self.met().first().is_some_and(|tag| TAGS.contains(tag))
    }

    /// The bytes that wait for room, as far as one field goes.
    fn waiting(&self) -> Vec<u8> {
        if self.turn.events.is_empty() {
            return self.met();
        }
        self.piece[self.turn.taken..].iter().take(CARRY_BYTES).copied().collect()
    }

    /// Whether something waits for room that passes the test.
    fn waits(&self, test: impl Fn(Front) -> bool) -> bool {
        self.is_full() && test(Front::of(&self.waiting()))
    }

    /// Whether some record was carried out with just the room for a line.
    fn has_just_room(&self) -> bool {
        let mut left = self.room;
        self.turn.events.iter().any(|event| {
            let mut line = Vec::new();
            write_line(&mut line, event).expect("a vector takes all bytes");
            let just = left == LINE_BYTES;
            left -= line.len();
            just
        })
    }

    /// Whether the call brought a whole field to a recording that was over so.
    fn comes_behind(&self, before: Phase) -> bool {
        self.before == before && matches!(Front::of(self.piece), Front::Whole { .. })
    }
}

fn is_whole(front: Front) -> bool {
    matches!(front, Front::Whole { .. })
}

/// Calls that feed a piece.
pub const FEEDINGS: Named<fn(&Feeding) -> bool> = &[
    ("empty piece between fields", |f| f.is_empty() && f.carry.is_empty()),
    ("empty piece within a field", |f| f.is_empty() && !f.carry.is_empty()),
    ("piece with many fields", |f| f.turn.events.len() >= MANY),
    ("field completed over two pieces", |f| f.completed() && f.pieces == 2),
    ("field completed over three pieces", |f| f.completed() && f.pieces == 3),
    ("field completed over more than three pieces", |f| f.completed() && f.pieces > 3),
    ("field completed behind its tag", |f| f.completed_behind(1)),
    ("field completed behind the first byte of its length", |f| f.completed_behind(2)),
    ("field completed behind its length", |f| f.completed_behind(HEADER_BYTES)),
    ("field completed by its last byte", |f| {
        f.completed() && f.first_length() == Some(f.carry.len() + 1)
    }),
    ("carried field that ends where its piece does", |f| {
        f.completed() && f.first_length() == Some(f.carry.len() + f.piece.len())
    }),
    ("carried field with fields behind it in its piece", |f| {
        f.completed() && f.turn.events.len() > 2
    }),
    ("list over pieces", |f| f.completed_kind(|event| matches!(event, Event::List(_)))),
    ("block over pieces", |f| f.completed_kind(|event| matches!(event, Event::Block(_)))),
    ("board over pieces", |f| f.completed_kind(|event| matches!(event, Event::Board(_)))),
    ("message over pieces", |f| f.completed_kind(|event| matches!(event, Event::Message(..)))),
    ("status words over pieces", |f| f.completed_kind(|event| *event == Event::Status)),
    ("carry of 1022 bytes", |f| f.is_fed() && f.left == CARRY_BYTES - 1),
    ("field of 1023 bytes over pieces", |f| f.completed() && f.first_length() == Some(CARRY_BYTES)),
    ("field of 1023 bytes in one piece", |f| {
        f.carry.is_empty() && f.first_length() == Some(CARRY_BYTES)
    }),
    ("status words of an earlier piece", |f| f.earlier_words),
    ("bad tag as the first byte of a piece", |f| f.fresh && f.bad_behind(0) && !f.has_good_tag()),
    ("bad length in one piece", |f| f.bad_behind(0) && f.has_good_tag()),
    ("bad length behind its tag", |f| f.bad_behind(1)),
    ("bad length behind its first byte", |f| f.bad_behind(2)),
    ("bad record behind a carried field", |f| {
        f.completed() && f.turn.events.last() == Some(&Event::Bad)
    }),
    ("whole record waits in a short output", |f| f.room < LINE_BYTES && f.waits(is_whole)),
    ("whole record waits behind lines", |f| f.room >= LINE_BYTES && f.waits(is_whole)),
    ("carried record waits", |f| {
        !f.carry.is_empty() && f.turn.events.is_empty() && f.waits(is_whole)
    }),
    ("status words wait", |f| {
        f.waits(|front| matches!(front, Front::Whole { tag: TAG_STATUS, .. }))
    }),
    ("bad tag waits", |f| f.waits(|front| front == Front::Bad) && !TAGS.contains(&f.waiting()[0])),
    ("bad length waits", |f| {
        f.waits(|front| front == Front::Bad) && TAGS.contains(&f.waiting()[0])
    }),
    ("record waits with 95 bytes left", |f| {
        f.is_full() && f.room - f.turn.lines.len() == LINE_BYTES - 1
    }),
    ("record carried out with 96 bytes left", |f| f.has_just_room()),
    ("short output, and bytes are carried", |f| {
        f.is_fed() && f.room < LINE_BYTES && !f.piece.is_empty()
    }),
    ("output of no bytes", |f| f.goes_on() && f.room == 0),
    ("whole field behind a bad record", |f| f.comes_behind(Phase::Bad)),
    ("whole field behind the end", |f| f.comes_behind(Phase::Ended)),
];

/// The end announced.
pub struct Ending<'a> {
    before: Phase,
    carried: usize,
    room: usize,
    turn: &'a Turn,
    /// whether any byte was fed before
    any_byte: bool,
}

impl Ending<'_> {
    /// Whether the end is taken, and comes behind so many carried bytes.
    fn ends_behind(&self, is_number: impl Fn(usize) -> bool) -> bool {
        let goes_on = self.before == Phase::GoesOn;
        goes_on && self.turn.status == Status::Over && is_number(self.carried)
    }

    /// Whether it waits for room.
    fn waits(&self) -> bool {
        self.turn.status == Status::Full && self.room < LINE_BYTES
    }
}

/// Calls that announce the end.
pub const ENDINGS: Named<fn(&Ending) -> bool> = &[
    ("end of a recording without a byte", |e| !e.any_byte && e.ends_behind(|carried| carried == 0)),
    ("end behind whole fields", |e| e.any_byte && e.ends_behind(|carried| carried == 0)),
    ("cut record behind a tag", |e| e.ends_behind(|carried| carried == 1)),
    ("cut record behind the first byte of a length", |e| e.ends_behind(|carried| carried == 2)),
    ("cut record behind a length", |e| e.ends_behind(|carried| carried == HEADER_BYTES)),
    ("cut record within a body", |e| e.ends_behind(|carried| carried > HEADER_BYTES)),
    ("cut record waits", |e| e.waits() && e.carried > 0),
    ("end waits that prints nothing", |e| e.waits() && e.carried == 0),
    ("end behind a bad record", |e| e.before == Phase::Bad),
    ("end announced again", |e| e.before == Phase::Ended),
];

#[cfg(test)]
mod tests {
    use super::*;
    use crate::bench::bench_list;
    use crate::harness::generate::recordings::{field, message_field, status_field};
    use crate::harness::situations::holding;
    use crate::session::TAG_LIST;
    use crate::stream::Stream;

    /// An output for all lines of a test.
    const ROOMY: usize = 5000;

    /// What holds of the last of these pieces, which are fed with such outputs.
    fn met(pieces: &[&[u8]], room: usize) -> Vec<&'static str> {
        let (mut watch, mut stream) = (PieceWatch::default(), Stream::default());
        let (last, earlier) = pieces.split_last().unwrap();
        let mut feed = |piece: &[u8], room| {
            let carry = stream.carry.clone();
            watch.next_piece(piece);
            let turn = stream.feed(piece, room);
            holding(FEEDINGS, &watch.feed((&carry, piece), room, &turn, stream.carry.len()))
        };
        earlier.iter().for_each(|piece| drop(feed(piece, ROOMY)));
        feed(last, room)
    }

    const SHORT: &str = "short output, and bytes are carried";

    #[test]
    fn cuts_of_a_field_are_told() {
        let list = field(TAG_LIST, &[7; 4]);
        let (two, ends) =
            ("field completed over two pieces", "carried field that ends where its piece does");
        let over = "list over pieces";
        let behind = |cut: usize| met(&[&list[..cut], &list[cut..]], ROOMY);
        assert_eq!(behind(1), [two, "field completed behind its tag", ends, over]);
        let low = "field completed behind the first byte of its length";
        assert_eq!(behind(2), [two, low, ends, over]);
        assert_eq!(behind(3), [two, "field completed behind its length", ends, over]);
        assert_eq!(behind(4), [two, ends, over]);
        assert_eq!(behind(6), [two, "field completed by its last byte", ends, over]);
        let three = met(&[&list[..2], &[], &list[2..5], &[&list[5..], &[1]].concat()], ROOMY);
        assert_eq!(three, ["field completed over three pieces", over]);
        assert_eq!(met(&[&list], ROOMY), [""; 0]);
        assert_eq!(met(&[&list[..2]], 95), [SHORT]);
    }

    #[test]
    fn empty_pieces_are_told() {
        assert_eq!(met(&[&[]], ROOMY), ["empty piece between fields"]);
        assert_eq!(met(&[&[1], &[]], 0), ["empty piece within a field", "output of no bytes"]);
        assert_eq!(met(&[&[9], &[]], ROOMY), [""; 0]);
    }

    #[test]
    fn longest_fields_are_told() {
        let longest = status_field(&[7; 255]);
        assert_eq!(met(&[&longest], ROOMY), ["field of 1023 bytes in one piece"]);
        assert_eq!(met(&[&longest[..1022]], ROOMY), ["carry of 1022 bytes"]);
        let completed = met(&[&longest[..1022], &longest[1022..]], ROOMY);
        assert!(completed.contains(&"field of 1023 bytes over pieces"), "{completed:?}");
    }

    #[test]
    fn bad_records_are_told_by_their_cut() {
        assert_eq!(met(&[&[9]], ROOMY), ["bad tag as the first byte of a piece"]);
        let bad = [3, 0, 0];
        assert_eq!(met(&[&bad], ROOMY), ["bad length in one piece"]);
        assert_eq!(met(&[&bad[..1], &bad[1..]], ROOMY), ["bad length behind its tag"]);
        assert_eq!(met(&[&bad[..2], &bad[2..]], ROOMY), ["bad length behind its first byte"]);
        let behind = met(&[&[1, 0], &[0, 9]], ROOMY);
        assert!(behind.contains(&"bad record behind a carried field"), "{behind:?}");
        assert_eq!(met(&[&bad, &[1, 0, 0]], ROOMY), ["whole field behind a bad record"]);
    }

    #[test]
    fn waiting_records_are_told() {
        let (list, short) = (field(TAG_LIST, &[]), "whole record waits in a short output");
        let with_95 = "record waits with 95 bytes left";
        assert_eq!(met(&[&list], 94), [short]);
        assert_eq!(met(&[&list[..2], &list[2..]], 94), [short, "carried record waits"]);
        assert_eq!(met(&[&status_field(&[])], 95), [short, "status words wait", with_95]);
        assert_eq!(met(&[&[9]], 95), ["bad tag waits", with_95]);
        assert_eq!(met(&[&[3, 0, 0]], 90), ["bad length waits"]);
        let just = "record carried out with 96 bytes left";
        let two = list.repeat(2);
        assert_eq!(met(&[&two], 96), ["whole record waits behind lines", just]);
        assert_eq!(met(&[&two], 104), [just]);
        assert_eq!(met(&[&two], 103), ["whole record waits behind lines", with_95]);
    }

    #[test]
    fn words_of_an_earlier_piece_are_told() {
        let list = field(TAG_LIST, &bench_list());
        let (words, look) = (status_field(&[7]), message_field(3, &[0, 0xC4, 3, 0, 2, 0, 0, 0, 1]));
        let earlier = "status words of an earlier piece";
        assert_eq!(met(&[&list, &words, &look], ROOMY), [earlier]);
        assert_eq!(met(&[&list, &[words, look.clone()].concat()], ROOMY), [""; 0]);
        assert_eq!(met(&[&list, &look], ROOMY), [""; 0]);
        let many = met(&[&list, &look.repeat(20)], ROOMY);
        assert_eq!(many, ["piece with many fields"]);
    }

    /// What holds of the end behind this piece, announced with such outputs.
    fn ended(piece: &[u8], rooms: &[usize]) -> Vec<&'static str> {
        let (mut watch, mut stream) = (PieceWatch::default(), Stream::default());
        watch.next_piece(piece);
        let turn = stream.feed(piece, ROOMY);
        watch.feed((&[], piece), ROOMY, &turn, stream.carry.len());
        let mut end = |room| {
            let turn = stream.end(room);
            holding(ENDINGS, &watch.end(stream.carry.len(), room, &turn))
        };
        rooms.iter().map(|&room| end(room)).last().unwrap()
    }

    #[test]
    fn ends_are_told_by_what_is_carried() {
        assert_eq!(ended(&[], &[96]), ["end of a recording without a byte"]);
        assert_eq!(ended(&[1, 0, 0], &[96]), ["end behind whole fields"]);
        assert_eq!(ended(&[3], &[96]), ["cut record behind a tag"]);
        assert_eq!(ended(&[3, 9], &[96]), ["cut record behind the first byte of a length"]);
        assert_eq!(ended(&[3, 9, 0], &[95, 96]), ["cut record behind a length"]);
        assert_eq!(ended(&[3, 9, 0, 7], &[96]), ["cut record within a body"]);
        assert_eq!(ended(&[3], &[95]), ["cut record waits"]);
        assert_eq!(ended(&[], &[95]), ["end waits that prints nothing"]);
        assert_eq!(ended(&[9], &[96]), ["end behind a bad record"]);
        assert_eq!(ended(&[3], &[96, 0]), ["end announced again"]);
    }
}
