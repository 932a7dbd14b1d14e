//! Situations of boards that a run has to meet: how descriptions and lists come out, who is gone
//! with the board that stood at the start, and what only a board of odd content can have.

use crate::access::{ListFault, ENTRY_BYTES, LIST_HEADER_BYTES};
use crate::board::{Board, Class, FIRST_HOSTS, FIRST_PROCESSORS, MOST_HOSTS, ROWS};
use crate::description::{BoardFault, Description, Item, TAG_HOST, TAG_PROCESSOR};
use crate::harness::situations::{Met, Named, Seen};
use crate::message::HEADER_BYTES;
use crate::outcome::Outcome;

/// A description that was offered and what it came to.
pub struct Offer<'a> {
    verdict: Result<(), BoardFault>,
    /// what it lists up to its first fault
    listed: Description,
    /// what cannot be read as an item, or starts with the item at fault
    rest: &'a [u8],
}

impl Offer<'_> {
    /// Looks at a description.
    pub fn new(description: &[u8], verdict: Result<(), BoardFault>) -> Offer<'_> {
        let (mut listed, mut rest) = (Description::default(), description);
        while let Some((item, behind)) = Item::read(rest) {
            if listed.add(item).is_err() {
                break;
            }
            rest = behind;
        }
        Offer { verdict, listed, rest }
    }

    fn taken(&self) -> bool {
        self.verdict.is_ok()
    }

    /// Whether it is refused with this fault, found in a field with this tag.
    fn refused(&self, fault: BoardFault, tag: u8) -> bool {
        self.verdict == Err(fault) && self.rest.first() == Some(&tag)
    }

    /// Whether it is refused for a processor of this class, whose cluster is of another.
    fn refused_class(&self, class: Class) -> bool {
        let item = Item::read(self.rest).map(|(item, _)| item);
        let wanted = class as u8;
        self.verdict == Err(BoardFault::D5)
            && matches!(item, Some(Item::Processor { class, .. }) if class == wanted)
    }

    /// Whether the first field that cannot be read has a good tag and passes the test.
    fn unread(&self, test: impl Fn(&[u8]) -> bool) -> bool {
        let good_tag = matches!(self.rest.first(), Some(&(TAG_HOST | TAG_PROCESSOR)));
        self.verdict == Err(BoardFault::D1) && good_tag && test(self.rest)
    }

    /// Whether a cluster of this class has so many processors.
    fn clustered(&self, class: Class, count: usize) -> bool {
        let of = |cluster: u8| {
            let processors = self.listed.processors.iter();
            processors.filter(|p| p.class == class && p.cluster == cluster).count()
        };
        self.taken() && (1..=u8::MAX).any(|cluster| of(cluster) == count)
    }

    fn has_host(&self, number: u8) -> bool {
        self.taken() && self.listed.hosts.iter().any(|host| host.number == number)
    }

    fn has_processor(&self, number: u8) -> bool {
        self.taken() && self.listed.processors.iter().any(|p| p.number == number)
    }

    /// How many hosts and processors were taken.
    fn sizes(&self) -> Option<(usize, usize)> {
        self.taken().then_some((self.listed.hosts.len(), self.listed.processors.len()))
    }
}

/// How descriptions come out.
pub const OFFERS: Named<fn(&Offer) -> bool> = &[
    ("board of nothing", |o| o.sizes() == Some((0, 0))),
    ("board of 64 hosts and 32 processors", |o| o.sizes() == Some((MOST_HOSTS, ROWS))),
    ("board of no processor", |o| o.sizes().is_some_and(|(hosts, rows)| hosts > 0 && rows == 0)),
    ("board of one processor", |o| o.sizes().is_some_and(|(_, rows)| rows == 1)),
    ("board with host 1", |o| o.has_host(1)),
    ("board with host 255", |o| o.has_host(255)),
    ("board with processor 1", |o| o.has_processor(1)),
    ("board with processor 255", |o| o.has_processor(255)),
    ("board with a host and a processor of one number", |o| {
        o.listed.hosts.iter().any(|host| o.has_processor(host.number))
    }),
    ("board with an ARMv8 cluster of one", |o| o.clustered(Class::Armv8, 1)),
    ("board with an ARMv8 cluster of three", |o| o.clustered(Class::Armv8, 3)),
    ("board with an ARMv8 cluster of 32", |o| o.clustered(Class::Armv8, ROWS)),
    ("board with an R5 cluster of three", |o| o.clustered(Class::R5, 3)),
    ("board refused for a tag", |o| {
        let known = [TAG_HOST, TAG_PROCESSOR];
        o.verdict == Err(BoardFault::D1) && o.rest.first().is_some_and(|tag| !known.contains(tag))
    }),
    ("board refused for a length", |o| o.unread(|rest| rest.len() > 8)),
    ("board cut behind a tag", |o| o.unread(|rest| rest.len() == 1)),
    ("board cut in a length", |o| o.unread(|rest| rest.len() == 2)),
    ("board cut behind a length", |o| o.unread(|rest| matches!(rest, [1, 2, 0] | [2, 3, 0]))),
    ("board refused for a host of number 0", |o| o.refused(BoardFault::D2, TAG_HOST)),
    ("board refused for a processor of number 0", |o| o.refused(BoardFault::D2, TAG_PROCESSOR)),
    ("board refused for a host's repeat", |o| o.refused(BoardFault::D3, TAG_HOST)),
    ("board refused for a processor's repeat", |o| o.refused(BoardFault::D3, TAG_PROCESSOR)),
    ("board refused for a mark", |o| o.refused(BoardFault::D4, TAG_HOST)),
    ("board refused for a class", |o| o.refused(BoardFault::D4, TAG_PROCESSOR)),
    ("board refused for an R5 core in an ARMv8 cluster", |o| o.refused_class(Class::R5)),
    ("board refused for an ARMv8 core in an R5 cluster", |o| o.refused_class(Class::Armv8)),
    ("board refused for a 65th host", |o| o.refused(BoardFault::D6, TAG_HOST)),
    ("board refused for a 33rd processor", |o| o.refused(BoardFault::D6, TAG_PROCESSOR)),
];

/// A list that was offered, under which board and what it came to.
pub struct Listed<'a> {
    pub board: &'a Board,
    pub list: &'a [u8],
    pub verdict: Result<(), ListFault>,
}

impl Listed<'_> {
    /// The processors of its used entries.
    fn processors(&self) -> Vec<u8> {
        used_entries(self.list).iter().map(|entry| entry[0]).collect()
    }

    /// Whether it names a processor of the first board, which this board lacks.
    fn names_gone(&self) -> bool {
        let gone = |number: &u8| self.board.row_of(*number).is_none() && in_first(*number);
        self.processors().first().is_some_and(gone)
    }
}

/// The used entries of a list, as far as it has them.
pub fn used_entries(list: &[u8]) -> Vec<&[u8]> {
    let entries = list.get(LIST_HEADER_BYTES..).unwrap_or_default();
    entries.chunks_exact(ENTRY_BYTES).filter(|entry| entry[0] != 0).collect()
}

/// Lists under boards.
pub const LISTS: Named<fn(&Listed) -> bool> = &[
    ("list with an entry for each of 32 processors", |l| {
        l.verdict.is_ok() && l.processors().len() == ROWS
    }),
    ("list refused for a processor of the board before", |l| {
        l.verdict == Err(ListFault::A5) && l.names_gone()
    }),
    ("list refused on a board of nothing", |l| {
        l.verdict == Err(ListFault::A5) && l.board.processors().is_empty()
    }),
];

impl Met<'_> {
    /// Whether the sender is refused, though header and channel have the same host other than 0.
    fn unknown_sender(&self) -> bool {
        let same = self.call.message.get(2) == Some(&self.call.channel);
        self.outcome() == Outcome::N2 && same && self.call.channel != 0
    }

    fn sender_of_first(&self) -> bool {
        FIRST_HOSTS.iter().any(|host| host.number == self.call.channel)
    }

    fn processor_of_first(&self) -> bool {
        self.call.message.get(HEADER_BYTES).is_some_and(|&number| in_first(number))
    }
}

fn in_first(number: u8) -> bool {
    FIRST_PROCESSORS.iter().any(|processor| processor.number == number)
}

/// Messages refused by the board.
pub const REFUSALS: Named<fn(&Met) -> bool> = &[
    ("host of the board before", |m| m.unknown_sender() && m.sender_of_first()),
    ("processor of the board before", |m| m.outcome() == Outcome::N6 && m.processor_of_first()),
    ("sender on a board without hosts", |m| {
        m.unknown_sender() && m.setup.board.senders().is_empty()
    }),
    ("processor on a board without processors", |m| {
        m.outcome() == Outcome::N6 && m.setup.board.processors().is_empty()
    }),
];

impl Seen<'_> {
    /// The bytes of the sender, of the row's class and of its home.
    fn host_byte(&self) -> u8 {
        self.board.0[usize::from(self.sender)]
    }

    fn class_byte(&self) -> u8 {
        self.board.0[512 + self.row]
    }

    fn home_byte(&self) -> u8 {
        self.board.0[544 + self.row]
    }

    fn home(&self) -> usize {
        self.board.home_at(self.row)
    }

    /// Whether another processor has the same row.
    fn row_shared(&self) -> bool {
        let others = self.board.processors().into_iter().filter(|&other| other != self.processor);
        others.into_iter().any(|other| self.board.row_of(other) == Some(self.row))
    }
}

/// What no description leaves.
pub const ODDITIES: Named<fn(&Seen) -> bool> = &[
    ("two processors on one row", |s| s.ok() && s.row_shared()),
    ("processor 0 on the board", |s| s.ok() && s.processor == 0),
    ("host byte above 2", |s| s.ok() && s.host_byte() > 2),
    ("class byte above 1", |s| s.changed_control() && s.class_byte() > 1),
    ("home byte above 31", |s| s.changed_control() && s.home_byte() > 31),
    ("home of another class", |s| {
        s.changed_control() && s.board.class_at(s.home()) != s.board.class_at(s.row)
    }),
    ("home with another home", |s| s.changed_control() && s.board.home_at(s.home()) != s.home()),
];
