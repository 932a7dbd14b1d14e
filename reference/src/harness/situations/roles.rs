//! Situations of requests whose report tells a role: hosts that several places of an entry name,
//! unused places, and words that only a comparison of all 16 bits tells apart.

use crate::access::Role;
use crate::board::NO_HOST;
use crate::harness::generate::goals::Subject;
use crate::harness::situations::{Met, Named, Seen};
use crate::message::Kind;
use crate::outcome::Outcome;

/// Where an entry has its master and its secondaries.
const MASTER: usize = 0;
const SECONDARY_0: usize = 1;
const SECONDARY_1: usize = 2;
const SECONDARY_2: usize = 3;

impl Seen<'_> {
    fn names_sender(&self, place: usize) -> bool {
        self.has_entry() && self.places[place] == u16::from(self.sender)
    }

    /// Whether this is a request with this outcome from a host that these places name, and no
    /// others.
    fn named_at(&self, outcome: Outcome, places: &[usize]) -> bool {
        let mut all = MASTER..=SECONDARY_2;
        self.was_request(outcome)
            && all.all(|place| self.names_sender(place) == places.contains(&place))
    }

    /// Whether this is a request with this outcome from a secondary behind these unused places,
    /// which are the only unused ones before its own.
    fn behind_unused(&self, outcome: Outcome, place: usize, unused: &[usize]) -> bool {
        let is_unused = |at: usize| self.places[at] == NO_HOST;
        self.was_request(outcome)
            && self.names_sender(place)
            && !(MASTER..place).any(|at| self.names_sender(at))
            && (MASTER..place).all(|at| is_unused(at) == unused.contains(&at))
    }

    /// Whether the word there is another number with the sender's low byte.
    fn looks_like_sender(&self, place: usize) -> bool {
        let word = self.places[place];
        word > 255 && word & 0xFF == u16::from(self.sender)
    }

    /// Whether this is a request without a role that a comparison of low bytes would give the role
    /// of this place.
    fn alike_in_low_byte(&self, place: usize) -> bool {
        self.told(Role::None) && self.looks_like_sender(place)
    }

    /// Whether this is a request with a role that a comparison of low bytes would take for that of
    /// a lower place.
    fn alike_before(&self, role: Role) -> bool {
        let named = (MASTER..=SECONDARY_2).find(|&place| self.names_sender(place));
        let before = named.is_some_and(|at| (MASTER..at).any(|at| self.looks_like_sender(at)));
        self.told(role) && before
    }

    /// Whether this is a request without a role though a word has the sender's number in its high
    /// byte.
    fn alike_in_high_byte(&self) -> bool {
        self.told(Role::None) && self.places.iter().any(|word| word >> 8 == u16::from(self.sender))
    }

    /// Whether this is a request without a role for an entry whose master's low byte is 0.
    fn alike_to_open(&self) -> bool {
        self.told(Role::None) && self.has_entry() && self.places[MASTER] & 0xFF == 0
    }

    /// Whether this is a request of an open processor, though words of its row name the sender.
    fn named_without_master(&self) -> bool {
        self.told(Role::OpenProcessor) && self.places.contains(&u16::from(self.sender))
    }
}

impl Met<'_> {
    /// Whether this is a request of a channel without a role, where the host in the header has one.
    fn role_of_header_alone(&self) -> bool {
        let (Subject::Type(Kind::Request), _) = Subject::of(self.call.message) else {
            return false;
        };
        let [by_channel, by_header] =
            [self.call.channel, self.call.message[2]].map(|h| self.role(h));
        self.outcome() == Outcome::N2 && by_channel == Role::None && by_header != Role::None
    }
}

const OK: Outcome = Outcome::OK;
const N7: Outcome = Outcome::N7;

/// Requests by the places that name their sender.
pub const PLACES: Named<fn(&Seen) -> bool> = &[
    ("request by master and secondary 0", |s| s.named_at(OK, &[MASTER, SECONDARY_0])),
    ("request by master and secondary 1", |s| s.named_at(OK, &[MASTER, SECONDARY_1])),
    ("request by master and secondary 2", |s| s.named_at(OK, &[MASTER, SECONDARY_2])),
    ("request by the host of all places", |s| {
        s.named_at(OK, &[MASTER, SECONDARY_0, SECONDARY_1, SECONDARY_2])
    }),
    ("request by secondary 0 and 1", |s| s.named_at(OK, &[SECONDARY_0, SECONDARY_1])),
    ("request by secondary 0 and 2", |s| s.named_at(OK, &[SECONDARY_0, SECONDARY_2])),
    ("request by secondary 1 and 2", |s| s.named_at(OK, &[SECONDARY_1, SECONDARY_2])),
    ("request by all secondaries", |s| s.named_at(OK, &[SECONDARY_0, SECONDARY_1, SECONDARY_2])),
    ("request by secondary 0 and 1 refused", |s| s.named_at(N7, &[SECONDARY_0, SECONDARY_1])),
    ("request by secondary 0 and 2 refused", |s| s.named_at(N7, &[SECONDARY_0, SECONDARY_2])),
    ("request by secondary 1 and 2 refused", |s| s.named_at(N7, &[SECONDARY_1, SECONDARY_2])),
    ("request by secondary 1, 0 unused", |s| s.behind_unused(OK, SECONDARY_1, &[SECONDARY_0])),
    ("request by secondary 2, 0 unused", |s| s.behind_unused(OK, SECONDARY_2, &[SECONDARY_0])),
    ("request by secondary 2, 1 unused", |s| s.behind_unused(OK, SECONDARY_2, &[SECONDARY_1])),
    ("request by secondary 2, 0 and 1 unused", |s| {
        s.behind_unused(OK, SECONDARY_2, &[SECONDARY_0, SECONDARY_1])
    }),
    ("request by secondary 1 refused, 0 unused", |s| {
        s.behind_unused(N7, SECONDARY_1, &[SECONDARY_0])
    }),
    ("request by secondary 2 refused, 0 unused", |s| {
        s.behind_unused(N7, SECONDARY_2, &[SECONDARY_0])
    }),
    ("request without a role refused, processor free", |s| s.told(Role::None) && s.was_free()),
    ("request without a role refused, processor held", |s| s.told(Role::None) && !s.was_free()),
    ("taken by a master that is secondary too", |s| {
        let sender = u16::from(s.sender);
        s.taken() && s.told(Role::RecoveryMaster) && s.places[SECONDARY_0..].contains(&sender)
    }),
];

/// Requests by the hosts of channel and header.
pub const HEADERS: Named<fn(&Met) -> bool> =
    &[("Request N2, role of the host in the header alone", |m| m.role_of_header_alone())];

/// What no list leaves.
pub const ODD_WORDS: Named<fn(&Seen) -> bool> = &[
    ("master's word alike in the low byte", |s| s.alike_in_low_byte(MASTER)),
    ("secondary 0 alike in the low byte", |s| s.alike_in_low_byte(SECONDARY_0)),
    ("secondary 1 alike in the low byte", |s| s.alike_in_low_byte(SECONDARY_1)),
    ("secondary 2 alike in the low byte", |s| s.alike_in_low_byte(SECONDARY_2)),
    ("secondary 0 behind a word alike", |s| s.alike_before(Role::Secondary0)),
    ("secondary 1 behind a word alike", |s| s.alike_before(Role::Secondary1)),
    ("secondary 2 behind a word alike", |s| s.alike_before(Role::Secondary2)),
    ("word alike in the high byte", |s| s.alike_in_high_byte()),
    ("master's word with a low byte of 0", |s| s.alike_to_open() && s.was_free()),
    ("open processor with secondaries", |s| s.named_without_master()),
];

#[cfg(test)]
mod tests {
    use super::*;
    use crate::access::ACCESS_WORDS;
    use crate::board::Board;
    use crate::harness::situations::holding;
    use crate::manager::{handle, Call, Setup};
    use crate::record::RECORD_WORDS;

    /// Host 5 is a secondary of processor 1.
    #[test]
    fn role_of_the_header_alone_is_told() {
        let (board, mut access) = (Board::first(), [0; ACCESS_WORDS]);
        access[..3].copy_from_slice(&[1, 3, 5]);
        let setup = Setup { board: &board, access: &access };
        let met = |channel: u8, message: &[u8]| {
            let call = Call { channel, message, status: &[] };
            let report = handle(setup, &mut [0; RECORD_WORDS], &call, &mut [0; 29]);
            holding(HEADERS, &Met { setup, call, report }).len()
        };
        let request = [0, 0xC0, 5, 0, 2, 0, 0, 0, 1];
        assert_eq!([met(7, &request), met(3, &request), met(5, &request)], [1, 0, 0]);
        assert_eq!([met(7, &request[..7]), met(7, &[1, 0xC0, 5, 0, 2, 0, 0, 0, 1])], [0, 0]);
    }
}
