//! Situations of orders inside an outcome: who gains, keeps and gives a processor, control words
//! that cores share or not, and boards at their limits.

use crate::board::{Board, MOST_HOSTS, ROWS};
use crate::harness::situations::{Named, Seen};
use crate::manager::GEN_IGN_BOOTVECTOR;
use crate::message::{Order, ANSWER_BYTES};
use crate::outcome::Outcome;
use crate::record::Record;

impl Seen<'_> {
    fn configured(&self, with_vector: bool) -> bool {
        let Order::SetConfig(change) = self.order else {
            return false;
        };
        self.ok() && (change.flags.clear & GEN_IGN_BOOTVECTOR == 0) == with_vector
    }

    /// Whether this changed a shared control word while the other cores that have it passed the
    /// test.
    fn shared_set(&self, test: impl Fn(&Record) -> bool) -> bool {
        self.changed_control() && !self.sharers.is_empty() && self.sharers.iter().all(test)
    }

    /// Whether this is a set that is refused to the controller of another core that has the word.
    fn shared_set_refused(&self) -> bool {
        let is_set = matches!(self.order, Order::SetControl(_));
        let refused = self.report.outcome == Outcome::N7;
        is_set && refused && self.sharers.iter().any(|r| r.is_controlled_by(self.sender))
    }

    fn status_answered(&self) -> bool {
        self.order == Order::GetStatus && self.report.written == ANSWER_BYTES
    }

    /// Whether this answer shows through one core a word that was last changed through another.
    fn shared_read(&self) -> bool {
        let changed_elsewhere = self.changed_through.is_some_and(|p| p != self.processor);
        self.status_answered() && changed_elsewhere
    }

    /// Whether this answer shows another word than the one that was changed through an R5 processor
    /// of the same cluster.
    fn single_read(&self) -> bool {
        let other = |mate: &Record| mate.control != self.before.control;
        self.status_answered() && self.r5_mate.as_ref().is_some_and(other)
    }

    /// Whether this names the processor, on the board that stands at the start.
    fn first(&self, processor: u8) -> bool {
        self.processor == processor && *self.board == Board::first()
    }

    /// How many processors have the control word.
    fn cluster(&self) -> usize {
        self.sharers.len() + 1
    }

    /// Whether this was carried out on another board than the one that stands at the start.
    fn elsewhere(&self) -> bool {
        self.ok() && *self.board != Board::first()
    }

    fn secure_sender(&self) -> bool {
        self.board.is_secure(u16::from(self.sender))
    }
}

/// Orders of every type.
pub const ORDERS: Named<fn(&Seen) -> bool> = &[
    ("gained while free", |s| s.requested() && s.was_free()),
    ("gained without an entry", |s| s.requested() && !s.has_entry()),
    ("kept by the recovery master", |s| s.kept()),
    ("taken by the recovery master", |s| s.taken()),
    ("released", |s| s.released()),
    ("handed to another host", |s| s.handed(false)),
    ("handed to oneself", |s| s.handed(true)),
    ("vector stored", |s| s.configured(true)),
    ("vector kept", |s| s.configured(false)),
    ("requested again, no master", |s| {
        s.was_request(Outcome::N7) && s.before.is_controlled_by(s.sender)
    }),
    ("control set through 32, read through 33", |s| s.first(33) && s.shared_read()),
    ("control set through 33, read through 32", |s| s.first(32) && s.shared_read()),
    ("control set through 32, 33 free", |s| s.first(32) && s.shared_set(Record::is_free)),
    ("control set through 33, 32 free", |s| s.first(33) && s.shared_set(Record::is_free)),
    ("control set through 32, 33 of another host", |s| {
        s.first(32) && s.shared_set(|r| s.of_another_host(r))
    }),
    ("control set through 33, 32 of another host", |s| {
        s.first(33) && s.shared_set(|r| s.of_another_host(r))
    }),
    ("control of 33 no right to set through 32", |s| s.first(32) && s.shared_set_refused()),
    ("control of 32 no right to set through 33", |s| s.first(33) && s.shared_set_refused()),
    ("control set through one of three, read through another", |s| {
        s.cluster() == 3 && s.shared_read()
    }),
    ("control set through one of three, the others free", |s| {
        s.cluster() == 3 && s.shared_set(Record::is_free)
    }),
    ("control set through one of three, the others of others", |s| {
        s.cluster() == 3 && s.shared_set(|r| s.of_another_host(r))
    }),
    ("control of one of three no right to set through another", |s| {
        s.cluster() == 3 && s.shared_set_refused()
    }),
    ("control set through one of 32, read through another", |s| {
        s.cluster() == ROWS && s.shared_read()
    }),
    ("control set through an R5 core, not read through its mate", |s| s.single_read()),
    ("last row of 32 processors", |s| {
        s.ok() && s.row == ROWS - 1 && s.board.processors().len() == ROWS
    }),
    ("sender of 64 hosts", |s| s.ok() && s.board.senders().len() == MOST_HOSTS),
    ("only processor of its board", |s| s.ok() && s.board.processors().len() == 1),
    ("secure host of another board", |s| s.elsewhere() && s.secure_sender()),
    ("host of another board that is not secure", |s| s.elsewhere() && !s.secure_sender()),
    ("host and processor of one number", |s| s.ok() && s.sender == s.processor),
    ("processor 1 of another board", |s| s.elsewhere() && s.processor == 1),
    ("processor 255", |s| s.ok() && s.processor == 255),
    ("host 1", |s| s.ok() && s.sender == 1),
    ("host 255", |s| s.ok() && s.sender == 255),
];
