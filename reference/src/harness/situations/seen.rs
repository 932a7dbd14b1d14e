//! What is seen of a message: what it met, what it came to and, if it has a whole order, what was
//! done before it.

use crate::access::{role_of, row_words, Role};
use crate::board::{Board, Class, ALONE, NO_HOST, ROWS};
use crate::harness::clusters::Clusters;
use crate::manager::{Call, Setup};
use crate::message::{read_order, Header, Kind, Order, HEADER_BYTES};
use crate::outcome::{Outcome, Report};
use crate::record::{Record, RecordMemory};

/// A message with its report, under which board and list.
pub struct Met<'a> {
    pub setup: Setup<'a>,
    pub call: Call<'a>,
    pub report: Report,
}

impl Met<'_> {
    /// Its outcome.
    pub fn outcome(&self) -> Outcome {
        self.report.outcome
    }

    /// The role of a host for the processor that the message names. Where it names none of the
    /// board, the role for the first row.
    pub fn role(&self, host: u8) -> Role {
        let Setup { board, access } = self.setup;
        let named = self.call.message.get(HEADER_BYTES).and_then(|&number| board.row_of(number));
        role_of(board, access, named.unwrap_or(0), u16::from(host))
    }
}

/// Follows the messages that meet the same memories one after the other.
#[derive(Default)]
pub struct Watch {
    clusters: Clusters,
    /// by home: the processor through which the control word there was changed last
    changed_through: [Option<u8>; ROWS],
    /// the R5 processor in a cluster through which a control word was changed last
    changed_r5: Option<u8>,
}

impl Watch {
    /// Starts anew, on a board with these clusters.
    pub fn new(clusters: &Clusters) -> Watch {
        Watch { clusters: clusters.clone(), ..Watch::default() }
    }

    /// What the next message met and came to; none if it was refused before its processor and order
    /// were known. The records are those that it met.
    pub fn see<'a>(
        &mut self,
        setup: Setup<'a>,
        before: &RecordMemory,
        call: &Call<'a>,
        report: Report,
    ) -> Option<Seen<'a>> {
        if report.outcome < Outcome::N7 {
            return None;
        }
        let (processor, order) = read_order(call.message).ok()?;
        let kind = Kind::of(Header::read(call.message)?.number)?;
        let board = setup.board;
        let row = board.row_of(processor)?;
        let load = |other: u8| board.row_of(other).map(|row| Record::load(board, before, row));
        let seen = Seen {
            board,
            sender: call.channel,
            processor,
            row,
            kind,
            order,
            places: row_words(setup.access, row),
            before: Record::load(board, before, row),
            sharers: board.sharers(processor).into_iter().filter_map(load).collect(),
            changed_through: self.changed_through[board.home_at(row)],
            r5_mate: self.changed_mate(processor).and_then(load),
            status: call.status,
            report,
        };
        self.follow(&seen);
        Some(seen)
    }

    /// The other R5 processor of the same cluster through which a control word was changed last.
    fn changed_mate(&self, processor: u8) -> Option<u8> {
        let cluster = self.clusters.cluster(processor);
        let is_mate = |&mate: &u8| mate != processor && self.clusters.cluster(mate) == cluster;
        self.changed_r5.filter(is_mate)
    }

    fn follow(&mut self, seen: &Seen) {
        if !seen.changed_control() {
            return;
        }
        self.changed_through[seen.board.home_at(seen.row)] = Some(seen.processor);
        let in_cluster = self.clusters.cluster(seen.processor) != ALONE;
        if in_cluster && seen.board.class_at(seen.row) == Class::R5 {
            self.changed_r5 = Some(seen.processor);
        }
    }
}

/// A message with a whole order, what it met and what it came to.
pub struct Seen<'a> {
    pub(super) board: &'a Board,
    pub(super) sender: u8,
    pub processor: u8,
    pub row: usize,
    pub(super) kind: Kind,
    pub(super) order: Order,
    /// the master and the secondaries of the row
    pub(super) places: &'a [u16],
    pub(super) before: Record,
    /// the other processors that have the control word
    pub(super) sharers: Vec<Record>,
    /// the processor through which the control word was changed before
    pub(super) changed_through: Option<u8>,
    /// another R5 processor of the cluster, through which its own control word was changed
    pub(super) r5_mate: Option<Record>,
    pub(super) status: &'a [u32],
    pub(super) report: Report,
}

impl Seen<'_> {
    pub(super) fn ok(&self) -> bool {
        self.report.outcome == Outcome::OK
    }

    /// Whether this is a request with this outcome.
    pub(super) fn was_request(&self, outcome: Outcome) -> bool {
        self.order == Order::Request && self.report.outcome == outcome
    }

    pub(super) fn requested(&self) -> bool {
        self.was_request(Outcome::OK)
    }

    /// Whether this is a request whose report tells this role.
    pub(super) fn told(&self, role: Role) -> bool {
        self.order == Order::Request && self.report.role == role
    }

    /// Whether the processor had no controller.
    pub(super) fn was_free(&self) -> bool {
        self.before.is_free()
    }

    pub(super) fn has_entry(&self) -> bool {
        self.places[0] != NO_HOST
    }

    /// Whether this is a request that took the processor from another host.
    pub(super) fn taken(&self) -> bool {
        self.requested() && self.of_another_host(&self.before)
    }

    /// Whether this is a request of a recovery master for what it holds.
    pub(super) fn kept(&self) -> bool {
        self.requested() && self.before.is_controlled_by(self.sender)
    }

    /// Whether this is a handover that was carried out, to the sender itself or to another host.
    pub(super) fn handed(&self, to_oneself: bool) -> bool {
        let Order::Handover { host } = self.order else {
            return false;
        };
        self.ok() && (host == self.sender) == to_oneself
    }

    pub(super) fn released(&self) -> bool {
        self.ok() && self.order == Order::Release
    }

    /// Whether this is a set control that was carried out and changed the word.
    pub(super) fn changed_control(&self) -> bool {
        let Order::SetControl(flags) = self.order else {
            return false;
        };
        let (was_set, was_clear) = (self.before.control, !self.before.control);
        self.ok() && (flags.set & was_clear) | (flags.clear & was_set) != 0
    }

    /// Whether the processor is held, but not by the sender.
    pub(super) fn of_another_host(&self, record: &Record) -> bool {
        !record.is_free() && !record.is_controlled_by(self.sender)
    }
}
