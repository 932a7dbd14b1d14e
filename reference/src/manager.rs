//! The message call: the outcomes in the order of their tests, the effect of OK, and the answer.

use crate::access::{has_list, is_permitted, is_recovery_master, role_of, AccessMemory, Role};
use crate::board::{flag_mask, Board, Class, Word};
use crate::message::{
    read_order, status_fields, ConfigChange, FlagChange, Header, Order, ANSWER_BYTES, HEADER_BYTES,
    LONGEST_MESSAGE,
};
use crate::outcome::{Outcome, Report};
use crate::record::{Record, RecordMemory, Tallies};
use crate::wait::Wait;

/// Bit of the clear word of set config: the vector fields are neither checked nor stored.
pub const GEN_IGN_BOOTVECTOR: u32 = 1 << 28;

/// Bits of an R5 boot vector that have to be zero.
pub const R5_VECTOR_LOW_BITS: u32 = 0x7F;

/// One message as it reaches the call.
#[derive(Clone, Copy, Debug)]
pub struct Call<'a> {
    /// the host that the channel belongs to
    pub channel: u8,
    pub message: &'a [u8],
    /// status words, the first being the status now
    pub status: &'a [u32],
}

/// What messages are judged by and do not change.
#[derive(Clone, Copy, Debug)]
pub struct Setup<'a> {
    pub board: &'a Board,
    pub access: &'a AccessMemory,
}

/// The processor that a message names, and what is remembered of it.
struct Target<'a> {
    setup: Setup<'a>,
    processor: u8,
    row: usize,
    record: Record,
}

/// How a message ends, before anything is stored or written.
struct Ending {
    outcome: Outcome,
    role: Role,
    checks: u32,
    microseconds: u32,
    /// the row and its new record; none where nothing changes
    change: Option<(usize, Record)>,
    /// what the answer has after its header
    fields: Vec<u8>,
}

impl Ending {
    /// An ending that tells no role, changes nothing and adds nothing to the answer.
    fn plain(outcome: Outcome) -> Ending {
        Ending {
            outcome,
            role: Role::None,
            checks: 0,
            microseconds: 0,
            change: None,
            fields: Vec::new(),
        }
    }
}

/// Judges and carries out one message. Records change on OK alone. The answer goes to the start of
/// the buffer, and the bytes beyond it keep their values.
pub fn handle(setup: Setup, records: &mut RecordMemory, call: &Call, answer: &mut [u8]) -> Report {
    let ending = judge(setup, records, call, answer.len());
    if let Some((row, record)) = ending.change {
        record.store(setup.board, records, row);
    }
    Report {
        outcome: ending.outcome,
        role: ending.role,
        checks: ending.checks,
        microseconds: ending.microseconds,
        written: write_answer(call.message, &ending, answer),
    }
}

/// Decides the ending. Nothing is changed yet.
fn judge(setup: Setup, records: &RecordMemory, call: &Call, room: usize) -> Ending {
    let found = check_lengths(call.message, room).and_then(|()| find_order(setup, call));
    let (processor, row, order) = match found {
        Ok(found) => found,
        Err(outcome) => return Ending::plain(outcome),
    };
    let record = Record::load(setup.board, records, row);
    let target = Target { setup, processor, row, record };
    let ending = if target.grants(call.channel, &order) {
        target.carry_out(&order, call)
    } else {
        Ending::plain(Outcome::N7)
    };
    Ending { role: target.told_role(call.channel, &order), ..ending }
}

/// R1 and R2.
fn check_lengths(message: &[u8], room: usize) -> Result<(), Outcome> {
    if room < ANSWER_BYTES {
        return Err(Outcome::R1);
    }
    if !(HEADER_BYTES..=LONGEST_MESSAGE).contains(&message.len()) {
        return Err(Outcome::R2);
    }
    Ok(())
}

/// N1 to N6: the processor that the message names, its row, and the order. The message has a
/// header.
fn find_order(setup: Setup, call: &Call) -> Result<(u8, usize, Order), Outcome> {
    if !has_list(setup.access) {
        return Err(Outcome::N1);
    }
    let header_host = call.message[2];
    if !setup.board.can_send(u16::from(call.channel)) || call.channel != header_host {
        return Err(Outcome::N2);
    }
    let (processor, order) = read_order(call.message)?;
    let row = setup.board.row_of(processor).ok_or(Outcome::N6)?;
    Ok((processor, row, order))
}

impl Target<'_> {
    /// Whether `sender` has the right to this order; N7 if not.
    fn grants(&self, sender: u8, order: &Order) -> bool {
        match order {
            Order::Request => self.grants_request(sender),
            Order::Release | Order::Handover { .. } => self.record.is_controlled_by(sender),
            Order::SetConfig(_) | Order::SetControl(_) => self.record.is_controlled_by(sender),
            Order::GetStatus | Order::WaitStatus(_) => self.permits(sender),
        }
    }

    /// A free processor goes to any permitted host, and any processor to its recovery master.
    fn grants_request(&self, sender: u8) -> bool {
        let Setup { board, access } = self.setup;
        let first = self.record.is_free() && self.permits(sender);
        first || is_recovery_master(board, access, self.row, u16::from(sender))
    }

    /// The role that the report tells: the sender's for a request, none for every other order.
    fn told_role(&self, sender: u8, order: &Order) -> Role {
        let Setup { board, access } = self.setup;
        match order {
            Order::Request => role_of(board, access, self.row, u16::from(sender)),
            _ => Role::None,
        }
    }

    fn permits(&self, host: u8) -> bool {
        is_permitted(self.setup.board, self.setup.access, self.row, u16::from(host))
    }

    fn class(&self) -> Class {
        self.setup.board.class_at(self.row)
    }

    /// What a sender with the right to the order gets: N8, R3, N9 or OK.
    fn carry_out(&self, order: &Order, call: &Call) -> Ending {
        match order {
            Order::Request => self.requested(call.channel),
            Order::Release => self.released(),
            Order::Handover { host } if self.permits(*host) => self.handed_over(*host),
            Order::Handover { .. } => Ending::plain(Outcome::N8),
            Order::SetConfig(change) => self.set(self.with_config(change)),
            Order::SetControl(flags) => self.set(self.with_control(*flags)),
            Order::GetStatus => self.get_status(call.status),
            Order::WaitStatus(wait) => wait_status(wait, call.status),
        }
    }

    /// The sender controls. That is a grant of a free processor and an override of one that another
    /// host had; a recovery master that had it counts nowhere.
    fn requested(&self, sender: u8) -> Ending {
        let tallies = self.record.tallies;
        if self.record.is_free() {
            let grants = one_more(tallies.grants);
            return self.controlled_by(sender, Tallies { grants, ..tallies });
        }
        if self.record.is_controlled_by(sender) {
            return self.controlled_by(sender, tallies);
        }
        let overrides = one_more(tallies.overrides);
        self.controlled_by(sender, Tallies { overrides, ..tallies })
    }

    /// No host controls.
    fn released(&self) -> Ending {
        let releases = one_more(self.record.tallies.releases);
        self.controlled_by(0, Tallies { releases, ..self.record.tallies })
    }

    /// The new host controls. One that did already counts nowhere.
    fn handed_over(&self, host: u8) -> Ending {
        let tallies = self.record.tallies;
        if self.record.is_controlled_by(host) {
            return self.controlled_by(host, tallies);
        }
        let handovers = one_more(tallies.handovers);
        self.controlled_by(host, Tallies { handovers, ..tallies })
    }

    /// OK with this controller, none for 0, and these tallies. The other fields are kept.
    fn controlled_by(&self, host: u8, tallies: Tallies) -> Ending {
        self.set(Some(Record { controller: u32::from(host), tallies, ..self.record }))
    }

    /// OK with the new record, or N8 if the operands allow none.
    fn set(&self, record: Option<Record>) -> Ending {
        match record {
            None => Ending::plain(Outcome::N8),
            Some(record) => {
                Ending { change: Some((self.row, record)), ..Ending::plain(Outcome::OK) }
            }
        }
    }

    /// The record after set config, or none if an operand is wrong.
    fn with_config(&self, change: &ConfigChange) -> Option<Record> {
        let mask = flag_mask(self.class(), Word::Config);
        let clearable = mask | GEN_IGN_BOOTVECTOR;
        let config = changed_word(self.record.config, change.flags, mask, clearable)?;
        if change.flags.clear & GEN_IGN_BOOTVECTOR != 0 {
            return Some(Record { config, ..self.record });
        }
        if self.class() == Class::R5 && change.vector_low & R5_VECTOR_LOW_BITS != 0 {
            return None;
        }
        let ConfigChange { vector_low, vector_high, .. } = *change;
        Some(Record { vector_low, vector_high, config, ..self.record })
    }

    /// The record after set control, or none if an operand is wrong.
    fn with_control(&self, flags: FlagChange) -> Option<Record> {
        let mask = flag_mask(self.class(), Word::Control);
        let control = changed_word(self.record.control, flags, mask, mask)?;
        Some(Record { control, ..self.record })
    }

    /// R3 without a status word, else OK with the status answer.
    fn get_status(&self, status: &[u32]) -> Ending {
        match status.first() {
            None => Ending::plain(Outcome::R3),
            Some(&now) => {
                let fields = status_fields(self.processor, &self.record, now);
                Ending { fields, ..Ending::plain(Outcome::OK) }
            }
        }
    }
}

/// The tally after one more message: it stays at the largest number once there.
fn one_more(tally: u32) -> u32 {
    tally.saturating_add(1)
}

/// The word with the set bits added and the clear bits removed, or none if a bit is named that may
/// not be, or is named in both.
fn changed_word(word: u32, flags: FlagChange, settable: u32, clearable: u32) -> Option<u32> {
    let named_wrongly = (flags.set & !settable) | (flags.clear & !clearable);
    let named_twice = flags.set & flags.clear;
    if named_wrongly != 0 || named_twice != 0 {
        return None;
    }
    Some((word | flags.set) & !flags.clear)
}

/// N8, R3, N9 or OK. Too few words are R3 even where a run would have ended the wait early.
fn wait_status(wait: &Wait, status: &[u32]) -> Ending {
    if !wait.is_valid() {
        return Ending::plain(Outcome::N8);
    }
    if status.len() < usize::from(wait.waits) {
        return Ending::plain(Outcome::R3);
    }
    let (outcome, checks) = match wait.checks_to_first_run(status) {
        Some(checks) => (Outcome::OK, checks),
        None => (Outcome::N9, u32::from(wait.waits)),
    };
    Ending { checks, microseconds: wait.microseconds(checks), ..Ending::plain(outcome) }
}

/// Writes ACK or NAK if it is asked for and the outcome has one; gives the bytes written.
fn write_answer(message: &[u8], ending: &Ending, answer: &mut [u8]) -> usize {
    let asking = Header::read(message).filter(Header::asks_for_answer);
    let Some(header) = asking.filter(|_| !ending.outcome.is_silent()) else {
        return 0;
    };
    let mut bytes = header.answer(ending.outcome == Outcome::OK).to_vec();
    bytes.extend(&ending.fields);
    answer[..bytes.len()].copy_from_slice(&bytes);
    bytes.len()
}

#[cfg(test)]
mod tests;
