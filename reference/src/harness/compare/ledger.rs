//! Works out who controls a processor and what its tallies have counted, from past messages and
//! their outcomes alone.

use crate::outcome::Outcome;

/// Where a processor's counts have each of the four, in the order of the record.
pub const GRANTS: usize = 0;
pub const OVERRIDES: usize = 1;
pub const HANDOVERS: usize = 2;
pub const RELEASES: usize = 3;

/// The largest number, at which a tally stays.
pub const MOST: u32 = u32::MAX;

/// Bytes of a message up to the new host of a handover.
const KEPT: usize = 10;

/// The messages so far that were carried out, one behind the other.
#[derive(Default)]
pub struct Ledger {
    past: Vec<[u8; KEPT]>,
}

/// What the past says of one processor.
#[derive(Clone, Copy, Debug, Default, PartialEq, Eq)]
pub struct Account {
    /// the host that controls it; 0 if it is free
    pub controller: u8,
    pub counts: [u64; 4],
}

impl Ledger {
    /// Adds a message with its outcome. One that was refused leaves nothing.
    pub fn add(&mut self, message: &[u8], outcome: Outcome) {
        if outcome != Outcome::OK {
            return;
        }
        let mut kept = [0; KEPT];
        let length = message.len().min(KEPT);
        kept[..length].copy_from_slice(&message[..length]);
        self.past.push(kept);
    }

    /// Goes through the whole past of a processor. A message that leaves the controller counts
    /// nowhere.
    pub fn account(&self, processor: u8) -> Account {
        let mut account = Account::default();
        for message in self.past.iter().filter(|message| message[8] == processor) {
            let before = account.controller;
            let (after, place) = match u16::from_le_bytes([message[0], message[1]]) {
                0xC000 if before == 0 => (message[2], GRANTS),
                0xC000 => (message[2], OVERRIDES),
                0xC001 => (0, RELEASES),
                0xC005 => (message[9], HANDOVERS),
                _ => continue,
            };
            account.controller = after;
            account.counts[place] += u64::from(before != after);
        }
        account
    }
}

#[cfg(test)]
mod tests {
    use super::*;
    use crate::bench::bytes_of;

    /// What these messages about processor 1 say, all of them carried out.
    fn account(messages: &[&str]) -> Account {
        let mut ledger = Ledger::default();
        messages.iter().for_each(|message| ledger.add(&bytes_of(message), Outcome::OK));
        ledger.account(1)
    }

    const REQUEST_BY_3: &str = "00 C0 03 00 02 00 00 00 01";
    const REQUEST_BY_5: &str = "00 C0 05 00 00 00 00 00 01";
    const FROM_3_TO_5: &str = "05 C0 03 00 02 00 00 00 01 05";
    const FROM_5_TO_5: &str = "05 C0 05 00 02 00 00 00 01 05 FF";
    const RELEASE_BY_5: &str = "01 C0 05 00 02 00 00 00 01";

    #[test]
    fn each_change_of_the_controller_counts_once() {
        let messages = [REQUEST_BY_5, REQUEST_BY_3, FROM_3_TO_5, RELEASE_BY_5, REQUEST_BY_5];
        let after = |count: usize| account(&messages[..count]);
        assert_eq!(after(0), Account { controller: 0, counts: [0, 0, 0, 0] });
        assert_eq!(after(1), Account { controller: 5, counts: [1, 0, 0, 0] });
        assert_eq!(after(2), Account { controller: 3, counts: [1, 1, 0, 0] });
        assert_eq!(after(3), Account { controller: 5, counts: [1, 1, 1, 0] });
        assert_eq!(after(4), Account { controller: 0, counts: [1, 1, 1, 1] });
        assert_eq!(after(5), Account { controller: 5, counts: [2, 1, 1, 1] });
    }

    #[test]
    fn messages_that_leave_the_controller_count_nowhere() {
        let kept = account(&[REQUEST_BY_3, REQUEST_BY_3, REQUEST_BY_3]);
        assert_eq!(kept, Account { controller: 3, counts: [1, 0, 0, 0] });
        let kept = account(&[REQUEST_BY_5, FROM_5_TO_5]);
        assert_eq!(kept, Account { controller: 5, counts: [1, 0, 0, 0] });
        let others = ["00 C4 03 00 02 00 00 00 01", "01 C1 03 00 02 00 00 00 01 01"];
        assert_eq!(account(&others), Account::default());
    }

    #[test]
    fn refusals_and_other_processors_leave_nothing() {
        let mut ledger = Ledger::default();
        ledger.add(&bytes_of(REQUEST_BY_3), Outcome::N7);
        ledger.add(&bytes_of("00 C0 03 00 02 00 00 00 02"), Outcome::OK);
        ledger.add(&[0x00], Outcome::R2);
        assert_eq!(ledger.account(1), Account::default());
        assert_eq!(ledger.account(2), Account { controller: 3, counts: [1, 0, 0, 0] });
    }
}
