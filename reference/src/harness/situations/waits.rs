//! Situations of waits: where a run ends or breaks, how many words are lent, and matches that are
//! equal to the waits or above them.

use crate::harness::situations::{Named, Seen};
use crate::message::{Order, HEADER_BYTES};
use crate::outcome::Outcome;
use crate::wait::Wait;
use Outcome::{N7, N8, N9, OK, R3};

impl Seen<'_> {
    /// Whether this is a wait with this outcome that passes the test.
    fn waited(&self, outcome: Outcome, test: impl Fn(&Wait) -> bool) -> bool {
        let Order::WaitStatus(wait) = self.order else {
            return false;
        };
        self.report.outcome == outcome && test(&wait)
    }

    /// Whether this is a wait with this outcome and with equal numbers that passes the test.
    fn equal(&self, outcome: Outcome, test: impl Fn(&Wait) -> bool) -> bool {
        self.waited(outcome, |wait| wait.matches == wait.waits && test(wait))
    }

    /// Whether this is a wait with this outcome that has matches above its waits and no other wrong
    /// operand, and passes the test.
    fn above(&self, outcome: Outcome, test: impl Fn(&Wait) -> bool) -> bool {
        let no_other = |wait: &Wait| Wait { matches: wait.waits, ..*wait }.is_valid();
        self.waited(outcome, |wait| wait.matches > wait.waits && no_other(wait) && test(wait))
    }

    fn has_words(&self, count: u8) -> bool {
        self.status.len() >= usize::from(count)
    }

    fn all_match(&self, wait: &Wait) -> bool {
        self.status.iter().all(|&word| wait.is_match(word))
    }

    fn none_matches(&self, wait: &Wait) -> bool {
        !self.status.iter().any(|&word| wait.is_match(word))
    }

    /// The words that a wait checks if it runs to its end.
    fn checked(&self, wait: &Wait) -> &[u32] {
        &self.status[..usize::from(wait.waits)]
    }

    fn broken_run(&self, wait: &Wait) -> bool {
        let before = self.report.checks as usize - usize::from(wait.matches);
        self.status[..before].iter().any(|&word| wait.is_match(word))
    }

    fn enough_matches_in_all(&self, wait: &Wait) -> bool {
        let matching = self.checked(wait).iter().filter(|&&word| wait.is_match(word)).count();
        matching >= usize::from(wait.matches)
    }

    fn last_check_matched(&self, wait: &Wait) -> bool {
        self.checked(wait).last().is_some_and(|&word| wait.is_match(word))
    }

    /// How many checked words match before and behind the only one that does not.
    fn around_mismatch(&self, wait: &Wait) -> Option<(usize, usize)> {
        let checked = self.checked(wait);
        let before = checked.iter().position(|&word| !wait.is_match(word))?;
        let behind = &checked[before + 1..];
        behind.iter().all(|&word| wait.is_match(word)).then_some((before, behind.len()))
    }

    fn early_run(&self, wait: &Wait) -> bool {
        let shorter = Wait { waits: self.status.len() as u8, ..*wait };
        shorter.is_valid() && shorter.checks_to_first_run(self.status).is_some()
    }
}

/// Waits of all outcomes.
pub const WAITS: Named<fn(&Seen) -> bool> = &[
    ("wait over at the first check", |s| s.waited(OK, |_| s.report.checks == 1)),
    ("wait over at the last check", |s| {
        s.waited(OK, |wait| wait.waits > 1 && s.report.checks == u32::from(wait.waits))
    }),
    ("wait over after 255 checks", |s| s.waited(OK, |_| s.report.checks == 255)),
    ("wait over after a broken run", |s| s.waited(OK, |wait| s.broken_run(wait))),
    ("wait with just enough words", |s| {
        s.waited(OK, |wait| s.status.len() == usize::from(wait.waits))
    }),
    ("wait ran out in a run", |s| s.waited(N9, |wait| s.last_check_matched(wait))),
    ("wait ran out, enough in all", |s| s.waited(N9, |wait| s.enough_matches_in_all(wait))),
    ("wait ran out, a bit asked to be 1 and 0", |s| {
        s.waited(N9, |wait| wait.set_all & wait.clear_all != 0)
    }),
    ("too few words for an early run", |s| s.waited(R3, |wait| s.early_run(wait))),
    ("matches equal to waits, over", |s| {
        s.equal(OK, |wait| s.report.checks == u32::from(wait.waits))
    }),
    ("waits 1 and matches 1, over", |s| s.equal(OK, |wait| wait.waits == 1)),
    ("waits 255 and matches 255, over", |s| s.equal(OK, |wait| wait.waits == 255)),
    ("matches equal to waits, ran out", |s| s.equal(N9, |_| true)),
    ("matches equal to waits, all but the first word match", |s| {
        s.equal(N9, |wait| matches!(s.around_mismatch(wait), Some((0, 1..))))
    }),
    ("matches equal to waits, all but one between match", |s| {
        s.equal(N9, |wait| matches!(s.around_mismatch(wait), Some((1.., 1..))))
    }),
    ("matches equal to waits, all but the last word match", |s| {
        s.equal(N9, |wait| matches!(s.around_mismatch(wait), Some((1.., 0))))
    }),
    ("matches equal to waits, too few words", |s| s.equal(R3, |_| true)),
    ("matches above waits, no words", |s| s.above(N8, |_| s.status.is_empty())),
    ("matches above waits, fewer words than waits", |s| {
        s.above(N8, |wait| s.has_words(1) && !s.has_words(wait.waits))
    }),
    ("matches above waits, words for waits, none matches", |s| {
        s.above(N8, |wait| s.has_words(wait.waits) && s.none_matches(wait))
    }),
    ("matches above waits, words for waits, all match", |s| {
        let enough = |wait: &Wait| s.has_words(wait.waits) && !s.has_words(wait.matches);
        s.above(N8, |wait| enough(wait) && s.all_match(wait))
    }),
    ("matches above waits, words for matches, all match", |s| {
        s.above(N8, |wait| s.has_words(wait.matches) && s.all_match(wait))
    }),
    ("matches one above waits", |s| s.above(N8, |wait| wait.matches - wait.waits == 1)),
    ("matches 255 above waits 1", |s| s.above(N8, |wait| (wait.waits, wait.matches) == (1, 255))),
    ("matches 255 above waits 254", |s| s.above(N8, |wait| wait.waits == 254)),
    ("matches above waits, answer asked for", |s| {
        s.above(N8, |_| s.report.written == HEADER_BYTES)
    }),
    ("matches above waits, no answer asked for", |s| s.above(N8, |_| s.report.written == 0)),
    ("matches above waits, sender without the right", |s| s.above(N7, |_| true)),
];

#[cfg(test)]
mod tests {
    use super::*;
    use crate::access::ACCESS_WORDS;
    use crate::board::Board;
    use crate::harness::situations::{holding, Watch};
    use crate::manager::{handle, Call, Setup};
    use crate::message::ANSWER_BYTES;
    use crate::record::RECORD_WORDS;

    /// Asks for an answer, or not.
    const ASKED: u8 = 2;
    const SILENT: u8 = 0;

    /// What holds of a wait on processor 1, which only host 3 has the right to. Words with bit 0
    /// match.
    fn met(host: u8, flags: u8, counts: [u8; 2], status: &[u32]) -> Vec<&'static str> {
        let (board, mut access) = (Board::first(), [0; ACCESS_WORDS]);
        access[..2].copy_from_slice(&[1, 3]);
        let setup = Setup { board: &board, access: &access };
        let mut message = vec![0x01, 0xC4, host, 0, flags, 0, 0, 0, 1, counts[0], counts[1], 0, 0];
        message.extend([1, 0, 0, 0]);
        message.resize(29, 0);
        let call = Call { channel: host, message: &message, status };
        let mut records = [0; RECORD_WORDS];
        let report = handle(setup, &mut records, &call, &mut [0; ANSWER_BYTES]);
        let seen = Watch::default().see(setup, &records, &call, report).unwrap();
        holding(WAITS, &seen)
    }

    #[test]
    fn matches_above_waits_are_told_by_words() {
        let by_words = |status: &[u32]| met(3, ASKED, [3, 5], status);
        let asked = "matches above waits, answer asked for";
        assert_eq!(by_words(&[]), ["matches above waits, no words", asked]);
        assert_eq!(by_words(&[1, 1]), ["matches above waits, fewer words than waits", asked]);
        let none_matches = "matches above waits, words for waits, none matches";
        assert_eq!(by_words(&[0, 0, 0]), [none_matches, asked]);
        let for_waits = "matches above waits, words for waits, all match";
        assert_eq!(by_words(&[1, 1, 1]), [for_waits, asked]);
        assert_eq!(by_words(&[1, 1, 1, 1]), [for_waits, asked]);
        let for_matches = "matches above waits, words for matches, all match";
        assert_eq!(by_words(&[1; 5]), [for_matches, asked]);
        assert_eq!(by_words(&[1, 1, 1, 0, 1]), [asked]);
    }

    #[test]
    fn matches_above_waits_are_told_by_numbers() {
        let by_counts = |waits, matches| met(3, SILENT, [waits, matches], &[1, 0]);
        let silent = "matches above waits, no answer asked for";
        assert_eq!(by_counts(2, 3), ["matches one above waits", silent]);
        assert_eq!(by_counts(1, 255), ["matches 255 above waits 1", silent]);
        let few = "matches above waits, fewer words than waits";
        let limit = "matches 255 above waits 254";
        assert_eq!(by_counts(254, 255), [few, "matches one above waits", limit, silent]);
        assert_eq!(by_counts(0, 1), [""; 0]);
        let by_other = met(5, SILENT, [2, 3], &[]);
        assert_eq!(by_other, ["matches above waits, sender without the right"]);
    }

    #[test]
    fn equal_numbers_are_told_by_words() {
        let by_words = |status: &[u32]| met(3, ASKED, [3, 3], status);
        let ran_out = "matches equal to waits, ran out";
        let in_a_run = "wait ran out in a run";
        let first = "matches equal to waits, all but the first word match";
        assert_eq!(by_words(&[0, 1, 1, 1]), [in_a_run, ran_out, first]);
        let between = "matches equal to waits, all but one between match";
        assert_eq!(by_words(&[1, 0, 1]), [in_a_run, ran_out, between]);
        let last = "matches equal to waits, all but the last word match";
        assert_eq!(by_words(&[1, 1, 0, 0]), [ran_out, last]);
        assert_eq!(by_words(&[1, 0, 0, 1]), [ran_out]);
        assert_eq!(by_words(&[1, 1]), ["matches equal to waits, too few words"]);
        let over = ["wait over at the last check", "matches equal to waits, over"];
        assert_eq!(by_words(&[1, 1, 1, 0]), over);
    }

    #[test]
    fn equal_numbers_at_their_limits_are_told() {
        let over = "matches equal to waits, over";
        let first = "wait over at the first check";
        let one = met(3, ASKED, [1, 1], &[1, 1]);
        assert_eq!(one, [first, over, "waits 1 and matches 1, over"]);
        let last = ["wait over at the last check", "wait over after 255 checks"];
        let enough = ["wait with just enough words", over, "waits 255 and matches 255, over"];
        assert_eq!(met(3, ASKED, [255, 255], &[1; 255]), [last.as_slice(), &enough].concat());
        assert_eq!(met(3, ASKED, [1, 1], &[0]), ["matches equal to waits, ran out"]);
    }
}
