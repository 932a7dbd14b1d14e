//! Situations of tallies: what counts and what does not, and from which numbers.

use crate::harness::compare::ledger::MOST;
use crate::harness::situations::{Named, Seen};
use crate::message::Kind;
use crate::outcome::Outcome;
use crate::record::Tallies;
use Kind::{GetStatus, Handover, Release, Request, SetConfig, SetControl, WaitStatus};
use Outcome::{N7, N8, OK};

impl Seen<'_> {
    fn granted(&self) -> bool {
        self.requested() && self.was_free()
    }

    fn handed_on(&self) -> bool {
        self.handed(false)
    }

    /// The tally that this message counts in, as it was; none if it counts nowhere.
    fn counted_from(&self) -> Option<u32> {
        let Tallies { grants, overrides, handovers, releases } = self.before.tallies;
        let ways = [
            (self.granted(), grants),
            (self.taken(), overrides),
            (self.handed_on(), handovers),
            (self.released(), releases),
        ];
        ways.iter().find(|(holds, _)| *holds).map(|(_, tally)| *tally)
    }

    /// Whether an answer was asked for, if this was carried out.
    fn answered(&self) -> bool {
        self.report.written > 0
    }

    fn has_tallies(&self) -> bool {
        self.before.tallies != Tallies::default()
    }

    fn by_master(&self) -> bool {
        self.has_entry() && self.places[0] == u16::from(self.sender)
    }

    /// Whether this is a handover to oneself in a record with tallies.
    fn handed_to_oneself(&self) -> bool {
        self.handed(true) && self.has_tallies()
    }

    /// Whether this is an order of this type and outcome in a record with tallies.
    fn came_to(&self, outcome: Outcome, kind: Kind) -> bool {
        self.kind == kind && self.report.outcome == outcome && self.has_tallies()
    }

    /// Whether another processor with the same control word has tallies, and other ones.
    fn beside_others(&self) -> bool {
        let differs = |tallies| tallies != Tallies::default() && tallies != self.before.tallies;
        self.sharers.iter().any(|sharer| differs(sharer.tallies))
    }

    /// Whether the controller word is no byte and has the sender's number as its low byte, or not.
    fn odd_controller(&self, alike: bool) -> bool {
        let word = self.before.controller;
        word > 255 && (word & 0xFF == u32::from(self.sender)) == alike
    }
}

/// What counts and what does not.
pub const TALLIES: Named<fn(&Seen) -> bool> = &[
    ("grant counted, answer asked for", |s| s.granted() && s.answered()),
    ("grant counted, no answer asked for", |s| s.granted() && !s.answered()),
    ("override counted, answer asked for", |s| s.taken() && s.answered()),
    ("override counted, no answer asked for", |s| s.taken() && !s.answered()),
    ("handover counted, answer asked for", |s| s.handed_on() && s.answered()),
    ("handover counted, no answer asked for", |s| s.handed_on() && !s.answered()),
    ("release counted, answer asked for", |s| s.released() && s.answered()),
    ("release counted, no answer asked for", |s| s.released() && !s.answered()),
    ("grants from 0", |s| s.granted() && s.before.tallies.grants == 0),
    ("overrides from 0", |s| s.taken() && s.before.tallies.overrides == 0),
    ("handovers from 0", |s| s.handed_on() && s.before.tallies.handovers == 0),
    ("releases from 0", |s| s.released() && s.before.tallies.releases == 0),
    ("requested by the master that holds it, tallies kept", |s| s.kept() && s.has_tallies()),
    ("handed to oneself by the master, tallies kept", |s| s.handed_to_oneself() && s.by_master()),
    ("handed to oneself by a secondary, tallies kept", |s| {
        s.handed_to_oneself() && s.has_entry() && !s.by_master()
    }),
    ("handed to oneself, no entry, tallies kept", |s| s.handed_to_oneself() && !s.has_entry()),
    ("request refused with N7, tallies kept", |s| s.came_to(N7, Request)),
    ("release refused with N7, tallies kept", |s| s.came_to(N7, Release)),
    ("handover refused with N7, tallies kept", |s| s.came_to(N7, Handover)),
    ("handover refused with N8, tallies kept", |s| s.came_to(N8, Handover)),
    ("set config, tallies kept", |s| s.came_to(OK, SetConfig)),
    ("set control, tallies kept", |s| s.came_to(OK, SetControl)),
    ("get status, tallies kept", |s| s.came_to(OK, GetStatus)),
    ("wait over, tallies kept", |s| s.came_to(OK, WaitStatus)),
    ("grant beside a core with other tallies", |s| s.granted() && s.beside_others()),
    ("override beside a core with other tallies", |s| s.taken() && s.beside_others()),
    ("handover beside a core with other tallies", |s| s.handed_on() && s.beside_others()),
    ("release beside a core with other tallies", |s| s.released() && s.beside_others()),
];

/// What no recording is long enough for, and controllers that no message leaves.
pub const LIMITS: Named<fn(&Seen) -> bool> = &[
    ("grants from 4294967294", |s| s.granted() && s.before.tallies.grants == MOST - 1),
    ("grants stay at 4294967295", |s| s.granted() && s.before.tallies.grants == MOST),
    ("overrides from 4294967294", |s| s.taken() && s.before.tallies.overrides == MOST - 1),
    ("overrides stay at 4294967295", |s| s.taken() && s.before.tallies.overrides == MOST),
    ("handovers from 4294967294", |s| s.handed_on() && s.before.tallies.handovers == MOST - 1),
    ("handovers stay at 4294967295", |s| s.handed_on() && s.before.tallies.handovers == MOST),
    ("releases from 4294967294", |s| s.released() && s.before.tallies.releases == MOST - 1),
    ("releases stay at 4294967295", |s| s.released() && s.before.tallies.releases == MOST),
    ("tally from 255", |s| s.counted_from() == Some(0xFF)),
    ("tally from 65535", |s| s.counted_from() == Some(0xFFFF)),
    ("tally from 2147483647", |s| s.counted_from() == Some(0x7FFF_FFFF)),
    ("grant while releases are at 4294967295", |s| {
        s.granted() && s.before.tallies.releases == MOST
    }),
    ("release while grants are at 4294967295", |s| s.released() && s.before.tallies.grants == MOST),
    ("override of a controller alike in the low byte", |s| s.taken() && s.odd_controller(true)),
    ("override of another controller that is no byte", |s| s.taken() && s.odd_controller(false)),
    ("release refused, controller alike in the low byte", |s| {
        s.came_to(N7, Release) && s.odd_controller(true)
    }),
    ("handover refused, controller alike in the low byte", |s| {
        s.came_to(N7, Handover) && s.odd_controller(true)
    }),
];

#[cfg(test)]
mod tests {
    use super::*;
    use crate::access::ACCESS_WORDS;
    use crate::bench::bytes_of;
    use crate::board::Board;
    use crate::harness::situations::{holding, Watch};
    use crate::manager::{handle, Call, Setup};
    use crate::message::ANSWER_BYTES;
    use crate::record::{Record, RECORD_WORDS};

    /// What holds of a message, with this controller and these tallies for each processor but 33,
    /// which has none. Processors 1 and 32 have master 3 and secondary 5.
    fn met(controller: u32, tallies: [u32; 4], text: &str) -> Vec<&'static str> {
        let (board, mut access) = (Board::first(), [0; ACCESS_WORDS]);
        (access[0], access[1], access[2], access[9], access[10]) = (1, 3, 5, 3, 5);
        let setup = Setup { board: &board, access: &access };
        let mut records = [0; RECORD_WORDS];
        for row in 0..3 {
            let record = Record::load(&board, &records, row);
            let tallies = Tallies::from_words(tallies);
            Record { controller, tallies, ..record }.store(&board, &mut records, row);
        }
        let (message, before) = (bytes_of(text), records);
        let call = Call { channel: message[2], message: &message, status: &[1] };
        let report = handle(setup, &mut records, &call, &mut [0; ANSWER_BYTES]);
        let seen = Watch::default().see(setup, &before, &call, report).unwrap();
        [holding(TALLIES, &seen), holding(LIMITS, &seen)].concat()
    }

    const REQUEST_BY_3: &str = "00 C0 03 00 02 00 00 00 01";
    const REQUEST_BY_5: &str = "00 C0 05 00 00 00 00 00 01";
    const RELEASE_BY_5: &str = "01 C0 05 00 02 00 00 00 01";
    const FROM_5_TO_3: &str = "05 C0 05 00 00 00 00 00 01 03";

    #[test]
    fn counts_are_told_by_answer_and_number() {
        let grant = "grant counted, no answer asked for";
        assert_eq!(met(0, [0, 1, 1, 1], REQUEST_BY_5), [grant, "grants from 0"]);
        let most = ["grants stay at 4294967295", "grant while releases are at 4294967295"];
        assert_eq!(met(0, [MOST; 4], REQUEST_BY_5), [&[grant], &most[..]].concat());
        let taken = "override counted, answer asked for";
        assert_eq!(met(5, [0, MOST - 1, 0, 0], REQUEST_BY_3), [taken, "overrides from 4294967294"]);
        assert_eq!(met(5, [0, 255, 0, 0], REQUEST_BY_3), [taken, "tally from 255"]);
        let handed = "handover counted, no answer asked for";
        assert_eq!(met(5, [1, 1, 65_535, 1], FROM_5_TO_3), [handed, "tally from 65535"]);
        let released = "release counted, answer asked for";
        let both = ["releases from 4294967294", "release while grants are at 4294967295"];
        let given = met(5, [MOST, 0, 0, MOST - 1], RELEASE_BY_5);
        assert_eq!(given, [&[released], &both[..]].concat());
    }

    #[test]
    fn messages_that_count_nowhere_are_told() {
        let tallies = [1, 0, 0, 0];
        let kept = |controller, text: &str| met(controller, tallies, text);
        assert_eq!(kept(3, REQUEST_BY_3), ["requested by the master that holds it, tallies kept"]);
        let to_oneself = kept(3, "05 C0 03 00 02 00 00 00 01 03");
        assert_eq!(to_oneself, ["handed to oneself by the master, tallies kept"]);
        let to_oneself = kept(5, "05 C0 05 00 02 00 00 00 01 05");
        assert_eq!(to_oneself, ["handed to oneself by a secondary, tallies kept"]);
        let to_oneself = kept(13, "05 C0 0D 00 02 00 00 00 02 0D");
        assert_eq!(to_oneself, ["handed to oneself, no entry, tallies kept"]);
        assert_eq!(kept(3, REQUEST_BY_5), ["request refused with N7, tallies kept"]);
        assert_eq!(kept(3, RELEASE_BY_5), ["release refused with N7, tallies kept"]);
        assert_eq!(kept(3, FROM_5_TO_3), ["handover refused with N7, tallies kept"]);
        let wrong = kept(5, "05 C0 05 00 02 00 00 00 01 06");
        assert_eq!(wrong, ["handover refused with N8, tallies kept"]);
        assert_eq!(kept(3, "00 C4 05 00 02 00 00 00 01"), ["get status, tallies kept"]);
        assert_eq!(met(3, [0; 4], RELEASE_BY_5), [""; 0]);
    }

    #[test]
    fn odd_controllers_are_told() {
        let taken = "override counted, answer asked for";
        let alike = "override of a controller alike in the low byte";
        assert_eq!(met(0x103, [1; 4], REQUEST_BY_3), [taken, alike]);
        let other = "override of another controller that is no byte";
        assert_eq!(met(0x105, [1; 4], REQUEST_BY_3), [taken, other]);
        let refused = "release refused with N7, tallies kept";
        let alike = "release refused, controller alike in the low byte";
        assert_eq!(met(0x105, [1; 4], RELEASE_BY_5), [refused, alike]);
    }

    /// Processor 33 has no tallies, and 32 has some.
    #[test]
    fn cores_of_a_cluster_are_told_apart() {
        let beside = "grant beside a core with other tallies";
        let request_33 = met(3, [1; 4], "00 C0 0D 00 02 00 00 00 21");
        assert_eq!(request_33, ["grant counted, answer asked for", "grants from 0", beside]);
        let request_32 = met(0, [1; 4], "00 C0 03 00 02 00 00 00 20");
        assert_eq!(request_32, ["grant counted, answer asked for"]);
    }
}
