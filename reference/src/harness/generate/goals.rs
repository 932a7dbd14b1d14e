//! What a message can come to: the combinations of type, outcome and answer asked or not, worked
//! out from the order of the tests, and the roles that a request can tell.

use crate::access::{has_list, AccessMemory, Role};
use crate::board::Board;
use crate::harness::clusters::Clusters;
use crate::harness::generate::random::Random;
use crate::harness::Run;
use crate::message::{read_order, Header, Kind, Order, KINDS};
use crate::outcome::Outcome;
use Outcome::{N1, N2, N3, N4, N5, N6, N7, N8, N9, OK, R1, R2, R3};

/// What a message is counted under: its type, another type, or no header.
#[derive(Clone, Copy, Debug, PartialEq, Eq)]
pub enum Subject {
    Type(Kind),
    Other,
    Short,
}

/// How many subjects there are.
pub const SUBJECTS: usize = KINDS.len() + 2;

impl Subject {
    /// The subject of a message, and whether an answer is asked for. A message without a whole
    /// header asks for nothing.
    pub fn of(message: &[u8]) -> (Subject, bool) {
        match Header::read(message) {
            None => (Subject::Short, false),
            Some(header) => {
                let subject = Kind::of(header.number).map_or(Subject::Other, Subject::Type);
                (subject, header.asks_for_answer())
            }
        }
    }

    /// Its place in tables.
    pub fn index(self) -> usize {
        match self {
            Subject::Type(kind) => kind as usize,
            Subject::Other => KINDS.len(),
            Subject::Short => KINDS.len() + 1,
        }
    }

    /// Its name in tables.
    pub fn name(self) -> String {
        match self {
            Subject::Type(kind) => format!("{kind:?}"),
            other => format!("{other:?}").to_lowercase(),
        }
    }
}

/// The outcomes that each subject can have. R1 needs a short answer buffer, which a recording
/// cannot say. A short message asks for no answer; all others come with and without asking.
pub const POSSIBLE: [(Subject, &[Outcome]); SUBJECTS] = [
    (Subject::Type(Kind::Request), &[R1, R2, N1, N2, N4, N6, N7, OK]),
    (Subject::Type(Kind::Release), &[R1, R2, N1, N2, N4, N6, N7, OK]),
    (Subject::Type(Kind::Handover), &[R1, R2, N1, N2, N4, N6, N7, N8, OK]),
    (Subject::Type(Kind::SetConfig), &[R1, R2, N1, N2, N4, N6, N7, N8, OK]),
    (Subject::Type(Kind::SetControl), &[R1, R2, N1, N2, N4, N6, N7, N8, OK]),
    (Subject::Type(Kind::AuthBoot), &[R1, R2, N1, N2, N4, N5]),
    (Subject::Type(Kind::GetStatus), &[R1, R2, N1, N2, N4, N6, N7, R3, OK]),
    (Subject::Type(Kind::WaitStatus), &[R1, R2, N1, N2, N4, N6, N7, N8, R3, N9, OK]),
    (Subject::Other, &[R1, R2, N1, N2, N3]),
    (Subject::Short, &[R1, R2]),
];

/// The roles that a request can tell, by its outcome.
const TOLD: [(Outcome, Role); 10] = [
    (OK, Role::RecoveryMaster),
    (OK, Role::Secondary0),
    (OK, Role::Secondary1),
    (OK, Role::Secondary2),
    (OK, Role::OpenProcessor),
    (N7, Role::Secondary0),
    (N7, Role::Secondary1),
    (N7, Role::Secondary2),
    (N7, Role::OpenProcessor),
    (N7, Role::None),
];

/// One goal in this many is such a request.
const TOLD_EVERY: usize = 10;

/// What a generated message is meant to reach.
#[derive(Clone, Copy, Debug)]
pub struct Goal {
    pub subject: Subject,
    pub outcome: Outcome,
    pub asked: bool,
    /// the processor to name; none for any
    pub processor: Option<u8>,
    /// the role to be told; none for any
    pub role: Option<Role>,
}

impl Goal {
    /// A request that is carried out.
    pub const REQUEST: Goal = Goal::new(Subject::Type(Kind::Request), OK, true);

    /// A status answer, which shows what a record holds.
    pub const STATUS: Goal = Goal::new(Subject::Type(Kind::GetStatus), OK, true);

    /// A message about any processor, from a host in any role.
    const fn new(subject: Subject, outcome: Outcome, asked: bool) -> Goal {
        Goal { subject, outcome, asked, processor: None, role: None }
    }

    /// A set control through this processor.
    pub fn set_control(processor: u8, outcome: Outcome) -> Goal {
        let goal = Goal::new(Subject::Type(Kind::SetControl), outcome, true);
        Goal { processor: Some(processor), ..goal }
    }

    /// A request whose report tells a role.
    fn any_told(random: &mut Random) -> Goal {
        let (outcome, role) = random.pick(&TOLD);
        let asked = random.one_in(2);
        Goal { role: Some(role), ..Goal::new(Subject::Type(Kind::Request), outcome, asked) }
    }

    /// The status answer of another core of the cluster, any of them, if the message has set a
    /// control word: it shows whether they share it.
    pub fn look_beside(
        random: &mut Random,
        (board, clusters): (&Board, &Clusters),
        message: &[u8],
        outcome: Outcome,
    ) -> Option<Goal> {
        if outcome != OK {
            return None;
        }
        let Ok((processor, Order::SetControl(_))) = read_order(message) else {
            return None;
        };
        let mut others = clusters.around(board, processor);
        others.retain(|&other| other != processor);
        let shown = (!others.is_empty()).then(|| random.pick(&others));
        shown.map(|_| Goal { processor: shown, ..Goal::STATUS })
    }

    /// Whether some host has to control a processor for the goal to be reached.
    pub fn needs_controller(&self) -> bool {
        use Kind::{Handover, Release, SetConfig, SetControl};
        let Subject::Type(kind) = self.subject else {
            return false;
        };
        let by_controller = [Release, Handover, SetConfig, SetControl].contains(&kind);
        by_controller && matches!(self.outcome, N8 | OK)
    }
}

/// Every combination that can be reached.
pub fn goals() -> Vec<Goal> {
    let mut goals = Vec::new();
    for (subject, outcomes) in POSSIBLE {
        for &outcome in outcomes {
            goals.push(Goal::new(subject, outcome, false));
            if subject != Subject::Short {
                goals.push(Goal::new(subject, outcome, true));
            }
        }
    }
    goals
}

/// One of the goals that the access memory and the run allow, now and then a request that tells a
/// role.
pub fn pick_goal(random: &mut Random, goals: &[Goal], access: &AccessMemory, run: Run) -> Goal {
    loop {
        let goal =
            if random.one_in(TOLD_EVERY) { Goal::any_told(random) } else { random.pick(goals) };
        let possible = match goal.outcome {
            R1 => run == Run::Calls,
            R2 => true,
            N1 => !has_list(access),
            _ => has_list(access),
        };
        if possible {
            return goal;
        }
    }
}

#[cfg(test)]
mod tests {
    use std::collections::BTreeSet;

    use super::*;
    use crate::board::{Class, Processor};

    #[test]
    fn short_messages_have_their_own_row() {
        assert_eq!(Subject::of(&[0, 0xC0, 3, 0, 2, 0, 0]), (Subject::Short, false));
        assert_eq!(Subject::of(&[2, 0xC0, 3, 0, 2, 0, 0, 0]), (Subject::Other, true));
    }

    #[test]
    fn a_shared_word_is_looked_at_through_the_other_core() {
        let mut random = Random::new(9, 0);
        let mut shown = |number: u8, processor: u8, outcome| {
            let mut message = vec![number, 0xC1, 3, 0, 2, 0, 0, 0, processor];
            message.resize(25, 0);
            let place = (&Board::first(), &Clusters::default());
            let look = Goal::look_beside(&mut random, place, &message, outcome);
            look.and_then(|goal| goal.processor)
        };
        assert_eq!([1, 2, 32, 33].map(|p| shown(1, p, OK)), [None, None, Some(33), Some(32)]);
        assert_eq!([shown(1, 32, N8), shown(0, 32, OK)], [None, None]);
    }

    #[test]
    fn every_sharer_is_looked_through() {
        let cluster = [7, 8, 9].map(|number| Processor { number, class: Class::Armv8, cluster: 4 });
        let board = Board::new(&[], &cluster);
        let mut random = Random::new(10, 0);
        let mut message = vec![1, 0xC1, 3, 0, 2, 0, 0, 0, 8];
        message.resize(17, 0);
        let place = (&board, &Clusters::default());
        let looks = (0..100).map(|_| Goal::look_beside(&mut random, place, &message, OK));
        let shown: BTreeSet<_> = looks.map(|goal| goal.and_then(|goal| goal.processor)).collect();
        assert_eq!(shown, BTreeSet::from([Some(7), Some(9)]));
    }
}
