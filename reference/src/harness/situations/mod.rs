//! The situations that a run has to meet: one table of names and tests, and how often each was met.

mod blocks;
mod boards;
mod fields;
mod hierarchies;
mod orders;
mod pieces;
mod roles;
mod seen;
mod sessions;
mod tallies;
mod waits;

pub use blocks::Offered;
pub use boards::{Listed, Offer};
pub use fields::{Field, History};
pub use pieces::{Ending, Feeding, PieceWatch};
pub use seen::{Met, Seen, Watch};
pub use sessions::LongSession;

use crate::harness::Run;

const BOTH: &[Run] = &[Run::Recordings, Run::Calls];

/// Situations of one kind: names with tests of what was observed.
type Named<T> = &'static [(&'static str, T)];

/// The whole table. Only calls can meet long sessions and what no list, description or recording
/// leaves or says; only recordings have fields one behind the other, and only pieces have cuts.
fn table() -> Vec<Situation> {
    [
        group(BOTH, orders::ORDERS, Test::Order),
        group(BOTH, waits::WAITS, Test::Order),
        group(BOTH, roles::PLACES, Test::Order),
        group(BOTH, tallies::TALLIES, Test::Order),
        group(BOTH, roles::HEADERS, Test::Message),
        group(BOTH, boards::REFUSALS, Test::Message),
        group(BOTH, boards::LISTS, Test::List),
        group(BOTH, boards::OFFERS, Test::Board),
        group(BOTH, hierarchies::HIERARCHIES, Test::Block),
        group(BOTH, blocks::PARTS, Test::Block),
        group(&[Run::Calls], blocks::CALLED, Test::Block),
        group(&[Run::Calls], tallies::LIMITS, Test::Order),
        group(&[Run::Calls], roles::ODD_WORDS, Test::Order),
        group(&[Run::Calls], boards::ODDITIES, Test::Order),
        group(&[Run::Calls], sessions::SESSIONS, Test::Session),
        group(&[Run::Recordings], fields::FIELDS, Test::Field),
        group(&[Run::Pieces], pieces::FEEDINGS, Test::Feeding),
        group(&[Run::Pieces], pieces::ENDINGS, Test::Ending),
    ]
    .concat()
}

fn group<T: Copy>(runs: &'static [Run], named: Named<T>, test: fn(T) -> Test) -> Vec<Situation> {
    named.iter().map(|&(name, told)| Situation { name, runs, test: test(told), met: 0 }).collect()
}

/// One situation: its name, what has to meet it, its test, and how often it was met.
#[derive(Clone)]
struct Situation {
    name: &'static str,
    runs: &'static [Run],
    test: Test,
    met: u64,
}

/// A test, by what it is of.
#[derive(Clone)]
enum Test {
    Message(fn(&Met) -> bool),
    Order(fn(&Seen) -> bool),
    List(fn(&Listed) -> bool),
    Block(fn(&Offered) -> bool),
    Board(fn(&Offer) -> bool),
    Field(fn(&Field) -> bool),
    Session(fn(&LongSession) -> bool),
    Feeding(fn(&Feeding) -> bool),
    Ending(fn(&Ending) -> bool),
}

/// What was observed of one call, of one field of a recording, of one session or of one piece.
#[derive(Clone, Copy)]
pub enum Observed<'a> {
    Message(&'a Met<'a>),
    /// a message whose processor and order are known, which is a message besides
    Order(&'a Seen<'a>),
    List(&'a Listed<'a>),
    Block(&'a Offered<'a>),
    Board(&'a Offer<'a>),
    Field(&'a Field<'a>),
    Session(&'a LongSession),
    Feeding(&'a Feeding<'a>),
    Ending(&'a Ending<'a>),
}

impl Test {
    fn holds(&self, observed: Observed) -> bool {
        match (self, observed) {
            (Test::Message(test), Observed::Message(met)) => test(met),
            (Test::Order(test), Observed::Order(seen)) => test(seen),
            (Test::List(test), Observed::List(listed)) => test(listed),
            (Test::Block(test), Observed::Block(offered)) => test(offered),
            (Test::Board(test), Observed::Board(offer)) => test(offer),
            (Test::Field(test), Observed::Field(field)) => test(field),
            (Test::Session(test), Observed::Session(session)) => test(session),
            (Test::Feeding(test), Observed::Feeding(feeding)) => test(feeding),
            (Test::Ending(test), Observed::Ending(ending)) => test(ending),
            _ => false,
        }
    }
}

/// How often each situation of the table was met.
pub struct Situations(Vec<Situation>);

impl Default for Situations {
    fn default() -> Situations {
        Situations(table())
    }
}

impl Situations {
    /// Counts all that hold of what was observed.
    pub fn count(&mut self, observed: Observed) {
        for situation in &mut self.0 {
            situation.met += u64::from(situation.test.holds(observed));
        }
    }

    /// Those that the run has to meet.
    fn required(&self, run: Run) -> impl Iterator<Item = &Situation> {
        self.0.iter().filter(move |situation| situation.runs.contains(&run))
    }

    /// Those that the run has to meet and never met.
    pub fn gaps(&self, run: Run) -> Vec<String> {
        let never = self.required(run).filter(|situation| situation.met == 0);
        never.map(|situation| format!("{}: 0", situation.name)).collect()
    }

    /// One line for each that the run has to meet.
    pub fn table(&self, run: Run) -> String {
        self.required(run)
            .map(|Situation { name, met, .. }| format!("\n{name:56}{met:>8}"))
            .collect()
    }
}

/// The names of those that hold.
#[cfg(test)]
fn holding<T>(named: &[(&'static str, fn(&T) -> bool)], observed: &T) -> Vec<&'static str> {
    named.iter().filter(|(_, test)| test(observed)).map(|(name, _)| *name).collect()
}

#[cfg(test)]
mod tests {
    use std::collections::BTreeSet;

    use super::*;
    use crate::block::accept_block;
    use crate::harness::coverage::Coverage;
    use crate::harness::edges::block_recordings::edge_calls;
    use crate::harness::generate::blocks::{any_block_call, BlockCall};
    use crate::harness::generate::random::Random;

    #[test]
    fn names_differ() {
        let names: BTreeSet<_> = table().iter().map(|situation| situation.name).collect();
        assert_eq!(names.len(), table().len());
    }

    #[test]
    fn block_calls_leave_no_gap_of_blocks() {
        let mut coverage = Coverage::default();
        let random = (0..6000).map(|number| any_block_call(&mut Random::new(24, number)));
        for BlockCall { board, mut access, abi, block } in edge_calls().into_iter().chain(random) {
            let verdict = accept_block(&board, &mut access, abi, &block);
            coverage.count_block(&Offered { board: &board, abi, block: &block, verdict });
        }
        let named = [hierarchies::HIERARCHIES, blocks::PARTS, blocks::CALLED].concat();
        let is_named = |gap: &String| named.iter().any(|(name, _)| *gap == format!("{name}: 0"));
        let mut gaps = coverage.gaps(Run::Calls);
        gaps.retain(|gap| gap.starts_with("block ") || is_named(gap));
        assert_eq!(gaps, [""; 0]);
    }
}
