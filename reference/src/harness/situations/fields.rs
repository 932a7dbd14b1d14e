//! Situations of the fields of a recording: what comes before and behind a block, and how it ends.

use crate::access::ListFault;
use crate::block::BlockFault;
use crate::description::BoardFault;
use crate::harness::situations::Named;
use crate::outcome::Outcome;
use crate::session::Event;
use Outcome::{N1, N2, N3, N4, N5, N6, N7, N8, N9, OK, R2, R3};

/// What brought the list that is in force.
#[derive(Clone, Copy, PartialEq, Eq)]
enum Source {
    List,
    Block,
}

/// What a recording has come to so far.
#[derive(Default)]
pub struct History {
    source: Option<Source>,
    /// why the last refused block was refused
    refused: Option<BlockFault>,
    list_refused: bool,
}

impl History {
    /// Follows the next field.
    pub fn follow(&mut self, event: &Event) {
        match event {
            Event::List(Ok(())) => self.source = Some(Source::List),
            Event::Block(Ok(())) => self.source = Some(Source::Block),
            Event::List(Err(_)) => self.list_refused = true,
            Event::Block(Err(fault)) => self.refused = Some(*fault),
            _ => {}
        }
    }
}

/// What a field came to, and what the recording had come to before it.
pub struct Field<'a> {
    pub before: &'a History,
    pub event: &'a Event,
}

impl Field<'_> {
    fn is(&self, event: Event) -> bool {
        *self.event == event
    }

    fn behind_list(&self) -> bool {
        self.before.source == Some(Source::List)
    }

    fn behind_block(&self) -> bool {
        self.before.source == Some(Source::Block)
    }

    /// Whether the last refused block before it has this fault.
    fn behind(&self, fault: BlockFault) -> bool {
        self.before.refused == Some(fault)
    }

    fn has_outcome(&self, outcome: Outcome) -> bool {
        matches!(self.event, Event::Message(report, _) if report.outcome == outcome)
    }

    /// Whether this is a message under a block's list, with this outcome.
    fn answered(&self, outcome: Outcome) -> bool {
        self.behind_block() && self.has_outcome(outcome)
    }
}

const LIST_OK: Event = Event::List(Ok(()));
const LIST_A1: Event = Event::List(Err(ListFault::A1));
const BLOCK_OK: Event = Event::Block(Ok(()));
const BLOCK_A1: Event = Event::Block(Err(BlockFault::List(ListFault::A1)));
const BOARD_OK: Event = Event::Board(Ok(()));
const BOARD_A1: Event = Event::Board(Err(BoardFault::A1));

/// Fields behind others, and bad and cut ones.
pub const FIELDS: Named<fn(&Field) -> bool> = &[
    ("list behind a block", |f| f.behind_block() && f.is(LIST_A1)),
    ("block behind a list", |f| f.behind_list() && f.is(BLOCK_A1)),
    ("block behind a block", |f| f.behind_block() && f.is(BLOCK_A1)),
    ("board behind a block", |f| f.behind_block() && f.is(BOARD_A1)),
    ("list accepted behind a block with B10", |f| f.behind(BlockFault::B10) && f.is(LIST_OK)),
    ("list accepted behind a block with a loop", |f| {
        matches!(f.before.refused, Some(BlockFault::B8(_))) && f.is(LIST_OK)
    }),
    ("block accepted behind a block with B10", |f| f.behind(BlockFault::B10) && f.is(BLOCK_OK)),
    ("block accepted behind a refused list", |f| f.before.list_refused && f.is(BLOCK_OK)),
    ("board taken behind a refused block", |f| f.before.refused.is_some() && f.is(BOARD_OK)),
    ("N1 behind a block with B10", |f| f.behind(BlockFault::B10) && f.has_outcome(N1)),
    ("R2 under a block's list", |f| f.answered(R2)),
    ("N2 under a block's list", |f| f.answered(N2)),
    ("N3 under a block's list", |f| f.answered(N3)),
    ("N4 under a block's list", |f| f.answered(N4)),
    ("N5 under a block's list", |f| f.answered(N5)),
    ("N6 under a block's list", |f| f.answered(N6)),
    ("N7 under a block's list", |f| f.answered(N7)),
    ("N8 under a block's list", |f| f.answered(N8)),
    ("R3 under a block's list", |f| f.answered(R3)),
    ("N9 under a block's list", |f| f.answered(N9)),
    ("OK under a block's list", |f| f.answered(OK)),
    ("bad record", |f| f.is(Event::Bad)),
    ("cut record", |f| f.is(Event::Cut)),
];

#[cfg(test)]
mod tests {
    use super::*;
    use crate::harness::situations::holding;

    /// What holds of the last of these fields.
    fn met(events: &[Event]) -> Vec<&'static str> {
        let mut before = History::default();
        let (event, earlier) = events.split_last().unwrap();
        earlier.iter().for_each(|event| before.follow(event));
        holding(FIELDS, &Field { before: &before, event })
    }

    #[test]
    fn source_of_the_list_is_followed() {
        assert_eq!(met(&[BLOCK_OK, LIST_A1]), ["list behind a block"]);
        assert_eq!(met(&[BLOCK_OK, BLOCK_A1]), ["block behind a block"]);
        assert_eq!(met(&[LIST_OK, BLOCK_A1]), ["block behind a list"]);
        assert_eq!(met(&[BLOCK_OK, BOARD_A1]), ["board behind a block"]);
        assert_eq!(met(&[LIST_OK, LIST_A1]), [""; 0]);
    }

    #[test]
    fn refused_blocks_are_followed() {
        let refused = |fault| Event::Block(Err(fault));
        let last_part = refused(BlockFault::B10);
        assert_eq!(met(&[last_part, LIST_OK]), ["list accepted behind a block with B10"]);
        assert_eq!(met(&[last_part, BLOCK_OK]), ["block accepted behind a block with B10"]);
        let looped = refused(BlockFault::B8(3));
        assert_eq!(met(&[looped, LIST_OK]), ["list accepted behind a block with a loop"]);
        assert_eq!(met(&[looped, BOARD_OK]), ["board taken behind a refused block"]);
        assert_eq!(met(&[last_part, looped, BLOCK_OK]), [""; 0]);
    }
}
