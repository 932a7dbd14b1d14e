//! Situations of host hierarchies that a run has to meet: where ways end, which loops there are and
//! what leads into them, and faults in and beside an entry.

use crate::block::{
    supervisor_of, BlockFault, Link, HIERARCHY_AT, HIERARCHY_ENTRIES, OTP_AT, PART_HEADER_BYTES,
};
use crate::board::Board;
use crate::harness::situations::{Named, Offered};
use BlockFault::{B5, B6, B7, B8};

/// Where following supervisors leads.
pub struct Way {
    /// the hosts in turn, each once, from the one where it starts
    hosts: Vec<u8>,
    /// the host that would come once more; none where the way ends
    again: Option<u8>,
}

impl Way {
    /// Whether the host where it starts lies on a loop.
    pub fn is_loop(&self) -> bool {
        self.again == Some(self.hosts[0])
    }

    /// Whether it ends after so many entries, and where.
    fn ends(&self, entries: usize, test: impl Fn(u8) -> bool) -> bool {
        self.again.is_none() && self.hosts.len() == entries + 1 && test(self.hosts[entries])
    }

    /// Whether it leads into a loop with this host, which is not where it starts.
    fn leads_into(&self, host: u8) -> bool {
        !self.is_loop() && self.again.is_some() && self.hosts.contains(&host)
    }
}

impl Offered<'_> {
    /// All entries of the hierarchy that are there, used or not.
    fn all_links(&self) -> Vec<Link> {
        let pairs = self.bytes(HIERARCHY_AT + PART_HEADER_BYTES, OTP_AT).chunks_exact(2);
        pairs.map(|pair| Link { host: pair[0], supervisor: pair[1] }).collect()
    }

    /// The used ones of them.
    pub fn links(&self) -> Vec<Link> {
        self.all_links().into_iter().filter(|link| link.host != 0).collect()
    }

    /// Where following supervisors from this host leads.
    pub fn way(&self, host: u8) -> Way {
        let links = self.links();
        let mut hosts = vec![host];
        while let Some(supervisor) = supervisor_of(&links, hosts[hosts.len() - 1]) {
            if hosts.contains(&supervisor) {
                return Way { hosts, again: Some(supervisor) };
            }
            hosts.push(supervisor);
        }
        Way { hosts, again: None }
    }

    /// Whether this is taken and some way passes the test.
    fn has_way(&self, test: impl Fn(&Way) -> bool) -> bool {
        self.ok() && self.links().iter().any(|link| test(&self.way(link.host)))
    }

    /// Whether this is taken and some entry passes the test, told the hosts before and behind it.
    pub(super) fn has_link(&self, test: impl Fn(Link, &[u8], &[u8]) -> bool) -> bool {
        let links = self.links();
        let hosts: Vec<_> = links.iter().map(|link| link.host).collect();
        let mut places = 0..links.len();
        self.ok() && places.any(|at| test(links[at], &hosts[..at], &hosts[at + 1..]))
    }

    /// Whether an unused entry with a supervisor that the board lacks stands between used ones.
    fn has_gap(&self) -> bool {
        let links = self.all_links();
        let used: Vec<_> = (0..links.len()).filter(|&at| links[at].host != 0).collect();
        let (Some(&first), Some(&last)) = (used.first(), used.last()) else {
            return false;
        };
        let odd = |link: &Link| link.host == 0 && self.is_absent(link.supervisor);
        self.ok() && links[first..last].iter().any(odd)
    }

    /// The hosts of the loop that is told, from the host that is told on.
    fn told_loop(&self) -> Vec<u8> {
        match self.verdict {
            Err(B8(host)) => self.way(host).hosts,
            _ => Vec::new(),
        }
    }

    /// Whether a loop is told and some way from an entry before it, or behind, passes the test.
    fn beside_loop(&self, before: bool, test: impl Fn(&Way, u8) -> bool) -> bool {
        let links = self.links();
        let Err(B8(told)) = self.verdict else {
            return false;
        };
        let at = links.iter().position(|link| link.host == told).unwrap_or(0);
        let side = if before { &links[..at] } else { &links[at + 1..] };
        side.iter().any(|link| test(&self.way(link.host), told))
    }

    /// Whether a loop is told and behind its host one of another loop passes the test.
    fn other_loop(&self, test: impl Fn(u8, u8) -> bool) -> bool {
        let told_loop = self.told_loop();
        self.beside_loop(false, |way, told| {
            let host = way.hosts[0];
            way.is_loop() && !told_loop.contains(&host) && test(host, told)
        })
    }

    /// The used entry that one of B5 to B7 is told for, with those before and behind it.
    fn faulty_link(&self) -> Option<(Link, Vec<Link>, Vec<Link>)> {
        let links = self.links();
        let fault = self.verdict.err()?;
        let at = (0..links.len()).find(|&at| match fault {
            B5 => self.is_absent(links[at].host),
            B6 => self.is_absent(links[at].supervisor),
            B7 => links[..at].iter().any(|link| link.host == links[at].host),
            _ => false,
        })?;
        Some((links[at], links[..at].to_vec(), links[at + 1..].to_vec()))
    }

    /// Whether this fault is told for an entry, and the test holds of it and of those before and
    /// behind it.
    fn entry_refused(
        &self,
        fault: BlockFault,
        test: impl Fn(Link, &[Link], &[Link]) -> bool,
    ) -> bool {
        let found = self.faulty_link();
        self.refused(fault)
            && found.is_some_and(|(link, before, behind)| test(link, &before, &behind))
    }

    fn has_absent_host(&self, links: &[Link]) -> bool {
        links.iter().any(|link| self.is_absent(link.host))
    }

    fn has_absent_supervisor(&self, links: &[Link]) -> bool {
        links.iter().any(|link| self.is_absent(link.supervisor))
    }

    /// Whether this is refused with one of the faults of an entry, which stands in the last one.
    fn refused_for_last_entry(&self) -> bool {
        let last = self.all_links().last().copied();
        let is_last = |(link, _, behind): (Link, Vec<Link>, Vec<Link>)| {
            behind.is_empty() && Some(link) == last
        };
        self.faulty_link().is_some_and(is_last)
    }
}

const ALL: usize = HIERARCHY_ENTRIES;

/// Hierarchies that are taken and that are refused.
pub const HIERARCHIES: Named<fn(&Offered) -> bool> = &[
    ("hierarchy without a used entry", |o| o.ok() && o.links().is_empty()),
    ("hierarchy of 32 used entries", |o| o.ok() && o.links().len() == ALL),
    ("hierarchy on the first board", |o| {
        o.ok() && !o.links().is_empty() && *o.board == Board::first()
    }),
    ("way of one entry that ends at host 0", |o| o.has_way(|w| w.ends(1, |host| host == 0))),
    ("way of 32 entries that ends at host 0", |o| o.has_way(|w| w.ends(ALL, |host| host == 0))),
    ("way of 32 entries that ends without an entry", |o| {
        o.has_way(|w| w.ends(ALL, |host| host != 0))
    }),
    ("supervisor with an earlier entry", |o| o.has_link(|l, e, _| e.contains(&l.supervisor))),
    ("supervisor with a later entry", |o| o.has_link(|l, _, b| b.contains(&l.supervisor))),
    ("unused entry with an odd supervisor between used ones", |o| o.has_gap()),
    ("hierarchy with host 255", |o| o.has_link(|l, _, _| l.host == 255)),
    ("hierarchy with supervisor 255", |o| o.has_link(|l, _, _| l.supervisor == 255)),
    ("loop of one", |o| o.told_loop().len() == 1),
    ("loop of two", |o| o.told_loop().len() == 2),
    ("loop of 32", |o| o.told_loop().len() == ALL),
    ("loop with a lower host than the one told", |o| {
        o.told_loop().iter().min() < o.told_loop().first()
    }),
    ("loop with a higher host than the one told", |o| {
        o.told_loop().iter().max() > o.told_loop().first()
    }),
    ("loop behind a host that leads into it", |o| {
        o.beside_loop(true, |way, told| way.leads_into(told))
    }),
    ("loop behind a way of 31 into it", |o| {
        o.beside_loop(true, |way, told| way.leads_into(told) && way.hosts.len() == ALL)
    }),
    ("loop before a host that leads into it", |o| {
        o.beside_loop(false, |way, told| way.leads_into(told))
    }),
    ("loop behind a way that ends", |o| o.beside_loop(true, |way, _| way.again.is_none())),
    ("two loops", |o| o.other_loop(|_, _| true)),
    ("two loops, the later with a lower host", |o| o.other_loop(|other, told| other < told)),
    ("host and supervisor of an entry not on the board", |o| {
        o.entry_refused(B5, |link, _, _| o.is_absent(link.supervisor))
    }),
    ("supervisor of a repeated host not on the board", |o| {
        o.entry_refused(B6, |link, before, _| before.iter().any(|other| other.host == link.host))
    }),
    ("supervisor, and behind it a host, not on the board", |o| {
        o.entry_refused(B6, |_, _, behind| o.has_absent_host(behind))
    }),
    ("repeated host, and behind it one not on the board", |o| {
        o.entry_refused(B7, |_, _, behind| o.has_absent_host(behind))
    }),
    ("repeated host, and behind it an odd supervisor", |o| {
        o.entry_refused(B7, |_, _, behind| o.has_absent_supervisor(behind))
    }),
    ("fault in the last of 32 entries", |o| o.refused_for_last_entry()),
    ("repeated host with another supervisor", |o| {
        o.entry_refused(B7, |link, before, _| !before.contains(&link))
    }),
    ("repeated host with the same supervisor", |o| {
        o.entry_refused(B7, |link, before, _| before.contains(&link))
    }),
];

#[cfg(test)]
mod tests {
    use super::*;
    use crate::access::ACCESS_WORDS;
    use crate::block::accept_block;
    use crate::harness::generate::blocks::BlockDraft;
    use crate::harness::generate::lists::list_of;
    use crate::harness::situations::holding;
    use crate::session::RECORDED_ABI;

    /// What holds of a block with these entries, on document 01's board.
    fn met(pairs: &[[u8; 2]]) -> Vec<&'static str> {
        let mut draft = BlockDraft::new(RECORDED_ABI, list_of(&[]));
        draft.pairs[..pairs.len()].copy_from_slice(pairs);
        let (board, abi, block) = (&Board::first(), RECORDED_ABI, &draft.to_bytes());
        let verdict = accept_block(board, &mut [0; ACCESS_WORDS], abi, block);
        let offered = Offered { board, abi, block, verdict };
        holding(HIERARCHIES, &offered)
    }

    #[test]
    fn ways_are_told_by_their_entries() {
        let here = "hierarchy on the first board";
        assert_eq!(met(&[]), ["hierarchy without a used entry"]);
        assert_eq!(met(&[[3, 0]]), [here, "way of one entry that ends at host 0"]);
        assert_eq!(
            met(&[[3, 4], [0, 7], [4, 5]])[1..],
            [
                "supervisor with a later entry",
                "unused entry with an odd supervisor between used ones",
            ]
        );
        assert_eq!(met(&[[4, 5], [3, 4]]), [here, "supervisor with an earlier entry"]);
    }

    #[test]
    fn loops_are_told_by_what_is_beside_them() {
        let (higher, lower) = (
            "loop with a higher host than the one told",
            "loop with a lower host than the one told",
        );
        let behind = "loop behind a host that leads into it";
        assert_eq!(met(&[[5, 5]]), ["loop of one"]);
        assert_eq!(met(&[[3, 4], [4, 5], [5, 4]]), ["loop of two", higher, behind]);
        assert_eq!(
            met(&[[5, 4], [4, 5], [3, 4]])[1..],
            [lower, "loop before a host that leads into it",]
        );
        assert_eq!(
            met(&[[10, 0], [5, 5], [4, 4]])[1..],
            ["loop behind a way that ends", "two loops", "two loops, the later with a lower host",]
        );
    }

    #[test]
    fn faulty_entries_are_told_by_what_is_beside_them() {
        assert_eq!(met(&[[7, 0]]), [""; 0]);
        assert_eq!(met(&[[7, 7]]), ["host and supervisor of an entry not on the board"]);
        let same = "repeated host with the same supervisor";
        assert_eq!(met(&[[3, 0], [3, 0]]), [same]);
        assert_eq!(
            met(&[[3, 0], [3, 0], [7, 7]]),
            [
                "repeated host, and behind it one not on the board",
                "repeated host, and behind it an odd supervisor",
                same,
            ]
        );
        assert_eq!(met(&[[3, 0], [3, 7]]), ["supervisor of a repeated host not on the board"]);
    }
}
