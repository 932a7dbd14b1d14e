//! Board descriptions: tagged fields of single bytes, how they are judged (A1, D1 to D6), and what
//! taking one leaves in memory.

use crate::access::{has_list, AccessMemory};
use crate::board::{Board, Class, Host, Processor, ALONE, MOST_HOSTS, ROWS};

/// Tag of a host: its number, and 1 for secure or 0 for not.
pub const TAG_HOST: u8 = 1;

/// Tag of a processor: its number, class and cluster.
pub const TAG_PROCESSOR: u8 = 2;

/// Why a description is refused, by its number in the static library. Declared in the order of the
/// tests: A1 before any item, then each item in turn by D1 to D6.
#[derive(Clone, Copy, Debug, PartialEq, Eq, PartialOrd, Ord)]
pub enum BoardFault {
    /// a list or block was accepted before
    A1 = 1,
    /// a bad tag, a bad length or a cut field
    D1 = 201,
    /// number 0
    D2,
    /// a repeat of its kind
    D3,
    /// an unknown mark or class
    D4,
    /// a cluster of another class
    D5,
    /// one more than the limit
    D6,
}

/// Every fault, in the order in which they are tested.
pub const BOARD_FAULTS: [BoardFault; 7] = [
    BoardFault::A1,
    BoardFault::D1,
    BoardFault::D2,
    BoardFault::D3,
    BoardFault::D4,
    BoardFault::D5,
    BoardFault::D6,
];

/// Takes the described board, or says the first fault. All of the board is replaced by a
/// description that is taken and none of it by a refused one.
pub fn take_board(
    board: &mut Board,
    access: &AccessMemory,
    description: &[u8],
) -> Result<(), BoardFault> {
    if has_list(access) {
        return Err(BoardFault::A1);
    }
    let Description { hosts, processors } = Description::read(description)?;
    *board = Board::new(&hosts, &processors);
    Ok(())
}

/// A field of a description as it stands there, its bytes not judged yet.
#[derive(Clone, Copy, Debug, PartialEq, Eq)]
pub enum Item {
    Host { number: u8, mark: u8 },
    Processor { number: u8, class: u8, cluster: u8 },
}

impl Item {
    /// Reads the first field and gives what is behind it, or none for a bad tag, a bad length or a
    /// field that is cut off.
    pub fn read(bytes: &[u8]) -> Option<(Item, &[u8])> {
        match *bytes {
            [TAG_HOST, 2, 0, number, mark, ref rest @ ..] => {
                Some((Item::Host { number, mark }, rest))
            }
            [TAG_PROCESSOR, 3, 0, number, class, cluster, ref rest @ ..] => {
                Some((Item::Processor { number, class, cluster }, rest))
            }
            _ => None,
        }
    }

    /// The bytes that `read` takes.
    pub fn to_bytes(self) -> Vec<u8> {
        match self {
            Item::Host { number, mark } => vec![TAG_HOST, 2, 0, number, mark],
            Item::Processor { number, class, cluster } => {
                vec![TAG_PROCESSOR, 3, 0, number, class, cluster]
            }
        }
    }
}

/// What a description lists, in its order.
#[derive(Clone, Debug, Default, PartialEq, Eq)]
pub struct Description {
    pub hosts: Vec<Host>,
    pub processors: Vec<Processor>,
}

impl Description {
    /// Reads a description, or says its first fault of D1 to D6.
    pub fn read(bytes: &[u8]) -> Result<Description, BoardFault> {
        let mut description = Description::default();
        let mut rest = bytes;
        while !rest.is_empty() {
            let (item, behind) = Item::read(rest).ok_or(BoardFault::D1)?;
            description.add(item)?;
            rest = behind;
        }
        Ok(description)
    }

    /// Adds one more item, or says its first fault of D2 to D6 and leaves it out.
    pub fn add(&mut self, item: Item) -> Result<(), BoardFault> {
        match item {
            Item::Host { number, mark } => self.add_host(number, mark),
            Item::Processor { number, class, cluster } => {
                self.add_processor(number, class, cluster)
            }
        }
    }

    fn add_host(&mut self, number: u8, mark: u8) -> Result<(), BoardFault> {
        check_number(number, self.hosts.iter().map(|host| host.number))?;
        let secure = match mark {
            0 => false,
            1 => true,
            _ => return Err(BoardFault::D4),
        };
        push_within(&mut self.hosts, Host { number, secure }, MOST_HOSTS)
    }

    fn add_processor(&mut self, number: u8, class: u8, cluster: u8) -> Result<(), BoardFault> {
        check_number(number, self.processors.iter().map(|processor| processor.number))?;
        let class = match class {
            0 => Class::R5,
            1 => Class::Armv8,
            _ => return Err(BoardFault::D4),
        };
        let of_another_class = |p: &Processor| p.cluster == cluster && p.class != class;
        if cluster != ALONE && self.processors.iter().any(of_another_class) {
            return Err(BoardFault::D5);
        }
        push_within(&mut self.processors, Processor { number, class, cluster }, ROWS)
    }
}

/// D2 and D3: the number is not 0, and none of those before it.
fn check_number(number: u8, mut before: impl Iterator<Item = u8>) -> Result<(), BoardFault> {
    if number == 0 {
        return Err(BoardFault::D2);
    }
    if before.any(|other| other == number) {
        return Err(BoardFault::D3);
    }
    Ok(())
}

/// Adds one more, or refuses it (D6) where the limit is reached.
fn push_within<T>(all: &mut Vec<T>, one: T, limit: usize) -> Result<(), BoardFault> {
    if all.len() == limit {
        return Err(BoardFault::D6);
    }
    all.push(one);
    Ok(())
}

#[cfg(test)]
mod tests;
