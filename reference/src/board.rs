//! The board: its hosts, its processors and the flag bits that a message may name. It is data, read
//! from lent memory of any content.

/// The management firmware: on every board, never a sender, never a controller.
pub const NO_HOST: u16 = 0;

/// The most processors of a board, and so the rows of each memory.
pub const ROWS: usize = 32;

/// The most hosts of a board; the management firmware does not count.
pub const MOST_HOSTS: usize = 64;

/// Cluster number of a processor that stands alone.
pub const ALONE: u8 = 0;

/// Bytes of board memory: hosts and places by number, classes and homes by row.
pub const BOARD_BYTES: usize = HOMES + ROWS;

/// Board memory as it is lent.
pub type BoardMemory = [u8; BOARD_BYTES];

const NUMBERS: usize = 256;
const PLACES: usize = NUMBERS;
const CLASSES: usize = PLACES + NUMBERS;
const HOMES: usize = CLASSES + ROWS;

/// What a host byte says.
const ABSENT: u8 = 0;
const NOT_SECURE: u8 = 1;
const SECURE: u8 = 2;

/// The place of a number that no processor has; any place from here on means the same.
const NO_PLACE: u8 = ROWS as u8;

/// What a processor is, as far as flags and boot vectors differ.
#[derive(Clone, Copy, Debug, PartialEq, Eq)]
pub enum Class {
    R5,
    Armv8,
}

/// Which flag word of a record a set message changes.
#[derive(Clone, Copy, Debug, PartialEq, Eq)]
pub enum Word {
    Config,
    Control,
}

/// Flag bits that may be named: by class, then by word.
const FLAG_MASKS: [[u32; 2]; 2] = [[0xFF03, 0x3], [0x10F, 0x103]];

/// The flag bits of `word` that a message may name on a processor of `class`.
pub fn flag_mask(class: Class, word: Word) -> u32 {
    FLAG_MASKS[class as usize][word as usize]
}

/// A host as a description lists it.
#[derive(Clone, Copy, Debug, PartialEq, Eq)]
pub struct Host {
    pub number: u8,
    pub secure: bool,
}

/// A processor as a description lists it.
#[derive(Clone, Copy, Debug, PartialEq, Eq)]
pub struct Processor {
    pub number: u8,
    pub class: Class,
    /// ARMv8 processors of one cluster have one control word; R5 processors share nothing
    pub cluster: u8,
}

/// The hosts of the board that stands at the start.
pub const FIRST_HOSTS: [Host; 7] = [
    Host { number: 3, secure: true },
    Host { number: 10, secure: true },
    Host { number: 4, secure: false },
    Host { number: 5, secure: false },
    Host { number: 6, secure: false },
    Host { number: 12, secure: false },
    Host { number: 13, secure: false },
];

/// The processors of the board that stands at the start.
pub const FIRST_PROCESSORS: [Processor; 4] = [
    Processor { number: 1, class: Class::R5, cluster: ALONE },
    Processor { number: 2, class: Class::R5, cluster: ALONE },
    Processor { number: 32, class: Class::Armv8, cluster: 1 },
    Processor { number: 33, class: Class::Armv8, cluster: 1 },
];

/// The board in force. Any content of its memory is a board.
#[derive(Clone, Copy, Debug, PartialEq, Eq)]
pub struct Board(pub BoardMemory);

impl Board {
    /// The board with these hosts and processors, which get the rows in their order. There are no
    /// more than fit, each number is there once, and a cluster has one class.
    pub fn new(hosts: &[Host], processors: &[Processor]) -> Board {
        let mut memory = [ABSENT; BOARD_BYTES];
        for host in hosts {
            memory[usize::from(host.number)] = if host.secure { SECURE } else { NOT_SECURE };
        }
        memory[PLACES..CLASSES].fill(NO_PLACE);
        for row in 0..ROWS {
            memory[HOMES + row] = row as u8;
        }
        for (row, processor) in processors.iter().enumerate() {
            memory[PLACES + usize::from(processor.number)] = row as u8;
            memory[CLASSES + row] = processor.class as u8;
            memory[HOMES + row] = home_of(processors, row) as u8;
        }
        Board(memory)
    }

    /// The board that stands until a description is taken.
    pub fn first() -> Board {
        Board::new(&FIRST_HOSTS, &FIRST_PROCESSORS)
    }

    /// Whether the board has this host; true of the management firmware, whatever its byte holds.
    pub fn has_host(&self, host: u16) -> bool {
        host == NO_HOST || self.host_byte(host) != ABSENT
    }

    /// Whether this host is a secure one.
    pub fn is_secure(&self, host: u16) -> bool {
        host != NO_HOST && self.host_byte(host) == SECURE
    }

    /// Whether this host may send and control: a board host, but not the management firmware.
    pub fn can_send(&self, host: u16) -> bool {
        host != NO_HOST && self.has_host(host)
    }

    /// What is kept of a host number; one above 255 is on no board.
    fn host_byte(&self, host: u16) -> u8 {
        self.0[..NUMBERS].get(usize::from(host)).copied().unwrap_or(ABSENT)
    }

    /// The row of a processor, or none if it is not on the board.
    pub fn row_of(&self, number: u8) -> Option<usize> {
        let place = self.0[PLACES + usize::from(number)];
        (place < NO_PLACE).then_some(usize::from(place))
    }

    /// The class of the processor in a row.
    pub fn class_at(&self, row: usize) -> Class {
        match self.0[CLASSES + row] % 2 {
            0 => Class::R5,
            _ => Class::Armv8,
        }
    }

    /// The row where the control word of this row is kept.
    pub fn home_at(&self, row: usize) -> usize {
        usize::from(self.0[HOMES + row]) % ROWS
    }

    /// All hosts but the management firmware, by rising number.
    pub fn senders(&self) -> Vec<u16> {
        (0..=u16::from(u8::MAX)).filter(|&host| self.can_send(host)).collect()
    }

    /// All processors, by rising number.
    pub fn processors(&self) -> Vec<u8> {
        (0..=u8::MAX).filter(|&number| self.row_of(number).is_some()).collect()
    }

    /// The other processors that have the control word of this one, by rising number.
    pub fn sharers(&self, number: u8) -> Vec<u8> {
        let home = |number| self.row_of(number).map(|row| self.home_at(row));
        let shares = |&other: &u8| other != number && home(other) == home(number);
        self.processors().into_iter().filter(shares).collect()
    }
}

/// The row where a processor's control word is kept: that of its cluster's first processor for an
/// ARMv8 processor in a cluster, and its own for any other.
fn home_of(processors: &[Processor], row: usize) -> usize {
    let Processor { class, cluster, .. } = processors[row];
    if class == Class::R5 || cluster == ALONE {
        return row;
    }
    let shares = |other: &Processor| other.class == class && other.cluster == cluster;
    processors.iter().position(shares).unwrap_or(row)
}

#[cfg(test)]
mod tests;
