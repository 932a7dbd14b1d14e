//! What is remembered of a processor, and where it stands in the lent memory.

use crate::board::{Board, ROWS};

/// Words of record memory: eight a row, then the control words.
pub const RECORD_WORDS: usize = CONTROLS + ROWS;

/// Record memory as it is lent: by row what is a processor's own, and behind all rows the control
/// words, each at the place of its home. Any content is a state.
pub type RecordMemory = [u32; RECORD_WORDS];

const OWN_WORDS: usize = 8;
const CONTROLS: usize = OWN_WORDS * ROWS;

/// How many messages that were carried out changed a processor's controller, by the way they did.
/// Each number stays at the largest that a word holds once it is there.
#[derive(Clone, Copy, Debug, Default, PartialEq, Eq)]
pub struct Tallies {
    /// requests granted while the processor was free
    pub grants: u32,
    /// requests that took it from another host
    pub overrides: u32,
    /// handovers to another host
    pub handovers: u32,
    pub releases: u32,
}

impl Tallies {
    /// The tallies in the order in which memory has them.
    pub fn from_words([grants, overrides, handovers, releases]: [u32; 4]) -> Tallies {
        Tallies { grants, overrides, handovers, releases }
    }
}

/// One processor's record.
#[derive(Clone, Copy, Debug, PartialEq, Eq)]
pub struct Record {
    /// the host that controls the processor; 0 if it is free
    pub controller: u32,
    pub vector_low: u32,
    pub vector_high: u32,
    pub config: u32,
    pub tallies: Tallies,
    /// one word for all processors with the same home
    pub control: u32,
}

impl Record {
    /// Reads the record of a row.
    pub fn load(board: &Board, memory: &RecordMemory, row: usize) -> Record {
        let own = &memory[OWN_WORDS * row..][..OWN_WORDS];
        Record {
            controller: own[0],
            vector_low: own[1],
            vector_high: own[2],
            config: own[3],
            tallies: Tallies::from_words([own[4], own[5], own[6], own[7]]),
            control: memory[CONTROLS + board.home_at(row)],
        }
    }

    /// Writes the record to a row, and its control word to its home.
    pub fn store(&self, board: &Board, memory: &mut RecordMemory, row: usize) {
        let Tallies { grants, overrides, handovers, releases } = self.tallies;
        let own = [
            self.controller,
            self.vector_low,
            self.vector_high,
            self.config,
            grants,
            overrides,
            handovers,
            releases,
        ];
        memory[OWN_WORDS * row..][..OWN_WORDS].copy_from_slice(&own);
        memory[CONTROLS + board.home_at(row)] = self.control;
    }

    /// Whether no host controls the processor.
    pub fn is_free(&self) -> bool {
        self.controller == 0
    }

    /// Whether `host` controls the processor.
    pub fn is_controlled_by(&self, host: u8) -> bool {
        host != 0 && self.controller == u32::from(host)
    }
}

#[cfg(test)]
mod tests {
    use super::*;

    /// The record with these words of its own, in their order, and this control word.
    fn record_of(own: [u32; 8], control: u32) -> Record {
        let [controller, vector_low, vector_high, config, grants, overrides, handovers, releases] =
            own;
        let tallies = Tallies { grants, overrides, handovers, releases };
        Record { controller, vector_low, vector_high, config, tallies, control }
    }

    /// The record of a row where each word holds its place, and the words with their places that a
    /// store of other numbers changes.
    fn stored(board: &Board, row: usize) -> (Record, Vec<(usize, u32)>) {
        let mut memory: RecordMemory = std::array::from_fn(|i| i as u32);
        let record = Record::load(board, &memory, row);
        record_of([990, 991, 992, 993, 994, 995, 996, 997], 998).store(board, &mut memory, row);
        let changed = (0..RECORD_WORDS).filter(|&i| memory[i] != i as u32);
        (record, changed.map(|i| (i, memory[i])).collect())
    }

    /// What `stored` gives of a row whose words begin here and whose control word is there.
    fn at(own: usize, control: usize) -> (Record, Vec<(usize, u32)>) {
        let record = record_of(std::array::from_fn(|i| (own + i) as u32), control as u32);
        let mut changed: Vec<_> = (own..own + 8).zip(990..).collect();
        changed.push((control, 998));
        (record, changed)
    }

    #[test]
    fn memory_is_288_words() {
        assert_eq!(RECORD_WORDS, 288);
    }

    #[test]
    fn rows_are_eight_words_and_a_control_word() {
        assert_eq!(stored(&Board::first(), 0), at(0, 256));
        assert_eq!(stored(&Board::first(), 1), at(8, 257));
        assert_eq!(stored(&Board::first(), 31), at(248, 287));
    }

    #[test]
    fn second_core_has_the_control_word_of_the_first() {
        assert_eq!(stored(&Board::first(), 2), at(16, 258));
        assert_eq!(stored(&Board::first(), 3), at(24, 258));
    }

    #[test]
    fn homes_are_taken_as_the_board_has_them() {
        let mut board = Board::first();
        board.0[544] = 32 + 31;
        assert_eq!(stored(&board, 0), at(0, 287));
    }

    #[test]
    fn controller_is_compared_as_a_full_word() {
        let load = |word| Record::load(&Board::first(), &[word; RECORD_WORDS], 0);
        assert!(!load(0x103).is_controlled_by(3) && !load(0x103).is_free());
        assert!(!load(0).is_controlled_by(0));
    }
}
