//! Wait status: its fields, which status words match, and the check that ends the wait.

use crate::bytes::u32_at;

/// The fields of a wait after the processor.
#[derive(Clone, Copy, Debug, PartialEq, Eq)]
pub struct Wait {
    /// checks to make at most
    pub waits: u8,
    /// matching words in a row that end the wait
    pub matches: u8,
    /// microseconds
    pub delay_per_check: u8,
    /// microseconds
    pub delay_before: u8,
    /// bits that are all 1 in a matching word
    pub set_all: u32,
    /// bits of which some is 1, unless the mask is zero
    pub set_any: u32,
    /// bits that are all 0
    pub clear_all: u32,
    /// bits of which some is 0, unless the mask is zero
    pub clear_any: u32,
}

impl Wait {
    /// Reads the fields from the bytes that follow the processor.
    pub fn read(fields: &[u8]) -> Wait {
        Wait {
            waits: fields[0],
            matches: fields[1],
            delay_per_check: fields[2],
            delay_before: fields[3],
            set_all: u32_at(fields, 4),
            set_any: u32_at(fields, 8),
            clear_all: u32_at(fields, 12),
            clear_any: u32_at(fields, 16),
        }
    }

    /// The bytes that `read` takes.
    pub fn to_bytes(self) -> Vec<u8> {
        let mut bytes = vec![self.waits, self.matches, self.delay_per_check, self.delay_before];
        for mask in self.masks() {
            bytes.extend(mask.to_le_bytes());
        }
        bytes
    }

    fn masks(&self) -> [u32; 4] {
        [self.set_all, self.set_any, self.clear_all, self.clear_any]
    }

    /// Whether the operands are right: both counts at least 1, matches not above waits, and some
    /// mask not zero.
    pub fn is_valid(&self) -> bool {
        (1..=self.waits).contains(&self.matches) && self.masks() != [0; 4]
    }

    /// Whether one status word matches. An "any" mask of zero asks for nothing.
    pub fn is_match(&self, word: u32) -> bool {
        word & self.set_all == self.set_all
            && (self.set_any == 0 || word & self.set_any != 0)
            && word & self.clear_all == 0
            && (self.clear_any == 0 || !word & self.clear_any != 0)
    }

    /// The checks made up to the end of the first run, or none if no run ends in time. The
    /// operands are right and there are at least `waits` words.
    pub fn checks_to_first_run(&self, words: &[u32]) -> Option<u32> {
        let start = words[..usize::from(self.waits)]
            .windows(usize::from(self.matches))
            .position(|run| run.iter().all(|&word| self.is_match(word)))?;
        // A start is below 255, as there are no more words than that.
        Some(start as u32 + u32::from(self.matches))
    }

    /// The delays that this many checks take.
    pub fn microseconds(&self, checks: u32) -> u32 {
        u32::from(self.delay_before) + u32::from(self.delay_per_check) * checks
    }
}

#[cfg(test)]
mod tests {
    use super::*;

    fn wait(waits: u8, matches: u8) -> Wait {
        Wait {
            waits,
            matches,
            delay_per_check: 2,
            delay_before: 0,
            set_all: 0,
            set_any: 1,
            clear_all: 0,
            clear_any: 0,
        }
    }

    #[test]
    fn first_run_ends_the_wait() {
        assert_eq!(wait(3, 1).checks_to_first_run(&[1, 1, 1]), Some(1));
        assert_eq!(wait(5, 2).checks_to_first_run(&[1, 0, 1, 1, 1]), Some(4));
        assert_eq!(wait(5, 3).checks_to_first_run(&[1, 1, 0, 1, 1]), None);
        assert_eq!(wait(3, 3).checks_to_first_run(&[1, 1, 1]), Some(3));
        assert_eq!(wait(3, 3).checks_to_first_run(&[1, 1, 0, 1, 1, 1]), None);
        assert_eq!(wait(4, 3).checks_to_first_run(&[0, 1, 1, 1]), Some(4));
        assert_eq!(wait(2, 2).checks_to_first_run(&[0, 1, 1]), None);
        assert_eq!(wait(255, 255).checks_to_first_run(&[1; 300]), Some(255));
    }

    #[test]
    fn each_mask_counts() {
        let all = Wait { set_all: 0x3, set_any: 0, ..wait(1, 1) };
        assert!(all.is_match(0x7) && !all.is_match(0x1));
        let any = Wait { set_any: 0x3, ..wait(1, 1) };
        assert!(any.is_match(0x2) && !any.is_match(0x4));
        let clear_all = Wait { set_any: 0, clear_all: 0x3, ..wait(1, 1) };
        assert!(clear_all.is_match(0x4) && !clear_all.is_match(0x1));
        let clear_any = Wait { set_any: 0, clear_any: 0x3, ..wait(1, 1) };
        assert!(clear_any.is_match(0x1) && !clear_any.is_match(0x7));
    }

    #[test]
    fn counts() {
        let is_valid = |&(waits, matches): &(u8, u8)| wait(waits, matches).is_valid();
        let right = [(1, 1), (3, 3), (4, 3), (255, 1), (255, 254), (255, 255)];
        assert!(right.iter().all(is_valid));
        let above = [(1, 2), (1, 255), (3, 4), (3, 255), (254, 255)];
        assert!(!above.iter().any(is_valid));
        let zero = [(0, 0), (0, 1), (0, 255), (1, 0), (255, 0)];
        assert!(!zero.iter().any(is_valid));
    }

    /// Masks that no word can match are right as well.
    #[test]
    fn masks() {
        let masks = |set_all, set_any, clear_all, clear_any| {
            Wait { set_all, set_any, clear_all, clear_any, ..wait(1, 1) }.is_valid()
        };
        assert!(!masks(0, 0, 0, 0));
        assert!(masks(1 << 31, 0, 0, 0) && masks(0, 1, 0, 0));
        assert!(masks(0, 0, 1, 0) && masks(0, 0, 0, 1));
        assert!(masks(1, 0, 1, 0) && masks(0, 1, 1, 0) && masks(1, 0, 0, 1));
    }

    #[test]
    fn delays_reach_their_limit() {
        let slow = Wait { delay_per_check: 255, delay_before: 255, ..wait(255, 1) };
        assert_eq!(slow.microseconds(255), 65_280);
        assert_eq!(wait(10, 2).microseconds(5), 10);
    }

    #[test]
    fn fields_are_little_endian_and_in_order() {
        let bytes: Vec<u8> = (1..=20).collect();
        let wait = Wait::read(&bytes);
        assert_eq!((wait.waits, wait.matches), (1, 2));
        assert_eq!((wait.delay_per_check, wait.delay_before), (3, 4));
        assert_eq!((wait.set_all, wait.set_any), (0x0807_0605, 0x0C0B_0A09));
        assert_eq!((wait.clear_all, wait.clear_any), (0x100F_0E0D, 0x1413_1211));
        assert_eq!(wait.to_bytes(), bytes);
    }
}
