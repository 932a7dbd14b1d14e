//! The fields behind the processor of a drafted message, right or wrong as its goal needs.

use crate::access::row_words;
use crate::board::{flag_mask, Class, Word};
use crate::harness::generate::drafts::Drafter;
use crate::harness::generate::random::Random;
use crate::harness::generate::waits::{faulty_wait, good_wait, words_for};
use crate::manager::{GEN_IGN_BOOTVECTOR, R5_VECTOR_LOW_BITS};
use crate::message::Kind;
use crate::outcome::Outcome;
use crate::wait::Wait;

impl Drafter<'_> {
    /// Adds the fields behind the processor; gives the status words that the message needs.
    pub(super) fn add_fields(
        &mut self,
        message: &mut Vec<u8>,
        kind: Kind,
        row: usize,
    ) -> Option<Vec<u32>> {
        let class = self.scene.setup.board.class_at(row);
        match kind {
            Kind::Handover => {
                let host = self.new_host(row);
                message.push(host);
            }
            Kind::SetConfig => self.add_config(message, class),
            Kind::SetControl => {
                let mask = flag_mask(class, Word::Control);
                let faulty = self.faulty(Outcome::N8);
                self.add_flags(message, mask, faulty, 0);
            }
            Kind::AuthBoot => message.extend(self.random.bytes(7)),
            Kind::GetStatus => {
                let count = if self.faulty(Outcome::R3) { 0 } else { self.random.between(1, 4) };
                return Some(self.random.words(count));
            }
            Kind::WaitStatus => return Some(self.add_wait(message)),
            Kind::Request | Kind::Release => {}
        }
        None
    }

    /// Any of the hosts that a handover may or may not name.
    fn new_host(&mut self, row: usize) -> u8 {
        let board = self.any_sender();
        let named = self.random.pick(row_words(self.scene.setup.access, row)) as u8;
        self.random.pick_or(&[0, board, named, named], Random::u8)
    }

    fn add_config(&mut self, message: &mut Vec<u8>, class: Class) {
        let faulty = self.faulty(Outcome::N8);
        let mut low = self.random.u32();
        let mut extra = 0;
        if self.random.one_in(3) {
            extra = GEN_IGN_BOOTVECTOR;
        } else if class == Class::R5 {
            low &= !R5_VECTOR_LOW_BITS;
        }
        if faulty && class == Class::R5 && self.random.one_in(2) {
            low |= 1 << self.random.below(7);
        }
        message.extend(low.to_le_bytes());
        message.extend(self.random.u32().to_le_bytes());
        let faulty = faulty && self.random.one_in(2);
        self.add_flags(message, flag_mask(class, Word::Config), faulty, extra);
    }

    /// Adds the words of bits to set and to clear, the latter with the extra bits.
    fn add_flags(&mut self, message: &mut Vec<u8>, mask: u32, faulty: bool, extra: u32) {
        let mut set = self.random.u32() & mask;
        let mut clear = self.random.u32() & mask & !set;
        if faulty {
            let bit = self.random.pick_or(&[GEN_IGN_BOOTVECTOR, 0x4], Random::bit);
            match self.random.below(3) {
                0 => set |= bit,
                1 => clear |= bit,
                _ => (set, clear) = (set | (bit & mask), clear | (bit & mask)),
            }
        }
        message.extend(set.to_le_bytes());
        message.extend((clear | extra).to_le_bytes());
    }

    /// Adds the fields of a wait; gives words that it runs over.
    fn add_wait(&mut self, message: &mut Vec<u8>) -> Vec<u32> {
        let wait = if self.faulty(Outcome::N8) {
            faulty_wait(self.random)
        } else {
            good_wait(self.random)
        };
        message.extend(wait.to_bytes());
        let count =
            if wait.is_valid() { self.count_for_good(&wait) } else { self.count_for_faulty(&wait) };
        words_for(self.random, &wait, count)
    }

    /// How many words a wait with right operands gets: too few, just enough or more.
    fn count_for_good(&mut self, wait: &Wait) -> usize {
        let waits = usize::from(wait.waits);
        if self.faulty(Outcome::R3) {
            let few = self.random.below(waits);
            return self.random.pick(&[0, waits - 1, few]);
        }
        let more = self.random.between(waits, self.scene.most_words);
        self.random.pick(&[waits, waits, more, (waits + 1).min(more)])
    }

    /// How many words a wait with a wrong operand gets, which decide nothing: none, fewer than its
    /// waits, just as many, at least as many as its matches, or any number.
    fn count_for_faulty(&mut self, wait: &Wait) -> usize {
        let (waits, matches) = (usize::from(wait.waits), usize::from(wait.matches));
        let few = self.random.below(waits.max(1));
        let many = self.random.between(matches, self.scene.most_words);
        let any = self.random.between(0, self.scene.most_words);
        self.random.pick(&[0, few, waits, matches, many, any])
    }
}
