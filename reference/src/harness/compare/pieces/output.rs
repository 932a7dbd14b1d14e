//! The output buffer that calls print into, between guards.

use crate::harness::compare::calls::same;
use crate::harness::compare::guards::GUARD;

/// What every byte holds that no call has printed. It is in no line.
const FILL: u8 = 0xA5;

/// Bytes of which each call is lent the first ones, as many as it is to have; all others guard them.
#[derive(Default)]
pub struct Output(Vec<u8>);

impl Output {
    /// An output of this length.
    pub fn lend(&mut self, room: usize) -> &mut [u8] {
        let length = GUARD + room + GUARD;
        if self.0.len() < length {
            self.0.resize(length, FILL);
        }
        &mut self.0[GUARD..GUARD + room]
    }

    /// Whether a call with so much room says that it has printed so much, has printed these lines
    /// and has left all other bytes. They are then forgotten.
    pub fn check(&mut self, room: usize, printed: usize, lines: &[u8]) -> Result<(), String> {
        let given = self.0[GUARD..GUARD + room].get(..printed);
        let Some(given) = given else {
            return Err(format!("{printed} bytes printed into an output of {room}"));
        };
        same("what is printed", &String::from_utf8_lossy(lines), &String::from_utf8_lossy(given))?;
        self.forget(room, printed)
    }

    /// Whether a call has left all bytes but those that it has printed, which are then forgotten.
    pub fn forget(&mut self, room: usize, printed: usize) -> Result<(), String> {
        let (before, rest) = self.0.split_at_mut(GUARD);
        let (lines, behind) = rest.split_at_mut(printed.min(room));
        let behind = &behind[..GUARD + room - lines.len()];
        if !is_filled(before) || !is_filled(behind) {
            return Err(format!("output of {room} bytes changed behind its {printed}"));
        }
        lines.fill(FILL);
        Ok(())
    }

    /// Whether all bytes are as they were, also those far behind an output.
    pub fn check_all(&self) -> Result<(), String> {
        match self.0.iter().position(|&byte| byte != FILL) {
            Some(place) => Err(format!("output changed at its place {place}")),
            None => Ok(()),
        }
    }
}

/// Whether nothing was printed there. All bytes are looked at, which takes less time than to stop at
/// the first that differs.
fn is_filled(bytes: &[u8]) -> bool {
    bytes.iter().fold(0, |differing, byte| differing | (byte ^ FILL)) == 0
}

#[cfg(test)]
mod tests {
    use super::*;

    /// Whether what is written at a place of an output of 4 bytes passes as these lines.
    fn passes(place: usize, lines: &[u8], printed: usize) -> bool {
        let mut output = Output::default();
        output.lend(40);
        output.lend(4);
        output.0[place..place + lines.len()].copy_from_slice(lines);
        let checked = output.check(4, printed, lines);
        checked.is_ok() && output.check_all().is_ok()
    }

    #[test]
    fn bytes_beside_the_lines_are_seen() {
        assert!(passes(GUARD, b"ok", 2) && passes(GUARD, b"okay", 4));
        assert!(!passes(GUARD, b"ok", 1) && !passes(GUARD, b"ok", 3));
        assert!(!passes(GUARD, b"okays", 4) && !passes(GUARD, b"okays", 5));
        assert!(!passes(GUARD - 1, b"ok", 2) && !passes(GUARD + 1, b"ok", 2));
    }

    #[test]
    fn bytes_far_behind_are_seen() {
        let mut output = Output::default();
        output.lend(40);
        output.0[GUARD + 30] = 0;
        assert_eq!(output.check(4, 0, b""), Ok(()));
        assert!(output.check_all().is_err());
    }
}
