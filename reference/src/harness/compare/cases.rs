//! Runs the fixed cases: over calls in process, and as recordings.

use crate::access::Role;
use crate::bench::{Case, Step};
use crate::harness::compare::calls::{Calls, Memory};
use crate::harness::generate::recordings::{field, message_field, status_field};
use crate::manager::Call;
use crate::message::ANSWER_BYTES;
use crate::record::Tallies;
use crate::session::{RECORDED_ABI, TAG_BLOCK, TAG_BOARD, TAG_LIST};

/// Runs a case from the start; says which step gave another line, role or tallies than it has to.
pub fn run_case(calls: &impl Calls, case: &Case) -> Result<(), String> {
    let memory = Memory::new(calls.start());
    let mut run = Run { memory, status: &[], told: Role::None.number() };
    for (number, step) in case.steps.iter().enumerate() {
        let (given, expected) = run.take(calls, step);
        if given != expected {
            let step = number + 1;
            return Err(format!("{}, step {step}: expected {expected}, given {given}", case.name));
        }
    }
    Ok(())
}

/// A case that is being run.
struct Run<'a> {
    memory: Memory,
    status: &'a [u32],
    /// the number of the role that the last message reported
    told: u32,
}

impl<'a> Run<'a> {
    /// Takes a step; gives what came of it and what has to. That is nothing for steps that prepare.
    fn take(&mut self, calls: &impl Calls, step: &'a Step) -> (String, String) {
        let memory = &mut self.memory;
        match step {
            Step::Board { description, line } => {
                (calls.board(memory, description), line.to_string())
            }
            Step::List { list, line } => (calls.list(memory, list), line.to_string()),
            Step::Block { abi, block, line } => {
                (calls.block(memory, *abi, block), line.to_string())
            }
            Step::Status { words } => {
                self.status = words;
                Default::default()
            }
            Step::Message { channel, message, room, line } => {
                let call = Call { channel: *channel, message, status: self.status };
                let (given, role) = calls.message(memory, &call, &mut vec![0; *room]);
                self.told = role;
                (given, line.to_string())
            }
            Step::Told { role } => (role_line(self.told), role_line(role.number())),
            Step::Tallies { processor, tallies } => {
                (tallies_line(memory.tallies(*processor)), tallies_line(*tallies))
            }
            Step::Stored { processor, tallies } => {
                memory.store_tallies(*processor, *tallies);
                Default::default()
            }
        }
    }
}

fn role_line(number: u32) -> String {
    format!("role {number}")
}

fn tallies_line(tallies: Tallies) -> String {
    format!("{tallies:?}")
}

/// The case as a recording and the lines that it has to give. Steps with another answer buffer or
/// other ABI bytes are left out, as a recording cannot say them, and roles and tallies, which it
/// does not tell.
pub fn recording_of(case: &Case) -> (Vec<u8>, String) {
    let mut recording = Vec::new();
    let mut lines = String::new();
    for step in &case.steps {
        let (bytes, line) = match step {
            Step::Board { description, line } => (field(TAG_BOARD, description), *line),
            Step::List { list, line } => (field(TAG_LIST, list), *line),
            Step::Block { abi, .. } if *abi != RECORDED_ABI => continue,
            Step::Block { block, line, .. } => (field(TAG_BLOCK, block), *line),
            Step::Status { words } => (status_field(words), ""),
            Step::Message { room, .. } if *room != ANSWER_BYTES => continue,
            Step::Told { .. } | Step::Tallies { .. } | Step::Stored { .. } => continue,
            Step::Message { channel, message, line, .. } => {
                (message_field(*channel, message), *line)
            }
        };
        recording.extend(bytes);
        if !line.is_empty() {
            lines.push_str(line);
            lines.push('\n');
        }
    }
    (recording, lines)
}

#[cfg(test)]
mod tests {
    use super::*;
    use crate::bench::cases;
    use crate::harness::compare::calls::Model;
    use crate::session::lines_of;

    #[test]
    fn model_gives_the_fixed_lines() {
        for case in cases() {
            assert_eq!(run_case(&Model, &case), Ok(()));
        }
    }

    /// One after the other, each step with tallies expects one release more than there is.
    #[test]
    fn other_tallies_are_told() {
        for case in cases() {
            let is_tallies = |&at: &usize| matches!(case.steps[at], Step::Tallies { .. });
            for at in (0..case.steps.len()).filter(is_tallies) {
                let mut wrong = case.clone();
                if let Step::Tallies { tallies, .. } = &mut wrong.steps[at] {
                    tallies.releases = tallies.releases.wrapping_add(1);
                }
                let told = run_case(&Model, &wrong).unwrap_err();
                assert!(told.starts_with(&format!("{}, step {}:", case.name, at + 1)), "{told}");
            }
        }
    }

    #[test]
    fn replay_prints_the_fixed_lines() {
        for case in cases() {
            let (recording, expected) = recording_of(&case);
            assert_eq!(lines_of(&recording), expected, "{}", case.name);
        }
    }

    #[test]
    fn worked_session_is_four_lines() {
        let case = cases().into_iter().find(|case| case.name == "worked session").unwrap();
        let expected = "list OK\n\
            OK 0 0 00c0030702000000\n\
            N7 0 0 00c0050100000000\n\
            OK 0 0 -\n";
        assert_eq!(recording_of(&case).1, expected);
    }
}
