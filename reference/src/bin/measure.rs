//! Writes a recording for timing to standard output: `measure [messages] [full]`, 1,000,000
//! messages by default. With `full` the same messages meet a board of 64 hosts and 32 processors.
//! The seed is fixed, so that all programs are timed on the same bytes.

use std::io::{self, BufWriter};
use std::process::ExitCode;

use pomrozek_reference::harness::generate::timing::{write_timing_recording, TimedBoard};

const USAGE: &str = "usage: measure [messages] [full]";

const SEED: u64 = 1;
const MESSAGES: usize = 1_000_000;

fn main() -> ExitCode {
    let Some((messages, board)) = read_options() else {
        eprintln!("{USAGE}");
        return ExitCode::FAILURE;
    };
    let mut out = BufWriter::new(io::stdout().lock());
    match write_timing_recording(SEED, messages, board, &mut out) {
        Ok(()) => ExitCode::SUCCESS,
        Err(_) => ExitCode::FAILURE,
    }
}

fn read_options() -> Option<(usize, TimedBoard)> {
    let (mut messages, mut board) = (MESSAGES, TimedBoard::First);
    for argument in std::env::args().skip(1) {
        match argument.as_str() {
            "full" => board = TimedBoard::Full,
            number => messages = number.parse().ok()?,
        }
    }
    Some((messages, board))
}
