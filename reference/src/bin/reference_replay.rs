//! Replays a session recording from standard input and prints its lines.

use std::io::{self, BufReader, BufWriter, ErrorKind};
use std::process::ExitCode;

use pomrozek_reference::session::replay;

fn main() -> ExitCode {
    let input = BufReader::new(io::stdin().lock());
    let output = BufWriter::new(io::stdout().lock());
    match replay(input, output) {
        // A reader that has gone away has seen what it wanted.
        Err(error) if error.kind() != ErrorKind::BrokenPipe => {
            eprintln!("reference_replay: {error}");
            ExitCode::FAILURE
        }
        _ => ExitCode::SUCCESS,
    }
}
