//! Runs a replay program over a recording and compares its output line by line.

use std::fs::File;
use std::io::{self, Read, Write};
use std::path::{Path, PathBuf};
use std::process::{Child, ChildStdin, Command, Stdio};
use std::thread;

/// Feeds the recording to the program, in pieces of this many bytes, and gives what it prints. A
/// program that is ended by a signal is an error; its exit code is free.
pub fn run(program: &Path, recording: &[u8], piece: usize) -> io::Result<Vec<u8>> {
    let mut child = Command::new(program).stdin(Stdio::piped()).stdout(Stdio::piped()).spawn()?;
    let input = child.stdin.take();
    let mut output = Vec::new();
    thread::scope(|scope| {
        scope.spawn(|| feed(input, recording, piece));
        read_output(&mut child, &mut output)
    })?;
    if child.wait()?.code().is_none() {
        return Err(io::Error::other("the program was ended by a signal"));
    }
    Ok(output)
}

/// Writes all of it, or as much as the program takes: it may stop at a bad field.
fn feed(input: Option<ChildStdin>, recording: &[u8], piece: usize) {
    let Some(mut input) = input else { return };
    for part in recording.chunks(piece) {
        if input.write_all(part).is_err() {
            return;
        }
    }
}

fn read_output(child: &mut Child, output: &mut Vec<u8>) -> io::Result<usize> {
    match child.stdout.take() {
        Some(mut stdout) => stdout.read_to_end(output),
        None => Ok(0),
    }
}

/// The first line that differs, counted from 1, as expected and as given; none if all is the same.
pub fn first_difference(expected: &[u8], given: &[u8]) -> Option<(usize, String, String)> {
    if expected == given {
        return None;
    }
    // The line ends stay with their lines, so that a missing one is seen as well.
    let mut expected = expected.split_inclusive(|&byte| byte == b'\n');
    let mut given = given.split_inclusive(|&byte| byte == b'\n');
    let mut number = 0;
    loop {
        number += 1;
        let lines = (expected.next(), given.next());
        if lines.0 != lines.1 {
            return Some((number, shown(lines.0), shown(lines.1)));
        }
    }
}

fn shown(line: Option<&[u8]>) -> String {
    match line {
        None => "(no line)".to_string(),
        Some(line) => format!("{:?}", String::from_utf8_lossy(line)),
    }
}

/// Keeps a recording that showed a difference; gives the file it is in.
pub fn keep(recording: &[u8], seed: u64, number: u64) -> io::Result<PathBuf> {
    let path = std::env::temp_dir().join(format!("crosscheck-{seed}-{number}.rec"));
    File::create(&path)?.write_all(recording)?;
    Ok(path)
}

#[cfg(test)]
mod tests {
    use super::*;

    #[test]
    fn differences_are_found() {
        assert_eq!(first_difference(b"a\nb\n", b"a\nb\n"), None);
        let (line, expected, given) = first_difference(b"a\nb\n", b"a\nc\n").unwrap();
        assert_eq!((line, expected.as_str(), given.as_str()), (2, "\"b\\n\"", "\"c\\n\""));
        assert_eq!(first_difference(b"a\nb\n", b"a\n").unwrap().2, "(no line)");
        assert_eq!(first_difference(b"a\n", b"a").unwrap().0, 1);
    }
}
