//! Compares the first implementation with the model: its replay program over recordings, its static
//! library over calls, and its replay library over recordings in pieces. Ends with `crosscheck: ok`
//! and exit 0, or names the first difference.

use std::path::{Path, PathBuf};
use std::process::ExitCode;
use std::time::{SystemTime, UNIX_EPOCH};

use pomrozek_reference::bench::cases;
use pomrozek_reference::harness::compare::calls::Model;
use pomrozek_reference::harness::compare::cases::{recording_of, run_case};
use pomrozek_reference::harness::compare::library::{
    compare_blocks, compare_boards, compare_lists, compare_messages, compare_starts, ReplayLibrary,
    StaticLibrary,
};
use pomrozek_reference::harness::compare::long_sessions::compare_sessions;
use pomrozek_reference::harness::compare::pieces::{
    compare_contents, compare_recording, compare_worked,
};
use pomrozek_reference::harness::compare::program::{first_difference, keep, run};
use pomrozek_reference::harness::coverage::{Coverage, PieceCoverage};
use pomrozek_reference::harness::edges::recordings::edge_recordings;
use pomrozek_reference::harness::edges::worked::WORKED;
use pomrozek_reference::harness::generate::recordings::recording;
use pomrozek_reference::harness::Run;

const USAGE: &str = "usage: crosscheck --replay PROGRAM [--seed N] [--recordings N]";

const RECORDINGS: u64 = 2400;
const LIBRARY_MESSAGES: u64 = 400_000;
const LIBRARY_LISTS: u64 = 40_000;
const LIBRARY_BLOCKS: u64 = 40_000;
const LIBRARY_BOARDS: u64 = 40_000;
const LIBRARY_STARTS: u64 = 1_000;
const LIBRARY_SESSIONS: u64 = 120;
const LIBRARY_MEMORIES: u64 = 20_000;

/// Bytes fed to the program at once: mostly all of them, sometimes so few that reads come short.
const PIECES: [usize; 5] = [usize::MAX, usize::MAX, usize::MAX, 1000, 7];

struct Options {
    replay: PathBuf,
    seed: u64,
    recordings: u64,
}

fn main() -> ExitCode {
    let Some(options) = read_options() else {
        eprintln!("{USAGE}");
        return ExitCode::FAILURE;
    };
    println!("crosscheck: seed {}", options.seed);
    match check(&options) {
        Ok(summary) => {
            println!("crosscheck: ok: {summary}, seed {}", options.seed);
            ExitCode::SUCCESS
        }
        Err(failure) => {
            println!("{failure}");
            let first = failure.lines().next().unwrap_or_default();
            println!("crosscheck: FAILED: {first}, seed {}", options.seed);
            ExitCode::FAILURE
        }
    }
}

fn read_options() -> Option<Options> {
    let mut replay = None;
    let mut seed = None;
    let mut recordings = RECORDINGS;
    let mut arguments = std::env::args().skip(1);
    while let Some(name) = arguments.next() {
        let value = arguments.next()?;
        match name.as_str() {
            "--replay" => replay = Some(PathBuf::from(value)),
            "--seed" => seed = Some(value.parse().ok()?),
            "--recordings" => recordings = value.parse().ok()?,
            _ => return None,
        }
    }
    let seed = seed.unwrap_or_else(seed_from_clock);
    Some(Options { replay: replay?, seed, recordings })
}

fn seed_from_clock() -> u64 {
    let since = SystemTime::now().duration_since(UNIX_EPOCH);
    since.map_or(0, |time| time.as_nanos() as u64)
}

/// Runs all parts; gives what the last line says of them.
fn check(options: &Options) -> Result<String, String> {
    check_cases(&options.replay)?;
    let (recordings, replayed) = check_recordings(options)?;
    let called = check_library(options.seed)?;
    let fed = check_pieces(options)?;
    let gaps = [
        named("recordings", replayed.gaps(Run::Recordings)),
        named("library calls", called.gaps(Run::Calls)),
        named("pieces", fed.gaps()),
    ];
    if !gaps.concat().is_empty() {
        return Err(format!("not reached, or not possible\n{}", gaps.concat().join("\n")));
    }
    let calls = called.message_total() + called.offer_total() + LIBRARY_STARTS;
    let (messages, pieces) = (replayed.message_total(), fed.pieces);
    Ok(format!(
        "{recordings} recordings, {messages} messages, {calls} library calls, {pieces} pieces"
    ))
}

/// The gaps with the part that left them.
fn named(part: &str, gaps: Vec<String>) -> Vec<String> {
    gaps.iter().map(|gap| format!("{part}: {gap}")).collect()
}

/// The fixed cases: model, static library and replay program.
fn check_cases(replay: &Path) -> Result<(), String> {
    let cases = cases();
    for case in &cases {
        run_case(&Model, case).map_err(|text| format!("model: {text}"))?;
        run_case(&StaticLibrary, case).map_err(|text| format!("static library: {text}"))?;
        let (recording, expected) = recording_of(case);
        let given = run(replay, &recording, usize::MAX)
            .map_err(|error| format!("{}: {error}", replay.display()))?;
        if let Some((line, expected, given)) = first_difference(expected.as_bytes(), &given) {
            let name = &case.name;
            return Err(format!("{name}, line {line}: expected {expected}, given {given}"));
        }
    }
    println!("fixed cases: {}", cases.len());
    Ok(())
}

/// The edge recordings and then the random ones, through the replay program and the model; gives
/// how many there were and what they reached.
fn check_recordings(options: &Options) -> Result<(u64, Coverage), String> {
    let edges = edge_recordings();
    let count = edges.len() as u64 + options.recordings;
    let random = (0..options.recordings).map(|number| recording(options.seed, number));
    let mut coverage = Coverage::default();
    for (number, recording) in edges.into_iter().chain(random).enumerate() {
        let expected = coverage.count_recording(&recording);
        let piece = PIECES[number % PIECES.len()];
        let given = run(&options.replay, &recording, piece)
            .map_err(|error| format!("recording {number}: {error}"))?;
        if let Some(difference) = first_difference(&expected, &given) {
            return Err(describe(options.seed, number as u64, &recording, difference));
        }
    }
    println!(
        "recordings: {count}; not asked/asked by outcome:\n{}",
        coverage.table(Run::Recordings)
    );
    Ok((count, coverage))
}

fn describe(
    seed: u64,
    number: u64,
    recording: &[u8],
    (line, expected, given): (usize, String, String),
) -> String {
    let kept = kept(seed, number, recording);
    format!("recording {number} ({kept}), line {line}\n model   {expected}\n program {given}")
}

/// Keeps the recording; says where.
fn kept(seed: u64, number: u64, recording: &[u8]) -> String {
    match keep(recording, seed, number) {
        Ok(path) => path.display().to_string(),
        Err(error) => format!("not kept: {error}"),
    }
}

/// Calls to the static library.
fn check_library(seed: u64) -> Result<Coverage, String> {
    let mut coverage = Coverage::default();
    compare_starts(seed, LIBRARY_STARTS)?;
    compare_boards(seed, LIBRARY_BOARDS, &mut coverage)?;
    compare_messages(seed, LIBRARY_MESSAGES, &mut coverage)?;
    compare_lists(seed, LIBRARY_LISTS, &mut coverage)?;
    compare_blocks(seed, LIBRARY_BLOCKS, &mut coverage)?;
    compare_sessions(&StaticLibrary, seed, LIBRARY_SESSIONS, &mut coverage)?;
    println!("library calls, not asked/asked by outcome:\n{}", coverage.table(Run::Calls));
    Ok(coverage)
}

/// The worked sessions cut at every place, every recording whole, byte by byte and cut at random
/// places, and memories of any content, through the replay library and the model.
fn check_pieces(options: &Options) -> Result<PieceCoverage, String> {
    let seed = options.seed;
    let mut coverage = PieceCoverage::default();
    compare_worked(&ReplayLibrary, seed, &WORKED, &mut coverage)?;
    let mut fixed: Vec<_> = cases().iter().map(|case| recording_of(case).0).collect();
    fixed.extend(edge_recordings());
    let random = (0..options.recordings).map(|number| recording(seed, number));
    for (number, recording) in (0..).zip(fixed.into_iter().chain(random)) {
        compare_recording(&ReplayLibrary, (seed, number), &recording, &mut coverage).map_err(
            |text| format!("recording {number} ({}), {text}", kept(seed, number, &recording)),
        )?;
    }
    compare_contents(&ReplayLibrary, seed, LIBRARY_MEMORIES, &mut coverage)?;
    println!("pieces: {}", coverage.table());
    Ok(coverage)
}
