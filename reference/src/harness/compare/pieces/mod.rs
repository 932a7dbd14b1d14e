//! Recordings in pieces: another replay beside the model, over whole recordings, byte by byte and
//! cut at random places, with outputs of any length, and over memories of any content.

mod beside;
mod contents;
mod memories;
mod output;
#[cfg(test)]
mod spoiled;

pub use contents::compare_contents;

use crate::harness::compare::calls::same;
use crate::harness::coverage::PieceCoverage;
use crate::harness::edges::worked::Worked;
use crate::harness::generate::cuts::{any_cuts, any_room, pieces};
use crate::harness::generate::random::Random;
use crate::harness::generate::streams::noise;
use crate::harness::situations::PieceWatch;
use crate::session::{write_line, Session, State};
use crate::stream::lent::Lent;
use crate::stream::LINE_BYTES;
use beside::Beside;

/// The calls of a replay over lent memories, whoever carries them out.
pub trait Replays {
    /// Starts a session, whatever the memories hold.
    fn start(&self, lent: Lent);

    /// Feeds a piece; gives the number of the status.
    fn feed(&self, lent: Lent, piece: &[u8], out: &mut [u8]) -> u32;

    /// Announces the end; gives the number of the status.
    fn end(&self, lent: Lent, out: &mut [u8]) -> u32;
}

/// A list that every board judges: whoever carries it out prints a line.
const BEHIND_THE_END: [u8; 3] = [1, 0, 0];

/// What a recording prints and leaves as a whole.
struct Whole {
    lines: Vec<u8>,
    state: State,
}

impl Whole {
    fn new(recording: &[u8]) -> Whole {
        let (mut session, mut lines) = (Session::new(recording), Vec::new());
        // Reading from memory and writing to it do not fail.
        while let Ok(Some(event)) = session.next_event() {
            let _ = write_line(&mut lines, &event);
        }
        Whole { lines, state: session.state }
    }

    /// The length of an output that all lines fit in, whatever stands in it before the last.
    fn roomy(&self) -> usize {
        self.lines.len() + LINE_BYTES
    }
}

/// Feeds a recording whole, byte by byte and cut at random places. As a whole it is fed with an
/// output for all its lines or, every other time, with outputs of any length, as the others are.
pub fn compare_recording(
    replays: &impl Replays,
    (seed, number): (u64, u64),
    recording: &[u8],
    coverage: &mut PieceCoverage,
) -> Result<(), String> {
    let mut random = Random::new(seed ^ 0x5069_6563, number);
    let whole = Whole::new(recording);
    let watch = || Some(PieceWatch::default());
    let roomy = (number % 2 == 0).then_some(whole.roomy());
    let mut run = Run { replays, whole: &whole, random: &mut random, roomy, coverage };
    run.compare([recording].into_iter(), watch()).map_err(|text| format!("whole, {text}"))?;
    run.roomy = None;
    run.compare(recording.chunks(1), None).map_err(|text| format!("byte by byte, {text}"))?;
    let cuts = any_cuts(run.random, recording);
    run.compare(pieces(recording, &cuts), watch())
        .map_err(|text| format!("cut into {} pieces, {text}", cuts.len()))
}

/// Feeds the worked sessions cut in two at every place. They have to print the lines beside them.
pub fn compare_worked(
    replays: &impl Replays,
    seed: u64,
    worked: &[Worked],
    coverage: &mut PieceCoverage,
) -> Result<(), String> {
    let mut random = Random::new(seed ^ 0x576F_726B, 0);
    for Worked { name, recording, lines } in worked {
        let whole = Whole::new(recording);
        same(name, &String::from_utf8_lossy(lines), &String::from_utf8_lossy(&whole.lines))?;
        for cut in 0..=recording.len() {
            let roomy = (cut % 2 == 0).then_some(whole.roomy());
            let mut run = Run { replays, whole: &whole, random: &mut random, roomy, coverage };
            let (one, other) = recording.split_at(cut);
            run.compare([one, other].into_iter(), None)
                .map_err(|text| format!("worked session {name} cut at {cut}, {text}"))?;
        }
    }
    Ok(())
}

/// One recording that is fed to both in some way.
struct Run<'a, R> {
    replays: &'a R,
    whole: &'a Whole,
    random: &'a mut Random,
    /// the length of every output; none for any
    roomy: Option<usize>,
    coverage: &'a mut PieceCoverage,
}

impl<R: Replays> Run<'_, R> {
    /// Feeds these pieces, announces the end, and feeds and announces once more. All that is printed
    /// and left has to be what the whole recording prints and leaves.
    fn compare<'p>(
        &mut self,
        pieces: impl Iterator<Item = &'p [u8]>,
        watch: Option<PieceWatch>,
    ) -> Result<(), String> {
        let Run { replays, whole, random, roomy, coverage } = self;
        coverage.runs += 1;
        let mut beside = Beside::start(*replays, &noise(random), watch, coverage)?;
        let mut room = || roomy.unwrap_or_else(|| any_room(random));
        let mut at = 0;
        for piece in pieces {
            beside.feed(piece, &mut room).map_err(|text| format!("piece at {at}: {text}"))?;
            at += piece.len();
        }
        beside.end(&mut room).map_err(|text| format!("end: {text}"))?;
        let behind = |text| format!("behind the end: {text}");
        beside.feed(&BEHIND_THE_END, &mut room).map_err(behind)?;
        beside.end(&mut room).map_err(behind)?;
        let [expected, given] = [&whole.lines, &beside.lines].map(|l| String::from_utf8_lossy(l));
        same("what is printed in all", &expected, &given)?;
        beside.check_end(&whole.state)
    }
}
