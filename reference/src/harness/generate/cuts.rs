//! Cuts recordings into pieces: anywhere, into pieces of one size, and near the borders of fields.

use crate::harness::generate::random::Random;
use crate::stream::{Front, HEADER_BYTES, LINE_BYTES};

/// Sizes of pieces worth trying besides random ones: those around the longest field among them.
const SIZES: [usize; 9] = [2, 3, 7, 64, 512, 1022, 1023, 1024, 4096];

/// The most bytes of an output that is drawn.
const MOST_ROOM: usize = 300;

/// Where the pieces of a recording end, in rising order. The last one ends with the recording. An
/// end that comes twice makes an empty piece.
pub fn any_cuts(random: &mut Random, recording: &[u8]) -> Vec<usize> {
    let length = recording.len();
    let mut cuts = match random.below(4) {
        0 => anywhere(random, length),
        1 => one_size(random, length),
        _ => near_borders(random, recording),
    };
    cuts.push(length);
    for _ in 0..random.pick(&[0, 0, 1, 3]) {
        let cut = random.pick(&cuts);
        cuts.push(random.pick(&[0, cut, cut]));
    }
    cuts.sort_unstable();
    cuts
}

/// The pieces that end there.
pub fn pieces<'a>(recording: &'a [u8], cuts: &'a [usize]) -> impl Iterator<Item = &'a [u8]> {
    let starts = [0].iter().chain(cuts);
    starts.zip(cuts).map(|(&start, &end)| &recording[start..end])
}

/// A few places.
fn anywhere(random: &mut Random, length: usize) -> Vec<usize> {
    let count = random.between(0, 6);
    (0..count).map(|_| random.between(0, length)).collect()
}

/// Places at the same distance from each other.
fn one_size(random: &mut Random, length: usize) -> Vec<usize> {
    let size = random.pick_or(&SIZES, |random| random.between(2, 300));
    (size..length).step_by(size).collect()
}

/// Places around the tag, the length and the end of fields, and now and then within a body. Of some
/// recordings few fields are cut, of others each.
fn near_borders(random: &mut Random, recording: &[u8]) -> Vec<usize> {
    let every = random.pick(&[1, 1, 2, 6, 20]);
    let mut cuts = anywhere(random, recording.len());
    for (start, end) in fields(recording) {
        if !random.one_in(every) {
            continue;
        }
        for _ in 0..random.between(1, 3) {
            let last = end.saturating_sub(1).max(start);
            let within = random.between(start, end);
            let near = [start, start + 1, start + 2, start + HEADER_BYTES, last, last, end, within];
            cuts.push(random.pick(&near).min(recording.len()));
        }
    }
    cuts
}

/// Where each whole field starts and ends. The last one is what stands behind them, which is bad or
/// cut off, if there is anything.
fn fields(recording: &[u8]) -> Vec<(usize, usize)> {
    let (mut fields, mut start) = (Vec::new(), 0);
    while let Front::Whole { body, .. } = Front::of(&recording[start..]) {
        let end = start + HEADER_BYTES + body.len();
        fields.push((start, end));
        start = end;
    }
    if start < recording.len() {
        fields.push((start, recording.len()));
    }
    fields
}

/// The length of an output: mostly room for some lines, now and then just enough for one, a byte
/// less, or none.
pub fn any_room(random: &mut Random) -> usize {
    match random.below(12) {
        0 => random.pick_or(&[0, LINE_BYTES - 1, LINE_BYTES - 1], |r| r.below(LINE_BYTES)),
        1 => LINE_BYTES,
        _ => random.between(LINE_BYTES, MOST_ROOM),
    }
}

#[cfg(test)]
mod tests {
    use super::*;
    use crate::harness::generate::recordings::{recording, status_field};

    #[test]
    fn pieces_are_the_recording() {
        let mut random = Random::new(41, 0);
        for number in 0..200 {
            let recording = recording(41, number);
            let cuts = any_cuts(&mut random, &recording);
            let joined: Vec<u8> = pieces(&recording, &cuts).flatten().copied().collect();
            assert_eq!(joined, recording);
        }
        assert_eq!(pieces(&[], &any_cuts(&mut random, &[])).flatten().count(), 0);
    }

    #[test]
    fn fields_are_found_up_to_a_bad_one() {
        let status = status_field(&[7]);
        assert_eq!(fields(&[]), []);
        assert_eq!(fields(&[status.clone(), status.clone()].concat()), [(0, 7), (7, 14)]);
        assert_eq!(fields(&[status.clone(), vec![9, 9]].concat()), [(0, 7), (7, 9)]);
        assert_eq!(fields(&status[..6]), [(0, 6)]);
    }

    #[test]
    fn rooms_are_on_both_sides_of_a_line() {
        let mut random = Random::new(42, 0);
        let rooms: Vec<_> = (0..2000).map(|_| any_room(&mut random)).collect();
        let limits = [0, 95, 96, 97, MOST_ROOM];
        assert!(limits.iter().all(|room| rooms.contains(room)));
        assert!(rooms.iter().all(|&room| room <= MOST_ROOM));
    }
}
