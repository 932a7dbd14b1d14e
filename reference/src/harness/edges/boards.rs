//! Descriptions and recordings of them that are always the same: each fault at each position, cuts
//! at every byte, the limits, and every number.

use crate::board::MOST_HOSTS;
use crate::description::Description;
use crate::harness::generate::clients::client_list;
use crate::harness::generate::descriptions::{
    first_fields, full_fields, host_field, processor_field, spoil, Field, MARK, NUMBER,
};
use crate::harness::generate::lists::{entry, list_of};
use crate::harness::generate::recordings::{field, message_field, status_field};
use crate::message::Kind;
use crate::session::{LONGEST_BOARD, TAG_BOARD, TAG_LIST};

/// Bytes of a field before its body.
const HEADER: usize = 3;

/// Lengths that no recording can say, some of them small in their lowest two bytes.
const LONG: [usize; 4] = [513, 65_535, 65_536, 65_541];

/// Descriptions that one recording holds.
const OFFERS: usize = 60;

/// All of these descriptions as recordings. Each recording starts with a good one, and its end
/// shows which board is left. A description that is too long for a recording is left out.
pub fn board_recordings() -> Vec<Vec<u8>> {
    let mut offers: Vec<_> = edge_descriptions();
    offers.retain(|offer| offer.len() <= LONGEST_BOARD);
    let mut recordings = vec![nothing_recording()];
    for some in offers.chunks(OFFERS) {
        let refused = |offer: &&Vec<u8>| Description::read(offer).is_err();
        recordings.push(recording_of(&first_fields().concat(), some.iter().filter(refused)));
        recordings.push(recording_of(&full_fields().concat(), some.iter()));
    }
    recordings
}

/// A good description, then others, and then the list of the first board and a request and a look
/// for every processor byte, with a description behind the list as well.
fn recording_of<'a>(good: &[u8], others: impl Iterator<Item = &'a Vec<u8>>) -> Vec<u8> {
    let mut recording = field(TAG_BOARD, good);
    others.for_each(|other| recording.extend(field(TAG_BOARD, other)));
    recording.extend(field(TAG_LIST, &client_list()));
    recording.extend(field(TAG_LIST, &list_of(&[])));
    recording.extend(field(TAG_BOARD, good));
    recording.extend(status_field(&[0x13]));
    for processor in 0..=255 {
        recording.extend(asked(Kind::Request, 3, processor));
        recording.extend(asked(Kind::GetStatus, 10, processor));
    }
    recording
}

/// The empty description, under which no list with a used entry is taken and nobody may send.
fn nothing_recording() -> Vec<u8> {
    let mut recording = field(TAG_BOARD, &[]);
    for processor in 1..=255 {
        recording.extend(field(TAG_LIST, &list_of(&[entry(processor, [3, 0, 0, 0])])));
    }
    recording.extend(field(TAG_LIST, &list_of(&[])));
    (0..=255).for_each(|host| recording.extend(asked(Kind::Request, host, 1)));
    recording
}

/// A message that asks for an answer.
pub fn asked(kind: Kind, host: u8, processor: u8) -> Vec<u8> {
    let [low, high] = kind.number().to_le_bytes();
    message_field(host, &[low, high, host, processor, 2, 0, 0, 0, processor])
}

/// Always the same descriptions: each fault at each position, cuts at every byte, the limits, and
/// every number, mark, class and lone tag.
pub fn edge_descriptions() -> Vec<Vec<u8>> {
    let mut descriptions = Vec::new();
    for fields in [first_fields(), mixed_fields()] {
        descriptions.extend(cuts(&fields.concat()));
        descriptions.extend(faults_at_each_position(&fields));
    }
    descriptions.extend(cuts(&full_fields().concat()));
    descriptions.extend(limits());
    descriptions.extend(LONG.map(padded));
    for byte in 0..=255 {
        descriptions.push([host_field(byte, 0), processor_field(byte, 1, byte)].concat());
        descriptions.extend([host_field(9, byte), processor_field(9, byte, 9), vec![byte]]);
    }
    descriptions
}

/// A board of one host with zeros behind it, which no tag is.
fn padded(length: usize) -> Vec<u8> {
    let mut description = host_field(3, 1);
    description.resize(length, 0);
    description
}

/// Hosts and processors by turns, with clusters of both classes.
fn mixed_fields() -> Vec<Field> {
    vec![
        processor_field(255, 1, 7),
        host_field(255, 1),
        processor_field(1, 0, 9),
        host_field(1, 0),
        processor_field(7, 1, 7),
        processor_field(8, 0, 9),
        host_field(200, 1),
        processor_field(9, 1, 7),
    ]
}

/// The description cut at every byte.
fn cuts(description: &[u8]) -> impl Iterator<Item = Vec<u8>> + '_ {
    (0..=description.len()).map(|cut| description[..cut].to_vec())
}

/// Each fault in each field, alone and with a bad tag in the last field.
fn faults_at_each_position(fields: &[Field]) -> Vec<Vec<u8>> {
    let mut descriptions = Vec::new();
    for place in 0..fields.len() {
        for spoiled in spoiled_forms(fields, place) {
            let mut faulty = fields.to_vec();
            faulty[place] = spoiled;
            descriptions.push(faulty.concat());
            // A bad tag in the last field must not win over a fault before it.
            *faulty.last_mut().expect("there are fields") = vec![9];
            descriptions.push(faulty.concat());
        }
    }
    descriptions
}

/// The field with each fault, and with faults that are tested later beside it.
fn spoiled_forms(fields: &[Field], place: usize) -> Vec<Field> {
    let field = &fields[place];
    let with = |changes: &[(usize, u8)]| {
        let mut spoiled = field.clone();
        changes.iter().for_each(|&(at, byte)| spoil(&mut spoiled, at, byte));
        spoiled
    };
    let mut forms = vec![
        with(&[(0, 0)]),
        with(&[(0, 3)]),
        with(&[(0, 3 - field[0])]),
        with(&[(1, 0)]),
        with(&[(1, field[1] - 1)]),
        with(&[(1, field[1] + 1)]),
        with(&[(2, 1)]),
        with(&[(NUMBER, 0)]),
        with(&[(NUMBER, 0), (MARK, 2)]),
        with(&[(MARK, 2)]),
        with(&[(MARK, 255)]),
        with(&[(MARK, 1 - field[MARK])]),
        field[..HEADER].to_vec(),
        Vec::new(),
    ];
    for earlier in &fields[..place] {
        forms.push(with(&[(NUMBER, earlier[NUMBER])]));
        forms.push(with(&[(NUMBER, earlier[NUMBER]), (MARK, 2)]));
        // Only a processor has a byte here, its cluster.
        forms.push(with(&[(MARK + 1, *earlier.last().expect("a field has bytes"))]));
    }
    forms
}

/// The limits, and one more of each kind with each fault that is tested before D6.
fn limits() -> Vec<Vec<u8>> {
    let full = full_fields();
    let (hosts, processors) = full.split_at(MOST_HOSTS);
    let more = [
        host_field(99, 0),
        host_field(0, 0),
        host_field(100, 0),
        host_field(99, 2),
        processor_field(99, 1, 0),
        processor_field(0, 1, 0),
        processor_field(200, 1, 0),
        processor_field(99, 2, 0),
        processor_field(99, 0, 1),
    ];
    let mut limits = vec![hosts.concat(), processors.concat(), full.concat()];
    for field in more {
        limits.push([hosts.concat(), field.clone()].concat());
        limits.push([processors.concat(), field.clone()].concat());
        limits.push([full.concat(), field].concat());
    }
    limits
}

#[cfg(test)]
mod tests {
    use super::*;
    use crate::description::BOARD_FAULTS;

    #[test]
    fn edges_reach_each_verdict_often() {
        let mut counts = [0; BOARD_FAULTS.len()];
        for description in edge_descriptions() {
            let verdict = Description::read(&description).map(|_| ());
            let place = |fault| BOARD_FAULTS.iter().position(|f| *f == fault).unwrap();
            counts[verdict.map_or_else(place, |()| 0)] += 1;
        }
        assert!(counts.iter().all(|&count| count > 3), "{counts:?}");
    }
}
