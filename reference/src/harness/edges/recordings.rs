//! Recordings with a bad tag, a bad length or a cut at every position, with the longest and
//! shortest good fields, with every processor byte in messages of every type, and with every number
//! of waits.

use crate::harness::edges::block_recordings::block_recordings;
use crate::harness::edges::boards::board_recordings;
use crate::harness::generate::clients::client_list;
use crate::harness::generate::descriptions::{host_field, processor_field};
use crate::harness::generate::recordings::{field, header_of, message_field, status_field};
use crate::message::{Kind, KINDS, LONGEST_MESSAGE};
use crate::session::{TAGS, TAG_BLOCK, TAG_BOARD, TAG_LIST};

/// Lengths on both sides of each limit.
const LENGTHS: [usize; 19] =
    [0, 1, 2, 3, 4, 5, 256, 511, 512, 513, 516, 768, 1016, 1019, 1020, 1021, 1024, 1028, 65_535];

/// All of these recordings, always the same.
pub fn edge_recordings() -> Vec<Vec<u8>> {
    let whole = small_recording();
    let mut recordings: Vec<_> = (0..=whole.len()).map(|cut| whole[..cut].to_vec()).collect();
    for start in field_starts() {
        recordings.extend(spoiled(&whole, start));
    }
    recordings.push(processor_recording());
    recordings.push(wait_recording());
    recordings.extend(board_recordings());
    recordings.extend(block_recordings());
    recordings
}

/// Every processor byte in a message of every type, from several hosts and with several operands.
fn processor_recording() -> Vec<u8> {
    let mut recording = field(TAG_LIST, &client_list());
    recording.extend(status_field(&[u32::MAX; 255]));
    let senders = [(3, 0), (10, 1), (12, 0), (10, 4)];
    for processor in 0..=255 {
        for (kind, (host, filler)) in KINDS.iter().flat_map(|kind| senders.map(|s| (kind, s))) {
            let mut message = kind.number().to_le_bytes().to_vec();
            message.extend([host, processor, 2, 0, 0, 0, processor]);
            message.resize(LONGEST_MESSAGE, filler);
            recording.extend(message_field(host, &message));
        }
    }
    recording
}

/// Every number of waits with matches on both sides of the limits, first with no words and then
/// with enough that all match.
fn wait_recording() -> Vec<u8> {
    let around = |waits: u8| {
        let matches = [0, 1, waits.saturating_sub(1), waits, waits.saturating_add(1), 255];
        matches.map(|matches| message_field(3, &wait_message(waits, matches)))
    };
    let waits = (0..=255).flat_map(around).collect::<Vec<_>>().concat();
    let list = field(TAG_LIST, &client_list());
    [list, waits.clone(), status_field(&[1; 255]), waits].concat()
}

/// Host 3 waits on processor 1 for set-all 1.
fn wait_message(waits: u8, matches: u8) -> Vec<u8> {
    let mut message = Kind::WaitStatus.number().to_le_bytes().to_vec();
    message.extend([3, 0, 2, 0, 0, 0, 1, waits, matches, 0, 0, 1]);
    message.resize(Kind::WaitStatus.size(), 0);
    message
}

/// A recording with one small field of each kind.
fn small_recording() -> Vec<u8> {
    small_fields().concat()
}

fn small_fields() -> [Vec<u8>; 7] {
    [
        field(TAG_BOARD, &[host_field(3, 1), processor_field(1, 0, 0)].concat()),
        field(TAG_LIST, &[0xEA, 0xF1, 0x24]),
        field(TAG_BLOCK, &[0, 1, 0xEA, 0xF1]),
        status_field(&[1, 2]),
        message_field(3, &[0, 0xC0, 3, 7, 2, 0, 0, 0, 1]),
        field(TAG_LIST, &[]),
        field(TAG_BOARD, &[]),
    ]
}

/// Where each field starts, and where the recording ends.
fn field_starts() -> Vec<usize> {
    let fields = small_fields();
    (0..=fields.len()).map(|count| fields[..count].concat().len()).collect()
}

/// The recording with something else put in at `start`: bad tags, alone and with a length, and each
/// good tag with each length, with half and all of its body.
fn spoiled(whole: &[u8], start: usize) -> Vec<Vec<u8>> {
    let bad_tags = [0, 5, 7, 128, 129, 130, 131, 132, 134, 255];
    let mut pieces: Vec<_> = bad_tags.map(|tag| vec![tag]).to_vec();
    pieces.extend(bad_tags.map(|tag| header_of(tag, 0).to_vec()));
    for tag in TAGS {
        for length in LENGTHS {
            let bare = header_of(tag, length).to_vec();
            let mut full = bare.clone();
            full.resize(bare.len() + length, 3);
            pieces.push(full[..bare.len() + length / 2].to_vec());
            pieces.push(full);
        }
    }
    let insert = |piece: &Vec<u8>| [&whole[..start], piece, &whole[start..]].concat();
    pieces.iter().map(insert).collect()
}

#[cfg(test)]
mod tests {
    use super::*;
    use crate::session::lines_of;

    #[test]
    fn four_processor_bytes_are_on_the_board() {
        let text = lines_of(&processor_recording());
        let off_board = text.lines().filter(|line| line.starts_with("N6")).count();
        assert_eq!(off_board, 252 * 7 * 4);
    }

    #[test]
    fn waits_are_refused_beyond_their_limits() {
        let text = lines_of(&wait_recording());
        let count = |outcome| text.lines().filter(|line| line.starts_with(outcome)).count();
        // All six with 0 waits, four with 1, one with 255, and three with each of the others.
        let refused = 6 + 4 + 1 + 3 * 253;
        assert_eq!(count("N8"), 2 * refused);
        assert_eq!([count("R3"), count("OK")], [256 * 6 - refused; 2]);
    }

    #[test]
    fn edges_have_all_endings() {
        let endings = ["bad record\n", "cut record\n", "list A2\nboard OK\n"];
        let mut counts = [0; 3];
        for recording in edge_recordings() {
            let text = lines_of(&recording);
            for (count, ending) in counts.iter_mut().zip(endings) {
                *count += usize::from(text.ends_with(ending));
            }
        }
        assert!(counts.iter().all(|&count| count > 20), "{counts:?}");
    }
}
