//! Memories of a replay of any content, and pieces to feed to them.

use crate::harness::generate::blocks::any_block;
use crate::harness::generate::descriptions::any_description;
use crate::harness::generate::drafts::{draft, Scene, LONGEST_RECORDED};
use crate::harness::generate::goals::{pick_goal, Goal};
use crate::harness::generate::lists::any_list;
use crate::harness::generate::memories::{any_access, any_board, any_records};
use crate::harness::generate::random::Random;
use crate::harness::generate::recordings::{field, message_field, status_field};
use crate::harness::Run;
use crate::session::{
    State, LONGEST_BLOCK, LONGEST_BOARD, LONGEST_LIST, RECORDED_ABI, TAG_BLOCK, TAG_BOARD, TAG_LIST,
};
use crate::stream::lent::{Content, StreamMemory, STATUS_WORDS};
use crate::stream::{Front, CARRY_BYTES};

/// The longest piece of mere noise.
const LONGEST_NOISE: usize = 1200;

/// Memories of mere noise.
pub fn noise(random: &mut Random) -> Content {
    Content {
        board: std::array::from_fn(|_| random.u8()),
        access: std::array::from_fn(|_| random.u16()),
        records: std::array::from_fn(|_| random.u32()),
        words: std::array::from_fn(|_| random.u32()),
        carry: std::array::from_fn(|_| random.u8()),
        stream: std::array::from_fn(|_| random.u32()),
    }
}

/// A replay of any content, and what may be fed to it: bytes that go on where the carry ends, which
/// mostly holds a field that is not whole, or mere noise.
pub fn any_replay(random: &mut Random, goals: &[Goal]) -> (Content, Vec<u8>) {
    let board = any_board(random).board;
    let access = any_access(random, &board);
    let records = any_records(random, &board);
    let mut content = Content { board: board.0, access, records, ..noise(random) };
    let state = State { board, access, records, status: content.words.to_vec() };
    let mut fields: Vec<u8> =
        (0..random.between(1, 6)).flat_map(|_| any_field(random, goals, &state)).collect();
    let mut held = any_cut(random, &fields).min(CARRY_BYTES);
    if random.one_in(8) {
        // A field that fills the carry: more bytes than these count as all.
        fields.splice(..0, status_field(&random.words(STATUS_WORDS)));
        held = CARRY_BYTES;
    }
    if !random.one_in(6) {
        content.carry[..held].copy_from_slice(&fields[..held]);
    }
    content.stream = any_stream(random, held);
    let bytes =
        if random.one_in(8) { random.noise(LONGEST_NOISE) } else { fields[held..].to_vec() };
    (content, bytes)
}

/// Where the carry ends: mostly within the first field.
fn any_cut(random: &mut Random, fields: &[u8]) -> usize {
    match Front::of(fields) {
        Front::Whole { body, .. } if !random.one_in(5) => {
            let last = body.len() + 2;
            random.pick_or(&[0, 1, 2, 3, last], |random| random.between(0, last)).min(last)
        }
        _ => random.between(0, fields.len()),
    }
}

/// The words of a stream: mostly so many bytes carried and not over, sometimes any numbers. A full
/// carry is mostly said to hold more.
fn any_stream(random: &mut Random, held: usize) -> StreamMemory {
    let large = [1022, 1023, 1024, 0xFFFF, 0x1_0000, 0x8000_0000, u32::MAX];
    let any = random.one_in(if held == CARRY_BYTES { 1 } else { 8 });
    let held = if any { random.pick_or(&large, Random::u32) } else { held as u32 };
    let most = STATUS_WORDS as u32;
    let few = random.below(STATUS_WORDS) as u32;
    let standing = random.pick_or(&[0, 1, few, few, most, most + 1, u32::MAX], Random::u32);
    let over = random.pick_or(&[1, 2, 0x100, 0x8000_0000], Random::u32);
    [held, standing, if random.one_in(8) { over } else { 0 }]
}

/// A field of any tag, as the state may meet it.
fn any_field(random: &mut Random, goals: &[Goal], state: &State) -> Vec<u8> {
    match random.below(8) {
        0 => field(TAG_LIST, &any_list(random, &state.board, LONGEST_LIST)),
        1 => field(TAG_BLOCK, &any_block(random, &state.board, RECORDED_ABI, LONGEST_BLOCK)),
        2 => field(TAG_BOARD, &any_description(random, 8, LONGEST_BOARD)),
        3 => {
            let most = random.between(0, STATUS_WORDS);
            let count = random.pick(&[0, 1, STATUS_WORDS, most]);
            status_field(&random.words(count))
        }
        4 => message_field(random.u8(), &random.noise(LONGEST_RECORDED)),
        _ => any_message(random, goals, state),
    }
}

/// A message toward a goal, with its status words before it where it needs others.
fn any_message(random: &mut Random, goals: &[Goal], state: &State) -> Vec<u8> {
    let State { records, status, .. } = state;
    let setup = state.setup();
    let scene = Scene { setup, records, status, focus: &[], most_words: STATUS_WORDS };
    let goal = pick_goal(random, goals, &state.access, Run::Recordings);
    let draft = draft(random, &scene, goal);
    let words = draft.status.map(|words| status_field(&words)).unwrap_or_default();
    [words, message_field(draft.channel, &draft.message)].concat()
}

#[cfg(test)]
mod tests {
    use super::*;
    use crate::harness::generate::goals::goals;

    /// Whatever the carry can hold is met often, and numbers above the limits as well.
    #[test]
    fn replays_are_of_every_kind() {
        let (goals, mut kinds) = (goals(), [0; 7]);
        for number in 0..600 {
            let (content, _) = any_replay(&mut Random::new(61, number), &goals);
            let Content { carry, stream: [held, standing, over], .. } = content;
            let held = held as usize;
            let kind = match Front::of(&carry[..held.min(CARRY_BYTES)]) {
                Front::Nothing => 0,
                Front::Open => 1,
                Front::Bad => 2,
                Front::Whole { .. } => 3,
            };
            kinds[kind] += 1;
            kinds[4] += u32::from(held > CARRY_BYTES && kind == 3);
            kinds[5] += u32::from(standing as usize > STATUS_WORDS);
            kinds[6] += u32::from(over > 1);
        }
        assert!(kinds.iter().all(|&count| count > 20), "{kinds:?}");
    }
}
