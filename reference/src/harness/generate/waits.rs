//! Makes waits and the status words that they run over: runs that end early, exactly at the last
//! check, just too late, or never.

use crate::harness::generate::random::Random;
use crate::wait::Wait;

/// Tries to find a word that matches, or does not, before any word is taken.
const TRIES: usize = 12;

/// Whether the word at a place matches, given the place, the waits and the matches.
type Shape = fn(&mut Random, usize, usize, usize) -> bool;

/// How the matching words lie among the checks.
const SHAPES: [Shape; 8] = [
    |_, _, _, _| false,
    |_, _, _, _| true,
    |random, _, _, _| random.one_in(2),
    // one word short of a run, again and again
    |_, at, _, matches| at % matches != matches - 1,
    // a run that ends at the last check
    |_, at, waits, matches| at + matches >= waits,
    // a run that would end one check too late
    |_, at, waits, matches| at + matches > waits,
    // a broken run, then a long one
    |_, at, _, matches| at >= matches && at != 2 * matches,
    // every word but one in the middle of the checks
    |_, at, waits, _| at != waits / 2,
];

/// A wait with right operands, often with as many matches as waits.
pub fn good_wait(random: &mut Random) -> Wait {
    let waits =
        random.pick_or(&[1, 2, 3, 5, 10, 40, 64, 128, 255], |random| random.between(1, 255));
    let matches = match random.below(6) {
        0 | 1 => random.between(1, waits.min(3)),
        2 | 3 => waits,
        _ => random.between(1, waits),
    };
    let [set_all, set_any, clear_all, clear_any] = good_masks(random);
    Wait {
        waits: waits as u8,
        matches: matches as u8,
        delay_per_check: random.pick_or(&[0, 1, 2, 255], Random::u8),
        delay_before: random.pick_or(&[0, 1, 255], Random::u8),
        set_all,
        set_any,
        clear_all,
        clear_any,
    }
}

/// A wait with at least one wrong operand.
pub fn faulty_wait(random: &mut Random) -> Wait {
    let wait = good_wait(random);
    match random.below(8) {
        0 => Wait { waits: 0, ..wait },
        1 => Wait { matches: 0, ..wait },
        2 => Wait { set_all: 0, set_any: 0, clear_all: 0, clear_any: 0, ..wait },
        3 => Wait { waits: 0, matches: 0, ..wait },
        _ => with_matches_above_waits(random, wait),
    }
}

/// The wait with matches above its waits, by one or by far. Waits of 255 become 254, as no matches
/// are above 255.
fn with_matches_above_waits(random: &mut Random, wait: Wait) -> Wait {
    let waits = wait.waits.min(254);
    let any = random.between(usize::from(waits) + 1, 255) as u8;
    Wait { waits, matches: random.pick(&[waits + 1, waits + 1, any, 255]), ..wait }
}

/// Words in one of the shapes, `count` of them.
pub fn words_for(random: &mut Random, wait: &Wait, count: usize) -> Vec<u32> {
    let shape = random.pick(&SHAPES);
    let (waits, matches) = (usize::from(wait.waits), usize::from(wait.matches).max(1));
    (0..count)
        .map(|at| {
            let matching = shape(random, at, waits, matches);
            word_for(random, wait, matching)
        })
        .collect()
}

/// Masks of which at least one is not zero. Half of the time one bit of one mask.
fn good_masks(random: &mut Random) -> [u32; 4] {
    let mut masks = [0; 4];
    if random.one_in(2) {
        masks[random.below(4)] = random.bit();
        return masks;
    }
    for mask in &mut masks {
        *mask = random.pick_or(&[0, 0, 0x3, 0x10], Random::sparse);
    }
    // The same bit asked to be 1 and 0 lets no word match, so that is kept rare.
    if !random.one_in(8) {
        masks[2] &= !masks[0];
    }
    if masks == [0; 4] {
        masks[1] = 1;
    }
    masks
}

/// A word that matches or not, as far as a few tries find one.
fn word_for(random: &mut Random, wait: &Wait, matching: bool) -> u32 {
    let mut word = 0;
    for _ in 0..TRIES {
        let wanted = wait.set_all | (wait.set_any & !wait.clear_all);
        word = match random.below(3) {
            0 => (random.u32() | wait.set_all) & !wait.clear_all,
            1 if matching => wanted,
            _ => wanted ^ random.bit(),
        };
        if wait.is_match(word) == matching {
            break;
        }
    }
    word
}

#[cfg(test)]
mod tests {
    use super::*;

    #[test]
    fn waits_are_good_or_faulty_as_asked() {
        let mut random = Random::new(4, 0);
        for _ in 0..500 {
            assert!(good_wait(&mut random).is_valid());
            assert!(!faulty_wait(&mut random).is_valid());
        }
    }

    /// How many of a thousand waits have numbers that pass the test.
    fn pairs(make: fn(&mut Random) -> Wait, test: impl Fn(u8, u8) -> bool) -> usize {
        let mut random = Random::new(14, 0);
        let made = (0..1000).map(|_| make(&mut random));
        made.filter(|wait| test(wait.waits, wait.matches)).count()
    }

    #[test]
    fn good_waits_often_have_equal_numbers() {
        assert!(pairs(good_wait, |waits, matches| waits == matches) > 300);
        assert!(pairs(good_wait, |waits, matches| (waits, matches) == (1, 1)) > 50);
        assert!(pairs(good_wait, |waits, matches| (waits, matches) == (255, 255)) > 10);
    }

    #[test]
    fn faulty_waits_often_have_matches_above_waits() {
        let above = |by: fn(u8, u8) -> bool| {
            pairs(faulty_wait, move |waits, matches| {
                waits > 0 && waits < matches && by(waits, matches)
            })
        };
        assert!(above(|_, _| true) > 300);
        assert!(above(|waits, matches| matches - waits == 1) > 150);
        assert!(above(|waits, matches| matches == 255 && waits < 100) > 50);
        assert!(above(|waits, _| waits == 254) > 10);
    }

    #[test]
    fn words_end_some_waits_and_not_others() {
        let mut random = Random::new(5, 0);
        let mut ended = [0; 2];
        for _ in 0..500 {
            let wait = good_wait(&mut random);
            let words = words_for(&mut random, &wait, 255);
            ended[usize::from(wait.checks_to_first_run(&words).is_some())] += 1;
        }
        assert!(ended[0] > 50 && ended[1] > 50, "{ended:?}");
    }
}
