//! Guards around what is lent to the other implementation, which must keep their values.

/// Words or bytes on each side.
pub const GUARD: usize = 5;

/// The content with guards before and behind it. They put bytes at an odd address.
pub fn guarded<T: Copy>(content: &[T], guard: T) -> Vec<T> {
    let guards = [guard; GUARD];
    [&guards, content, &guards].concat()
}

/// What lies between the guards, to be lent.
pub fn between_guards<T>(guarded: &mut [T]) -> &mut [T] {
    let end = guarded.len() - GUARD;
    &mut guarded[GUARD..end]
}

/// A memory that lies between the guards, to be lent.
pub fn lent_part<T, const N: usize>(guarded: &mut [T]) -> &mut [T; N] {
    between_guards(guarded).first_chunk_mut().expect("the content lies between guards")
}

/// What lies between the guards.
pub fn inside<T>(guarded: &[T]) -> &[T] {
    &guarded[GUARD..guarded.len() - GUARD]
}

/// Whether the guards have their values still.
pub fn has_guards<T: PartialEq>(guarded: &[T], guard: T) -> bool {
    let behind = &guarded[guarded.len() - GUARD..];
    guarded[..GUARD].iter().chain(behind).all(|value| *value == guard)
}

#[cfg(test)]
mod tests {
    use super::*;

    #[test]
    fn changed_guards_are_seen() {
        let whole = guarded(&[1, 2], 9);
        assert_eq!(inside(&whole), [1, 2]);
        assert!(has_guards(&whole, 9));
        for place in 0..whole.len() {
            let mut changed = whole.clone();
            changed[place] = 7;
            assert_eq!(has_guards(&changed, 9), inside(&whole) != inside(&changed), "{place}");
        }
    }
}
