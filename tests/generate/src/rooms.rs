//! Slices to lend: of a length at, under or over the need, with garbage in them.

use crate::chance::Chance;

/// One less than the need, or anything up to the need itself.
pub fn short(chance: &mut Chance, need: usize, most: usize) -> usize {
    let length = match chance.below(3) {
        0 => chance.below(need + 1),
        _ => need.saturating_sub(1),
    };
    length.min(most)
}

/// Enough room, sometimes with some to spare.
pub fn enough(chance: &mut Chance, need: usize, most: usize) -> usize {
    let spare = if chance.once_in(2) { 0 } else { chance.below(50) };
    (need + spare).min(most)
}

/// So many elements of whatever was there before: zeros, ones or noise.
pub fn garbage<T>(chance: &mut Chance, length: usize, narrow: impl Fn(u64) -> T) -> Vec<T> {
    let style = chance.below(4);
    let mut element = || match style {
        0 => 0,
        1 => u64::MAX,
        _ => chance.word(),
    };
    (0..length).map(|_| narrow(element())).collect()
}
