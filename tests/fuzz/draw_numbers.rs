// Numbers and words that are right, nearly right, or wrong in a way that a narrow word or a shift would not tell.
use crate::memory::{Lent, Word};
use crate::rng::Rng;

// some number other than `near`, for the most part
pub fn odd(rng: &mut Rng, near: usize) -> usize {
    let beside = rng.below(3).wrapping_sub(1);
    match rng.below(10) {
        0 => 0,
        1 => near.wrapping_sub(1),
        2 | 3 => near.wrapping_add(1),
        4 | 5 => near.wrapping_add(1 << rng.below(64)),
        6 => beside.wrapping_add(1 << rng.pick(&[8, 16, 31, 32, 63])),
        7 => usize::MAX - rng.below(3),
        8 => rng.below(40),
        _ => rng.word() as usize,
    }
}

pub fn mostly(rng: &mut Rng, right: usize, percent_odd: usize) -> usize {
    if rng.chance(percent_odd) {
        odd(rng, right)
    } else {
        right
    }
}

// zeros, ones, any words, or mostly zeros
pub fn fill<T: Word>(rng: &mut Rng, len: usize) -> Vec<T> {
    let habit = rng.below(4);
    let mut word = || match habit {
        0 => 0,
        1 => u64::MAX,
        2 => rng.word(),
        _ => [0, rng.word()][usize::from(rng.chance(8))],
    };
    (0..len).map(|_| T::of(word())).collect()
}

// lends `want`, a few times in a hundred cut short, made longer or made vast
pub fn lend<T: Word>(rng: &mut Rng, slice: &mut Lent<T>, percent_odd: usize) {
    if rng.chance(percent_odd) {
        let len = slice.want.len();
        let other = match rng.below(6) {
            0 => 0,
            1 => len.saturating_sub(1),
            2 => rng.below(2 * len + 2),
            3 if slice.lend_vast(len + (1 << 32)) => return,
            4 if slice.lend_vast((1 << 32) + rng.below(3)) => return,
            _ => len + 1,
        };
        slice.want.resize(other, T::of(rng.word()));
    }
    slice.lend(rng);
}
