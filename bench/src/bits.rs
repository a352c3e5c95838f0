//! Sets of numbers below 128, each in one number.

pub const MOST: usize = 128;

/// A set of states, of components or of classes.
pub type Bits = u128;

/// The set of one number each: a table is cheaper than a shift of 128 bits.
pub static ONE: [Bits; MOST] = {
    let mut one = [0; MOST];
    let mut i = 0;
    while i < MOST {
        one[i] = 1 << i;
        i += 1;
    }
    one
};

/// The lowest number of a set that is not empty.
#[inline(always)]
pub fn lowest(set: Bits) -> usize {
    set.trailing_zeros() as usize % MOST
}

/// Whether a set has more than one number.
#[inline(always)]
pub fn several(set: Bits) -> bool {
    set & set.wrapping_sub(1) != 0
}

/// The numbers of a set, rising.
#[inline(always)]
pub fn each(mut set: Bits) -> impl Iterator<Item = usize> {
    std::iter::from_fn(move || {
        if set == 0 {
            return None;
        }
        let number = lowest(set);
        set &= set.wrapping_sub(1);
        Some(number)
    })
}
