//! Memory to lend to a call: filled with a pattern, with a margin on both sides, and looked over afterwards.
use crate::dice::Dice;
use crate::library::Facts;
use std::fmt::Debug;

const MARGIN: usize = 8;

/// Entries that memory is filled with.
pub trait Filling: Copy + PartialEq + Debug {
    fn from_bits(bits: u64) -> Self;
}

impl Filling for u8 {
    fn from_bits(bits: u64) -> u8 {
        bits as u8
    }
}

impl Filling for u16 {
    fn from_bits(bits: u64) -> u16 {
        bits as u16
    }
}

impl Filling for u32 {
    fn from_bits(bits: u64) -> u32 {
        bits as u32
    }
}

impl Filling for Facts {
    fn from_bits(bits: u64) -> Facts {
        Facts { bits }
    }
}

/// A stretch of memory to lend.
pub struct Lent<T> {
    held: Vec<T>,
    before: Vec<T>,
}

impl<T: Filling> Lent<T> {
    pub fn new(len: usize, dice: &mut Dice) -> Lent<T> {
        let (first, step) = (dice.number(), dice.number() | 1);
        let filling = |i: usize| T::from_bits(first.wrapping_add(step.wrapping_mul(i as u64)));
        let before: Vec<T> = (0..len + 2 * MARGIN).map(filling).collect();
        Lent { held: before.clone(), before }
    }

    /// What is lent.
    pub fn space(&mut self) -> &mut [T] {
        let end = self.held.len() - MARGIN;
        &mut self.held[MARGIN..end]
    }

    /// Says where the memory is not as it was before with `front` written at its front.
    pub fn differs_from(&self, front: &[T]) -> Option<String> {
        let mut wanted = self.before.clone();
        wanted[MARGIN..MARGIN + front.len()].copy_from_slice(front);
        let at = wanted.iter().zip(&self.held).position(|(one, other)| one != other)?;
        let place = at as isize - MARGIN as isize;
        Some(format!("at {place}: wanted {:?}, found {:?}", wanted[at], self.held[at]))
    }
}
