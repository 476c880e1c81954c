//! Buffers as a caller lends them: guard cells stand on both sides, and every cell starts with a
//! made value, so that a cell written beyond the promise shows.

use crate::made::Generator;
use std::fmt::UpperHex;

const GUARD: usize = 16;

/// A number that buffers hold.
pub trait Cell: Copy + PartialEq + UpperHex {
    fn made(bits: u64) -> Self;
}

impl Cell for u8 {
    fn made(bits: u64) -> u8 {
        bits as u8
    }
}

impl Cell for u16 {
    fn made(bits: u64) -> u16 {
        bits as u16
    }
}

pub struct Lent<T> {
    cells: Vec<T>,
    entry: Vec<T>,
}

impl<T: Cell> Lent<T> {
    /// A buffer of `length` cells with made contents.
    pub fn new(length: usize, generator: &mut Generator) -> Lent<T> {
        let (start, step) = (generator.bits(), generator.bits() | 1);
        let cells: Vec<T> = (0..(length + 2 * GUARD) as u64)
            .map(|at| T::made(start.wrapping_add(step.wrapping_mul(at))))
            .collect();
        let entry = cells.clone();
        Lent { cells, entry }
    }

    /// The cells to lend.
    pub fn cells(&mut self) -> &mut [T] {
        let end = self.cells.len() - GUARD;
        &mut self.cells[GUARD..end]
    }

    /// What the lent cells held at the start.
    pub fn entry(&self) -> &[T] {
        &self.entry[GUARD..self.entry.len() - GUARD]
    }

    /// That the lent cells hold what is expected, and the guard cells what they held at the start.
    pub fn holds(&self, name: &str, expected: &[T]) -> Result<(), String> {
        let mut whole = self.entry.clone();
        let end = whole.len() - GUARD;
        whole[GUARD..end].copy_from_slice(expected);
        match (0..whole.len()).find(|&at| self.cells[at] != whole[at]) {
            None => Ok(()),
            Some(at) => Err(format!(
                "{name}[{}] is {:X}, not {:X}",
                at as isize - GUARD as isize,
                self.cells[at],
                whole[at]
            )),
        }
    }

    /// That nothing was changed.
    pub fn untouched(&self, name: &str) -> Result<(), String> {
        self.holds(name, self.entry())
    }
}
