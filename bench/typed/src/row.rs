//! Sets of nodes by their ranks, as the bits of four words.

const BITS: usize = 64;

/// A set of ranks below 256.
#[derive(Clone, Copy, PartialEq, Eq)]
pub struct Row([u64; 4]);

impl Row {
    /// The empty set.
    pub const EMPTY: Row = Row([0; 4]);

    /// Returns whether a rank is in the set.
    #[inline]
    pub fn contains(&self, rank: usize) -> bool {
        self.0[rank / BITS] >> (rank % BITS) & 1 == 1
    }

    /// Adds a rank to the set if `is_in` is true, and removes it otherwise.
    #[inline]
    pub fn set(&mut self, rank: usize, is_in: bool) {
        let bit = 1 << (rank % BITS);
        if is_in {
            self.0[rank / BITS] |= bit;
        } else {
            self.0[rank / BITS] &= !bit;
        }
    }

    /// Returns the intersection of two sets.
    #[inline]
    pub fn and(self, other: Row) -> Row {
        let (a, b) = (self.0, other.0);
        Row([a[0] & b[0], a[1] & b[1], a[2] & b[2], a[3] & b[3]])
    }

    /// Returns the ranks that are in this set and not in the other.
    #[inline]
    pub fn minus(self, other: Row) -> Row {
        let (a, b) = (self.0, other.0);
        Row([a[0] & !b[0], a[1] & !b[1], a[2] & !b[2], a[3] & !b[3]])
    }

    /// Returns the set of all ranks greater than this one.
    #[inline]
    pub fn above(rank: usize) -> Row {
        let mut row = Row::EMPTY;
        for (index, word) in row.0.iter_mut().enumerate() {
            if index == rank / BITS {
                *word = (!0 << (rank % BITS)) << 1;
            } else if index > rank / BITS {
                *word = !0;
            }
        }
        row
    }

    /// Returns whether the set is empty.
    #[inline]
    pub fn is_empty(&self) -> bool {
        *self == Row::EMPTY
    }

    /// Returns the greatest rank in the set.
    #[inline]
    pub fn greatest(&self) -> Option<usize> {
        let index = (0..4).rev().find(|&index| self.0[index] != 0)?;
        Some(index * BITS + BITS - 1 - self.0[index].leading_zeros() as usize)
    }

    /// Calls a function with each rank in the set, in rising order.
    #[inline]
    pub fn for_each(self, mut call: impl FnMut(usize)) {
        for (index, word) in self.0.iter().enumerate() {
            let mut left = *word;
            while left != 0 {
                call(index * BITS + left.trailing_zeros() as usize);
                left &= left - 1;
            }
        }
    }
}
