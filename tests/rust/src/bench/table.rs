//! What the kernels work on: the rows of a slice, and what changes from one slice to the next.

use waitfield_checks::elimination::Polynomial;
use waitfield_checks::gates::{Colour, Strings};

/// Rows 0 to 15 are those of the slice's matrix: bits 0 to 15 the coefficients, bit 16 the right side. Row 16 is the second vector
/// with the sign in its bit 16.
pub type Rows = [u32; 17];

pub struct Table {
    pub m: usize,
    /// The rows of slice 0.
    pub first: Rows,
    /// What is added to the rows where the lowest digits up to this one change.
    pub changes: Vec<Rows>,
    /// What each index of the sliced colour adds, from 0 on.
    pub indices: Vec<Rows>,
}

pub fn added(a: Rows, b: &Rows) -> Rows {
    std::array::from_fn(|row| a[row] ^ b[row])
}

impl Table {
    pub fn of(m: usize, polynomial: &Polynomial, sliced: Colour, output: Strings) -> Table {
        let indices: Vec<Rows> = (0..=m)
            .map(|index| rows(m, polynomial, sliced, output, index))
            .collect();
        let mut changes = Vec::new();
        let mut sum = [0; 17];
        for rows in indices[1..].iter().rev() {
            sum = added(sum, rows);
            changes.push(sum);
        }
        let first = indices[0];
        Table {
            m,
            first,
            changes,
            indices,
        }
    }

    /// The digits that change on the way to the slice of this number.
    pub fn change(&self, number: u32) -> &Rows {
        &self.changes[(number.trailing_zeros() as usize).min(self.m - 1)]
    }
}

/// What one index of the sliced colour adds to a slice; index 0 is in every slice.
fn rows(m: usize, polynomial: &Polynomial, sliced: Colour, output: Strings, index: usize) -> Rows {
    let [first, second] = sliced.others();
    let bit = |colour: Colour, p: usize| output[colour.number()] >> (p - 1) & 1 == 1;
    let present = |j: usize, k: usize| {
        let mut indices = [0; 3];
        indices[sliced.number()] = index;
        indices[first.number()] = j;
        indices[second.number()] = k;
        polynomial.has(indices)
    };
    let mut rows = [0; 17];
    for p in 1..=m {
        for k in 1..=m {
            rows[p - 1] |= u32::from(present(p, k)) << (k - 1);
        }
        rows[p - 1] |= u32::from(present(p, 0) ^ (index == 0 && bit(first, p))) << 16;
        rows[16] |= u32::from(present(0, p) ^ (index == 0 && bit(second, p))) << (p - 1);
    }
    rows[16] |= u32::from(index > 0 && present(0, 0) ^ bit(sliced, index)) << 16;
    rows
}
