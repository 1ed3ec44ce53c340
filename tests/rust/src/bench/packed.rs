//! Elimination on packed words, as the engine does it: three rows of 21 bits in a word, six words a slice, no branches, two slices
//! at a time.

use crate::table::{Rows, Table};

type Words = [u64; 6];

const ROW_BITS: usize = 21;

/// The lowest bit of each of a word's rows.
const LOWEST: u64 = 1 | 1 << ROW_BITS | 1 << (2 * ROW_BITS);

/// Stands for the lowest bit of a row that is 0. No row has it.
const NO_COLUMN: u64 = 1 << (ROW_BITS - 1);

pub struct Packed {
    m: usize,
    first: Words,
    changes: [Words; 17],
}

fn packed(rows: &Rows) -> Words {
    let mut words = [0; 6];
    for (i, &row) in rows.iter().enumerate() {
        words[i / 3] |= u64::from(row) << (ROW_BITS * (i % 3));
    }
    words
}

fn added(a: Words, b: &Words) -> Words {
    std::array::from_fn(|k| a[k] ^ b[k])
}

fn row(words: &Words, i: usize) -> u64 {
    words[i / 3] >> (ROW_BITS * (i % 3)) & ((1 << ROW_BITS) - 1)
}

/// Row i is added to every row that has its lowest bit, itself included; that bit's column is marked.
#[inline(always)]
fn pivot(words: &mut Words, columns: &mut u64, i: usize) {
    let x = row(words, i);
    let column = (x | NO_COLUMN).trailing_zeros();
    for word in words {
        // The product puts a copy of the row at each row that has the bit.
        *word ^= (*word & (LOWEST << column)) * (x >> column);
    }
    *columns |= 1 << column;
}

/// The inner sum after the pivots: 0 where column 16, the right side, has had one or something of the last row is left.
fn inner(m: usize, words: &Words, columns: u64) -> i64 {
    let last = row(words, 16);
    let vanishes = columns >> 16 & 1 == 1 || last & 0xffff != 0;
    let size = 1 << (2 * m - (columns & 0xffff).count_ones() as usize);
    let signed = if last >> 16 == 1 { -size } else { size };
    if vanishes { 0 } else { signed }
}

/// Two slices side by side: neither waits for the other. The pivots are written out, since the compiler does not unroll a loop of
/// them, and a loop takes nearly twice as long.
fn inner_both(m: usize, mut a: Words, mut b: Words) -> i64 {
    let (mut columns_a, mut columns_b) = (0, 0);
    macro_rules! pivots {
        ($($i:literal)*) => {
            $(
                pivot(&mut a, &mut columns_a, $i);
                pivot(&mut b, &mut columns_b, $i);
            )*
        };
    }
    pivots!(0 1 2 3 4 5 6 7 8 9 10 11 12 13 14 15);
    inner(m, &a, columns_a) + inner(m, &b, columns_b)
}

impl Packed {
    pub fn new(table: &Table) -> Packed {
        let mut changes = [[0; 6]; 17];
        for (packed_change, change) in changes.iter_mut().zip(&table.changes) {
            *packed_change = packed(change);
        }
        Packed {
            m: table.m,
            first: packed(&table.first),
            changes,
        }
    }

    pub fn amplitude(&self) -> i64 {
        let mut total = 0;
        let mut even = self.first;
        for pair in 1..=1u32 << (self.m - 1) {
            let odd = added(even, &self.changes[0]);
            total += inner_both(self.m, even, odd);
            even = added(odd, &self.changes[(2 * pair).trailing_zeros() as usize]);
        }
        total
    }
}
