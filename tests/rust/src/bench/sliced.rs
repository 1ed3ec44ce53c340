//! Elimination of 64 slices at once, as the engine does it: slice 64 b + l of block b in bit l of the words. A row is
//! cleared by the rows before it, in turn.

use crate::table::{Rows, Table};

/// What the number of a slice in its block has at each digit.
const DIGITS: [u64; 6] = [
    0xaaaa_aaaa_aaaa_aaaa,
    0xcccc_cccc_cccc_cccc,
    0xf0f0_f0f0_f0f0_f0f0,
    0xff00_ff00_ff00_ff00,
    0xffff_0000_ffff_0000,
    0xffff_ffff_0000_0000,
];

type Row = [u64; 16];

/// The equations of a block, and behind them the second vector.
type Matrix = [Row; 17];

/// For each entry of a slice's rows a bit for each index of the sliced colour.
type Entries = [[u32; 17]; 17];

pub struct Sliced {
    m: usize,
    entries: Entries,
}

/// What a block's systems leave of the work of one after another.
struct Work {
    rows: Matrix,
    picks: [Row; 16],
    factors: Matrix,
    pivots: Row,
    /// The bits beside the rows; that beside the second vector is the sign.
    sides: [u64; 17],
}

fn spread(bit: bool) -> u64 {
    if bit { u64::MAX } else { 0 }
}

fn odd(mut word: u32) -> bool {
    for half in [16, 8, 4, 2, 1] {
        word ^= word >> half;
    }
    word & 1 == 1
}

fn meets(row: &Row, pick: &Row) -> u64 {
    row.iter().zip(pick).fold(0, |sum, (entry, pick)| sum ^ (entry & pick))
}

impl Work {
    /// Row i is cleared by the first n rows.
    #[inline(always)]
    fn reduce(&mut self, i: usize, n: usize) {
        let (before, rest) = self.rows.split_at_mut(i);
        let row = &mut rest[0];
        for r in 0..n {
            let t = meets(row, &self.picks[r]);
            self.factors[i][r] = t;
            row.iter_mut()
                .zip(&before[r])
                .for_each(|(entry, other)| *entry ^= t & other);
        }
    }

    /// The pick of row i is its lowest column.
    fn pick(&mut self, i: usize) {
        let mut seen = 0;
        for (pick, entry) in self.picks[i].iter_mut().zip(&self.rows[i]) {
            *pick = entry & !seen;
            seen |= entry;
        }
        self.pivots[i] = seen;
    }

    fn carry(&mut self, i: usize, n: usize) {
        for r in 0..n {
            self.sides[i] ^= self.factors[i][r] & self.sides[r];
        }
    }

    /// The sum of the slices that are in the mask.
    fn total(&mut self, m: usize, mask: u64) -> i64 {
        for i in 0..m {
            self.reduce(i, i);
            self.pick(i);
            self.carry(i, i);
        }
        self.reduce(16, m);
        self.carry(16, m);
        let mut vanished = self.rows[16].iter().fold(0, |any, entry| any | entry);
        let mut ranks = [0; 17];
        ranks[0] = mask;
        for i in 0..m {
            vanished |= self.sides[i] & !self.pivots[i];
            for r in (0..=i).rev() {
                let up = ranks[r] & self.pivots[i];
                ranks[r + 1] |= up;
                ranks[r] ^= up;
            }
        }
        let weight = |left: u64| -> i64 {
            let counts = ranks[..=m].iter().map(|slices| i64::from((slices & left).count_ones()));
            counts.enumerate().map(|(rank, count)| count << (2 * m - rank)).sum()
        };
        2 * weight(!vanished & !self.sides[16]) - weight(!vanished)
    }
}

/// A bit for each index of the sliced colour.
fn gathered(indices: &[Rows], row: usize, column: usize) -> u32 {
    let bits = indices.iter().enumerate();
    bits.fold(0, |word, (index, rows)| word | (rows[row] >> column & 1) << index)
}

impl Sliced {
    pub fn new(table: &Table) -> Sliced {
        let entry = |row, column| gathered(&table.indices, row, column);
        Sliced {
            m: table.m,
            entries: std::array::from_fn(|row| std::array::from_fn(|column| entry(row, column))),
        }
    }

    /// What the low digits of the slices in a block add to an entry.
    fn low(&self, word: u32) -> u64 {
        let digits = DIGITS[..self.m.min(6)].iter().enumerate();
        digits.fold(0, |low, (q, digit)| {
            low ^ (spread(word >> (self.m - q) & 1 == 1) & digit)
        })
    }

    /// The indices that count in a block: 0, and the positions of its number's digits.
    fn high(&self, block: usize) -> u32 {
        let positions = 1..=self.m.saturating_sub(6);
        let digit = |p: usize| (block >> (self.m - 6 - p) & 1) as u32;
        positions.fold(1, |high, p| high | digit(p) << p)
    }

    pub fn amplitude(&self) -> i64 {
        let low = self.entries.map(|row| row.map(|word| self.low(word)));
        let mut work = Work {
            rows: [[0; 16]; 17],
            picks: [[0; 16]; 16],
            factors: [[0; 16]; 17],
            pivots: [0; 16],
            sides: [0; 17],
        };
        let slices: usize = 1 << self.m;
        let mask = if slices < 64 { (1 << slices) - 1 } else { u64::MAX };
        let mut total = 0;
        for block in 0..slices.div_ceil(64) {
            let high = self.high(block);
            for row in (0..self.m).chain([16]) {
                let entry = |column: usize| low[row][column] ^ spread(odd(self.entries[row][column] & high));
                work.rows[row] = std::array::from_fn(entry);
                work.sides[row] = entry(16);
            }
            total += work.total(self.m, mask);
        }
        total
    }
}
