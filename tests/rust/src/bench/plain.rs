//! Elimination row by row, with a test at every row.

use crate::table::{Rows, Table, added};

pub struct Plain {
    table: Table,
}

/// The inner sum of a slice.
fn inner(m: usize, mut rows: Rows) -> i64 {
    let mut rank = 0;
    for i in 0..m {
        let row = rows[i];
        if row == 0 {
            continue;
        }
        let column = row.trailing_zeros();
        if column == 16 {
            return 0;
        }
        for later in &mut rows[i + 1..] {
            if *later >> column & 1 == 1 {
                *later ^= row;
            }
        }
        rank += 1;
    }
    match rows[16] {
        0 => 1 << (2 * m - rank),
        0x10000 => -(1 << (2 * m - rank)),
        _ => 0,
    }
}

impl Plain {
    pub fn new(table: Table) -> Plain {
        Plain { table }
    }

    pub fn amplitude(&self) -> i64 {
        let m = self.table.m;
        let mut rows = self.table.first;
        let mut total = 0;
        for next in 1..=1 << m {
            total += inner(m, rows);
            rows = added(rows, self.table.change(next));
        }
        total
    }
}
