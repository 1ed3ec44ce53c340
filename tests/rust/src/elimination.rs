//! Sums by slices for circuits that are too large for the full sum, after source document 000, equation 2.
//!
//! The polynomial is not built by the rule of document 01 for CNOT. The gates are gone through from the last to the first, with
//! every position's bit written as a sum of bits of the final string; a CCZ or CZ then is a product of such sums, and a
//! Z is one of them. Before the first gate stand the signs of the starting string, each a sum of such bits.

use crate::gates::{COLOURS, Colour, Gate, Spot, Strings, cz, spot, z};

/// One more than the number of positions of the largest circuit. Index 0 stands for "no position of this colour".
const INDICES: usize = 17;

pub struct Polynomial {
    m: usize,
    /// Bit k of word (i, j): the term of red i, blue j and green k is present.
    words: [[u32; INDICES]; INDICES],
}

fn ones(word: u32) -> impl Iterator<Item = usize> {
    (0..32).filter(move |place| word >> place & 1 == 1)
}

/// The indices of the term of some positions, one of a colour at most.
fn indices(spots: &[Spot]) -> [usize; 3] {
    let mut indices = [0; 3];
    for spot in spots {
        indices[spot.colour.number()] = spot.position;
    }
    indices
}

impl Polynomial {
    /// Started at zeros.
    pub fn of(m: usize, gates: &[Gate]) -> Polynomial {
        Polynomial::started(m, [0; 3], gates)
    }

    /// A one of the starting string turns the sign where its position's bit is 1 before the first gate (02, request e).
    pub fn started(m: usize, start: Strings, gates: &[Gate]) -> Polynomial {
        let mut polynomial = Polynomial {
            m,
            words: [[0; INDICES]; INDICES],
        };
        // At the end of the circuit every bit is that of the final string; form 0 is the constant 1.
        let mut forms = [[0u32; INDICES]; 3];
        for form in &mut forms {
            *form = std::array::from_fn(|index| 1 << index);
        }
        for gate in gates.iter().rev() {
            match *gate {
                Gate::Ccz { red, blue, green } => polynomial.add(&forms, [red, blue, green]),
                Gate::Cz(first, second) => polynomial.add(&forms, indices(&[first, second])),
                Gate::Z(turned) => polynomial.add(&forms, indices(&[turned])),
                Gate::Cnot {
                    colour,
                    control,
                    target,
                } => {
                    let colour = &mut forms[colour.number()];
                    colour[target] ^= colour[control];
                }
            }
        }
        for (colour, string) in COLOURS.into_iter().zip(start) {
            for place in ones(string) {
                polynomial.add(&forms, indices(&[spot(colour, place + 1)]));
            }
        }
        polynomial
    }

    fn add(&mut self, forms: &[[u32; INDICES]; 3], indices: [usize; 3]) {
        let [red, blue, green] = [0, 1, 2].map(|colour| forms[colour][indices[colour]]);
        for i in ones(red) {
            for j in ones(blue) {
                self.words[i][j] ^= green;
            }
        }
    }

    pub fn has(&self, indices: [usize; 3]) -> bool {
        self.words[indices[0]][indices[1]] >> indices[2] & 1 == 1
    }

    /// CCZ terms by red, blue and green position, then CZ terms red-blue, red-green and blue-green, then Z terms. What
    /// a start other than zeros has added are Z terms too: what `terms` lists are those of the gates alone.
    pub fn terms(&self) -> Vec<Gate> {
        let mut terms = Vec::new();
        for red in 1..=self.m {
            for blue in 1..=self.m {
                let greens = ones(self.words[red][blue]).filter(|&green| green > 0);
                terms.extend(greens.map(|green| Gate::Ccz { red, blue, green }));
            }
        }
        for [first, second] in [Colour::Green, Colour::Blue, Colour::Red].map(Colour::others) {
            for i in 1..=self.m {
                for j in 1..=self.m {
                    if self.has(indices(&[spot(first, i), spot(second, j)])) {
                        terms.push(cz(first, i, second, j));
                    }
                }
            }
        }
        for colour in COLOURS {
            let present = |&p: &usize| self.has(indices(&[spot(colour, p)]));
            terms.extend((1..=self.m).filter(present).map(|p| z(colour, p)));
        }
        terms
    }
}

/// A matrix with index 0: rows by one of the two colours that are not sliced, columns by the other. Column 0 is the
/// rows' vector, row 0 the columns', and their corner is the sliced colour's part of the sign.
type Matrix = [u32; INDICES];

/// The slices of one colour, at one output string.
pub struct Slices {
    m: usize,
    /// What index i of the sliced colour adds to a slice's matrix.
    parts: [Matrix; INDICES],
}

/// A slice whose inner sum is not 0.
struct Inner {
    negative: bool,
    rank: usize,
}

/// What the slices add up to.
#[derive(Default)]
pub struct Totals {
    /// S at the output string.
    pub amplitude: i64,
    /// T with the sliced colour unread; the output string's bits of that colour play no part in it.
    pub readout: u64,
    /// Slices of each rank whose inner sum is not 0.
    pub ranks: [usize; INDICES],
}

impl Slices {
    pub fn of(polynomial: &Polynomial, sliced: Colour, output: Strings) -> Slices {
        Slices::between(polynomial, sliced, sliced.others(), output)
    }

    /// The same with rows by the first and columns by the second of the given colours.
    fn between(polynomial: &Polynomial, sliced: Colour, [first, second]: [Colour; 2], output: Strings) -> Slices {
        let m = polynomial.m;
        let mut parts = [[0; INDICES]; INDICES];
        for (i, part) in parts.iter_mut().enumerate() {
            for (j, row) in part.iter_mut().enumerate() {
                for k in 0..INDICES {
                    let mut indices = [0; 3];
                    indices[sliced.number()] = i;
                    indices[first.number()] = j;
                    indices[second.number()] = k;
                    *row |= u32::from(polynomial.has(indices)) << k;
                }
            }
        }
        for p in 1..=m {
            let bit = |colour: Colour| output[colour.number()] >> (p - 1) & 1;
            parts[p][0] ^= bit(sliced);
            parts[0][p] ^= bit(first);
            parts[0][0] ^= bit(second) << p;
        }
        Slices { m, parts }
    }

    /// The parts of a slice's string added up; position 1 is the highest digit of its number.
    fn matrix(&self, number: u32) -> Matrix {
        let mut rows = self.parts[0];
        for p in 1..=self.m {
            if number >> (self.m - p) & 1 == 1 {
                rows.iter_mut().zip(&self.parts[p]).for_each(|(row, part)| *row ^= part);
            }
        }
        rows
    }

    pub fn totals(&self) -> Totals {
        let mut totals = Totals::default();
        for number in 0..1 << self.m {
            let mut matrix = self.matrix(number);
            let turned = matrix[0] & 1 == 1;
            let second = matrix[0] >> 1;
            let Some(inner) = inner(self.m, &mut matrix[1..=self.m], second) else {
                continue;
            };
            let size = 1 << (2 * self.m - inner.rank);
            totals.amplitude += if inner.negative != turned { -size } else { size };
            totals.readout += 1 << (2 * self.m - 2 * inner.rank);
            totals.ranks[inner.rank] += 1;
        }
        totals
    }

    /// The solutions of all slices' systems.
    fn solutions(&self) -> u64 {
        let solved = |number: u32| reduced(self.m, &mut self.matrix(number)[1..=self.m]);
        let of_one = |reduced: Reduced| 1 << (self.m - reduced.rank);
        (0..1 << self.m).filter_map(solved).map(of_one).sum()
    }
}

/// A system that has solutions, once no column of a pivot is in another row.
struct Reduced {
    rank: usize,
    /// Row by row the column of its pivot.
    columns: [usize; INDICES],
}

/// Reduces a system. A row has its right side in bit 0 and the coefficients of the unknowns above.
fn reduced(m: usize, rows: &mut [u32]) -> Option<Reduced> {
    let mut columns = [0; INDICES];
    let mut rank = 0;
    for column in 1..=m {
        let Some(found) = (rank..m).find(|&row| rows[row] >> column & 1 == 1) else {
            continue;
        };
        rows.swap(rank, found);
        for row in 0..m {
            if row != rank && rows[row] >> column & 1 == 1 {
                rows[row] ^= rows[rank];
            }
        }
        columns[rank] = column;
        rank += 1;
    }
    // No solution: a row without unknowns whose right side is 1.
    let solvable = rows[rank..].iter().all(|&row| row == 0);
    solvable.then_some(Reduced { rank, columns })
}

/// The inner sum of a slice.
fn inner(m: usize, rows: &mut [u32], second: u32) -> Option<Inner> {
    let Reduced { rank, columns } = reduced(m, rows)?;
    // Outside the row space: something is left of the second vector once the rows are taken off.
    let mut rest = second;
    let mut solution = 0;
    for (row, column) in rows[..rank].iter().zip(columns) {
        if rest >> (column - 1) & 1 == 1 {
            rest ^= row >> 1;
        }
        solution |= (row & 1) << (column - 1);
    }
    (rest == 0).then_some(Inner {
        negative: (second & solution).count_ones() % 2 == 1,
        rank,
    })
}

/// What the slices on a colour add up to.
pub fn totals(polynomial: &Polynomial, sliced: Colour, output: Strings) -> Totals {
    Slices::of(polynomial, sliced, output).totals()
}

/// The count N of a string of the one colour that is read, with slices on one of the other two. A slice is a system
/// with a row for each position of the read colour and the third colour's bits as unknowns; its solutions are the
/// settings whose form is zero once the string is added.
pub fn one_colour(polynomial: &Polynomial, read: Colour, sliced: Colour, string: u32) -> u64 {
    let mut output = [0; 3];
    output[read.number()] = string;
    Slices::between(polynomial, sliced, [read, read.third(sliced)], output).solutions()
}
