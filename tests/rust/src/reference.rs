//! The signed sum S of documents 01 and 02: every one of the 2^n basis strings gets its sign from the starting string
//! and is then carried through the gates as source document 000 describes them. Nothing is known here of phase
//! polynomials, slices or elimination, nor of what a start comes to at the end of the gates.

use crate::gates::{COLOURS, Colour, Gate, Spot, Strings, cz, z};

/// The sum over all basis strings of a circuit of m positions; meant for m up to 4, at most 6.
pub struct FullSum {
    m: usize,
    /// At x the signs of the strings that end as x, added up.
    signs: Vec<i64>,
}

/// A basis string in one word: position p of colour c is bit c m + p - 1.
pub fn joined(m: usize, strings: Strings) -> u32 {
    strings[0] | strings[1] << m | strings[2] << (2 * m)
}

/// Whether two strings share an odd number of ones.
fn share_odd(a: u32, b: u32) -> bool {
    (a & b).count_ones() % 2 == 1
}

/// The string that `y` ends as, and whether its sign is turned then, if it is or is not before the first gate.
fn carry(m: usize, gates: &[Gate], y: u32, mut turned: bool) -> (u32, bool) {
    let mut x = y;
    for gate in gates {
        let one = |colour: Colour, position: usize| x >> (colour.number() * m + position - 1) & 1;
        let at = |spot: Spot| one(spot.colour, spot.position);
        match *gate {
            Gate::Ccz { red, blue, green } => {
                let all = [(Colour::Red, red), (Colour::Blue, blue), (Colour::Green, green)];
                turned ^= all.iter().all(|&(colour, position)| one(colour, position) == 1);
            }
            Gate::Cz(first, second) => turned ^= at(first) == 1 && at(second) == 1,
            Gate::Cnot {
                colour,
                control,
                target,
            } => x ^= one(colour, control) << (colour.number() * m + target - 1),
            Gate::Z(spot) => turned ^= at(spot) == 1,
        }
    }
    (x, turned)
}

impl FullSum {
    /// Started at zeros, which turn no sign.
    pub fn of(m: usize, gates: &[Gate]) -> FullSum {
        FullSum::started(m, [0; 3], gates)
    }

    /// "A starting string t gives each basis string y a sign before the first gate, turned where t and y share an odd
    /// number of ones" (02, request e).
    pub fn started(m: usize, start: Strings, gates: &[Gate]) -> FullSum {
        let t = joined(m, start);
        let mut signs = vec![0; 1 << (3 * m)];
        for y in 0..1 << (3 * m) {
            let (x, turned) = carry(m, gates, y, share_odd(t, y));
            signs[x as usize] += if turned { -1 } else { 1 };
        }
        FullSum { m, signs }
    }

    /// S at an output string.
    pub fn amplitude(&self, output: Strings) -> i64 {
        let s = joined(self.m, output);
        let signed = |(x, &sign): (u32, &i64)| if share_odd(s, x) { -sign } else { sign };
        (0..).zip(&self.signs).map(signed).sum()
    }

    /// The readout count T by squares: 2^(3m) T is the sum of S^2 over the strings of the unread colour.
    /// None if that sum is no multiple of 2^(3m).
    pub fn readout(&self, unread: Colour, read: [u32; 2]) -> Option<u64> {
        let [first, second] = unread.others();
        let mut output = [0; 3];
        output[first.number()] = read[0];
        output[second.number()] = read[1];
        let mut squares = 0u128;
        for string in 0..1 << self.m {
            output[unread.number()] = string;
            squares += u128::from(self.amplitude(output).unsigned_abs()).pow(2);
        }
        let unit = 1 << (3 * self.m);
        squares.is_multiple_of(unit).then_some((squares / unit) as u64)
    }

    /// S at every output string, its colours joined in one word. One place of the string after another is decided: a 0
    /// there adds the strings with a 1 in that place to those with a 0, a 1 takes them off.
    pub fn amplitudes(&self) -> Vec<i64> {
        let mut sums = self.signs.clone();
        for place in 0..3 * self.m {
            for x in (0..sums.len()).filter(|x| x >> place & 1 == 0) {
                let (zero, one) = (sums[x], sums[x | 1 << place]);
                sums[x] = zero + one;
                sums[x | 1 << place] = zero - one;
            }
        }
        sums
    }

    /// The counts N with one colour read, for each of its strings X, by squares: 2^(4m) N is the sum of S^2 over the
    /// strings with X on that colour. None if such a sum is no multiple of 2^(4m).
    pub fn one_colour(&self, read: Colour) -> Option<Vec<u64>> {
        let mut squares = vec![0u128; 1 << self.m];
        for (s, amplitude) in self.amplitudes().into_iter().enumerate() {
            squares[self.string_of(read, s)] += u128::from(amplitude.unsigned_abs()).pow(2);
        }
        let unit = 1 << (4 * self.m);
        let count = |sum: u128| sum.is_multiple_of(unit).then_some((sum / unit) as u64);
        squares.into_iter().map(count).collect()
    }

    /// The same by the words of document 02: each setting of the two unread colours leaves a form in the bits of the
    /// third, with a 1 where that bit alone turns the sign.
    pub fn one_colour_by_forms(&self, read: Colour) -> Vec<u64> {
        let mut counts = vec![0; 1 << self.m];
        let settings = (0..self.signs.len()).filter(|&x| self.string_of(read, x) == 0);
        for setting in settings {
            let beside = |place: usize| setting | 1 << (read.number() * self.m + place);
            let turns = |place: usize| self.signs[setting] != self.signs[beside(place)];
            let form: usize = (0..self.m).map(|place| usize::from(turns(place)) << place).sum();
            counts[form] += 1;
        }
        counts
    }

    /// A colour's string in a word of all three.
    fn string_of(&self, colour: Colour, joined: usize) -> usize {
        joined >> (colour.number() * self.m) & ((1 << self.m) - 1)
    }

    /// The terms of the phase polynomial, read off the signs: the polynomial whose value at x is 1 where the sign at x
    /// is turned. None if it has a term that documents 01 and 02 do not know. The signs of a start other than zeros
    /// come in as terms of one position: what `terms` lists are those of the gates alone.
    pub fn terms(&self) -> Option<Vec<Gate>> {
        let mut coefficients: Vec<bool> = self.signs.iter().map(|&sign| sign < 0).collect();
        for place in 0..3 * self.m {
            for x in 0..coefficients.len() {
                if x >> place & 1 == 1 {
                    coefficients[x] ^= coefficients[x ^ 1 << place];
                }
            }
        }
        let present = (0..coefficients.len()).filter(|&x| coefficients[x]);
        present.map(|monomial| self.term(monomial)).collect()
    }

    /// A product of bits as a `ccz`, `cz` or `z`.
    fn term(&self, monomial: usize) -> Option<Gate> {
        let places = (0..3 * self.m).filter(|place| monomial >> place & 1 == 1);
        let spots: Vec<(usize, usize)> = places.map(|p| (p / self.m, p % self.m + 1)).collect();
        match spots[..] {
            [(0, red), (1, blue), (2, green)] => Some(Gate::Ccz { red, blue, green }),
            [(a, i), (b, j)] if a != b => Some(cz(COLOURS[a], i, COLOURS[b], j)),
            [(a, i)] => Some(z(COLOURS[a], i)),
            _ => None,
        }
    }
}
