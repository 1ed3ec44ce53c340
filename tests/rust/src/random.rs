//! Random numbers, gates and strings from a seed (SplitMix64).

use crate::gates::{COLOURS, Colour, Gate, Strings, cnot, cz, z};
use crate::layers::disjoint;

pub struct Random(u64);

impl Random {
    pub fn new(seed: u64) -> Random {
        Random(seed)
    }

    pub fn draw(&mut self) -> u64 {
        self.0 = self.0.wrapping_add(0x9e37_79b9_7f4a_7c15);
        let mut z = self.0;
        z = (z ^ (z >> 30)).wrapping_mul(0xbf58_476d_1ce4_e5b9);
        z = (z ^ (z >> 27)).wrapping_mul(0x94d0_49bb_1331_11eb);
        z ^ (z >> 31)
    }

    pub fn below(&mut self, bound: usize) -> usize {
        (self.draw() % bound as u64) as usize
    }

    /// True once in `times`.
    pub fn once_in(&mut self, times: usize) -> bool {
        self.below(times) == 0
    }

    pub fn pick<T: Copy>(&mut self, choices: &[T]) -> T {
        choices[self.below(choices.len())]
    }

    pub fn position(&mut self, m: usize) -> usize {
        1 + self.below(m)
    }

    pub fn colour(&mut self) -> Colour {
        self.pick(&COLOURS)
    }

    pub fn string(&mut self, m: usize) -> u32 {
        self.draw() as u32 & ((1 << m) - 1)
    }

    pub fn strings(&mut self, m: usize) -> Strings {
        [0; 3].map(|_| self.string(m))
    }

    pub fn cz(&mut self, m: usize) -> Gate {
        let first = self.colour();
        let second = self.pick(&first.others());
        cz(first, self.position(m), second, self.position(m))
    }

    /// The gate, a CZ with its colours in either order.
    pub fn either_way(&mut self, gate: Gate) -> Gate {
        if self.once_in(2) { gate.turned() } else { gate }
    }

    pub fn ccz(&mut self, m: usize) -> Gate {
        Gate::Ccz {
            red: self.position(m),
            blue: self.position(m),
            green: self.position(m),
        }
    }

    /// Control and target differ, so m is at least 2.
    pub fn cnot(&mut self, m: usize) -> Gate {
        let control = self.position(m);
        let target = 1 + (control + self.below(m - 1)) % m;
        cnot(self.colour(), control, target)
    }

    pub fn z(&mut self, m: usize) -> Gate {
        z(self.colour(), self.position(m))
    }

    /// A gate of two or three positions. A program from before request f of document 02 takes it too.
    pub fn entangling(&mut self, m: usize) -> Gate {
        match self.below(8) {
            0..=2 => self.cz(m),
            3..=4 if m > 1 => self.cnot(m),
            _ => self.ccz(m),
        }
    }

    /// Every fifth is a Z.
    pub fn gate(&mut self, m: usize) -> Gate {
        match self.once_in(5) {
            true => self.z(m),
            false => self.entangling(m),
        }
    }

    pub fn gates(&mut self, m: usize, count: usize) -> Vec<Gate> {
        (0..count).map(|_| self.gate(m)).collect()
    }

    /// A layer that can be fired, of what fits of so many gates.
    pub fn layer(&mut self, m: usize, count: usize) -> Vec<Gate> {
        disjoint(&self.gates(m, count))
    }

    /// The same things in any order.
    pub fn shuffled<T: Clone>(&mut self, things: &[T]) -> Vec<T> {
        let mut things = things.to_vec();
        for place in (1..things.len()).rev() {
            things.swap(place, self.below(place + 1));
        }
        things
    }
}
