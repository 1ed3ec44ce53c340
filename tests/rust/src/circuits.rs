//! Circuits that the examples, the checks and the benchmark are made of.

use crate::gates::{COLOURS, Colour, Gate, cnot, cz, z};
use crate::random::Random;

/// Position p of every colour as one block (001, section I.B): a gate list for each block, as one layer.
pub fn in_blocks(m: usize, gate: impl Fn(usize) -> Gate) -> Vec<Gate> {
    (1..=m).map(gate).collect()
}

pub fn block_ccz(block: usize) -> Gate {
    Gate::Ccz {
        red: block,
        blue: block,
        green: block,
    }
}

/// The CNOT layer along one direction of the cube: the blocks whose number less 1 has an even number of ones are the
/// controls, their neighbours the targets.
fn along(direction: usize, m: usize) -> Vec<Gate> {
    let controls = (0..m).filter(|vertex| vertex.count_ones() % 2 == 0);
    let beside = |vertex: usize| vertex ^ 1 << direction;
    let cnots = |vertex: usize| COLOURS.map(|colour| cnot(colour, vertex + 1, beside(vertex) + 1));
    controls.flat_map(cnots).collect()
}

/// The circuit of source document 001 on 2^k blocks of three: k + 1 stages of CCZ, CZ and Z inside the blocks, a CNOT
/// layer along one direction of the cube between two of them. Its text does not say which CZ and Z a stage has. Here
/// every block has a CZ on two colours, all pairs in turn, and a Z on the third: they touch each position once and are
/// fired in one layer.
pub fn hypercube(k: usize) -> Vec<Vec<Gate>> {
    let m = 1 << k;
    let mut layers = Vec::new();
    for stage in 0..=k {
        let alone = COLOURS[stage % 3];
        let [first, second] = alone.others();
        layers.push(in_blocks(m, block_ccz));
        let pairs = in_blocks(m, |block| cz(first, block, second, block));
        let singles = in_blocks(m, |block| z(alone, block));
        layers.push([pairs, singles].concat());
        if stage < k {
            layers.push(along(stage, m));
        }
    }
    layers
}

/// A circuit whose slices on red all have rank m: the matrix of blue and green has ones on its diagonal, whatever the red string is,
/// and red changes only what stands above it.
pub fn full_rank(m: usize, seed: u64) -> Vec<Vec<Gate>> {
    let mut random = Random::new(seed);
    let mut layers = vec![in_blocks(m, |p| cz(Colour::Blue, p, Colour::Green, p))];
    for shift in 1..m {
        // Blue p stands beside green p + shift, so the entry is above the diagonal.
        let above = |p: usize, red: usize| Gate::Ccz {
            red,
            blue: p,
            green: p + shift,
        };
        let turn = random.below(m);
        layers.push((1..=m - shift).map(|p| above(p, 1 + (p + turn) % m)).collect());
    }
    layers.push(in_blocks(m, |p| cz(Colour::Red, p, Colour::Blue, 1 + p % m)));
    layers.push(in_blocks(m, |p| cz(Colour::Red, p, Colour::Green, 1 + (p + 1) % m)));
    layers
}

/// A layer that touches every position once, by gates that touch two: each CNOT and each CZ on four blocks. m is a
/// multiple of 4; at 16 there are 24 gates, and no layer without Z that can be fired has more.
pub fn every_position(m: usize) -> Vec<Gate> {
    let [red, blue, green] = COLOURS;
    let on_four = |p: usize| {
        [
            cnot(red, p, p + 1),
            cz(red, p + 2, blue, p + 2),
            cnot(blue, p + 1, p),
            cz(green, p + 2, red, p + 3),
            cnot(green, p, p + 1),
            cz(blue, p + 3, green, p + 3),
        ]
    };
    (1..=m).step_by(4).flat_map(on_four).collect()
}

/// A layer that touches every position once, by a Z on each, colour after colour: at m = 16 there are 48 gates, and no
/// layer has more.
pub fn every_z(m: usize) -> Vec<Gate> {
    let on_all = |colour: Colour| in_blocks(m, |p| z(colour, p));
    COLOURS.into_iter().flat_map(on_all).collect()
}

/// A circuit whose phase polynomial has every term there is, 4,912 of them at m = 16: one product of each kind on
/// position 1, then every position 1 replaced by the sum of all positions of its colour.
pub fn every_term(m: usize) -> Vec<Gate> {
    let products = COLOURS.map(|colour| {
        let [first, second] = colour.others();
        cz(first, 1, second, 1)
    });
    let added = |control: usize| COLOURS.map(|colour| cnot(colour, control, 1));
    let mut gates = vec![block_ccz(1)];
    gates.extend(products);
    gates.extend(COLOURS.map(|colour| z(colour, 1)));
    gates.extend((2..=m).flat_map(added));
    gates
}
