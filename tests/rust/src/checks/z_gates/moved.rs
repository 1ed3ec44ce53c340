//! One circuit with its Z gates where they stand and moved: the same sums, or those of other strings.

use super::{flushed, on_ones, shift, without_z};
use crate::Checks;
use crate::starts::every_way::{ended, ended_at, opened_at};
use crate::starts::{given, with_cnots};
use waitfield_checks::gates::{Gate, Strings, added};
use waitfield_checks::layers::{self, layers};
use waitfield_checks::model::Circuit;
use waitfield_checks::random::Random;

/// The sizes of the circuits, with their gates: room is left in the history for a Z on every position.
const SIZES: [(usize, usize); 6] = [(2, 12), (3, 20), (4, 30), (7, 100), (11, 300), (16, 3000)];

/// Random gates, most of them Z and CNOT.
fn gates(random: &mut Random, m: usize, count: usize) -> Vec<Gate> {
    let mut gates = with_cnots(random, m, count);
    for gate in &mut gates {
        if random.once_in(4) {
            *gate = random.z(m);
        }
    }
    gates
}

/// The circuit in other ways, and the strings to ask for in place of the given ones.
fn ways(circuit: &Circuit, outputs: [Strings; 2]) -> Vec<(&'static str, Vec<String>, [Strings; 2])> {
    let Circuit { m, gates, start } = circuit;
    let with = |start: Strings, gates: Vec<Gate>| given(&Circuit { m: *m, gates, start }, 0);
    let shifted = |by: Strings| outputs.map(|output| added(output, by));
    let others = without_z(gates);
    let at_the_end = flushed(gates);
    let in_front = on_ones(*start);
    let fired: Vec<String> = layers::circuit(*m, &layers(&[&in_front[..], gates].concat()));
    vec![
        ("as they stand", with(*start, gates.clone()), outputs),
        (
            "left out, their bits turned",
            with(*start, others.clone()),
            shifted(at_the_end),
        ),
        (
            "left out and no start",
            with([0; 3], others.clone()),
            shifted(shift(*start, gates)),
        ),
        (
            "at the end",
            with(*start, [others.clone(), on_ones(at_the_end)].concat()),
            outputs,
        ),
        (
            "in front in place of the start",
            with([0; 3], [&in_front[..], gates].concat()),
            outputs,
        ),
        ("in layers in place of the start", fired, outputs),
        (
            "at the end in place of the start",
            with([0; 3], [others, on_ones(shift(*start, gates))].concat()),
            outputs,
        ),
    ]
}

pub fn check(checks: &mut Checks, random: &mut Random, seed: u64) {
    for (m, count) in SIZES {
        let start = random.strings(m);
        let gates = gates(random, m, count);
        let circuit = Circuit { m, gates, start };
        let outputs = [shift(start, &circuit.gates), random.strings(m)];
        let expected = ended_at(&circuit, &outputs);
        for (name, lines, outputs) in ways(&circuit, outputs) {
            let found = ended(&checks.program, &lines, &opened_at(m, &outputs));
            let name = format!("Z gates {name}, seed {seed}, m = {m}");
            checks.tally.equal(&name, found, Ok(expected.clone()));
        }
    }
}
