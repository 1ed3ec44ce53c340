//! Layers. The control system fires one in one pulse, so a layer can be fired if no position of a colour is touched
//! twice in it (02, request b).

use crate::gates::Gate;
use std::collections::BTreeSet;

/// The line `(layer GATE GATE ..)`.
pub fn layer(gates: &[Gate]) -> String {
    let spelled: Vec<String> = gates.iter().map(|gate| format!(" {gate}")).collect();
    format!("(layer{})", spelled.concat())
}

/// The lines of a circuit: `(circuit m)`, then its layers.
pub fn circuit(m: usize, layers: &[Vec<Gate>]) -> Vec<String> {
    let begun = format!("(circuit {m})");
    let layers = layers.iter().map(|gates| layer(gates));
    [begun].into_iter().chain(layers).collect()
}

/// Whether the gates touch a position twice. The same number in two colours is two positions.
pub fn touches_twice(gates: &[Gate]) -> bool {
    let mut touched = BTreeSet::new();
    let mut spots = gates.iter().flat_map(Gate::spots);
    spots.any(|spot| !touched.insert(spot))
}

/// The gates in their order, cut into layers that can be fired: a new one begins where the next gate touches a position
/// of the one before. Every gate touches at least one of 48 positions, so no layer has more than 48 gates, as many as a
/// line may have, and 48 Z gates are 508 bytes.
pub fn layers(gates: &[Gate]) -> Vec<Vec<Gate>> {
    let mut layers: Vec<Vec<Gate>> = Vec::new();
    for &gate in gates {
        match layers.last_mut().filter(|last| joins(last, gate)) {
            Some(last) => last.push(gate),
            None => layers.push(vec![gate]),
        }
    }
    layers
}

/// Those of the gates that touch no position of one before that was taken: a layer that can be fired.
pub fn disjoint(gates: &[Gate]) -> Vec<Gate> {
    let mut layer = Vec::new();
    for &gate in gates {
        if joins(&layer, gate) {
            layer.push(gate);
        }
    }
    layer
}

/// Whether a layer that can be fired still can with one more gate.
fn joins(layer: &[Gate], gate: Gate) -> bool {
    !touches_twice(&[layer, &[gate]].concat())
}
