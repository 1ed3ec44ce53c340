//! Layers that touch all 48 positions once, of 24 gates up to 48: no gate fits beside one.

use crate::Checks;
use crate::refusals::model_agrees;
use waitfield_checks::circuits::{block_ccz, every_position, every_z, in_blocks};
use waitfield_checks::gates::{COLOURS, Gate, cnot};
use waitfield_checks::layers::layer;
use waitfield_checks::script::Script;

/// A layer with one gate more, of each kind and on every position in turn.
fn with_each(script: &mut Script, gates: &[Gate], answer: &str) {
    let cnots = |p: usize| COLOURS.map(|colour| cnot(colour, p, 1 + p % 16));
    let more = (1..=16).flat_map(cnots).chain(in_blocks(16, block_ccz));
    for gate in more.chain(every_z(16)) {
        script.say(layer(&[gates, &[gate]].concat()), answer);
    }
}

/// 24 gates of two positions each, and each of them turned round.
fn two_positions_each(script: &mut Script) {
    let gates = every_position(16);
    script.case("24 gates on all 48 positions");
    script.say("(circuit 16)", "(ok)");
    script.say(layer(&gates), "(ok)");
    script.case("25 gates");
    with_each(script, &gates, "(no 14)");
    script.case("24 gates, each turned round");
    for (place, &gate) in gates.iter().enumerate() {
        let mut turned = gates.clone();
        turned[place] = match gate {
            Gate::Cnot {
                colour,
                control,
                target,
            } => cnot(colour, target, control),
            _ => gate.turned(),
        };
        script.say(layer(&turned), "(ok)");
        script.say("(undo 24)", "(ok)");
    }
    script.say("(undo 25)", "(no 12)");
    script.say("(undo 24)", "(ok)");
}

/// The same gates split one after another into a Z on each of their positions: with every one there is a gate more.
fn split(script: &mut Script) {
    let gates = every_position(16);
    script.case("24 to 48 gates");
    for count in 0..=gates.len() {
        let (split, whole) = gates.split_at(count);
        let singles: Vec<Gate> = split.iter().flat_map(Gate::spots).map(Gate::Z).collect();
        script.say(layer(&[&singles, whole].concat()), "(ok)");
        script.say(format!("(undo {})", gates.len() + count), "(ok)");
    }
}

/// A Z on every position. With one left out, that one can be put behind the others, and no other can.
fn one_position_each(script: &mut Script) {
    let gates = every_z(16);
    script.case("48 Z and a gate more");
    with_each(script, &gates, "(no 9)");
    script.case("47 Z and one more");
    for (place, &free) in gates.iter().enumerate() {
        let others = [&gates[..place], &gates[place + 1..]].concat();
        script.say(layer(&[&others[..], &[free]].concat()), "(ok)");
        script.say("(undo 48)", "(ok)");
        let taken = others[place % others.len()];
        script.say(layer(&[&others[..], &[taken]].concat()), "(no 14)");
    }
    script.say("(undo 1)", "(no 12)");
}

pub fn check(checks: &mut Checks) {
    let mut script = Script::default();
    two_positions_each(&mut script);
    split(&mut script);
    one_position_each(&mut script);
    checks.run(&script);
    model_agrees(checks, &script, "24 to 49 gates");
}
