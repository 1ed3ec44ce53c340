//! Layers. One that touches a position of a colour twice is turned back whole, by 14; one that is taken leaves the same
//! terms and the same sums for every order of its gates. How 14 stands beside the other numbers is among the refusals.

mod all_positions;

use crate::Checks;
use crate::circuits::in_layers;
use crate::refusals::model_agrees;
use crate::starts::{start_line, started};
use crate::z_gates::shift;
use std::collections::BTreeSet;
use waitfield_checks::circuits::{block_ccz, every_position, every_z, in_blocks};
use waitfield_checks::elimination::Polynomial;
use waitfield_checks::gates::{COLOURS, Colour, Gate, Spot, cnot, cz, spelled};
use waitfield_checks::layers::layer;
use waitfield_checks::model::{Circuit, HISTORY, listing};
use waitfield_checks::random::Random;
use waitfield_checks::reference::FullSum;
use waitfield_checks::script::Script;

/// Random gates of which as many as fit make a layer: hardly a position is left free, whatever m is.
const MANY: usize = 400;

/// Random layers of 16 positions for a seed, in each of which a clash is put at all places.
const LARGE: usize = 3;

/// The sizes at which layers are given in many orders, with how many random layers, and the random orders of each.
const ORDERED: [(usize, usize); 7] = [(1, 2), (2, 8), (3, 8), (4, 8), (7, 2), (12, 2), (16, 2)];
const ORDERS: usize = 6;

fn answered(refused: bool) -> &'static str {
    if refused { "(no 14)" } else { "(ok)" }
}

/// Every gate that a circuit of m positions has; a CZ in both orders of its spots.
fn every_gate(m: usize) -> Vec<Gate> {
    let mut gates = Vec::new();
    for (i, j) in (1..=m).flat_map(|i| (1..=m).map(move |j| (i, j))) {
        gates.extend((1..=m).map(|green| Gate::Ccz { red: i, blue: j, green }));
        for colour in COLOURS {
            gates.extend(colour.others().map(|other| cz(colour, i, other, j)));
            gates.extend((i != j).then(|| cnot(colour, i, j)));
        }
    }
    gates.extend(every_z(m));
    gates
}

fn share_a_position(first: Gate, second: Gate) -> bool {
    first.spots().iter().any(|spot| second.spots().contains(spot))
}

/// Terms and some amplitudes, by the full sum.
fn seen(script: &mut Script, circuit: &Circuit) {
    let m = circuit.m;
    let terms = FullSum::of(m, &circuit.gates).terms();
    script.line("(terms)", listing(&terms.expect("the reference's own checks say so")));
    let full = circuit.full_sum();
    let all = (1 << m) - 1;
    let shifted = shift(circuit.start, &circuit.gates);
    let outputs = [shifted, [all; 3], [1, all - 1, 1]];
    for (colour, output) in COLOURS.into_iter().zip(outputs) {
        let s = full.amplitude(output);
        script.line(
            format!("(amp {colour} {})", spelled(m, output)),
            format!("(left {})", 1 << m),
        );
        script.line("(step 65536)", format!("(amp {s} {})", 3 * m));
    }
}

/// Two gates as a layer behind others. Where it is taken, what is expected is the sum of one order, whichever was
/// given; where it is refused, what was held before.
fn pair(script: &mut Script, held: &Circuit, first: Gate, second: Gate) {
    let mut circuit = held.clone();
    let refused = share_a_position(first, second);
    script.case(format!("a layer of {first} and {second}, m = {}", held.m));
    script.line(format!("(circuit {})", held.m), "(ok)".to_string());
    script.say(start_line(held.m, held.start), "(ok)");
    in_layers(script, &held.gates);
    script.say(layer(&[first, second]), answered(refused));
    if !refused {
        let mut taken = [first, second];
        taken.sort_by_key(Gate::to_string);
        circuit.gates.extend(taken);
    }
    seen(script, &circuit);
    script.say(format!("(undo {})", circuit.gates.len()), "(ok)");
    script.say("(undo 1)", "(no 12)");
}

/// Every two gates in both orders, and every gate beside itself, under a start. So many of them must share no position.
fn every_pair(checks: &mut Checks, m: usize, apart: usize) {
    let held = started(&mut Random::new(m as u64), m, 6);
    let gates = every_gate(m);
    let pairs: Vec<(Gate, Gate)> = gates
        .iter()
        .flat_map(|&first| gates.iter().map(move |&second| (first, second)))
        .collect();
    let mut script = Script::default();
    for &(first, second) in &pairs {
        pair(&mut script, &held, first, second);
    }
    checks.run(&script);
    model_agrees(checks, &script, &format!("every two gates, m = {m}"));
    let found = pairs
        .iter()
        .filter(|&&(first, second)| !share_a_position(first, second));
    let name = format!("pairs of gates that share no position, m = {m}");
    checks.tally.equal(&name, found.count(), apart);
}

/// What a gate does with the position in one of its places.
fn role(gate: Gate, place: usize) -> &'static str {
    match gate {
        Gate::Ccz { .. } => "of a CCZ",
        Gate::Cz(..) => ["first of a CZ", "second of a CZ"][place],
        Gate::Cnot { .. } => ["control", "target"][place],
        Gate::Z(_) => "of a Z",
    }
}

/// Two gates that touch the same position: its colour, and the role that it has in each.
type Meeting = (Colour, &'static str, &'static str);

/// The ways in which one gate, moved in one of its places, comes to touch a position of another.
fn meetings(gate: Gate, other: Gate) -> Vec<(Meeting, Gate)> {
    let mut all = Vec::new();
    for (place, spot) in gate.spots().into_iter().enumerate() {
        for (onto, aim) in other.spots().into_iter().enumerate() {
            if aim.colour == spot.colour {
                let meeting = (spot.colour, role(gate, place), role(other, onto));
                let onto_aim = |own: Spot| if own == spot { aim.position } else { own.position };
                all.push((meeting, gate.moved(onto_aim)));
            }
        }
    }
    all
}

/// One clash in a layer, at every two places: a gate meets the other in each way that there is, and the other stands in
/// both places. Without a clash the layer is taken. The meetings are added to those that were met.
fn every_two_places(script: &mut Script, name: &str, gates: &[Gate], met: &mut BTreeSet<Meeting>) {
    script.case(format!("{name}: circuit"));
    script.say("(circuit 16)", "(ok)");
    for (place, &gate) in gates.iter().enumerate() {
        script.case(format!("{name}: gate {} meets another", place + 1));
        let mut refused = |changed: Gate| {
            let with = [&gates[..place], &[changed], &gates[place + 1..]].concat();
            script.say(layer(&with), "(no 14)");
        };
        for &other in gates.iter().filter(|&&other| other != gate) {
            refused(other);
            for (meeting, changed) in meetings(gate, other) {
                refused(changed);
                met.insert(meeting);
            }
        }
    }
    script.case(format!("{name}: taken without a clash"));
    script.line("(terms)", listing(&[]));
    script.say(layer(gates), "(ok)");
    script.line("(terms)", listing(&Polynomial::of(16, gates).terms()));
    script.say(format!("(undo {})", gates.len()), "(ok)");
    script.say("(undo 1)", "(no 12)");
}

/// Layers of 16 positions: a CCZ in each block, every position by two, every position by itself, and random ones. Six
/// roles can meet six in each colour.
fn large_layers(checks: &mut Checks) {
    let mut script = Script::default();
    let mut met = BTreeSet::new();
    every_two_places(&mut script, "16 CCZ", &in_blocks(16, block_ccz), &mut met);
    every_two_places(&mut script, "24 CZ and CNOT", &every_position(16), &mut met);
    every_two_places(&mut script, "48 Z", &every_z(16), &mut met);
    for seed in checks.seeds.clone() {
        let mut random = Random::new(seed);
        for number in 0..LARGE {
            let name = format!("random layer, seed {seed}, number {number}");
            every_two_places(&mut script, &name, &random.layer(16, MANY), &mut met);
        }
    }
    checks.run(&script);
    model_agrees(checks, &script, "a clash at every two places");
    checks
        .tally
        .equal("ways in which two gates of a layer meet", met.len(), 108);
}

/// A random layer behind random gates, as it was drawn, backwards, and in other orders. The start is given before all
/// gates or behind them.
fn orders(script: &mut Script, random: &mut Random, m: usize, name: &str) {
    let before = random.gates(m, 24 * m);
    let drawn = random.layer(m, MANY);
    let all = [&before[..], &drawn].concat();
    let [without, with] = [&before, &all].map(|gates| listing(&Polynomial::of(m, gates).terms()));
    let start = random.strings(m);
    let (colour, output) = (random.colour(), random.strings(m));
    let gates = all;
    let s = Circuit { m, gates, start }.amplitude(colour, output);
    let mut orders = vec![drawn.clone(), drawn.iter().rev().copied().collect()];
    orders.extend((0..ORDERS).map(|_| random.shuffled(&drawn)));
    for (number, gates) in orders.iter().enumerate() {
        script.case(format!("{name}, order {number}"));
        script.line(format!("(circuit {m})"), "(ok)".to_string());
        if number % 2 == 0 {
            script.say(start_line(m, start), "(ok)");
        }
        in_layers(script, &before);
        script.say(layer(gates), "(ok)");
        if number % 2 == 1 {
            script.say(start_line(m, start), "(ok)");
        }
        script.line("(terms)", with.clone());
        script.line(
            format!("(amp {colour} {})", spelled(m, output)),
            format!("(left {})", 1 << m),
        );
        script.line("(step 65536)", format!("(amp {s} {})", 3 * m));
        script.say(format!("(undo {})", gates.len()), "(ok)");
        script.line("(terms)", without.clone());
    }
}

fn any_order(checks: &mut Checks) {
    for seed in checks.seeds.clone() {
        let mut random = Random::new(seed);
        let mut script = Script::default();
        for (m, layers) in ORDERED {
            for number in 0..layers {
                let name = format!("seed {seed}, m = {m}, layer {number}");
                orders(&mut script, &mut random, m, &name);
            }
        }
        checks.run(&script);
    }
}

/// Lines that repeat a number or a position and are taken all the same.
const FREE: [(&str, &[&str]); 3] = [
    (
        "one number in several colours",
        &[
            "(layer (ccz 1 1 1))",
            "(layer (ccz 1 1 1) (ccz 2 2 2))",
            "(layer (cnot r 1 2) (cnot b 1 2) (cnot g 1 2))",
            "(layer (cz (r 1) (b 1)) (cz (g 1) (r 2)) (cz (b 2) (g 2)))",
            "(layer (cnot g 2 1) (cz (r 1) (b 1)) (cz (b 2) (r 2)))",
            "(layer (z (r 1)) (z (b 1)) (z (g 1)))",
            "(layer (z (r 1)) (z (r 2)) (z (b 1)) (z (b 2)) (z (g 1)) (z (g 2)))",
            "(layer (z (r 1)) (cz (b 1) (g 1)) (z (r 2)))",
            "(layer (z (b 2)) (ccz 1 1 1) (z (g 2)))",
            "(layer (cnot r 1 2) (z (g 1)) (cnot b 2 1) (z (g 2)))",
        ],
    ),
    (
        "a position of the layer before",
        &[
            "(layer (ccz 1 1 1))",
            "(layer (ccz 1 1 1))",
            "(layer (cnot r 1 2))",
            "(layer (cnot r 1 2))",
            "(layer (cnot r 2 1) (cz (b 1) (g 1)))",
            "(layer (cnot r 2 1) (cz (b 1) (g 1)))",
            "(layer (z (r 1)) (z (g 1)))",
            "(layer (z (g 1)) (z (r 1)))",
        ],
    ),
    (
        "a position of the line before",
        &[
            "(ccz 1 1 1)",
            "(ccz 1 1 1)",
            "(ccz 1 2 2)",
            "(cz (r 1) (b 2))",
            "(cz (b 2) (r 1))",
            "(cnot r 1 2)",
            "(cnot r 1 2)",
            "(cnot r 2 1)",
            "(layer (ccz 2 1 1))",
            "(ccz 2 1 1)",
            "(z (r 2))",
            "(z (r 2))",
            "(cnot r 1 2)",
            "(z (r 1))",
            "(layer (z (r 1)))",
            "(cz (r 1) (g 1))",
        ],
    ),
];

fn free(checks: &mut Checks) {
    let mut script = Script::default();
    for (name, lines) in FREE {
        script.case(name);
        script.say("(circuit 2)", "(ok)");
        lines.iter().for_each(|line| script.say(line, "(ok)"));
    }
    checks.run(&script);
    model_agrees(checks, &script, "numbers and positions again");
}

/// A clash of two gates leaves the last places of the history free: 14 is given whether they have room or not.
fn last_places(checks: &mut Checks) {
    let [clash, apart] = [
        "(layer (ccz 1 1 1) (cz (g 1) (r 2)))",
        "(layer (ccz 1 1 1) (cz (g 2) (r 2)))",
    ];
    let gate = block_ccz(1);
    let mut script = Script::default();
    script.case("room for two gates");
    script.say("(circuit 2)", "(ok)");
    in_layers(&mut script, &[gate; HISTORY - 2]);
    script.say(clash, "(no 14)");
    script.say(apart, "(ok)");
    script.say(clash, "(no 14)");
    script.say(apart, "(no 13)");
    script.case("room for one gate");
    script.say("(undo 1)", "(ok)");
    script.say(clash, "(no 14)");
    script.say(apart, "(no 13)");
    script.say(gate.to_string(), "(ok)");
    script.say(gate.to_string(), "(no 13)");
    script.line("(terms)", listing(&[]));
    script.say(format!("(undo {HISTORY})"), "(ok)");
    script.say("(undo 1)", "(no 12)");
    checks.run(&script);
    model_agrees(checks, &script, "the last places of the history");
}

pub fn check(checks: &mut Checks) {
    // 6 pairs of two Z, and 12 of a Z and a CZ: any other two touch at least four positions, and there are three.
    every_pair(checks, 1, 18);
    // 8 pairs of two CCZ, 240 of two CZ, 24 of two CNOT; 96 of a CZ and a CCZ, and 96 of a CZ and a CNOT; 30 of two Z,
    // 48 of a Z and a CCZ, 192 of a Z and a CZ, 48 of a Z and a CNOT.
    every_pair(checks, 2, 782);
    large_layers(checks);
    all_positions::check(checks);
    any_order(checks);
    free(checks);
    last_places(checks);
}
