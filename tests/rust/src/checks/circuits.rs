//! Random circuits with all gates, layers, undos and starting strings at any place, every colour sliced, against the
//! full sum.

use crate::Checks;
use crate::grammar::covered;
use crate::starts::start_line;
use crate::z_gates::shift;
use waitfield_checks::gates::{COLOURS, Gate, spelled};
use waitfield_checks::layers::{layer, layers, touches_twice};
use waitfield_checks::model::{Circuit, listing};
use waitfield_checks::random::Random;
use waitfield_checks::reference::FullSum;
use waitfield_checks::script::Script;

/// Circuits of each m for a seed.
const CIRCUITS: usize = 60;

/// What the circuits of a seed must have met to mean something.
const MET: [&str; 5] = ["(amp -", "(no 7)", "(no 11)", "(no 12)", "(no 14)"];

/// Lines that an open sum turns back, with their refusals; none changes it.
const BETWEEN: [(&str, &str); 15] = [
    ("(ccz 1 1 1)", "(no 7)"),
    ("(z (r 1))", "(no 7)"),
    ("(layer (z (b 1)) (z (g 1)))", "(no 7)"),
    ("(undo 1)", "(no 7)"),
    ("(terms)", "(no 7)"),
    ("(circuit 1)", "(no 7)"),
    ("(start 1 1 1)", "(no 7)"),
    ("(amp b 1 0 1)", "(no 7)"),
    ("(part g 0 0)", "(no 7)"),
    ("(one r 0)", "(no 7)"),
    ("(layer (cnot r 1 1))", "(no 7)"),
    ("(step 0)", "(no 9)"),
    ("(step 65537)", "(no 9)"),
    ("(step 1) ", "(no 4)"),
    ("(DROP)", "(no 3)"),
];

/// A sum in steps of random sizes with refused and empty lines between them, up to the answer that ends it.
pub fn sum(script: &mut Script, random: &mut Random, m: usize, line: String, answer: String) {
    let mut left = 1 << m;
    script.line(line, format!("(left {left})"));
    loop {
        if random.once_in(3) {
            let (line, answer) = random.pick(&BETWEEN);
            script.say(line, answer);
        }
        if random.once_in(8) {
            script.empty_line();
        }
        let k = match random.below(4) {
            0 => 1,
            1 => left,
            2 => 1 + random.below(2 * left),
            _ => 1 + random.below(left),
        };
        if k >= left {
            script.line(format!("(step {k})"), answer);
            return;
        }
        left -= k;
        script.line(format!("(step {k})"), format!("(left {left})"));
    }
}

/// Gates in layers that are taken.
pub fn in_layers(script: &mut Script, gates: &[Gate]) {
    let layers = layers(gates);
    layers.iter().for_each(|gates| script.say(layer(gates), "(ok)"));
}

/// Lines that build a circuit, some of them refused, its starts before, between and behind the gates.
pub fn build(script: &mut Script, random: &mut Random, m: usize) -> Circuit {
    let mut circuit = Circuit::empty(m);
    let Circuit { gates, start, .. } = &mut circuit;
    script.line(format!("(circuit {m})"), "(ok)".to_string());
    for _ in 0..random.below(20) {
        match random.below(10) {
            0..=3 => {
                let gate = random.gate(m);
                script.say(gate.to_string(), "(ok)");
                gates.push(gate);
            }
            4 => {
                let count = random.pick(&[1, 2, 3, 5, 8, 48]);
                let several = random.gates(m, count);
                in_layers(script, &several);
                gates.extend(several);
            }
            5 => {
                let count = random.pick(&[2, 3, 5]);
                let several = random.gates(m, count);
                let twice = touches_twice(&several);
                script.say(layer(&several), if twice { "(no 14)" } else { "(ok)" });
                gates.extend(several.iter().filter(|_| !twice));
            }
            6 => {
                let k = 1 + random.below(gates.len() + 2);
                let taken = k <= gates.len();
                script.say(format!("(undo {k})"), if taken { "(ok)" } else { "(no 12)" });
                gates.truncate(if taken { gates.len() - k } else { gates.len() });
            }
            7 => refused_start(script, random, m),
            _ => {
                *start = random.strings(m);
                script.say(start_line(m, *start), "(ok)");
            }
        }
    }
    circuit
}

/// A start with one digit too many in each string.
fn refused_start(script: &mut Script, random: &mut Random, m: usize) {
    script.say(start_line(m + 1, random.strings(m + 1)), "(no 11)");
}

/// The output strings are the start as it was given, the one that start and Z gates shift the sums by, where a sum is
/// most often not 0, and any.
fn circuit(script: &mut Script, random: &mut Random, m: usize) {
    let circuit = build(script, random, m);
    let terms = FullSum::of(m, &circuit.gates).terms();
    script.line("(terms)", listing(&terms.expect("the reference's own checks say so")));
    let full = circuit.full_sum();
    let shifted = shift(circuit.start, &circuit.gates);
    for output in [circuit.start, shifted, random.strings(m), random.strings(m)] {
        let s = full.amplitude(output);
        for colour in COLOURS {
            let line = format!("(amp {colour} {})", spelled(m, output));
            sum(script, random, m, line, format!("(amp {s} {})", 3 * m));
        }
    }
}

/// Every output string of one position a colour.
fn smallest(script: &mut Script, random: &mut Random) {
    let full = build(script, random, 1).full_sum();
    for string in 0..8 {
        let output = [string & 1, string >> 1 & 1, string >> 2];
        let s = full.amplitude(output);
        for colour in COLOURS {
            let line = format!("(amp {colour} {})", spelled(1, output));
            sum(script, random, 1, line, format!("(amp {s} 3)"));
        }
    }
}

pub fn check(checks: &mut Checks) {
    for seed in checks.seeds.clone() {
        let mut random = Random::new(seed);
        let mut script = Script::default();
        for number in 0..CIRCUITS {
            script.case(format!("all strings, seed {seed}, m = 1, circuit {number}"));
            smallest(&mut script, &mut random);
            for m in 1..=4 {
                script.case(format!("random circuit, seed {seed}, m = {m}, circuit {number}"));
                circuit(&mut script, &mut random, m);
            }
        }
        checks.run(&script);
        covered(checks, &script, &format!("random circuits, seed {seed}"), &MET);
    }
}
