//! Random circuits under starts that are asked behind every line, whatever it was: a gate, a layer, an undo, a start or
//! a refused line.

use super::{carried, start_line, with_cnots};
use crate::Checks;
use crate::circuits::sum;
use crate::grammar::covered;
use crate::one_colour::one_of_each;
use crate::z_gates::shift;
use waitfield_checks::layers::layer;
use waitfield_checks::model::{Circuit, listing};
use waitfield_checks::random::Random;
use waitfield_checks::reference::FullSum;
use waitfield_checks::script::Script;

/// Circuits of each m for a seed that are asked behind every line, and their lines.
const CIRCUITS: usize = 8;
const LINES: usize = 24;

/// Refused lines one after another.
const TRIES: usize = 4;

/// Lines with a start, a CNOT or a Z in them that circuits of 2 to 4 positions with fewer than 4,096 gates refuse.
const REFUSED: [(&str, &str); 17] = [
    ("(start 1 1 1)", "(no 11)"),
    ("(start 10110 01101 11011)", "(no 11)"),
    ("(start 12 00 00)", "(no 4)"),
    ("(start 11 11)", "(no 4)"),
    ("(start 11 11 11) ", "(no 4)"),
    ("(START 11 11 11)", "(no 3)"),
    ("(cnot r 1 1)", "(no 10)"),
    ("(cnot g 1 5)", "(no 9)"),
    ("(layer (cnot r 1 2) (cnot r 2 1))", "(no 14)"),
    ("(layer (cnot b 2 1) (cz (r 1) (r 2)))", "(no 5)"),
    ("(layer (cnot g 2 1) (cnot b 1 5))", "(no 9)"),
    ("(z (r 5))", "(no 9)"),
    ("(z (b 1) (g 1))", "(no 4)"),
    ("(layer (z (g 1)) (z (g 1)))", "(no 14)"),
    ("(layer (z (r 1)) (z (b 0)))", "(no 9)"),
    ("(layer (z (b 2)) (cz (g 1) (g 2)))", "(no 5)"),
    ("(undo 4096)", "(no 12)"),
];

/// What the lines must have met to mean something.
const MET: [&str; 10] = [
    "(amp -", "(part 0 ", "(one 0 ", "(no 3)", "(no 4)", "(no 5)", "(no 9)", "(no 11)", "(no 12)", "(no 14)",
];

/// A gate, a layer, an undo, a start or refused lines.
fn any_line(script: &mut Script, random: &mut Random, circuit: &mut Circuit) {
    let Circuit { m, gates, start } = circuit;
    match random.below(8) {
        0..=2 => {
            gates.extend(with_cnots(random, *m, 1));
            script.say(gates[gates.len() - 1].to_string(), "(ok)");
        }
        3 => {
            let several = random.layer(*m, 8);
            script.say(layer(&several), "(ok)");
            gates.extend(several);
        }
        4 if !gates.is_empty() => {
            let k = 1 + random.below(gates.len().min(4));
            script.say(format!("(undo {k})"), "(ok)");
            gates.truncate(gates.len() - k);
        }
        5 | 6 => {
            *start = random.strings(*m);
            script.say(start_line(*m, *start), "(ok)");
        }
        _ => {
            for _ in 0..TRIES {
                let (line, answer) = random.pick(&REFUSED);
                script.say(line, answer);
            }
        }
    }
}

/// The terms, which are those of the gates alone, and a sum of each kind: mostly at the string that start and Z gates
/// shift the sums by, where it is most often not 0.
fn seen(script: &mut Script, random: &mut Random, circuit: &Circuit) {
    let Circuit { m, gates, start } = circuit;
    let terms = FullSum::of(*m, gates).terms();
    script.line("(terms)", listing(&terms.expect("the reference's own checks say so")));
    let shifted = shift(*start, gates);
    let output = [shifted, shifted, *start, random.strings(*m)][random.below(4)];
    for [line, answer] in one_of_each(circuit, random.colour(), output) {
        sum(script, random, *m, line, answer);
    }
}

pub fn check(checks: &mut Checks, random: &mut Random, seed: u64) {
    let mut script = Script::default();
    let mut moved = 0;
    for m in 2..=4 {
        for number in 0..CIRCUITS {
            script.case(format!("behind every line, seed {seed}, m = {m}, circuit {number}"));
            script.say(format!("(circuit {m})"), "(ok)");
            let mut circuit = Circuit::empty(m);
            for _ in 0..LINES {
                any_line(&mut script, random, &mut circuit);
                seen(&mut script, random, &circuit);
                moved += usize::from(carried(circuit.start, &circuit.gates) != circuit.start);
            }
        }
    }
    checks.run(&script);
    let name = format!("behind every line, seed {seed}");
    covered(checks, &script, &name, &MET);
    let name = format!("{name}: behind one in four CNOTs have moved the start");
    checks.tally.equal(&name, 4 * moved > 3 * CIRCUITS * LINES, true);
}
