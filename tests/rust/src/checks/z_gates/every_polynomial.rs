//! Every polynomial of one position a colour: all 128 sets of a CCZ, three CZ and three Z terms, each as gates in any
//! order, with every sum that can be asked for, by the full sum.

use crate::Checks;
use crate::listings::every_term;
use crate::one_colour::{Asked, ends, opened, paired};
use crate::starts::by_hand::{ask, every_string};
use crate::starts::start_line;
use waitfield_checks::gates::{COLOURS, Colour, Gate, Strings};
use waitfield_checks::model::{Answer, Circuit};
use waitfield_checks::random::Random;
use waitfield_checks::reference::FullSum;
use waitfield_checks::script::Script;

/// A sum of each kind on a colour at a string.
fn sums(full: &FullSum, colour: Colour, output: Strings) -> [Asked; 3] {
    let read = colour.others().map(|other| output[other.number()]);
    let t = full.readout(colour, read).expect("the reference's own checks say so");
    let counts = full.one_colour(colour).expect("the reference's own checks say so");
    let n = counts[output[colour.number()] as usize];
    paired(opened(1, colour, output), ends(1, full.amplitude(output), t, n))
}

fn every_sum(script: &mut Script, circuit: &Circuit) {
    let full = circuit.full_sum();
    for output in every_string(1) {
        let sums = COLOURS.map(|colour| sums(&full, colour, output));
        sums.into_iter().flatten().for_each(|asked| ask(script, 1, asked));
    }
}

/// One set of terms, started at zeros and at a string.
fn set(script: &mut Script, random: &mut Random, terms: &[Gate]) {
    let mut circuit = Circuit::empty(1);
    circuit.gates = random.shuffled(terms);
    script.say("(circuit 1)", "(ok)");
    for &gate in &circuit.gates {
        script.say(random.either_way(gate).to_string(), "(ok)");
    }
    script.line("(terms)", Answer::of_terms(terms));
    every_sum(script, &circuit);
    circuit.start = random.strings(1);
    script.say(start_line(1, circuit.start), "(ok)");
    script.line("(terms)", Answer::of_terms(terms));
    every_sum(script, &circuit);
}

pub fn check(checks: &mut Checks, random: &mut Random, seed: u64) {
    let all = every_term(1);
    let mut script = Script::default();
    for number in 0..1 << all.len() {
        let places = (0..all.len()).filter(|place| number >> place & 1 == 1);
        let terms: Vec<Gate> = places.map(|place| all[place]).collect();
        script.case(format!(
            "one position a colour, seed {seed}, {} terms, set {number}",
            terms.len()
        ));
        set(&mut script, random, &terms);
    }
    checks.run(&script);
    checks.tally.equal("terms of one position a colour", all.len(), 7);
}
