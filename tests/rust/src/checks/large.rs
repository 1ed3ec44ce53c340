//! Circuits of 13 to 16 positions a colour: slices of rank 13 and more, by the independent elimination and in closed form.

use crate::Checks;
use crate::starts::start_line;
use crate::z_gates::shift;
use waitfield_checks::circuits::{block_ccz, full_rank, hypercube, in_blocks};
use waitfield_checks::elimination::{Polynomial, totals};
use waitfield_checks::gates::Colour::{Blue, Green, Red};
use waitfield_checks::gates::{COLOURS, Colour, Gate, Strings, cz, digits, spelled};
use waitfield_checks::layers::{self, layers};
use waitfield_checks::model::{Circuit, listing};
use waitfield_checks::random::Random;
use waitfield_checks::script::Script;

/// Gates of a dense circuit.
pub const DENSE: usize = 480;

pub fn circuit(script: &mut Script, m: usize, layers: &[Vec<Gate>]) {
    let lines = layers::circuit(m, layers);
    lines.iter().for_each(|line| script.say(line, "(ok)"));
}

/// The amplitude with the given colour sliced, in one step and in steps that leave odd remainders.
fn amplitude(script: &mut Script, m: usize, colour: Colour, output: Strings, s: i64) {
    let line = format!("(amp {colour} {})", spelled(m, output));
    let ended = format!("(amp {s} {})", 3 * m);
    script.line(&line, format!("(left {})", 1 << m));
    script.line("(step 65536)", ended.clone());
    script.line(&line, format!("(left {})", 1 << m));
    script.line("(step 4097)", format!("(left {})", (1 << m) - 4097));
    script.line(format!("(step {})", (1 << m) - 4098), "(left 1)".to_string());
    script.line("(step 1)", ended);
}

fn count(script: &mut Script, m: usize, unread: Colour, output: Strings, t: u64) {
    let [x, y] = unread.others().map(|colour| digits(m, output[colour.number()]));
    script.line(format!("(part {unread} {x} {y})"), format!("(left {})", 1 << m));
    script.line("(step 65536)", format!("(part {t} {})", 3 * m));
}

/// A start, and the output string that is asked for.
type Ends = (Strings, Strings);

/// A circuit whose amplitudes and counts the elimination gives. Its start is given half way through.
fn eliminated(checks: &mut Checks, name: &str, m: usize, layers: &[Vec<Gate>], (start, output): Ends) {
    let gates = layers.concat();
    let circuit = Circuit { m, gates, start };
    let polynomial = circuit.polynomial();
    let sliced = COLOURS.map(|colour| totals(&polynomial, colour, output));
    let high = sliced
        .each_ref()
        .map(|totals| totals.ranks[13..].iter().any(|&count| count > 0));
    checks
        .tally
        .equal(&format!("{name}: has slices of rank 13 and more"), high, [true; 3]);
    let amplitudes = sliced.each_ref().map(|totals| totals.amplitude);
    let s = amplitudes[0];
    checks
        .tally
        .equal(&format!("{name}: the elimination on each colour"), amplitudes, [s; 3]);
    let mut script = Script::default();
    script.case(format!("{name}: circuit"));
    let mut lines = layers::circuit(m, layers);
    lines.insert(1 + layers.len() / 2, start_line(m, start));
    lines.iter().for_each(|line| script.say(line, "(ok)"));
    script.line("(terms)", listing(&circuit.terms()));
    for (colour, totals) in COLOURS.into_iter().zip(sliced) {
        script.case(format!("{name}: amplitude sliced on {colour}"));
        amplitude(&mut script, m, colour, output, s);
        script.case(format!("{name}: count with {colour} unread"));
        count(&mut script, m, colour, output, totals.readout);
    }
    checks.run(&script);
}

/// Gates inside the blocks only: S is the product of the blocks' sums, here 8 at 0 0 0 less or plus 2.
fn blocks_of_ccz(script: &mut Script, m: usize, output: Strings) {
    let block = |p: usize| {
        let weight: u32 = output.iter().map(|word| word >> p & 1).sum();
        [6, 2, -2, 2][weight as usize]
    };
    let s = (0..m).map(block).product();
    circuit(script, m, &[in_blocks(m, block_ccz)]);
    COLOURS
        .iter()
        .for_each(|&colour| amplitude(script, m, colour, output, s));
}

fn closed_forms(checks: &mut Checks) {
    let mut script = Script::default();
    for m in 13..=16 {
        let all = (1 << m) - 1;
        for output in [
            [0; 3],
            [1, 0, 0],
            [all, 0, all],
            [all; 3],
            [0x1234 & all, 0x0ff0 & all, 0x5a5a & all],
        ] {
            script.case(format!("a CCZ in each of {m} blocks at {output:x?}"));
            blocks_of_ccz(&mut script, m, output);
        }
        // A CZ of blue and green in each block: every red slice has rank m, and S is 2 for each of the two times m.
        script.case(format!("a CZ in each of {m} blocks"));
        circuit(&mut script, m, &[in_blocks(m, |p| cz(Blue, p, Green, p))]);
        for (output, s) in [
            ([0; 3], 1i64 << (2 * m)),
            ([0, all, 1], -(1i64 << (2 * m))),
            ([1, 0, 0], 0),
        ] {
            COLOURS
                .iter()
                .for_each(|&colour| amplitude(&mut script, m, colour, output, s));
        }
        count(&mut script, m, Red, [0, all, 5], 1 << m);
        script.case(format!("the largest sums at m = {m}"));
        circuit(&mut script, m, &[]);
        count(&mut script, m, Green, [0; 3], 1 << (3 * m));
        count(&mut script, m, Green, [0, 1, 0], 0);
        for colour in COLOURS {
            amplitude(&mut script, m, colour, [0; 3], 1 << (3 * m));
            amplitude(&mut script, m, colour, [0, 0, 1 << (m - 1)], 0);
        }
        script.say("(cz (r 1) (b 1))", "(ok)");
        COLOURS.iter().for_each(|&colour| {
            amplitude(&mut script, m, colour, [1, 1, 0], -(1 << (3 * m - 1)));
        });
    }
    checks.run(&script);
}

pub fn check(checks: &mut Checks) {
    closed_forms(checks);
    for seed in checks.seeds.clone() {
        let mut random = Random::new(seed);
        for m in 13..=16 {
            let layers = layers(&random.gates(m, DENSE));
            let ends = (random.strings(m), random.strings(m));
            let name = format!("dense circuit, seed {seed}, m = {m}");
            eliminated(checks, &name, m, &layers, ends);
        }
        let ends = (random.strings(16), random.strings(16));
        let name = format!("full rank, seed {seed}");
        eliminated(checks, &name, 16, &full_rank(16, seed), ends);
    }
    // At most other strings all slices of high rank are 0.
    let start = [0x8001, 0x00f0, 0x1234];
    let ends = (start, shift(start, &hypercube(4).concat()));
    eliminated(checks, "hypercube", 16, &hypercube(4), ends);
    let polynomial = Polynomial::of(16, &full_rank(16, 48).concat());
    let ranks = totals(&polynomial, Red, [0; 3]).ranks;
    checks
        .tally
        .equal("red slices of rank 16 in the handover example", ranks[16], 1 << 16);
}
