//! Circuits of 5 to 12 positions a colour, where the full sum takes too long: random circuits, sparse and dense, with
//! starts at any place, every colour sliced and every colour unread, against the independent elimination.

use crate::Checks;
use crate::circuits::{build, in_layers, sum};
use crate::grammar::covered;
use crate::z_gates::shift;
use waitfield_checks::elimination::{Totals, totals};
use waitfield_checks::gates::{COLOURS, Colour, Strings, digits, spelled};
use waitfield_checks::model::{Circuit, listing};
use waitfield_checks::random::Random;
use waitfield_checks::script::Script;

pub const SIZES: std::ops::RangeInclusive<usize> = 5..=12;

/// Circuits of each m for a seed. Every third is left sparse.
const CIRCUITS: usize = 12;

/// Gates that make a circuit dense: its slices have any rank up to m.
const THICK: usize = 360;

/// What the random circuits of one m must have met to mean something.
const MET: [&str; 2] = ["(amp -", "(no 7)"];

/// Many layers behind a circuit, and some of their gates taken back.
pub fn thicken(script: &mut Script, random: &mut Random, circuit: &mut Circuit) {
    let several = random.gates(circuit.m, THICK);
    in_layers(script, &several);
    circuit.gates.extend(several);
    let k = 1 + random.below(48);
    script.say(format!("(undo {k})"), "(ok)");
    circuit.gates.truncate(circuit.gates.len() - k);
}

/// The start as it was given, the string that start and Z gates shift the sums by, one that differs from that in one
/// place, and any.
fn outputs(random: &mut Random, circuit: &Circuit) -> [Strings; 4] {
    let Circuit { m, gates, start } = circuit;
    let shifted = shift(*start, gates);
    let mut beside = shifted;
    beside[random.below(3)] ^= 1 << random.below(*m);
    [*start, shifted, beside, random.strings(*m)]
}

/// The amplitude sliced on a colour and the readout count with that colour unread, both in steps of random sizes.
fn sums(script: &mut Script, random: &mut Random, m: usize, colour: Colour, output: Strings, totals: &Totals) {
    let line = format!("(amp {colour} {})", spelled(m, output));
    sum(script, random, m, line, format!("(amp {} {})", totals.amplitude, 3 * m));
    let [x, y] = colour.others().map(|other| digits(m, output[other.number()]));
    let line = format!("(part {colour} {x} {y})");
    sum(script, random, m, line, format!("(part {} {})", totals.readout, 3 * m));
}

/// One circuit with its terms and sums. The slices of each rank are added to `ranks`.
fn circuit(checks: &mut Checks, script: &mut Script, random: &mut Random, m: usize, dense: bool, ranks: &mut [usize]) {
    let mut circuit = build(script, random, m);
    if dense {
        thicken(script, random, &mut circuit);
    }
    let polynomial = circuit.polynomial();
    script.line("(terms)", listing(&circuit.terms()));
    for output in outputs(random, &circuit) {
        let sliced = COLOURS.map(|colour| totals(&polynomial, colour, output));
        let amplitudes = sliced.each_ref().map(|totals| totals.amplitude);
        let name = format!("the elimination on each colour at {output:x?} after {circuit:?}");
        checks.tally.equal(&name, amplitudes, [amplitudes[0]; 3]);
        for (colour, totals) in COLOURS.into_iter().zip(&sliced) {
            sums(script, random, m, colour, output, totals);
            ranks.iter_mut().zip(totals.ranks).for_each(|(all, some)| *all += some);
        }
    }
}

fn size(checks: &mut Checks, random: &mut Random, seed: u64, m: usize) {
    let name = format!("seed {seed}, m = {m}");
    let mut script = Script::default();
    let mut ranks = [0; 17];
    for number in 0..CIRCUITS {
        let dense = number % 3 > 0;
        script.case(format!("{name}, circuit {number}"));
        circuit(checks, &mut script, random, m, dense, &mut ranks);
    }
    checks.run(&script);
    covered(checks, &script, &name, &MET);
    let highest = ranks[m - 2..=m].iter().all(|&slices| slices > 0);
    checks
        .tally
        .equal(&format!("{name}: slices of rank m, m - 1 and m - 2"), highest, true);
}

pub fn check(checks: &mut Checks) {
    for seed in checks.seeds.clone() {
        let mut random = Random::new(seed);
        SIZES.for_each(|m| size(checks, &mut random, seed, m));
    }
}
