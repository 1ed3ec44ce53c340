//! Counts with one colour read: every string of small circuits against the full sum and against the program's own
//! readout counts, larger circuits against the independent elimination and in closed form.

use crate::Checks;
use crate::circuits::{build, in_layers, sum};
use crate::grammar::covered;
use crate::large::{DENSE, circuit};
use crate::middle::{SIZES, thicken};
use crate::readouts::{counted, part};
use crate::starts::{given_anywhere, start_line, started};
use crate::z_gates::{on_ones, shift};
use waitfield_checks::circuits::{block_ccz, full_rank, hypercube, in_blocks};
use waitfield_checks::elimination::{Polynomial, one_colour};
use waitfield_checks::gates::Colour::{Blue, Green, Red};
use waitfield_checks::gates::{COLOURS, Colour, Gate, Strings, cz, digits, spelled};
use waitfield_checks::layers::layers;
use waitfield_checks::model::Circuit;
use waitfield_checks::program::Program;
use waitfield_checks::random::Random;
use waitfield_checks::reference::FullSum;
use waitfield_checks::script::Script;

/// Circuits of each m for a seed: small ones by the full sum, and middle ones, every other of them dense.
const SMALL: usize = 12;
const MIDDLE: usize = 4;

/// What the small circuits must have met to mean something.
const MET: [&str; 4] = ["(one 0 ", "(one 1 ", "(no 7)", "(no 12)"];

fn one(m: usize, read: Colour, string: u32) -> String {
    format!("(one {read} {})", digits(m, string))
}

fn ended(m: usize, count: u64) -> String {
    format!("(one {count} {})", 2 * m)
}

/// The line that opens a sum, and the answer that ends it.
pub type Asked = [String; 2];

/// Every string of every colour, as the squares of the full sum say.
fn every_string(m: usize, full: &FullSum) -> Vec<Asked> {
    let strings = |read: Colour| {
        let counts = full.one_colour(read).expect("the reference's own checks say so");
        let asked = move |string| [one(m, read, string), ended(m, counts[string as usize])];
        (0..1 << m).map(asked)
    };
    COLOURS.into_iter().flat_map(strings).collect()
}

/// One circuit, asked for every string, then with gates taken back, with others in their place, and with another start.
fn small(script: &mut Script, random: &mut Random, m: usize) {
    let mut circuit = build(script, random, m);
    let ask = |script: &mut Script, random: &mut Random, circuit: &Circuit| {
        for [line, answer] in every_string(m, &circuit.full_sum()) {
            sum(script, random, m, line, answer);
        }
    };
    ask(script, random, &circuit);
    if !circuit.gates.is_empty() {
        let k = 1 + random.below(circuit.gates.len());
        script.say(format!("(undo {k})"), "(ok)");
        circuit.gates.truncate(circuit.gates.len() - k);
        ask(script, random, &circuit);
    }
    let several = random.gates(m, 5);
    in_layers(script, &several);
    circuit.gates.extend(several);
    ask(script, random, &circuit);
    circuit.start = random.strings(m);
    script.say(start_line(m, circuit.start), "(ok)");
    ask(script, random, &circuit);
}

/// The lines that open an amplitude sliced on a colour, a readout count with that colour unread, and a count with only
/// that colour read.
pub fn opened(m: usize, colour: Colour, output: Strings) -> [String; 3] {
    let read = colour.others().map(|other| output[other.number()]);
    [
        format!("(amp {colour} {})", spelled(m, output)),
        part(m, colour, read),
        one(m, colour, output[colour.number()]),
    ]
}

/// The answers that end them.
pub fn ends(m: usize, s: i64, t: u64, n: u64) -> [String; 3] {
    [
        format!("(amp {s} {})", 3 * m),
        format!("(part {t} {})", 3 * m),
        ended(m, n),
    ]
}

/// One of each kind, by the full sum or the elimination.
pub fn one_of_each(circuit: &Circuit, colour: Colour, output: Strings) -> [Asked; 3] {
    let (s, t) = (circuit.amplitude(colour, output), circuit.readout(colour, output));
    let n = circuit.settings(colour, output[colour.number()]);
    paired(opened(circuit.m, colour, output), ends(circuit.m, s, t, n))
}

pub fn paired(lines: [String; 3], answers: [String; 3]) -> [Asked; 3] {
    let [amp, part, one] = lines;
    let [s, t, n] = answers;
    [[amp, s], [part, t], [one, n]]
}

/// A sum of each kind dropped before its last slice, and one of each kind after it, which is as if nothing had been.
fn dropped(script: &mut Script, random: &mut Random, m: usize) {
    let circuit = build(script, random, m);
    let any = |random: &mut Random| one_of_each(&circuit, random.colour(), random.strings(m));
    for [line, _] in any(random) {
        for [next, answer] in any(random) {
            let worked = 1 + random.below((1 << m) - 1);
            script.line(&line, format!("(left {})", 1 << m));
            script.line(format!("(step {worked})"), format!("(left {})", (1 << m) - worked));
            script.say("(drop)", "(ok)");
            script.say("(step 1)", "(no 8)");
            sum(script, random, m, next, answer);
        }
    }
}

fn small_circuits(checks: &mut Checks, random: &mut Random, seed: u64) {
    let mut script = Script::default();
    for m in 1..=4 {
        for number in 0..SMALL {
            script.case(format!("every string, seed {seed}, m = {m}, circuit {number}"));
            small(&mut script, random, m);
            script.case(format!("dropped sums, seed {seed}, m = {m}, circuit {number}"));
            dropped(&mut script, random, m);
        }
    }
    checks.run(&script);
    covered(checks, &script, &format!("one colour read, seed {seed}"), &MET);
}

/// The program's own counts of all strings of a colour.
fn all_counts(program: &Program, m: usize, before: &str, read: Colour) -> Result<Vec<u64>, String> {
    let lines: Vec<String> = (0..1 << m).map(|string| one(m, read, string)).collect();
    counted(program, before, &lines, "one", 2 * m)
}

/// The lines that ask for the readouts with one colour unread: for each string of the colour that is read, all strings
/// of the third.
fn readouts(m: usize, read: Colour, unread: Colour) -> Vec<String> {
    let lines = |string: u32| (0..1 << m).map(move |third| part(m, unread, unread.beside(read, string, third)));
    (0..1 << m).flat_map(lines).collect()
}

/// The program's own counts beside its readouts: N / 2^(2m) is the sum of the T / 2^(3m).
fn by_readouts(program: &Program, m: usize, before: &str, read: Colour, unread: Colour) -> Result<(), String> {
    let counts = all_counts(program, m, before, read)?;
    let readouts: Vec<u64> = counted(program, before, &readouts(m, read, unread), "part", 3 * m)?;
    let sums: Vec<u64> = readouts.chunks(1 << m).map(|several| several.iter().sum()).collect();
    match sums.iter().copied().eq(counts.iter().map(|count| count << m)) {
        true => Ok(()),
        false => Err(format!("N {counts:?}, sums of T {sums:?} after {before}")),
    }
}

/// Either of the other two colours unread, under one start for both kinds of counts.
fn all_by_readouts(checks: &mut Checks, random: &mut Random, seed: u64) {
    for m in 1..=4 {
        let circuit = started(random, m, 8 * m);
        let before = given_anywhere(random, &circuit);
        for read in COLOURS {
            for unread in read.others() {
                let name = format!("2^m N by readouts, seed {seed}, m = {m}, {read} read, {unread} unread");
                let outcome = by_readouts(&checks.program, m, &before, read, unread);
                checks.tally.check(&name, outcome);
            }
        }
    }
}

/// The program's own counts of all strings under one start add up to 2^(2m), whatever the circuit.
fn totals(checks: &mut Checks, random: &mut Random, seed: u64) {
    for m in 1..=8 {
        let circuit = started(random, m, 12 * m);
        let before = given_anywhere(random, &circuit);
        for read in COLOURS {
            let name = format!("counts add up to 2^(2m), seed {seed}, m = {m}, {read} read");
            let found = all_counts(&checks.program, m, &before, read).map(|counts| counts.iter().sum());
            checks.tally.equal(&name, found, Ok(1u64 << (2 * m)));
        }
    }
}

/// The count by elimination, the same on either unread colour.
fn eliminated(checks: &mut Checks, name: &str, polynomial: &Polynomial, read: Colour, string: u32) -> u64 {
    let [first, second] = read.others().map(|sliced| one_colour(polynomial, read, sliced, string));
    let name = format!("{name}: the elimination on either colour, {read} read");
    checks.tally.equal(&name, second, first);
    first
}

/// Circuits of one m, each colour asked for the string that is its start as it was given, for the one that start and Z
/// gates shift its counts by, and for any other.
fn middle(checks: &mut Checks, random: &mut Random, seed: u64, m: usize) {
    let mut script = Script::default();
    for number in 0..MIDDLE {
        let name = format!("seed {seed}, m = {m}, circuit {number}");
        script.case(&name);
        let mut circuit = build(&mut script, random, m);
        if number % 2 == 1 {
            thicken(&mut script, random, &mut circuit);
        }
        let polynomial = circuit.polynomial();
        let strings = [circuit.start, shift(circuit.start, &circuit.gates), random.strings(m)];
        for read in COLOURS {
            for string in strings.map(|strings| strings[read.number()]) {
                let count = eliminated(checks, &name, &polynomial, read, string);
                sum(&mut script, random, m, one(m, read, string), ended(m, count));
            }
        }
    }
    checks.run(&script);
}

/// A count in one step, and in steps that leave odd remainders.
fn large(script: &mut Script, m: usize, read: Colour, string: u32, count: u64) {
    let line = one(m, read, string);
    script.line(&line, format!("(left {})", 1 << m));
    script.line("(step 65536)", ended(m, count));
    script.line(&line, format!("(left {})", 1 << m));
    script.line("(step 4097)", format!("(left {})", (1 << m) - 4097));
    script.line(format!("(step {})", (1 << m) - 4098), "(left 1)".to_string());
    script.line("(step 1)", ended(m, count));
}

/// A circuit whose counts the elimination gives, with slices on either unread colour, and a starting string.
fn large_circuit(checks: &mut Checks, random: &mut Random, name: &str, m: usize, layers: &[Vec<Gate>]) {
    let start = random.strings(m);
    let polynomial = Polynomial::started(m, start, &layers.concat());
    let mut script = Script::default();
    script.case(format!("{name}: circuit"));
    circuit(&mut script, m, layers);
    script.say(start_line(m, start), "(ok)");
    for read in COLOURS {
        let (string, sliced) = (random.string(m), random.pick(&read.others()));
        let count = one_colour(&polynomial, read, sliced, string);
        script.case(format!("{name}: {read} read"));
        large(&mut script, m, read, string, count);
    }
    checks.run(&script);
}

/// Circuits whose blocks of three do not meet: N is the product of the blocks' counts.
fn closed_forms(checks: &mut Checks) {
    let mut script = Script::default();
    for m in [13, 16] {
        let all: u32 = (1 << m) - 1;
        for string in [0, 1, 0x1234 & all, all] {
            script.case(format!("a CCZ in each of {m} blocks at {string:x}"));
            circuit(&mut script, m, &[in_blocks(m, block_ccz)]);
            let zeros = m as u32 - string.count_ones();
            COLOURS
                .iter()
                .for_each(|&read| large(&mut script, m, read, string, 3u64.pow(zeros)));
        }
        // Z gates turn bits of what is left over in each colour: another string has the same count.
        let turned = [0x2f05, 0x1aaa, 0x0001].map(|string| string & all);
        script.case(format!("a CCZ in each of {m} blocks and Z gates"));
        circuit(&mut script, m, &[on_ones(turned), in_blocks(m, block_ccz)]);
        for (read, turned) in COLOURS.into_iter().zip(turned) {
            for string in [0, 0x1234 & all, all] {
                let zeros = m as u32 - (string ^ turned).count_ones();
                large(&mut script, m, read, string, 3u64.pow(zeros));
            }
        }
        // Blue's form is the string of green, whatever red is; green's that of blue. Red has none.
        script.case(format!("a CZ of blue and green in each of {m} blocks"));
        circuit(&mut script, m, &[in_blocks(m, |p| cz(Blue, p, Green, p))]);
        [0, all, 5].into_iter().for_each(|string| {
            large(&mut script, m, Blue, string, 1 << m);
            large(&mut script, m, Green, string, 1 << m);
        });
        large(&mut script, m, Red, 0, 1 << (2 * m));
        large(&mut script, m, Red, 1, 0);
        script.case(format!("the largest count at m = {m}"));
        circuit(&mut script, m, &[]);
        for read in COLOURS {
            large(&mut script, m, read, 0, 1 << (2 * m));
            large(&mut script, m, read, 1 << (m - 1), 0);
        }
    }
    checks.run(&script);
}

pub fn check(checks: &mut Checks) {
    closed_forms(checks);
    for seed in checks.seeds.clone() {
        let mut random = Random::new(seed);
        small_circuits(checks, &mut random, seed);
        all_by_readouts(checks, &mut random, seed);
        totals(checks, &mut random, seed);
        SIZES.for_each(|m| middle(checks, &mut random, seed, m));
        for m in 13..=16 {
            let layers = layers(&random.gates(m, DENSE));
            let name = format!("dense circuit, seed {seed}, m = {m}");
            large_circuit(checks, &mut random, &name, m, &layers);
        }
        let name = format!("full rank, seed {seed}");
        large_circuit(checks, &mut random, &name, 16, &full_rank(16, seed));
    }
    large_circuit(checks, &mut Random::new(16), "hypercube", 16, &hypercube(4));
}
