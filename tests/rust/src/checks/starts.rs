//! Starting strings (02, request e). A start gives every basis string its sign before the first gate, whenever it is
//! given: by hand, by the full sum and the elimination, and by the program's own sums.

pub mod by_hand;
mod every_line;
pub mod every_way;

use crate::Checks;
use crate::readouts::{counted, pairs, part};
use waitfield_checks::gates::{COLOURS, Colour, Gate, Strings, spelled};
use waitfield_checks::model::Circuit;
use waitfield_checks::program::Program;
use waitfield_checks::random::Random;

/// A start carried over gates to the end of a circuit: a CNOT adds its bit at the target to its bit at the control, and
/// the other gates leave it. The sum of a start at s is that of zeros at s with this string added. The program goes by
/// this law; the reference and the elimination do not know it.
pub fn carried(start: Strings, gates: &[Gate]) -> Strings {
    let mut strings = start;
    for gate in gates {
        if let Gate::Cnot {
            colour,
            control,
            target,
        } = *gate
        {
            let string = &mut strings[colour.number()];
            *string ^= (*string >> (target - 1) & 1) << (control - 1);
        }
    }
    strings
}

/// A circuit of so many random gates, and a start.
pub fn started(random: &mut Random, m: usize, count: usize) -> Circuit {
    Circuit {
        m,
        gates: random.gates(m, count),
        start: random.strings(m),
    }
}

pub fn start_line(m: usize, start: Strings) -> String {
    format!("(start {})", spelled(m, start))
}

/// The lines that give a circuit, its start behind so many of the gates.
pub fn given(circuit: &Circuit, place: usize) -> Vec<String> {
    let Circuit { m, gates, start } = circuit;
    let mut lines = vec![format!("(circuit {m})")];
    lines.extend(gates.iter().map(Gate::to_string));
    lines.insert(1 + place, start_line(*m, *start));
    lines
}

/// The same as one text, the start at any place.
pub fn given_anywhere(random: &mut Random, circuit: &Circuit) -> String {
    text(&given(circuit, random.below(circuit.gates.len() + 1)))
}

pub fn text(lines: &[String]) -> String {
    lines.iter().map(|line| format!("{line}\n")).collect()
}

/// Random gates, half of them CNOTs.
pub fn with_cnots(random: &mut Random, m: usize, count: usize) -> Vec<Gate> {
    let gate = |random: &mut Random| match random.once_in(2) {
        true => random.cnot(m),
        false => random.gate(m),
    };
    (0..count).map(|_| gate(random)).collect()
}

/// The program's own sums under one start: 2^(3m) T is the sum of S^2 over the strings of the unread colour.
fn squares(program: &Program, m: usize, before: &str, unread: Colour) -> Result<(), String> {
    let amplitude = |read: [u32; 2], string: u32| {
        let mut output = [string; 3];
        let [first, second] = unread.others();
        output[first.number()] = read[0];
        output[second.number()] = read[1];
        format!("(amp {unread} {})", spelled(m, output))
    };
    let opened = |read: [u32; 2]| (0..1 << m).map(move |string| amplitude(read, string));
    let amplitudes: Vec<String> = pairs(m).flat_map(opened).collect();
    let parts: Vec<String> = pairs(m).map(|read| part(m, unread, read)).collect();
    let sums: Vec<i64> = counted(program, before, &amplitudes, "amp", 3 * m)?;
    let counts: Vec<i64> = counted(program, before, &parts, "part", 3 * m)?;
    let squares = sums
        .chunks(1 << m)
        .map(|several| several.iter().map(|s| s * s).sum::<i64>());
    match squares.eq(counts.iter().map(|count| count << (3 * m))) {
        true => Ok(()),
        false => Err(format!("S {sums:?}, T {counts:?} after {before}")),
    }
}

fn all_squares(checks: &mut Checks, random: &mut Random, seed: u64) {
    for m in 1..=3 {
        let circuit = started(random, m, 10 * m);
        let before = given_anywhere(random, &circuit);
        for unread in COLOURS {
            let name = format!("2^(3m) T by squares of S, seed {seed}, m = {m}, {unread} unread");
            checks.tally.check(&name, squares(&checks.program, m, &before, unread));
        }
    }
}

pub fn check(checks: &mut Checks) {
    by_hand::check(checks);
    for seed in checks.seeds.clone() {
        let mut random = Random::new(seed);
        every_line::check(checks, &mut random, seed);
        every_way::check(checks, &mut random, seed);
        all_squares(checks, &mut random, seed);
    }
}
