//! Readout counts against sums of squares, and their total over all read strings, with starts at any place.

use crate::Checks;
use crate::circuits::sum;
use crate::starts::{given, given_anywhere, start_line, started};
use std::str::FromStr;
use waitfield_checks::gates::{COLOURS, Colour, digits};
use waitfield_checks::model::Circuit;
use waitfield_checks::program::Program;
use waitfield_checks::random::Random;
use waitfield_checks::script::{Script, answers};

/// Circuits for a seed at m = 1, 2 and 3.
const CIRCUITS: [(usize, usize); 3] = [(1, 20), (2, 20), (3, 2)];

/// Every pair of read strings, each answered as the squares of the full sum say.
fn counts(script: &mut Script, random: &mut Random, circuit: &Circuit) {
    let (m, full) = (circuit.m, circuit.full_sum());
    for unread in COLOURS {
        for read in pairs(m) {
            let squares = full.readout(unread, read);
            let count = squares.expect("the reference's own checks say so");
            let line = part(m, unread, read);
            sum(script, random, m, line, format!("(part {count} {})", 3 * m));
        }
    }
}

/// All pairs of strings.
pub fn pairs(m: usize) -> impl Iterator<Item = [u32; 2]> {
    (0..1 << (2 * m)).map(move |pair| [pair & ((1 << m) - 1), pair >> m])
}

pub fn part(m: usize, unread: Colour, [x, y]: [u32; 2]) -> String {
    format!("(part {unread} {} {})", digits(m, x), digits(m, y))
}

/// The program's own numbers after some lines: those of its answers `(WORD NUMBER n)` to the sums that are opened.
pub fn counted<N: FromStr>(
    program: &Program,
    before: &str,
    opened: &[String],
    word: &str,
    n: usize,
) -> Result<Vec<N>, String> {
    let worked: Vec<String> = opened.iter().map(|line| format!("{line}\n(step 65536)\n")).collect();
    let output = program.run([before, &worked.concat()].concat().as_bytes())?;
    let (prefix, suffix) = (format!("({word} "), format!(" {n})"));
    let count = |line: &str| line.strip_prefix(&prefix)?.strip_suffix(&suffix)?.parse().ok();
    let answers = answers(&output).0.into_iter();
    let counts: Vec<N> = answers.filter_map(|answer| count(&answer.first)).collect();
    match counts.len() == opened.len() {
        true => Ok(counts),
        false => Err(format!("{} numbers of {}", counts.len(), opened.len())),
    }
}

/// The program's own counts over all pairs of read strings under one start: they add up to 2^(3m), whatever the circuit.
fn total(program: &Program, m: usize, before: &str, unread: Colour) -> Result<u64, String> {
    let opened: Vec<String> = pairs(m).map(|read| part(m, unread, read)).collect();
    let counts: Vec<u64> = counted(program, before, &opened, "part", 3 * m)?;
    Ok(counts.iter().sum())
}

/// All counts of a circuit started at zeros, then of a start behind its gates, and of one that is given between them.
fn by_squares(script: &mut Script, random: &mut Random, m: usize) {
    let count = random.below(20);
    let mut circuit = started(random, m, count);
    script.line(format!("(circuit {m})"), "(ok)".to_string());
    circuit
        .gates
        .iter()
        .for_each(|gate| script.say(gate.to_string(), "(ok)"));
    let zeros = Circuit {
        start: [0; 3],
        ..circuit.clone()
    };
    counts(script, random, &zeros);
    script.say(start_line(m, circuit.start), "(ok)");
    counts(script, random, &circuit);
    circuit.start = random.strings(m);
    let place = random.below(count + 1);
    given(&circuit, place).iter().for_each(|line| script.say(line, "(ok)"));
    counts(script, random, &circuit);
}

pub fn check(checks: &mut Checks) {
    for seed in checks.seeds.clone() {
        let mut random = Random::new(seed);
        let mut script = Script::default();
        for (m, circuits) in CIRCUITS {
            for number in 0..circuits {
                script.case(format!("counts by squares, seed {seed}, m = {m}, circuit {number}"));
                by_squares(&mut script, &mut random, m);
            }
        }
        checks.run(&script);
        for m in 1..=5 {
            let circuit = started(&mut random, m, 12 * m);
            let before = given_anywhere(&mut random, &circuit);
            for unread in COLOURS {
                let name = format!("counts add up to 2^(3m), seed {seed}, m = {m}, {unread} unread");
                let found = total(&checks.program, m, &before, unread);
                checks.tally.equal(&name, found, Ok(1 << (3 * m)));
            }
        }
    }
}
