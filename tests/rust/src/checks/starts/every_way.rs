//! One circuit under one start, given in every way: the same sums, and those of a start of zeros at other strings.

use super::{carried, given, start_line, text, with_cnots};
use crate::Checks;
use crate::one_colour::{one_of_each, opened};
use crate::z_gates::shift;
use waitfield_checks::gates::{COLOURS, Gate, Strings, added};
use waitfield_checks::model::{Circuit, HISTORY};
use waitfield_checks::program::Program;
use waitfield_checks::random::Random;
use waitfield_checks::script::answers;

/// The sizes at which one circuit is given in many ways, with its gates and those that are taken back. The last fills
/// the history.
const GIVEN: [(usize, usize, usize); 6] = [
    (2, 12, 6),
    (3, 20, 10),
    (4, 30, 20),
    (7, 100, 60),
    (11, 300, 100),
    (16, 3000, HISTORY - 3000),
];

/// The lines of a circuit in the ways in which it comes to its start: before, between and behind its gates, and with
/// more gates and another start that are taken back or replaced.
fn ways(random: &mut Random, circuit: &Circuit, more: &[Gate]) -> Vec<(&'static str, Vec<String>)> {
    let m = circuit.m;
    let lines = |gates: &[Gate]| -> Vec<String> { gates.iter().map(Gate::to_string).collect() };
    let (first, rest) = circuit.gates.split_at(random.below(circuit.gates.len()));
    let [first, rest, more] = [first, rest, more].map(lines);
    let [set, other] = [circuit.start, random.strings(m)].map(|start| vec![start_line(m, start)]);
    let begun = vec![format!("(circuit {m})")];
    let undo = vec![format!("(undo {})", more.len())];
    let ways: [(&str, &[&Vec<String>]); 7] = [
        ("before the gates", &[&set, &first, &rest]),
        ("between the gates", &[&first, &set, &rest]),
        ("behind the gates", &[&first, &rest, &set]),
        ("before gates that are taken back", &[&first, &set, &rest, &more, &undo]),
        ("behind gates that are taken back", &[&first, &rest, &more, &set, &undo]),
        ("behind an undo", &[&first, &rest, &more, &undo, &set]),
        (
            "in place of others",
            &[&other, &first, &set, &rest, &other, &more, &set, &other, &undo, &set],
        ),
    ];
    let whole = |parts: &[&Vec<String>]| [&[&begun], parts].concat().into_iter().flatten().cloned().collect();
    ways.map(|(name, parts)| (name, whole(parts))).to_vec()
}

/// The program's answers that end the sums opened behind some lines.
pub fn ended(program: &Program, before: &[String], opened: &[String]) -> Result<Vec<String>, String> {
    let sums: String = opened.iter().map(|line| format!("{line}\n(step 65536)\n")).collect();
    let output = program.run((text(before) + &sums).as_bytes())?;
    let ends = |line: &String| ["(amp ", "(part ", "(one "].iter().any(|word| line.starts_with(word));
    let lines = answers(&output).0.into_iter().map(|answer| answer.first);
    Ok(lines.filter(ends).collect())
}

/// The lines that open sums of every kind on every colour at some strings.
pub fn opened_at(m: usize, outputs: &[Strings]) -> Vec<String> {
    let at = |&output: &Strings| COLOURS.map(|colour| opened(m, colour, output));
    outputs.iter().flat_map(at).flatten().collect()
}

/// The answers that end them, by the full sum or the elimination.
pub fn ended_at(circuit: &Circuit, outputs: &[Strings]) -> Vec<String> {
    let at = |&output: &Strings| COLOURS.map(|colour| one_of_each(circuit, colour, output));
    let asked = outputs.iter().flat_map(at).flatten();
    asked.map(|[_, answer]| answer).collect()
}

/// One circuit under one start in every way, and started at zeros, where a sum at s is asked for at s with the carried
/// start added.
fn in_every_way(checks: &mut Checks, random: &mut Random, seed: u64, (m, count, undone): (usize, usize, usize)) {
    let [gates, more] = [count, undone].map(|count| with_cnots(random, m, count));
    let start = random.strings(m);
    let circuit = Circuit { m, gates, start };
    let outputs = [shift(start, &circuit.gates), random.strings(m)];
    let expected = ended_at(&circuit, &outputs);
    let mut check = |name: &str, before: &[String], outputs: &[Strings]| {
        let name = format!("a start {name}, seed {seed}, m = {m}");
        let found = ended(&checks.program, before, &opened_at(m, outputs));
        checks.tally.equal(&name, found, Ok(expected.clone()));
    };
    for (name, before) in ways(random, &circuit, &more) {
        check(name, &before, &outputs);
    }
    let ends = carried(start, &circuit.gates);
    let zeros = Circuit {
        start: [0; 3],
        ..circuit
    };
    let shifted = outputs.map(|output| added(output, ends));
    check("of zeros, the carried one added", &given(&zeros, 0), &shifted);
}

pub fn check(checks: &mut Checks, random: &mut Random, seed: u64) {
    for size in GIVEN {
        in_every_way(checks, random, seed, size);
    }
}
