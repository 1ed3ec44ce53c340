//! The worked examples of the folder examples/: NAME.in and the expected output NAME.out.

use crate::Checks;
use crate::z_gates::{flushed, without_z};
use std::fs;
use std::path::PathBuf;
use waitfield_checks::circuits::hypercube;
use waitfield_checks::elimination::{Polynomial, totals};
use waitfield_checks::forms::Form;
use waitfield_checks::gates::{Colour, Strings, added};
use waitfield_checks::layers::touches_twice;
use waitfield_checks::model::{Answer, Model};
use waitfield_checks::program::repository;
use waitfield_checks::worked::{self, TURNED};

/// The inputs in the folder, by name.
fn inputs() -> Result<Vec<PathBuf>, String> {
    let folder = repository().join("examples");
    let entries = fs::read_dir(&folder).map_err(|error| format!("{}: {error}", folder.display()))?;
    let paths = entries.filter_map(|entry| Some(entry.ok()?.path()));
    let mut inputs: Vec<PathBuf> = paths
        .filter(|path| path.extension().is_some_and(|e| e == "in"))
        .collect();
    inputs.sort();
    Ok(inputs)
}

/// Whether every layer of an input can be fired.
fn layers(input: &str) -> Result<(), String> {
    for line in input.lines() {
        let Some(Form::Layer(gates)) = Form::read(line) else {
            continue;
        };
        if touches_twice(&gates) {
            return Err(format!("{line} touches a position twice"));
        }
    }
    Ok(())
}

/// The hypercube's Z gates by hand, as a user has to do who has none: the circuit without them gives at a string what
/// the circuit with them gives at the string with their bits turned, as amplitude and as readout count.
fn hypercube_by_hand(checks: &mut Checks) {
    let gates = hypercube(4).concat();
    checks
        .tally
        .equal("the bits that the hypercube's Z gates turn", flushed(&gates), TURNED);
    let [with, without] = [&gates, &without_z(&gates)].map(|gates| Polynomial::of(16, gates));
    let numbers = |polynomial: &Polynomial, sliced: Colour, output: Strings| {
        let totals = totals(polynomial, sliced, output);
        (totals.amplitude, totals.readout)
    };
    for (sliced, output) in [
        (Colour::Red, [0; 3]),
        (Colour::Blue, [1, 0, 0]),
        (Colour::Green, [0xffff; 3]),
    ] {
        let name = format!("the hypercube with and without Z gates at {output:x?}");
        let found = numbers(&with, sliced, added(output, TURNED));
        checks.tally.equal(&name, found, numbers(&without, sliced, output));
    }
}

pub fn check(checks: &mut Checks) {
    hypercube_by_hand(checks);
    let inputs = match inputs() {
        Ok(inputs) => inputs,
        Err(error) => return checks.tally.check("examples", Err(error)),
    };
    checks
        .tally
        .equal("examples in the folder", inputs.len(), worked::NAMES.len());
    for path in inputs {
        let name = path.display().to_string();
        let read = |path: &PathBuf| fs::read_to_string(path).map_err(|error| format!("{}: {error}", path.display()));
        let files = (read(&path), read(&path.with_extension("out")));
        let (input, expected) = match files {
            (Ok(input), Ok(expected)) => (input, expected),
            (Err(error), _) | (_, Err(error)) => {
                checks.tally.check(&name, Err(error));
                continue;
            }
        };
        checks
            .tally
            .check(&format!("{name}: its layers can be fired"), layers(&input));
        let answers = Model::session(input.as_bytes());
        let model: String = answers.iter().map(Answer::to_string).collect();
        checks.tally.equal(&format!("{name}: the model"), &model, &expected);
        let found = checks.program.run(input.as_bytes());
        let found = found.map(|output| String::from_utf8_lossy(&output).into_owned());
        checks.tally.equal(&name, found, Ok(expected));
    }
    for (name, text) in worked::generated() {
        let path = repository().join("examples").join(name).with_extension("in");
        let held = fs::read_to_string(path).unwrap_or_default();
        checks
            .tally
            .equal(&format!("{name}.in is what its generator writes"), held, text);
    }
}
