//! Checks of the built program `session` against the full sum and a model of the session. Every check is counted; the last line
//! says how many passed and how many failed. Arguments choose groups by a part of their name.

mod at_once;
mod circuits;
mod damaged;
mod documents;
mod examples;
mod grammar;
mod history;
mod known;
mod large;
mod layers;
mod listings;
mod middle;
mod one_colour;
mod own;
mod readouts;
mod refusals;
mod starts;
mod steps;
mod streams;
mod z_gates;

use std::process::ExitCode;
use waitfield_checks::program::Program;
use waitfield_checks::script::{Script, Tally};

/// Seeds of every run. WAITFIELD_SEED adds one, WAITFIELD_ROUNDS that many from there on.
const SEEDS: [u64; 2] = [1, 2];
const FURTHER_SEEDS: u64 = 1000;

pub struct Checks {
    program: Program,
    tally: Tally,
    seeds: Vec<u64>,
}

impl Checks {
    fn from_environment() -> Checks {
        let number = |name| {
            let value = std::env::var(name).ok()?;
            Some(
                value
                    .parse::<u64>()
                    .unwrap_or_else(|_| panic!("{name} is no number: {value}")),
            )
        };
        let seed = number("WAITFIELD_SEED");
        let rounds = number("WAITFIELD_ROUNDS").unwrap_or(seed.is_some().into());
        let first = seed.unwrap_or(FURTHER_SEEDS);
        Checks {
            program: Program::from_environment(),
            tally: Tally::default(),
            seeds: SEEDS.into_iter().chain(first..first + rounds).collect(),
        }
    }

    fn run(&mut self, script: &Script) {
        script.run(&self.program, &mut self.tally);
    }
}

/// Checks about one thing.
type Group = fn(&mut Checks);

/// The groups by name, in the order in which they run, and each as a test of its own for `cargo test`.
macro_rules! groups {
    ($($name:literal: $module:ident,)*) => {
        const GROUPS: &[(&str, Group)] = &[$(($name, $module::check)),*];

        #[cfg(test)]
        mod tests {
            $(
                #[test]
                fn $module() {
                    super::passes(super::$module::check);
                }
            )*
        }
    };
}

groups! {
    "reference and model": own,
    "known sums and edges": known,
    "listings": listings,
    "random circuits": circuits,
    "readout counts": readouts,
    "one colour read": one_colour,
    "starting strings": starts,
    "Z gates": z_gates,
    "middle circuits": middle,
    "large circuits": large,
    "steps and blocks": steps,
    "refusals": refusals,
    "layers": layers,
    "history": history,
    "damaged input": damaged,
    "random lines": grammar,
    "answers at once": at_once,
    "failed and slow streams": streams,
    "examples": examples,
    "sessions in the documents": documents,
}

/// What differed is printed as it is found, and `cargo test` shows it with the failure.
#[cfg(test)]
fn passes(group: Group) {
    let mut checks = Checks::from_environment();
    group(&mut checks);
    let Tally { passed, failed } = checks.tally;
    assert!(failed == 0 && passed > 0, "{passed} passed, {failed} failed");
}

fn main() -> ExitCode {
    let mut checks = Checks::from_environment();
    if !checks.program.exists() {
        println!("{} is not there", checks.program.path.display());
    }
    let chosen: Vec<String> = std::env::args().skip(1).collect();
    let is_chosen = |name: &str| chosen.is_empty() || chosen.iter().any(|part| name.contains(part));
    for (name, group) in GROUPS.iter().filter(|(name, _)| is_chosen(name)) {
        let before = (checks.tally.passed, checks.tally.failed);
        group(&mut checks);
        let passed = checks.tally.passed - before.0;
        let failed = checks.tally.failed - before.1;
        println!("{name}: {passed} passed, {failed} failed");
    }
    println!("{} passed, {} failed", checks.tally.passed, checks.tally.failed);
    ExitCode::from(u8::from(checks.tally.failed > 0))
}
