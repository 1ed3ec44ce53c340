//! The history of 4,096 gates: filled, overfull, taken back and used again, under starts given before, between and
//! behind the gates.

use crate::Checks;
use crate::circuits::in_layers;
use crate::starts::start_line;
use crate::z_gates::shift;
use waitfield_checks::elimination::Polynomial;
use waitfield_checks::gates::{COLOURS, Gate, Strings, cnot, spelled, z};
use waitfield_checks::layers::layer;
use waitfield_checks::model::{HISTORY, listing};
use waitfield_checks::random::Random;
use waitfield_checks::reference::FullSum;
use waitfield_checks::script::Script;

/// Terms, and amplitudes at the string that start and Z gates shift the sums by and at any, by the full sum.
fn seen(script: &mut Script, random: &mut Random, m: usize, start: Strings, gates: &[Gate]) {
    let terms = FullSum::of(m, gates).terms();
    script.line("(terms)", listing(&terms.expect("the reference's own checks say so")));
    let full = FullSum::started(m, start, gates);
    for output in [shift(start, gates), random.strings(m)] {
        let (colour, s) = (random.colour(), full.amplitude(output));
        let line = format!("(amp {colour} {})", spelled(m, output));
        script.line(line, format!("(left {})", 1 << m));
        script.line("(step 65536)", format!("(amp {s} {})", 3 * m));
    }
}

fn set_start(script: &mut Script, random: &mut Random, m: usize) -> Strings {
    let start = random.strings(m);
    script.say(start_line(m, start), "(ok)");
    start
}

fn overfull(script: &mut Script, random: &mut Random, m: usize) {
    let gate = random.gate(m).to_string();
    for line in [&gate, "(ccz 1 1 1)", "(cz (g 1) (r 2))", "(cnot b 2 1)", "(z (g 2))"] {
        script.say(line, "(no 13)");
    }
    for count in [1, 2, 3] {
        script.say(layer(&random.layer(m, count)), "(no 13)");
    }
    script.say(layer(&random.gates(m, 48)), "(no 14)");
    script.say(layer(&random.gates(m, 49)), "(no 9)");
}

/// A layer with a CNOT in each colour.
fn one_a_colour() -> [Gate; 3] {
    COLOURS.map(|colour| cnot(colour, 1, 2))
}

fn filled_and_taken_back(script: &mut Script, random: &mut Random, m: usize) {
    let gates = random.gates(m, HISTORY);
    script.case(format!("4,096 gates taken, m = {m}"));
    script.line(format!("(circuit {m})"), "(ok)".to_string());
    let mut start = set_start(script, random, m);
    in_layers(script, &gates[..2000]);
    gates[2000..4000]
        .iter()
        .for_each(|gate| script.say(gate.to_string(), "(ok)"));
    in_layers(script, &gates[4000..]);
    seen(script, random, m, start, &gates);
    script.case(format!("the 4,097th gate refused, m = {m}"));
    overfull(script, random, m);
    seen(script, random, m, start, &gates);
    script.case(format!("another start behind 4,096 gates, m = {m}"));
    start = set_start(script, random, m);
    seen(script, random, m, start, &gates);
    script.case(format!("room for two gates, m = {m}"));
    script.say("(undo 2)", "(ok)");
    let three = one_a_colour();
    script.say(layer(&three), "(no 13)");
    script.say(layer(&COLOURS.map(|colour| z(colour, 2))), "(no 13)");
    seen(script, random, m, start, &gates[..4094]);
    script.say(layer(&three[1..]), "(ok)");
    overfull(script, random, m);
    seen(script, random, m, start, &[&gates[..4094], &three[1..]].concat());
    taken_back(script, random, m, start, &gates);
}

/// The gates of a full history taken back again and again. The start stays until another is given.
fn taken_back(script: &mut Script, random: &mut Random, m: usize, mut start: Strings, gates: &[Gate]) {
    let mut held = HISTORY;
    for fewer in [4093, 4000, 1025, 1024, 1, 0] {
        script.case(format!("taken back to {fewer} gates, m = {m}"));
        script.say(format!("(undo {})", held - fewer), "(ok)");
        script.say(format!("(undo {})", fewer + 1), "(no 12)");
        seen(script, random, m, start, &gates[..fewer]);
        if fewer == 1025 {
            start = set_start(script, random, m);
            seen(script, random, m, start, &gates[..fewer]);
        }
        held = fewer;
    }
}

/// All 4,096 gates at once, then the room used again, and a new circuit with an empty history.
fn used_again(script: &mut Script, random: &mut Random, m: usize) {
    script.case(format!("4,096 gates taken back at once, m = {m}"));
    script.line(format!("(circuit {m})"), "(ok)".to_string());
    in_layers(script, &random.gates(m, HISTORY));
    script.say("(undo 4097)", "(no 9)");
    script.say("(undo 4096)", "(ok)");
    script.say("(undo 1)", "(no 12)");
    script.say("(undo 4096)", "(no 12)");
    seen(script, random, m, [0; 3], &[]);
    script.case(format!("room given back used again, m = {m}"));
    let gates = random.gates(m, HISTORY);
    in_layers(script, &gates[..1000]);
    let start = set_start(script, random, m);
    in_layers(script, &gates[1000..]);
    overfull(script, random, m);
    seen(script, random, m, start, &gates);
    script.case(format!(
        "a new circuit has an empty history and a start of zeros, m = {m}"
    ));
    script.line(format!("(circuit {m})"), "(ok)".to_string());
    script.say("(undo 1)", "(no 12)");
    in_layers(script, &gates);
    script.say("(ccz 1 1 1)", "(no 13)");
    script.say("(z (r 1))", "(no 13)");
    seen(script, random, m, [0; 3], &gates);
}

/// The largest circuit: its terms after 4,096 gates and after most of them are taken back, by the elimination's polynomial.
fn largest(script: &mut Script, random: &mut Random) {
    let m = 16;
    let gates = random.gates(m, HISTORY);
    script.case("4,096 gates taken, m = 16");
    script.say("(circuit 16)", "(ok)");
    in_layers(script, &gates);
    script.line("(terms)", listing(&Polynomial::of(m, &gates).terms()));
    script.say("(ccz 16 16 16)", "(no 13)");
    let mut held = HISTORY;
    for fewer in [3000, 500, 100, 20, 0] {
        script.case(format!("taken back to {fewer} gates, m = 16"));
        script.say(format!("(undo {})", held - fewer), "(ok)");
        script.line("(terms)", listing(&Polynomial::of(m, &gates[..fewer]).terms()));
        held = fewer;
    }
}

pub fn check(checks: &mut Checks) {
    for seed in checks.seeds.clone() {
        let mut random = Random::new(seed);
        let mut script = Script::default();
        for m in 2..=3 {
            filled_and_taken_back(&mut script, &mut random, m);
            used_again(&mut script, &mut random, m);
        }
        largest(&mut script, &mut random);
        checks.run(&script);
    }
}
