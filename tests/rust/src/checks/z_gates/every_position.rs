//! A Z on every position of sixteen, given and taken back in any order, and carried by every CNOT.

use crate::Checks;
use crate::refusals::model_agrees;
use waitfield_checks::circuits::every_z;
use waitfield_checks::gates::{COLOURS, Colour, Gate, cnot, z};
use waitfield_checks::model::listing;
use waitfield_checks::random::Random;
use waitfield_checks::script::Script;

/// Every position as a line of its own: the listing behind each, and behind each undo.
fn one_by_one(script: &mut Script, gates: &[Gate]) {
    script.say("(circuit 16)", "(ok)");
    for (place, gate) in gates.iter().enumerate() {
        script.say(gate.to_string(), "(ok)");
        script.line("(terms)", listing(&gates[..=place]));
    }
    for held in (0..gates.len()).rev() {
        script.say("(undo 1)", "(ok)");
        script.line("(terms)", listing(&gates[..held]));
    }
}

/// Every CNOT of a colour, with a Z on its target, with one on its control, and with both. It adds the Z on the control
/// where there is one on the target; taken back, it leaves what was before.
fn every_cnot(script: &mut Script, colour: Colour) {
    script.say("(circuit 16)", "(ok)");
    let pairs = (1..=16).flat_map(|c| (1..=16).map(move |t| (c, t)));
    for (control, target) in pairs.filter(|(control, target)| control != target) {
        let [on_control, on_target] = [control, target].map(|position| z(colour, position));
        let cases: [(&[Gate], &[Gate]); 3] = [
            (&[on_target], &[on_control, on_target]),
            (&[on_control], &[on_control]),
            (&[on_control, on_target], &[on_target]),
        ];
        for (before, after) in cases {
            before.iter().for_each(|gate| script.say(gate.to_string(), "(ok)"));
            script.say(cnot(colour, control, target).to_string(), "(ok)");
            script.line("(terms)", listing(after));
            script.say("(undo 1)", "(ok)");
            script.line("(terms)", listing(before));
            script.say(format!("(undo {})", before.len()), "(ok)");
        }
    }
    script.say("(undo 1)", "(no 12)");
}

pub fn check(checks: &mut Checks, random: &mut Random, seed: u64) {
    let mut script = Script::default();
    script.case(format!("a Z on every position one by one, seed {seed}"));
    one_by_one(&mut script, &random.shuffled(&every_z(16)));
    for colour in COLOURS {
        script.case(format!("a Z and every CNOT of {colour}, seed {seed}"));
        every_cnot(&mut script, colour);
    }
    checks.run(&script);
    model_agrees(checks, &script, &format!("Z gates on every position, seed {seed}"));
}
