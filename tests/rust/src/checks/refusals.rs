//! Every refusal at its edges, and every pair of refusals that can meet in one line. Refused lines change nothing, so all
//! lines of a moment go to one process, and the last lines show that circuit, history, start and sum are as before.

mod forms;
mod operands;
mod pairs;

use crate::Checks;
use crate::circuits::in_layers;
use waitfield_checks::gates::{Colour, Gate, Spot};
use waitfield_checks::model::{HISTORY, Model, listing};
use waitfield_checks::script::Script;

/// What has gone before a line.
#[derive(Clone, Copy, PartialEq, Debug)]
pub enum Moment {
    /// No circuit.
    Fresh,
    /// Two positions a colour, a start, a CNOT that moves it, and a CCZ.
    Held,
    /// The same with a sum open.
    Open,
    /// The same with a count of one colour read open.
    OneOpen,
    /// The same with 4,096 gates, all but the first the CCZ.
    Full,
    /// The same with a sum open.
    FullOpen,
}

use Moment::{Fresh, Full, FullOpen, Held, OneOpen, Open};

const MOMENTS: [Moment; 6] = [Fresh, Held, Open, OneOpen, Full, FullOpen];

/// The gates that are held.
const CNOT: Gate = Gate::Cnot {
    colour: Colour::Blue,
    control: 1,
    target: 2,
};
const GATE: Gate = Gate::Ccz {
    red: 1,
    blue: 2,
    green: 1,
};

/// A gate that is never refused by 5 or by 10.
const Z: Gate = Gate::Z(Spot {
    colour: Colour::Blue,
    position: 1,
});

fn begin(script: &mut Script, moment: Moment) {
    script.case(format!("{moment:?}: lines before"));
    if moment == Fresh {
        return;
    }
    script.say("(circuit 2)", "(ok)");
    script.say("(start 00 01 00)", "(ok)");
    script.say(CNOT.to_string(), "(ok)");
    match moment {
        Full | FullOpen => in_layers(script, &[GATE; HISTORY - 1]),
        _ => script.say(GATE.to_string(), "(ok)"),
    }
    let opened = match moment {
        Open | FullOpen => "(amp b 00 11 00)",
        OneOpen => "(one b 11)",
        _ => return,
    };
    script.say(opened, "(left 4)");
    script.say("(step 1)", "(left 3)");
}

/// The lines that show what is held. The CNOT moves the start of blue from 01 to 11. There S is 48 with one CCZ, or an
/// odd number of the same, T is 40 and N 12. Once all gates are taken back S is 64 at the start as it was given.
fn end(script: &mut Script, moment: Moment) {
    script.case(format!("{moment:?}: nothing changed"));
    let gates = match moment {
        Fresh => return script.say("(circuit 2)", "(ok)"),
        Held | Open | OneOpen => 2,
        Full | FullOpen => HISTORY,
    };
    let [amplitude, readout, one_colour] = ["(amp 48 6)", "(part 40 6)", "(one 12 4)"];
    if matches!(moment, Open | OneOpen | FullOpen) {
        script.say("(step 2)", "(left 1)");
        script.say("(step 1)", if moment == OneOpen { one_colour } else { amplitude });
    }
    script.line("(terms)", listing(&[GATE]));
    script.say("(amp r 00 11 00)", "(left 4)");
    script.say("(step 4)", amplitude);
    script.say("(part g 00 11)", "(left 4)");
    script.say("(step 4)", readout);
    script.say("(one b 11)", "(left 4)");
    script.say("(step 4)", one_colour);
    script.line(format!("(undo {gates})"), "(ok)".to_string());
    script.say("(undo 1)", "(no 12)");
    script.say("(amp r 00 01 00)", "(left 4)");
    script.say("(step 4)", "(amp 64 6)");
}

/// A line, the moments at which it is given, and its refusal.
pub struct Refused {
    line: Vec<u8>,
    moments: Vec<Moment>,
    number: u32,
    why: String,
}

pub fn refused(line: impl Into<Vec<u8>>, moments: &[Moment], number: u32, why: &str) -> Refused {
    Refused {
        line: line.into(),
        moments: moments.to_vec(),
        number,
        why: why.to_string(),
    }
}

pub fn check(checks: &mut Checks) {
    let tables = [forms::table(), operands::table(), pairs::table()];
    let lines: Vec<Refused> = tables.into_iter().flatten().collect();
    for moment in MOMENTS {
        let mut script = Script::default();
        begin(&mut script, moment);
        for line in lines.iter().filter(|line| line.moments.contains(&moment)) {
            let text: String = line.line.escape_ascii().to_string();
            script.case(format!("{moment:?}: {} by {}, {text:.60}", line.why, line.number));
            script.line(&line.line, format!("(no {})", line.number));
        }
        end(&mut script, moment);
        checks.run(&script);
        model_agrees(checks, &script, &format!("{moment:?}"));
    }
}

/// The model is held to the same answers, since the random lines are judged by it.
pub fn model_agrees(checks: &mut Checks, script: &Script, name: &str) {
    let mut model = Model::default();
    let outcome = script.answered_by(|line| model.answer(line));
    checks
        .tally
        .check(&format!("{name}: the model on the same lines"), outcome);
}
