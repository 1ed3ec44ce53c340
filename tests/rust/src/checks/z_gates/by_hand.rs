//! Z gates with CNOTs and starts alone, where all of S is at one string; document 01's sums for a CCZ with bits of the
//! string turned; and a Z on each of 48 positions.

use crate::Checks;
use crate::refusals::model_agrees;
use crate::starts::by_hand::{all_at, ask, every_string};
use waitfield_checks::circuits::every_z;
use waitfield_checks::gates::{COLOURS, Gate, cnot, strings};
use waitfield_checks::layers::layer;
use waitfield_checks::model::{Answer, listing};
use waitfield_checks::script::Script;

/// Lines that follow on those before, the terms then, and the string at which all of S is.
struct Case {
    name: &'static str,
    lines: &'static [&'static str],
    terms: &'static [&'static str],
    all_at: &'static str,
}

/// Cases of two positions without CCZ and CZ.
#[rustfmt::skip]
const CASES: [Case; 22] = [
    Case { name: "a Z", lines: &["(circuit 2)", "(z (r 2))"], terms: &["(z (r 2))"], all_at: "01 00 00" },
    Case { name: "a CNOT onto it", lines: &["(cnot r 1 2)"], terms: &["(z (r 1))", "(z (r 2))"], all_at: "11 00 00" },
    Case { name: "the CNOT taken back", lines: &["(undo 1)"], terms: &["(z (r 2))"], all_at: "01 00 00" },
    Case { name: "a CNOT from it", lines: &["(cnot r 2 1)"], terms: &["(z (r 2))"], all_at: "01 00 00" },
    Case { name: "CNOT and Z taken back", lines: &["(undo 2)"], terms: &[], all_at: "00 00 00" },
    Case {
        name: "a Z behind a CNOT", lines: &["(cnot r 1 2)", "(z (r 2))"],
        terms: &["(z (r 2))"], all_at: "01 00 00",
    },
    Case { name: "the CNOT again", lines: &["(cnot r 1 2)"], terms: &["(z (r 1))", "(z (r 2))"], all_at: "11 00 00" },
    Case { name: "what came to the control, gone", lines: &["(z (r 1))"], terms: &["(z (r 2))"], all_at: "01 00 00" },
    Case { name: "what is left, gone", lines: &["(z (r 2))"], terms: &[], all_at: "00 00 00" },
    Case { name: "both taken back", lines: &["(undo 2)"], terms: &["(z (r 1))", "(z (r 2))"], all_at: "11 00 00" },
    Case { name: "Z and CNOT taken back", lines: &["(undo 2)"], terms: &[], all_at: "00 00 00" },
    Case { name: "a Z twice", lines: &["(circuit 2)", "(z (g 1))", "(z (g 1))"], terms: &[], all_at: "00 00 00" },
    Case {
        name: "a layer of Z", lines: &["(circuit 2)", "(layer (z (g 2)) (z (r 1)) (z (b 2)))"],
        terms: &["(z (r 1))", "(z (b 2))", "(z (g 2))"], all_at: "10 01 01",
    },
    Case {
        name: "its last gate taken back", lines: &["(undo 1)"],
        terms: &["(z (r 1))", "(z (g 2))"], all_at: "10 00 01",
    },
    Case {
        name: "a layer of CNOTs behind it", lines: &["(layer (cnot r 2 1) (cnot b 1 2) (cnot g 1 2))"],
        terms: &["(z (r 1))", "(z (r 2))", "(z (g 1))", "(z (g 2))"], all_at: "11 00 11",
    },
    Case {
        name: "a CNOT and Z in a layer",
        lines: &["(circuit 2)", "(z (r 1))", "(layer (z (b 2)) (cnot r 2 1) (z (b 1)))"],
        terms: &["(z (r 1))", "(z (r 2))", "(z (b 1))", "(z (b 2))"], all_at: "11 11 00",
    },
    Case {
        name: "a start and a Z", lines: &["(circuit 2)", "(start 01 00 00)", "(z (r 1))"],
        terms: &["(z (r 1))"], all_at: "11 00 00",
    },
    // The CNOT brings the start to 11, and leaves the Z on its control.
    Case { name: "a CNOT behind them", lines: &["(cnot r 1 2)"], terms: &["(z (r 1))"], all_at: "01 00 00" },
    Case { name: "another start", lines: &["(start 10 00 00)"], terms: &["(z (r 1))"], all_at: "00 00 00" },
    Case {
        name: "a Z and a start at one position", lines: &["(circuit 2)", "(z (b 2))", "(start 00 01 00)"],
        terms: &["(z (b 2))"], all_at: "00 00 00",
    },
    Case {
        name: "both brought to another by a CNOT", lines: &["(cnot b 1 2)"],
        terms: &["(z (b 1))", "(z (b 2))"], all_at: "00 00 00",
    },
    Case { name: "a new circuit", lines: &["(circuit 2)"], terms: &[], all_at: "00 00 00" },
];

fn without_ccz(script: &mut Script) {
    for case in CASES {
        script.case(case.name);
        case.lines.iter().for_each(|line| script.say(line, "(ok)"));
        let listed = Answer {
            first: format!("(terms {})", case.terms.len()),
            later: case.terms.iter().map(ToString::to_string).collect(),
        };
        script.line("(terms)", listed);
        for output in every_string(2) {
            let sums = COLOURS.map(|colour| all_at(2, strings(case.all_at), colour, output));
            sums.into_iter().flatten().for_each(|asked| ask(script, 2, asked));
        }
    }
}

/// A Z beside document 01's CCZ at m = 1: sums by the table of one CCZ with the bit of the Z turned. A Z on an unread
/// colour changes no count.
const WITH_CCZ: [(&str, &[[&str; 2]]); 4] = [
    (
        "(z (r 1))",
        &[
            ["(amp r 1 0 0)", "(amp 6 3)"],
            ["(amp g 0 0 0)", "(amp 2 3)"],
            ["(amp b 0 1 0)", "(amp -2 3)"],
            ["(part r 0 0)", "(part 5 3)"],
            ["(part b 1 0)", "(part 5 3)"],
            ["(part g 0 0)", "(part 1 3)"],
            ["(one r 1)", "(one 3 2)"],
            ["(one r 0)", "(one 1 2)"],
            ["(one g 0)", "(one 3 2)"],
        ],
    ),
    (
        "(z (b 1))",
        &[
            ["(amp r 0 1 0)", "(amp 6 3)"],
            ["(amp g 1 0 1)", "(amp 2 3)"],
            ["(part r 1 0)", "(part 5 3)"],
            ["(part r 0 0)", "(part 1 3)"],
            ["(part b 0 0)", "(part 5 3)"],
            ["(one b 1)", "(one 3 2)"],
            ["(one r 0)", "(one 3 2)"],
        ],
    ),
    (
        "(z (g 1))",
        &[
            ["(amp b 0 0 1)", "(amp 6 3)"],
            ["(amp r 1 1 1)", "(amp -2 3)"],
            ["(part g 0 0)", "(part 5 3)"],
            ["(part r 0 1)", "(part 5 3)"],
            ["(one g 1)", "(one 3 2)"],
            ["(one g 0)", "(one 1 2)"],
        ],
    ),
    (
        "(layer (z (g 1)) (z (r 1)) (z (b 1)))",
        &[
            ["(amp r 1 1 1)", "(amp 6 3)"],
            ["(amp r 0 0 0)", "(amp 2 3)"],
            ["(part r 1 1)", "(part 5 3)"],
            ["(part g 1 0)", "(part 1 3)"],
            ["(one b 1)", "(one 3 2)"],
        ],
    ),
];

/// The Z before the CCZ and behind it, and taken back.
fn with_ccz(script: &mut Script) {
    for (turned, sums) in WITH_CCZ {
        for lines in [[turned, "(ccz 1 1 1)"], ["(ccz 1 1 1)", turned]] {
            script.case(lines.concat());
            script.say("(circuit 1)", "(ok)");
            lines.iter().for_each(|line| script.say(line, "(ok)"));
            sums.iter().for_each(|asked| ask(script, 1, asked.map(str::to_string)));
        }
        script.case(format!("{turned} taken back"));
        script.say(format!("(undo {})", turned.matches("(z ").count()), "(ok)");
        ask(script, 1, ["(amp r 0 0 0)", "(amp 6 3)"].map(str::to_string));
    }
}

/// A Z on each of 48 positions in one layer: all of S, which is 2^48, is at the string of ones. A CNOT of each colour
/// brings the last position's Z to the first, where there is one already.
fn all_positions(script: &mut Script) {
    let ones = [0xffff; 3];
    let gates = every_z(16);
    script.case("a layer of 48 Z gates");
    script.say("(circuit 16)", "(ok)");
    script.say(layer(&gates), "(ok)");
    script.line("(terms)", listing(&gates));
    for colour in COLOURS {
        let opened = format!("(amp {colour} {0} {0} {0})", "1".repeat(16));
        ask(script, 16, [opened, "(amp 281474976710656 48)".into()]);
        for output in [ones, [0; 3], [0xffff, 0xffff, 0xfffe], [0x7fff, 0xffff, 0xffff]] {
            all_at(16, ones, colour, output)
                .into_iter()
                .for_each(|asked| ask(script, 16, asked));
        }
    }
    script.case("a CNOT of each colour behind 48 Z gates");
    let cnots = COLOURS.map(|colour| cnot(colour, 1, 16));
    script.say(layer(&cnots), "(ok)");
    let left: Vec<Gate> = gates
        .iter()
        .filter(|gate| gate.spots()[0].position > 1)
        .copied()
        .collect();
    script.line("(terms)", listing(&left));
    for output in [[0xfffe; 3], ones] {
        let sums = COLOURS.map(|colour| all_at(16, [0xfffe; 3], colour, output));
        sums.into_iter().flatten().for_each(|asked| ask(script, 16, asked));
    }
    script.case("48 Z gates taken back one by one");
    script.say("(undo 3)", "(ok)");
    for held in (0..gates.len()).rev() {
        script.say("(undo 1)", "(ok)");
        script.line("(terms)", listing(&gates[..held]));
    }
    script.say("(undo 1)", "(no 12)");
}

pub fn check(checks: &mut Checks) {
    let mut script = Script::default();
    without_ccz(&mut script);
    with_ccz(&mut script);
    checks.run(&script);
    model_agrees(checks, &script, "Z gates by hand");
    let mut script = Script::default();
    all_positions(&mut script);
    checks.run(&script);
}
