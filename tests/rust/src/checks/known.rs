//! The worked listing, the known sums and the edges, as documents 01 and 02 give them.

use crate::Checks;
use crate::refusals::model_agrees;
use waitfield_checks::circuits::{block_ccz, every_position, every_z};
use waitfield_checks::gates::Colour::{Blue, Red};
use waitfield_checks::gates::{COLOURS, Gate, cnot, cz, z};
use waitfield_checks::layers::layer;
use waitfield_checks::model::listing;
use waitfield_checks::script::Script;

pub const LISTING: [(&str, &str); 9] = [
    ("(circuit 1)", "(ok)"),
    ("(ccz 1 1 1)", "(ok)"),
    ("(amp r 1 1 0)", "(left 2)"),
    ("(step 1)", "(left 1)"),
    ("(ccz 1 1 1)", "(no 7)"),
    ("(step 5)", "(amp -2 3)"),
    ("(undo 1)", "(ok)"),
    ("(terms)", "(terms 0)"),
    ("(cz (g 1) (g 1))", "(no 5)"),
];

pub struct Known {
    pub m: usize,
    /// None where it is left at zeros.
    pub start: Option<&'static str>,
    pub gates: Vec<Gate>,
    /// Output strings and their S.
    pub sums: &'static [(&'static str, i64)],
}

const CCZ: Gate = Gate::Ccz {
    red: 1,
    blue: 1,
    green: 1,
};

const CNOT: Gate = Gate::Cnot {
    colour: Red,
    control: 2,
    target: 1,
};

const CCZ_AND_Z: &[(&str, i64)] = &[("1 0 0", 6), ("0 0 0", 2), ("0 1 0", -2), ("0 1 1", 2), ("1 1 1", -2)];

/// The circuit of source document 001 on two blocks, with CCZ and these gates in its first stage.
fn two_blocks(in_first: &[Gate]) -> Vec<Gate> {
    let stage = [block_ccz(1), block_ccz(2)];
    let cnots = COLOURS.map(|colour| cnot(colour, 1, 2));
    [&stage, in_first, &cnots, &stage].concat()
}

pub fn known_sums() -> Vec<Known> {
    let started = |m, start, gates: &[Gate], sums| Known {
        m,
        start,
        gates: gates.to_vec(),
        sums,
    };
    let known = |m, gates: &[Gate], sums| started(m, None, gates, sums);
    vec![
        known(1, &[], &[("0 0 0", 8), ("1 0 0", 0)]),
        known(1, &[CCZ], &[("0 0 0", 6), ("1 0 0", 2), ("1 1 0", -2), ("1 1 1", 2)]),
        known(1, &[CCZ, CCZ], &[("0 0 0", 8)]),
        known(1, &[cz(Red, 1, Blue, 1)], &[("0 0 0", 4), ("1 1 0", -4), ("0 0 1", 0)]),
        known(2, &[CCZ, CNOT], &[("00 00 00", 48), ("11 00 00", 16), ("10 00 00", 0)]),
        known(2, &[CNOT, CCZ], &[("10 00 00", 16), ("11 00 00", 0)]),
        // The case of document 02, request e.
        started(
            2,
            Some("01 00 00"),
            &[cnot(Red, 1, 2)],
            &[("11 00 00", 64), ("01 00 00", 0)],
        ),
        // The case of document 02, request f; a Z twice, before and behind a CNOT; and the sums of a CCZ with red's bit
        // of the string turned.
        known(1, &[z(Red, 1)], &[("1 0 0", 8), ("0 0 0", 0)]),
        known(1, &[z(Red, 1), z(Red, 1)], &[("0 0 0", 8), ("1 0 0", 0)]),
        known(2, &[z(Red, 1), CNOT], &[("11 00 00", 64), ("10 00 00", 0)]),
        known(2, &[CNOT, z(Red, 1)], &[("10 00 00", 64), ("11 00 00", 0)]),
        known(1, &[CCZ, z(Red, 1)], CCZ_AND_Z),
        known(1, &[z(Red, 1), CCZ], CCZ_AND_Z),
        known(2, &two_blocks(&[]), &[("10 00 00", 4)]),
        // The CNOT brings red's Z on block 2 to both blocks.
        known(2, &two_blocks(&[z(Red, 2)]), &[("01 00 00", 4)]),
    ]
}

/// Readout counts for m = 1 and one CCZ, red unread.
const COUNTS: [(&str, u64); 4] = [("0 0", 5), ("0 1", 1), ("1 0", 1), ("1 1", 1)];

/// Counts N for m = 1 and one CCZ, green read: the start, the string of green, N. With a start of 1 green's bit turns
/// the sign once more, so 0 and 1 change places; the ones of the unread colours do not matter.
pub const ONE_COLOUR: [(&str, &str, u64); 5] = [
    ("0 0 0", "0", 3),
    ("0 0 0", "1", 1),
    ("1 1 0", "0", 3),
    ("0 0 1", "0", 1),
    ("1 0 1", "1", 3),
];

/// Counts for m = 1 and a Z on red.
const WITH_Z: [[&str; 2]; 6] = [
    ["(part g 1 0)", "(part 8 3)"],
    ["(part g 0 0)", "(part 0 3)"],
    ["(part r 0 0)", "(part 8 3)"],
    ["(one r 1)", "(one 4 2)"],
    ["(one r 0)", "(one 0 2)"],
    ["(one b 0)", "(one 4 2)"],
];

/// A known sum with every colour sliced.
fn known_sum(script: &mut Script, known: &Known, output: &str, s: i64) {
    let Known { m, start, gates, .. } = known;
    for colour in COLOURS {
        script.case(format!("S at {output} after {start:?} {gates:?}, sliced on {colour}"));
        script.say(format!("(circuit {m})"), "(ok)");
        if let Some(start) = start {
            script.say(format!("(start {start})"), "(ok)");
        }
        gates.iter().for_each(|gate| script.say(gate.to_string(), "(ok)"));
        script.line(format!("(amp {colour} {output})"), format!("(left {})", 1 << m));
        script.line("(step 65536)", format!("(amp {s} {})", 3 * m));
    }
}

fn sums(checks: &mut Checks) {
    let mut script = Script::default();
    for known in known_sums() {
        for &(output, s) in known.sums {
            known_sum(&mut script, &known, output, s);
        }
    }
    for (read, count) in COUNTS {
        script.case(format!("T at {read} after a CCZ, red unread"));
        script.say("(circuit 1)", "(ok)");
        script.say("(ccz 1 1 1)", "(ok)");
        script.say(format!("(part r {read})"), "(left 2)");
        script.line("(step 2)", format!("(part {count} 3)"));
    }
    for (start, read, count) in ONE_COLOUR {
        script.case(format!("N at {read} after a CCZ started at {start}, green read"));
        script.say("(circuit 1)", "(ok)");
        script.say("(ccz 1 1 1)", "(ok)");
        script.say(format!("(start {start})"), "(ok)");
        script.say(format!("(one g {read})"), "(left 2)");
        script.line("(step 2)", format!("(one {count} 2)"));
    }
    for [opened, ended] in WITH_Z {
        script.case(format!("{opened} after a Z on red"));
        script.say("(circuit 1)", "(ok)");
        script.say("(z (r 1))", "(ok)");
        script.say(opened, "(left 2)");
        script.say("(step 2)", ended);
    }
    script.case("two terms after a CCZ and a CNOT");
    script.say("(circuit 2)", "(ok)");
    script.say("(ccz 1 1 1)", "(ok)");
    script.say("(cnot r 2 1)", "(ok)");
    let other = Gate::Ccz {
        red: 2,
        blue: 1,
        green: 1,
    };
    script.line("(terms)", listing(&[CCZ, other]));
    checks.run(&script);
    model_agrees(checks, &script, "known sums");
}

/// A line of the given length that has a form: `(circuit 1..)` with as many digits as it takes.
pub fn long_circuit(length: usize) -> String {
    format!("(circuit {})", "1".repeat(length - "(circuit )".len()))
}

fn edges(checks: &mut Checks) {
    let mut script = Script::default();
    let mut edge = |line: String, answer: &str| {
        script.case(format!("{answer} to {} bytes: {line:.40}", line.len()));
        script.say(line, answer);
    };
    for m in 1..=16 {
        edge(format!("(circuit {m})"), "(ok)");
    }
    edge("(circuit 17)".into(), "(no 9)");
    edge("(circuit 0)".into(), "(no 9)");
    edge(long_circuit(1023), "(no 9)");
    edge(long_circuit(1024), "(no 9)");
    edge(long_circuit(1025), "(no 2)");
    for gate in [cz(Red, 16, Blue, 16), CNOT, CCZ, z(Blue, 16)] {
        edge(layer(&[gate]), "(ok)");
        // What 48 of one gate show is that 9 is not given.
        for count in [2, 24, 25, 47, 48] {
            edge(layer(&vec![gate; count]), "(no 14)");
        }
        edge(layer(&vec![gate; 49]), "(no 9)");
    }
    edge(layer(&every_position(16)), "(ok)");
    let all = every_z(16);
    edge(layer(&all[..47]), "(ok)");
    edge(layer(&all), "(ok)");
    // A 49th has no position left, and the number of gates is tried before.
    all.iter()
        .for_each(|&gate| edge(layer(&[&all[..], &[gate]].concat()), "(no 9)"));
    edge("(layer)".into(), "(no 9)");
    // Four single gates and layers of 24, 47 and 48 are held, no more.
    edge("(undo 124)".into(), "(no 12)");
    edge("(undo 123)".into(), "(ok)");
    checks.run(&script);
    model_agrees(checks, &script, "edges");
}

pub fn check(checks: &mut Checks) {
    let mut script = Script::default();
    script.case("the worked listing");
    LISTING.iter().for_each(|(line, answer)| script.say(line, answer));
    checks.run(&script);
    sums(checks);
    edges(checks);
}
