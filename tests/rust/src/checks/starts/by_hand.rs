//! Starts with CNOTs alone, where all of S is at one string, and document 01's sums for a CCZ moved by a start.

use super::start_line;
use crate::Checks;
use crate::one_colour::{self, Asked, opened, paired};
use crate::readouts::pairs;
use crate::refusals::model_agrees;
use waitfield_checks::gates::{COLOURS, Colour, Strings, cnot, strings};
use waitfield_checks::model::listing;
use waitfield_checks::script::Script;

/// Cases of two positions with CNOTs alone, the first the one of document 02: lines that follow on those before, and
/// the string that the start ends as.
const BY_HAND: [(&str, &[&str], &str); 16] = [
    (
        "a start and then a CNOT",
        &["(circuit 2)", "(start 01 00 00)", "(cnot r 1 2)"],
        "11 00 00",
    ),
    ("its CNOT taken back", &["(undo 1)"], "01 00 00"),
    ("its CNOT given again", &["(cnot r 1 2)"], "11 00 00"),
    (
        "a CNOT and then a start",
        &["(circuit 2)", "(cnot r 1 2)", "(start 01 00 00)"],
        "11 00 00",
    ),
    ("the CNOT before it taken back", &["(undo 1)"], "01 00 00"),
    ("another start behind an undo", &["(start 10 00 00)"], "10 00 00"),
    ("a CNOT whose target has a 0", &["(cnot r 1 2)"], "10 00 00"),
    ("the same turned round", &["(undo 1)", "(cnot r 2 1)"], "11 00 00"),
    ("its start given again", &["(start 10 00 00)"], "11 00 00"),
    (
        "a start between two CNOTs",
        &["(circuit 2)", "(cnot r 1 2)", "(start 01 00 00)", "(cnot r 2 1)"],
        "10 00 00",
    ),
    ("the second taken back", &["(undo 1)"], "11 00 00"),
    ("both taken back", &["(undo 1)"], "01 00 00"),
    (
        "a start and a layer of CNOTs",
        &[
            "(circuit 2)",
            "(start 01 10 11)",
            "(layer (cnot r 1 2) (cnot b 2 1) (cnot g 1 2))",
        ],
        "11 11 01",
    ),
    ("two gates of the layer taken back", &["(undo 2)"], "11 10 11"),
    ("a start of zeros", &["(start 00 00 00)"], "00 00 00"),
    (
        "a new circuit behind a start",
        &["(start 01 11 10)", "(circuit 2)", "(cnot r 1 2)"],
        "00 00 00",
    ),
];

/// Output strings and their S.
type Amplitudes = &'static [(&'static str, i64)];

/// Document 01's sums for a CCZ and a CNOT, moved by the start: S is 48, 16 and 0 at 00, 11 and 10 of red after the CCZ
/// and then the CNOT, 16 and 0 at 10 and 11 after the CNOT and then the CCZ. Either CNOT moves a start of 10 to 11.
const WITH_CCZ: [(&[&str], Amplitudes); 2] = [
    (
        &["(ccz 1 1 1)", "(cnot r 2 1)"],
        &[("11 00 00", 48), ("00 00 00", 16), ("01 00 00", 0)],
    ),
    (
        &["(cnot r 2 1)", "(ccz 1 1 1)"],
        &[("01 00 00", 16), ("00 00 00", 0), ("11 00 00", 48)],
    ),
];

/// All three strings of m positions.
pub fn every_string(m: usize) -> impl Iterator<Item = Strings> {
    pairs(m).flat_map(move |[red, blue]| (0..1 << m).map(move |green| [red, blue, green]))
}

/// The sums of a circuit of CNOTs alone whose start ends as a string, or of CNOTs and Z gates that shift the sums by
/// it: all is at that string. S is 2^(3m) there and 0 elsewhere, a count is the most that it can be if the read colours
/// have that string and else 0.
pub fn all_at(m: usize, ends: Strings, colour: Colour, output: Strings) -> [Asked; 3] {
    let agrees = |colour: &Colour| output[colour.number()] == ends[colour.number()];
    let number = |read: &[Colour], most: u64| if read.iter().all(agrees) { most } else { 0 };
    let s = number(&COLOURS, 1 << (3 * m)) as i64;
    let t = number(&colour.others(), 1 << (3 * m));
    let n = number(&[colour], 1 << (2 * m));
    paired(opened(m, colour, output), one_colour::ends(m, s, t, n))
}

pub fn ask(script: &mut Script, m: usize, [line, answer]: Asked) {
    script.line(line, format!("(left {})", 1 << m));
    script.line("(step 65536)", answer);
}

fn by_hand(checks: &mut Checks) {
    let mut script = Script::default();
    for (name, lines, ends) in BY_HAND {
        script.case(name);
        lines.iter().for_each(|line| script.say(line, "(ok)"));
        script.line("(terms)", listing(&[]));
        for output in every_string(2) {
            let sums = COLOURS.map(|colour| all_at(2, strings(ends), colour, output));
            sums.into_iter().flatten().for_each(|asked| ask(&mut script, 2, asked));
        }
    }
    for (gates, sums) in WITH_CCZ {
        script.case(format!("{} under a start", gates.concat()));
        script.say("(circuit 2)", "(ok)");
        script.say("(start 10 00 00)", "(ok)");
        gates.iter().for_each(|gate| script.say(gate, "(ok)"));
        for &(output, s) in sums {
            for colour in COLOURS {
                let asked = [format!("(amp {colour} {output})"), format!("(amp {s} 6)")];
                ask(&mut script, 2, asked);
            }
        }
    }
    checks.run(&script);
    model_agrees(checks, &script, "starts by hand");
}

/// CNOTs along a colour, each with the next position as its target, the last first: a one of the last position comes to
/// one position more by each. The other way round it comes to one position more by the last of them alone.
fn chain(script: &mut Script, m: usize, colour: Colour) {
    // Ones of the last so many positions.
    let last = |count: usize| {
        let mut strings = [0; 3];
        strings[colour.number()] = (1 << m) - (1 << (m - count));
        strings
    };
    let ends_as = |script: &mut Script, count: usize| {
        for output in [last(1), last(count)] {
            let sums = all_at(m, last(count), colour, output);
            sums.into_iter().for_each(|asked| ask(script, m, asked));
        }
    };
    let cnot = |p: usize| cnot(colour, p, p + 1).to_string();
    script.say(format!("(circuit {m})"), "(ok)");
    script.say(start_line(m, last(1)), "(ok)");
    for p in (1..m).rev() {
        script.say(cnot(p), "(ok)");
        ends_as(script, m - p + 1);
    }
    script.say(format!("(undo {})", m - 1), "(ok)");
    (1..m).for_each(|p| script.say(cnot(p), "(ok)"));
    ends_as(script, 2);
}

fn chains(checks: &mut Checks) {
    for m in [2, 3, 8, 16] {
        let mut script = Script::default();
        for colour in COLOURS {
            script.case(format!("a start carried along {colour}, m = {m}"));
            chain(&mut script, m, colour);
        }
        checks.run(&script);
        // The model takes its time at 16 positions.
        if m <= 8 {
            model_agrees(checks, &script, &format!("starts carried along a colour, m = {m}"));
        }
    }
}

pub fn check(checks: &mut Checks) {
    by_hand(checks);
    chains(checks);
}
