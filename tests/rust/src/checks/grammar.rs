//! Random lines, most of them right and some with a mistake, against the model.

use crate::Checks;
use waitfield_checks::forms::Form;
use waitfield_checks::gates::{Gate, cnot, cz, digits, z};
use waitfield_checks::layers::{layer, layers, touches_twice};
use waitfield_checks::model::{HISTORY, Model};
use waitfield_checks::random::Random;
use waitfield_checks::script::Script;

/// Lines for a seed, and how many of them make one check.
const LINES: usize = 6000;
const IN_A_CHECK: usize = 50;

/// Layers, and Z gates, before there is a circuit.
const LAYERS: usize = 50;

/// Random lines for a circuit of m positions. One that fills the history gives no new circuit and takes little back.
struct Writer {
    random: Random,
    m: usize,
    fills: bool,
}

impl Writer {
    /// A number from 1 to `most`, or one with a mistake.
    fn number(&mut self, most: usize) -> String {
        match self.random.below(60) {
            0 => "0".into(),
            1 => (most + 1).to_string(),
            2 => format!("0{}", self.random.below(10)),
            3 => "9".repeat(self.random.pick(&[3, 20, 40, 300, 1100])),
            4 => self.random.pick(&["r", "a1", "1a", "()", ""]).into(),
            _ => (1 + self.random.below(most)).to_string(),
        }
    }

    fn bits(&mut self) -> String {
        let bits = digits(self.m, self.random.string(self.m));
        match self.random.below(60) {
            0 => format!("{bits}0"),
            1 => bits[1..].into(),
            2 => bits.replace('0', "2"),
            3 => "01".repeat(self.random.pick(&[10, 100, 600])),
            _ => bits,
        }
    }

    fn colour(&mut self) -> String {
        match self.random.below(80) {
            0 => self.random.pick(&["x", "rb", "0", "red"]).into(),
            _ => self.random.colour().to_string(),
        }
    }

    /// A Z, one outside the circuit, or something near to one that has not its form.
    fn z(&mut self) -> String {
        let (colour, position) = (self.colour(), self.number(self.m));
        match self.random.below(20) {
            0 => format!("(z {colour} {position})"),
            1 => format!("(z ({colour} {position}) (b 1))"),
            2 => self.random.pick(&["(z)", "(z ())", "(z ((r 1)))", "(zz (r 1))"]).into(),
            3 => format!("(z ({colour} {}))", self.m + 1),
            4 => format!("(z ({colour} 0))"),
            _ => format!("(z ({colour} {position}))"),
        }
    }

    fn gate(&mut self) -> String {
        let m = self.m;
        match self.random.below(8) {
            0 | 1 => format!("(ccz {} {} {})", self.number(m), self.number(m), self.number(m)),
            2 | 3 if self.random.once_in(6) => {
                format!(
                    "(cz ({} {}) ({} {}))",
                    self.colour(),
                    self.number(m),
                    self.colour(),
                    self.number(m)
                )
            }
            2 | 3 => self.random.cz(m).to_string(),
            4 | 5 => self.z(),
            _ if m > 1 && !self.random.once_in(10) => self.random.cnot(m).to_string(),
            _ => format!("(cnot {} {} {})", self.colour(), self.number(m), self.number(m)),
        }
    }

    /// A gate that is refused by 5, 9 or 10.
    fn wrong_gate(&mut self) -> Gate {
        let (m, colour) = (self.m, self.random.colour());
        let [p, q] = [0; 2].map(|_| self.random.position(m));
        match self.random.below(6) {
            0 | 1 => cz(colour, p, colour, q),
            2 => cnot(colour, p, m + 1),
            3 => z(colour, self.random.pick(&[0, m + 1])),
            _ => cnot(colour, p, p),
        }
    }

    /// Three layers in seven can be fired. Most of the others touch a position twice, whatever else is wrong with them.
    fn layer(&mut self) -> String {
        let count = self.random.pick(&[0, 1, 2, 3, 4, 5, 6, 20, 48, 49]);
        match self.random.below(7) {
            0..=2 => layer(&self.random.layer(self.m, count)),
            3 | 4 => {
                let mut gates = self.random.gates(self.m, count);
                gates.extend([self.wrong_gate(), self.random.z(self.m)]);
                layer(&self.random.shuffled(&gates))
            }
            _ if count > 6 => layer(&self.random.gates(self.m, count)),
            _ => {
                let gates: Vec<String> = (0..count).map(|_| format!(" {}", self.gate())).collect();
                format!("(layer{})", gates.concat())
            }
        }
    }

    /// Small circuits mostly, since the model takes its time for the others.
    fn circuit(&mut self) -> String {
        let most = self.random.pick(&[4, 4, 4, 4, 4, 4, 4, 8, 8, 16]);
        format!("(circuit {})", self.number(most))
    }

    fn step(&mut self) -> String {
        let most = self.random.pick(&[1, 1 << self.m, 1 << (self.m + 1), 65536]);
        format!("(step {})", self.number(most))
    }

    fn form(&mut self, sum_is_open: bool) -> String {
        if sum_is_open && !self.random.once_in(3) {
            return if self.random.once_in(6) {
                "(drop)".into()
            } else {
                self.step()
            };
        }
        match self.random.below(40) {
            0 | 17 if self.fills => self.layer(),
            0 => self.circuit(),
            1 => "(drop)".into(),
            2 => self.step(),
            3..=5 => "(terms)".into(),
            6 | 7 => format!("(start {} {} {})", self.bits(), self.bits(), self.bits()),
            8..=12 => format!(
                "(amp {} {} {} {})",
                self.colour(),
                self.bits(),
                self.bits(),
                self.bits()
            ),
            13..=16 => format!("(part {} {} {})", self.colour(), self.bits(), self.bits()),
            17 => format!("(undo {})", self.number(HISTORY)),
            18..=21 => format!("(undo {})", self.number(4)),
            22..=25 => self.layer(),
            26..=28 => format!("(one {} {})", self.colour(), self.bits()),
            _ => self.gate(),
        }
    }

    /// A byte of the line cut, doubled, put in or replaced.
    fn damaged(&mut self, line: String) -> Vec<u8> {
        let mut bytes = line.into_bytes();
        let place = self.random.below(bytes.len());
        let other = self.random.pick(b"() 0129rbgacz\0\r\t-AZ\xff\x80\n");
        match self.random.below(4) {
            0 => drop(bytes.remove(place)),
            1 => bytes.insert(place, bytes[place]),
            2 => bytes.insert(place, other),
            _ => bytes[place] = other,
        }
        bytes
    }

    fn line(&mut self, model: &Model) -> Vec<u8> {
        self.m = model.circuit().map_or(2, |circuit| circuit.m);
        let form = self.form(model.sum_is_open());
        let mut line = match self.random.below(25) {
            0 => self.damaged(form),
            1 => Vec::new(),
            _ => form.into_bytes(),
        };
        line.push(b'\n');
        line
    }
}

fn lines(script: &mut Script, model: &mut Model, writer: &mut Writer, name: &str, count: usize) {
    for number in 0..count {
        if number % IN_A_CHECK == 0 {
            script.case(format!("{name}, lines from {number} on"));
        }
        let line = writer.line(model);
        script.bytes(model, &line);
    }
}

/// The lines themselves: they must have met every kind of answer often enough to mean something.
pub fn covered(checks: &mut Checks, script: &Script, name: &str, answers: &[&str]) {
    covered_by(checks, script, &format!("{name}: by any line"), answers, |_| true);
}

fn covered_by(checks: &mut Checks, script: &Script, name: &str, answers: &[&str], is_meant: fn(&[u8]) -> bool) {
    for answer in answers {
        let count = script.expected(answer, is_meant);
        let outcome = if count >= 5 {
            Ok(())
        } else {
            Err(format!("expected {count} times only"))
        };
        checks.tally.check(&format!("{name} {answer} is met"), outcome);
    }
}

/// Whether a line is a layer that touches a position twice, a CNOT on itself not counted.
fn is_clash(line: &[u8]) -> bool {
    let Some(Form::Layer(mut gates)) = std::str::from_utf8(line).ok().and_then(Form::read) else {
        return false;
    };
    gates.retain(|gate| !matches!(gate, Gate::Cnot { control, target, .. } if control == target));
    touches_twice(&gates)
}

/// The same for layers that 14 fits, beside what else they are refused by.
fn covered_by_clashes(checks: &mut Checks, script: &Script, name: &str, answers: &[&str]) {
    let name = format!("{name}: by a layer that touches a position twice");
    covered_by(checks, script, &name, answers, is_clash);
}

const MET: [&str; 18] = [
    "(ok)", "(left ", "(amp ", "(amp -", "(part ", "(one ", "(terms ", "(no 2)", "(no 3)", "(no 4)", "(no 5)",
    "(no 7)", "(no 8)", "(no 9)", "(no 10)", "(no 11)", "(no 12)", "(no 14)",
];

const MET_BY_CLASHES: [&str; 6] = ["(no 5)", "(no 6)", "(no 7)", "(no 9)", "(no 10)", "(no 14)"];

/// A Z gate has no refusal of its own: in a layer it may stand beside what 5 and 10 are for.
const MET_BY_Z: [&str; 5] = ["(ok)", "(no 4)", "(no 6)", "(no 7)", "(no 9)"];
const MET_BY_LAYERS_WITH_Z: [&str; 7] = ["(ok)", "(no 4)", "(no 5)", "(no 7)", "(no 9)", "(no 10)", "(no 14)"];

fn begins_with_z(line: &[u8]) -> bool {
    line.starts_with(b"(z")
}

fn is_layer_with_z(line: &[u8]) -> bool {
    line.starts_with(b"(layer") && line.windows(3).any(|bytes| bytes == b"(z ")
}

fn any_lines(checks: &mut Checks, writer: &mut Writer, seed: u64) {
    let name = format!("random lines, seed {seed}");
    let (mut script, mut model) = (Script::default(), Model::default());
    script.case(format!("{name}: layers and Z gates with no circuit"));
    for _ in 0..LAYERS {
        let lines = format!("{}\n{}\n", writer.layer(), writer.z());
        script.bytes(&mut model, lines.as_bytes());
    }
    lines(&mut script, &mut model, writer, &name, LINES);
    checks.run(&script);
    covered(checks, &script, &name, &MET);
    covered_by_clashes(checks, &script, &name, &MET_BY_CLASHES);
    covered_by(checks, &script, &format!("{name}: by a Z"), &MET_BY_Z, begins_with_z);
    let layers = format!("{name}: by a layer with a Z");
    covered_by(checks, &script, &layers, &MET_BY_LAYERS_WITH_Z, is_layer_with_z);
}

/// Lines on a history that is filled up again and again.
fn lines_on_full_history(checks: &mut Checks, writer: &mut Writer, seed: u64) {
    let name = format!("random lines on a full history, seed {seed}");
    let (mut script, mut model) = (Script::default(), Model::default());
    script.case(format!("{name}: circuit"));
    script.bytes(&mut model, b"(circuit 2)\n");
    for part in 1..=5 {
        let name = format!("{name}, part {part}");
        script.case(format!("{name}: filled up"));
        script.bytes(&mut model, b"(drop)\n");
        let held = model.circuit().map_or(0, |circuit| circuit.gates.len());
        for several in layers(&writer.random.gates(2, HISTORY - held)) {
            script.bytes(&mut model, format!("{}\n", layer(&several)).as_bytes());
        }
        lines(&mut script, &mut model, writer, &name, 600);
    }
    checks.run(&script);
    covered(checks, &script, &name, &["(no 13)"]);
    covered_by_clashes(checks, &script, &name, &["(no 14)"]);
    covered_by(checks, &script, &format!("{name}: by a Z"), &["(no 13)"], begins_with_z);
}

pub fn check(checks: &mut Checks) {
    for seed in checks.seeds.clone() {
        let mut writer = Writer {
            random: Random::new(seed),
            m: 2,
            fills: false,
        };
        any_lines(checks, &mut writer, seed);
        writer.fills = true;
        lines_on_full_history(checks, &mut writer, seed);
    }
}
