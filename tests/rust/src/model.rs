//! A model of the session: what documents 01 and 02 say a line is answered, written down a second time. Refusal 1 is
//! left out, since `session` lends a buffer that is long enough.

use crate::elimination::{Polynomial, one_colour, totals};
use crate::forms::Form;
use crate::gates::{Colour, Gate, Strings, word};
use crate::layers::touches_twice;
use crate::reference::FullSum;
use std::fmt;

/// Gates that the history of `session` holds.
pub const HISTORY: usize = 4096;

/// The largest m at which the model takes the full sum.
const FULL_SUM: usize = 4;

/// An answer: its first line and the later ones.
#[derive(Clone, PartialEq, Debug)]
pub struct Answer {
    pub first: String,
    pub later: Vec<String>,
}

impl Answer {
    /// The terms listed as they are given, in the order in which they are given.
    pub fn of_terms(terms: &[Gate]) -> Answer {
        Answer {
            first: format!("(terms {})", terms.len()),
            later: terms.iter().map(Gate::to_string).collect(),
        }
    }
}

impl From<String> for Answer {
    fn from(first: String) -> Answer {
        let later = Vec::new();
        Answer { first, later }
    }
}

/// The bytes of the answer.
impl fmt::Display for Answer {
    fn fmt(&self, f: &mut fmt::Formatter) -> fmt::Result {
        writeln!(f, "{}", self.first)?;
        self.later.iter().try_for_each(|line| writeln!(f, "{line}"))
    }
}

/// The answer to `terms`, for terms in any order: they are listed in that of document 02, requests d and f.
pub fn listing(terms: &[Gate]) -> Answer {
    let mut terms: Vec<Gate> = terms.iter().map(|term| term.listed()).collect();
    terms.sort_by_cached_key(|term| term.listing_key());
    Answer::of_terms(&terms)
}

#[derive(Clone, Debug)]
pub struct Circuit {
    pub m: usize,
    pub gates: Vec<Gate>,
    pub start: Strings,
}

impl Circuit {
    /// No gates, and a start of zeros.
    pub fn empty(m: usize) -> Circuit {
        Circuit {
            m,
            gates: Vec::new(),
            start: [0; 3],
        }
    }

    pub fn full_sum(&self) -> FullSum {
        FullSum::started(self.m, self.start, &self.gates)
    }

    pub fn polynomial(&self) -> Polynomial {
        Polynomial::started(self.m, self.start, &self.gates)
    }

    /// The terms that `terms` lists: those of the gates, whatever the start.
    pub fn terms(&self) -> Vec<Gate> {
        Polynomial::of(self.m, &self.gates).terms()
    }

    /// S at an output string.
    pub fn amplitude(&self, sliced: Colour, output: Strings) -> i64 {
        if self.m <= FULL_SUM {
            self.full_sum().amplitude(output)
        } else {
            totals(&self.polynomial(), sliced, output).amplitude
        }
    }

    pub fn readout(&self, unread: Colour, output: Strings) -> u64 {
        if self.m <= FULL_SUM {
            let read = unread.others().map(|colour| output[colour.number()]);
            let counted = self.full_sum().readout(unread, read);
            counted.expect("the squares add up to a multiple of 2^(3m)")
        } else {
            totals(&self.polynomial(), unread, output).readout
        }
    }

    /// The count N of a string of the one colour that is read.
    pub fn settings(&self, read: Colour, string: u32) -> u64 {
        if self.m <= FULL_SUM {
            let counted = self.full_sum().one_colour(read);
            counted.expect("the squares add up to multiples of 2^(4m)")[string as usize]
        } else {
            let [sliced, _] = read.others();
            one_colour(&self.polynomial(), read, sliced, string)
        }
    }
}

/// What an open sum is for, each with the colour that its line names.
#[derive(Clone, Copy)]
enum Asked {
    Amplitude { sliced: Colour },
    Readout { unread: Colour },
    OneColour { read: Colour },
}

/// An open sum, with the circuit as it stood when it was opened.
struct Sum {
    circuit: Circuit,
    asked: Asked,
    /// Zeros where a colour is unread.
    output: Strings,
    left: usize,
}

impl Sum {
    /// The line after the step that ends it. Nothing is worked out before, so a sum that is dropped costs nothing.
    fn ended(&self) -> String {
        let Sum { circuit, output, .. } = self;
        let m = circuit.m;
        match self.asked {
            Asked::Amplitude { sliced } => format!("(amp {} {})", circuit.amplitude(sliced, *output), 3 * m),
            Asked::Readout { unread } => format!("(part {} {})", circuit.readout(unread, *output), 3 * m),
            Asked::OneColour { read } => {
                let string = output[read.number()];
                format!("(one {} {})", circuit.settings(read, string), 2 * m)
            }
        }
    }
}

#[derive(Default)]
pub struct Model {
    circuit: Option<Circuit>,
    sum: Option<Sum>,
}

fn allowed(byte: u8) -> bool {
    byte.is_ascii_digit() || byte.is_ascii_lowercase() || b"( )".contains(&byte)
}

/// Whether a number of the form is outside its range, for a circuit of m positions.
fn outside(form: &Form, m: usize) -> bool {
    let gate = |gate: &Gate| gate.spots().iter().any(|spot| !(1..=m).contains(&spot.position));
    let number = match form {
        Form::Circuit(m) => !(1..=16).contains(m),
        Form::Layer(gates) => !(1..=48).contains(&gates.len()),
        Form::Undo(k) => !(1..=4096).contains(k),
        Form::Step(k) => !(1..=65536).contains(k),
        _ => false,
    };
    number || form.gates().iter().any(gate)
}

impl Model {
    pub fn circuit(&self) -> Option<&Circuit> {
        self.circuit.as_ref()
    }

    pub fn sum_is_open(&self) -> bool {
        self.sum.is_some()
    }

    /// The answer to a line; none to a line of no bytes.
    pub fn answer(&mut self, line: &[u8]) -> Option<Answer> {
        if line.is_empty() {
            return None;
        }
        Some(match self.read(line) {
            Ok(form) => self.take(form),
            Err(refusal) => format!("(no {refusal})").into(),
        })
    }

    /// The form of a line that is taken, or the refusal: the places from the top, each number in turn.
    fn read(&self, line: &[u8]) -> Result<Form, u32> {
        if line.len() > 1024 {
            return Err(2);
        }
        if !line.iter().all(|&byte| allowed(byte)) {
            return Err(3);
        }
        let text = std::str::from_utf8(line).or(Err(3u32))?;
        let form = Form::read(text).ok_or(4u32)?;
        let twice = |gate: &Gate| matches!(gate, Gate::Cz(a, b) if a.colour == b.colour);
        if form.gates().iter().any(twice) {
            return Err(5);
        }
        self.moment(&form)?;
        self.operands(&form)?;
        self.history(&form)?;
        Ok(form)
    }

    fn moment(&self, form: &Form) -> Result<(), u32> {
        let works_on_sum = matches!(form, Form::Step(_) | Form::Drop);
        if self.circuit.is_none() && !matches!(form, Form::Circuit(_)) {
            return Err(6);
        }
        match (self.sum.is_some(), works_on_sum) {
            (true, false) => Err(7),
            (false, true) => Err(8),
            _ => Ok(()),
        }
    }

    /// In the order 9, 10, 14, 11.
    fn operands(&self, form: &Form) -> Result<(), u32> {
        let m = self.circuit.as_ref().map_or(0, |circuit| circuit.m);
        let onto_itself = |gate: &Gate| matches!(gate, Gate::Cnot { control, target, .. } if control == target);
        if outside(form, m) {
            return Err(9);
        }
        if form.gates().iter().any(onto_itself) {
            return Err(10);
        }
        if matches!(form, Form::Layer(gates) if touches_twice(gates)) {
            return Err(14);
        }
        if form.strings().iter().any(|digits| digits.len() != m) {
            return Err(11);
        }
        Ok(())
    }

    fn history(&self, form: &Form) -> Result<(), u32> {
        let held = self.circuit.as_ref().map_or(0, |circuit| circuit.gates.len());
        match form {
            Form::Undo(k) if *k > held => Err(12),
            _ if form.gates().len() > HISTORY - held => Err(13),
            _ => Ok(()),
        }
    }

    /// A form that is not refused.
    fn take(&mut self, form: Form) -> Answer {
        if let Form::Circuit(m) = form {
            self.circuit = Some(Circuit::empty(m));
            return "(ok)".to_string().into();
        }
        let circuit = self.circuit.as_mut().expect("6 is tried before");
        match form {
            Form::Gate(_) | Form::Layer(_) => circuit.gates.extend(form.gates()),
            Form::Undo(k) => circuit.gates.truncate(circuit.gates.len() - k),
            Form::Start(strings) => circuit.start = strings.each_ref().map(|s| word(s)),
            Form::Drop => self.sum = None,
            Form::Terms => return listing(&circuit.terms()),
            Form::Amp(sliced, strings) => {
                let output = strings.each_ref().map(|s| word(s));
                return self.open(Asked::Amplitude { sliced }, output);
            }
            Form::Part(unread, strings) => {
                let mut output = [0; 3];
                for (colour, string) in unread.others().into_iter().zip(&strings) {
                    output[colour.number()] = word(string);
                }
                return self.open(Asked::Readout { unread }, output);
            }
            Form::One(read, string) => {
                let mut output = [0; 3];
                output[read.number()] = word(&string);
                return self.open(Asked::OneColour { read }, output);
            }
            Form::Step(k) => return self.step(k),
            Form::Circuit(_) => unreachable!(),
        }
        "(ok)".to_string().into()
    }

    fn open(&mut self, asked: Asked, output: Strings) -> Answer {
        let circuit = self.circuit.clone().expect("6 is tried before");
        let left = 1 << circuit.m;
        self.sum = Some(Sum {
            circuit,
            asked,
            output,
            left,
        });
        format!("(left {left})").into()
    }

    fn step(&mut self, k: usize) -> Answer {
        let sum = self.sum.as_mut().expect("8 is tried before");
        sum.left = sum.left.saturating_sub(k);
        if sum.left > 0 {
            return format!("(left {})", sum.left).into();
        }
        let ended = sum.ended();
        self.sum = None;
        ended.into()
    }

    /// All answer lines to an input, in the order in which `session` writes them.
    pub fn session(input: &[u8]) -> Vec<Answer> {
        let mut model = Model::default();
        let lines = input.split(|&byte| byte == b'\n');
        lines.filter_map(|line| model.answer(line)).collect()
    }
}
