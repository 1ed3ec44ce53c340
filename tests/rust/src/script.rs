//! Lines for the program with the answers that are expected, and the count of the checks made on them.

use crate::model::{Answer, Model};
use crate::program::Program;

/// Failed checks that are printed; further ones are counted only.
const PRINTED: usize = 40;

#[derive(Default)]
pub struct Tally {
    pub passed: usize,
    pub failed: usize,
}

impl Tally {
    pub fn check(&mut self, name: &str, outcome: Result<(), String>) {
        match outcome {
            Ok(()) => self.passed += 1,
            Err(difference) => {
                self.failed += 1;
                if self.failed <= PRINTED {
                    println!("FAILED {name}: {difference}");
                }
            }
        }
    }

    pub fn equal<T: PartialEq + std::fmt::Debug>(&mut self, name: &str, found: T, expected: T) {
        let differ = || format!("found {found:?}, expected {expected:?}");
        let outcome = if found == expected { Ok(()) } else { Err(differ()) };
        self.check(name, outcome);
    }
}

/// A line and its answer.
pub struct Expected {
    pub line: Vec<u8>,
    pub answer: Answer,
}

/// One check: some lines of the script and their answers.
struct Case {
    name: String,
    expected: Vec<Expected>,
}

/// The input of one process, cut into cases.
#[derive(Default)]
pub struct Script {
    input: Vec<u8>,
    cases: Vec<Case>,
}

impl Script {
    /// The lines that follow belong to a new check.
    pub fn case(&mut self, name: impl Into<String>) {
        self.cases.push(Case {
            name: name.into(),
            expected: Vec::new(),
        });
    }

    /// A line with bytes in it, and its answer.
    pub fn line(&mut self, line: impl AsRef<[u8]>, answer: impl Into<Answer>) {
        let line = line.as_ref();
        self.input.extend_from_slice(line);
        self.input.push(b'\n');
        self.expect(line, answer.into());
    }

    /// The same with the answer written as a word.
    pub fn say(&mut self, line: impl AsRef<[u8]>, answer: &str) {
        self.line(line, answer.to_string());
    }

    /// A line of no bytes, which has no answer.
    pub fn empty_line(&mut self) {
        self.input.push(b'\n');
    }

    /// Any bytes, line feeds among them; the model says what is answered. A last line without a line feed must come last.
    pub fn bytes(&mut self, model: &mut Model, bytes: &[u8]) {
        self.input.extend_from_slice(bytes);
        for line in bytes.split(|&byte| byte == b'\n') {
            if let Some(answer) = model.answer(line) {
                self.expect(line, answer);
            }
        }
    }

    fn expect(&mut self, line: &[u8], answer: Answer) {
        let case = self.cases.last_mut().expect("a case is begun first");
        case.expected.push(Expected {
            line: line.to_vec(),
            answer,
        });
    }

    /// How many of the lines that are meant have an answer that begins so.
    pub fn expected(&self, first: &str, is_meant: impl Fn(&[u8]) -> bool) -> usize {
        let all = self.cases.iter().flat_map(|case| &case.expected);
        let found = all.filter(|expected| expected.answer.first.starts_with(first));
        found.filter(|expected| is_meant(&expected.line)).count()
    }

    /// The expected answers against those of somebody else.
    pub fn answered_by(&self, mut other: impl FnMut(&[u8]) -> Option<Answer>) -> Result<(), String> {
        let mut all = self.cases.iter().flat_map(|case| &case.expected);
        all.try_for_each(|expected| expected.compare(other(&expected.line)))
    }

    pub fn run(&self, program: &Program, tally: &mut Tally) {
        self.run_in_pieces(program, tally, usize::MAX);
    }

    /// A check for each case, and one that nothing else was written.
    pub fn run_in_pieces(&self, program: &Program, tally: &mut Tally, size: usize) {
        let output = match program.run_in_pieces(&self.input, size) {
            Ok(output) => output,
            Err(error) => {
                for case in &self.cases {
                    tally.check(&case.name, Err(error.clone()));
                }
                return;
            }
        };
        let (answers, rest) = answers(&output);
        let mut found = answers.into_iter();
        for case in &self.cases {
            let outcomes: Vec<_> = case.expected.iter().map(|e| e.compare(found.next())).collect();
            tally.check(&case.name, outcomes.into_iter().collect());
        }
        let name = format!("{}: end of the output", self.cases[0].name);
        let more = found.next().map(|answer| answer.first);
        tally.equal(&name, (more, shown(&rest)), (None, String::new()));
    }
}

impl Expected {
    pub fn compare(&self, found: Option<Answer>) -> Result<(), String> {
        if found.as_ref() == Some(&self.answer) {
            return Ok(());
        }
        let line = shown(&self.line);
        let Some(found) = found else {
            return Err(format!("{line} had no answer, expected {}", self.answer.first));
        };
        Err(format!(
            "{line} was answered {}, expected {}{}",
            shown(found.first.as_bytes()),
            self.answer.first,
            difference(&found.later, &self.answer.later)
        ))
    }
}

/// The first line at which two listings differ, counted from 1 behind `(terms N)`; nothing if they are the same.
fn difference(found: &[String], expected: &[String]) -> String {
    let longer = found.len().max(expected.len());
    let Some(place) = (0..longer).find(|&place| found.get(place) != expected.get(place)) else {
        return String::new();
    };
    let [found, expected] = [found, expected].map(|lines| match lines.get(place) {
        Some(line) => shown(line.as_bytes()),
        None => "nothing".into(),
    });
    format!("; line {} of the listing {found}, expected {expected}", place + 1)
}

/// Bytes for a message: escaped, the middle of long ones left out.
pub fn shown(bytes: &[u8]) -> String {
    let text = bytes.escape_ascii().to_string();
    match text.len() {
        0..=120 => text,
        length => format!("{}..{} ({length})", &text[..60], &text[length - 20..]),
    }
}

/// The output as answers, and the bytes after its last line feed. The lines after a `(terms N)` are its listing, as many as N says.
pub fn answers(output: &[u8]) -> (Vec<Answer>, Vec<u8>) {
    let mut lines: Vec<&[u8]> = output.split(|&byte| byte == b'\n').collect();
    let rest = lines.pop().unwrap_or_default().to_vec();
    let mut lines = lines.into_iter().map(|line| String::from_utf8_lossy(line).into_owned());
    let mut answers = Vec::new();
    while let Some(first) = lines.next() {
        let count = first.strip_prefix("(terms ").and_then(|n| n.strip_suffix(')'));
        let count = count.and_then(|n| n.parse().ok()).unwrap_or(0);
        let later = lines.by_ref().take(count).collect();
        answers.push(Answer { first, later });
    }
    (answers, rest)
}
