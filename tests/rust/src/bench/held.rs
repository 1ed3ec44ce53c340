//! What the gates that are held cost where a sum is opened or worked slice by slice, or a start is set: lines behind as
//! many gates as the history holds, beside the same lines behind none. The time for the circuit alone is taken off.

use crate::lines::Asked;
use crate::measure::{median, median_seconds};
use std::time::Duration;
use waitfield_checks::gates::{COLOURS, Colour, Gate, Strings, digits, spelled};
use waitfield_checks::model::HISTORY;
use waitfield_checks::program::Program;
use waitfield_checks::random::Random;

const M: usize = 16;

/// Sums opened in a sample, steps of one slice, and starts set, which take longer.
const SUMS: usize = 1 << 15;
const STEPS: usize = 1 << 15;
const STARTS: usize = 1 << 12;

/// Lines with their answers.
type Answered = Vec<(String, String)>;

/// One kind of lines, behind no gates and behind a full history.
pub struct Held {
    name: &'static str,
    /// How many sums or starts the lines are.
    count: usize,
    behind: [Behind; 2],
}

/// A circuit alone, and with the lines behind it.
struct Behind {
    alone: Asked,
    with: Asked,
}

impl Behind {
    fn new(gates: &[Gate], start: Strings, lines: &Answered) -> Behind {
        let asked = |lines: &[(String, String)]| {
            let mut asked = Asked::default();
            asked.line("(circuit 16)", "(ok)");
            asked.line(&format!("(start {})", spelled(M, start)), "(ok)");
            gates.iter().for_each(|gate| asked.line(&gate.to_string(), "(ok)"));
            lines.iter().for_each(|(line, answer)| asked.line(line, answer));
            asked
        };
        Behind {
            alone: asked(&[]),
            with: asked(lines),
        }
    }

    fn timed(&self, program: &Program) -> Result<Duration, String> {
        let alone = self.alone.timed(program)?;
        Ok(self.with.timed(program)?.saturating_sub(alone))
    }
}

impl Held {
    fn new(name: &'static str, count: usize, random: &mut Random, lines: Answered) -> Held {
        let mut gates = Vec::new();
        while gates.len() < HISTORY {
            gates.extend([random.cnot(M), random.ccz(M)]);
        }
        let start = random.strings(M);
        Held {
            name,
            count,
            behind: [&[], &gates[..]].map(|gates| Behind::new(gates, start, &lines)),
        }
    }

    /// Sums of all kinds opened and dropped, steps of one slice, and starts. A program from before request e of document
    /// 02 takes them too.
    pub fn all() -> [Held; 3] {
        let mut random = Random::new(M as u64);
        let left = |slices: usize| format!("(left {slices})");
        let ok = || "(ok)".to_string();
        let opened = (0..SUMS).flat_map(|number| {
            let line = opening(number, COLOURS[number % 3], random.strings(M));
            [(line, left(1 << M)), ("(drop)".to_string(), ok())]
        });
        let opened = opened.collect();
        let one = (opening(0, COLOURS[0], random.strings(M)), left(1 << M));
        let steps = (1..=STEPS).map(|worked| ("(step 1)".to_string(), left((1 << M) - worked)));
        let steps = [one].into_iter().chain(steps).collect();
        let starts = (0..STARTS).map(|_| (format!("(start {})", spelled(M, random.strings(M))), ok()));
        let starts = starts.collect();
        [
            Held::new("sums opened and dropped", SUMS, &mut random, opened),
            Held::new("steps of one slice", STEPS, &mut random, steps),
            Held::new("starts", STARTS, &mut random, starts),
        ]
    }

    pub fn round(&self, program: &Program, samples: &mut Samples) -> Result<(), String> {
        let [none, full] = &self.behind;
        samples.none.push(none.timed(program)?);
        samples.full.push(full.timed(program)?);
        Ok(())
    }
}

/// A line that opens a sum, of the three kinds in turn.
fn opening(number: usize, colour: Colour, strings: Strings) -> String {
    let [x, y, _] = strings.map(|word| digits(M, word));
    match number / 3 % 3 {
        0 => format!("(amp {colour} {})", spelled(M, strings)),
        1 => format!("(part {colour} {x} {y})"),
        _ => format!("(one {colour} {x})"),
    }
}

/// A program's samples of one kind of lines.
#[derive(Default)]
pub struct Samples {
    none: Vec<Duration>,
    full: Vec<Duration>,
}

impl Samples {
    /// The median of the ratios, each of two times measured one right after the other.
    fn ratio(&self) -> Option<f64> {
        let pairs = self.full.iter().zip(&self.none);
        let ratios: Vec<f64> = pairs
            .map(|(full, none)| full.as_secs_f64() / none.as_secs_f64())
            .collect();
        (!ratios.is_empty()).then(|| median(ratios))
    }

    /// Seconds behind no gates, and behind a full history; none if the program was not measured.
    fn medians(self) -> [Option<f64>; 2] {
        [self.none, self.full].map(median_seconds)
    }
}

/// What one kind of lines has shown.
pub struct Figures {
    pub name: &'static str,
    /// Microseconds for a sum or a start, behind no gates and behind a full history.
    pub times: [Option<f64>; 2],
    /// Full / none; session / older, behind no gates and behind a full history.
    pub ratios: [Option<f64>; 3],
}

impl Figures {
    /// Of the samples of `session` and of an older program.
    pub fn of(held: &Held, samples: [Samples; 2]) -> Figures {
        let ratio = samples[0].ratio();
        let [[none, full], [older_none, older_full]] = samples.map(Samples::medians);
        let beside = |time: Option<f64>, other: Option<f64>| Some(time? / other?);
        Figures {
            name: held.name,
            times: [none, full].map(|time| Some(time? * 1e6 / held.count as f64)),
            ratios: [ratio, beside(none, older_none), beside(full, older_full)],
        }
    }
}
