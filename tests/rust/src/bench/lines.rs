//! Gate lines and layers through the program, beside the same lines read alone. A line that comes before any circuit is
//! read as a form and then refused by 6: the reading, the framing and the writing of an answer are in both, but not
//! what the operands are tried for, nor what the gates change.

use crate::measure::{self, median_seconds};
use std::time::Duration;
use waitfield_checks::circuits::{block_ccz, every_position, every_z, in_blocks};
use waitfield_checks::gates::{COLOURS, Gate, Spot};
use waitfield_checks::layers::layer;
use waitfield_checks::model::HISTORY;
use waitfield_checks::program::Program;
use waitfield_checks::random::Random;

const M: usize = 16;

/// Blocks of a sample. A block fills the history, and a new circuit makes room for the next.
const BLOCKS: usize = 64;

/// An input and its answers.
#[derive(Default)]
pub struct Asked {
    input: String,
    answers: String,
}

impl Asked {
    pub fn line(&mut self, line: &str, answer: &str) {
        self.input.extend([line, "\n"]);
        self.answers.extend([answer, "\n"]);
    }

    pub fn timed(&self, program: &Program) -> Result<Duration, String> {
        let done = measure::run(program, self.input.as_bytes())?;
        match done.output == self.answers.as_bytes() {
            true => Ok(done.time),
            false => Err(format!("{}: other answers to lines", program.path.display())),
        }
    }
}

/// Lines of one kind.
pub struct Lines {
    name: &'static str,
    count: usize,
    gates: usize,
    taken: Asked,
    /// The same bytes but for the digit that makes every `circuit` one of 17 positions, which is refused by 9.
    read: Asked,
}

impl Lines {
    /// Lines of so many gates each.
    fn new(name: &'static str, gates: usize, mut line: impl FnMut() -> String) -> Lines {
        let [mut taken, mut read] = [(); 2].map(|()| Asked::default());
        let count = BLOCKS * (HISTORY / gates);
        for number in 0..count {
            if number % (HISTORY / gates) == 0 {
                taken.line("(circuit 16)", "(ok)");
                read.line("(circuit 17)", "(no 9)");
            }
            let line = line();
            taken.line(&line, "(ok)");
            read.line(&line, "(no 6)");
        }
        Lines {
            name,
            count,
            gates,
            taken,
            read,
        }
    }

    /// Random gates, a line each, and layers of gates on all positions, in any order. A program from before refusal 14
    /// takes them too.
    pub fn all() -> Vec<Lines> {
        let mut random = Random::new(M as u64);
        let ccz = in_blocks(M, block_ccz);
        let cz_and_cnot = every_position(M);
        vec![
            Lines::new("gate lines", 1, || random.entangling(M).to_string()),
            Lines::new("layers of 16 CCZ", ccz.len(), || relabelled(&mut random, &ccz)),
            Lines::new("layers of 24 CZ and CNOT", cz_and_cnot.len(), || {
                relabelled(&mut random, &cz_and_cnot)
            }),
        ]
    }

    /// Layers of as many gates as a line may have. A program from before request f of document 02 takes none of them.
    pub fn with_z() -> Vec<Lines> {
        let mut random = Random::new(M as u64);
        let z = every_z(M);
        vec![Lines::new("layers of 48 Z", z.len(), || relabelled(&mut random, &z))]
    }

    pub fn round(&self, program: &Program, samples: &mut Samples) -> Result<(), String> {
        samples.taken.push(self.taken.timed(program)?);
        samples.read.push(self.read.timed(program)?);
        Ok(())
    }
}

/// The layer with the positions of each colour in another order, and so its gates.
fn relabelled(random: &mut Random, gates: &[Gate]) -> String {
    let positions: Vec<usize> = (1..=M).collect();
    let others = COLOURS.map(|_| random.shuffled(&positions));
    let to = |spot: Spot| others[spot.colour.number()][spot.position - 1];
    let moved: Vec<Gate> = gates.iter().map(|gate| gate.moved(to)).collect();
    layer(&random.shuffled(&moved))
}

/// A program's samples of one kind of lines.
#[derive(Default)]
pub struct Samples {
    taken: Vec<Duration>,
    read: Vec<Duration>,
}

impl Samples {
    /// Seconds where the lines are taken, and where they are read alone; none if the program was not measured.
    fn medians(self) -> [Option<f64>; 2] {
        [self.taken, self.read].map(median_seconds)
    }
}

/// What one kind of lines has shown.
pub struct Figures {
    pub name: &'static str,
    /// Lines and gates that are taken, millions a second.
    pub speed: [Option<f64>; 2],
    /// Lines taken / read alone; session / older, where they are taken and where they are read alone.
    pub ratios: [Option<f64>; 3],
}

impl Figures {
    /// Of the samples of `session` and of an older program.
    pub fn of(lines: &Lines, samples: [Samples; 2]) -> Figures {
        let [[taken, read], [older_taken, older_read]] = samples.map(Samples::medians);
        let millions = [lines.count, lines.count * lines.gates].map(|count| count as f64 / 1e6);
        let times = [(taken, read), (taken, older_taken), (read, older_read)];
        Figures {
            name: lines.name,
            speed: millions.map(|count| Some(count / taken?)),
            ratios: times.map(|(time, other)| Some(time? / other?)),
        }
    }
}
