//! The speed of `session` beside three kernels in Rust, of lines that it takes beside the same lines read alone, and of
//! sums opened, steps and starts with a full history beside an empty one, all measured by turns in one run, and beside an
//! older program if one is named. Prints tables of medians and ratios. Ends with a failure if they do not give the same
//! amplitudes, if counts are not those of the checks' elimination, or if a line has another answer than it should
//! have.

mod held;
mod lines;
mod measure;
mod packed;
mod plain;
mod report;
mod sliced;
mod table;

use held::Held;
use lines::Lines;
use measure::{measured, median, peak_memory};
use packed::Packed;
use plain::Plain;
use report::{Figures, Samples, SessionSamples};
use sliced::Sliced;
use std::hint::black_box;
use std::process::ExitCode;
use std::time::Duration;
use table::Table;
use waitfield_checks::elimination::{Polynomial, one_colour, totals};
use waitfield_checks::gates::{Colour, Gate, Strings, digits, spelled};
use waitfield_checks::layers::{circuit, layers};
use waitfield_checks::program::Program;
use waitfield_checks::random::Random;
use waitfield_checks::script::answers;

/// Samples of each measurement; the median is taken.
const ROUNDS: usize = 9;

/// Samples of a program's sums in a round. Most of a round's time is the plain kernel's.
const TURNS: usize = 3;

/// Samples of each measurement of lines.
const LINE_ROUNDS: usize = 21;

/// Slices in a sample, whatever m is.
const SLICES: usize = 1 << 16;

const GATES: usize = 3000;

const SIZES: [usize; 5] = [8, 10, 12, 14, 16];

/// The same work for everybody: as many output strings as make 65,536 slices, sliced on red.
struct Work {
    m: usize,
    gates: Vec<Gate>,
    outputs: Vec<Strings>,
    sliced: Vec<Sliced>,
    packed: Vec<Packed>,
    plain: Vec<Plain>,
    expected_counts: Vec<i64>,
    /// With green read.
    expected_ones: Vec<i64>,
}

impl Work {
    fn new(m: usize) -> Work {
        let mut random = Random::new(m as u64);
        let gates: Vec<Gate> = (0..GATES).map(|_| random.entangling(m)).collect();
        let outputs: Vec<Strings> = (0..SLICES >> m).map(|_| random.strings(m)).collect();
        let polynomial = Polynomial::of(m, &gates);
        let table = |&output: &Strings| Table::of(m, &polynomial, Colour::Red, output);
        let count = |&output: &Strings| totals(&polynomial, Colour::Red, output).readout as i64;
        let one = |output: &Strings| one_colour(&polynomial, Colour::Green, Colour::Red, output[2]) as i64;
        Work {
            m,
            sliced: outputs.iter().map(|output| Sliced::new(&table(output))).collect(),
            packed: outputs.iter().map(|output| Packed::new(&table(output))).collect(),
            plain: outputs.iter().map(|output| Plain::new(table(output))).collect(),
            expected_counts: outputs.iter().map(count).collect(),
            expected_ones: outputs.iter().map(one).collect(),
            gates,
            outputs,
        }
    }

    fn circuit(&self) -> String {
        circuit(self.m, &layers(&self.gates)).join("\n") + "\n"
    }

    fn amplitudes(&self) -> String {
        let sum = |&output: &Strings| format!("(amp r {})\n(step 65536)\n", spelled(self.m, output));
        self.outputs.iter().map(sum).collect()
    }

    fn counts(&self) -> String {
        let sum = |output: &Strings| {
            let [_, blue, green] = output.map(|word| digits(self.m, word));
            format!("(part r {blue} {green})\n(step 65536)\n")
        };
        self.outputs.iter().map(sum).collect()
    }

    fn ones(&self) -> String {
        let sum = |output: &Strings| format!("(one g {})\n(step 65536)\n", digits(self.m, output[2]));
        self.outputs.iter().map(sum).collect()
    }
}

/// The numbers of the answers with a word and an exponent.
fn numbers(output: &[u8], word: &str, n: usize) -> Vec<i64> {
    let (prefix, suffix) = (format!("({word} "), format!(" {n})"));
    let number = |line: &str| line.strip_prefix(&prefix)?.strip_suffix(&suffix)?.parse().ok();
    let lines = answers(output).0.into_iter();
    lines.filter_map(|answer| number(&answer.first)).collect()
}

/// `session`, if it is built, and behind it an older program, if one is named.
fn programs() -> Result<Vec<Program>, String> {
    let session = Program::from_environment();
    if !session.exists() {
        println!("session is not built: the kernels in Rust only\n");
        return Ok(Vec::new());
    }
    let older = Program::older_from_environment();
    match older.iter().find(|older| !older.exists()) {
        Some(older) => Err(format!("{} is not there", older.path.display())),
        None => Ok([session].into_iter().chain(older).collect()),
    }
}

/// The programs with their samples. Every other time the second is the first: what one has left warm is not always for
/// the same other.
fn in_turn<'a, S>(programs: &'a [Program], samples: &'a mut [S; 2], number: usize) -> Vec<(&'a Program, &'a mut S)> {
    let mut turns: Vec<_> = programs.iter().zip(samples).collect();
    if number % 2 == 1 {
        turns.reverse();
    }
    turns
}

/// A kernel's amplitudes, and its time for them.
fn amplitudes<K>(kernels: &[K], amplitude: impl Fn(&K) -> i64) -> Result<(Duration, Vec<i64>), String> {
    measured(|| kernels.iter().map(|kernel| amplitude(black_box(kernel))).collect())
}

/// One round: each kernel once and each program a few times, and their numbers compared.
fn round(work: &Work, programs: &[Program], samples: &mut Samples, number: usize) -> Result<(), String> {
    let (time, sliced) = amplitudes(&work.sliced, Sliced::amplitude)?;
    samples.sliced.push(time);
    let (time, packed) = amplitudes(&work.packed, Packed::amplitude)?;
    samples.packed.push(time);
    let (time, plain) = amplitudes(&work.plain, Plain::amplitude)?;
    samples.plain.push(time);
    if sliced != plain || packed != plain {
        return Err(format!("m = {}: the kernels differ", work.m));
    }
    for turn in 0..TURNS {
        for (program, samples) in in_turn(programs, &mut samples.programs, number + turn) {
            session_round(work, program, samples, &plain)?;
        }
    }
    Ok(())
}

/// A program's part of a round: the circuit alone, with the amplitudes, with the counts, and with one colour read.
fn session_round(
    work: &Work,
    program: &Program,
    samples: &mut SessionSamples,
    amplitudes: &[i64],
) -> Result<(), String> {
    let (m, circuit) = (work.m, work.circuit());
    let run = |sums: &str| measure::run(program, [&circuit, sums].concat().as_bytes());
    let timed = |sums: &str, word: &str, n: usize, expected: &[i64]| {
        let done = run(sums)?;
        match numbers(&done.output, word, n) == expected {
            true => Ok(done.time),
            false => Err(format!(
                "{}, m = {m}: its numbers in ({word} ..) differ",
                program.path.display()
            )),
        }
    };
    samples.circuit.push(run("")?.time);
    let amplitudes = timed(&work.amplitudes(), "amp", 3 * m, amplitudes)?;
    samples.amplitudes.push(amplitudes);
    let counts = timed(&work.counts(), "part", 3 * m, &work.expected_counts)?;
    samples.counts.push(counts);
    let ones = timed(&work.ones(), "one", 2 * m, &work.expected_ones)?;
    samples.ones.push(ones);
    Ok(())
}

/// Samples of every kind of lines by turns: for each kind those of `session` and of an older program.
fn by_turns<K, S: Default>(
    kinds: &[K],
    programs: &[Program],
    round: impl Fn(&K, &Program, &mut S) -> Result<(), String>,
) -> Result<Vec<[S; 2]>, String> {
    let mut samples: Vec<[S; 2]> = kinds.iter().map(|_| Default::default()).collect();
    for number in 0..LINE_ROUNDS {
        for (kind, samples) in kinds.iter().zip(&mut samples) {
            for (program, samples) in in_turn(programs, samples, number) {
                round(kind, program, samples)?;
            }
        }
    }
    Ok(samples)
}

/// Those of the programs, from the first on, that take a Z (02, request f).
fn with_z(programs: &[Program]) -> Result<&[Program], String> {
    for (place, program) in programs.iter().enumerate() {
        if program.run(b"(circuit 1)\n(z (r 1))\n")? != b"(ok)\n(ok)\n" {
            return Ok(&programs[..place]);
        }
    }
    Ok(programs)
}

/// Gate lines and layers.
fn lines(programs: &[Program]) -> Result<(), String> {
    let mut figures = Vec::new();
    for (kinds, programs) in [(Lines::all(), programs), (Lines::with_z(), with_z(programs)?)] {
        let samples = by_turns(&kinds, programs, Lines::round)?;
        let several = kinds.iter().zip(samples);
        figures.extend(several.map(|(lines, samples)| lines::Figures::of(lines, samples)));
    }
    report::print_lines(&figures);
    Ok(())
}

/// Sums, steps and starts, with a full history and with none.
fn held(programs: &[Program]) -> Result<(), String> {
    let kinds = Held::all();
    let samples = by_turns(&kinds, programs, Held::round)?;
    let figures = kinds.iter().zip(samples);
    let figures = figures.map(|(held, samples)| held::Figures::of(held, samples));
    report::print_held(&figures.collect::<Vec<_>>());
    Ok(())
}

fn start_up(program: &Program) -> Result<(), String> {
    let runs: Result<Vec<_>, String> = (0..21).map(|_| measure::run(program, b"")).collect();
    let (times, clocks) = runs?.into_iter().map(|run| (run.time, run.clock)).unzip();
    let [time, clock] = [times, clocks].map(|times| median(times).as_secs_f64() * 1e3);
    println!("\nstart-up on no input: {time:.2} ms on the processor, {clock:.2} ms by the clock");
    let work = Work::new(16);
    let input = work.circuit() + &work.amplitudes();
    println!("most memory resident: {} KB", peak_memory(program, input.as_bytes())?);
    Ok(())
}

fn run() -> Result<(), String> {
    let programs = programs()?;
    let work = SIZES.map(Work::new);
    let mut samples: [Samples; SIZES.len()] = Default::default();
    for number in 0..ROUNDS {
        for (work, samples) in work.iter().zip(&mut samples) {
            round(work, &programs, samples, number)?;
        }
    }
    let medians = |(m, samples)| Figures::of(m, samples, SLICES);
    report::print(&SIZES.into_iter().zip(samples).map(medians).collect::<Vec<_>>());
    match programs.first() {
        Some(session) => {
            lines(&programs)?;
            held(&programs)?;
            start_up(session)
        }
        None => Ok(()),
    }
}

fn main() -> ExitCode {
    match run() {
        Ok(()) => ExitCode::SUCCESS,
        Err(error) => {
            println!("{error}");
            ExitCode::FAILURE
        }
    }
}
