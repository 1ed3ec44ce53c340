//! The tables that the benchmark prints.

use crate::measure::median;
use crate::{held, lines};
use std::time::Duration;

/// Samples of one m, each of the same number of slices.
#[derive(Default)]
pub struct Samples {
    pub sliced: Vec<Duration>,
    pub packed: Vec<Duration>,
    pub plain: Vec<Duration>,
    /// Those of `session`, and of an older program.
    pub programs: [SessionSamples; 2],
}

/// A program on the circuit alone, with amplitudes, with readout counts, and with counts of one colour read.
#[derive(Default)]
pub struct SessionSamples {
    pub circuit: Vec<Duration>,
    pub amplitudes: Vec<Duration>,
    pub counts: Vec<Duration>,
    pub ones: Vec<Duration>,
}

/// Medians for one m, in nanoseconds a slice.
pub struct Figures {
    m: usize,
    sliced: f64,
    packed: f64,
    plain: f64,
    session: Option<Session>,
    older: Option<Session>,
}

/// A program's, less what it takes for the circuit.
struct Session {
    amplitude: f64,
    count: f64,
    one: f64,
}

impl Session {
    /// None if the program was not measured.
    fn of(samples: SessionSamples, a_slice: impl Fn(Duration) -> f64) -> Option<Session> {
        if samples.circuit.is_empty() {
            return None;
        }
        let circuit = median(samples.circuit);
        let beyond = |times: Vec<Duration>| a_slice(median(times).saturating_sub(circuit));
        Some(Session {
            amplitude: beyond(samples.amplitudes),
            count: beyond(samples.counts),
            one: beyond(samples.ones),
        })
    }
}

impl Figures {
    pub fn of(m: usize, samples: Samples, slices: usize) -> Figures {
        let a_slice = |time: Duration| time.as_nanos() as f64 / slices as f64;
        let [session, older] = samples.programs.map(|samples| Session::of(samples, a_slice));
        Figures {
            m,
            sliced: a_slice(median(samples.sliced)),
            packed: a_slice(median(samples.packed)),
            plain: a_slice(median(samples.plain)),
            session,
            older,
        }
    }

    /// Session / sliced, session / packed, session / plain, readout / amplitude, one colour / amplitude.
    fn ratios(&self) -> [Option<f64>; 5] {
        match &self.session {
            Some(Session { amplitude, count, one }) => [
                amplitude / self.sliced,
                amplitude / self.packed,
                amplitude / self.plain,
                count / amplitude,
                one / amplitude,
            ]
            .map(Some),
            None => [None; 5],
        }
    }

    /// Session / older: amplitude, readout count, one colour.
    fn to_older(&self) -> Option<[Option<f64>; 3]> {
        let (session, older) = (self.session.as_ref()?, self.older.as_ref()?);
        let ratios = [
            session.amplitude / older.amplitude,
            session.count / older.count,
            session.one / older.one,
        ];
        Some(ratios.map(Some))
    }

    fn times(&self) -> [Option<f64>; 4] {
        let session = self.session.as_ref().map(|session| session.amplitude);
        [Some(self.sliced), Some(self.packed), Some(self.plain), session]
    }

    /// Milliseconds for all slices of an amplitude.
    fn an_amplitude(&self) -> [Option<f64>; 4] {
        let slices = (1u64 << self.m) as f64;
        self.times().map(|time| time.map(|time| time * slices / 1e6))
    }
}

/// Cells of a table.
fn cells<const N: usize>(values: [Option<f64>; N], places: usize) -> String {
    let cell = |value: Option<f64>| value.map_or("-".to_string(), |value| format!("{value:.places$}"));
    values.map(cell).join(" | ")
}

pub fn print(all: &[Figures]) {
    println!("Nanoseconds a slice, and ratios.\n");
    let ratios = "session / sliced | session / packed | session / plain | readout / amplitude | one colour / amplitude";
    println!("| m | sliced Rust | packed Rust | plain Rust | session | {ratios} |");
    println!("|---|---|---|---|---|---|---|---|---|---|");
    for figures in all {
        let (times, ratios) = (cells(figures.times(), 1), cells(figures.ratios(), 2));
        println!("| {} | {times} | {ratios} |", figures.m);
    }
    println!("\nMilliseconds an amplitude, and each beside that of two positions fewer.\n");
    let kinds = ["sliced Rust", "packed Rust", "plain Rust", "session"];
    println!("| m | {} | {}, growth |", kinds.join(" | "), kinds.join(", growth | "));
    println!("|---|---|---|---|---|---|---|---|---|");
    let mut before = [None; 4];
    for figures in all {
        let now = figures.an_amplitude();
        let growth = [0, 1, 2, 3].map(|k| now[k].zip(before[k]).map(|(now, before): (f64, f64)| now / before));
        println!("| {} | {} | {} |", figures.m, cells(now, 3), cells(growth, 2));
        before = now;
    }
    print_beside_older(all);
}

fn print_beside_older(all: &[Figures]) {
    let ratios: Vec<_> = all
        .iter()
        .filter_map(|figures| Some((figures.m, figures.to_older()?)))
        .collect();
    if ratios.is_empty() {
        return;
    }
    println!("\nSums beside those of the older program, session / older.\n");
    println!("| m | amplitude | readout | one colour |");
    println!("|---|---|---|---|");
    for (m, ratios) in ratios {
        println!("| {m} | {} |", cells(ratios, 2));
    }
}

pub fn print_lines(all: &[lines::Figures]) {
    println!("\nLines: millions a second, and ratios of times.\n");
    let ratios = "taken / read alone | taken, session / older | read alone, session / older";
    println!("| lines at m = 16 | lines | gates | {ratios} |");
    println!("|---|---|---|---|---|---|");
    for figures in all {
        let (speed, ratios) = (cells(figures.speed, 2), cells(figures.ratios, 2));
        println!("| {} | {speed} | {ratios} |", figures.name);
    }
}

pub fn print_held(all: &[held::Figures]) {
    println!("\nWith 4,096 gates held, beside none: microseconds each, and ratios of times.\n");
    let ratios = "4,096 gates / none | no gates, session / older | 4,096 gates, session / older";
    println!("| at m = 16 | no gates | 4,096 gates | {ratios} |");
    println!("|---|---|---|---|---|---|");
    for figures in all {
        let (times, ratios) = (cells(figures.times, 2), cells(figures.ratios, 2));
        println!("| {} | {times} | {ratios} |", figures.name);
    }
}
