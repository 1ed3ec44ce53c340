//! Time on the processor and memory, as Linux counts them under /proc. Time on the processor and not time by the clock: the machine
//! may be shared.

use std::fs;
use std::io::{Read, Write};
use std::thread;
use std::time::{Duration, Instant};
use waitfield_checks::program::Program;
use waitfield_checks::system::on_processor;

/// The time of some work in this thread.
pub fn measured<T>(work: impl FnOnce() -> T) -> Result<(Duration, T), String> {
    let now = || {
        // The kernel brings a thread's count up to date when the thread leaves the processor.
        thread::sleep(Duration::from_micros(50));
        on_processor("thread-self")
    };
    let begun = now()?;
    let result = work();
    Ok((now()?.saturating_sub(begun), result))
}

pub struct Run {
    pub output: Vec<u8>,
    pub time: Duration,
    /// From start to end by the clock.
    pub clock: Duration,
}

/// The program on an input, from its start to its end.
pub fn run(program: &Program, input: &[u8]) -> Result<Run, String> {
    let failed = |error: std::io::Error| error.to_string();
    let begun = Instant::now();
    let mut child = program.start()?;
    let mut stdin = child.stdin.take().expect("piped");
    let mut stdout = child.stdout.take().expect("piped");
    let mut output = Vec::new();
    let read = thread::scope(|scope| {
        // A program that stops reading early shows in its answers.
        scope.spawn(move || stdin.write_all(input));
        stdout.read_to_end(&mut output)
    });
    read.map_err(failed)?;
    let clock = begun.elapsed();
    let task = child.id().to_string();
    while !ended(&task) && begun.elapsed() < Duration::from_secs(60) {
        thread::sleep(Duration::from_micros(100));
    }
    let time = on_processor(&task)?;
    let status = child.wait().map_err(failed)?;
    match status.success() {
        true => Ok(Run { output, time, clock }),
        false => Err(format!("ended with {status}")),
    }
}

/// Whether a process has ended; its counts are kept until it is waited for.
fn ended(task: &str) -> bool {
    let status = fs::read_to_string(format!("/proc/{task}/stat")).unwrap_or_default();
    status.rsplit(')').next().is_some_and(|after| after.starts_with(" Z"))
}

/// The most memory that the program had resident, in KB. It is asked while the input is still open, since it is gone at the end.
pub fn peak_memory(program: &Program, input: &[u8]) -> Result<u64, String> {
    let mut child = program.start()?;
    let mut stdin = child.stdin.take().expect("piped");
    stdin.write_all(input).map_err(|error| error.to_string())?;
    let status = format!("/proc/{}/status", child.id());
    let mut peak = 0;
    for _ in 0..50 {
        thread::sleep(Duration::from_millis(10));
        peak = peak.max(high_water(&fs::read_to_string(&status).unwrap_or_default()));
    }
    drop(stdin);
    child.wait_with_output().map_err(|error| error.to_string())?;
    Ok(peak)
}

fn high_water(status: &str) -> u64 {
    let line = status.lines().find_map(|line| line.strip_prefix("VmHWM:"));
    let number = line.and_then(|value| value.trim().strip_suffix(" kB")?.parse().ok());
    number.unwrap_or(0)
}

pub fn median<T: PartialOrd + Copy>(mut samples: Vec<T>) -> T {
    samples.sort_by(|a, b| a.partial_cmp(b).expect("measured numbers can be compared"));
    samples[samples.len() / 2]
}

/// The median in seconds; none if nothing was measured.
pub fn median_seconds(times: Vec<Duration>) -> Option<f64> {
    (!times.is_empty()).then(|| median(times).as_secs_f64())
}
