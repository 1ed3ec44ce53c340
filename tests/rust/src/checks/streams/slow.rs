//! Streams that make the program wait: pipes and a terminal that somebody made non-blocking, slow readers and writers,
//! interrupted calls. Every answer arrives, in order, and a program that waits does so asleep.

use super::{Outcome, ended_with_line, failed};
use crate::Checks;
use crate::at_once::{ask_all, ends_by_hang_up, ends_in_silence, listing_read_slowly, rounds};
use std::process::Command;
use std::thread;
use std::time::Duration;
use waitfield_checks::conversation::{Conversation, OUTPUT_FAILED, Pace, Stream};
use waitfield_checks::gates::spelled;
use waitfield_checks::model::Model;
use waitfield_checks::program::Program;
use waitfield_checks::system::{CONTINUE, STOP, Terminal, ignoring_broken_pipe, on_processor, send};

const LINES: usize = 200_000;

const SLOW_READER: Pace = Pace {
    given: usize::MAX,
    taken: 4096,
    pause: Duration::from_millis(1),
};

const SLOW_WRITER: Pace = Pace {
    given: 2000,
    taken: 1 << 16,
    pause: Duration::from_millis(1),
};

/// A while in which a program that takes "would block" for the end has ended.
const A_WHILE: Duration = Duration::from_millis(300);

/// Which of the program's ends do not block.
#[derive(Clone, Copy)]
struct Ends {
    input: bool,
    output: bool,
}

const BLOCKING: Ends = Ends {
    input: false,
    output: false,
};

const INPUT: Ends = Ends {
    input: true,
    output: false,
};

const OUTPUT: Ends = Ends {
    input: false,
    output: true,
};

const BOTH: Ends = Ends {
    input: true,
    output: true,
};

fn started(command: Command, ends: Ends) -> Result<Conversation, String> {
    let mut input = Stream::input().map_err(failed)?;
    let mut output = Stream::output().map_err(failed)?;
    if ends.input {
        input = input.nonblocking().map_err(failed)?;
    }
    if ends.output {
        output = output.nonblocking().map_err(failed)?;
    }
    Conversation::start(command, input, output)
}

/// So many lines and their answers: sums of 65,536 slices, a step for each slice, so that every answer shows its place.
/// The circuit has no gate, and S is 2^48.
fn counted_down(count: usize) -> (String, String) {
    let opened = format!("(amp r {})\n", spelled(16, [0; 3]));
    let steps = (1..=65536).rev().map(|left| match left {
        1 => ("(step 1)\n", "(amp 281474976710656 48)\n".to_string()),
        _ => ("(step 1)\n", format!("(left {})\n", left - 1)),
    });
    let sum = [(&opened[..], "(left 65536)\n".to_string())].into_iter().chain(steps);
    let circuit = [("(circuit 16)\n", "(ok)\n".to_string())].into_iter();
    circuit.chain(sum.cycle()).take(count).unzip()
}

/// The first answer that is not the expected one.
fn compare(found: &[u8], expected: &str) -> Outcome {
    if found == expected.as_bytes() {
        return Ok(());
    }
    let found = String::from_utf8_lossy(found);
    let same = found.lines().zip(expected.lines()).take_while(|(a, b)| a == b).count();
    Err(format!(
        "{} lines of {}; line {} is {:?}, expected {:?}",
        found.lines().count(),
        expected.lines().count(),
        same + 1,
        found.lines().nth(same),
        expected.lines().nth(same)
    ))
}

fn all_arrive(program: &Program, ends: Ends, pace: Pace) -> Outcome {
    let (input, expected) = counted_down(LINES);
    let mut talk = started(program.command(), ends)?;
    compare(&talk.exchange(&input.into_bytes(), pace)?, &expected)?;
    ends_in_silence(talk)
}

/// The program waits for a while, still runs, and was hardly on the processor.
fn waits_asleep(talk: &mut Conversation) -> Outcome {
    // What it does before it waits is over by then.
    thread::sleep(A_WHILE);
    let task = talk.child().id().to_string();
    let before = on_processor(&task)?;
    thread::sleep(A_WHILE);
    let worked = on_processor(&task)?.saturating_sub(before);
    match talk.still_runs() {
        true if worked < A_WHILE / 4 => Ok(()),
        true => Err(format!("on the processor for {worked:?} of {A_WHILE:?}")),
        false => Err("ended while it had to wait".into()),
    }
}

/// An input that is empty for a while, gets lines, is empty again, gets a line in two halves, and ends.
fn input_in_bursts(program: &Program, ends: Ends) -> Outcome {
    let mut talk = started(program.command(), ends)?;
    let mut model = Model::default();
    waits_asleep(&mut talk)?;
    ask_all(&mut talk, &mut model, &rounds(4))?;
    thread::sleep(A_WHILE);
    talk.give(b"(circu")?;
    thread::sleep(A_WHILE);
    talk.give(b"it 3)\n")?;
    compare(&talk.take_lines(1)?, "(ok)\n")?;
    talk.close_input();
    ends_in_silence(talk)
}

/// A full output that nobody reads for a while.
fn output_full_for_a_while(program: &Program, ends: Ends) -> Outcome {
    let (input, expected) = counted_down(20_000);
    let mut talk = started(program.command(), ends)?;
    talk.give(&input.as_bytes()[..100_000])?;
    waits_asleep(&mut talk)?;
    compare(&talk.exchange(&input.as_bytes()[100_000..], Pace::AT_ONCE)?, &expected)?;
    ends_in_silence(talk)
}

/// A reader that goes while the program tries to write: no more is tried.
fn reader_gone(program: &Program) -> Outcome {
    let mut command = program.command();
    ignoring_broken_pipe(&mut command);
    let (input, _) = counted_down(10_000);
    let mut talk = started(command, BOTH)?;
    talk.give(input.as_bytes())?;
    thread::sleep(A_WHILE);
    talk.close_output();
    ended_with_line(&talk.ended()?, OUTPUT_FAILED)
}

/// A terminal has one file for both directions: where one does not block, neither does.
fn terminal(program: &Program) -> Outcome {
    let [input, output] = Terminal::raw().and_then(Stream::terminal).map_err(failed)?;
    let input = input.nonblocking().map_err(failed)?;
    let mut talk = Conversation::start(program.command(), input, output)?;
    waits_asleep(&mut talk)?;
    ask_all(&mut talk, &mut Model::default(), &rounds(4))?;
    listing_read_slowly(&mut talk)?;
    ends_by_hang_up(talk)
}

/// Stopped and continued while it waits, as by control-Z and `fg`.
fn stopped(program: &Program, ends: Ends) -> Outcome {
    let mut talk = started(program.command(), ends)?;
    let mut model = Model::default();
    let all = rounds(4);
    for several in all.chunks(10) {
        thread::sleep(Duration::from_millis(10));
        send(talk.child(), STOP).map_err(failed)?;
        thread::sleep(Duration::from_millis(10));
        send(talk.child(), CONTINUE).map_err(failed)?;
        ask_all(&mut talk, &mut model, several)?;
    }
    talk.close_input();
    ends_in_silence(talk)
}

/// A library that turns back two of three reads and writes (preload/interrupted.rs).
const INTERRUPTED: &str = env!("INTERRUPTED_LIBRARY");

/// The numbers in what that library says at the end.
fn turned_back(errors: &str) -> Option<(usize, usize)> {
    let numbers = errors.strip_prefix("turned back: ")?.strip_suffix(" writes\n")?;
    let (reads, writes) = numbers.split_once(" reads, ")?;
    Some((reads.parse().ok()?, writes.parse().ok()?))
}

/// Calls that a signal interrupts, which no stream can bring about by itself, and calls that move few bytes.
fn interrupted(program: &Program) -> Outcome {
    let (input, expected) = counted_down(200);
    let mut command = program.command();
    command.env("LD_PRELOAD", INTERRUPTED);
    let mut talk = started(command, BLOCKING)?;
    compare(&talk.exchange(input.as_bytes(), Pace::AT_ONCE)?, &expected)?;
    let ended = talk.ended()?;
    let turned_back = turned_back(&ended.errors).filter(|&(reads, writes)| reads >= 20 && writes >= 20);
    match ended.status.code() == Some(0) && turned_back.is_some() {
        true => Ok(()),
        false => Err(format!("ended with {ended}")),
    }
}

pub fn check(checks: &mut Checks) {
    let Checks { program, tally, .. } = checks;
    for (name, ends, pace) in [
        ("a slow reader", BLOCKING, SLOW_READER),
        ("a slow reader, output that does not block", OUTPUT, SLOW_READER),
        ("a slow reader, neither blocks", BOTH, SLOW_READER),
        ("a slow writer, input that does not block", INPUT, SLOW_WRITER),
        ("a slow writer, neither blocks", BOTH, SLOW_WRITER),
    ] {
        tally.check(&format!("200,000 lines, {name}"), all_arrive(program, ends, pace));
    }
    for (name, ends) in [("blocks", BLOCKING), ("does not block", INPUT)] {
        tally.check(
            &format!("input in bursts, which {name}"),
            input_in_bursts(program, ends),
        );
        tally.check(&format!("stopped and continued, input {name}"), stopped(program, ends));
    }
    for (name, ends) in [("blocks", BLOCKING), ("does not block", OUTPUT)] {
        let outcome = output_full_for_a_while(program, ends);
        tally.check(&format!("output full for a while, which {name}"), outcome);
    }
    tally.check("a reader that goes, output that does not block", reader_gone(program));
    tally.check("a terminal that does not block", terminal(program));
    tally.check("interrupted calls", interrupted(program));
}
