//! Reads and writes that fail. The program ends by itself, even while its input is open, and says which stream it was.

use super::{Outcome, ended_with_line, failed};
use crate::Checks;
use crate::at_once::ends_in_silence;
use std::fs::File;
use std::process::Command;
use waitfield_checks::circuits::every_term;
use waitfield_checks::conversation::{Conversation, INPUT_FAILED, OUTPUT_FAILED, Pace, Stream};
use waitfield_checks::layers::{circuit, layers};
use waitfield_checks::program::{Program, repository};
use waitfield_checks::system::{Terminal, ignoring_broken_pipe, without_stream};

const INPUT: i32 = 0;
const OUTPUT: i32 = 1;
const ERRORS: i32 = 2;

/// A conversation whose output goes to a device.
fn writing_to(device: &str, command: Command) -> Result<Conversation, String> {
    let file = File::options().write(true).open(device).map_err(failed)?;
    Conversation::start(command, Stream::input().map_err(failed)?, Stream::file(file))
}

fn reading(input: Stream, command: Command) -> Result<Conversation, String> {
    Conversation::start(command, input, Stream::output().map_err(failed)?)
}

fn output_closed(program: &Program) -> Outcome {
    let mut command = program.command();
    without_stream(&mut command, OUTPUT);
    let mut talk = writing_to("/dev/null", command)?;
    talk.give(b"(circuit 1)\n")?;
    ended_with_line(&talk.ended()?, OUTPUT_FAILED)
}

fn output_full(program: &Program) -> Outcome {
    let mut talk = writing_to("/dev/full", program.command())?;
    talk.give(b"(circuit 1)\n")?;
    ended_with_line(&talk.ended()?, OUTPUT_FAILED)
}

/// Where there is no answer, no write can fail.
fn nothing_to_write(program: &Program) -> Outcome {
    let mut talk = writing_to("/dev/full", program.command())?;
    talk.give(b"\n\n\n")?;
    talk.close_input();
    ends_in_silence(talk)
}

/// Nowhere to say it: the program ends all the same.
fn errors_closed(program: &Program) -> Outcome {
    let mut command = program.command();
    without_stream(&mut command, ERRORS);
    let mut talk = writing_to("/dev/full", command)?;
    talk.give(b"(circuit 1)\n")?;
    ends_in_silence(talk)
}

/// A reader that takes an answer and goes; the next answer has nobody to read it.
fn reader_gone(command: Command) -> Result<Conversation, String> {
    let mut talk = reading(Stream::input().map_err(failed)?, command)?;
    talk.give(b"(circuit 1)\n")?;
    talk.take_lines(1)?;
    talk.close_output();
    talk.give(b"(terms)\n")?;
    Ok(talk)
}

/// A reader that goes while the program waits for room for the rest of a listing. It takes few bytes, so that what is left has no room in a pipe.
fn reader_gone_in_listing(command: Command) -> Result<Conversation, String> {
    let mut talk = reading(Stream::input().map_err(failed)?, command)?;
    let lines = circuit(16, &layers(&every_term(16)));
    talk.give(format!("{}\n(terms)\n", lines.join("\n")).as_bytes())?;
    talk.take_lines_at(
        5,
        Pace {
            taken: 5,
            ..Pace::AT_ONCE
        },
    )?;
    talk.close_output();
    Ok(talk)
}

type GoneReader = fn(Command) -> Result<Conversation, String>;

/// SIGPIPE by default where the program starts: it ignores the signal by itself, and the write fails.
fn ended_by_default(program: &Program, gone: GoneReader) -> Outcome {
    ended_with_line(&gone(program.command())?.ended()?, OUTPUT_FAILED)
}

/// SIGPIPE ignored where the program starts: the write fails.
fn ended_while_ignored(program: &Program, gone: GoneReader) -> Outcome {
    let mut command = program.command();
    ignoring_broken_pipe(&mut command);
    ended_with_line(&gone(command)?.ended()?, OUTPUT_FAILED)
}

/// A read that fails at once, with nothing answered.
fn no_input(talk: Conversation) -> Outcome {
    let ended = talk.ended()?;
    ended_with_line(&ended, INPUT_FAILED)?;
    match ended.output.is_empty() {
        true => Ok(()),
        false => Err(format!("answers to no input: ended with {ended}")),
    }
}

fn input_directory(program: &Program) -> Outcome {
    let directory = File::open(repository()).map_err(failed)?;
    no_input(reading(Stream::file(directory), program.command())?)
}

fn input_closed(program: &Program) -> Outcome {
    let mut command = program.command();
    without_stream(&mut command, INPUT);
    let unread = File::open("/dev/null").map_err(failed)?;
    no_input(reading(Stream::file(unread), command)?)
}

/// A read that fails after a line and a part of another: it ends the input, and "a last line without one counts too".
fn input_failing_later(program: &Program) -> Outcome {
    let input = Terminal::raw().and_then(Stream::failing_input).map_err(failed)?;
    let mut talk = reading(input, program.command())?;
    talk.give(b"(circuit 1)\n")?;
    let first = talk.take_lines(1)?;
    talk.give(b"(terms)")?;
    talk.close_input();
    let ended = talk.ended()?;
    ended_with_line(&ended, INPUT_FAILED)?;
    match [first, ended.output].concat() == b"(ok)\n(terms 0)\n" {
        true => Ok(()),
        false => Err("the lines before the failure were not answered".into()),
    }
}

pub fn check(checks: &mut Checks) {
    let Checks { program, tally, .. } = checks;
    tally.check("standard output closed", output_closed(program));
    tally.check("standard output on a full device", output_full(program));
    tally.check("a full device and nothing to write", nothing_to_write(program));
    tally.check("a full device and standard error closed", errors_closed(program));
    for (name, gone) in [
        ("a reader that goes", reader_gone as GoneReader),
        ("a reader that goes in the middle of a listing", reader_gone_in_listing),
    ] {
        tally.check(&format!("{name}, SIGPIPE by default"), ended_by_default(program, gone));
        tally.check(&format!("{name}, SIGPIPE ignored"), ended_while_ignored(program, gone));
    }
    tally.check("standard input a directory", input_directory(program));
    tally.check("standard input closed", input_closed(program));
    tally.check("standard input failing after a line", input_failing_later(program));
}
