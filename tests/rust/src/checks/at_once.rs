//! The program writes every answer before it waits for more. One line is given and its answer taken before the next,
//! over a pipe and over a pseudo-terminal; a program that answers at the end of its input fails by the limit on a read.

use crate::Checks;
use crate::damaged::EVERY_FORM;
use crate::known::LISTING;
use std::thread;
use std::time::Duration;
use waitfield_checks::circuits::every_term;
use waitfield_checks::conversation::{Conversation, INPUT_FAILED, Pace};
use waitfield_checks::elimination::Polynomial;
use waitfield_checks::layers::{circuit, layers};
use waitfield_checks::model::Model;
use waitfield_checks::program::Program;
use waitfield_checks::script::{Expected, answers};
use waitfield_checks::system::Terminal;

const LINES: usize = 1000;

/// The terms of a polynomial over 16 positions that has all of them: 16^3 of three positions, 3 times 16^2 of two, 3
/// times 16 of one.
const MOST_TERMS: usize = 4912;

/// Somebody who reads a few bytes at a time.
const SLOWLY: Pace = Pace {
    given: 0,
    taken: 200,
    pause: Duration::from_millis(1),
};

/// Control-D.
const END_OF_INPUT: &[u8] = b"\x04";

/// Lines with answers, every form and some refusals among them. No sum is open after the last.
fn round() -> Vec<String> {
    let listing = LISTING.into_iter().map(|(line, _)| line);
    EVERY_FORM.lines().chain(listing).map(str::to_string).collect()
}

/// So many of these lines, over and over.
fn lines(count: usize) -> Vec<String> {
    round().into_iter().cycle().take(count).collect()
}

/// All of these lines so many times, so that a new circuit is taken after them.
pub fn rounds(count: usize) -> Vec<String> {
    lines(count * round().len())
}

/// Takes the answer to a line that has been given.
fn answered(talk: &mut Conversation, model: &mut Model, line: &str, pace: Pace) -> Result<(), String> {
    let answer = model.answer(line.as_bytes()).ok_or("a line of no bytes")?;
    let found = talk.take_lines_at(1 + answer.later.len(), pace);
    let found = found.map_err(|error| format!("{line}: {error}"))?;
    let line = line.into();
    Expected { line, answer }.compare(answers(&found).0.into_iter().next())
}

/// Gives a line and takes its answer before anything else is given.
pub fn ask(talk: &mut Conversation, model: &mut Model, line: &str) -> Result<(), String> {
    talk.give(format!("{line}\n").as_bytes())?;
    answered(talk, model, line, Pace::AT_ONCE)
}

/// Line after line, each answered at once.
pub fn ask_all(talk: &mut Conversation, model: &mut Model, lines: &[String]) -> Result<(), String> {
    for (number, line) in lines.iter().enumerate() {
        ask(talk, model, line).map_err(|error| format!("line {}: {error}", number + 1))?;
    }
    Ok(())
}

/// A program that ends by itself with status 0, and has written nothing since.
pub fn ends_in_silence(talk: Conversation) -> Result<(), String> {
    let ended = talk.ended()?;
    match ended.status.code() == Some(0) && ended.output.is_empty() && ended.errors.is_empty() {
        true => Ok(()),
        false => Err(format!("ended with {ended}")),
    }
}

/// A terminal whose outer end is closed. The system says so to a read that waits by a failure, to a later one by the
/// end of the input; either ends the program.
pub fn ends_by_hang_up(mut talk: Conversation) -> Result<(), String> {
    talk.close_input();
    talk.close_output();
    let ended = talk.ended()?;
    match ended.status.code() == Some(0) && (ended.errors.is_empty() || ended.says_one_line(INPUT_FAILED)) {
        true => Ok(()),
        false => Err(format!("ended with {ended}")),
    }
}

fn over_a_pipe(program: &Program) -> Result<(), String> {
    let mut talk = Conversation::over_pipes(program)?;
    ask_all(&mut talk, &mut Model::default(), &lines(LINES))?;
    talk.close_input();
    ends_in_silence(talk)
}

/// The terminal hands on every byte as it is.
fn over_a_terminal(program: &Program) -> Result<(), String> {
    let mut talk = Conversation::over_terminal(program, Terminal::raw())?;
    ask_all(&mut talk, &mut Model::default(), &lines(LINES))?;
    ends_by_hang_up(talk)
}

/// A terminal as it is for somebody who types: what is typed is seen, then the answer.
fn typed(program: &Program) -> Result<(), String> {
    let mut talk = Conversation::over_terminal(program, Terminal::open())?;
    for (line, answer) in LISTING {
        talk.give(format!("{line}\n").as_bytes())?;
        let seen = talk.take_lines(2).map_err(|error| format!("{line}: {error}"))?;
        if seen != format!("{line}\r\n{answer}\r\n").as_bytes() {
            return Err(format!("{line}: {}", seen.escape_ascii()));
        }
    }
    talk.give(END_OF_INPUT)?;
    ends_in_silence(talk)
}

/// Pieces of input with the lines that each completes: several at once, empty ones among them, and the beginning of
/// another.
const PIECES: [(&str, &[&str]); 4] = [
    ("(circuit 2)\n\n(ccz 1 2 1)\n(te", &["(circuit 2)", "(ccz 1 2 1)"]),
    ("rms)\n", &["(terms)"]),
    ("\n(z (g 2))\n\n(undo 3)\n(amp r 00 10 00", &["(z (g 2))", "(undo 3)"]),
    (
        ")\n(step 1)\n(step 4)\n(ter",
        &["(amp r 00 10 00)", "(step 1)", "(step 4)"],
    ),
];

/// All lines that a piece completes are answered before the next piece is given.
fn in_pieces(program: &Program) -> Result<(), String> {
    let mut talk = Conversation::over_pipes(program)?;
    let mut model = Model::default();
    for (piece, lines) in PIECES {
        talk.give(piece.as_bytes())?;
        for line in lines {
            answered(&mut talk, &mut model, line, Pace::AT_ONCE)?;
        }
    }
    // "A last line without one counts too".
    talk.give(b"ms)")?;
    talk.close_input();
    answered(&mut talk, &mut model, "(terms)", Pace::AT_ONCE)?;
    ends_in_silence(talk)
}

/// A listing that no pipe holds, read in small pieces after a while; nothing is given meanwhile.
pub fn listing_read_slowly(talk: &mut Conversation) -> Result<(), String> {
    let mut model = Model::default();
    let gates = every_term(16);
    let terms = Polynomial::of(16, &gates).terms().len();
    if terms != MOST_TERMS {
        return Err(format!("the model's polynomial has {terms} terms"));
    }
    ask_all(talk, &mut model, &circuit(16, &layers(&gates)))?;
    talk.give(b"(terms)\n")?;
    thread::sleep(Duration::from_millis(300));
    answered(talk, &mut model, "(terms)", SLOWLY)?;
    ask(talk, &mut model, &format!("(undo {})", gates.len()))?;
    ask(talk, &mut model, "(terms)")
}

fn listing_over_a_pipe(program: &Program) -> Result<(), String> {
    let mut talk = Conversation::over_pipes(program)?;
    listing_read_slowly(&mut talk)?;
    talk.close_input();
    ends_in_silence(talk)
}

fn listing_over_a_terminal(program: &Program) -> Result<(), String> {
    let mut talk = Conversation::over_terminal(program, Terminal::raw())?;
    listing_read_slowly(&mut talk)?;
    ends_by_hang_up(talk)
}

pub fn check(checks: &mut Checks) {
    let Checks { program, tally, .. } = checks;
    tally.check("1,000 lines over a pipe, one at a time", over_a_pipe(program));
    tally.check("1,000 lines over a terminal, one at a time", over_a_terminal(program));
    tally.check("lines typed on a terminal with echo", typed(program));
    tally.check("lines in pieces over a pipe", in_pieces(program));
    let listing = "a listing of 4,912 terms read slowly";
    tally.check(&format!("{listing} from a pipe"), listing_over_a_pipe(program));
    tally.check(&format!("{listing} from a terminal"), listing_over_a_terminal(program));
}
