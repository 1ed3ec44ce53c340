//! Streams that fail and streams that make the program wait. No answer is lost in silence: a write that fails ends the
//! program with one line on standard error, a read that fails ends the input with one, and what is interrupted or would
//! block is tried again.

mod failed;
mod slow;

use crate::Checks;
use waitfield_checks::conversation::Ended;

/// How a conversation went up to its end.
type Outcome = Result<(), String>;

/// An end with status 0 and one line on standard error that begins so.
fn ended_with_line(ended: &Ended, begins: &str) -> Outcome {
    match ended.status.code() == Some(0) && ended.says_one_line(begins) {
        true => Ok(()),
        false => Err(format!("no one line '{begins}..': ended with {ended}")),
    }
}

fn failed(error: std::io::Error) -> String {
    error.to_string()
}

pub fn check(checks: &mut Checks) {
    failed::check(checks);
    slow::check(checks);
}
