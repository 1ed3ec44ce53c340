//! The program as a process that is talked to: bytes are given and taken at any pace, and nothing is waited for without
//! a limit.

use crate::program::Program;
use crate::script::shown;
use crate::system::{self, INPUT_OUTPUT_ERROR, READABLE, Terminal, WRITABLE};
use std::fmt;
use std::fs::File;
use std::io::{self, ErrorKind, Read, Write};
use std::os::fd::{AsFd, OwnedFd};
use std::process::{Child, Command, ExitStatus};
use std::thread;
use std::time::{Duration, Instant};

/// A program that has given no byte, taken none or not ended by then is taken to wait for something else, and is
/// killed.
const LIMIT: Duration = Duration::from_secs(10);

/// The longest conversation: a program that never stops writing is killed too.
const LONGEST: Duration = Duration::from_secs(60);

/// How the program's one line on standard error begins, by the stream that has failed.
pub const OUTPUT_FAILED: &str = "session: standard output";
pub const INPUT_FAILED: &str = "session: standard input";

/// One of the program's standard streams: its own end, and ours if there is one.
pub struct Stream {
    theirs: OwnedFd,
    ours: Option<File>,
}

impl Stream {
    /// A pipe that the program reads.
    pub fn input() -> io::Result<Stream> {
        let (reader, writer) = io::pipe()?;
        Stream::between(reader.into(), File::from(OwnedFd::from(writer)))
    }

    /// A pipe that the program writes.
    pub fn output() -> io::Result<Stream> {
        let (reader, writer) = io::pipe()?;
        Stream::between(writer.into(), File::from(OwnedFd::from(reader)))
    }

    /// A terminal that the program reads and writes: one file for both, as in a shell.
    pub fn terminal(terminal: Terminal) -> io::Result<[Stream; 2]> {
        let inner = OwnedFd::from(terminal.inner);
        let input = Stream::between(inner.try_clone()?, terminal.outer.try_clone()?)?;
        Ok([input, Stream::between(inner, terminal.outer)?])
    }

    /// The outer end of a terminal as the program's, the inner as ours: once ours is closed, reading fails.
    pub fn failing_input(terminal: Terminal) -> io::Result<Stream> {
        Stream::between(terminal.outer.into(), terminal.inner)
    }

    /// A file, a directory or a device.
    pub fn file(file: File) -> Stream {
        Stream {
            theirs: file.into(),
            ours: None,
        }
    }

    /// Our end never blocks, so that no wait is without a limit.
    fn between(theirs: OwnedFd, ours: File) -> io::Result<Stream> {
        system::nonblocking(ours.as_fd())?;
        Ok(Stream {
            theirs,
            ours: Some(ours),
        })
    }

    /// The same where the program's end does not block either.
    pub fn nonblocking(self) -> io::Result<Stream> {
        system::nonblocking(self.theirs.as_fd())?;
        Ok(self)
    }
}

/// How fast bytes go in and out: at most so many given, a pause, at most so many taken.
#[derive(Clone, Copy)]
pub struct Pace {
    pub given: usize,
    pub taken: usize,
    pub pause: Duration,
}

impl Pace {
    pub const AT_ONCE: Pace = Pace {
        given: usize::MAX,
        taken: 1 << 16,
        pause: Duration::ZERO,
    };
}

/// What a program left when it ended: the bytes of its output that were not taken before, and its standard error.
pub struct Ended {
    pub status: ExitStatus,
    pub output: Vec<u8>,
    pub errors: String,
}

impl Ended {
    /// Whether standard error is one line that begins so.
    pub fn says_one_line(&self, begins: &str) -> bool {
        let one = self.errors.lines().count() == 1 && self.errors.ends_with('\n');
        one && self.errors.starts_with(begins)
    }
}

impl fmt::Display for Ended {
    fn fmt(&self, f: &mut fmt::Formatter) -> fmt::Result {
        let [output, errors] = [&self.output[..], self.errors.as_bytes()].map(shown);
        write!(f, "{}, output '{output}', standard error '{errors}'", self.status)
    }
}

pub struct Conversation {
    child: Child,
    begun: Instant,
    input: Option<File>,
    output: Option<File>,
    errors: File,
    /// Bytes of the output that were read with a line before them.
    held: Vec<u8>,
}

/// How many bytes a call has moved; none if it would have had to wait.
fn moved(outcome: io::Result<usize>) -> Result<Option<usize>, String> {
    match outcome {
        Ok(count) => Ok(Some(count)),
        Err(error) if error.kind() == ErrorKind::WouldBlock => Ok(None),
        Err(error) => Err(error.to_string()),
    }
}

impl Conversation {
    pub fn start(mut command: Command, input: Stream, output: Stream) -> Result<Conversation, String> {
        let errors = Stream::output().map_err(|error| error.to_string())?;
        command.stdin(input.theirs).stdout(output.theirs).stderr(errors.theirs);
        let child = command
            .spawn()
            .map_err(|error| format!("{} cannot be started: {error}", command.get_program().display()))?;
        Ok(Conversation {
            child,
            begun: Instant::now(),
            input: input.ours,
            output: output.ours,
            errors: errors.ours.expect("a pipe has two ends"),
            held: Vec::new(),
        })
    }

    pub fn over_pipes(program: &Program) -> Result<Conversation, String> {
        let failed = |error: io::Error| error.to_string();
        let (input, output) = (Stream::input().map_err(failed)?, Stream::output().map_err(failed)?);
        Conversation::start(program.command(), input, output)
    }

    pub fn over_terminal(program: &Program, terminal: io::Result<Terminal>) -> Result<Conversation, String> {
        let streams = terminal.and_then(Stream::terminal);
        let [input, output] = streams.map_err(|error| format!("no terminal: {error}"))?;
        Conversation::start(program.command(), input, output)
    }

    pub fn child(&self) -> &Child {
        &self.child
    }

    pub fn still_runs(&mut self) -> bool {
        matches!(self.child.try_wait(), Ok(None))
    }

    fn goes_on(&self) -> Result<(), String> {
        match self.begun.elapsed() < LONGEST {
            true => Ok(()),
            false => Err(format!("took more than {LONGEST:?}")),
        }
    }

    /// Writes what the program's input has room for: none if it has no room.
    fn give_some(&mut self, bytes: &[u8]) -> Result<Option<usize>, String> {
        self.goes_on()?;
        let input = self.input.as_mut().ok_or("the input has been closed")?;
        moved(input.write(bytes)).map_err(|error| format!("input: {error}"))
    }

    /// Reads at most so many bytes: none if there are none yet, 0 of them at the end of the output.
    fn take_some(&mut self, most: usize) -> Result<Option<Vec<u8>>, String> {
        self.goes_on()?;
        let output = self.output.as_mut().ok_or("the output has been closed")?;
        let mut bytes = vec![0; most];
        let read = match output.read(&mut bytes) {
            Err(error) if error.raw_os_error() == Some(INPUT_OUTPUT_ERROR) => Ok(0),
            read => read,
        };
        let count = moved(read).map_err(|error| format!("output: {error}"))?;
        Ok(count.map(|count| bytes[..count].to_vec()))
    }

    /// Waits until bytes can be given, if there are any, or taken.
    fn wait(&self, giving: bool, taking: bool) -> Result<(), String> {
        let mut ends = Vec::new();
        if let Some(input) = self.input.as_ref().filter(|_| giving) {
            ends.push((input.as_fd(), WRITABLE));
        }
        if let Some(output) = self.output.as_ref().filter(|_| taking) {
            ends.push((output.as_fd(), READABLE));
        }
        match system::ready(&ends, LIMIT) {
            Ok(true) => Ok(()),
            Ok(false) if taking => Err(format!("no answer within {LIMIT:?}")),
            Ok(false) => Err(format!("took no input within {LIMIT:?}")),
            Err(error) => Err(error.to_string()),
        }
    }

    /// All of the bytes, one after another.
    pub fn give(&mut self, bytes: &[u8]) -> Result<(), String> {
        let mut rest = bytes;
        while !rest.is_empty() {
            match self.give_some(rest)? {
                Some(count) => rest = &rest[count..],
                None => self.wait(true, false)?,
            }
        }
        Ok(())
    }

    /// The next so many lines of the output, with their line feeds.
    pub fn take_lines(&mut self, count: usize) -> Result<Vec<u8>, String> {
        self.take_lines_at(count, Pace::AT_ONCE)
    }

    pub fn take_lines_at(&mut self, count: usize, pace: Pace) -> Result<Vec<u8>, String> {
        let mut bytes = std::mem::take(&mut self.held);
        loop {
            let mut ends = (1..=bytes.len()).filter(|&end| bytes[end - 1] == b'\n');
            if let Some(end) = ends.nth(count - 1) {
                self.held = bytes.split_off(end);
                return Ok(bytes);
            }
            thread::sleep(pace.pause);
            match self.take_some(pace.taken)? {
                Some(taken) if taken.is_empty() => return Err("the output has ended".into()),
                Some(taken) => bytes.extend(taken),
                None => self.wait(false, true)?,
            }
        }
    }

    pub fn close_input(&mut self) {
        self.input = None;
    }

    pub fn close_output(&mut self) {
        self.output = None;
    }

    /// Gives the input and takes the output by turns, up to the end of the output.
    pub fn exchange(&mut self, input: &[u8], pace: Pace) -> Result<Vec<u8>, String> {
        let mut rest = input;
        let mut output = Vec::new();
        loop {
            let mut given = None;
            if rest.is_empty() {
                self.close_input();
            } else {
                // A program that stops reading early shows in its answers.
                let piece = &rest[..rest.len().min(pace.given)];
                given = self.give_some(piece).unwrap_or(Some(rest.len()));
                rest = &rest[given.unwrap_or(0)..];
            }
            thread::sleep(pace.pause);
            match self.take_some(pace.taken)? {
                Some(taken) if taken.is_empty() => return Ok(output),
                Some(taken) => output.extend(taken),
                None if given.is_none() => self.wait(!rest.is_empty(), true)?,
                None => {}
            }
        }
    }

    /// How the program ended, by itself and within the limit.
    pub fn ended(mut self) -> Result<Ended, String> {
        let begun = Instant::now();
        let status = loop {
            match self.child.try_wait().map_err(|error| error.to_string())? {
                Some(status) => break status,
                None if begun.elapsed() < LIMIT => thread::sleep(Duration::from_micros(500)),
                None => return Err(format!("did not end within {LIMIT:?}")),
            }
        };
        let mut output = std::mem::take(&mut self.held);
        while let Ok(Some(taken)) = self.take_some(1 << 16) {
            if taken.is_empty() {
                break;
            }
            output.extend(taken);
        }
        let mut errors = Vec::new();
        // A process that the program has started may still have it open; what is there now counts.
        let _ = self.errors.read_to_end(&mut errors);
        let errors = String::from_utf8_lossy(&errors).into_owned();
        Ok(Ended { status, output, errors })
    }
}

impl Drop for Conversation {
    /// Nothing that was started is left behind, whatever a check has found.
    fn drop(&mut self) {
        let _ = self.child.kill();
        let _ = self.child.wait();
    }
}
