//! The program `session` as a process: bytes in, bytes out.

use std::io::{Read, Write};
use std::path::{Path, PathBuf};
use std::process::{Child, Command, Stdio};
use std::thread;
use std::time::{Duration, Instant};

/// A process that has not ended by then is stopped.
const TIME_LIMIT: Duration = Duration::from_secs(60);

pub struct Program {
    pub path: PathBuf,
}

pub fn repository() -> PathBuf {
    Path::new(env!("CARGO_MANIFEST_DIR")).join("../..")
}

impl Program {
    /// The path in WAITFIELD_SESSION, or crates/session/out/session of the repository.
    pub fn from_environment() -> Program {
        let path = match std::env::var_os("WAITFIELD_SESSION") {
            Some(path) => path.into(),
            None => repository().join("crates/session/out/session"),
        };
        Program { path }
    }

    /// The path in WAITFIELD_OLDER: a program that the benchmark measures beside the other.
    pub fn older_from_environment() -> Option<Program> {
        let path = std::env::var_os("WAITFIELD_OLDER")?.into();
        Some(Program { path })
    }

    pub fn exists(&self) -> bool {
        self.path.is_file()
    }

    pub fn command(&self) -> Command {
        Command::new(&self.path)
    }

    pub fn start(&self) -> Result<Child, String> {
        self.command()
            .stdin(Stdio::piped())
            .stdout(Stdio::piped())
            .stderr(Stdio::piped())
            .spawn()
            .map_err(|error| format!("{} cannot be started: {error}", self.path.display()))
    }

    /// What the program writes for an input. It must end by itself, with status 0 and nothing on standard error.
    pub fn run(&self, input: &[u8]) -> Result<Vec<u8>, String> {
        self.run_in_pieces(input, usize::MAX)
    }

    /// The same with the input written in pieces of the given size, so that reads end in the middle of lines.
    pub fn run_in_pieces(&self, input: &[u8], size: usize) -> Result<Vec<u8>, String> {
        let mut child = self.start()?;
        let mut stdin = child.stdin.take().expect("piped");
        let mut stdout = child.stdout.take().expect("piped");
        let mut stderr = child.stderr.take().expect("piped");
        thread::scope(|scope| {
            // A program that stops reading early shows in its answers.
            scope.spawn(move || input.chunks(size).try_for_each(|piece| stdin.write_all(piece)));
            let output = scope.spawn(move || bytes_of(&mut stdout));
            let errors = scope.spawn(move || bytes_of(&mut stderr));
            let status = ended(&mut child);
            let output = output.join().expect("a reader does not panic");
            let errors = errors.join().expect("a reader does not panic");
            match status? {
                Some(0) if errors.is_empty() => Ok(output),
                status => Err(format!(
                    "ended with status {status:?}, standard error {:?}",
                    String::from_utf8_lossy(&errors)
                )),
            }
        })
    }
}

fn bytes_of(source: &mut impl Read) -> Vec<u8> {
    let mut bytes = Vec::new();
    // What came before a failure is judged.
    let _ = source.read_to_end(&mut bytes);
    bytes
}

fn ended(child: &mut Child) -> Result<Option<i32>, String> {
    let begun = Instant::now();
    loop {
        match child.try_wait() {
            Ok(Some(status)) => return Ok(status.code()),
            Ok(None) if begun.elapsed() < TIME_LIMIT => thread::sleep(Duration::from_micros(500)),
            Ok(None) => {
                let _ = child.kill();
                let _ = child.wait();
                return Err(format!("did not end within {TIME_LIMIT:?}"));
            }
            Err(error) => return Err(error.to_string()),
        }
    }
}
