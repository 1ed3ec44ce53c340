//! Calls of the C library that the standard library does not offer: streams that do not block, waiting with a limit,
//! signals and pseudo-terminals. The numbers are those of Linux.

use std::ffi::{CStr, OsStr, c_char, c_int, c_short, c_ulong};
use std::fs::{self, File, OpenOptions};
use std::io;
use std::os::fd::{AsRawFd, BorrowedFd, FromRawFd, OwnedFd};
use std::os::unix::ffi::OsStrExt;
use std::os::unix::fs::OpenOptionsExt;
use std::os::unix::process::CommandExt;
use std::process::{Child, Command};
use std::time::Duration;

pub const STOP: c_int = 19;
pub const CONTINUE: c_int = 18;
const BROKEN_PIPE: c_int = 13;

/// What a terminal's other end answers once nobody has it open.
pub const INPUT_OUTPUT_ERROR: c_int = 5;

pub const READABLE: c_short = 1;
pub const WRITABLE: c_short = 4;

const READ_WRITE: c_int = 0o2;
const NO_CONTROLLING_TERMINAL: c_int = 0o400;
const NONBLOCKING: c_int = 0o4000;
const CLOSED_ON_EXEC: c_int = 0o2_000_000;

const GET_FLAGS: c_int = 3;
const SET_FLAGS: c_int = 4;
const IGNORED: usize = 1;
const NOW: c_int = 0;

#[repr(C)]
struct Polled {
    fd: c_int,
    events: c_short,
    happened: c_short,
}

/// A terminal's settings, never looked into here: room for any `struct termios`.
#[repr(C, align(8))]
struct Settings([u8; 256]);

unsafe extern "C" {
    fn poll(polled: *mut Polled, count: c_ulong, milliseconds: c_int) -> c_int;
    fn fcntl(fd: c_int, command: c_int, ...) -> c_int;
    fn close(fd: c_int) -> c_int;
    fn signal(number: c_int, action: usize) -> usize;
    fn kill(process: c_int, number: c_int) -> c_int;
    fn posix_openpt(flags: c_int) -> c_int;
    fn grantpt(fd: c_int) -> c_int;
    fn unlockpt(fd: c_int) -> c_int;
    fn ptsname_r(fd: c_int, name: *mut c_char, length: usize) -> c_int;
    fn tcgetattr(fd: c_int, settings: *mut Settings) -> c_int;
    fn cfmakeraw(settings: *mut Settings);
    fn tcsetattr(fd: c_int, when: c_int, settings: *const Settings) -> c_int;
}

/// What a call answered that gives a number below 0 for a failure.
fn answered(answer: c_int) -> io::Result<c_int> {
    if answer < 0 {
        return Err(io::Error::last_os_error());
    }
    Ok(answer)
}

/// From now on a read or write through this end that would have to wait fails instead, for whoever makes it.
pub fn nonblocking(end: BorrowedFd) -> io::Result<()> {
    let fd = end.as_raw_fd();
    let flags = answered(unsafe { fcntl(fd, GET_FLAGS) })?;
    answered(unsafe { fcntl(fd, SET_FLAGS, flags | NONBLOCKING) }).map(drop)
}

/// Waits until one of the ends can be read or written, or has failed; false if none could within the limit.
pub fn ready(ends: &[(BorrowedFd, c_short)], limit: Duration) -> io::Result<bool> {
    let polled = |&(end, events): &(BorrowedFd, c_short)| Polled {
        fd: end.as_raw_fd(),
        events,
        happened: 0,
    };
    let mut polled: Vec<Polled> = ends.iter().map(polled).collect();
    let count = polled.len() as c_ulong;
    let happened = answered(unsafe { poll(polled.as_mut_ptr(), count, limit.as_millis() as c_int) })?;
    Ok(happened > 0)
}

/// A stopped process goes on when it is continued.
pub fn send(child: &Child, number: c_int) -> io::Result<()> {
    answered(unsafe { kill(child.id() as c_int, number) }).map(drop)
}

/// The command starts without the stream of this number.
pub fn without_stream(command: &mut Command, stream: c_int) {
    // Between fork and exec nothing is called but close.
    unsafe { command.pre_exec(move || answered(close(stream)).map(drop)) };
}

/// The command starts with SIGPIPE ignored, as under some shells and services; otherwise `Command` sets it back to its
/// default.
pub fn ignoring_broken_pipe(command: &mut Command) {
    // Between fork and exec nothing is called but signal.
    unsafe {
        command.pre_exec(|| {
            signal(BROKEN_PIPE, IGNORED);
            Ok(())
        })
    };
}

/// The time that a task has been on the processor. The kernel brings it up to date when the task leaves the processor.
pub fn on_processor(task: &str) -> Result<Duration, String> {
    let path = format!("/proc/{task}/schedstat");
    let text = fs::read_to_string(&path).map_err(|error| format!("{path}: {error}"))?;
    let nanoseconds = text.split(' ').next().and_then(|first| first.parse().ok());
    nanoseconds.map(Duration::from_nanos).ok_or(format!("{path}: {text}"))
}

/// A pseudo-terminal: the end of whoever types and reads, and the end that programs have.
pub struct Terminal {
    pub outer: File,
    pub inner: File,
}

impl Terminal {
    /// A terminal as it is for somebody who types: with echo, whole lines, and CR LF at the end of what is written.
    pub fn open() -> io::Result<Terminal> {
        let flags = READ_WRITE | NO_CONTROLLING_TERMINAL | CLOSED_ON_EXEC;
        let fd = answered(unsafe { posix_openpt(flags) })?;
        // The call has given a file of its own.
        let outer = File::from(unsafe { OwnedFd::from_raw_fd(fd) });
        answered(unsafe { grantpt(fd) })?;
        answered(unsafe { unlockpt(fd) })?;
        let mut name = [0; 128];
        match unsafe { ptsname_r(fd, name.as_mut_ptr(), name.len()) } {
            0 => {}
            error => return Err(io::Error::from_raw_os_error(error)),
        }
        // The name ends with a NUL, since the call has said 0.
        let name = OsStr::from_bytes(unsafe { CStr::from_ptr(name.as_ptr()) }.to_bytes());
        let inner = OpenOptions::new()
            .read(true)
            .write(true)
            .custom_flags(NO_CONTROLLING_TERMINAL)
            .open(name)?;
        Ok(Terminal { outer, inner })
    }

    /// The same with every byte handed on as it is: no echo, no line editing, no CR LF.
    pub fn raw() -> io::Result<Terminal> {
        let terminal = Terminal::open()?;
        let fd = terminal.inner.as_raw_fd();
        let mut settings = Settings([0; 256]);
        answered(unsafe { tcgetattr(fd, &mut settings) })?;
        unsafe { cfmakeraw(&mut settings) };
        answered(unsafe { tcsetattr(fd, NOW, &settings) })?;
        Ok(terminal)
    }
}
