//! What the standard library has no words for: signals, the death of a parent, rights of the user
//! who runs this, and which streams were closed at the start. All `unsafe` code of the package
//! stands in this file, and calls the C library.

use std::ffi::{c_char, c_int, CString};
use std::io;
use std::os::unix::ffi::OsStrExt;
use std::os::unix::process::CommandExt;
use std::path::Path;
use std::process::Command;
use std::sync::atomic::{AtomicU64, Ordering};

pub const SIGHUP: c_int = 1;
pub const SIGINT: c_int = 2;
pub const SIGQUIT: c_int = 3;
pub const SIGKILL: c_int = 9;
pub const SIGPIPE: c_int = 13;
pub const SIGTERM: c_int = 15;
const SIGCHLD: c_int = 17;
const SIGXFSZ: c_int = 25;

const DEFAULT: usize = 0;
const IGNORED: usize = 1;
const FAILED: c_int = -1;
const F_GETFD: c_int = 1;
const SIG_BLOCK: c_int = 0;
const SIG_UNBLOCK: c_int = 1;
const PR_SET_PDEATHSIG: c_int = 1;
const AT_FDCWD: c_int = -100;
const AT_EACCESS: c_int = 0x200;

/// A set of signals of the C library: room for 1024 bits, as glibc and musl have it.
#[repr(C, align(8))]
pub struct SignalSet([u8; 128]);

extern "C" {
    fn signal(number: c_int, handler: usize) -> usize;
    fn kill(process: c_int, number: c_int) -> c_int;
    fn getppid() -> c_int;
    fn close(file: c_int) -> c_int;
    fn prctl(option: c_int, ...) -> c_int;
    fn fcntl(file: c_int, command: c_int, ...) -> c_int;
    fn faccessat(folder: c_int, path: *const c_char, mode: c_int, flags: c_int) -> c_int;
    fn sigemptyset(set: *mut SignalSet) -> c_int;
    fn sigaddset(set: *mut SignalSet, number: c_int) -> c_int;
    fn sigwait(set: *const SignalSet, number: *mut c_int) -> c_int;
    fn pthread_sigmask(how: c_int, set: *const SignalSet, old: *mut SignalSet) -> c_int;
}

/// How the process was started: which of the streams 0 to 2 were closed, and which signals it
/// ignores.
#[derive(Clone, Copy)]
pub struct Start(u64);

/// Where that is noted. The runtime of Rust opens /dev/null for closed streams, and ignores
/// SIGPIPE, before `main`.
static NOTED: AtomicU64 = AtomicU64::new(0);

/// The loader calls what stands in this section before the runtime begins.
#[used]
#[link_section = ".init_array"]
static BEFORE_MAIN: extern "C" fn() = note_start;

const SIGNAL_BITS: c_int = 8;
const NOTED_SIGNALS: [c_int; 6] = [SIGHUP, SIGINT, SIGQUIT, SIGPIPE, SIGTERM, SIGXFSZ];

extern "C" fn note_start() {
    let mut noted = 0;
    for stream in 0..3 {
        // SAFETY: the call only looks whether the descriptor is open.
        if unsafe { fcntl(stream, F_GETFD) } == FAILED {
            noted |= 1 << stream;
        }
    }
    for number in NOTED_SIGNALS {
        // SAFETY: no handler is set: a signal that was ignored is ignored again, and others are as
        // they were at a start.
        let before = unsafe { signal(number, IGNORED) };
        if before == IGNORED {
            noted |= 1 << (SIGNAL_BITS + number);
        } else {
            // SAFETY: as above.
            unsafe { signal(number, DEFAULT) };
        }
    }
    NOTED.store(noted, Ordering::Relaxed);
}

impl Start {
    /// How this process was started.
    pub fn of_this() -> Self {
        Start(NOTED.load(Ordering::Relaxed))
    }

    /// Whether a stream was open.
    pub fn is_open(self, stream: c_int) -> bool {
        self.0 & (1 << stream) == 0
    }

    /// Whether a signal was to be ignored.
    pub fn ignores(self, number: c_int) -> bool {
        self.0 & (1 << (SIGNAL_BITS + number)) != 0
    }
}

/// Holds these signals back from all threads that begin from now on, and from this one, so that
/// [`wait_for`] gets them. A file that grows too large is from now on an error of a write, and no
/// signal; and the end of a process can be waited for, also where the parent would not do that.
pub fn hold_back(numbers: &[c_int]) -> SignalSet {
    let set = set_of(numbers);
    // SAFETY: `set` is a set that was made, and the old mask is not asked for. No signal gets a
    // handler.
    unsafe {
        pthread_sigmask(SIG_BLOCK, &set, std::ptr::null_mut());
        if numbers.contains(&SIGPIPE) {
            signal(SIGPIPE, DEFAULT);
        }
        signal(SIGXFSZ, IGNORED);
        signal(SIGCHLD, DEFAULT);
    }
    set
}

fn set_of(numbers: &[c_int]) -> SignalSet {
    let mut set = SignalSet([0; 128]);
    // SAFETY: `set` has the room of a set of the C library.
    unsafe {
        sigemptyset(&mut set);
        for &number in numbers {
            sigaddset(&mut set, number);
        }
    }
    set
}

/// The next of these signals that comes.
pub fn wait_for(set: &SignalSet) -> c_int {
    let mut number = 0;
    // SAFETY: both point to values that live as long as the call.
    while unsafe { sigwait(set, &mut number) } != 0 {}
    number
}

/// Ends this process by a signal that was held back.
pub fn end_by(number: c_int) -> ! {
    let set = set_of(&[number]);
    // SAFETY: the signal has its first meaning again, comes to this process, and is let through in
    // this thread.
    unsafe {
        signal(number, DEFAULT);
        kill(std::process::id() as c_int, number);
        pthread_sigmask(SIG_UNBLOCK, &set, std::ptr::null_mut());
    }
    std::process::exit(128 + number)
}

/// Sends a signal to a process.
pub fn send(process: i32, number: c_int) {
    // SAFETY: no memory is touched. A process that is gone makes an error, which is not looked at.
    unsafe { kill(process, number) };
}

/// Sees to it that the process of a command ends when the thread that starts it ends, by whatever
/// signal, and that it has the signals and the standard input with which this process was started.
pub fn bind(command: &mut Command, start: Start, keeps_input: bool) {
    let parent = std::process::id() as c_int;
    let prepare = move || {
        // SAFETY: each call may be made between fork and exec, and touches no memory.
        unsafe {
            if prctl(PR_SET_PDEATHSIG, SIGKILL) == FAILED {
                return Err(io::Error::last_os_error());
            }
            if !start.ignores(SIGXFSZ) {
                signal(SIGXFSZ, DEFAULT);
            }
            if keeps_input && !start.is_open(0) {
                close(0);
            }
            // Where the parent is gone already, no signal comes any more.
            if getppid() != parent {
                return Err(io::ErrorKind::BrokenPipe.into());
            }
        }
        Ok(())
    };
    // SAFETY: the closure allocates nothing and takes no lock.
    unsafe { command.pre_exec(prepare) };
}

/// What a user may do with a file or a folder.
#[derive(Clone, Copy)]
pub enum Right {
    Enter = 1,
    Write = 2,
    Read = 4,
}

/// Whether whoever runs this may do that.
pub fn may(path: &Path, right: Right) -> bool {
    let Ok(path) = CString::new(path.as_os_str().as_bytes()) else { return false };
    // SAFETY: the path ends with a NUL, and lives as long as the call.
    unsafe { faccessat(AT_FDCWD, path.as_ptr(), right as c_int, AT_EACCESS) == 0 }
}

/// The name of a signal.
pub fn signal_name(number: i32) -> Option<&'static str> {
    const NAMES: [&str; 31] = [
        "HUP", "INT", "QUIT", "ILL", "TRAP", "ABRT", "BUS", "FPE", "KILL", "USR1", "SEGV", "USR2",
        "PIPE", "ALRM", "TERM", "STKFLT", "CHLD", "CONT", "STOP", "TSTP", "TTIN", "TTOU", "URG",
        "XCPU", "XFSZ", "VTALRM", "PROF", "WINCH", "IO", "PWR", "SYS",
    ];
    usize::try_from(number).ok()?.checked_sub(1).and_then(|at| NAMES.get(at).copied())
}
