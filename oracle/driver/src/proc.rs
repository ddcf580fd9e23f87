//! The child process, and the memory it shares with its parent: a child
//! that dies leaves there how far it came, what it said and why.

use std::ffi::{c_int, c_void};
use std::fmt::{self, Write as _};
use std::io::{self, Write as _};
use std::ptr::null_mut;
use std::sync::atomic::{AtomicPtr, Ordering::Relaxed};

const OUT: usize = 1 << 17;
const WHY: usize = 512;

#[repr(C)]
struct Shared {
    at: usize,
    said: usize,
    noted: usize,
    out: [u8; OUT],
    why: [u8; WHY],
}

static SHARED: AtomicPtr<Shared> = AtomicPtr::new(null_mut());

// Linux. No crate of bindings: the build has no registry.
unsafe extern "C" {
    fn mmap(
        a: *mut c_void,
        len: usize,
        prot: c_int,
        flags: c_int,
        fd: c_int,
        at: i64,
    ) -> *mut c_void;
    fn fork() -> c_int;
    fn waitpid(pid: c_int, status: *mut c_int, options: c_int) -> c_int;
    fn prctl(option: c_int, ...) -> c_int;
    fn open(path: *const std::ffi::c_char, flags: c_int, ...) -> c_int;
    fn dup2(old: c_int, new: c_int) -> c_int;
    fn _exit(status: c_int) -> !;
}
const PROT_READ_WRITE: c_int = 3;
const MAP_SHARED_ANONYMOUS: c_int = 0x01 | 0x20;
const PR_SET_DUMPABLE: c_int = 4;
const O_WRONLY: c_int = 1;
/// Exit status of a child whose output nobody takes.
const NO_READER: c_int = 3;
/// Exit status of a child whose driver, not the Rust, panicked.
const DRIVER_FAILED: c_int = 4;
/// Signals that a program draws on itself: ILL, TRAP, ABRT, BUS, FPE, SEGV.
const OWN_FAULTS: [c_int; 6] = [4, 5, 6, 7, 8, 11];

fn shared() -> &'static mut Shared {
    // SAFETY: mapped by `prepare`; one thread; the parent looks only after
    // the child's end.
    unsafe { &mut *SHARED.load(Relaxed) }
}

/// Maps the shared memory and turns panics into notes.
pub fn prepare() -> Result<(), &'static str> {
    // SAFETY: a new mapping of zeros, which is a valid `Shared`.
    let at = unsafe {
        let len = size_of::<Shared>();
        mmap(
            null_mut(),
            len,
            PROT_READ_WRITE,
            MAP_SHARED_ANONYMOUS,
            -1,
            0,
        )
    };
    if at as isize == -1 {
        return Err("no shared memory");
    }
    SHARED.store(at.cast(), Relaxed);
    std::panic::set_hook(Box::new(|info| {
        // Seen only where it is the parent's: a child has no standard error.
        eprintln!("{info}");
        let text = info.payload_as_str().unwrap_or("panic");
        // The first line without addresses, which differ between runs.
        let text = text.lines().next().unwrap_or("");
        let text = text.split(" but is 0x").next().unwrap_or("");
        // Only the Rust's own lines are told: the library's differ between
        // compilers.
        let place = info
            .location()
            .and_then(|at| Some((at.file().split_once("docs/src/")?.1, at.line())));
        match place {
            Some((file, line)) => note(format_args!("{text} ({file}:{line})")),
            None => note(format_args!("{text}")),
        }
    }));
    Ok(())
}

struct Note;

impl fmt::Write for Note {
    fn write_str(&mut self, text: &str) -> fmt::Result {
        let s = shared();
        let n = text.len().min(WHY - s.noted);
        s.why[s.noted..][..n].copy_from_slice(&text.as_bytes()[..n]);
        s.noted += n;
        Ok(())
    }
}

/// Notes why the scenario at hand ends.
fn note(args: fmt::Arguments) {
    shared().noted = 0;
    let _ = Note.write_fmt(args);
}

/// What was noted.
pub fn noted() -> String {
    let s = shared();
    String::from_utf8_lossy(&s.why[..s.noted]).into_owned()
}

struct Out;

impl fmt::Write for Out {
    fn write_str(&mut self, text: &str) -> fmt::Result {
        let mut text = text.as_bytes();
        loop {
            let s = shared();
            let n = text.len().min(OUT - s.said);
            s.out[s.said..][..n].copy_from_slice(&text[..n]);
            s.said += n;
            text = &text[n..];
            if text.is_empty() {
                return Ok(());
            }
            hand_on();
        }
    }
}

/// Says a line.
pub fn say(args: fmt::Arguments) {
    let _ = Out.write_fmt(args);
    let _ = Out.write_str("\n");
}

/// Passes what was said to standard output.
fn hand_on() {
    let s = shared();
    let mut stdout = io::stdout().lock();
    let written = stdout
        .write_all(&s.out[..s.said])
        .and_then(|()| stdout.flush());
    s.said = 0;
    if written.is_err() {
        // SAFETY: ends the process at hand.
        unsafe { _exit(NO_READER) };
    }
}

/// Begins scenario `n`.
pub fn begin(n: usize) {
    let s = shared();
    s.at = n;
    s.noted = 0;
}

/// A child's death in a scenario.
pub struct Death {
    pub at: usize,
    pub why: String,
}

/// Does `work` in a child. Passes on all it said; Some where it died of a
/// fault of its own.
pub fn in_child(work: impl FnOnce()) -> io::Result<Option<Death>> {
    // SAFETY: one thread, so the child may do anything.
    let pid = unsafe { fork() };
    if pid == 0 {
        // SAFETY: plain calls. Aborts are expected here: no core files, no
        // message of the runtime's own.
        unsafe {
            prctl(PR_SET_DUMPABLE, 0);
            let null = open(c"/dev/null".as_ptr(), O_WRONLY);
            if null >= 0 {
                dup2(null, 2);
            }
        }
        let done = std::panic::catch_unwind(std::panic::AssertUnwindSafe(work));
        // SAFETY: ends the child, whose output goes through shared memory.
        unsafe { _exit(if done.is_ok() { 0 } else { DRIVER_FAILED }) };
    }
    let mut status = 0;
    // SAFETY: the child just made.
    if pid < 0 || unsafe { waitpid(pid, &mut status, 0) } != pid {
        return Err(io::Error::last_os_error());
    }
    hand_on();
    let signal = status & 0x7F;
    let s = shared();
    if status == 0 {
        Ok(None)
    } else if status == NO_READER << 8 {
        Err(io::ErrorKind::BrokenPipe.into())
    } else if OWN_FAULTS.contains(&signal) {
        let why = match s.noted {
            0 => format!("signal {signal}"),
            _ => noted(),
        };
        Ok(Some(Death { at: s.at, why }))
    } else {
        let at = s.at;
        let noted = noted();
        Err(io::Error::other(format!(
            "child ended in scenario {at}: {status:#x} {noted}"
        )))
    }
}
