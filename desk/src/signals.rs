//! Signals, by the C library that std links already: an interrupt is noted, and a closed pipe ends
//! the program as it does any other.

use std::ffi::{c_int, c_short, c_ulong, c_void};
use std::fs::File;
use std::io::{self, ErrorKind, Read};
use std::os::fd::{AsRawFd, IntoRawFd};
use std::sync::atomic::{AtomicI32, Ordering};

const INTERRUPT: c_int = 2;
const CLOSED_PIPE: c_int = 13;
const TERMINATE: c_int = 15;
/// The default action of a signal.
const DEFAULT: usize = 0;
/// There is something to read.
const READABLE: c_short = 1;

/// A file to wait for.
#[repr(C)]
struct Awaited {
    file: c_int,
    events: c_short,
    happened: c_short,
}

extern "C" {
    fn signal(number: c_int, action: usize) -> usize;
    fn write(file: c_int, bytes: *const c_void, length: usize) -> isize;
    fn poll(files: *mut Awaited, count: c_ulong, milliseconds: c_int) -> c_int;
}

static NOTED: AtomicI32 = AtomicI32::new(0);
/// The two ends of a pipe that gets a byte when a signal is noted, so that waiting for input ends
/// whenever it comes.
static BELL: [AtomicI32; 2] = [AtomicI32::new(-1), AtomicI32::new(-1)];

/// Notes the signal. A second one ends the program.
extern "C" fn note(number: c_int) {
    NOTED.store(number, Ordering::SeqCst);
    let byte = 0u8;
    unsafe {
        write(BELL[1].load(Ordering::SeqCst), (&raw const byte).cast(), 1);
        signal(number, DEFAULT);
    }
}

/// A write to a closed pipe ends the program quietly.
pub fn end_on_closed_pipe() {
    unsafe { signal(CLOSED_PIPE, DEFAULT) };
}

/// From here on an interrupt is noted.
pub fn note_interrupts() -> io::Result<()> {
    let (reader, writer) = io::pipe()?;
    BELL[0].store(reader.into_raw_fd(), Ordering::SeqCst);
    BELL[1].store(writer.into_raw_fd(), Ordering::SeqCst);
    let action = note as extern "C" fn(c_int) as usize;
    for number in [INTERRUPT, TERMINATE] {
        unsafe { signal(number, action) };
    }
    Ok(())
}

/// The signal that has come, if one has.
pub fn noted() -> Option<u8> {
    match NOTED.load(Ordering::Relaxed) {
        0 => None,
        number => Some(number as u8),
    }
}

/// A file whose reading ends with `Interrupted` when a signal is noted, also while it waits.
pub struct Interruptible(pub File);

impl Read for Interruptible {
    fn read(&mut self, buffer: &mut [u8]) -> io::Result<usize> {
        let file = |file| Awaited { file, events: READABLE, happened: 0 };
        let mut files = [file(self.0.as_raw_fd()), file(BELL[0].load(Ordering::SeqCst))];
        // Another signal may cut the wait short.
        while unsafe { poll(files.as_mut_ptr(), files.len() as c_ulong, -1) } < 0 {
            let why = io::Error::last_os_error();
            if why.kind() != ErrorKind::Interrupted {
                return Err(why);
            }
        }
        match noted() {
            Some(_) => Err(ErrorKind::Interrupted.into()),
            None => self.0.read(buffer),
        }
    }
}
