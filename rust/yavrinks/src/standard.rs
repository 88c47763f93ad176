//! Standard input, output and error, with nothing lost in silence.
//!
//! The standard library means well: it opens /dev/null in the place of a closed descriptor before `main`,
//! and takes a write that the system refuses as unfit (EBADF) for done. A script would then be told that
//! an answer was printed which nobody got. So the descriptors are looked at before the library comes to
//! them, and are written through a file.

use std::fs::File;
use std::io::{self, Read, Write};
use std::os::fd::{AsFd, BorrowedFd};

use crate::fault::Fault;

/// The bytes of standard input, at most so many.
pub fn read(most: u64) -> Result<Vec<u8>, Fault> {
    let input = io::stdin();
    open(start::input_closed(), input.as_fd())
        .and_then(|file| read_some(file, most))
        .map_err(|why| Fault::reading("standard input", why))
}

/// The bytes of a file, at most so many: it may be a device that never ends.
pub fn read_some(file: File, most: u64) -> io::Result<Vec<u8>> {
    let mut bytes = Vec::new();
    file.take(most).read_to_end(&mut bytes)?;
    Ok(bytes)
}

/// Writes all of it to standard output.
pub fn print(bytes: &[u8]) -> Result<(), Fault> {
    let output = io::stdout();
    open(start::output_closed(), output.as_fd())
        .and_then(|mut file| file.write_all(bytes))
        .map_err(|why| Fault::writing("standard output", why))
}

/// Writes to standard error. If that fails too, the status is all that is left to tell it.
pub fn complain(text: &str) {
    let _ = io::stderr().write_all(text.as_bytes());
}

fn open(closed: bool, descriptor: BorrowedFd<'_>) -> io::Result<File> {
    if closed {
        return Err(io::Error::other("it is closed"));
    }
    Ok(File::from(descriptor.try_clone_to_owned()?))
}

/// What was closed when the process began.
mod start {
    // The one call here is of C's library, and has to come before the standard library's own start.
    #![allow(unsafe_code)]

    use std::ffi::c_int;
    use std::sync::atomic::{AtomicBool, Ordering};

    extern "C" {
        fn fcntl(descriptor: c_int, command: c_int, ...) -> c_int;
    }

    /// The command that asks for a descriptor's flags; it fails on a closed one alone.
    const F_GETFD: c_int = 1;

    static INPUT_CLOSED: AtomicBool = AtomicBool::new(false);
    static OUTPUT_CLOSED: AtomicBool = AtomicBool::new(false);

    pub fn input_closed() -> bool {
        INPUT_CLOSED.load(Ordering::Relaxed)
    }

    pub fn output_closed() -> bool {
        OUTPUT_CLOSED.load(Ordering::Relaxed)
    }

    extern "C" fn look() {
        for (descriptor, closed) in [(0, &INPUT_CLOSED), (1, &OUTPUT_CLOSED)] {
            // SAFETY: the command takes no third argument and changes nothing.
            let flags = unsafe { fcntl(descriptor, F_GETFD) };
            closed.store(flags == -1, Ordering::Relaxed);
        }
    }

    // What stands in this section is called before `main`.
    #[used]
    #[link_section = ".init_array"]
    static LOOK: extern "C" fn() = look;
}
