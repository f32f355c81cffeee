//! A file on disk as memory that is shared with other processes (Linux).

use std::ffi::{c_int, c_long, c_void};
use std::fs::OpenOptions;
use std::io;
use std::os::fd::AsRawFd;
use std::path::Path;

extern "C" {
    fn mmap(
        place: *mut c_void,
        length: usize,
        access: c_int,
        flags: c_int,
        file: c_int,
        offset: c_long,
    ) -> *mut c_void;
    fn munmap(place: *mut c_void, length: usize) -> c_int;
}

const READ_AND_WRITE: c_int = 1 | 2;
const SHARED: c_int = 1;

/// The bytes of a file, mapped: what is stored here is in the file, also when the process is killed.
pub struct Mapped {
    start: *mut u8,
    length: usize,
}

impl Mapped {
    /// Maps the whole of a file that is not empty.
    pub fn of(path: &Path) -> io::Result<Mapped> {
        let file = OpenOptions::new().read(true).write(true).open(path)?;
        let length = file.metadata()?.len() as usize;
        // SAFETY: a new mapping, of a place that the system picks; it outlives the file handle.
        let start = unsafe {
            mmap(
                std::ptr::null_mut(),
                length,
                READ_AND_WRITE,
                SHARED,
                file.as_raw_fd(),
                0,
            )
        };
        if start as isize == -1 {
            return Err(io::Error::last_os_error());
        }
        Ok(Mapped {
            start: start.cast(),
            length,
        })
    }

    /// One byte, read anew each time: another process may be storing.
    pub fn byte(&self, place: usize) -> u8 {
        assert!(place < self.length);
        // SAFETY: inside the mapping.
        unsafe { self.start.add(place).read_volatile() }
    }
}

impl AsRef<[u8]> for Mapped {
    /// The bytes; no other process may be storing while they are in use.
    fn as_ref(&self) -> &[u8] {
        // SAFETY: the mapping, as long as this value lives.
        unsafe { std::slice::from_raw_parts(self.start, self.length) }
    }
}

impl AsMut<[u8]> for Mapped {
    fn as_mut(&mut self) -> &mut [u8] {
        // SAFETY: as above.
        unsafe { std::slice::from_raw_parts_mut(self.start, self.length) }
    }
}

impl Drop for Mapped {
    fn drop(&mut self) {
        // SAFETY: the mapping that `of` made; nothing refers to it any more.
        unsafe { munmap(self.start.cast(), self.length) };
    }
}
