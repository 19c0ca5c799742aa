//! Files as memory.
use std::ffi::{c_int, c_void};
use std::fs::File;
use std::io::{self, ErrorKind};
use std::ops::{Deref, DerefMut};
use std::os::fd::AsRawFd;
use std::path::Path;
use std::ptr::{self, NonNull};
use std::slice;

#[cfg(not(all(target_os = "linux", target_pointer_width = "64")))]
compile_error!("the declarations below are those of Linux on 64 bits");

unsafe extern "C" {
    fn mmap(at: *mut c_void, length: usize, protection: c_int, flags: c_int, file: c_int, from: i64) -> *mut c_void;
    fn munmap(at: *mut c_void, length: usize) -> c_int;
    fn msync(at: *mut c_void, length: usize, flags: c_int) -> c_int;
    fn posix_fallocate(file: c_int, from: i64, length: i64) -> c_int;
}

const PROT_READ: c_int = 1;
const PROT_WRITE: c_int = 2;
const MAP_SHARED: c_int = 1;
const MS_SYNC: c_int = 4;

fn checked(answer: c_int) -> io::Result<()> {
    match answer {
        0 => Ok(()),
        _ => Err(io::Error::last_os_error()),
    }
}

/// A file's bytes. Nobody may shorten or change the file while it is mapped; publication here never does, since it puts a
/// new file in the old one's place.
pub struct Map {
    start: NonNull<u8>,
    length: usize,
}

// the memory belongs to the map alone, and only a MapMut changes it
unsafe impl Send for Map {}
unsafe impl Sync for Map {}

impl Map {
    pub fn open(path: impl AsRef<Path>) -> io::Result<Self> {
        let file = File::open(path)?;
        let about = file.metadata()?;
        if !about.is_file() {
            return Err(io::Error::new(ErrorKind::InvalidInput, "not a regular file"));
        }
        Self::of(&file, length_of(about.len())?, PROT_READ)
    }

    fn of(file: &File, length: usize, protection: c_int) -> io::Result<Self> {
        // no memory can be mapped for no bytes
        if length == 0 {
            let start = NonNull::dangling();
            return Ok(Self { start, length });
        }
        let start = unsafe { mmap(ptr::null_mut(), length, protection, MAP_SHARED, file.as_raw_fd(), 0) };
        // a failure is -1, not null
        match NonNull::new(start.cast()) {
            Some(start) if start.as_ptr() as isize != -1 => Ok(Self { start, length }),
            _ => Err(io::Error::last_os_error()),
        }
    }
}

fn length_of(bytes: u64) -> io::Result<usize> {
    usize::try_from(bytes).map_err(|_| io::Error::from(ErrorKind::FileTooLarge))
}

impl Deref for Map {
    type Target = [u8];

    fn deref(&self) -> &[u8] {
        unsafe { slice::from_raw_parts(self.start.as_ptr(), self.length) }
    }
}

impl AsRef<[u8]> for Map {
    fn as_ref(&self) -> &[u8] {
        self
    }
}

impl Drop for Map {
    fn drop(&mut self) {
        if self.length > 0 {
            unsafe { munmap(self.start.as_ptr().cast(), self.length) };
        }
    }
}

/// A file's bytes, to be changed.
pub(crate) struct MapMut(Map);

impl MapMut {
    /// Makes an empty file so many zeros and maps them. The room on the disk is taken here, because a store into a map has
    /// no way to say that the disk is full.
    pub(crate) fn of_zeros(file: &File, length: usize) -> io::Result<Self> {
        let end = i64::try_from(length).map_err(|_| io::Error::from(ErrorKind::FileTooLarge))?;
        loop {
            match unsafe { posix_fallocate(file.as_raw_fd(), 0, end) } {
                0 => break,
                code => {
                    let error = io::Error::from_raw_os_error(code);
                    if error.kind() != ErrorKind::Interrupted {
                        return Err(error);
                    }
                }
            }
        }
        Map::of(file, length, PROT_READ | PROT_WRITE).map(Self)
    }

    /// Waits until the changes are in the file.
    pub(crate) fn sync(&self) -> io::Result<()> {
        checked(unsafe { msync(self.0.start.as_ptr().cast(), self.0.length, MS_SYNC) })
    }
}

impl Deref for MapMut {
    type Target = [u8];

    fn deref(&self) -> &[u8] {
        &self.0
    }
}

impl DerefMut for MapMut {
    fn deref_mut(&mut self) -> &mut [u8] {
        unsafe { slice::from_raw_parts_mut(self.0.start.as_ptr(), self.0.length) }
    }
}

#[cfg(test)]
mod tests {
    use super::*;
    use crate::scratch::Scratch;
    use std::fs;

    #[test]
    fn a_file_is_its_bytes() {
        let scratch = Scratch::new("map");
        let path = scratch.path("bytes");
        fs::write(&path, b"water").unwrap();
        assert_eq!(*Map::open(&path).unwrap(), *b"water");
        fs::write(&path, b"").unwrap();
        assert_eq!(*Map::open(&path).unwrap(), *b"");
        assert_eq!(
            Map::open(scratch.path("none")).err().unwrap().kind(),
            ErrorKind::NotFound
        );
        assert_eq!(
            Map::open(scratch.path("")).err().unwrap().kind(),
            ErrorKind::InvalidInput
        );
    }

    #[test]
    fn stores_reach_the_file() {
        let scratch = Scratch::new("map-stores");
        let path = scratch.path("bytes");
        let file = File::options().read(true).write(true).create_new(true).open(&path);
        let file = file.unwrap();
        let mut map = MapMut::of_zeros(&file, 5000).unwrap();
        assert_eq!(*map, [0; 5000]);
        map[4999] = 7;
        map.sync().unwrap();
        let bytes = fs::read(&path).unwrap();
        assert_eq!((bytes.len(), bytes[4998], bytes[4999]), (5000, 0, 7));
    }
}
