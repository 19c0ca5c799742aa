//! The file that is written beside another and then takes its place.
use crate::map::MapMut;
use std::fs::{self, File, TryLockError};
use std::io::{self, ErrorKind};
use std::os::unix::fs::MetadataExt;
use std::path::{Path, PathBuf};

/// `NAME.partial` beside NAME. Dropped before [`Partial::finish`], it stays as it is, as after a kill.
pub(crate) struct Partial {
    /// Locked as long as it is open.
    file: File,
    bytes: MapMut,
    path: PathBuf,
    target: PathBuf,
}

fn invalid(why: impl Into<String>) -> io::Error {
    io::Error::new(ErrorKind::InvalidInput, why.into())
}

/// An empty file of that name which no one else has.
fn claim(path: &Path) -> io::Result<File> {
    // not emptied before it is known to be ours
    let file = File::options()
        .read(true)
        .write(true)
        .create(true)
        .truncate(false)
        .open(path)?;
    match file.try_lock() {
        Ok(()) => {}
        Err(TryLockError::WouldBlock) => {
            return Err(invalid(format!("another process is writing {}", path.display())));
        }
        Err(TryLockError::Error(error)) => return Err(error),
    }
    // it may be a link to something else, or have become someone's finished archive before it was locked
    let held = file.metadata()?;
    let is_held = |named: fs::Metadata| (named.dev(), named.ino()) == (held.dev(), held.ino());
    if held.nlink() != 1 || !fs::symlink_metadata(path).is_ok_and(is_held) {
        return Err(invalid(format!("{} is another file's name too", path.display())));
    }
    file.set_len(0)?;
    Ok(file)
}

impl Partial {
    /// A file of zeros, beside `target`, in place of what an interrupted run has left.
    pub(crate) fn create(target: &Path, length: usize) -> io::Result<Self> {
        if fs::metadata(target).is_ok_and(|about| !about.is_file()) {
            return Err(invalid("not a regular file"));
        }
        let path = Self::beside(target)?;
        let file = claim(&path)?;
        match MapMut::of_zeros(&file, length) {
            Ok(bytes) => Ok(Self {
                file,
                bytes,
                path,
                target: target.to_owned(),
            }),
            Err(error) => {
                let _ = fs::remove_file(&path);
                Err(error)
            }
        }
    }

    /// The name that it has.
    pub(crate) fn beside(target: &Path) -> io::Result<PathBuf> {
        let mut name = target.file_name().ok_or_else(|| invalid("names no file"))?.to_owned();
        name.push(".partial");
        Ok(target.with_file_name(name))
    }

    pub(crate) fn bytes(&mut self) -> &mut [u8] {
        &mut self.bytes
    }

    /// Waits until every store so far is on the disk.
    pub(crate) fn sync(&self) -> io::Result<()> {
        self.bytes.sync()?;
        self.file.sync_data()
    }

    /// Takes the other file's place, and waits until that is on the disk.
    pub(crate) fn finish(self) -> io::Result<()> {
        fs::rename(&self.path, &self.target)?;
        let folder = match self.target.parent() {
            Some(folder) if folder != Path::new("") => folder,
            _ => Path::new("."),
        };
        File::open(folder)?.sync_all()
    }

    pub(crate) fn discard(self) {
        let _ = fs::remove_file(&self.path);
    }
}

#[cfg(test)]
mod tests {
    use super::*;
    use crate::scratch::Scratch;

    #[test]
    fn a_file_takes_the_others_place() {
        let scratch = Scratch::new("partial");
        let target = scratch.path("a");
        fs::write(&target, b"old").unwrap();
        let mut partial = Partial::create(&target, 3).unwrap();
        partial.bytes().copy_from_slice(b"new");
        partial.sync().unwrap();
        assert_eq!(fs::read(&target).unwrap(), b"old");
        partial.finish().unwrap();
        assert_eq!(fs::read(&target).unwrap(), b"new");
        assert!(!scratch.path("a.partial").exists());
    }

    #[test]
    fn a_remnant_is_written_over() {
        let scratch = Scratch::new("partial-remnant");
        let target = scratch.path("a");
        fs::write(scratch.path("a.partial"), b"longer than what follows").unwrap();
        assert_eq!(Partial::create(&target, 2).unwrap().bytes(), [0, 0]);
        assert_eq!(fs::read(scratch.path("a.partial")).unwrap(), [0, 0]);
    }

    #[test]
    fn two_do_not_write_one_file() {
        let scratch = Scratch::new("partial-two");
        let target = scratch.path("a");
        let first = Partial::create(&target, 2).unwrap();
        let second = Partial::create(&target, 2).err().unwrap();
        assert!(
            second.to_string().starts_with("another process is writing "),
            "{second}"
        );
        first.finish().unwrap();
        assert!(Partial::create(&target, 2).is_ok());
    }

    #[test]
    fn what_the_name_stands_for_elsewhere_stays() {
        let scratch = Scratch::new("partial-links");
        let target = scratch.path("a");
        fs::write(&target, b"old").unwrap();
        fs::hard_link(&target, scratch.path("a.partial")).unwrap();
        assert!(Partial::create(&target, 2).is_err());
        fs::remove_file(scratch.path("a.partial")).unwrap();
        std::os::unix::fs::symlink(&target, scratch.path("a.partial")).unwrap();
        assert!(Partial::create(&target, 2).is_err());
        assert_eq!(fs::read(&target).unwrap(), b"old");
        assert!(Partial::create(&scratch.path(""), 2).is_err(), "a folder");
    }
}
