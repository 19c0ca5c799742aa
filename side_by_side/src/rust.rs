//! What the Rust does with an input: it may answer, refuse or panic.
use pmtiles::{PmtError, PmtResult};
use std::cell::{Cell, RefCell};
use std::io::ErrorKind;
use std::panic::{AssertUnwindSafe, PanicHookInfo, catch_unwind};

#[derive(Debug)]
pub enum Rust<T> {
    Gave(T),
    /// By the number that we have for the same reason.
    Refused(u8),
    /// By an error that has no number.
    Odd(String),
    Panicked(String),
    /// It would take so much memory that the process might end.
    NotAsked,
}

thread_local! {
    static ASKING: Cell<bool> = const { Cell::new(false) };
    static PANIC: RefCell<String> = const { RefCell::new(String::new()) };
}

/// What a panic says, up to its numbers, so that it names a kind, and the file that it is in.
fn noted(info: &PanicHookInfo) {
    let words = info.payload_as_str().unwrap_or("no words");
    let file = info
        .location()
        .map_or("", |l| l.file().rsplit('/').next().unwrap_or(""));
    let kind = words.split(':').next().unwrap_or("");
    PANIC.set(format!("{kind}, {file}"));
}

/// Panics of the Rust are results here, and are not printed. Those of this program are.
pub fn hush() {
    let loud = std::panic::take_hook();
    std::panic::set_hook(Box::new(
        move |info| if ASKING.get() { noted(info) } else { loud(info) },
    ));
}

fn number(error: &PmtError) -> Option<u8> {
    Some(match error {
        PmtError::InvalidHeader => 1,
        PmtError::InvalidMagicNumber => 2,
        PmtError::UnsupportedPmTilesVersion => 3,
        PmtError::InvalidCompression => 4,
        PmtError::InvalidTileType => 5,
        PmtError::InvalidCoordinate(..) => 6,
        PmtError::InvalidTileId(_) => 7,
        PmtError::Reading(e) if e.kind() == ErrorKind::UnexpectedEof => 8,
        PmtError::Reading(e) if e.kind() == ErrorKind::InvalidData => 9,
        PmtError::InvalidEntry => 10,
        PmtError::UnsupportedCompression(_) => 16,
        PmtError::Reading(e) if e.kind() == ErrorKind::Unsupported => 16,
        _ => return None,
    })
}

pub fn rust<T>(call: impl FnOnce() -> PmtResult<T>) -> Rust<T> {
    ASKING.set(true);
    let result = catch_unwind(AssertUnwindSafe(call));
    ASKING.set(false);
    match result {
        Ok(Ok(value)) => Rust::Gave(value),
        Ok(Err(PmtError::Reading(e))) if e.kind() == ErrorKind::OutOfMemory => Rust::NotAsked,
        Ok(Err(error)) => match number(&error) {
            Some(number) => Rust::Refused(number),
            None => Rust::Odd(format!("{error:?}").split('(').next().unwrap_or("").to_string()),
        },
        Err(_) => Rust::Panicked(PANIC.take()),
    }
}

/// Whether the Rust may be given a directory: it takes 24 bytes for each of the count before it reads on, and ends the
/// process where it does not get them. A count that is beyond all memory only panics.
pub fn may_read(bytes: &[u8]) -> bool {
    match crate::plain::Varints::new(bytes).wide() {
        Ok(count) => count <= 65_536 || count <= bytes.len() as u64 || count > (1 << 63) / 24,
        Err(_) => true,
    }
}
