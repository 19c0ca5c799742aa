//! The proved library's functions, on input that they take.
pub use linked::Stores;

use linked::Row;

/// A status that is not 0 is a fault of the benchmark.
fn done(status: u8) {
    assert_eq!(status, 0, "the core refused");
}

/// The same for a search, which may end with nothing.
fn found<T>(status: u8, value: T) -> Option<T> {
    assert!(status == 0 || status == linked::ABSENT, "the core refused: {status}");
    (status == 0).then_some(value)
}

pub fn tile_id(z: u8, x: u32, y: u32) -> u64 {
    let mut out = [0; 1];
    done(linked::tile_id(z, x, y, &mut out));
    out[0]
}

pub fn tile_coord(id: u64) -> [u64; 3] {
    let mut out = [0; 3];
    done(linked::tile_coord(id, &mut out));
    out
}

pub fn directory_find(bytes: &[u8], id: u64) -> Option<Row> {
    let mut out = [0; 4];
    let status = linked::directory_find(bytes, id, &mut out);
    found(status, (out[0], out[1] as u32, out[2] as u32, out[3]))
}

/// Start and length.
pub fn lookup(archive: &[u8], id: u64) -> Option<(u64, u64)> {
    let mut out = [0; 2];
    let status = linked::lookup(archive, id, &mut out);
    found(status, (out[0], out[1]))
}

/// How many entries.
pub fn directory_read(bytes: &[u8], s: &mut Stores) -> u64 {
    let mut out = [0; 2];
    done(linked::directory_read(bytes, s, &mut out));
    out[0]
}

/// Bytes of the root and of the leaves.
pub fn build_sizes(s: &Stores, data_length: u64) -> [usize; 2] {
    let mut out = [0; 2];
    done(linked::build_sizes(s.ids.len(), s, data_length, &mut out));
    out.map(|n| n as usize)
}

/// Bytes of the root and of the leaves, entries, addressed tiles.
pub fn build(s: &Stores, data_length: u64, root: &mut [u8], leaves: &mut [u8]) -> [u64; 4] {
    let mut out = [0; 4];
    done(linked::build(s.ids.len(), s, data_length, root, leaves, &mut out));
    out
}
