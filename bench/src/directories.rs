//! Directories decoded: the core into four lent stores, which are not cleared in between, the Rust into a Vec of its own.
//! The Rust checks no entry; the core checks every one.
use crate::lookups::rows;
use crate::{Series, core, mixed};
use bytes::Bytes;
use pmtiles::{Directory, write_directory};

pub fn run() {
    for (kind, short) in [("short", true), ("mixed", false)] {
        let mut series = Series::default();
        for (n, repeats) in [(10, 100_000), (4096, 300), (1_000_000, 2)] {
            let rows = rows(n, short);
            let bytes = Bytes::from(write_directory(rows.clone()).unwrap());
            let mut stores = core::Stores::new(n);
            series.compare(
                &format!("read, {n} {kind} entries"),
                repeats,
                n,
                || {
                    (0..repeats).fold(0, |s, _| {
                        mixed(s, core::directory_read(std::hint::black_box(&bytes), &mut stores))
                    })
                },
                || (0..repeats).fold(0, |s, _| mixed(s, decoded(std::hint::black_box(&bytes)) as u64)),
            );
            assert!((0..n).all(|i| stores.row(i) == rows[i]), "what was read differs");
        }
    }
}

fn decoded(bytes: &Bytes) -> usize {
    let directory = std::hint::black_box(Directory::try_from(bytes.clone()).unwrap());
    directory.get_approx_byte_size() / 24
}
