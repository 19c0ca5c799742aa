//! Root and leaves built from sorted entries: the core into two lent buffers of just the size they need, which are not
//! cleared in between, the Rust into vectors of its own. The core checks every entry, the Rust none.
use crate::lookups::rows;
use crate::{ROUNDS, Series, core, mixed};
use pmtiles::{DirEntry, PmTilesWriter, entry};

/// Bytes of both sides, for counts about which the rule turns: 4,063 and 4,064 short entries are the last that make a root
/// only and the first that make a leaf, 16,384 the first for which a root only is not tried.
fn same() {
    for n in [0, 1, 10, 4063, 4064, 16_383, 16_384, 20_000, 100_000] {
        for short in [true, false] {
            let rows = rows(n, short);
            let stores = core::Stores::from_rows(&rows);
            let data = rows.iter().map(|r| r.3 + u64::from(r.2)).max().unwrap_or(0);
            let [mut root, mut leaves] = core::build_sizes(&stores, data).map(|size| vec![0; size]);
            core::build(&stores, data, &mut root, &mut leaves);
            let built = PmTilesWriter::oracle_build(rows.into_iter().map(entry).collect()).unwrap();
            assert!(built == (root, leaves), "what was built of {n} entries differs");
        }
    }
}

pub fn run() {
    same();
    for (kind, short) in [("short", true), ("mixed", false)] {
        let mut series = Series::default();
        for n in [1_000_000, 16_000_000] {
            let rows = rows(n, short);
            let stores = core::Stores::from_rows(&rows);
            let data = rows.iter().map(|r| r.3 + u64::from(r.2)).max().unwrap();
            let [mut root, mut leaves] = core::build_sizes(&stores, data).map(|size| vec![0; size]);
            let entries: Vec<DirEntry> = rows.into_iter().map(entry).collect();
            // the Rust consumes its entries, so each round has a copy that is made beforehand
            let mut copies = vec![entries; ROUNDS];
            let mut built = (vec![], vec![]);
            series.compare(
                &format!("build, {n} {kind} entries"),
                1,
                n,
                || {
                    let [root, leaves, ..] = core::build(&stores, data, &mut root, &mut leaves);
                    mixed(root, leaves)
                },
                || {
                    built = PmTilesWriter::oracle_build(copies.pop().unwrap()).unwrap();
                    mixed(built.0.len() as u64, built.1.len() as u64)
                },
            );
            assert!(built == (root, leaves), "what was built differs");
        }
    }
}
