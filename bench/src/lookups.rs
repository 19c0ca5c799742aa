//! A search in one directory, and lookups in archives of one and of two directories, against the Rust's decode and search:
//! `Directory::try_from` and `find_tile_id`, and for an archive `Header::try_from_bytes` before them. The Rust checks no
//! entry; the core checks every one.
use crate::{Series, core, mixed};
use bytes::Bytes;
use linked::Random;
use pmtiles::{Directory, Header, PmTilesWriter, Row, TileId, entry, row, write_directory};

/// Ids from 0 on. Short: every number but the lengths is one byte. Mixed: runs, gaps and lengths of up to three bytes,
/// and one offset in five anywhere.
pub fn rows(n: usize, short: bool) -> Vec<Row> {
    let mut random = Random::new(1);
    let (mut id, mut offset, mut rows) = (0, 0, Vec::with_capacity(n));
    for _ in 0..n {
        let run = if short { 1 } else { 1 + random.below(300) as u32 };
        let length = if short { 5 } else { 1 + random.below(40_000) as u32 };
        if !short && random.below(5) == 0 {
            offset = random.below(1_000_000_000);
        }
        rows.push((id, run, length, offset));
        offset += u64::from(length);
        id += u64::from(run) + if short { 0 } else { random.below(500) };
    }
    rows
}

fn targets(rows: &[Row], n: usize) -> Vec<u64> {
    let mut random = Random::new(1);
    let end = rows.last().unwrap().0 + 10;
    (0..n).map(|_| random.below(end)).collect()
}

fn find_rust(directory: &Directory, target: u64) -> Option<Row> {
    directory.find_tile_id(TileId::new(target).unwrap()).map(row)
}

fn decode(bytes: &Bytes) -> Directory {
    Directory::try_from(bytes.clone()).unwrap()
}

fn header(root: usize, leaves: usize, data: u64) -> Vec<u8> {
    let mut h = b"PMTiles\x03".to_vec();
    let (root, leaves) = (root as u64, leaves as u64);
    for n in [127, root, 0, 0, 127 + root, leaves, 127 + root + leaves, data, 0, 0, 0] {
        h.extend(n.to_le_bytes());
    }
    h.extend([1, 1, 1, 2]);
    h.resize(127, 0);
    h
}

/// The Rust's way to a tile of an archive that is held in memory: what its reader does, without the waiting.
fn lookup_rust(archive: &Bytes, target: u64) -> Option<(u64, u64)> {
    let head = Header::try_from_bytes(archive.slice(0..127)).unwrap();
    let f = pmtiles::header_fields(&head);
    let mut part = archive.slice(f[1] as usize..(f[1] + f[2]) as usize);
    loop {
        let (_, run, length, offset) = find_rust(&decode(&part), target)?;
        let length = u64::from(length);
        if run > 0 {
            return Some((f[7] + offset, length));
        }
        part = archive.slice((f[5] + offset) as usize..(f[5] + offset + length) as usize);
    }
}

fn sum(found: Option<(u64, u64)>) -> u64 {
    found.map_or(1, |(start, length)| start ^ length << 40)
}

pub fn run() {
    for (kind, short) in [("short", true), ("mixed", false)] {
        let mut series = Series::default();
        for (n, tries) in [(10, 100_000), (4096, 500), (1_000_000, 2)] {
            let rows = rows(n, short);
            let targets = targets(&rows, tries);
            let bytes = Bytes::from(write_directory(rows).unwrap());
            let values =
                |e: Option<Row>| e.map_or(1, |(i, r, l, o)| i ^ u64::from(r) << 20 ^ u64::from(l) << 30 ^ o << 1);
            series.compare(
                &format!("find, {n} {kind} entries"),
                tries,
                n,
                || {
                    targets
                        .iter()
                        .fold(0, |s, &t| mixed(s, values(core::directory_find(&bytes, t))))
                },
                || {
                    targets
                        .iter()
                        .fold(0, |s, &t| mixed(s, values(find_rust(&decode(&bytes), t))))
                },
            );
        }
    }
    let mut series = Series::default();
    for (kind, n) in [("one directory", 4000), ("two directories", 1_000_000)] {
        let rows = rows(n, true);
        let targets = targets(&rows, 500);
        let data = rows.iter().map(|r| u64::from(r.2)).sum::<u64>();
        let (root, leaves) = PmTilesWriter::oracle_build(rows.into_iter().map(entry).collect()).unwrap();
        let mut archive = header(root.len(), leaves.len(), data);
        archive.extend(&root);
        archive.extend(&leaves);
        archive.resize(archive.len() + data as usize, 0);
        let archive = Bytes::from(archive);
        series.compare(
            &format!("lookup, {n} short entries, {kind}"),
            targets.len(),
            1,
            || targets.iter().fold(0, |s, &t| mixed(s, sum(core::lookup(&archive, t)))),
            || targets.iter().fold(0, |s, &t| mixed(s, sum(lookup_rust(&archive, t)))),
        );
    }
}
