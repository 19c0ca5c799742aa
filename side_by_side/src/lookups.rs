//! Lookups in archives, through the Rust's reader.
use crate::area::{Area, Case, Outcome, hex, judged, less, outside_by, smaller_bytes};
use crate::lent::Lent;
use crate::make::{self, Make, Style};
use crate::plain::{self, Header, Looked, Place};
use crate::rust::{may_read, rust};
use bytes::Bytes;
use linked::Row;
use pmtiles::{AsyncBackend, AsyncPmTilesReader, BackendResponse, PmtError, PmtResult, TileCoord, TileId};
use std::io::ErrorKind;
use std::sync::Mutex;
use std::task::{Context, Poll, Waker};

// ---- the Rust's reader

/// An archive in memory, which notes where it is read.
struct Archive {
    bytes: Bytes,
    reads: Mutex<Vec<(usize, usize)>>,
}

impl Archive {
    /// The root, as the reader finds it in its first read.
    fn root(&self) -> Option<&[u8]> {
        let n = plain::header_read(&self.bytes).ok()?.numbers;
        let start = usize::try_from(n[1]).ok()?;
        self.bytes.get(start..start.checked_add(usize::try_from(n[2]).ok()?)?)
    }

    /// The reader does not say whether a read is for a leaf or for a tile; a tile that looks like a leaf of too large a
    /// count is not asked for either.
    fn may_be_given(&self, first: bool, bytes: &[u8]) -> bool {
        may_read(if first { self.root().unwrap_or_default() } else { bytes })
    }
}

impl AsyncBackend for &Archive {
    async fn read(&self, offset: usize, length: usize) -> PmtResult<BackendResponse> {
        let mut reads = self.reads.lock().expect("no read panics");
        let end = offset.saturating_add(length).min(self.bytes.len());
        let bytes = self.bytes.slice(offset.min(end)..end);
        if !self.may_be_given(reads.is_empty(), &bytes) {
            return Err(PmtError::Reading(ErrorKind::OutOfMemory.into()));
        }
        reads.push((offset, length));
        Ok(BackendResponse::new(bytes))
    }
}

/// Where the reader reads last is where the tile lies.
pub fn looked_up(archive: &[u8], id: TileId) -> PmtResult<Place> {
    let archive = Archive {
        bytes: Bytes::copy_from_slice(archive),
        reads: Mutex::default(),
    };
    let tile = async { AsyncPmTilesReader::try_from_source(&archive).await?.get_tile(id).await };
    let Poll::Ready(tile) = std::pin::pin!(tile).poll(&mut Context::from_waker(Waker::noop())) else {
        unreachable!("nothing here waits")
    };
    let reads = archive.reads.lock().expect("no read panics");
    Ok(tile?
        .and(reads.last())
        .map(|&(start, length)| (start as u64, length as u64)))
}

// ---- the comparison

#[derive(Clone, Copy)]
enum Tile {
    Id(u64),
    Coord(u8, u32, u32),
}

#[derive(Clone)]
struct Lookup {
    archive: Vec<u8>,
    tile: Tile,
}

/// The archive without one byte behind the header, whose sections move and shrink with it.
fn without_byte(archive: &[u8], at: usize) -> Vec<u8> {
    let mut smaller = archive.to_vec();
    smaller.remove(at);
    // offset and length of root, metadata, leaves and data
    for field in [8, 24, 40, 56] {
        let read = |at: usize| u64::from_le_bytes(archive[at..at + 8].try_into().expect("eight bytes"));
        let (offset, length) = (read(field), read(field + 8));
        let (at, one) = (at as u64, 1u64);
        if offset > at {
            smaller[field..field + 8].copy_from_slice(&(offset - one).to_le_bytes());
        } else if at - offset < length {
            smaller[field + 8..field + 16].copy_from_slice(&(length - one).to_le_bytes());
        }
    }
    smaller
}

impl Case for Lookup {
    fn smaller(&self) -> Box<dyn Iterator<Item = Self> + '_> {
        let Lookup { archive, tile } = self;
        let id = match *tile {
            Tile::Id(id) => id,
            Tile::Coord(z, x, y) => plain::tile_id(z, x, y).unwrap_or(0),
        };
        let by_id = matches!(tile, Tile::Coord(..)).then_some(id);
        let ids = by_id.into_iter().chain(less(id)).map(|id| Lookup {
            archive: archive.clone(),
            tile: Tile::Id(id),
        });
        let bytes = (plain::HEADER..archive.len()).map(|at| without_byte(archive, at));
        let archives = bytes.chain(smaller_bytes(archive));
        Box::new(ids.chain(archives.map(|archive| Lookup { archive, tile: *tile })))
    }

    fn show(&self) -> String {
        let tile = match self.tile {
            Tile::Id(id) => format!("id {id}"),
            Tile::Coord(z, x, y) => format!("{z}/{x}/{y}"),
        };
        format!("{tile} in {}", hex(&self.archive))
    }
}

fn check(case: &Lookup) -> Outcome {
    let archive = &case.archive;
    let mut out = Lent::new(4);
    let (answered, plain, rust) = match case.tile {
        Tile::Id(id) => (
            linked::lookup(archive, id, out.part()),
            plain::lookup(archive, id),
            rust(|| looked_up(archive, TileId::new(id)?)),
        ),
        Tile::Coord(z, x, y) => (
            linked::lookup_coord(archive, z, x, y, out.part()),
            plain::lookup_coord(archive, z, x, y),
            rust(|| looked_up(archive, TileCoord::new(z, x, y)?.into())),
        ),
    };
    let Looked { answer, long } = plain;
    let (due, told) = match answer {
        Ok(Some((start, length))) => (0, vec![start, length]),
        Ok(None) => (linked::ABSENT, vec![]),
        Err(number) => (number, vec![]),
    };
    if answered != due || !out.holds(&told) {
        return Outcome::differs(format!("ours: {answered} {:?}, not {answer:?}", out.start()));
    }
    let unread = matches!(answer, Err(2..=5)) && archive.len() < plain::HEADER;
    let unread = unread.then_some("fewer than 127 bytes, which the Rust's reader refuses unread");
    judged(&answer, Some(rust), outside_by(&answer, long).or(unread))
}

// ---- inputs

/// Where a section's offset stands among the header's numbers; its length follows.
const ROOT: usize = 1;
const LEAVES: usize = 5;
const DATA: usize = 7;

/// A header and sections behind it, each with so many bytes before it. The header's numbers can be changed; the archive's
/// length is told.
fn assembled(sections: &[(usize, usize, Vec<u8>)], change: impl FnOnce(&mut [u64; 19], u64)) -> Vec<u8> {
    let mut bytes = vec![0; plain::HEADER];
    let mut numbers = [0; 19];
    numbers[0] = 3;
    numbers[13] = 1;
    for (at, gap, section) in sections {
        bytes.resize(bytes.len() + gap, 0);
        numbers[*at] = bytes.len() as u64;
        numbers[at + 1] = section.len() as u64;
        bytes.extend(section);
    }
    change(&mut numbers, bytes.len() as u64);
    let header = Header {
        numbers,
        degrees: [0; 6],
    };
    let header = plain::header_write(&header, plain::HEADER).expect("the codes are known");
    bytes[..plain::HEADER].copy_from_slice(&header);
    bytes
}

/// Small archives, one for each rule of the way to a tile.
fn listed() -> Vec<Vec<u8>> {
    let tile = make::bytes(&[(0, 1, 1, 0)]);
    let pointer = |i: u64| make::bytes(&[(0, 0, 5, 5 * i)]);
    let keep = |_: &mut [u64; 19], _: u64| {};
    let mut archives = vec![];
    // one to nine directories, each of which points to the next
    for leaves in 0..9 {
        let mut chain: Vec<Vec<u8>> = (0..leaves).map(pointer).collect();
        chain.push(tile.clone());
        let root = chain.remove(0);
        archives.push(assembled(
            &[(ROOT, 0, root), (LEAVES, 0, chain.concat()), (DATA, 0, vec![7])],
            keep,
        ));
    }
    // a leaf that points to itself
    archives.push(assembled(&[(ROOT, 0, pointer(0))], |numbers, _| {
        numbers[LEAVES] = numbers[ROOT];
        numbers[LEAVES + 1] = numbers[ROOT + 1];
    }));
    // contents that leave their section, and the archive
    for (there, length) in [(2, 1), (1, 2)] {
        let sections = [(ROOT, 0, make::bytes(&[(0, 1, 2, 0)])), (DATA, 0, vec![7; there])];
        archives.push(assembled(&sections, |numbers, _| numbers[DATA + 1] = length));
    }
    // a leaf that leaves its section
    let sections = [(ROOT, 0, pointer(0)), (LEAVES, 0, tile.clone()), (DATA, 0, vec![7])];
    archives.push(assembled(&sections, |numbers, _| numbers[LEAVES + 1] = 4));
    // a root in the header, and roots about the end of the first 16,384 bytes
    archives.push(assembled(&[], |numbers, _| {
        (numbers[ROOT], numbers[ROOT + 1]) = (100, 1)
    }));
    for place in [16_383, 16_384, 16_385] {
        archives.push(assembled(&[(ROOT, place - plain::HEADER, vec![0])], keep));
    }
    // no root, an empty one, and one of compressed directories
    archives.push(assembled(&[(ROOT, 0, vec![])], keep));
    archives.push(assembled(&[(ROOT, 0, vec![0])], keep));
    archives.push(assembled(&[(ROOT, 0, vec![0])], |numbers, _| numbers[13] = 2));
    archives
}

/// An archive of directories, each of which points to the next, with sections in any order and bytes between them.
pub fn archive(make: &mut Make) -> (Vec<u8>, Vec<u64>) {
    let depth = make.pick(&[1, 1, 2, 2, 3, 4, 5, 7, 8]);
    let mut data = 0u64;
    let (mut leaves, mut root, mut ids) = (vec![], vec![], vec![]);
    // from the last directory to the root
    for level in (0..depth).rev() {
        let n = make.pick(&[1, 2, 3, 8]);
        let mut rows = make.rows(
            n,
            Style {
                pointers: false,
                offset_bits: 5,
            },
        );
        for row in &mut rows {
            row.2 = row.2 % 40 + 1;
            data = data.max(row.3 + u64::from(row.2));
        }
        if level + 1 < depth {
            let i = make.below(rows.len() as u64) as usize;
            let below = root.len();
            rows[i].1 = 0;
            rows[i].2 = below as u32;
            rows[i].3 = leaves.len() as u64;
            leaves.append(&mut root);
        }
        if make.one_in(30) {
            make.spoil(&mut rows);
        }
        ids.extend(rows.iter().flat_map(|r: &Row| [r.0, r.0.saturating_add(r.1.into())]));
        root = make::bytes(&rows);
    }
    let tiles: Vec<u8> = (0..data).map(|i| i as u8 & 63).collect();
    let mut order = [(ROOT, root), (LEAVES, leaves), (DATA, tiles)];
    order.rotate_left(make.below(3) as usize);
    let mut parts = order.map(|(at, section)| (at, make.pick(&[0, 0, 1, 9]), section));
    if make.one_in(100) {
        // beyond what the Rust's reader reads first
        parts[0].1 = 17_000;
    }
    let internal = if make.one_in(40) { make.below(5) } else { 1 };
    let mut bytes = assembled(&parts, |numbers, length| {
        numbers[13] = internal;
        if make.one_in(20) {
            let near = [length - 1, length, 126, 127, make.number()];
            numbers[1 + make.below(8) as usize] = make.pick(&near);
        }
    });
    match make.below(12) {
        0 => make.damage(&mut bytes),
        1 => bytes.truncate(bytes.len() - make.below(bytes.len() as u64 / 3) as usize),
        _ => {}
    }
    (bytes, ids)
}

pub fn run(make: &mut Make, count: u64) -> u64 {
    let mut area = Area::new("lookup", check);
    for archive in listed() {
        for id in [0, 1, plain::MAX_TILE_ID, plain::MAX_TILE_ID + 1] {
            area.feed(Lookup {
                archive: archive.clone(),
                tile: Tile::Id(id),
            });
        }
        for (z, x, y) in [(0, 0, 0), (1, 1, 1), (0, 1, 0), (32, 0, 0)] {
            area.feed(Lookup {
                archive: archive.clone(),
                tile: Tile::Coord(z, x, y),
            });
        }
    }
    let each = 10;
    for _ in 0..count / each {
        let (archive, ids) = archive(make);
        for _ in 0..each {
            let near = make.pick(&ids).saturating_add(make.below(3)).saturating_sub(1);
            let id = if make.one_in(6) { make.number() } else { near };
            let tile = match plain::tile_coord(id) {
                Ok((z, x, y)) if make.one_in(3) => Tile::Coord(z, x, y + u32::from(make.one_in(40))),
                _ => Tile::Id(id),
            };
            area.feed(Lookup {
                archive: archive.clone(),
                tile,
            });
        }
    }
    // the start of an archive, of every length
    let (archive, ids) = archive(make);
    for n in 0..archive.len() {
        area.feed(Lookup {
            archive: archive[..n].to_vec(),
            tile: Tile::Id(ids[0]),
        });
    }
    area.finish()
}
