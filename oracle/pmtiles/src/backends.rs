//! Stand-in for the missing backends module, which `lib.rs` re-exports whole: the oracle's way in to
//! what the crate keeps to itself. No rule of the format stands here.
use std::num::NonZeroU64;

use bytes::Bytes;

use crate::writer::WriteTo;
use crate::{Compression, DirEntry, Directory, Header, PmtResult, TileType};

pub type Row = (u64, u32, u32, u64); // id, run, length, offset

pub fn entry((tile_id, run_length, length, offset): Row) -> DirEntry {
    DirEntry {
        tile_id,
        offset,
        length,
        run_length,
    }
}
pub fn row(e: &DirEntry) -> Row {
    (e.tile_id, e.run_length, e.length, e.offset)
}
pub fn directory(rows: Vec<Row>) -> Directory {
    Directory::from_entries(rows.into_iter().map(entry).collect())
}
pub fn read_directory(bytes: &[u8]) -> PmtResult<Vec<Row>> {
    Ok(Directory::try_from(Bytes::copy_from_slice(bytes))?
        .entries
        .iter()
        .map(row)
        .collect())
}
pub fn write_directory(rows: Vec<Row>) -> PmtResult<Vec<u8>> {
    let mut out = vec![];
    directory(rows).write_to(&mut out)?;
    Ok(out)
}

/// The header's numbers in the order of its bytes; the six degrees as the bits of their f64.
pub fn header_fields(h: &Header) -> Vec<u64> {
    let n = |v: Option<NonZeroU64>| v.map_or(0, NonZeroU64::get);
    vec![
        h.version.into(),
        h.root_offset,
        h.root_length,
        h.metadata_offset,
        h.metadata_length,
        h.leaf_offset,
        h.leaf_length,
        h.data_offset,
        h.data_length,
        n(h.n_addressed_tiles),
        n(h.n_tile_entries),
        n(h.n_tile_contents),
        h.clustered.into(),
        h.internal_compression as u64,
        h.tile_compression as u64,
        h.tile_type as u64,
        h.min_zoom.into(),
        h.max_zoom.into(),
        h.min_longitude.to_bits(),
        h.min_latitude.to_bits(),
        h.max_longitude.to_bits(),
        h.max_latitude.to_bits(),
        h.center_zoom.into(),
        h.center_longitude.to_bits(),
        h.center_latitude.to_bits(),
    ]
}
pub fn write_header(f: &[u64]) -> PmtResult<Vec<u8>> {
    let c = |i: usize| -> PmtResult<Compression> { (f[i] as u8).try_into() };
    let t: TileType = (f[15] as u8).try_into()?;
    let h = Header {
        version: f[0] as u8,
        root_offset: f[1],
        root_length: f[2],
        metadata_offset: f[3],
        metadata_length: f[4],
        leaf_offset: f[5],
        leaf_length: f[6],
        data_offset: f[7],
        data_length: f[8],
        n_addressed_tiles: NonZeroU64::new(f[9]),
        n_tile_entries: NonZeroU64::new(f[10]),
        n_tile_contents: NonZeroU64::new(f[11]),
        clustered: f[12] != 0,
        internal_compression: c(13)?,
        tile_compression: c(14)?,
        tile_type: t,
        min_zoom: f[16] as u8,
        max_zoom: f[17] as u8,
        min_longitude: f64::from_bits(f[18]),
        min_latitude: f64::from_bits(f[19]),
        max_longitude: f64::from_bits(f[20]),
        max_latitude: f64::from_bits(f[21]),
        center_zoom: f[22] as u8,
        center_longitude: f64::from_bits(f[23]),
        center_latitude: f64::from_bits(f[24]),
    };
    let mut out = vec![];
    h.write_to(&mut out)?;
    Ok(out)
}
pub fn default_header(c: Compression, t: TileType) -> Header {
    Header::new(c, t)
}

/// An archive in memory, which notes each read: what `AsyncBackend` asks for and no more.
pub struct Slice(pub Bytes, pub std::sync::Mutex<Vec<(usize, usize)>>);
impl crate::AsyncBackend for Slice {
    async fn read(&self, offset: usize, length: usize) -> PmtResult<crate::BackendResponse> {
        self.1.lock().unwrap().push((offset, length));
        let (a, e) = (
            offset.min(self.0.len()),
            offset.saturating_add(length).min(self.0.len()),
        );
        Ok(crate::BackendResponse::new(self.0.slice(a..e)))
    }
}
/// The real reader's way to a tile: absolute start and length, and the reads on the way.
pub fn lookup(archive: &[u8], id: crate::TileId) -> PmtResult<(Option<(usize, usize)>, usize)> {
    let log = std::sync::Arc::new(Slice(Bytes::copy_from_slice(archive), Default::default()));
    struct Shared(std::sync::Arc<Slice>);
    impl crate::AsyncBackend for Shared {
        async fn read(&self, o: usize, l: usize) -> PmtResult<crate::BackendResponse> {
            self.0.read(o, l).await
        }
    }
    let run = async {
        let reader = crate::AsyncPmTilesReader::try_from_source(Shared(log.clone())).await?;
        reader.get_tile(id).await
    };
    let mut run = std::pin::pin!(run);
    let mut cx = std::task::Context::from_waker(std::task::Waker::noop());
    let std::task::Poll::Ready(out) = run.as_mut().poll(&mut cx) else {
        panic!("nothing here waits")
    };
    let found = out?.is_some();
    let reads = log.1.lock().unwrap();
    Ok((found.then(|| *reads.last().unwrap()), reads.len()))
}
