//! Stand-in for the missing writer/compressor.rs: the interface that writer/mod.rs uses, with
//! NoCompression real and every other code refused. As a child of `writer` it also sees that
//! module's private items, so the oracle's way in to `build_directories` stands here.
use std::collections::HashMap;
use std::io::{BufWriter, Cursor, Result, Write};

use super::*;

pub trait Compressor {
    fn compression(&self) -> Compression;
    fn compress(
        &self,
        write: &mut dyn FnMut(&mut dyn Write) -> Result<()>,
        out: &mut dyn Write,
    ) -> PmtResult<()>;
}

impl Compressor for Box<dyn Compressor> {
    fn compression(&self) -> Compression {
        (**self).compression()
    }
    fn compress(
        &self,
        write: &mut dyn FnMut(&mut dyn Write) -> Result<()>,
        out: &mut dyn Write,
    ) -> PmtResult<()> {
        (**self).compress(write, out)
    }
}

pub struct NoCompression;
impl Compressor for NoCompression {
    fn compression(&self) -> Compression {
        Compression::None
    }
    fn compress(
        &self,
        write: &mut dyn FnMut(&mut dyn Write) -> Result<()>,
        out: &mut dyn Write,
    ) -> PmtResult<()> {
        Ok(write(out)?)
    }
}

struct Refused(Compression);
impl Compressor for Refused {
    fn compression(&self) -> Compression {
        self.0
    }
    fn compress(
        &self,
        _: &mut dyn FnMut(&mut dyn Write) -> Result<()>,
        _: &mut dyn Write,
    ) -> PmtResult<()> {
        Err(PmtError::UnsupportedCompression(self.0))
    }
}

#[derive(Default)]
pub struct GzipCompressor;
impl Compressor for GzipCompressor {
    fn compression(&self) -> Compression {
        Compression::Gzip
    }
    fn compress(
        &self,
        _: &mut dyn FnMut(&mut dyn Write) -> Result<()>,
        _: &mut dyn Write,
    ) -> PmtResult<()> {
        Err(PmtError::UnsupportedCompression(Compression::Gzip))
    }
}

impl From<Compression> for Box<dyn Compressor> {
    fn from(c: Compression) -> Self {
        match c {
            Compression::None => Box::new(NoCompression),
            other => Box::new(Refused(other)),
        }
    }
}

impl PmTilesWriter {
    /// The real `build_directories` and root write over given entries: root bytes, leaf bytes.
    pub fn oracle_build(entries: Vec<DirEntry>) -> PmtResult<(Vec<u8>, Vec<u8>)> {
        let mut state = WriterState {
            out: Counter::new(BufWriter::new(Cursor::new(Vec::new()))),
            header: Header::new(Compression::None, TileType::Unknown),
            entries,
            n_addressed_tiles: 0,
            n_tile_entries: 0,
            tile_content_map: HashMap::default(),
            prev_tile_hash: None,
            prev_written_tile_offset: 0,
        };
        let root = state.build_directories(&NoCompression)?;
        let mut bytes = vec![];
        root.write_compressed_to(&mut bytes, &NoCompression)?;
        let leaves = state.out.into_inner().into_inner().map_err(|e| e.into_error())?;
        Ok((bytes, leaves.into_inner()))
    }

    /// The real `create` and `finalize` over given data and entries, with `add_tile` (hashing) left out.
    pub fn oracle_publish(self, data: &[u8], entries: Vec<DirEntry>) -> PmtResult<Vec<u8>> {
        let mut out = Cursor::new(Vec::new());
        let mut writer = self.create(&mut out)?;
        writer.state.out.write_all(data)?;
        writer.state.n_addressed_tiles = entries.iter().map(|e| u64::from(e.run_length)).sum();
        writer.state.n_tile_entries = entries.len() as u64;
        writer.state.entries = entries;
        writer.finalize()?;
        Ok(out.into_inner())
    }
}
