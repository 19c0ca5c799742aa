//! Tiles packed into an archive.
use crate::{Error, Publication, Refusal, Settings, TileId};
use linked::Stores;
use std::path::Path;

/// Takes tiles in the order of their ids, holds them in memory, and publishes them as an archive.
///
/// ```
/// # use oletami::{Refusal, Settings, TileId, TileType, Writer};
/// let mut writer = Writer::new(Settings::new(TileType::Png));
/// writer.add_tile(TileId::new(5)?, b"land")?;
/// assert_eq!(writer.add_tile(TileId::new(5)?, b"water"), Err(Refusal::EntriesOutOfOrder));
/// # Ok::<(), Refusal>(())
/// ```
pub struct Writer {
    settings: Settings,
    metadata: Vec<u8>,
    entries: Stores,
    data: Vec<u8>,
}

impl Writer {
    /// With `{}` for metadata.
    #[must_use]
    pub fn new(settings: Settings) -> Self {
        Self {
            settings,
            metadata: b"{}".to_vec(),
            entries: Stores::new(0),
            data: Vec::new(),
        }
    }

    /// JSON, as the format has it; it is not looked at here.
    #[must_use]
    pub fn metadata(mut self, metadata: impl Into<Vec<u8>>) -> Self {
        self.metadata = metadata.into();
        self
    }

    /// Contents equal to those of the id just before share their place. Refused 12 for no contents, 9 for 4 GiB or more,
    /// and 14 for an id that does not lie above the last one.
    pub fn add_tile(&mut self, tile: impl Into<TileId>, contents: &[u8]) -> Result<(), Refusal> {
        let id = tile.into().value();
        if contents.is_empty() {
            return Err(Refusal::EmptyEntry);
        }
        let length = u32::try_from(contents.len()).map_err(|_| Refusal::VarintTooLarge)?;
        if let Some(last) = self.entries.ids.len().checked_sub(1) {
            let (first_id, run, last_length, offset) = self.entries.row(last);
            let end = first_id + u64::from(run);
            if id < end {
                return Err(Refusal::EntriesOutOfOrder);
            }
            let place = offset as usize..offset as usize + last_length as usize;
            if id == end && run < u32::MAX && self.data[place] == *contents {
                self.entries.runs[last] += 1;
                return Ok(());
            }
        }
        self.entries.push((id, 1, length, self.data.len() as u64));
        self.data.extend_from_slice(contents);
        Ok(())
    }

    /// The archive of the tiles so far.
    pub fn publication(&self) -> Result<Publication<'_>, Refusal> {
        Publication::new(&self.settings, &self.entries, &self.data, &self.metadata)
    }

    /// Puts the archive under a name; see [`Publication::publish`].
    pub fn publish(&self, path: impl AsRef<Path>) -> Result<(), Error> {
        self.publication()?.publish(path)
    }
}

#[cfg(test)]
mod tests {
    use super::*;
    use crate::scratch::Scratch;
    use crate::{Archive, DirEntry, TileType};

    fn id(value: u64) -> TileId {
        TileId::new(value).unwrap()
    }

    #[test]
    fn equal_neighbours_are_one_entry() {
        let scratch = Scratch::new("writer");
        let path = scratch.path("a.pmtiles");
        let mut writer = Writer::new(Settings::new(TileType::Png)).metadata("{\"name\":\"a\"}");
        for (at, contents) in [(0, "sea"), (1, "sea"), (2, "land"), (3, "sea"), (5, "sea"), (6, "sea")] {
            writer.add_tile(id(at), contents.as_bytes()).unwrap();
        }
        writer.publish(&path).unwrap();
        let archive = Archive::open(&path).unwrap();
        let entries: Vec<DirEntry> = archive.entries().unwrap().collect::<Result<_, _>>().unwrap();
        let rows: Vec<_> = entries
            .iter()
            .map(|e| (e.tile_id.value(), e.run_length, e.length, e.offset))
            .collect();
        assert_eq!(rows, [(0, 2, 3, 0), (2, 1, 4, 3), (3, 1, 3, 7), (5, 2, 3, 10)]);
        assert_eq!(archive.tile(id(6)), Ok(Some(&b"sea"[..])));
        assert_eq!(archive.tile(id(4)), Ok(None));
        assert_eq!(archive.metadata(), Ok(&b"{\"name\":\"a\"}"[..]));
        assert_eq!(archive.header().unwrap().n_addressed_tiles, 6);
    }

    #[test]
    fn what_is_not_taken() {
        let mut writer = Writer::new(Settings::new(TileType::Png));
        assert_eq!(writer.add_tile(id(3), b""), Err(Refusal::EmptyEntry));
        writer.add_tile(id(3), b"a").unwrap();
        writer.add_tile(id(4), b"a").unwrap();
        assert_eq!(writer.add_tile(id(4), b"a"), Err(Refusal::EntriesOutOfOrder));
        assert_eq!(writer.publication().unwrap().n_addressed_tiles(), 2);
    }

    /// Enough entries that the root points to leaves.
    #[test]
    fn every_tile_of_a_large_archive_is_found() {
        let scratch = Scratch::new("writer-leaves");
        let path = scratch.path("a.pmtiles");
        let mut writer = Writer::new(Settings::new(TileType::Png));
        let contents = |at: u64| at.to_string().into_bytes();
        for at in 0..9_000 {
            writer.add_tile(id(at * 3), &contents(at)).unwrap();
        }
        writer.publish(&path).unwrap();
        let archive = Archive::open(&path).unwrap();
        assert!(archive.header().unwrap().leaf_length > 0);
        for at in (0..9_000).step_by(7) {
            assert_eq!(archive.tile(id(at * 3)), Ok(Some(&contents(at)[..])));
            assert_eq!(archive.tile(id(at * 3 + 1)), Ok(None));
        }
        let ids: Vec<u64> = archive.entries().unwrap().map(|e| e.unwrap().tile_id.value()).collect();
        assert!(ids.into_iter().eq((0..9_000).map(|at| at * 3)));
    }
}
