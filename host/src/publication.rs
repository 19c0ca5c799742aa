//! An archive put into a file, so that no cut leaves a file that answers wrongly.
use crate::partial::Partial;
use crate::refusal::done;
use crate::{Compression, Error, Refusal, TileCoord, TileId, TileType};
use linked::Stores;
use std::path::Path;

/// What the header shall say of the tiles.
#[derive(Clone, Debug, PartialEq)]
pub struct Settings {
    pub tile_type: TileType,
    pub tile_compression: Compression,
    /// `None`: the smallest zoom of a tile.
    pub min_zoom: Option<u8>,
    /// `None`: the largest zoom of a tile.
    pub max_zoom: Option<u8>,
    /// West, south, east and north.
    pub bounds: [f64; 4],
    /// Longitude and latitude.
    pub center: [f64; 2],
    pub center_zoom: u8,
}

impl Settings {
    /// Tiles of the whole world, not compressed.
    #[must_use]
    pub fn new(tile_type: TileType) -> Self {
        Self {
            tile_type,
            tile_compression: Compression::None,
            min_zoom: None,
            max_zoom: None,
            bounds: [-180.0, -85.051_129, 180.0, 85.051_129],
            center: [0.0, 0.0],
            center_zoom: 0,
        }
    }
}

/// Bytes before the metadata: header, root, and zeros.
const FRONT: u64 = 16_384;

/// Stores of one call, so that progress can be told in between.
const STEP: u64 = 1 << 26;

/// An archive's parts, ready to be put in place.
pub struct Publication<'a> {
    settings: [u64; 5],
    degrees: [f64; 6],
    counts: [u64; 2],
    root: Vec<u8>,
    metadata: &'a [u8],
    data: &'a [u8],
    leaves: Vec<u8>,
    stores: u64,
}

impl<'a> Publication<'a> {
    /// From entries in the order of their ids, and the tile data that they point into. Refused as the library's builder
    /// and publisher have it: 11 to 19.
    pub fn new(settings: &Settings, entries: &Stores, data: &'a [u8], metadata: &'a [u8]) -> Result<Self, Refusal> {
        let count = entries.ids.len();
        let data_length = data.len() as u64;
        let mut out = [0; 4];
        done(linked::build_sizes(count, entries, data_length, &mut out))?;
        let (mut root, mut leaves) = (vec![0; out[0] as usize], vec![0; out[1] as usize]);
        done(linked::build(
            count,
            entries,
            data_length,
            &mut root,
            &mut leaves,
            &mut out,
        ))?;
        let [root_length, leaf_length, n_tile_entries, n_addressed_tiles] = out;
        let mut stores = [0];
        done(linked::total(
            root_length,
            metadata.len() as u64,
            data_length,
            leaf_length,
            &mut stores,
        ))?;
        let (least, largest) = zooms(entries);
        let [west, south, east, north] = settings.bounds;
        let [longitude, latitude] = settings.center;
        Ok(Self {
            settings: [
                settings.tile_compression.code().into(),
                settings.tile_type.code().into(),
                settings.min_zoom.unwrap_or(least).into(),
                settings.max_zoom.unwrap_or(largest).into(),
                settings.center_zoom.into(),
            ],
            degrees: [west, south, east, north, longitude, latitude],
            counts: [n_tile_entries, n_addressed_tiles],
            root,
            metadata,
            data,
            leaves,
            stores: stores[0],
        })
    }

    /// How many bytes the archive has.
    #[must_use]
    pub fn length(&self) -> u64 {
        FRONT + (self.metadata.len() + self.data.len() + self.leaves.len()) as u64
    }

    #[must_use]
    pub fn n_tile_entries(&self) -> u64 {
        self.counts[0]
    }

    #[must_use]
    pub fn n_addressed_tiles(&self) -> u64 {
        self.counts[1]
    }

    /// Does the next stores from a position on, as many as the budget allows, and answers the new position.
    fn store(&self, destination: &mut [u8], position: u64, budget: u64) -> Result<u64, Refusal> {
        let mut out = [0];
        done(linked::publish(
            &self.settings,
            &self.degrees,
            &self.counts,
            &self.root,
            self.metadata,
            self.data,
            &self.leaves,
            destination,
            position,
            budget,
            &mut out,
        ))?;
        Ok(out[0])
    }

    /// Every store but the last, made durable; then the last, which makes the bytes an archive, made durable.
    fn store_all(&self, partial: &mut Partial, progress: &mut dyn FnMut(u64, u64)) -> Result<(), Error> {
        let last = self.stores - 1;
        let mut position = 0;
        while position < last {
            position = self.store(partial.bytes(), position, STEP.min(last - position))?;
            progress(position, self.stores);
        }
        partial.sync()?;
        self.store(partial.bytes(), last, 1)?;
        partial.sync()?;
        Ok(())
    }

    fn claim(&self, path: &Path) -> Result<Partial, Error> {
        let length = usize::try_from(self.length()).map_err(|_| Refusal::SumTooLarge)?;
        Ok(Partial::create(path, length)?)
    }

    /// Puts the archive under a name. Until it is whole and durable, what stood under that name stays, and the bytes are
    /// in a file beside it, `NAME.partial`, which every reader refuses. Where the process is killed, that file stays, and
    /// the next publication under the name writes over it.
    pub fn publish(&self, path: impl AsRef<Path>) -> Result<(), Error> {
        self.publish_with(path, &mut |_, _| {})
    }

    /// The same, and tells now and then how many stores are done, and of how many.
    pub fn publish_with(&self, path: impl AsRef<Path>, progress: &mut dyn FnMut(u64, u64)) -> Result<(), Error> {
        let mut partial = self.claim(path.as_ref())?;
        match self.store_all(&mut partial, progress) {
            Ok(()) => Ok(partial.finish()?),
            Err(error) => {
                partial.discard();
                Err(error)
            }
        }
    }
}

/// The smallest and the largest zoom of entries that the builder took; ids go by zoom.
fn zooms(entries: &Stores) -> (u8, u8) {
    let zoom = |id| TileCoord::from(TileId::told(id)).z();
    let Some(last) = entries.ids.len().checked_sub(1) else {
        return (0, 22);
    };
    let (id, run, _, _) = entries.row(last);
    (zoom(entries.ids[0]), zoom(id + u64::from(run) - 1))
}

#[cfg(test)]
mod tests {
    use super::*;
    use crate::scratch::Scratch;
    use crate::{Archive, Header};
    use std::fs;

    fn one_tile<'a>(data: &'a [u8], metadata: &'a [u8]) -> Publication<'a> {
        let entries = Stores::from_rows(&[(0, 1, data.len() as u32, 0)]);
        Publication::new(&Settings::new(TileType::Png), &entries, data, metadata).unwrap()
    }

    fn world() -> TileCoord {
        TileCoord::new(0, 0, 0).unwrap()
    }

    #[test]
    fn the_formats_example() {
        let scratch = Scratch::new("publication");
        let path = scratch.path("a.pmtiles");
        let publication = one_tile(b"water", b"{}");
        assert_eq!((publication.length(), publication.stores), (16_391, 16_523));
        publication.publish(&path).unwrap();
        let archive = Archive::open(&path).unwrap();
        assert_eq!(archive.bytes().len(), 16_391);
        let at = archive.lookup(world()).unwrap().unwrap();
        assert_eq!((at.start, at.length), (16_386, 5));
        assert_eq!(archive.tile(world()), Ok(Some(&b"water"[..])));
        assert_eq!(archive.metadata(), Ok(&b"{}"[..]));
    }

    #[test]
    fn the_header_says_what_was_set() {
        let scratch = Scratch::new("publication-settings");
        let path = scratch.path("a.pmtiles");
        let settings = Settings {
            tile_compression: Compression::Gzip,
            max_zoom: Some(9),
            bounds: [1.5, 2.5, 3.5, 4.5],
            center: [2.25, 3.25],
            center_zoom: 7,
            ..Settings::new(TileType::Mvt)
        };
        // tiles of zooms 1 and 2
        let entries = Stores::from_rows(&[(4, 2, 3, 0), (9, 1, 3, 0)]);
        Publication::new(&settings, &entries, b"abc", b"")
            .unwrap()
            .publish(&path)
            .unwrap();
        let expected = Header {
            version: 3,
            root_offset: 127,
            root_length: 9,
            metadata_offset: 16_384,
            metadata_length: 0,
            leaf_offset: 0,
            leaf_length: 0,
            data_offset: 16_384,
            data_length: 3,
            n_addressed_tiles: 3,
            n_tile_entries: 2,
            n_tile_contents: 0,
            clustered: true,
            internal_compression: Compression::None,
            tile_compression: Compression::Gzip,
            tile_type: TileType::Mvt,
            min_zoom: 1,
            max_zoom: 9,
            min_longitude: 1.5,
            min_latitude: 2.5,
            max_longitude: 3.5,
            max_latitude: 4.5,
            center_zoom: 7,
            center_longitude: 2.25,
            center_latitude: 3.25,
        };
        assert_eq!(Archive::open(&path).unwrap().header(), Ok(expected));
    }

    /// The file as another process sees it after each store, and as it stays where this one ends.
    #[test]
    fn cut_after_every_store() {
        let scratch = Scratch::new("publication-cuts");
        let path = scratch.path("a.pmtiles");
        one_tile(b"old", b"").publish(&path).unwrap();
        let old = fs::read(&path).unwrap();
        let publication = one_tile(b"newer", b"{}");
        let beside = scratch.path("a.pmtiles.partial");
        let check = |refusal: Refusal, at: u64| {
            let remnant = Archive::open(&beside).unwrap();
            assert_eq!(remnant.lookup(world()), Err(refusal), "{at} stores");
            assert_eq!(remnant.header(), Err(refusal), "{at} stores");
        };
        let mut partial = publication.claim(&path).unwrap();
        for position in 0..publication.stores {
            check(Refusal::InvalidMagicNumber, position);
            assert_eq!(publication.store(partial.bytes(), position, 1), Ok(position + 1));
        }
        assert_eq!(Archive::open(&beside).unwrap().tile(world()), Ok(Some(&b"newer"[..])));
        drop(partial);
        for budget in (0..publication.stores).step_by(97) {
            let mut partial = publication.claim(&path).unwrap();
            assert_eq!(publication.store(partial.bytes(), 0, budget), Ok(budget));
            drop(partial);
            check(Refusal::InvalidMagicNumber, budget);
            fs::remove_file(&beside).unwrap();
        }
        fs::write(&beside, b"").unwrap();
        check(Refusal::InvalidHeader, 0);
        assert!(fs::read(&path).unwrap() == old, "what stood there has stayed");
        let mut told = Vec::new();
        let mut progress = |done, of| {
            check(Refusal::InvalidMagicNumber, done);
            told.push((done, of));
        };
        publication.publish_with(&path, &mut progress).unwrap();
        assert_eq!(
            told,
            [(publication.stores - 1, publication.stores)],
            "the last store is kept back"
        );
        assert_eq!(Archive::open(&path).unwrap().tile(world()), Ok(Some(&b"newer"[..])));
        assert!(!beside.exists());
    }

    #[test]
    fn one_store_a_call_and_all_in_one() {
        let publication = one_tile(b"water", b"{}");
        let mut whole = vec![0xAA; publication.length() as usize];
        let mut steps = whole.clone();
        assert_eq!(publication.store(&mut whole, 0, u64::MAX), Ok(publication.stores));
        for position in 0..publication.stores {
            assert_eq!(publication.store(&mut steps, position, 1), Ok(position + 1));
        }
        assert!(whole == steps);
    }

    #[test]
    fn what_is_no_archive_leaves_no_file() {
        let scratch = Scratch::new("publication-refused");
        let settings = Settings::new(TileType::Png);
        let refusal = |rows: &[linked::Row]| Publication::new(&settings, &Stores::from_rows(rows), b"abc", b"").err();
        assert_eq!(refusal(&[(1, 1, 3, 0), (0, 1, 3, 0)]), Some(Refusal::EntriesOutOfOrder));
        assert_eq!(refusal(&[(0, 1, 4, 0)]), Some(Refusal::RangeOutside));
        assert_eq!(refusal(&[(0, 0, 3, 0)]), Some(Refusal::EmptyEntry));
        assert_eq!(refusal(&[(u64::MAX, 1, 3, 0)]), Some(Refusal::EntryIdTooLarge));
        assert_eq!(refusal(&[(0, 1, 3, 0)]), None);
        let nowhere = scratch.path("no folder/a.pmtiles");
        assert!(matches!(one_tile(b"abc", b"").publish(nowhere), Err(Error::Io(_))));
        assert_eq!(fs::read_dir(scratch.path("")).unwrap().count(), 0);
    }

    #[test]
    fn no_tiles_at_all() {
        let scratch = Scratch::new("publication-empty");
        let path = scratch.path("a.pmtiles");
        Publication::new(&Settings::new(TileType::Png), &Stores::new(0), b"", b"")
            .unwrap()
            .publish(&path)
            .unwrap();
        assert_eq!(Archive::open(&path).unwrap().lookup(world()), Ok(None));
    }
}
