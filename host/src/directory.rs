//! Directories: the entries that say where contents lie.
use crate::refusal::{done, found};
use crate::{MAX_TILE_ID, Refusal, TileId};
use linked::{Row, Stores};

/// The most entries that a directory can have.
const MAX_ENTRIES: usize = 16_777_216;

/// Contents that tiles from `tile_id` on share, `run_length` of them, or a leaf directory where that is 0.
#[derive(Clone, Copy, Debug, PartialEq, Eq)]
pub struct DirEntry {
    pub tile_id: TileId,
    pub run_length: u32,
    pub length: u32,
    /// From the start of the data section, or of the leaf section.
    pub offset: u64,
}

impl DirEntry {
    #[must_use]
    pub fn is_leaf(&self) -> bool {
        self.run_length == 0
    }

    /// The id after the last one that is covered.
    #[must_use]
    pub fn end(&self) -> u64 {
        self.tile_id.value() + u64::from(self.run_length)
    }

    /// The ids that are covered, none for a leaf.
    pub fn iter_coords(&self) -> impl Iterator<Item = TileId> + use<> {
        (self.tile_id.value()..self.end().min(MAX_TILE_ID + 1)).map(TileId::told)
    }

    fn told((id, run_length, length, offset): Row) -> Self {
        Self {
            tile_id: TileId::told(id),
            run_length,
            length,
            offset,
        }
    }

    fn row(&self) -> Row {
        (self.tile_id.value(), self.run_length, self.length, self.offset)
    }
}

/// A directory that was read, and so checked, as a whole.
pub struct Directory<'a> {
    bytes: &'a [u8],
    stores: Stores,
    count: usize,
}

/// Reads a directory; what follows it is not looked at.
///
/// ```
/// # use oletami::{Directory, Refusal, TileId};
/// let directory = Directory::try_from(&[2, 0, 1, 1, 2, 5, 7, 1, 0][..])?;
/// let second = directory.find_tile_id(TileId::new(2)?).unwrap();
/// assert_eq!((second.run_length, second.length, second.offset), (2, 7, 5));
/// assert_eq!(directory.find_tile_id(TileId::new(3)?), None);
/// # Ok::<(), Refusal>(())
/// ```
impl<'a> TryFrom<&'a [u8]> for Directory<'a> {
    type Error = Refusal;

    fn try_from(bytes: &'a [u8]) -> Result<Self, Refusal> {
        // an entry takes at least a byte in each of the four columns
        let mut stores = Stores::new((bytes.len() / 4).min(MAX_ENTRIES));
        let mut out = [0; 2];
        match done(linked::directory_read(bytes, &mut stores, &mut out)) {
            // more entries than there can be: the search, which needs no room, says what is wrong
            Err(Refusal::RoomTooShort) => {
                found(linked::directory_find(bytes, 0, &mut [0; 4]))?;
                Err(Refusal::RoomTooShort)
            }
            read => read.map(|()| Self {
                bytes,
                stores,
                count: out[0] as usize,
            }),
        }
    }
}

impl Directory<'_> {
    #[must_use]
    pub fn len(&self) -> usize {
        self.count
    }

    #[must_use]
    pub fn is_empty(&self) -> bool {
        self.count == 0
    }

    #[must_use]
    pub fn get(&self, at: usize) -> Option<DirEntry> {
        (at < self.count).then(|| DirEntry::told(self.stores.row(at)))
    }

    pub fn iter(&self) -> impl Iterator<Item = DirEntry> {
        (0..self.count).map(|at| DirEntry::told(self.stores.row(at)))
    }

    /// The entry that covers a tile, or the leaf to look in.
    #[must_use]
    pub fn find_tile_id(&self, id: TileId) -> Option<DirEntry> {
        let mut out = [0; 4];
        found(linked::directory_find(self.bytes, id.value(), &mut out))
            .expect("what was read can be searched")
            .then(|| DirEntry::told((out[0], out[1] as u32, out[2] as u32, out[3])))
    }

    /// The bytes of a directory. Refused 11, 12, 13, 14 or 19.
    ///
    /// ```
    /// # use oletami::{DirEntry, Directory, Refusal, TileId};
    /// let entry = DirEntry { tile_id: TileId::new(0)?, run_length: 1, length: 5, offset: 0 };
    /// assert_eq!(Directory::encode(&[entry])?, [1, 0, 1, 5, 1]);
    /// assert_eq!(Directory::encode(&[entry, entry]), Err(Refusal::EntriesOutOfOrder));
    /// # Ok::<(), Refusal>(())
    /// ```
    pub fn encode(entries: &[DirEntry]) -> Result<Vec<u8>, Refusal> {
        let rows: Vec<Row> = entries.iter().map(DirEntry::row).collect();
        let stores = Stores::from_rows(&rows);
        let mut out = [0];
        done(linked::encoded_len(rows.len(), &stores, &mut out))?;
        let mut bytes = vec![0; out[0] as usize];
        done(linked::directory_write(rows.len(), &stores, &mut bytes, &mut out))?;
        Ok(bytes)
    }
}

#[cfg(test)]
mod tests {
    use super::*;

    fn entry(id: u64, run_length: u32, length: u32, offset: u64) -> DirEntry {
        DirEntry {
            tile_id: TileId::new(id).unwrap(),
            run_length,
            length,
            offset,
        }
    }

    fn refusal(bytes: &[u8]) -> Refusal {
        Directory::try_from(bytes).err().unwrap()
    }

    #[test]
    fn entries_come_back() {
        let entries = [
            entry(0, 1, 5, 0),
            entry(7, 3, 500, 5),
            entry(10, 0, 9, 0),
            entry(4_000_000_000_000, u32::MAX, u32::MAX, 1 << 40),
        ];
        let bytes = Directory::encode(&entries).unwrap();
        let directory = Directory::try_from(&bytes[..]).unwrap();
        assert_eq!(directory.iter().collect::<Vec<_>>(), entries);
        assert_eq!(directory.get(3), Some(entries[3]));
        assert_eq!(directory.get(4), None);
        let find = |id| directory.find_tile_id(TileId::new(id).unwrap());
        assert_eq!(find(9), Some(entries[1]));
        assert_eq!(find(1), None);
        assert_eq!(find(11), Some(entries[2]), "a leaf is not bounded");
    }

    #[test]
    fn the_empty_directory() {
        assert_eq!(Directory::encode(&[]).unwrap(), [0]);
        assert!(Directory::try_from(&[0][..]).unwrap().is_empty());
    }

    #[test]
    fn a_fault_is_named_though_the_room_was_guessed() {
        assert_eq!(refusal(&[]), Refusal::VarintCutOff);
        assert_eq!(refusal(&[1, 0, 1, 5, 0]), Refusal::InvalidEntry);
        assert_eq!(refusal(&[9, 0, 1, 5, 1]), Refusal::VarintCutOff);
        assert_eq!(refusal(&[1, 0, 1, 0, 1]), Refusal::EmptyEntry);
        assert_eq!(refusal(&[0xFF, 0xFF, 0xFF, 0xFF, 0x0F]), Refusal::TooManyEntries);
    }

    #[test]
    fn the_tiles_of_an_entry() {
        let ids = |e: DirEntry| e.iter_coords().map(TileId::value).collect::<Vec<_>>();
        assert_eq!(ids(entry(5, 3, 1, 0)), [5, 6, 7]);
        assert_eq!(ids(entry(5, 0, 1, 0)), []);
    }
}
