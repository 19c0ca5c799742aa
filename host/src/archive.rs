//! Archives, read.
use crate::refusal::found;
use crate::{Compression, DirEntry, Directory, Header, MAX_TILE_ID, Map, Refusal, TileId};
use std::io;
use std::path::Path;

/// How many directories lie above a tile at most.
const MAX_DEPTH: usize = 4;

/// Where a tile's contents lie in the archive.
#[derive(Clone, Copy, Debug, PartialEq, Eq)]
pub struct Location {
    pub start: u64,
    pub length: u32,
}

/// An archive's bytes, of a file or of any other memory. Nothing is checked until it is asked for.
pub struct Archive<B = Map> {
    bytes: B,
}

impl Archive {
    /// Maps a file; [`Map`] says what must not happen to it meanwhile.
    pub fn open(path: impl AsRef<Path>) -> io::Result<Self> {
        Map::open(path).map(Self::new)
    }
}

impl<B: AsRef<[u8]>> Archive<B> {
    /// ```
    /// # use oletami::{Archive, Refusal, TileId};
    /// let archive = Archive::new(vec![0; 20000]);
    /// assert_eq!(archive.lookup(TileId::new(0)?), Err(Refusal::InvalidMagicNumber));
    /// # Ok::<(), Refusal>(())
    /// ```
    pub fn new(bytes: B) -> Self {
        Self { bytes }
    }

    pub fn bytes(&self) -> &[u8] {
        self.bytes.as_ref()
    }

    pub fn header(&self) -> Result<Header, Refusal> {
        Header::try_from_bytes(self.bytes())
    }

    /// Where a tile's contents lie, `None` if it is absent.
    pub fn lookup(&self, tile: impl Into<TileId>) -> Result<Option<Location>, Refusal> {
        let mut out = [0; 2];
        let is_there = found(linked::lookup(self.bytes(), tile.into().value(), &mut out))?;
        Ok(is_there.then_some(Location {
            start: out[0],
            length: out[1] as u32,
        }))
    }

    /// A tile's contents, `None` if it is absent.
    pub fn tile(&self, tile: impl Into<TileId>) -> Result<Option<&[u8]>, Refusal> {
        let at = self.lookup(tile)?;
        // the library answers places within the archive only
        Ok(at.map(|at| &self.bytes()[at.start as usize..][..at.length as usize]))
    }

    /// The metadata as it stands there.
    pub fn metadata(&self) -> Result<&[u8], Refusal> {
        let h = self.header()?;
        part(self.bytes(), h.metadata_offset, h.metadata_length, 0, h.metadata_length)
    }

    /// Every entry of a tile, by id, from root and leaves. An archive in which a lookup could not reach one is refused
    /// where it stands: 14 for a leaf whose ids lie outside of its pointer's.
    pub fn entries(&self) -> Result<Entries<'_>, Refusal> {
        let archive = self.bytes();
        let header = self.header()?;
        if header.internal_compression != Compression::None {
            return Err(Refusal::CompressedDirectories);
        }
        let root = part(archive, header.root_offset, header.root_length, 0, header.root_length)?;
        let levels = vec![Level {
            directory: Directory::try_from(root)?,
            next: 0,
            end: MAX_TILE_ID + 1,
        }];
        Ok(Entries {
            archive,
            header,
            levels,
        })
    }
}

/// A part of a section, which lies in the section and in the archive; else 17.
fn part(archive: &[u8], section: u64, section_length: u64, offset: u64, length: u64) -> Result<&[u8], Refusal> {
    let (section, offset, length) = (u128::from(section), u128::from(offset), u128::from(length));
    let (start, end) = (section + offset, section + offset + length);
    if offset + length > u128::from(section_length) || end > archive.len() as u128 {
        return Err(Refusal::RangeOutside);
    }
    Ok(&archive[start as usize..end as usize])
}

/// A directory on the way down, and the place in it.
struct Level<'a> {
    directory: Directory<'a>,
    next: usize,
    /// Its ids lie below this one.
    end: u64,
}

/// See [`Archive::entries`]. After a refusal there is nothing more.
pub struct Entries<'a> {
    archive: &'a [u8],
    header: Header,
    levels: Vec<Level<'a>>,
}

impl<'a> Entries<'a> {
    /// The next entry, down through pointers.
    fn advance(&mut self) -> Result<Option<DirEntry>, Refusal> {
        while let Some(level) = self.levels.last_mut() {
            let Some(entry) = level.directory.get(level.next) else {
                self.levels.pop();
                continue;
            };
            level.next += 1;
            let following = level.directory.get(level.next).map(|e| e.tile_id.value());
            let end = following.unwrap_or(level.end);
            if entry.end() > end {
                return Err(Refusal::EntriesOutOfOrder);
            }
            if !entry.is_leaf() {
                let (section, length) = (self.header.data_offset, self.header.data_length);
                part(self.archive, section, length, entry.offset, entry.length.into())?;
                return Ok(Some(entry));
            }
            let leaf = self.leaf(&entry, end)?;
            self.levels.push(leaf);
        }
        Ok(None)
    }

    fn leaf(&self, pointer: &DirEntry, end: u64) -> Result<Level<'a>, Refusal> {
        if self.levels.len() == MAX_DEPTH {
            return Err(Refusal::TooDeep);
        }
        let (section, length) = (self.header.leaf_offset, self.header.leaf_length);
        let bytes = part(self.archive, section, length, pointer.offset, pointer.length.into())?;
        let directory = Directory::try_from(bytes)?;
        if directory.get(0).is_some_and(|first| first.tile_id < pointer.tile_id) {
            return Err(Refusal::EntriesOutOfOrder);
        }
        Ok(Level {
            directory,
            next: 0,
            end,
        })
    }
}

impl Iterator for Entries<'_> {
    type Item = Result<DirEntry, Refusal>;

    fn next(&mut self) -> Option<Self::Item> {
        let entry = self.advance();
        if entry.is_err() {
            self.levels.clear();
        }
        entry.transpose()
    }
}

#[cfg(test)]
mod tests {
    use super::*;
    use crate::HEADER_SIZE;
    use crate::header::tests::sample;

    fn entry(id: u64, run_length: u32, length: usize, offset: u64) -> DirEntry {
        DirEntry {
            tile_id: TileId::new(id).unwrap(),
            run_length,
            length: length as u32,
            offset,
        }
    }

    /// Header, root, leaf section, and ten bytes of data.
    fn archive(root: &[DirEntry], leaves: &[u8], change: impl Fn(&mut Header)) -> Archive<Vec<u8>> {
        let root = Directory::encode(root).unwrap();
        let leaf_offset = HEADER_SIZE + root.len();
        let data_offset = leaf_offset + leaves.len();
        let mut header = Header {
            root_length: root.len() as u64,
            leaf_offset: leaf_offset as u64,
            leaf_length: leaves.len() as u64,
            data_offset: data_offset as u64,
            data_length: 10,
            ..sample()
        };
        change(&mut header);
        let mut bytes = vec![0; HEADER_SIZE];
        header.write_to(&mut bytes).unwrap();
        bytes.extend(root);
        bytes.extend_from_slice(leaves);
        bytes.extend_from_slice(b"0123456789");
        Archive::new(bytes)
    }

    fn listed(archive: &Archive<Vec<u8>>) -> Result<Vec<DirEntry>, Refusal> {
        archive.entries()?.collect()
    }

    #[test]
    fn entries_of_root_and_leaves_in_one_row() {
        let inner = [entry(5, 2, 4, 0), entry(9, 1, 6, 4)];
        let leaf = Directory::encode(&inner).unwrap();
        let (first, last) = (entry(0, 1, 10, 0), entry(10, 3, 1, 9));
        let archive = archive(&[first, entry(5, 0, leaf.len(), 0), last], &leaf, |_| {});
        assert_eq!(listed(&archive), Ok(vec![first, inner[0], inner[1], last]));
        for entry in archive.entries().unwrap() {
            let entry = entry.unwrap();
            for id in entry.iter_coords() {
                let at = archive.lookup(id).unwrap().unwrap();
                assert_eq!(at.start, archive.header().unwrap().data_offset + entry.offset);
                assert_eq!(at.length, entry.length);
            }
        }
        assert_eq!(archive.tile(TileId::new(6).unwrap()), Ok(Some(&b"0123"[..])));
        assert_eq!(archive.tile(TileId::new(7).unwrap()), Ok(None));
    }

    #[test]
    fn a_leaf_outside_of_its_pointer() {
        let leaf = Directory::encode(&[entry(5, 2, 4, 0)]).unwrap();
        let pointer = |id| entry(id, 0, leaf.len(), 0);
        assert!(listed(&archive(&[pointer(5)], &leaf, |_| {})).is_ok());
        let early = archive(&[pointer(6)], &leaf, |_| {});
        assert_eq!(listed(&early), Err(Refusal::EntriesOutOfOrder));
        let late = archive(&[pointer(5), entry(6, 1, 1, 0)], &leaf, |_| {});
        assert_eq!(listed(&late), Err(Refusal::EntriesOutOfOrder));
    }

    #[test]
    fn a_leaf_that_points_to_itself() {
        let length = Directory::encode(&[entry(0, 0, 5, 0)]).unwrap().len();
        let itself = entry(0, 0, length, 0);
        let leaf = Directory::encode(&[itself]).unwrap();
        let archive = archive(&[itself], &leaf, |_| {});
        assert_eq!(listed(&archive), Err(Refusal::TooDeep));
        assert_eq!(archive.lookup(TileId::new(0).unwrap()), Err(Refusal::TooDeep));
        let mut entries = archive.entries().unwrap();
        assert_eq!(entries.next(), Some(Err(Refusal::TooDeep)));
        assert_eq!(entries.next(), None);
    }

    #[test]
    fn sections_that_reach_too_far() {
        let root = [entry(0, 1, 11, 0)];
        assert_eq!(listed(&archive(&root, &[], |_| {})), Err(Refusal::RangeOutside));
        let root = [entry(0, 1, 10, 0)];
        let archive = |change: fn(&mut Header)| archive(&root, &[], change);
        assert!(listed(&archive(|_| {})).is_ok());
        let further = archive(|h| h.data_length = 9);
        assert_eq!(listed(&further), Err(Refusal::RangeOutside));
        let further = archive(|h| h.root_length = u64::MAX);
        assert_eq!(listed(&further), Err(Refusal::RangeOutside));
        let further = archive(|h| (h.metadata_offset, h.metadata_length) = (u64::MAX, u64::MAX));
        assert_eq!(further.metadata(), Err(Refusal::RangeOutside));
        let compressed = archive(|h| h.internal_compression = Compression::Gzip);
        assert_eq!(listed(&compressed), Err(Refusal::CompressedDirectories));
    }

    #[test]
    fn no_bytes() {
        let archive = Archive::new([]);
        assert_eq!(archive.lookup(TileId::new(0).unwrap()), Err(Refusal::InvalidHeader));
        assert_eq!(archive.entries().err(), Some(Refusal::InvalidHeader));
    }
}
