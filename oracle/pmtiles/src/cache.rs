//! Stand-in for the missing cache.rs: the names that lib.rs and async_reader.rs use; no caching.
use crate::{DirEntry, Directory, PmtResult, TileId};

pub enum DirCacheResult {
    NotCached,
    NotFound,
    Found(DirEntry),
}

pub trait DirectoryCache {
    fn get_dir_entry_or_insert(
        &self,
        offset: usize,
        tile_id: TileId,
        fetcher: impl Future<Output = PmtResult<Directory>> + Send,
    ) -> impl Future<Output = PmtResult<Option<DirEntry>>> + Send;
}

pub struct NoCache;
pub struct HashMapCache;
impl DirectoryCache for NoCache {
    async fn get_dir_entry_or_insert(
        &self,
        _: usize,
        tile_id: TileId,
        fetcher: impl Future<Output = PmtResult<Directory>> + Send,
    ) -> PmtResult<Option<DirEntry>> {
        Ok(fetcher.await?.find_tile_id(tile_id).cloned())
    }
}
