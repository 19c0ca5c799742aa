//! PMTiles archives read and written by the proved core, from Rust.
//!
//! All that is known of the format stands in the proved library; this crate lends it memory and files. An answer that the
//! library refuses is a [`Refusal`], with its number and its reason.
//!
//! ```
//! use oletami::{Archive, Settings, TileCoord, TileType, Writer};
//!
//! # let folder = std::env::temp_dir().join(format!("oletami-front-{}", std::process::id()));
//! # std::fs::create_dir_all(&folder)?;
//! # let path = folder.join("water.pmtiles");
//! let mut writer = Writer::new(Settings::new(TileType::Png));
//! writer.add_tile(TileCoord::new(0, 0, 0)?, b"the whole world")?;
//! writer.add_tile(TileCoord::new(1, 0, 0)?, b"its north-west")?;
//! writer.publish(&path)?;
//!
//! let archive = Archive::open(&path)?;
//! assert_eq!(archive.tile(TileCoord::new(1, 0, 0)?)?, Some(&b"its north-west"[..]));
//! assert_eq!(archive.tile(TileCoord::new(1, 1, 1)?)?, None);
//! # std::fs::remove_dir_all(&folder)?;
//! # Ok::<(), oletami::Error>(())
//! ```
mod archive;
mod directory;
mod header;
mod map;
mod partial;
mod publication;
mod refusal;
#[cfg(test)]
mod scratch;
mod tile;
mod writer;

pub use archive::{Archive, Entries, Location};
pub use directory::{DirEntry, Directory};
pub use header::{Compression, HEADER_SIZE, Header, TileType};
pub use linked::{Row, Stores};
pub use map::Map;
pub use publication::{Publication, Settings};
pub use refusal::{Error, Refusal};
pub use tile::{MAX_TILE_ID, MAX_ZOOM, TileCoord, TileId};
pub use writer::Writer;
