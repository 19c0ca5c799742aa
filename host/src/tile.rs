//! Tile coordinates and tile ids.
use crate::Refusal;
use crate::refusal::done;
use std::fmt;
use std::str::FromStr;

/// The largest zoom.
pub const MAX_ZOOM: u8 = 31;

/// The largest tile id.
pub const MAX_TILE_ID: u64 = 6_148_914_691_236_517_204;

/// Zoom, column and row of a tile that there is.
#[derive(Clone, Copy, Debug, PartialEq, Eq, Hash)]
pub struct TileCoord {
    z: u8,
    x: u32,
    y: u32,
}

fn id_of(z: u8, x: u32, y: u32) -> Result<u64, Refusal> {
    let mut id = [0];
    done(linked::tile_id(z, x, y, &mut id))?;
    Ok(id[0])
}

impl TileCoord {
    /// Refused 6 for a zoom above 31, and for x or y not below 2^z.
    ///
    /// ```
    /// # use oletami::{Refusal, TileCoord, TileId};
    /// let coord = TileCoord::new(12, 3423, 1763)?;
    /// assert_eq!(TileId::from(coord).value(), 19078479);
    /// assert_eq!(TileCoord::new(32, 0, 0), Err(Refusal::InvalidCoordinate));
    /// # Ok::<(), Refusal>(())
    /// ```
    pub fn new(z: u8, x: u32, y: u32) -> Result<Self, Refusal> {
        id_of(z, x, y).map(|_| Self { z, x, y })
    }

    #[must_use]
    pub fn z(self) -> u8 {
        self.z
    }

    #[must_use]
    pub fn x(self) -> u32 {
        self.x
    }

    #[must_use]
    pub fn y(self) -> u32 {
        self.y
    }
}

impl fmt::Display for TileCoord {
    fn fmt(&self, f: &mut fmt::Formatter<'_>) -> fmt::Result {
        write!(f, "{}/{}/{}", self.z, self.x, self.y)
    }
}

/// A number of digits and nothing else; `parse` would take a sign.
fn digits<T: FromStr>(text: &str) -> Option<T> {
    text.bytes().all(|b| b.is_ascii_digit()).then(|| text.parse().ok())?
}

/// `Z/X/Y`; all else is refused 6.
///
/// ```
/// # use oletami::{Refusal, TileCoord};
/// assert_eq!("2/3/0".parse(), TileCoord::new(2, 3, 0));
/// assert_eq!("2/3".parse::<TileCoord>(), Err(Refusal::InvalidCoordinate));
/// ```
impl FromStr for TileCoord {
    type Err = Refusal;

    fn from_str(text: &str) -> Result<Self, Refusal> {
        let mut parts = text.split('/');
        let parsed = (|| {
            let coord = (digits(parts.next()?)?, digits(parts.next()?)?, digits(parts.next()?)?);
            parts.next().is_none().then_some(coord)
        })();
        let (z, x, y) = parsed.ok_or(Refusal::InvalidCoordinate)?;
        Self::new(z, x, y)
    }
}

/// The number of a tile that there is.
#[derive(Clone, Copy, Debug, PartialEq, Eq, PartialOrd, Ord, Hash)]
pub struct TileId(u64);

fn coord_of(id: u64) -> Result<TileCoord, Refusal> {
    let mut out = [0; 3];
    done(linked::tile_coord(id, &mut out))?;
    Ok(TileCoord {
        z: out[0] as u8,
        x: out[1] as u32,
        y: out[2] as u32,
    })
}

impl TileId {
    /// Refused 7 above [`MAX_TILE_ID`].
    ///
    /// ```
    /// # use oletami::{MAX_TILE_ID, Refusal, TileCoord, TileId};
    /// assert_eq!(TileCoord::from(TileId::new(20)?), TileCoord::new(2, 3, 0)?);
    /// assert_eq!(TileId::new(MAX_TILE_ID + 1), Err(Refusal::InvalidTileId));
    /// # Ok::<(), Refusal>(())
    /// ```
    pub fn new(id: u64) -> Result<Self, Refusal> {
        coord_of(id).map(|_| Self(id))
    }

    /// An id that the library answered, which is one that there is.
    pub(crate) fn told(id: u64) -> Self {
        debug_assert!(id <= MAX_TILE_ID);
        Self(id)
    }

    #[must_use]
    pub fn value(self) -> u64 {
        self.0
    }
}

impl fmt::Display for TileId {
    fn fmt(&self, f: &mut fmt::Formatter<'_>) -> fmt::Result {
        self.0.fmt(f)
    }
}

/// Digits; all else is refused 7.
impl FromStr for TileId {
    type Err = Refusal;

    fn from_str(text: &str) -> Result<Self, Refusal> {
        Self::new(digits(text).ok_or(Refusal::InvalidTileId)?)
    }
}

impl From<TileId> for u64 {
    fn from(id: TileId) -> Self {
        id.0
    }
}

impl From<TileCoord> for TileId {
    fn from(c: TileCoord) -> Self {
        Self(id_of(c.z, c.x, c.y).expect("only a tile that there is has a TileCoord"))
    }
}

impl From<TileId> for TileCoord {
    fn from(id: TileId) -> Self {
        coord_of(id.0).expect("only a tile that there is has a TileId")
    }
}

#[cfg(test)]
mod tests {
    use super::*;

    #[test]
    fn the_formats_ids() {
        let examples = [
            ("0/0/0", 0),
            ("1/0/0", 1),
            ("1/0/1", 2),
            ("1/1/1", 3),
            ("1/1/0", 4),
            ("2/3/0", 20),
            ("12/3423/1763", 19078479),
        ];
        for (text, id) in examples {
            let coord: TileCoord = text.parse().unwrap();
            assert_eq!(TileId::from(coord).value(), id);
            assert_eq!(TileCoord::from(TileId::new(id).unwrap()).to_string(), text);
        }
    }

    #[test]
    fn the_last_tile_and_the_one_past_it() {
        let last = TileCoord::from(TileId::new(MAX_TILE_ID).unwrap());
        assert_eq!(last.z(), MAX_ZOOM);
        assert_eq!(TileId::from(last).value(), MAX_TILE_ID);
        assert_eq!(TileId::new(MAX_TILE_ID + 1), Err(Refusal::InvalidTileId));
        assert_eq!(TileCoord::new(MAX_ZOOM + 1, 0, 0), Err(Refusal::InvalidCoordinate));
        assert_eq!(TileCoord::new(MAX_ZOOM, 0, 1 << 31), Err(Refusal::InvalidCoordinate));
    }

    #[test]
    fn text_that_names_no_tile() {
        for text in [
            "",
            "/",
            "1/0",
            "1/0/0/0",
            "1/2/0",
            "+1/0/0",
            "1/-0/0",
            " 1/0/0",
            "256/0/0",
            "1/0/4294967296",
        ] {
            assert_eq!(text.parse::<TileCoord>(), Err(Refusal::InvalidCoordinate), "{text:?}");
        }
        for text in ["", "+1", "-1", "1 ", "x", "18446744073709551616", "6148914691236517205"] {
            assert_eq!(text.parse::<TileId>(), Err(Refusal::InvalidTileId), "{text:?}");
        }
    }
}
