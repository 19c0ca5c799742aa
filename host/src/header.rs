//! The header of an archive.
use crate::Refusal;
use crate::refusal::done;
use std::str::FromStr;

/// How many bytes a header has.
pub const HEADER_SIZE: usize = 127;

macro_rules! codes {
    ($(#[$doc:meta])* $type:ident, $refusal:ident: $($code:literal $variant:ident $name:literal,)*) => {
        $(#[$doc])*
        #[derive(Clone, Copy, Debug, PartialEq, Eq, Hash)]
        #[repr(u8)]
        pub enum $type {
            $($variant = $code,)*
        }

        impl $type {
            const ALL: &'static [$type] = &[$($type::$variant,)*];

            /// The number that stands in a header.
            #[must_use]
            pub fn code(self) -> u8 {
                self as u8
            }

            #[must_use]
            pub fn name(self) -> &'static str {
                match self {
                    $($type::$variant => $name,)*
                }
            }
        }

        impl TryFrom<u8> for $type {
            type Error = Refusal;

            fn try_from(code: u8) -> Result<Self, Refusal> {
                Self::ALL.get(usize::from(code)).copied().ok_or(Refusal::$refusal)
            }
        }

        /// A name, or a code in digits.
        impl FromStr for $type {
            type Err = Refusal;

            fn from_str(text: &str) -> Result<Self, Refusal> {
                let is = |one: &&Self| one.name() == text || one.code().to_string() == text;
                Self::ALL.iter().find(is).copied().ok_or(Refusal::$refusal)
            }
        }
    };
}

codes! {
    /// How bytes are compressed.
    Compression, InvalidCompression:
    0 Unknown "unknown",
    1 None "none",
    2 Gzip "gzip",
    3 Brotli "brotli",
    4 Zstd "zstd",
}

codes! {
    /// What a tile's contents are.
    TileType, InvalidTileType:
    0 Unknown "unknown",
    1 Mvt "mvt",
    2 Png "png",
    3 Jpeg "jpeg",
    4 Webp "webp",
    5 Avif "avif",
    6 Mlt "mlt",
}

/// The header, field by field. A count of 0 is one that is not known.
#[derive(Clone, Debug, PartialEq)]
pub struct Header {
    pub version: u8,
    pub root_offset: u64,
    pub root_length: u64,
    pub metadata_offset: u64,
    pub metadata_length: u64,
    pub leaf_offset: u64,
    pub leaf_length: u64,
    pub data_offset: u64,
    pub data_length: u64,
    pub n_addressed_tiles: u64,
    pub n_tile_entries: u64,
    pub n_tile_contents: u64,
    pub clustered: bool,
    pub internal_compression: Compression,
    pub tile_compression: Compression,
    pub tile_type: TileType,
    pub min_zoom: u8,
    pub max_zoom: u8,
    pub min_longitude: f64,
    pub min_latitude: f64,
    pub max_longitude: f64,
    pub max_latitude: f64,
    pub center_zoom: u8,
    pub center_longitude: f64,
    pub center_latitude: f64,
}

impl Header {
    /// Reads the first 127 bytes. Refused 1, 2, 3, 4 or 5; what follows is not looked at.
    ///
    /// ```
    /// # use oletami::{Header, Refusal};
    /// assert_eq!(Header::try_from_bytes(b""), Err(Refusal::InvalidHeader));
    /// assert_eq!(Header::try_from_bytes(&[0; 127]), Err(Refusal::InvalidMagicNumber));
    /// ```
    pub fn try_from_bytes(bytes: &[u8]) -> Result<Self, Refusal> {
        let mut n = [0; 19];
        let mut degrees = [0.0; 6];
        done(linked::header_read(bytes, &mut n, &mut degrees))?;
        Ok(Self {
            version: n[0] as u8,
            root_offset: n[1],
            root_length: n[2],
            metadata_offset: n[3],
            metadata_length: n[4],
            leaf_offset: n[5],
            leaf_length: n[6],
            data_offset: n[7],
            data_length: n[8],
            n_addressed_tiles: n[9],
            n_tile_entries: n[10],
            n_tile_contents: n[11],
            clustered: n[12] == 1,
            internal_compression: Compression::try_from(n[13] as u8)?,
            tile_compression: Compression::try_from(n[14] as u8)?,
            tile_type: TileType::try_from(n[15] as u8)?,
            min_zoom: n[16] as u8,
            max_zoom: n[17] as u8,
            min_longitude: degrees[0],
            min_latitude: degrees[1],
            max_longitude: degrees[2],
            max_latitude: degrees[3],
            center_zoom: n[18] as u8,
            center_longitude: degrees[4],
            center_latitude: degrees[5],
        })
    }

    /// Writes the first 127 bytes, and refuses 15 for fewer. A degree is kept to seven decimals.
    pub fn write_to(&self, bytes: &mut [u8]) -> Result<(), Refusal> {
        let numbers = [
            self.version.into(),
            self.root_offset,
            self.root_length,
            self.metadata_offset,
            self.metadata_length,
            self.leaf_offset,
            self.leaf_length,
            self.data_offset,
            self.data_length,
            self.n_addressed_tiles,
            self.n_tile_entries,
            self.n_tile_contents,
            self.clustered.into(),
            self.internal_compression.code().into(),
            self.tile_compression.code().into(),
            self.tile_type.code().into(),
            self.min_zoom.into(),
            self.max_zoom.into(),
            self.center_zoom.into(),
        ];
        let degrees = [
            self.min_longitude,
            self.min_latitude,
            self.max_longitude,
            self.max_latitude,
            self.center_longitude,
            self.center_latitude,
        ];
        done(linked::header_write(&numbers, &degrees, bytes))
    }
}

#[cfg(test)]
pub(crate) mod tests {
    use super::*;

    /// No two fields alike, so that none can stand for another.
    pub(crate) fn sample() -> Header {
        Header {
            version: 3,
            root_offset: 127,
            root_length: 2,
            metadata_offset: 16_384,
            metadata_length: 4,
            leaf_offset: 5,
            leaf_length: 6,
            data_offset: 7,
            data_length: 8,
            n_addressed_tiles: 9,
            n_tile_entries: 10,
            n_tile_contents: 11,
            clustered: true,
            internal_compression: Compression::None,
            tile_compression: Compression::Gzip,
            tile_type: TileType::Webp,
            min_zoom: 12,
            max_zoom: 13,
            min_longitude: -1.5,
            min_latitude: -2.25,
            max_longitude: 3.125,
            max_latitude: 85.051129,
            center_zoom: 14,
            center_longitude: 0.0000001,
            center_latitude: -0.5,
        }
    }

    #[test]
    fn a_header_comes_back() {
        let mut bytes = [0xAA; HEADER_SIZE + 1];
        sample().write_to(&mut bytes).unwrap();
        assert_eq!(&bytes[..8], b"PMTiles\x03");
        assert_eq!(bytes[8..16], 127u64.to_le_bytes());
        assert_eq!(bytes[72..80], 9u64.to_le_bytes());
        assert_eq!(bytes[96..102], [1, 1, 2, 4, 12, 13]);
        assert_eq!(bytes[102..106], (-15_000_000i32).to_le_bytes());
        assert_eq!(bytes[118], 14);
        assert_eq!(bytes[119..123], 1i32.to_le_bytes());
        assert_eq!(bytes[HEADER_SIZE], 0xAA);
        assert_eq!(Header::try_from_bytes(&bytes), Ok(sample()));
    }

    #[test]
    fn what_is_no_header() {
        let mut bytes = [0; HEADER_SIZE];
        sample().write_to(&mut bytes).unwrap();
        assert_eq!(sample().write_to(&mut bytes[1..]), Err(Refusal::RoomTooShort));
        assert_eq!(Header::try_from_bytes(&bytes[..126]), Err(Refusal::InvalidHeader));
        bytes[97] = 5;
        assert_eq!(Header::try_from_bytes(&bytes), Err(Refusal::InvalidCompression));
        bytes[97] = 1;
        bytes[99] = 7;
        assert_eq!(Header::try_from_bytes(&bytes), Err(Refusal::InvalidTileType));
        bytes[2] = 0;
        assert_eq!(Header::try_from_bytes(&bytes), Err(Refusal::UnsupportedPmTilesVersion));
        bytes[0] = 0;
        assert_eq!(Header::try_from_bytes(&bytes), Err(Refusal::InvalidMagicNumber));
    }

    #[test]
    fn codes_by_name_and_by_number() {
        assert_eq!("png".parse(), Ok(TileType::Png));
        assert_eq!("6".parse(), Ok(TileType::Mlt));
        assert_eq!("7".parse::<TileType>(), Err(Refusal::InvalidTileType));
        assert_eq!("Png".parse::<TileType>(), Err(Refusal::InvalidTileType));
        assert_eq!("zstd".parse(), Ok(Compression::Zstd));
        assert_eq!("5".parse::<Compression>(), Err(Refusal::InvalidCompression));
        for code in 0..5 {
            assert_eq!(Compression::try_from(code).unwrap().code(), code);
        }
        for code in 0..7 {
            assert_eq!(TileType::try_from(code).unwrap().code(), code);
        }
    }
}
