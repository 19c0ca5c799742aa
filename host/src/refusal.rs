//! Why the library refuses, and what else can go wrong here.
use std::{fmt, io};

macro_rules! refusals {
    ($($number:literal $name:ident $words:literal,)*) => {
        /// Why the library gives no answer. The number is the library's status.
        #[derive(Clone, Copy, Debug, PartialEq, Eq, Hash)]
        #[repr(u8)]
        pub enum Refusal {
            $(#[doc = $words] $name = $number,)*
        }

        impl Refusal {
            /// Every refusal, by number.
            pub const ALL: &'static [Refusal] = &[$(Refusal::$name,)*];

            /// The reason in one word.
            #[must_use]
            pub fn reason(self) -> &'static str {
                match self {
                    $(Refusal::$name => stringify!($name),)*
                }
            }

            /// The reason in a few words.
            #[must_use]
            pub fn words(self) -> &'static str {
                match self {
                    $(Refusal::$name => $words,)*
                }
            }
        }
    };
}

refusals! {
    1 InvalidHeader "the header is not whole",
    2 InvalidMagicNumber "the bytes do not start with PMTiles",
    3 UnsupportedPmTilesVersion "an archive of an older version",
    4 InvalidCompression "no such compression",
    5 InvalidTileType "no such tile type",
    6 InvalidCoordinate "no such tile: zoom is 0 to 31, x and y below 2^zoom",
    7 InvalidTileId "no such tile: an id is 0 to 6148914691236517204",
    8 VarintCutOff "a directory ends within a number",
    9 VarintTooLarge "a number does not fit its field",
    10 InvalidEntry "a directory's first entry follows on none",
    11 SumTooLarge "a sum does not fit 64 bits",
    12 EmptyEntry "an entry of no bytes or of no tiles",
    13 EntryIdTooLarge "an entry reaches past the last tile",
    14 EntriesOutOfOrder "entries that are not in the order of their ids",
    15 RoomTooShort "the room lent is too short",
    16 CompressedDirectories "the directories are compressed",
    17 RangeOutside "contents lie outside their section",
    18 TooDeep "more than four directories deep",
    19 TooManyEntries "more than 16777216 entries",
}

impl Refusal {
    /// The number, 1 to 19.
    ///
    /// ```
    /// # use oletami::{Refusal, TileCoord};
    /// let refusal = TileCoord::new(2, 4, 0).unwrap_err();
    /// assert_eq!((refusal.number(), refusal.reason()), (6, "InvalidCoordinate"));
    /// ```
    #[must_use]
    pub fn number(self) -> u8 {
        self as u8
    }

    fn of(status: u8) -> Self {
        let at = usize::from(status).wrapping_sub(1);
        *Self::ALL
            .get(at)
            .unwrap_or_else(|| panic!("the library answers {status}, which is no status"))
    }
}

impl fmt::Display for Refusal {
    fn fmt(&self, f: &mut fmt::Formatter<'_>) -> fmt::Result {
        write!(f, "refused {} {} ({})", self.number(), self.reason(), self.words())
    }
}

impl std::error::Error for Refusal {}

/// A status as a result.
pub(crate) fn done(status: u8) -> Result<(), Refusal> {
    match status {
        0 => Ok(()),
        _ => Err(Refusal::of(status)),
    }
}

/// The status of a search, which may end with nothing.
pub(crate) fn found(status: u8) -> Result<bool, Refusal> {
    match status {
        linked::ABSENT => Ok(false),
        _ => done(status).map(|()| true),
    }
}

/// A refusal, or a file that could not be read or written.
#[derive(Debug)]
pub enum Error {
    Refused(Refusal),
    Io(io::Error),
}

impl fmt::Display for Error {
    fn fmt(&self, f: &mut fmt::Formatter<'_>) -> fmt::Result {
        match self {
            Error::Refused(refusal) => refusal.fmt(f),
            Error::Io(error) => error.fmt(f),
        }
    }
}

impl std::error::Error for Error {}

impl From<Refusal> for Error {
    fn from(refusal: Refusal) -> Self {
        Error::Refused(refusal)
    }
}

impl From<io::Error> for Error {
    fn from(error: io::Error) -> Self {
        Error::Io(error)
    }
}

#[cfg(test)]
mod tests {
    use super::*;

    #[test]
    fn each_number_names_its_refusal() {
        assert_eq!(Refusal::ALL.len(), 19);
        for (at, &refusal) in Refusal::ALL.iter().enumerate() {
            assert_eq!(usize::from(refusal.number()), at + 1);
            assert_eq!(done(refusal.number()), Err(refusal));
            assert_eq!(found(refusal.number()), Err(refusal));
        }
        assert_eq!(found(linked::ABSENT), Ok(false));
        assert_eq!(found(0), Ok(true));
    }

    #[test]
    fn a_refusal_says_number_and_reason() {
        assert_eq!(
            Refusal::InvalidMagicNumber.to_string(),
            "refused 2 InvalidMagicNumber (the bytes do not start with PMTiles)"
        );
    }

    #[test]
    #[should_panic(expected = "which is no status")]
    fn an_unknown_status_is_not_passed_off_as_an_answer() {
        let _ = done(200);
    }
}
