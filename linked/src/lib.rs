//! The proved library's functions, for the host, for what compares it with the Rust and what times both. Each answers a
//! status: 0 for done or found, 255 for absent, else a refusal's number.
mod random;

pub use random::Random;

pub const ABSENT: u8 = 255;

/// Id, run, length and offset.
pub type Row = (u64, u32, u32, u64);

/// Four lent stores, which need not be equally long.
#[derive(Clone, Debug, PartialEq)]
pub struct Stores {
    pub ids: Vec<u64>,
    pub runs: Vec<u32>,
    pub lengths: Vec<u32>,
    pub offsets: Vec<u64>,
}

impl Stores {
    pub fn new(n: usize) -> Self {
        Self {
            ids: vec![0; n],
            runs: vec![0; n],
            lengths: vec![0; n],
            offsets: vec![0; n],
        }
    }

    pub fn from_rows(rows: &[Row]) -> Self {
        Self {
            ids: rows.iter().map(|r| r.0).collect(),
            runs: rows.iter().map(|r| r.1).collect(),
            lengths: rows.iter().map(|r| r.2).collect(),
            offsets: rows.iter().map(|r| r.3).collect(),
        }
    }

    pub fn push(&mut self, (id, run, length, offset): Row) {
        self.ids.push(id);
        self.runs.push(run);
        self.lengths.push(length);
        self.offsets.push(offset);
    }

    pub fn row(&self, i: usize) -> Row {
        (self.ids[i], self.runs[i], self.lengths[i], self.offsets[i])
    }
}

/// Declares a library function and the safe one that calls it. A slice passes as a pointer and a length, `stores` as four
/// slices.
macro_rules! export {
    ($(#[$doc:meta])* $name:ident as $symbol:ident: $($args:tt)*) => {
        export!(@take [$(#[$doc])*] $name $symbol [] [] [] $($args)*);
    };
    (@take $doc:tt $name:ident $symbol:ident [$($safe:tt)*] [$($raw:tt)*] [$($pass:tt)*] $arg:ident: &mut [$of:ty], $($rest:tt)*) => {
        export!(@take $doc $name $symbol [$($safe)* $arg: &mut [$of],]
            [$($raw)* *mut $of, usize,]
            [$($pass)* $arg.as_mut_ptr(), $arg.len(),] $($rest)*);
    };
    (@take $doc:tt $name:ident $symbol:ident [$($safe:tt)*] [$($raw:tt)*] [$($pass:tt)*] $arg:ident: &[$of:ty], $($rest:tt)*) => {
        export!(@take $doc $name $symbol [$($safe)* $arg: &[$of],]
            [$($raw)* *const $of, usize,]
            [$($pass)* $arg.as_ptr(), $arg.len(),] $($rest)*);
    };
    (@take $doc:tt $name:ident $symbol:ident [$($safe:tt)*] [$($raw:tt)*] [$($pass:tt)*] $arg:ident: &mut Stores, $($rest:tt)*) => {
        export!(@take $doc $name $symbol [$($safe)* $arg: &mut Stores,]
            [$($raw)* *mut u64, usize, *mut u32, usize, *mut u32, usize, *mut u64, usize,]
            [$($pass)* $arg.ids.as_mut_ptr(), $arg.ids.len(), $arg.runs.as_mut_ptr(), $arg.runs.len(),
                $arg.lengths.as_mut_ptr(), $arg.lengths.len(), $arg.offsets.as_mut_ptr(), $arg.offsets.len(),] $($rest)*);
    };
    (@take $doc:tt $name:ident $symbol:ident [$($safe:tt)*] [$($raw:tt)*] [$($pass:tt)*] $arg:ident: &Stores, $($rest:tt)*) => {
        export!(@take $doc $name $symbol [$($safe)* $arg: &Stores,]
            [$($raw)* *const u64, usize, *const u32, usize, *const u32, usize, *const u64, usize,]
            [$($pass)* $arg.ids.as_ptr(), $arg.ids.len(), $arg.runs.as_ptr(), $arg.runs.len(),
                $arg.lengths.as_ptr(), $arg.lengths.len(), $arg.offsets.as_ptr(), $arg.offsets.len(),] $($rest)*);
    };
    (@take $doc:tt $name:ident $symbol:ident [$($safe:tt)*] [$($raw:tt)*] [$($pass:tt)*] $arg:ident: $of:ty, $($rest:tt)*) => {
        export!(@take $doc $name $symbol [$($safe)* $arg: $of,] [$($raw)* $of,] [$($pass)* $arg,] $($rest)*);
    };
    (@take [$(#[$doc:meta])*] $name:ident $symbol:ident [$($safe:tt)*] [$($raw:tt)*] [$($pass:tt)*]) => {
        $(#[$doc])*
        #[inline]
        #[allow(clippy::too_many_arguments)]
        pub fn $name($($safe)*) -> u8 {
            export!(@declare $symbol [$($raw)*]);
            // the library reads and writes what it is lent and nothing else
            unsafe { $symbol($($pass)*) }
        }
    };
    (@declare $symbol:ident [$($raw:ty,)*]) => {
        unsafe extern "C" {
            fn $symbol($(_: $raw),*) -> u8;
        }
    };
}

export! {
    /// out: the id.
    tile_id as pmt_tile_id: z: u8, x: u32, y: u32, out: &mut [u64],
}
export! {
    /// out: zoom, x, y.
    tile_coord as pmt_tile_coord: id: u64, out: &mut [u64],
}
export! {
    /// out: entries, bytes read.
    directory_read as pmt_directory_read: bytes: &[u8], stores: &mut Stores, out: &mut [u64],
}
export! {
    /// out: id, run, length, offset.
    directory_find as pmt_directory_find: bytes: &[u8], id: u64, out: &mut [u64],
}
export! {
    /// out: bytes that the directory has.
    encoded_len as pmt_encoded_len: count: usize, stores: &Stores, out: &mut [u64],
}
export! {
    /// out: bytes written.
    directory_write as pmt_directory_write: count: usize, stores: &Stores, bytes: &mut [u8], out: &mut [u64],
}
export! {
    /// out: bytes of the root, of the leaves.
    build_sizes as pmt_build_sizes: count: usize, stores: &Stores, data_length: u64, out: &mut [u64],
}
export! {
    /// out: bytes of the root, of the leaves, entries, addressed tiles.
    build as pmt_build:
        count: usize, stores: &Stores, data_length: u64, root: &mut [u8], leaves: &mut [u8], out: &mut [u64],
}
export! {
    /// out: start and length.
    lookup as pmt_lookup: archive: &[u8], id: u64, out: &mut [u64],
}
export! {
    /// out: start and length.
    lookup_coord as pmt_lookup_coord: archive: &[u8], z: u8, x: u32, y: u32, out: &mut [u64],
}
export! {
    /// numbers: the 19 of the header in the order of its fields. degrees: the six.
    header_read as pmt_header_read: bytes: &[u8], numbers: &mut [u64], degrees: &mut [f64],
}
export! {
    header_write as pmt_header_write: numbers: &[u64], degrees: &[f64], bytes: &mut [u8],
}
export! {
    /// out: how many stores there are for sections of these lengths.
    total as pmt_total: root: u64, metadata: u64, tiles: u64, leaves: u64, out: &mut [u64],
}
export! {
    /// settings: tile compression, tile type, minimum, maximum and centre zoom. counts: entries, addressed tiles. out: the
    /// new position.
    publish as pmt_publish:
        settings: &[u64], degrees: &[f64], counts: &[u64], root: &[u8], metadata: &[u8], tiles: &[u8], leaves: &[u8],
        destination: &mut [u8], position: u64, budget: u64, out: &mut [u64],
}
