//! Inputs: random ones, ones about the numbers where a rule turns, and damaged copies of good ones.
use crate::plain;
use linked::{Random, Row};

pub struct Make(Random);

/// Numbers where a rule turns.
pub const EDGES: [u64; 24] = [
    0,
    1,
    2,
    15,
    127,
    128,
    4_095,
    4_096,
    16_256,
    16_257,
    16_258,
    16_383,
    16_384,
    plain::MOST_ENTRIES - 1,
    plain::MOST_ENTRIES,
    plain::MOST_ENTRIES + 1,
    u32::MAX as u64 - 1,
    u32::MAX as u64,
    u32::MAX as u64 + 1,
    plain::MAX_TILE_ID - 1,
    plain::MAX_TILE_ID,
    plain::MAX_TILE_ID + 1,
    u64::MAX - 1,
    u64::MAX,
];

/// How a list of entries is made.
#[derive(Clone, Copy)]
pub struct Style {
    pub pointers: bool,
    /// Bits that an offset may have.
    pub offset_bits: u32,
}

impl Make {
    pub fn new(seed: u64) -> Self {
        Self(Random::new(seed))
    }

    pub fn below(&mut self, n: u64) -> u64 {
        self.0.below(n)
    }

    pub fn one_in(&mut self, n: u64) -> bool {
        self.below(n) == 0
    }

    pub fn pick<T: Copy>(&mut self, list: &[T]) -> T {
        list[self.below(list.len() as u64) as usize]
    }

    /// Of any length in bits, or about an edge.
    pub fn number(&mut self) -> u64 {
        if self.one_in(3) {
            return self.pick(&EDGES);
        }
        self.bits(64)
    }

    /// Of at most so many bits, each length as likely.
    pub fn bits(&mut self, most: u32) -> u64 {
        let bits = self.below(u64::from(most) + 1) as u32;
        self.0.number() & 1u64.checked_shl(bits).map_or(u64::MAX, |power| power - 1)
    }

    /// Entries that pass the checks: runs and gaps, contents end to end, shared, unordered; at times up to the last id.
    pub fn rows(&mut self, n: usize, style: Style) -> Vec<Row> {
        let room = 61 - (n as u64 + 1).ilog2();
        let run_bits = self
            .below(u64::from(room.min(32)) + 1)
            .min(if self.one_in(8) { 32 } else { 10 }) as u32;
        let gap_bits = self.below(u64::from(room)) as u32;
        let length_bits = self.pick(&[1, 3, 8, 20, 32]);
        let loose = self.pick(&[2, 5, 50]);
        let (mut id, mut end) = (0u64, 0u64);
        let mut rows: Vec<Row> = Vec::with_capacity(n);
        for _ in 0..n {
            if !self.one_in(3) {
                id += self.bits(gap_bits);
            }
            let run = if style.pointers && self.one_in(4) {
                0
            } else {
                1 + self.bits(run_bits).min(u64::from(u32::MAX) - 1) as u32
            };
            let mut length = self.bits(length_bits).clamp(1, u32::MAX.into()) as u32;
            let mut offset = end;
            if self.one_in(loose) {
                offset = self.bits(style.offset_bits);
            } else if self.one_in(loose) && !rows.is_empty() {
                (_, _, length, offset) = rows[self.below(rows.len() as u64) as usize];
            }
            // code 0 alone can carry the largest offset
            if offset == u64::MAX && offset != end {
                offset -= 1;
            }
            rows.push((id, run, length, offset));
            end = offset.checked_add(length.into()).unwrap_or(0);
            if style.offset_bits < 64 && end >> style.offset_bits != 0 {
                end = 0;
            }
            id += u64::from(run.max(1));
        }
        let last = rows.last().map_or(0, |r| r.0 + u64::from(r.1.max(1)) - 1);
        let spare = plain::MAX_TILE_ID - last;
        let shift = match self.below(4) {
            0 => spare,
            1 => self.below(spare + 1),
            _ => 0,
        };
        for row in &mut rows {
            row.0 += shift;
        }
        rows
    }

    /// One number of one entry changed, or two entries exchanged.
    pub fn spoil(&mut self, rows: &mut [Row]) {
        if rows.is_empty() {
            return;
        }
        let n = rows.len() as u64;
        let i = self.below(n) as usize;
        let number = self.number();
        match self.below(6) {
            0 => rows[i].0 = number,
            1 => rows[i].0 = rows[i].0.wrapping_add(number % 5).wrapping_sub(2),
            2 => rows[i].1 = number as u32,
            3 => rows[i].2 = self.pick(&[0, 0, number as u32]),
            4 => rows[i].3 = number,
            _ => rows.swap(i, self.below(n) as usize),
        }
    }

    /// A few bytes changed, lost or put in.
    pub fn damage(&mut self, bytes: &mut Vec<u8>) {
        for _ in 0..=self.below(3) {
            let n = bytes.len() as u64;
            let at = self.below(n + 1) as usize;
            let byte = self.pick(&[0, 1, 2, 0x7F, 0x80, 0x81, 0xFF]);
            match self.below(7) {
                0 => bytes.truncate(at),
                1 => bytes.insert(at, byte),
                _ if at == bytes.len() => bytes.push(byte),
                2 => drop(bytes.remove(at)),
                3 => bytes[at] = byte,
                4 => bytes[at] ^= 1 << self.below(8),
                5 => bytes[at] = self.below(256) as u8,
                // a varint made longer than it need be
                _ => {
                    if bytes[at] < 128 {
                        bytes[at] |= 128;
                        bytes.insert(at + 1, 0);
                    }
                }
            }
        }
    }
}

/// Every one entry, and every two, of numbers where a rule turns.
pub fn edges(mut feed: impl FnMut(&[Row])) {
    let mut rows = vec![];
    for id in [0, 1, 2, plain::MAX_TILE_ID, plain::MAX_TILE_ID + 1, u64::MAX] {
        for run in [0, 1, 2, u32::MAX] {
            for length in [0, 1, u32::MAX] {
                for offset in [0, 1, u64::MAX - 1, u64::MAX] {
                    rows.push((id, run, length, offset));
                }
            }
        }
    }
    rows.iter().for_each(|&a| feed(&[a]));
    rows.iter().for_each(|&a| rows.iter().for_each(|&b| feed(&[a, b])));
}

/// A directory's bytes from entries that need not pass any check: sums wrap.
pub fn bytes(rows: &[Row]) -> Vec<u8> {
    let mut bytes = vec![];
    let mut columns = vec![rows.len() as u64];
    let mut id = 0;
    for row in rows {
        columns.push(row.0.wrapping_sub(id));
        id = row.0;
    }
    columns.extend(rows.iter().map(|row| u64::from(row.1)));
    columns.extend(rows.iter().map(|row| u64::from(row.2)));
    let mut end = None;
    for row in rows {
        let code = row.3.wrapping_add(1);
        columns.push(if end == Some(row.3) { 0 } else { code });
        end = Some(row.3.wrapping_add(row.2.into()));
    }
    for number in columns {
        plain::put_varint(number, &mut bytes);
    }
    bytes
}
