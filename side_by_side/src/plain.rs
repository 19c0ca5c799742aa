//! The format's rules a second time, plainly: what must be answered, and for what must be refused which number, in which
//! order. Written from the rules alone, with exact sums and no thought of speed, and from neither side that it judges.
use linked::Row;

pub type Answer<T> = Result<T, u8>;

// ---- tile ids

pub const MAX_TILE_ID: u64 = 6_148_914_691_236_517_204;

fn base(z: u8) -> u64 {
    ((4u128.pow(z.into()) - 1) / 3) as u64
}

/// The ranks of the pairs (x, y), by x and then y.
const RANK: [[u64; 2]; 2] = [[0, 1], [3, 2]];

pub fn tile_id(z: u8, x: u32, y: u32) -> Answer<u64> {
    let (mut x, mut y) = (u64::from(x), u64::from(y));
    if z > 31 || x >= 1 << z || y >= 1 << z {
        return Err(6);
    }
    let mut index = 0;
    for bit in (0..z).rev() {
        let (bx, by) = (x >> bit & 1, y >> bit & 1);
        index = index * 4 + RANK[bx as usize][by as usize];
        if by == 0 {
            if bx == 1 {
                x ^= (1 << bit) - 1;
                y ^= (1 << bit) - 1;
            }
            (x, y) = (y, x);
        }
    }
    Ok(base(z) + index)
}

pub fn tile_coord(id: u64) -> Answer<(u8, u32, u32)> {
    if id > MAX_TILE_ID {
        return Err(7);
    }
    let z = (0..=31).rev().find(|&z| base(z) <= id).expect("the base of 0 is 0");
    let index = id - base(z);
    // what was done to the bits below, all pairs so far together: complement and swap commute
    let (mut complemented, mut swapped) = (false, false);
    let (mut x, mut y) = (0, 0);
    for bit in (0..z).rev() {
        let (bx, by) = [(0, 0), (0, 1), (1, 1), (1, 0)][(index >> (2 * bit) & 3) as usize];
        let (mut tx, mut ty) = if swapped { (by, bx) } else { (bx, by) };
        if complemented {
            (tx, ty) = (1 - tx, 1 - ty);
        }
        x |= tx << bit;
        y |= ty << bit;
        if by == 0 {
            complemented ^= bx == 1;
            swapped = !swapped;
        }
    }
    Ok((z, x, y))
}

// ---- the header

pub const HEADER: usize = 127;

/// Numbers: version; root, metadata, leaf and data offset and length; addressed tiles, entries, contents; clustered;
/// internal compression, tile compression, tile type; minimum, maximum and centre zoom. Degrees, as the bits of their
/// floats: minimum longitude and latitude, maximum longitude and latitude, centre longitude and latitude.
#[derive(Clone, Debug, PartialEq)]
pub struct Header {
    pub numbers: [u64; 19],
    pub degrees: [u64; 6],
}

/// Takes fields off the front of the bytes: 1 where one isn't whole.
struct Fields<'a>(&'a [u8]);

impl Fields<'_> {
    fn take<const N: usize>(&mut self) -> Answer<[u8; N]> {
        let (field, rest) = self.0.split_first_chunk().ok_or(1)?;
        self.0 = rest;
        Ok(*field)
    }

    fn byte(&mut self) -> Answer<u64> {
        Ok(self.take::<1>()?[0].into())
    }

    fn code(&mut self, largest: u64, refusal: u8) -> Answer<u64> {
        self.byte()
            .and_then(|code| if code > largest { Err(refusal) } else { Ok(code) })
    }

    fn degree(&mut self) -> Answer<u64> {
        Ok((f64::from(i32::from_le_bytes(self.take()?)) / 10_000_000.0).to_bits())
    }
}

pub fn header_read(bytes: &[u8]) -> Answer<Header> {
    let magic = bytes.get(..7).ok_or(1)?;
    if magic != b"PMTiles" {
        return Err(if magic.starts_with(b"PM") { 3 } else { 2 });
    }
    let mut f = Fields(&bytes[7..]);
    let mut h = Header {
        numbers: [0; 19],
        degrees: [0; 6],
    };
    h.numbers[0] = f.byte()?;
    for n in &mut h.numbers[1..12] {
        *n = u64::from_le_bytes(f.take()?);
    }
    h.numbers[12] = (f.byte()? == 1).into();
    h.numbers[13] = f.code(4, 4)?;
    h.numbers[14] = f.code(4, 4)?;
    h.numbers[15] = f.code(6, 5)?;
    h.numbers[16] = f.byte()?;
    h.numbers[17] = f.byte()?;
    for d in &mut h.degrees[..4] {
        *d = f.degree()?;
    }
    h.numbers[18] = f.byte()?;
    for d in &mut h.degrees[4..] {
        *d = f.degree()?;
    }
    Ok(h)
}

fn stored(degree: u64) -> i32 {
    let product = f64::from_bits(degree) * 10_000_000.0;
    if product.is_nan() {
        return 0;
    }
    // both differences are exact
    let below = product.trunc();
    let nearest = if (product - below).abs() < 0.5 {
        below
    } else {
        below + product.signum()
    };
    nearest.clamp(i32::MIN.into(), i32::MAX.into()) as i32
}

/// The 127 bytes of a header whose numbers fit their fields. `room` is the output's length.
pub fn header_write(h: &Header, room: usize) -> Answer<Vec<u8>> {
    let n = &h.numbers;
    if n[13] > 4 || n[14] > 4 {
        return Err(4);
    }
    if n[15] > 6 {
        return Err(5);
    }
    if room < HEADER {
        return Err(15);
    }
    let mut bytes = b"PMTiles".to_vec();
    bytes.push(n[0] as u8);
    for number in &n[1..12] {
        bytes.extend(number.to_le_bytes());
    }
    bytes.extend(n[12..18].iter().map(|&number| number as u8));
    for &degree in &h.degrees[..4] {
        bytes.extend(stored(degree).to_le_bytes());
    }
    bytes.push(n[18] as u8);
    for &degree in &h.degrees[4..] {
        bytes.extend(stored(degree).to_le_bytes());
    }
    Ok(bytes)
}

// ---- directories

pub const MOST_ENTRIES: u64 = 16_777_216;

/// A number's shortest varint.
pub fn put_varint(mut n: u64, bytes: &mut Vec<u8>) {
    while n > 127 {
        bytes.push(n as u8 | 128);
        n >>= 7;
    }
    bytes.push(n as u8);
}

pub struct Varints<'a> {
    bytes: &'a [u8],
    pub at: usize,
    /// Whether one so far was longer than its number needs.
    pub long: bool,
}

impl<'a> Varints<'a> {
    pub fn new(bytes: &'a [u8]) -> Self {
        Self {
            bytes,
            at: 0,
            long: false,
        }
    }

    /// `bytes` is how many there may be, `last` the largest that the last of these may be.
    fn read(&mut self, bytes: usize, last: u8) -> Answer<u64> {
        let mut number = 0;
        for i in 0..bytes {
            let byte = *self.bytes.get(self.at).ok_or(8)?;
            self.at += 1;
            if i == bytes - 1 && byte > last {
                return Err(9);
            }
            number |= u64::from(byte & 127) << (7 * i);
            if byte < 128 {
                self.long |= i > 0 && byte == 0;
                return Ok(number);
            }
        }
        unreachable!("the last byte is above its largest or ends the number")
    }

    pub fn wide(&mut self) -> Answer<u64> {
        self.read(10, 1)
    }

    fn narrow(&mut self) -> Answer<u32> {
        Ok(self.read(5, 15)? as u32)
    }
}

fn sum(a: u64, b: u64) -> Answer<u64> {
    a.checked_add(b).ok_or(11)
}

/// Checks 12, 13, 14 of an entry behind another.
fn check(&(id, run, length, _): &Row, before: Option<&Row>) -> Answer<()> {
    let end = |id: u64, run: u32| u128::from(id) + u128::from(run);
    if length == 0 {
        return Err(12);
    }
    if id > MAX_TILE_ID || end(id, run) > u128::from(MAX_TILE_ID) + 1 {
        return Err(13);
    }
    match before {
        Some(&(previous, run, ..)) if id <= previous || u128::from(id) < end(previous, run) => Err(14),
        _ => Ok(()),
    }
}

fn before(rows: &[Row], i: usize) -> Option<&Row> {
    i.checked_sub(1).map(|i| &rows[i])
}

/// The entries; the cursor stands behind them. `room` is the length of the shortest store, if there are stores.
pub fn directory_read(v: &mut Varints, room: Option<usize>) -> Answer<Vec<Row>> {
    let count = v.wide()?;
    if count > MOST_ENTRIES {
        return Err(19);
    }
    if room.is_some_and(|room| count > room as u64) {
        return Err(15);
    }
    let mut rows: Vec<Row> = Vec::new();
    let mut id = 0;
    for _ in 0..count {
        id = sum(id, v.wide()?)?;
        rows.push((id, 0, 0, 0));
    }
    for row in &mut rows {
        row.1 = v.narrow()?;
    }
    for row in &mut rows {
        row.2 = v.narrow()?;
    }
    for i in 0..rows.len() {
        rows[i].3 = match (v.wide()?, before(&rows, i)) {
            (0, None) => return Err(10),
            (0, Some(&(.., length, offset))) => sum(offset, length.into())?,
            (code, _) => code - 1,
        };
    }
    for (i, row) in rows.iter().enumerate() {
        check(row, before(&rows, i))?;
    }
    Ok(rows)
}

/// The offset code of an entry: 0 where it starts at the exact end of the one before, else its offset and 1.
fn code(row: &Row, before: Option<&Row>) -> u128 {
    let end = before.map(|b| u128::from(b.3) + u128::from(b.2));
    if end == Some(row.3.into()) {
        0
    } else {
        u128::from(row.3) + 1
    }
}

/// The bytes of entries that pass the checks.
pub fn encoded(rows: &[Row]) -> Vec<u8> {
    let mut bytes = vec![];
    put_varint(rows.len() as u64, &mut bytes);
    for (i, row) in rows.iter().enumerate() {
        put_varint(row.0 - before(rows, i).map_or(0, |b| b.0), &mut bytes);
    }
    for row in rows {
        put_varint(row.1.into(), &mut bytes);
    }
    for row in rows {
        put_varint(row.2.into(), &mut bytes);
    }
    for (i, row) in rows.iter().enumerate() {
        put_varint(code(row, before(rows, i)) as u64, &mut bytes);
    }
    bytes
}

/// A count of entries, and the shortest store's length.
fn counted(count: usize, store: usize) -> Answer<()> {
    if count as u64 > MOST_ENTRIES {
        return Err(19);
    }
    if store < count {
        return Err(15);
    }
    Ok(())
}

/// A directory's bytes, up to the test of the output's length. `rows` are as many as the shortest store has.
pub fn directory_encode(rows: &[Row], count: usize) -> Answer<Vec<u8>> {
    counted(count, rows.len())?;
    let rows = &rows[..count];
    for (i, row) in rows.iter().enumerate() {
        check(row, before(rows, i))?;
        if code(row, before(rows, i)) > u64::MAX.into() {
            return Err(11);
        }
    }
    Ok(encoded(rows))
}

pub fn directory_write(rows: &[Row], count: usize, room: usize) -> Answer<Vec<u8>> {
    let bytes = directory_encode(rows, count)?;
    if bytes.len() > room {
        return Err(15);
    }
    Ok(bytes)
}

/// The entry that a search in entries that pass the checks ends with.
fn search(rows: &[Row], target: u64) -> Option<Row> {
    let &row = rows.iter().rev().find(|row| row.0 <= target)?;
    (row.1 == 0 || target - row.0 < row.1.into()).then_some(row)
}

/// A search in a directory's bytes.
pub fn directory_find(v: &mut Varints, target: u64) -> Answer<Option<Row>> {
    if target > MAX_TILE_ID {
        return Err(7);
    }
    Ok(search(&directory_read(v, None)?, target))
}

// ---- lookup

/// A section of an archive: where it starts, and its length.
struct Section(u64, u64);

/// What of a section lies at an offset: its place in the archive, if it lies in both.
fn range(archive: &[u8], section: Section, offset: u64, length: u64) -> Answer<std::ops::Range<usize>> {
    let in_section = u128::from(offset) + u128::from(length);
    let end = u128::from(section.0) + in_section;
    if in_section > section.1.into() || end > archive.len() as u128 {
        return Err(17);
    }
    let start = (section.0 + offset) as usize;
    Ok(start..start + length as usize)
}

/// What a lookup ends with: start and length, or none.
pub type Place = Option<(u64, u64)>;

pub struct Looked {
    pub answer: Answer<Place>,
    /// Whether a varint on the way was longer than its number needs.
    pub long: bool,
}

pub fn lookup(archive: &[u8], id: u64) -> Looked {
    let mut long = false;
    let answer = descend(archive, id, &mut long);
    Looked { answer, long }
}

fn descend(archive: &[u8], id: u64, long: &mut bool) -> Answer<Place> {
    if id > MAX_TILE_ID {
        return Err(7);
    }
    let n = header_read(archive)?.numbers;
    if n[13] != 1 {
        return Err(16);
    }
    let whole = Section(0, archive.len() as u64);
    let mut directory = range(archive, whole, n[1], n[2])?;
    for depth in 1.. {
        let mut v = Varints::new(&archive[directory]);
        let found = directory_find(&mut v, id);
        *long |= v.long;
        let Some((_, run, length, offset)) = found? else {
            return Ok(None);
        };
        if run > 0 {
            let tile = range(archive, Section(n[7], n[8]), offset, length.into())?;
            return Ok(Some((tile.start as u64, tile.len() as u64)));
        }
        if depth == 4 {
            return Err(18);
        }
        directory = range(archive, Section(n[5], n[6]), offset, length.into())?;
    }
    unreachable!("a fifth directory is refused")
}

pub fn lookup_coord(archive: &[u8], z: u8, x: u32, y: u32) -> Looked {
    match tile_id(z, x, y) {
        Ok(id) => lookup(archive, id),
        Err(refusal) => Looked {
            answer: Err(refusal),
            long: false,
        },
    }
}

// ---- building

pub const ROOT_ROOM: usize = 16_257;

#[derive(Debug, PartialEq)]
pub struct Built {
    pub root: Vec<u8>,
    pub leaves: Vec<u8>,
    pub entries: u64,
    pub addressed: u64,
}

/// Root and leaves, up to the test of the buffers' lengths. `rows` are as many as the shortest store has.
pub fn build(rows: &[Row], count: usize, data_length: u64) -> Answer<Built> {
    counted(count, rows.len())?;
    let rows = &rows[..count];
    for (i, row) in rows.iter().enumerate() {
        if row.1 == 0 {
            return Err(12);
        }
        check(row, before(rows, i))?;
        if u128::from(row.3) + u128::from(row.2) > data_length.into() {
            return Err(17);
        }
    }
    let (root, leaves) = directories(rows);
    Ok(Built {
        root,
        leaves,
        entries: count as u64,
        addressed: rows.iter().map(|row| u64::from(row.1)).sum(),
    })
}

fn directories(rows: &[Row]) -> (Vec<u8>, Vec<u8>) {
    if rows.len() < 16_384 {
        let root = encoded(rows);
        if root.len() <= ROOT_ROOM {
            return (root, vec![]);
        }
    }
    let mut leaf_size = (rows.len() / 3500).max(4096);
    loop {
        let (mut pointers, mut leaves) = (vec![], vec![]);
        for leaf in rows.chunks(leaf_size) {
            let bytes = encoded(leaf);
            pointers.push((leaf[0].0, 0, bytes.len() as u32, leaves.len() as u64));
            leaves.extend(bytes);
        }
        let root = encoded(&pointers);
        if root.len() <= ROOT_ROOM {
            return (root, leaves);
        }
        leaf_size += leaf_size / 5;
    }
}

/// The test of the buffers' lengths.
pub fn fitted(built: Built, root: usize, leaves: usize) -> Answer<Built> {
    if built.root.len() > root || built.leaves.len() > leaves {
        return Err(15);
    }
    Ok(built)
}

// ---- publication

/// What the header and the root may take of the archive.
pub const RESERVED: usize = 16_384;

#[derive(Clone, Debug)]
pub struct Settings {
    pub tile_compression: u64,
    pub tile_type: u64,
    /// Minimum, maximum, centre.
    pub zooms: [u64; 3],
    pub degrees: [u64; 6],
    pub entries: u64,
    pub addressed: u64,
}

#[derive(Clone, Debug)]
pub struct Parts {
    pub root: Vec<u8>,
    pub metadata: Vec<u8>,
    pub data: Vec<u8>,
    pub leaves: Vec<u8>,
}

/// How many stores there are for sections of these lengths: root, metadata, data, leaves.
pub fn total(lengths: [u64; 4]) -> Answer<u64> {
    let sum = lengths.into_iter().map(u128::from).sum::<u128>();
    let total = u64::try_from(16_511 + sum).map_err(|_| 11)?;
    if lengths[0] > ROOT_ROOM as u64 {
        return Err(17);
    }
    Ok(total)
}

/// The header that is published.
pub fn published(s: &Settings, parts: &Parts) -> Header {
    let [r, m, d, l] = parts.lengths();
    let metadata = RESERVED as u64;
    let leaves = if l == 0 { 0 } else { metadata + m + d };
    let sections = [HEADER as u64, r, metadata, m, leaves, l, metadata + m, d];
    let mut numbers = [0; 19];
    numbers[0] = 3;
    numbers[1..9].copy_from_slice(&sections);
    numbers[9] = s.addressed;
    numbers[10] = s.entries;
    numbers[12] = 1;
    numbers[13] = 1;
    numbers[14] = s.tile_compression;
    numbers[15] = s.tile_type;
    numbers[16..19].copy_from_slice(&s.zooms);
    Header {
        numbers,
        degrees: s.degrees,
    }
}

impl Parts {
    pub fn lengths(&self) -> [u64; 4] {
        [&self.root, &self.metadata, &self.data, &self.leaves].map(|part| part.len() as u64)
    }

    /// How long the archive is.
    pub fn archive(&self) -> usize {
        RESERVED + self.metadata.len() + self.data.len() + self.leaves.len()
    }
}

/// Every store, in order: where, and which byte.
fn plan(header: &[u8], parts: &Parts) -> Vec<(usize, u8)> {
    let mut stores: Vec<(usize, u8)> = (0..RESERVED).map(|at| (at, 0)).collect();
    let behind = parts.metadata.iter().chain(&parts.data).chain(&parts.leaves);
    stores.extend((RESERVED..).zip(behind.copied()));
    stores.extend((HEADER..).zip(parts.root.iter().copied()));
    stores.extend((1..).zip(header[1..].iter().copied()));
    stores.push((0, header[0]));
    stores
}

/// The stores that one call makes, and the new position. `room` is the destination's length.
pub fn publish(
    settings: &Settings,
    parts: &Parts,
    room: usize,
    position: u64,
    budget: u64,
) -> Answer<(Vec<(usize, u8)>, u64)> {
    // 4 and 5 come before all
    let header = header_write(&published(settings, parts), HEADER)?;
    let total = total(parts.lengths())?;
    if room < parts.archive() {
        return Err(15);
    }
    if position > total {
        return Err(17);
    }
    let next = total.min(position.saturating_add(budget));
    let stores = plan(&header, parts)[position as usize..next as usize].to_vec();
    Ok((stores, next))
}
