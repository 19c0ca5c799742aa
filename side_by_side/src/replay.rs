//! The list that crates/replay replays: inputs in the domain, and what the Rust answers to each.
use crate::area::outside_by;
use crate::directories::some_bytes;
use crate::headers;
use crate::lookups;
use crate::make::Make;
use crate::plain::{self, Varints, put_varint};
use crate::rust::{Rust, may_read, rust};
use bytes::Bytes;
use linked::Row;
use pmtiles::{Directory, PmtResult, TileCoord, TileId};
use std::path::Path;

/// How much the program has room for: the list, and the entries of a directory.
const LIST: usize = 262_144;
const ENTRIES: usize = 64;

#[derive(Default)]
struct List {
    inputs: Vec<u8>,
    answers: String,
    lines: usize,
}

impl List {
    /// An input of a kind, if the Rust answers it or refuses it by a reason that has a number.
    fn add(&mut self, kind: u8, input: &[u8], call: impl FnOnce() -> PmtResult<String>) {
        let line = match rust(call) {
            Rust::Gave(line) => line,
            Rust::Refused(number) => format!("refused {number}"),
            _ => return,
        };
        self.inputs.push(kind);
        self.inputs.extend((input.len() as u16).to_le_bytes());
        self.inputs.extend(input);
        self.answers += &line;
        self.answers.push('\n');
        self.lines += 1;
    }

    /// Inputs of one kind until there are so many more lines.
    fn until(&mut self, more: usize, mut add: impl FnMut(&mut Self)) {
        let end = self.lines + more;
        while self.lines < end {
            add(self);
        }
    }
}

fn digits(bytes: &[u8]) -> String {
    bytes.iter().map(|b| format!("{b:02x}")).collect()
}

fn entries(rows: &[Row]) -> String {
    rows.iter()
        .map(|(id, run, length, offset)| format!(" {id} {run} {length} {offset},"))
        .collect()
}

fn absent() -> String {
    "absent".into()
}

/// An id in ten bytes, and what it is looked for in.
fn sought(id: u64, place: &[u8]) -> Vec<u8> {
    let mut input = vec![];
    put_varint(id, &mut input);
    input.resize(10, 0);
    input.extend(place);
    input
}

fn id(list: &mut List, z: u8, x: u32, y: u32) {
    let mut input = vec![z];
    put_varint(x.into(), &mut input);
    put_varint(y.into(), &mut input);
    list.add(b'i', &input, || {
        Ok(format!(" {}", TileId::from(TileCoord::new(z, x, y)?).value()))
    });
}

fn coord(list: &mut List, id: u64) {
    let mut input = vec![];
    put_varint(id, &mut input);
    list.add(b'c', &input, || {
        let c = TileCoord::from(TileId::new(id)?);
        Ok(format!(" {} {} {}", c.z(), c.x(), c.y()))
    });
}

fn header(list: &mut List, bytes: &[u8]) {
    list.add(b'h', bytes, || {
        let header = pmtiles::Header::try_from_bytes(Bytes::copy_from_slice(bytes))?;
        Ok(digits(&pmtiles::write_header(&pmtiles::header_fields(&header))?))
    });
}

fn directory(list: &mut List, bytes: &[u8]) {
    let mut v = Varints::new(bytes);
    let plain = plain::directory_read(&mut v, Some(ENTRIES));
    if outside_by(&plain, v.long).is_some() || !may_read(bytes) {
        return;
    }
    list.add(b'd', bytes, || {
        let rows = pmtiles::read_directory(bytes)?;
        Ok(format!(
            "{} {}",
            entries(&rows),
            digits(&pmtiles::write_directory(rows)?)
        ))
    });
}

fn find(list: &mut List, bytes: &[u8], id: u64) {
    let mut v = Varints::new(bytes);
    if outside_by(&plain::directory_find(&mut v, id), v.long).is_some() || !may_read(bytes) {
        return;
    }
    list.add(b'f', &sought(id, bytes), || {
        let id = TileId::new(id)?;
        let directory = Directory::try_from(Bytes::copy_from_slice(bytes))?;
        Ok(directory
            .find_tile_id(id)
            .map_or_else(absent, |e| entries(&[pmtiles::row(e)])))
    });
}

fn lookup(list: &mut List, archive: &[u8], id: u64) {
    let looked = plain::lookup(archive, id);
    if archive.len() < plain::HEADER || outside_by(&looked.answer, looked.long).is_some() {
        return;
    }
    list.add(b'l', &sought(id, archive), || {
        let place = lookups::looked_up(archive, TileId::new(id)?)?;
        Ok(place.map_or_else(absent, |(start, length)| format!(" {start} {length}")))
    });
}

pub fn write(folder: &Path) -> std::io::Result<()> {
    let mut list = List::default();
    let make = &mut Make::new(1);
    for z in 0..4 {
        (0..=1 << z).for_each(|x| (0..=1 << z).for_each(|y| id(&mut list, z, x, y)));
    }
    list.until(800, |list| {
        let z = make.below(33) as u8;
        let side = (1 << z) + u64::from(make.one_in(20));
        let [x, y] = [0; 2].map(|_| make.below(side) as u32);
        id(list, z, x, y);
    });
    (0..85).for_each(|id| coord(&mut list, id));
    list.until(700, |list| {
        coord(
            list,
            if make.one_in(2) {
                make.number()
            } else {
                make.below(plain::MAX_TILE_ID)
            },
        )
    });
    list.until(200, |list| header(list, &headers::some_bytes(make)));
    list.until(800, |list| directory(list, &some_bytes(make)));
    list.until(800, |list| {
        let bytes = some_bytes(make);
        let rows = plain::directory_read(&mut Varints::new(&bytes), None).unwrap_or_default();
        if rows.len() < 20 {
            for row in &rows {
                find(
                    list,
                    &bytes,
                    (row.0 + u64::from(row.1) + make.below(2)).saturating_sub(1),
                );
            }
            find(list, &bytes, make.number());
        }
    });
    list.until(400, |list| {
        let (archive, ids) = lookups::archive(make);
        if archive.len() < 300 {
            for _ in 0..2 {
                lookup(list, &archive, make.pick(&ids).saturating_add(make.below(2)));
            }
        }
    });
    assert!(
        list.inputs.len() <= LIST,
        "the program has no room for {} bytes",
        list.inputs.len()
    );
    std::fs::write(folder.join("stdin"), &list.inputs)?;
    std::fs::write(folder.join("stdout"), &list.answers)?;
    println!("{} answers, {} bytes of inputs", list.lines, list.inputs.len());
    Ok(())
}
