//! Directories read into stores, and searched in their bytes.
use crate::area::{Area, Case, Outcome, hex, judged, less, outside_by, smaller_bytes};
use crate::lent::{Lent, status, stores, stores_after};
use crate::make::{self, Make, Style, edges};
use crate::plain::{self, Varints};
use crate::rust::{Rust, may_read, rust};
use bytes::Bytes;
use pmtiles::{Directory, PmtResult, TileId};

/// What the Rust makes of a directory's bytes.
fn asked<T>(bytes: &[u8], call: impl FnOnce() -> PmtResult<T>) -> Rust<T> {
    if may_read(bytes) { rust(call) } else { Rust::NotAsked }
}

// ---- reading

#[derive(Clone)]
struct Read {
    bytes: Vec<u8>,
    stores: [usize; 4],
}

impl Case for Read {
    fn smaller(&self) -> Box<dyn Iterator<Item = Self> + '_> {
        let stores = self.stores;
        let fewer = (0..4).flat_map(move |i| {
            less(stores[i] as u64).map(move |n| {
                let mut stores = stores;
                stores[i] = n as usize;
                stores
            })
        });
        Box::new(
            smaller_bytes(&self.bytes)
                .map(move |bytes| Read { bytes, stores })
                .chain(fewer.map(|stores| Read {
                    bytes: self.bytes.clone(),
                    stores,
                })),
        )
    }

    fn show(&self) -> String {
        format!("{} into stores of {:?}", hex(&self.bytes), self.stores)
    }
}

fn check_read(case: &Read) -> Outcome {
    let mut v = Varints::new(&case.bytes);
    let plain = plain::directory_read(&mut v, case.stores.into_iter().min());
    let told = plain
        .as_ref()
        .map(|rows| vec![rows.len() as u64, v.at as u64])
        .map_err(|&r| r);
    let mut lent = stores(case.stores);
    let mut out = Lent::new(4);
    let answered = linked::directory_read(&case.bytes, &mut lent, out.part());
    if answered != status(&plain) || !out.holds_answer(&told) {
        return Outcome::differs(format!("ours: {answered} {:?}, not {told:?}", out.start()));
    }
    let after = stores_after(case.stores, &plain);
    if lent != after {
        return Outcome::differs(format!("ours: stores {lent:?}, not {after:?}"));
    }
    // the Rust has no stores that could be too short
    let rust = (plain != Err(15)).then(|| asked(&case.bytes, || pmtiles::read_directory(&case.bytes)));
    let outside = outside_by(&plain, v.long);
    judged(&plain, rust, outside)
}

pub fn run_read(make: &mut Make, count: u64) -> u64 {
    let mut area = Area::new("directory read", check_read);
    all_short(|bytes| {
        area.feed(Read {
            bytes: bytes.to_vec(),
            stores: [130; 4],
        })
    });
    edges(|rows| {
        area.feed(Read {
            bytes: make::bytes(rows),
            stores: [3; 4],
        })
    });
    for _ in 0..count {
        let bytes = some_bytes(make);
        let n = Varints::new(&bytes).wide().unwrap_or(0).min(600) as usize;
        let mut stores = [n + make.pick(&[0, 0, 1, 3]); 4];
        if make.one_in(8) {
            let i = make.below(4) as usize;
            stores[i] = make.pick(&[0, n.saturating_sub(1), n, n + 2]);
        }
        area.feed(Read { bytes, stores });
    }
    area.finish()
}

// ---- searching

#[derive(Clone)]
struct Find {
    bytes: Vec<u8>,
    id: u64,
}

impl Case for Find {
    fn smaller(&self) -> Box<dyn Iterator<Item = Self> + '_> {
        let id = self.id;
        Box::new(
            smaller_bytes(&self.bytes)
                .map(move |bytes| Find { bytes, id })
                .chain(less(id).map(|id| Find {
                    bytes: self.bytes.clone(),
                    id,
                })),
        )
    }

    fn show(&self) -> String {
        format!("{} for id {}", hex(&self.bytes), self.id)
    }
}

fn check_find(case: &Find) -> Outcome {
    let mut v = Varints::new(&case.bytes);
    let plain = plain::directory_find(&mut v, case.id);
    let mut out = Lent::new(6);
    let answered = linked::directory_find(&case.bytes, case.id, out.part());
    let (due, told) = match &plain {
        Ok(Some((id, run, length, offset))) => (0, vec![*id, (*run).into(), (*length).into(), *offset]),
        Ok(None) => (linked::ABSENT, vec![]),
        Err(number) => (*number, vec![]),
    };
    if answered != due || !out.holds(&told) {
        return Outcome::differs(format!("ours: {answered} {:?}, not {plain:?}", out.start()));
    }
    let rust = match TileId::new(case.id) {
        Ok(id) => asked(&case.bytes, || {
            let directory = Directory::try_from(Bytes::copy_from_slice(&case.bytes))?;
            Ok(directory.find_tile_id(id).map(pmtiles::row))
        }),
        Err(error) => rust(|| Err(error)),
    };
    let outside = outside_by(&plain, v.long);
    judged(&plain, Some(rust), outside)
}

pub fn run_find(make: &mut Make, count: u64) -> u64 {
    let mut area = Area::new("directory search", check_find);
    all_short(|bytes| {
        for id in [0, 1, 2, plain::MAX_TILE_ID, plain::MAX_TILE_ID + 1] {
            if bytes.len() < 7 {
                area.feed(Find {
                    bytes: bytes.to_vec(),
                    id,
                });
            }
        }
    });
    edges(|rows| {
        area.feed(Find {
            bytes: make::bytes(rows),
            id: rows[0].0,
        })
    });
    let each = 16;
    for _ in 0..count / each {
        let bytes = some_bytes(make);
        let ids: Vec<u64> = plain::directory_read(&mut Varints::new(&bytes), None)
            .unwrap_or_default()
            .iter()
            .flat_map(|r| [r.0, r.0 + u64::from(r.1)])
            .collect();
        for _ in 0..each {
            // about the ends of the entries, or anywhere
            let id = if ids.is_empty() || make.one_in(6) {
                make.number()
            } else {
                (make.pick(&ids) + make.below(3)).saturating_sub(1)
            };
            area.feed(Find {
                bytes: bytes.clone(),
                id,
            });
        }
    }
    area.finish()
}

// ---- inputs

/// Every string of up to two bytes, every one of up to seven of the bytes at which a rule turns, and every count at which
/// one does.
fn all_short(mut feed: impl FnMut(&[u8])) {
    let any: Vec<u8> = (0..=255).collect();
    all_of(&any, 2, &mut feed);
    all_of(&[0, 1, 2, 0x7F, 0x80, 0xFF], 7, &mut feed);
    for count in make::EDGES {
        let mut bytes = vec![];
        plain::put_varint(count, &mut bytes);
        feed(&bytes);
    }
}

fn all_of(letters: &[u8], most: u32, feed: &mut impl FnMut(&[u8])) {
    let n = letters.len();
    for length in 0..=most {
        for k in 0..n.pow(length) {
            let word: Vec<u8> = (0..length).map(|i| letters[k / n.pow(i) % n]).collect();
            feed(&word);
        }
    }
}

/// A directory, good or with entries that are not, whole or damaged; now and then a long one.
pub fn some_bytes(make: &mut Make) -> Vec<u8> {
    let most = make.pick(&[1, 2, 3, 5, 12, 12, 40]);
    let most = if make.one_in(100) { 500 } else { most };
    let n = make.below(most + 1) as usize;
    let offset_bits = make.pick(&[4, 16, 40, 64]);
    let mut rows = make.rows(
        n,
        Style {
            pointers: true,
            offset_bits,
        },
    );
    if make.one_in(3) {
        make.spoil(&mut rows);
    }
    let mut bytes = make::bytes(&rows);
    match make.below(4) {
        0 => make.damage(&mut bytes),
        1 => bytes.push(make.below(256) as u8),
        _ => {}
    }
    bytes
}
