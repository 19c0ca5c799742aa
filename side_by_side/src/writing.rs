//! Directories written from stores, and measured.
use crate::area::{Area, Case, Outcome, judged, less, listed, outside_by, smaller_rows};
use crate::lent::{Lent, status};
use crate::make::{Make, Style, edges};
use crate::plain;
use crate::rust::rust;
use linked::{Row, Stores};

/// Entries in stores.
#[derive(Clone)]
pub struct Stock {
    pub rows: Vec<Row>,
    /// How many entries the call is told of.
    pub count: usize,
    /// How many slots each store lacks of the entries.
    pub lacks: [usize; 4],
}

impl Stock {
    pub fn whole(rows: Vec<Row>) -> Self {
        Self {
            count: rows.len(),
            rows,
            lacks: [0; 4],
        }
    }

    pub fn stores(&self) -> Stores {
        let mut stores = Stores::from_rows(&self.rows);
        let [ids, runs, lengths, offsets] = self.lacks.map(|lack| self.rows.len().saturating_sub(lack));
        stores.ids.truncate(ids);
        stores.runs.truncate(runs);
        stores.lengths.truncate(lengths);
        stores.offsets.truncate(offsets);
        stores
    }

    /// As many entries as the shortest store has.
    pub fn stored(&self) -> &[Row] {
        let lack = self.lacks.into_iter().max().unwrap_or(0);
        &self.rows[..self.rows.len().saturating_sub(lack)]
    }

    /// The entries that the call is told of, if the stores have them.
    pub fn told(&self) -> Option<&[Row]> {
        self.stored().get(..self.count)
    }

    pub fn smaller(&self) -> impl Iterator<Item = Self> {
        let fewer = smaller_rows(&self.rows).map(|rows| Self {
            count: if self.count == self.rows.len() {
                rows.len()
            } else {
                self.count
            },
            rows,
            lacks: self.lacks,
        });
        let counts = less(self.count as u64).map(|count| Self {
            count: count as usize,
            ..self.clone()
        });
        let lacks = (0..4).flat_map(move |i| {
            less(self.lacks[i] as u64).map(move |lack| {
                let mut stock = self.clone();
                stock.lacks[i] = lack as usize;
                stock
            })
        });
        fewer.chain(counts).chain(lacks)
    }

    pub fn show(&self) -> String {
        let mut words = listed(&self.rows);
        if self.count != self.rows.len() {
            words += &format!(", count {}", self.count);
        }
        if self.lacks != [0; 4] {
            words += &format!(", stores shorter by {:?}", self.lacks);
        }
        words
    }

    /// Now and then a count or a store that does not go with the entries.
    pub fn unfit(mut self, make: &mut Make) -> Self {
        if make.one_in(10) {
            let n = self.rows.len();
            let most = plain::MOST_ENTRIES as usize;
            self.count = make.pick(&[0, n / 2, n, n + 1, most, most + 1, usize::MAX]);
        }
        if make.one_in(10) {
            let i = make.below(4) as usize;
            self.lacks[i] = make.below(3) as usize;
        }
        self
    }
}

/// A length that has so much more than is needed, or less.
pub fn room(needed: usize, spare: i64) -> usize {
    needed.saturating_add_signed(spare as isize)
}

#[derive(Clone)]
struct Write {
    stock: Stock,
    /// How much longer the output is than it need be.
    spare: i64,
}

impl Case for Write {
    fn smaller(&self) -> Box<dyn Iterator<Item = Self> + '_> {
        let spare = self.spare;
        let stocks = self.stock.smaller().map(move |stock| Write { stock, spare });
        let spares = less(spare.unsigned_abs()).map(move |s| Write {
            stock: self.stock.clone(),
            spare: s as i64 * spare.signum(),
        });
        Box::new(stocks.chain(spares))
    }

    fn show(&self) -> String {
        format!("{}, output {:+} bytes", self.stock.show(), self.spare)
    }
}

fn check(case: &Write) -> Outcome {
    let Write { stock, spare } = case;
    let stores = stock.stores();
    let measured = plain::directory_encode(stock.stored(), stock.count);
    let length = measured.as_ref().map(|bytes| vec![bytes.len() as u64]).map_err(|&r| r);
    let mut out = Lent::new(3);
    let answered = linked::encoded_len(stock.count, &stores, out.part());
    if answered != status(&length) || !out.holds_answer(&length) {
        return Outcome::differs(format!("ours measured: {answered} {:?}, not {length:?}", out.start()));
    }
    let room = room(measured.as_ref().map_or(0, Vec::len), *spare);
    let plain = plain::directory_write(stock.stored(), stock.count, room);
    let told = plain.as_ref().map(|bytes| vec![bytes.len() as u64]).map_err(|&r| r);
    let (mut bytes, mut out) = (Lent::new(room), Lent::new(3));
    let answered = linked::directory_write(stock.count, &stores, bytes.part(), out.part());
    if answered != status(&plain) || !out.holds_answer(&told) || !bytes.holds_answer(&plain) {
        let got = (out.start(), bytes.start());
        return Outcome::differs(format!("ours wrote: {answered} {got:?}, not {plain:?}"));
    }
    // a Vec is never too short
    let rust = stock
        .told()
        .map(|rows| rust(|| pmtiles::write_directory(rows.to_vec())));
    let rust = rust.filter(|_| plain != Err(15));
    judged(&plain, rust, outside_by(&plain, false))
}

pub fn run(make: &mut Make, count: u64) -> u64 {
    let mut area = Area::new("directory write", check);
    for spare in [-1, 0, 3] {
        let mut feed = |rows: &[Row]| {
            area.feed(Write {
                stock: Stock::whole(rows.to_vec()),
                spare,
            });
        };
        feed(&[]);
        edges(feed);
    }
    for _ in 0..count {
        let most = make.pick(&[1, 2, 5, 12, 40]);
        let most = if make.one_in(100) { 500 } else { most };
        let n = make.below(most + 1) as usize;
        let offset_bits = make.pick(&[4, 16, 40, 64]);
        let mut rows = make.rows(
            n,
            Style {
                pointers: true,
                offset_bits,
            },
        );
        for _ in 0..make.pick(&[0, 0, 1, 2]) {
            make.spoil(&mut rows);
        }
        area.feed(Write {
            stock: Stock::whole(rows).unfit(make),
            spare: make.pick(&[0, 0, 1, 7, -1, -2]),
        });
    }
    area.finish()
}
