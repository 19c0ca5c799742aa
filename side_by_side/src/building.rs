//! Root and leaves built from stores, and measured.
use crate::area::{Area, Case, Outcome, judged, less, outside_by};
use crate::lent::{Lent, status};
use crate::make::{Make, Style, edges};
use crate::plain;
use crate::rust::rust;
use crate::writing::{Stock, room};
use linked::Row;
use pmtiles::{PmTilesWriter, entry};

#[derive(Clone)]
struct Build {
    stock: Stock,
    data_length: u64,
    /// How much longer the two buffers are than they need be.
    spare: [i64; 2],
}

impl Case for Build {
    fn smaller(&self) -> Box<dyn Iterator<Item = Self> + '_> {
        let stocks = self.stock.smaller().map(|stock| Build { stock, ..self.clone() });
        let lengths = less(self.data_length).map(|data_length| Build {
            data_length,
            ..self.clone()
        });
        let spares = (0..2).flat_map(move |i| {
            less(self.spare[i].unsigned_abs()).map(move |s| {
                let mut case = self.clone();
                case.spare[i] = s as i64 * self.spare[i].signum();
                case
            })
        });
        Box::new(stocks.chain(lengths).chain(spares))
    }

    fn show(&self) -> String {
        let [root, leaves] = self.spare;
        let (stock, data) = (self.stock.show(), self.data_length);
        format!("{stock}, data length {data}, root {root:+} bytes, leaves {leaves:+}")
    }
}

fn check(case: &Build) -> Outcome {
    let stock = &case.stock;
    let stores = stock.stores();
    let made = plain::build(stock.stored(), stock.count, case.data_length);
    let sizes = made
        .as_ref()
        .map(|b| vec![b.root.len() as u64, b.leaves.len() as u64])
        .map_err(|&r| r);
    let mut out = Lent::new(3);
    let answered = linked::build_sizes(stock.count, &stores, case.data_length, out.part());
    if answered != status(&sizes) || !out.holds_answer(&sizes) {
        return Outcome::differs(format!("ours measured: {answered} {:?}, not {sizes:?}", out.start()));
    }
    let needed = made.as_ref().map_or([0; 2], |b| [b.root.len(), b.leaves.len()]);
    let [root_room, leaf_room] = [0, 1].map(|i| room(needed[i], case.spare[i]));
    let plain = made.and_then(|b| plain::fitted(b, root_room, leaf_room));
    let told = plain
        .as_ref()
        .map(|b| vec![b.root.len() as u64, b.leaves.len() as u64, b.entries, b.addressed]);
    let told = told.map_err(|&r| r);
    let (mut root, mut leaves, mut out) = (Lent::new(root_room), Lent::new(leaf_room), Lent::new(6));
    let answered = linked::build(
        stock.count,
        &stores,
        case.data_length,
        root.part(),
        leaves.part(),
        out.part(),
    );
    let (due_root, due_leaves) = plain.as_ref().map_or((&[][..], &[][..]), |b| (&b.root, &b.leaves));
    if answered != status(&plain) || !out.holds_answer(&told) || !root.holds(due_root) || !leaves.holds(due_leaves) {
        let got = (out.start(), root.start(), leaves.start());
        return Outcome::differs(format!("ours built: {answered} {got:?}, not {told:?}"));
    }
    // vectors are never too short
    let rows = stock.told().filter(|_| plain != Err(15));
    let rust = rows.map(|rows| rust(|| PmTilesWriter::oracle_build(rows.iter().copied().map(entry).collect())));
    judged(&plain.map(|b| (b.root, b.leaves)), rust, outside_by(&told, false))
}

/// The least data length that holds all contents.
fn data_length(rows: &[Row]) -> u64 {
    rows.iter().map(|r| r.3.saturating_add(r.2.into())).max().unwrap_or(0)
}

fn whole(rows: Vec<Row>) -> Build {
    Build {
        data_length: data_length(&rows),
        stock: Stock::whole(rows),
        spare: [0, 5],
    }
}

const TILES: Style = Style {
    pointers: false,
    offset_bits: 50,
};

pub fn run(make: &mut Make, count: u64) -> u64 {
    let mut area = Area::new("build", check);
    edges(|rows| area.feed(whole(rows.to_vec())));
    // counts about which the rule turns, in the shortest form and at random; the large ones as often as the count allows
    for n in [0, 1, 10, 4_063, 4_064, 16_383, 16_384, 20_000, 100_000, 1_000_000] {
        area.feed(whole((0..n).map(|i| (i, 1, 5, 5 * i)).collect()));
        for _ in 0..(count * 4 / (n + 1000)).clamp(1, 200) {
            area.feed(whole(make.rows(n as usize, TILES)));
        }
    }
    // about the last root that fits by itself
    for _ in 0..(count / 2000).clamp(3, 300) {
        let rows = make.rows(16_300, TILES);
        let fits = |n: usize| plain::encoded(&rows[..n]).len() <= plain::ROOT_ROOM;
        let (mut low, mut high) = (0, rows.len());
        while low < high {
            let middle = (low + high).div_ceil(2);
            if fits(middle) {
                low = middle;
            } else {
                high = middle - 1;
            }
        }
        for n in low.saturating_sub(1)..(low + 3).min(rows.len()) {
            area.feed(whole(rows[..n].to_vec()));
        }
    }
    // roots of 16,254 to 16,259 bytes: a length above 127 takes a byte more
    for long in 0..6 {
        let lengths = (0..4_063).map(|i| if i < long { 200 } else { 5 });
        let ends = lengths.clone().scan(0, |end, length| {
            *end += u64::from(length);
            Some(*end)
        });
        area.feed(whole(
            (0..)
                .zip(lengths.zip(ends))
                .map(|(id, (length, end))| (id, 1, length, end - u64::from(length)))
                .collect(),
        ));
    }
    // so many leaves, so far apart, that the root fits only once they have grown, up to as many entries as may be
    for (n, least) in [(6_000_000, 5_000), (9_000_000, 50_000), (plain::MOST_ENTRIES, 500_000)] {
        if count >= least {
            let far = plain::MAX_TILE_ID / n;
            area.feed(whole((0..n).map(|i| (i * far, 1, 300, 300 * i)).collect()));
        }
    }
    // one entry too many, which no side builds
    let mut many = whole(vec![(0, 1, 1, 0)]);
    many.stock.count = plain::MOST_ENTRIES as usize + 1;
    area.feed(many);
    for _ in 0..count {
        let most = make.pick(&[1, 2, 5, 12, 40]);
        let n = make.below(most + 1) as usize;
        let mut rows = make.rows(n, TILES);
        let mut data_length = data_length(&rows);
        for _ in 0..make.pick(&[0, 0, 1, 2]) {
            make.spoil(&mut rows);
        }
        if make.one_in(5) {
            let any = make.bits(64);
            data_length = make.pick(&[data_length.saturating_sub(1), any, u64::MAX]);
        }
        area.feed(Build {
            stock: Stock::whole(rows).unfit(make),
            data_length,
            spare: [0; 2].map(|_| make.pick(&[0, 0, 1, 7, -1])),
        });
    }
    area.finish()
}
