//! Publication: what each call stores, and the final bytes.
use crate::area::{
    Area, Case, NO_SUCH_CODE, Outcome, hex, judged, less, listed, outside_by, smaller_bytes, smaller_rows,
};
use crate::lent::{Lent, status};
use crate::make::{Make, Style};
use crate::plain::{self, Answer, Parts, Settings};
use crate::rust::rust;
use crate::writing::room;
use linked::Row;
use pmtiles::{Compression, PmTilesWriter, PmtResult, TileType, entry};

#[derive(Clone)]
struct Publish {
    rows: Vec<Row>,
    metadata: Vec<u8>,
    data: Vec<u8>,
    settings: Settings,
    /// Bytes behind the root that was built.
    more_root: usize,
    /// How much longer the destination is than it need be.
    spare: i64,
    /// For each call how far it skips ahead, and its budget.
    calls: Vec<(u64, u64)>,
}

impl Case for Publish {
    fn smaller(&self) -> Box<dyn Iterator<Item = Self> + '_> {
        let rows = smaller_rows(&self.rows).map(|rows| Publish { rows, ..self.clone() });
        let metadata = smaller_bytes(&self.metadata).map(|metadata| Publish {
            metadata,
            ..self.clone()
        });
        let data = smaller_bytes(&self.data).map(|data| Publish { data, ..self.clone() });
        let calls = less(self.calls.len() as u64).map(|n| Publish {
            calls: self.calls[..n as usize].to_vec(),
            ..self.clone()
        });
        Box::new(rows.chain(metadata).chain(data).chain(calls))
    }

    fn show(&self) -> String {
        let (rows, metadata, data) = (listed(&self.rows), hex(&self.metadata), hex(&self.data));
        let Publish {
            settings,
            more_root,
            spare,
            calls,
            ..
        } = self;
        format!(
            "{rows}, root {more_root:+}, metadata {metadata}, data {data}, {settings:?}, destination {spare:+}, calls \
             (skip, budget) {calls:?}"
        )
    }
}

/// The real writer, from its settings to the archive.
fn published(case: &Publish) -> PmtResult<Vec<u8>> {
    let Settings {
        tile_compression,
        tile_type,
        zooms,
        degrees,
        ..
    } = &case.settings;
    let [min_lon, min_lat, max_lon, max_lat, lon, lat] = degrees.map(f64::from_bits);
    let tile_type: TileType = (*tile_type as u8).try_into()?;
    PmTilesWriter::new(tile_type)
        .internal_compression(Compression::None)
        .tile_compression((*tile_compression as u8).try_into()?)
        .min_zoom(zooms[0] as u8)
        .max_zoom(zooms[1] as u8)
        .bounds(min_lon, min_lat, max_lon, max_lat)
        .center_zoom(zooms[2] as u8)
        .center(lon, lat)
        .metadata(std::str::from_utf8(&case.metadata).expect("metadata is text here"))
        .oracle_publish(&case.data, case.rows.iter().copied().map(entry).collect())
}

/// Each call on both sides. The destination after the last, and the position.
fn called(case: &Publish, settings: &Settings, parts: &Parts) -> Result<Answer<(Vec<u8>, u64)>, String> {
    let room = room(parts.archive(), case.spare);
    let (mut destination, mut due) = (Lent::new(room), Lent::new(room).part().to_vec());
    let Settings { zooms, degrees, .. } = settings;
    let numbers = [
        settings.tile_compression,
        settings.tile_type,
        zooms[0],
        zooms[1],
        zooms[2],
    ];
    let mut position = 0u64;
    for &(skip, budget) in &case.calls {
        position = position.saturating_add(skip);
        // the library's own rule comes first: 1 for a zoom that its field can't hold
        let plain = if zooms.iter().all(|&zoom| zoom <= 255) {
            plain::publish(settings, parts, room, position, budget)
        } else {
            Err(1)
        };
        let mut out = Lent::new(3);
        let answered = linked::publish(
            &numbers,
            &degrees.map(f64::from_bits),
            &[settings.entries, settings.addressed],
            &parts.root,
            &parts.metadata,
            &parts.data,
            &parts.leaves,
            destination.part(),
            position,
            budget,
            out.part(),
        );
        let told = plain.as_ref().map(|(_, next)| vec![*next]).map_err(|&r| r);
        for &(at, byte) in plain.iter().flat_map(|(stores, _)| stores) {
            due[at] = byte;
        }
        if answered != status(&plain) || !out.holds_answer(&told) || !destination.holds(&due) {
            return Err(format!(
                "ours at {position}: {answered} {:?}, not {told:?}",
                out.start()
            ));
        }
        match plain {
            Ok((_, next)) => position = next,
            Err(number) => return Ok(Err(number)),
        }
    }
    Ok(Ok((due, position)))
}

fn check(case: &Publish) -> Outcome {
    let built = match plain::build(&case.rows, case.rows.len(), case.data.len() as u64) {
        Ok(built) => built,
        Err(number) => return judged::<Vec<u8>>(&Err(number), None, Some("entries that can't be built")),
    };
    let mut parts = Parts {
        root: built.root,
        metadata: case.metadata.clone(),
        data: case.data.clone(),
        leaves: built.leaves,
    };
    parts.root.resize(parts.root.len() + case.more_root, 0);
    let settings = Settings {
        entries: built.entries,
        addressed: built.addressed,
        ..case.settings.clone()
    };
    let (plain, position) = match called(case, &settings, &parts) {
        Ok(Ok((mut destination, position))) => {
            destination.truncate(parts.archive());
            (Ok(destination), position)
        }
        Ok(Err(number)) => (Err(number), 0),
        Err(what) => return Outcome::differs(what),
    };
    let unfinished = case.more_root > 0
        || case.calls.iter().any(|call| call.0 > 0)
        || plain::total(parts.lengths()).is_ok_and(|total| position < total);
    let outside = match plain {
        Err(1) => Some("a number that its field can't hold"),
        Err(4 | 5) => Some(NO_SUCH_CODE),
        Ok(_) if unfinished => Some("calls that make no whole archive, or of a root that was not built"),
        _ => outside_by(&plain, false),
    };
    let rust = outside.is_none().then(|| rust(|| published(case)));
    judged(&plain, rust, outside)
}

pub fn run(make: &mut Make, count: u64) -> u64 {
    let mut area = Area::new("publication", check);
    // a small archive of 16,523 stores, cut about the end of every section and at every byte of root and header
    for position in (0..4).chain(16_380..16_526) {
        area.feed(Publish {
            rows: vec![(0, 1, 5, 0)],
            metadata: b"{}".to_vec(),
            data: vec![1, 2, 3, 4, 5],
            settings: Settings {
                tile_compression: 1,
                tile_type: 1,
                zooms: [0, 22, 0],
                degrees: [-180.0, -85.051129, 180.0, 85.051129, 0.0, 0.0].map(f64::to_bits),
                // counted when it is built
                entries: 0,
                addressed: 0,
            },
            more_root: 0,
            spare: 0,
            calls: vec![(0, position), (0, 1), (0, u64::MAX)],
        });
    }
    for i in 0..count.max(200) {
        // now and then with leaves
        let n = if i % 100 == 99 { 5_000 } else { make.below(30) as usize };
        let mut rows = make.rows(
            n,
            Style {
                pointers: false,
                offset_bits: 9,
            },
        );
        for row in &mut rows {
            row.2 = row.2 % 50 + 1;
        }
        let data = rows.iter().map(|r| r.3 + u64::from(r.2)).max().unwrap_or(0) + make.below(3);
        let letters = make.below(40);
        let zooms = if make.one_in(30) { 258 } else { 256 };
        let codes = if make.one_in(10) { [6, 8] } else { [5, 7] };
        let settings = Settings {
            tile_compression: make.below(codes[0]),
            tile_type: make.below(codes[1]),
            zooms: [0; 3].map(|_| make.below(zooms)),
            degrees: [0; 6].map(|_| (make.below(3_600_000_000) as f64 / 1e7 - 180.0).to_bits()),
            // counted when it is built
            entries: 0,
            addressed: 0,
        };
        // most often up to the end
        let mut calls: Vec<(u64, u64)> = (0..make.below(4)).map(|_| (0, make.bits(15))).collect();
        if make.one_in(6) {
            let skip = make.pick(&[1, 127, 16_383, 16_384, 16_400, 17_000, 50_000, u64::MAX]);
            calls.push((skip, make.bits(15)));
        }
        if !make.one_in(6) {
            calls.push((0, u64::MAX));
        }
        area.feed(Publish {
            rows,
            metadata: (0..letters).map(|_| b'a' + make.below(26) as u8).collect(),
            data: (0..data).map(|_| make.below(256) as u8).collect(),
            settings,
            more_root: if make.one_in(20) {
                make.pick(&[1, 16_200, 16_256, 16_257])
            } else {
                0
            },
            spare: make.pick(&[0, 0, 0, 5, -1]),
            calls,
        });
    }
    area.finish()
}

// ---- how many stores

#[derive(Clone)]
struct Total([u64; 4]);

impl Case for Total {
    fn smaller(&self) -> Box<dyn Iterator<Item = Self> + '_> {
        Box::new((0..4).flat_map(move |i| {
            less(self.0[i]).map(move |n| {
                let mut lengths = self.0;
                lengths[i] = n;
                Total(lengths)
            })
        }))
    }

    fn show(&self) -> String {
        format!("root, metadata, data, leaves of {:?}", self.0)
    }
}

fn check_total(Total(lengths): &Total) -> Outcome {
    let plain = plain::total(*lengths).map(|n| vec![n]);
    let mut out = Lent::new(3);
    let [root, metadata, data, leaves] = *lengths;
    let answered = linked::total(root, metadata, data, leaves, out.part());
    if answered != status(&plain) || !out.holds_answer(&plain) {
        return Outcome::differs(format!("ours: {answered} {:?}, not {plain:?}", out.start()));
    }
    judged(&plain, None, Some("the Rust counts no stores"))
}

pub fn run_total(make: &mut Make, count: u64) -> u64 {
    let mut area = Area::new("publication's total", check_total);
    // about the largest
    for near in 0..64 {
        area.feed(Total([u64::MAX - 16_511 - 32 + near, 0, 0, 0]));
        area.feed(Total([0, u64::MAX / 2, near, u64::MAX / 2 - 16_511 - 32]));
    }
    for _ in 0..count {
        area.feed(Total([0; 4].map(|_| make.number())));
    }
    area.finish()
}
