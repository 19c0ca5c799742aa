//! Tile ids both ways.
use crate::area::{Area, Case, Outcome, judged, less};
use crate::lent::{Lent, status};
use crate::make::Make;
use crate::plain;
use crate::rust::rust;
use pmtiles::{TileCoord, TileId};

#[derive(Clone)]
enum Ask {
    Id(u8, u32, u32),
    Coord(u64),
}

impl Case for Ask {
    fn smaller(&self) -> Box<dyn Iterator<Item = Self> + '_> {
        match *self {
            Ask::Id(z, x, y) => Box::new(
                less(z.into())
                    .map(move |z| Ask::Id(z as u8, x, y))
                    .chain(less(x.into()).map(move |x| Ask::Id(z, x as u32, y)))
                    .chain(less(y.into()).map(move |y| Ask::Id(z, x, y as u32))),
            ),
            Ask::Coord(id) => Box::new(less(id).map(Ask::Coord)),
        }
    }

    fn show(&self) -> String {
        match self {
            Ask::Id(z, x, y) => format!("{z}/{x}/{y}"),
            Ask::Coord(id) => format!("id {id}"),
        }
    }
}

fn check(ask: &Ask) -> Outcome {
    let mut out = Lent::new(5);
    let (answered, plain, rust) = match *ask {
        Ask::Id(z, x, y) => (
            linked::tile_id(z, x, y, out.part()),
            plain::tile_id(z, x, y).map(|id| vec![id]),
            rust(|| Ok(vec![TileId::from(TileCoord::new(z, x, y)?).value()])),
        ),
        Ask::Coord(id) => (
            linked::tile_coord(id, out.part()),
            plain::tile_coord(id).map(|(z, x, y)| vec![z.into(), x.into(), y.into()]),
            rust(|| {
                let c = TileCoord::from(TileId::new(id)?);
                Ok(vec![c.z().into(), c.x().into(), c.y().into()])
            }),
        ),
    };
    if answered != status(&plain) || !out.holds_answer(&plain) {
        return Outcome::differs(format!("ours: {answered} {:?}, not {plain:?}", out.start()));
    }
    judged(&plain, Some(rust), None)
}

pub fn run(make: &mut Make, count: u64) -> u64 {
    let mut area = Area::new("ids", check);
    // every coordinate of the first zooms and their neighbours, every id of them
    for z in 0..8 {
        for x in 0..=1 << z {
            for y in 0..=1 << z {
                area.feed(Ask::Id(z, x, y));
            }
        }
    }
    for id in 0..87_381 {
        area.feed(Ask::Coord(id));
    }
    // corners and middles of every zoom, and of zooms that there are not
    for z in 0..=255u8 {
        let side = 1u64 << z.min(32);
        let edges = [
            0,
            1,
            side / 2 - side.min(2) / 2,
            side / 2,
            side - 1,
            side,
            u32::MAX.into(),
        ];
        for x in edges {
            for y in edges {
                area.feed(Ask::Id(z, x as u32, y as u32));
            }
        }
    }
    // about the base of every zoom, and the ends
    for z in 0..32 {
        let base = plain::tile_id(z, 0, 0).expect("every zoom has a first tile");
        for near in 0..64 {
            area.feed(Ask::Coord((base + near).saturating_sub(32)));
        }
    }
    for near in 0..64 {
        area.feed(Ask::Coord(plain::MAX_TILE_ID - 32 + near));
        area.feed(Ask::Coord(u64::MAX - near));
    }
    for _ in 0..count / 2 {
        let z = make.below(32) as u8;
        let [x, y] = [0; 2].map(|_| make.below(1 << z) as u32);
        area.feed(Ask::Id(z, x, y));
        area.feed(Ask::Coord(if make.one_in(8) {
            make.number()
        } else {
            make.below(plain::MAX_TILE_ID + 1)
        }));
    }
    for _ in 0..count / 16 {
        area.feed(Ask::Id(
            make.below(34) as u8,
            make.number() as u32,
            make.number() as u32,
        ));
    }
    area.finish()
}
