//! Ids both ways, against tile.rs over the stand-in for fast_hilbert, which goes bit by bit.
use crate::{Series, core, mixed};
use linked::Random;
use pmtiles::{TileCoord, TileId};

const COUNT: usize = 1_000_000;

pub fn run() {
    let (mut to_id, mut to_coord) = (Series::default(), Series::default());
    for (name, lowest, zooms) in [
        ("zoom 7", 7, 1),
        ("zoom 14", 14, 1),
        ("zoom 28", 28, 1),
        ("zooms 0 to 31", 0, 32),
    ] {
        // twice the mean zoom, so that growth is that of a level
        let levels = (2 * lowest + zooms - 1) as usize;
        let mut random = Random::new(1);
        let coords: Vec<(u8, u32, u32)> = (0..COUNT)
            .map(|_| {
                let z = (lowest + random.below(zooms)) as u8;
                (z, random.below(1 << z) as u32, random.below(1 << z) as u32)
            })
            .collect();
        let ids: Vec<u64> = coords.iter().map(|&(z, x, y)| core::tile_id(z, x, y)).collect();
        to_id.compare(
            &format!("id of a coordinate, {name}"),
            COUNT,
            levels,
            || coords.iter().fold(0, |s, &(z, x, y)| mixed(s, core::tile_id(z, x, y))),
            || {
                coords.iter().fold(0, |s, &(z, x, y)| {
                    mixed(s, TileId::from(TileCoord::new(z, x, y).unwrap()).value())
                })
            },
        );
        to_coord.compare(
            &format!("coordinate of an id, {name}"),
            COUNT,
            levels,
            || {
                ids.iter().fold(0, |s, &id| {
                    let [z, x, y] = core::tile_coord(id);
                    mixed(s, z ^ x << 8 ^ y << 40)
                })
            },
            || {
                ids.iter().fold(0, |s, &id| {
                    let c = TileCoord::from(TileId::new(id).unwrap());
                    mixed(s, u64::from(c.z()) ^ u64::from(c.x()) << 8 ^ u64::from(c.y()) << 40)
                })
            },
        );
    }
}
