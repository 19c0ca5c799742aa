//! Stand-in for fast_hilbert, written from the textbook rule (xy2d, d2xy and rot of the encyclopaedias), not
//! from our own definition. As we recall, readers of PMTiles use that rule.

fn rot(n: u64, x: &mut u64, y: &mut u64, rx: bool, ry: bool) {
    if !ry {
        if rx {
            *x = (n - 1).wrapping_sub(*x);
            *y = (n - 1).wrapping_sub(*y);
        }
        std::mem::swap(x, y);
    }
}

pub fn xy2h(x: u32, y: u32, order: u8) -> u64 {
    let n = 1u64 << order;
    let (mut x, mut y, mut d, mut s) = (u64::from(x), u64::from(y), 0u64, n / 2);
    while s > 0 {
        let (rx, ry) = (x & s > 0, y & s > 0);
        d += s * s * ((3 * u64::from(rx)) ^ u64::from(ry));
        rot(n, &mut x, &mut y, rx, ry);
        s /= 2;
    }
    d
}

/// The real crate is generic; tile.rs asks for u32 alone.
pub trait Coord {
    fn of(v: u64) -> Self;
}
impl Coord for u32 {
    fn of(v: u64) -> u32 {
        v as u32
    }
}

pub fn h2xy<T: Coord>(h: u64, order: u8) -> (T, T) {
    let (mut x, mut y, mut t, mut s) = (0u64, 0u64, h, 1u64);
    while s < 1u64 << order {
        let rx = 1 & (t / 2) > 0;
        let ry = 1 & (t ^ u64::from(rx)) > 0;
        rot(s, &mut x, &mut y, rx, ry);
        x += s * u64::from(rx);
        y += s * u64::from(ry);
        t /= 4;
        s *= 2;
    }
    (T::of(x), T::of(y))
}
