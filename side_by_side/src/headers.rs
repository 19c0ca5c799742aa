//! Headers read and written.
use crate::area::{Area, Case, NO_SUCH_CODE, Outcome, Said, hex, judged, less, outside_by, smaller_bytes};
use crate::lent::{Lent, status};
use crate::make::Make;
use crate::plain::{self, HEADER, Header};
use crate::rust::rust;
use crate::writing::room;
use bytes::Bytes;

impl Said for Header {}

/// The Rust's list of 25 has the degrees among the numbers.
const NUMBERS: [usize; 19] = [0, 1, 2, 3, 4, 5, 6, 7, 8, 9, 10, 11, 12, 13, 14, 15, 16, 17, 22];
const DEGREES: [usize; 6] = [18, 19, 20, 21, 23, 24];

fn from_rust(fields: &[u64]) -> Header {
    Header {
        numbers: NUMBERS.map(|i| fields[i]),
        degrees: DEGREES.map(|i| fields[i]),
    }
}

fn for_rust(header: &Header) -> [u64; 25] {
    let mut fields = [0; 25];
    NUMBERS.iter().zip(header.numbers).for_each(|(&i, n)| fields[i] = n);
    DEGREES.iter().zip(header.degrees).for_each(|(&i, d)| fields[i] = d);
    fields
}

// ---- reading

#[derive(Clone)]
struct Read(Vec<u8>);

impl Case for Read {
    fn smaller(&self) -> Box<dyn Iterator<Item = Self> + '_> {
        Box::new(smaller_bytes(&self.0).map(Read))
    }

    fn show(&self) -> String {
        hex(&self.0)
    }
}

fn check_read(Read(bytes): &Read) -> Outcome {
    let plain = plain::header_read(bytes);
    let numbers = plain.as_ref().map(|h| h.numbers.to_vec()).map_err(|&r| r);
    let degrees = plain
        .as_ref()
        .map(|h| h.degrees.map(f64::from_bits).to_vec())
        .map_err(|&r| r);
    let (mut out, mut out_degrees) = (Lent::new(21), Lent::new(8));
    let answered = linked::header_read(bytes, out.part(), out_degrees.part());
    if answered != status(&plain) || !out.holds_answer(&numbers) || !out_degrees.holds_answer(&degrees) {
        let got = (out.start(), out_degrees.start());
        return Outcome::differs(format!("ours read: {answered} {got:?}, not {plain:?}"));
    }
    let rust = rust(|| {
        let header = pmtiles::Header::try_from_bytes(Bytes::copy_from_slice(bytes))?;
        Ok(from_rust(&pmtiles::header_fields(&header)))
    });
    judged(&plain, Some(rust), None)
}

/// Random fields behind the magic, with codes that are known.
fn good(make: &mut Make, length: usize) -> Vec<u8> {
    let mut bytes: Vec<u8> = (0..length).map(|_| make.below(256) as u8).collect();
    for (byte, magic) in bytes.iter_mut().zip(*b"PMTiles") {
        *byte = magic;
    }
    for (at, most) in [(97, 4), (98, 4), (99, 6)] {
        if let Some(byte) = bytes.get_mut(at) {
            *byte = make.below(most + 1) as u8;
        }
    }
    bytes
}

/// A header, whole or cut, at times damaged, at times with a coordinate at which a rule turns.
pub fn some_bytes(make: &mut Make) -> Vec<u8> {
    let length = if make.one_in(4) {
        make.below(141) as usize
    } else {
        HEADER
    };
    let mut bytes = good(make, length);
    if length == HEADER && make.one_in(2) {
        let at = make.pick(&[102, 106, 110, 114, 119, 123]);
        let edge = make.pick(&[0, 1, -1, i32::MIN, i32::MAX, 1_800_000_000, -850_511_290]);
        bytes[at..at + 4].copy_from_slice(&edge.to_le_bytes());
    }
    if make.one_in(4) {
        make.damage(&mut bytes);
    }
    bytes
}

pub fn run_read(make: &mut Make, count: u64) -> u64 {
    let mut area = Area::new("header read", check_read);
    // every length with every byte as each of the codes
    for length in 0..=140 {
        for at in [97, 98, 99] {
            for code in 0..=255 {
                let mut bytes = good(make, length);
                if let Some(byte) = bytes.get_mut(at) {
                    *byte = code;
                }
                area.feed(Read(bytes));
            }
        }
    }
    // every byte in every place of a whole one
    for at in 0..HEADER {
        for byte in 0..=255 {
            let mut bytes = good(make, HEADER);
            bytes[at] = byte;
            area.feed(Read(bytes));
        }
    }
    for _ in 0..count {
        area.feed(Read(some_bytes(make)));
    }
    area.finish()
}

// ---- writing

#[derive(Clone)]
struct Write {
    header: Header,
    /// How much longer the output is than it need be.
    spare: i64,
}

impl Case for Write {
    fn smaller(&self) -> Box<dyn Iterator<Item = Self> + '_> {
        let numbers = (0..19).flat_map(move |i| {
            less(self.header.numbers[i]).map(move |n| {
                let mut case = self.clone();
                case.header.numbers[i] = n;
                case
            })
        });
        let degrees = (0..6).filter(|&i| self.header.degrees[i] != 0).map(move |i| {
            let mut case = self.clone();
            case.header.degrees[i] = 0;
            case
        });
        Box::new(numbers.chain(degrees))
    }

    fn show(&self) -> String {
        let degrees = self.header.degrees.map(f64::from_bits);
        format!(
            "numbers {:?}, degrees {degrees:?}, output {:+} bytes",
            self.header.numbers, self.spare
        )
    }
}

/// The library's own rule, before those of the header: 1 for a slot whose number its field can't hold.
fn fits(numbers: &[u64; 19]) -> bool {
    numbers[12] <= 1 && [0, 16, 17, 18].iter().all(|&i| numbers[i] <= 255)
}

fn check_write(Write { header, spare }: &Write) -> Outcome {
    let room = room(HEADER, *spare);
    let plain = if fits(&header.numbers) {
        plain::header_write(header, room)
    } else {
        Err(1)
    };
    let mut bytes = Lent::new(room);
    let degrees = header.degrees.map(f64::from_bits);
    let answered = linked::header_write(&header.numbers, &degrees, bytes.part());
    if answered != status(&plain) || !bytes.holds_answer(&plain) {
        let got = bytes.start();
        return Outcome::differs(format!("ours wrote: {answered} {got:?}, not {plain:?}"));
    }
    let outside = match plain {
        Err(1) => Some("a number that its field can't hold"),
        Err(4 | 5) => Some(NO_SUCH_CODE),
        _ => outside_by(&plain, false),
    };
    let rust = outside
        .is_none()
        .then(|| rust(|| pmtiles::write_header(&for_rust(header))));
    judged(&plain, rust, outside)
}

/// A degree whose product is about a whole number or a half, or about the largest that is stored, or any float.
fn degree(make: &mut Make) -> u64 {
    let any = make.bits(31) as i32;
    let whole = make.pick(&[0, 1, -1, 2, i32::MAX, i32::MIN, any, -any]);
    let near = (f64::from(whole) + make.pick(&[0.0, 0.5, -0.5, 0.25])) / 10_000_000.0;
    let special = [f64::NAN, f64::INFINITY, -f64::INFINITY, -0.0, 5e-324, 1e300, -1e300];
    match make.below(8) {
        0 => make.pick(&special).to_bits(),
        1 => make.below(u64::MAX),
        // a float or two beside it
        _ => near.to_bits().wrapping_add(make.below(5)).wrapping_sub(2),
    }
}

pub fn run_write(make: &mut Make, count: u64) -> u64 {
    let mut area = Area::new("header write", check_write);
    let zeros = Header {
        numbers: [0; 19],
        degrees: [0; 6],
    };
    // every half and whole from -2,000 to 2,000, with the floats beside it, and those about the largest and the least
    let ends = [i32::MAX, i32::MIN].map(|n| 2 * i64::from(n));
    for twice in (-4_000..=4_000).chain(ends.into_iter().flat_map(|n| n - 4..n + 5)) {
        let degree = twice as f64 / 2.0 / 10_000_000.0;
        for beside in 0..5 {
            let mut header = zeros.clone();
            header.degrees = [degree.to_bits().wrapping_add(beside).wrapping_sub(2); 6];
            area.feed(Write { header, spare: 3 });
        }
    }
    // every code in each place, into every length of output
    for spare in -127..=13 {
        for at in [13, 14, 15] {
            for code in [0, 1, 2, 3, 4, 5, 6, 7, 255, 256, u64::MAX] {
                let mut header = zeros.clone();
                header.numbers[at] = code;
                area.feed(Write { header, spare });
            }
        }
    }
    for _ in 0..count {
        let mut numbers = [0; 19].map(|_: u64| make.number());
        for (i, most) in [
            (12, 1),
            (13, 4),
            (14, 4),
            (15, 6),
            (0, 255),
            (16, 255),
            (17, 255),
            (18, 255),
        ] {
            if !make.one_in(40) {
                numbers[i] = make.below(most + 1);
            }
        }
        let degrees = [0; 6].map(|_| degree(make));
        area.feed(Write {
            header: Header { numbers, degrees },
            spare: make.pick(&[0, 0, 0, 1, 13, -1]),
        });
    }
    area.finish()
}
