//! Fewer slots than a function fills or reads: 15 before all else, whatever the input is, and nothing changes.
use crate::area::{Area, Case, Outcome, Verdict};
use crate::lent::{Lent, stores, stores_after};
use crate::make::Make;
use linked::Stores;

/// A function, how many slots it fills or reads, and a call of it: with input that is taken, or with input that is refused for
/// another reason. The answer has whether other lent memory is as it must be.
type Call = (&'static str, usize, fn(bool, &mut [u64]) -> (u8, bool));

const CALLS: [Call; 16] = [
    ("tile_id", 1, |good, out| {
        (linked::tile_id(if good { 1 } else { 32 }, 0, 0, out), true)
    }),
    ("tile_coord", 3, |good, out| {
        (linked::tile_coord(if good { 1 } else { u64::MAX }, out), true)
    }),
    ("directory_read", 2, |good, out| {
        let mut lent = stores([3; 4]);
        let answered = linked::directory_read(directory(good), &mut lent, out);
        // this refusal too clears the stores
        (answered, lent == stores_after([3; 4], &Err(answered)))
    }),
    ("directory_find", 4, |good, out| {
        (linked::directory_find(directory(good), 0, out), true)
    }),
    ("encoded_len", 1, |good, out| {
        (linked::encoded_len(1, &entry(good), out), true)
    }),
    ("directory_write", 1, |good, out| {
        let mut bytes = Lent::new(9);
        (
            linked::directory_write(1, &entry(good), bytes.part(), out),
            bytes.holds(&[]),
        )
    }),
    ("build_sizes", 2, |good, out| {
        (linked::build_sizes(1, &entry(good), 5, out), true)
    }),
    ("build", 4, |good, out| {
        let (mut root, mut leaves) = (Lent::new(9), Lent::new(9));
        let answered = linked::build(1, &entry(good), 5, root.part(), leaves.part(), out);
        (answered, root.holds(&[]) && leaves.holds(&[]))
    }),
    ("header_read", 19, |_, out| {
        let mut degrees = Lent::new(6);
        (linked::header_read(b"", out, degrees.part()), degrees.holds(&[]))
    }),
    ("header_write", 19, |_, numbers| {
        let mut bytes = Lent::new(130);
        let answered = linked::header_write(numbers, &[0.0; 6], bytes.part());
        (answered, bytes.holds(&[]))
    }),
    ("publish, settings", 5, |_, settings| {
        publish(settings, &[0; 2], &mut [0])
    }),
    ("publish, counts", 2, |_, counts| publish(&[0; 5], counts, &mut [0])),
    ("publish", 1, |good, out| {
        publish(&[if good { 0 } else { 9 }; 5], &[0; 2], out)
    }),
    ("total", 1, |good, out| {
        (linked::total(if good { 0 } else { u64::MAX }, 0, 0, 0, out), true)
    }),
    ("lookup", 2, |good, out| {
        (linked::lookup(b"", if good { 0 } else { u64::MAX }, out), true)
    }),
    ("lookup_coord", 2, |good, out| {
        (linked::lookup_coord(b"", if good { 0 } else { 32 }, 0, 0, out), true)
    }),
];

fn publish(settings: &[u64], counts: &[u64], out: &mut [u64]) -> (u8, bool) {
    let mut destination = Lent::new(16_386);
    let to = destination.part();
    let answered = linked::publish(settings, &[0.0; 6], counts, &[0], b"{}", b"", b"", to, 0, 9, out);
    (answered, destination.holds(&[]))
}

fn directory(good: bool) -> &'static [u8] {
    if good { &[1, 0, 1, 5, 1] } else { &[1, 0, 1, 5, 0] }
}

fn entry(good: bool) -> Stores {
    Stores::from_rows(&[(0, 1, if good { 5 } else { 0 }, 0)])
}

#[derive(Clone)]
struct Short {
    call: usize,
    slots: usize,
    good: bool,
}

impl Case for Short {
    fn smaller(&self) -> Box<dyn Iterator<Item = Self> + '_> {
        Box::new((0..self.slots).map(|slots| Short { slots, ..self.clone() }))
    }

    fn show(&self) -> String {
        let input = if self.good { "good" } else { "bad" };
        format!("{} on {input} input with {} slots", CALLS[self.call].0, self.slots)
    }
}

fn check(case: &Short) -> Outcome {
    let mut out = Lent::new(case.slots);
    let (answered, kept) = CALLS[case.call].2(case.good, out.part());
    if answered != 15 || !kept || !out.holds(&[]) {
        return Outcome::differs(format!("ours: {answered} {:?}, other memory kept: {kept}", out.start()));
    }
    Outcome {
        verdict: Verdict::Outside("the Rust has no slots"),
        finding: None,
    }
}

pub fn run(_: &mut Make, _: u64) -> u64 {
    let mut area = Area::new("slots", check);
    for (call, (_, enough, _)) in CALLS.iter().enumerate() {
        for slots in 0..*enough {
            for good in [true, false] {
                area.feed(Short { call, slots, good });
            }
        }
    }
    area.finish()
}
