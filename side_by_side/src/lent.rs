//! Buffers that are lent to the core: filled with a pattern, with a margin on both sides, so that what a call may not
//! change shows.
use crate::plain::Answer;
use linked::{Row, Stores};

const MARGIN: usize = 4;

pub trait Pattern: Copy + PartialEq + std::fmt::Debug {
    fn at(i: usize) -> Self;

    fn same(self, other: Self) -> bool {
        self == other
    }
}
impl Pattern for u8 {
    fn at(i: usize) -> u8 {
        (i * 37 + 11) as u8
    }
}
impl Pattern for u32 {
    fn at(i: usize) -> u32 {
        (i as u32 + 3).wrapping_mul(0x9E37_79B9)
    }
}
impl Pattern for u64 {
    fn at(i: usize) -> u64 {
        (i as u64 + 5).wrapping_mul(0x9E37_79B9_7F4A_7C15)
    }
}

impl Pattern for f64 {
    fn at(i: usize) -> f64 {
        i as f64 * 1.375 + 0.625
    }

    /// To the bit.
    fn same(self, other: f64) -> bool {
        self.to_bits() == other.to_bits()
    }
}

pub fn pattern<T: Pattern>(n: usize) -> Vec<T> {
    (0..n).map(T::at).collect()
}

#[derive(Clone, Debug, PartialEq)]
pub struct Lent<T>(Vec<T>);

impl<T: Pattern> Lent<T> {
    pub fn new(n: usize) -> Self {
        Self(pattern(n + 2 * MARGIN))
    }

    pub fn part(&mut self) -> &mut [T] {
        let end = self.0.len() - MARGIN;
        &mut self.0[MARGIN..end]
    }

    /// Whether the start of the buffer holds just these values, and all behind and around it what it held.
    pub fn holds(&self, values: &[T]) -> bool {
        let due = |i: usize| {
            let value = i.checked_sub(MARGIN).and_then(|i| values.get(i));
            value.copied().unwrap_or_else(|| T::at(i))
        };
        values.len() + 2 * MARGIN <= self.0.len() && self.0.iter().enumerate().all(|(i, v)| v.same(due(i)))
    }

    /// The same for an answer: a refusal leaves all.
    pub fn holds_answer(&self, answer: &Answer<Vec<T>>) -> bool {
        self.holds(answer.as_deref().unwrap_or(&[]))
    }

    /// What is read of it where it differs.
    pub fn start(&self) -> &[T] {
        &self.0[MARGIN..(MARGIN + 8).min(self.0.len() - MARGIN)]
    }
}

/// Stores of these lengths.
pub fn stores(lengths: [usize; 4]) -> Stores {
    Stores {
        ids: pattern(lengths[0]),
        runs: pattern(lengths[1]),
        lengths: pattern(lengths[2]),
        offsets: pattern(lengths[3]),
    }
}

/// The stores after they were read into: the entries, then what they held; zeros after a refusal.
pub fn stores_after(lengths: [usize; 4], answer: &Answer<Vec<Row>>) -> Stores {
    let mut after = stores(lengths);
    match answer {
        Ok(rows) => {
            for (i, row) in rows.iter().enumerate() {
                (after.ids[i], after.runs[i], after.lengths[i], after.offsets[i]) = *row;
            }
        }
        Err(_) => {
            after.ids.fill(0);
            after.runs.fill(0);
            after.lengths.fill(0);
            after.offsets.fill(0);
        }
    }
    after
}

/// The status that an answer has.
pub fn status<T>(answer: &Answer<T>) -> u8 {
    *answer.as_ref().err().unwrap_or(&0)
}
