//! The proved core and the Rust on the same work, in turn, in one process. Each figure is the best of several rounds, and
//! both sides' results are compared. A ratio above 1 says that the core is faster.
mod building;
mod core;
mod directories;
mod ids;
mod lookups;
mod publishing;

use std::hint::black_box;
use std::time::Instant;

/// One number more in a sum that sees the order.
pub fn mixed(sum: u64, x: u64) -> u64 {
    sum.wrapping_mul(31).wrapping_add(x)
}

pub const ROUNDS: usize = 9;

/// Times `n` units of work on both sides: nanoseconds for one. What each returns is a sum over its results, and must agree.
fn measured(name: &str, n: usize, mut ours: impl FnMut() -> u64, mut rust: impl FnMut() -> u64) -> [f64; 2] {
    let mut best = [f64::MAX; 2];
    for _ in 0..ROUNDS {
        let start = Instant::now();
        let a = black_box(ours());
        best[0] = best[0].min(start.elapsed().as_secs_f64());
        let start = Instant::now();
        let b = black_box(rust());
        best[1] = best[1].min(start.elapsed().as_secs_f64());
        assert_eq!(a, b, "{name}: the two sides disagree");
    }
    best.map(|seconds| seconds * 1e9 / n as f64)
}

/// The same work at one size after the other. What one element costs, against the size before, is told for both sides.
#[derive(Default)]
pub struct Series(Option<[f64; 2]>);

impl Series {
    pub fn compare(&mut self, name: &str, n: usize, size: usize, ours: impl FnMut() -> u64, rust: impl FnMut() -> u64) {
        let each = measured(name, n, ours, rust);
        let element = each.map(|ns| ns / size as f64);
        let growth = match self.0.replace(element) {
            Some(before) => format!("{:>6.2} {:>6.2}", element[0] / before[0], element[1] / before[1]),
            None => String::new(),
        };
        let ratio = each[1] / each[0];
        println!("{name:<44} {:>14.2} {:>14.2} {ratio:>6.2} {growth}", each[0], each[1]);
    }
}

fn main() {
    let words: Vec<String> = std::env::args().skip(1).collect();
    println!(
        "{:<44} {:>14} {:>14} {:>6} {:>13}",
        "ns for one", "core", "Rust", "ratio", "growth"
    );
    let parts: [(&str, fn()); 5] = [
        ("ids", ids::run),
        ("directories", directories::run),
        ("lookups", lookups::run),
        ("building", building::run),
        ("publishing", publishing::run),
    ];
    for (name, run) in parts {
        if words.is_empty() || words.iter().any(|w| name.contains(w.as_str())) {
            run();
        }
    }
}
