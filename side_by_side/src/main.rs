//! The proved core beside the Rust: side_by_side [SEED] [COUNT]. Both get the same inputs, and every result is compared:
//! values, refusals, bytes written and bytes not written. Where the Rust is no judge, because it checks less or panics, the
//! core is compared with the rules written down plainly a second time (plain.rs). COUNT is about how many random inputs
//! there are; those that are listed one by one come on top. The first difference ends the run with status 1.
//! side_by_side replay FOLDER writes the list of the Rust's answers that crates/replay replays, and compares nothing.
mod area;
mod building;
mod directories;
mod headers;
mod ids;
mod lent;
mod lookups;
mod make;
mod plain;
mod publication;
mod replay;
mod rust;
mod slots;
mod writing;

use make::Make;

/// An area: it makes about so many random inputs, and answers how many were compared.
type Run = fn(&mut Make, u64) -> u64;

fn argument(words: &mut impl Iterator<Item = String>, otherwise: u64) -> u64 {
    words.next().map_or(otherwise, |word| {
        word.parse().unwrap_or_else(|_| {
            eprintln!("side_by_side: {word} is no number");
            std::process::exit(2)
        })
    })
}

fn main() {
    rust::hush();
    let mut words = std::env::args().skip(1).peekable();
    if words.next_if(|word| word == "replay").is_some() {
        let folder = words.next().expect("a folder for the list");
        return replay::write(folder.as_ref()).expect("the folder can be written");
    }
    let seed = argument(&mut words, 1);
    let count = argument(&mut words, 1_000_000);
    println!("seed {seed}, count {count}");
    // an area, and how much of a hundred of the count it gets
    let areas: &[(Run, u64)] = &[
        (ids::run, 40),
        (headers::run_read, 5),
        (headers::run_write, 5),
        (directories::run_read, 15),
        (directories::run_find, 15),
        (writing::run, 10),
        (building::run, 5),
        (lookups::run, 10),
        (publication::run, 1),
        (publication::run_total, 1),
        (slots::run, 0),
    ];
    let mut total = 0;
    for (run, share) in areas {
        // each area has its own numbers, whatever the others use
        total += run(&mut Make::new(seed), count / 100 * share);
    }
    println!("{total} compared, none different");
}
