//! What is compared: inputs, verdicts, and the tally of an area. The first difference ends the process.
use crate::plain::Answer;
use crate::rust::Rust;
use linked::Row;
use std::collections::BTreeMap;
use std::fmt::Debug;
use std::time::{Duration, Instant};

/// An input.
pub trait Case: Clone {
    /// Inputs that are smaller, the much smaller ones first; none forever.
    fn smaller(&self) -> Box<dyn Iterator<Item = Self> + '_>;
    fn show(&self) -> String;
}

pub enum Verdict {
    /// All three agree: ours, the Rust, the plain rules.
    Same,
    /// The Rust is no judge here, for this reason; ours and the plain rules agree.
    Outside(&'static str),
    Differs(String),
}

pub struct Outcome {
    pub verdict: Verdict,
    /// What the Rust does where it does otherwise.
    pub finding: Option<String>,
}

impl Outcome {
    pub fn differs(what: String) -> Self {
        Self {
            verdict: Verdict::Differs(what),
            finding: None,
        }
    }
}

/// Codes that are refused 4 or 5 where something is written.
pub const NO_SUCH_CODE: &str = "refused 4 or 5: a code that the Rust's types can't hold";

/// What a refusal that the Rust does not know puts outside the domain for.
pub fn outside_by<T>(plain: &Answer<T>, long: bool) -> Option<&'static str> {
    if long {
        return Some("a varint longer than it need be");
    }
    match plain {
        Err(9) => Some("refused 9: a varint too large, which the stand-in decides"),
        Err(11) => Some("refused 11: a sum above 2^64 - 1"),
        Err(12) => Some("refused 12: an empty entry"),
        Err(13) => Some("refused 13: an entry's id too large"),
        Err(14) => Some("refused 14: entries out of order"),
        Err(15) => Some("refused 15: lent room too short"),
        Err(16) => Some("refused 16: compressed directories"),
        Err(17) => Some("refused 17: a range outside"),
        Err(18) => Some("refused 18: too deep"),
        Err(19) => Some("refused 19: too many entries"),
        _ => None,
    }
}

/// What kind of answer one is.
pub trait Said: PartialEq + Debug {
    fn said(&self) -> &'static str {
        "answers"
    }
}

impl<T: PartialEq + Debug> Said for Vec<T> {}

impl Said for (Vec<u8>, Vec<u8>) {}

impl<T: PartialEq + Debug> Said for Option<T> {
    fn said(&self) -> &'static str {
        match self {
            Some(_) => "finds one",
            None => "says absent",
        }
    }
}

/// The Rust against the plain rules, with which ours agrees already. Outside the domain there may be nothing to ask it.
pub fn judged<T: Said>(plain: &Answer<T>, rust: Option<Rust<T>>, outside: Option<&'static str>) -> Outcome {
    let Some(rust) = rust else {
        return Outcome {
            verdict: Verdict::Outside(outside.expect("in the domain the Rust is asked")),
            finding: None,
        };
    };
    let due = match plain {
        Ok(_) => "an answer".to_string(),
        Err(number) => number.to_string(),
    };
    let any_due = if plain.is_ok() { "an answer" } else { "a refusal" };
    let agree = match (plain, &rust) {
        (Ok(a), Rust::Gave(b)) => a == b,
        (Err(a), Rust::Refused(b)) => a == b,
        _ => false,
    };
    let did = match &rust {
        Rust::Gave(value) if plain.is_ok() => format!("{}, another one", value.said()),
        Rust::Gave(value) => format!("{} where {due} is due", value.said()),
        Rust::Refused(number) => format!("refuses {number} where {due} is due"),
        Rust::Odd(error) => format!("refuses ({error}) where {any_due} is due"),
        Rust::Panicked(message) => format!("panics ({message}) where {any_due} is due"),
        Rust::NotAsked => format!("asks for memory by the count alone where {due} is due"),
    };
    let verdict = match (outside, &rust) {
        (Some(reason), _) => Verdict::Outside(reason),
        (None, _) if agree => Verdict::Same,
        (None, Rust::Panicked(_)) => Verdict::Outside("the Rust panics"),
        (None, Rust::NotAsked) => Verdict::Outside("a count without its bytes, for which the Rust takes memory first"),
        (None, _) => Verdict::Differs(format!("the Rust {did}: {rust:?}, not {plain:?}")),
    };
    Outcome {
        verdict,
        finding: (!agree).then_some(did),
    }
}

pub struct Area<C> {
    name: &'static str,
    check: fn(&C) -> Outcome,
    same: u64,
    outside: BTreeMap<&'static str, u64>,
    /// By what the Rust did: how often, and the smallest input.
    findings: BTreeMap<String, (u64, String)>,
}

impl<C: Case> Area<C> {
    pub fn new(name: &'static str, check: fn(&C) -> Outcome) -> Self {
        Self {
            name,
            check,
            same: 0,
            outside: BTreeMap::new(),
            findings: BTreeMap::new(),
        }
    }

    pub fn feed(&mut self, case: C) {
        let outcome = (self.check)(&case);
        match outcome.verdict {
            Verdict::Same => self.same += 1,
            Verdict::Outside(reason) => *self.outside.entry(reason).or_default() += 1,
            Verdict::Differs(_) => self.stop(case),
        }
        if let Some(kind) = outcome.finding {
            if !self.findings.contains_key(&kind) {
                let smallest = shrunk(case, |c| (self.check)(c).finding.as_ref() == Some(&kind));
                self.findings.insert(kind.clone(), (0, smallest.show()));
            }
            self.findings.get_mut(&kind).expect("just put in").0 += 1;
        }
    }

    fn stop(&self, case: C) -> ! {
        let smallest = shrunk(case, |c| matches!((self.check)(c).verdict, Verdict::Differs(_)));
        let Verdict::Differs(what) = (self.check)(&smallest).verdict else {
            unreachable!("what was kept differs")
        };
        println!("{}: DIFFERENT\n  input: {}\n  {what}", self.name, smallest.show());
        std::process::exit(1)
    }

    /// Prints the tally, and answers how many inputs were compared.
    pub fn finish(self) -> u64 {
        let outside: u64 = self.outside.values().sum();
        println!(
            "{}: {} compared, {outside} of them outside the domain",
            self.name,
            self.same + outside
        );
        for (reason, count) in &self.outside {
            println!("  outside {count}: {reason}");
        }
        for (kind, (count, smallest)) in &self.findings {
            println!("  the Rust {kind}: {count}, smallest {smallest}");
        }
        self.same + outside
    }
}

/// A smallest input, one step at a time, that still has a property. It ends early where a step takes long.
fn shrunk<C: Case>(mut case: C, holds: impl Fn(&C) -> bool) -> C {
    let start = Instant::now();
    let late = || start.elapsed() > Duration::from_secs(10);
    loop {
        let next = case.smaller().take_while(|_| !late()).find(|c| holds(c));
        match next {
            Some(next) => case = next,
            None => return case,
        }
    }
}

/// Numbers below one, the small ones first.
pub fn less(n: u64) -> impl Iterator<Item = u64> {
    let steps = (1..64).map(move |s| n >> s).filter(|&step| step > 0);
    std::iter::once(n)
        .filter(|&n| n > 0)
        .chain(steps)
        .map(move |step| n - step)
}

/// The list without one piece of it, large pieces first.
fn without<T: Clone>(list: &[T]) -> impl Iterator<Item = Vec<T>> {
    let n = list.len();
    let sizes = (0..usize::BITS).map(move |s| n >> s).take_while(|&size| size > 0);
    sizes.flat_map(move |size| {
        (0..n)
            .step_by(size)
            .map(move |at| [&list[..at], &list[(at + size).min(n)..]].concat())
    })
}

/// The bytes without some of them, or with one of them lower.
pub fn smaller_bytes(bytes: &[u8]) -> impl Iterator<Item = Vec<u8>> {
    without(bytes).chain(lowered(bytes, |&b| less(b.into()).map(|b| b as u8)))
}

/// The entries without some of them, or with one number of one of them lower.
pub fn smaller_rows(rows: &[Row]) -> impl Iterator<Item = Vec<Row>> {
    without(rows).chain(lowered(rows, |&(id, run, length, offset)| {
        less(id)
            .map(move |id| (id, run, length, offset))
            .chain(less(run.into()).map(move |run| (id, run as u32, length, offset)))
            .chain(less(length.into()).map(move |length| (id, run, length as u32, offset)))
            .chain(less(offset).map(move |offset| (id, run, length, offset)))
    }))
}

/// The list with one element less than it was.
fn lowered<'a, T: Clone, I: Iterator<Item = T> + 'a>(
    list: &'a [T],
    less: impl Fn(&T) -> I + 'a,
) -> impl Iterator<Item = Vec<T>> + 'a {
    list.iter().enumerate().flat_map(move |(i, value)| {
        less(value).map(move |smaller| {
            let mut list = list.to_vec();
            list[i] = smaller;
            list
        })
    })
}

/// Bytes as two digits each; long runs of zeros by their length.
pub fn hex(bytes: &[u8]) -> String {
    let mut words = vec![];
    let mut rest = bytes;
    while let Some((&first, others)) = rest.split_first() {
        let zeros = rest.iter().take_while(|&&b| b == 0).count();
        if zeros > 4 {
            words.push(format!("00(x{zeros})"));
            rest = &rest[zeros..];
        } else {
            words.push(format!("{first:02X}"));
            rest = others;
        }
    }
    if words.is_empty() {
        "no bytes".into()
    } else {
        words.join(" ")
    }
}

/// Entries as id, run, length, offset; of a long list its start.
pub fn listed(rows: &[Row]) -> String {
    let most = 5_000;
    let words: Vec<String> = rows.iter().take(most).map(|r| format!("{r:?}")).collect();
    let more = if rows.len() > most {
        format!(" and {} more", rows.len() - most)
    } else {
        String::new()
    };
    format!("entries [{}]{more}", words.join(" "))
}
