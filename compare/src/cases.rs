//! What all comparisons share: random numbers from a seed, cases that can be made smaller, and the tally.

use std::cell::RefCell;
use std::collections::{BTreeMap, BTreeSet};
use std::fmt::Debug;
use std::panic::{AssertUnwindSafe, catch_unwind};
use std::time::Instant;

use crate::model::{NONE, Token, table_of, tokens_of};

/// splitmix64.
pub struct Random(u64);

impl Random {
    pub fn new(seed: u64, group: &str) -> Random {
        let mut r = Random(seed);
        for b in group.bytes() {
            r.0 = r.0.wrapping_mul(31).wrapping_add(u64::from(b));
        }
        r
    }

    pub fn next(&mut self) -> u64 {
        self.0 = self.0.wrapping_add(0x9e37_79b9_7f4a_7c15);
        let mut z = self.0;
        z = (z ^ (z >> 30)).wrapping_mul(0xbf58_476d_1ce4_e5b9);
        z = (z ^ (z >> 27)).wrapping_mul(0x94d0_49bb_1331_11eb);
        z ^ (z >> 31)
    }

    pub fn below(&mut self, n: usize) -> usize {
        (self.next() % n as u64) as usize
    }

    pub fn pick<T: Copy>(&mut self, list: &[T]) -> T {
        list[self.below(list.len())]
    }

    pub fn one_in(&mut self, n: usize) -> bool {
        self.below(n) == 0
    }

    /// A 32-bit number, mostly small or near an edge.
    pub fn number(&mut self) -> u32 {
        match self.below(8) {
            0 => self.next() as u32,
            1 => self.pick(&EDGES),
            2 => self.below(2000) as u32,
            3 => (1u32 << self.below(32)).wrapping_sub(self.below(2) as u32),
            _ => self.below(40) as u32,
        }
    }
}

/// 32-bit numbers at which something changes.
pub const EDGES: [u32; 9] = [0, 1, 2, 0x7fff_ffff, 0x8000_0000, 0x8000_0001, 0xffff_fffd, 0xffff_fffe, 0xffff_ffff];

/// The tokens with any number for the segment: what a caller may hand in, whatever it is. It depends on the other numbers and on
/// `other` alone, so that two calls give two lists that differ in it.
pub fn with_segments(tokens: &[Token], other: u64) -> Vec<Token> {
    let segment = |(i, t): (usize, &Token)| {
        let mut random = Random(t.six().iter().fold(other ^ i as u64, |sum, &n| sum.wrapping_mul(31).wrapping_add(u64::from(n))));
        let segment = match random.below(6) {
            0 => 0,
            1 => random.below(100) as u32,
            2 => NONE - 1,
            3 => NONE,
            _ => random.next() as u32,
        };
        Token { segment, ..*t }
    };
    tokens.iter().enumerate().map(segment).collect()
}

/// The same of a table, whole or not: other numbers for the segments.
pub fn other_segments(table: &[u32]) -> Vec<u32> {
    let mut other = table_of(&with_segments(&tokens_of(table), 1));
    other.extend(&table[other.len()..]);
    other
}

thread_local! {
    static CODES: RefCell<BTreeMap<(&'static str, u64), u64>> = const { RefCell::new(BTreeMap::new()) };
}

/// The codes that each part can give; for what checked mode alone has, the fields; for the premises, no and yes; for the positions of
/// many that the crate judges too, none and a token; for its tables and the inner tables of composing, whether one is sorted;
/// for two tables compared the kinds, whether the crate's tokens and texts differ, and which table falls: left, right, both. A decode's
/// TooBig takes a text of 4 GiB, which only `far` has.
const DUE: [(&str, &[u64]); 26] = [
    ("decode, lenient", &[0, 1, 2, 3, 4, 5, 7]),
    ("decode, checked", &[0, 1, 2, 3, 4, 5, 6, 7]),
    ("checked, a wide value", &[0, 1, 2, 3, 4]),
    ("checked, a wide sum", &[0, 2, 3, 4]),
    ("checked, minus zero taken", &[0, 1, 2, 3, 4]),
    ("exact, lists", &[0, 3, 4, 5, 6]),
    ("exact, texts", &[0, 1, 2, 3, 4, 5, 6]),
    ("write", &[0, 8, 9, 10, 11]),
    ("premises, lenient", &[0, 1]),
    ("premises, checked", &[0, 1]),
    ("translate", &[0, 11, 12]),
    ("translate, records", &[0, 12]),
    ("lookup", &[0, 11]),
    ("many", &[0, 8, 11, 17]),
    ("many, quick", &[0, 8, 11, 17]),
    ("many, by the crate", &[0, 1]),
    ("many, a sorted table", &[0, 1]),
    ("changes", &[0, 8, 11, 22]),
    ("changes, by kind", &[1, 2, 3]),
    ("changes, by the crate", &[0, 1]),
    ("changes, by the text", &[0, 1]),
    ("changes, unsorted", &[1, 2, 3]),
    ("compose", &[0, 7, 8, 11, 13, 14]),
    ("compose, with work", &[0, 7, 8, 11, 13, 14]),
    ("compose, too little work", &[7, 8, 11, 13, 14]),
    ("compose, a sorted table", &[0, 1]),
];

/// Counts a code that a part of the library gave, and that was held to the model or to the judge of exact.
pub fn met_code(part: &'static str, code: u64) {
    CODES.with(|c| *c.borrow_mut().entry((part, code)).or_insert(0) += 1);
}

/// A departure from the crate that the documents name, met in a case.
pub type Class = &'static str;

pub trait Case: Clone + Debug {
    /// The departures met, or what disagreed.
    fn check(&self) -> Result<Vec<Class>, String>;

    /// Cases a little smaller than this one.
    fn smaller(&self) -> Vec<Self>;

    fn size(&self) -> usize;

    fn show(&self) -> String {
        format!("{self:?}")
    }
}

/// Parts of a list of so many, to be left out: halves, sixteenths, and each by itself where there are not too many.
pub fn parts(n: usize) -> impl Iterator<Item = (usize, usize)> {
    let steps = [n.div_ceil(2), n.div_ceil(16), 1].into_iter().filter(move |&step| step > 1 || n <= 300);
    steps.flat_map(move |step| (0..n).step_by(step.max(1)).map(move |from| (from, n.min(from + step))))
}

/// How often a departure was met, and the smallest case that met it.
pub struct Met {
    pub count: u64,
    size: usize,
    shown: String,
}

struct Failure {
    size: usize,
    shown: String,
    why: String,
}

#[derive(Default)]
pub struct Tally {
    groups: Vec<(String, u64, u64, f64)>,
    met: BTreeMap<Class, Met>,
    failures: Vec<(String, u64, Failure)>,
    /// Whether to end at the first group that fails.
    pub stop: bool,
}

/// After so many failures a group stops.
const ENOUGH: u64 = 20;

fn checked<C: Case>(case: &C) -> Result<Vec<Class>, String> {
    match catch_unwind(AssertUnwindSafe(|| case.check())) {
        Ok(result) => result,
        Err(payload) => Err(match payload.downcast_ref::<String>() {
            Some(s) => format!("panic: {s}"),
            None => format!("panic: {}", payload.downcast_ref::<&str>().unwrap_or(&"")),
        }),
    }
}

impl Tally {
    /// Runs a group: make hands each case to the function it is given, which says whether to go on.
    pub fn group<C: Case>(&mut self, name: &str, make: impl FnOnce(&mut dyn FnMut(C) -> bool)) {
        let begun = Instant::now();
        let mut count = 0;
        let mut failed = 0;
        let mut smallest: Option<(C, String)> = None;
        let met = &mut self.met;
        make(&mut |case: C| {
            count += 1;
            match checked(&case) {
                Ok(classes) => {
                    for class in classes {
                        let size = case.size();
                        let m = met.entry(class).or_insert(Met { count: 0, size: usize::MAX, shown: String::new() });
                        m.count += 1;
                        if size < m.size {
                            m.size = size;
                            m.shown = case.show();
                        }
                    }
                }
                Err(why) => {
                    failed += 1;
                    if smallest.as_ref().is_none_or(|(c, _)| case.size() < c.size()) {
                        smallest = Some((case, why));
                    }
                }
            }
            failed < ENOUGH
        });
        let seconds = begun.elapsed().as_secs_f64();
        if let Some((case, why)) = smallest {
            let (case, why) = shrunk(case, why);
            self.failures.push((name.to_string(), failed, Failure { size: case.size(), shown: case.show(), why }));
        }
        self.line(name, count, failed, seconds);
        self.groups.push((name.to_string(), count, failed, seconds));
    }

    /// A group that is one thing, such as a file.
    pub fn single(&mut self, name: &str, result: Result<(), String>, seconds: f64) {
        let failed = u64::from(result.is_err());
        if let Err(why) = result {
            self.failures.push((name.to_string(), 1, Failure { size: 0, shown: name.to_string(), why }));
        }
        self.line(name, 1, failed, seconds);
        self.groups.push((name.to_string(), 1, failed, seconds));
    }

    fn line(&self, name: &str, count: u64, failed: u64, seconds: f64) {
        println!("{name:<60} {count:>10} {failed:>4} failed {seconds:>8.1} s");
        if self.stop && failed > 0 {
            self.summary(false);
            std::process::exit(1);
        }
    }

    /// Prints the summary, and says whether all agreed. A run of everything meets every code that a part has.
    pub fn summary(&self, everything: bool) -> bool {
        println!();
        println!("answers of ours that were held to the model, or to the judge of exact, by code:");
        let codes = CODES.with(|c| c.borrow().clone());
        let missing: Vec<String> = DUE
            .iter()
            .filter(|(part, _)| codes.keys().any(|k| k.0 == *part))
            .flat_map(|(part, list)| list.iter().map(move |&code| (*part, code)))
            .filter(|key| everything && !codes.contains_key(key))
            .map(|(part, code)| format!("{part}: code {code} was never met"))
            .collect();
        let parts: BTreeSet<&str> = codes.keys().map(|k| k.0).collect();
        for part in parts {
            let list: Vec<String> =
                codes.iter().filter(|(k, _)| k.0 == part).map(|((_, code), count)| format!("{code}: {count}")).collect();
            println!("  {part:<26} {}", list.join("  "));
        }
        println!();
        println!("departures from the crate that the documents name, and the smallest case met:");
        for (class, met) in &self.met {
            println!("  {class:<52} {:>10}  {}", met.count, met.shown);
        }
        let count: u64 = self.groups.iter().map(|g| g.1).sum();
        let failed: u64 = self.groups.iter().map(|g| g.2).sum();
        for (name, times, f) in &self.failures {
            println!();
            println!("FAILED {name}, {times} times (a group stops after {ENOUGH}); the smallest, of size {}:", f.size);
            println!("  {}", f.shown);
            println!("  {}", f.why);
        }
        println!();
        for line in &missing {
            println!("{line}");
        }
        println!("{count} cases, {failed} disagreements");
        failed == 0 && missing.is_empty()
    }
}

/// The smallest case on the way down that still fails.
fn shrunk<C: Case>(mut case: C, mut why: String) -> (C, String) {
    'again: loop {
        for next in case.smaller() {
            if next.size() < case.size() {
                if let Err(w) = checked(&next) {
                    case = next;
                    why = w;
                    continue 'again;
                }
            }
        }
        return (case, why);
    }
}
