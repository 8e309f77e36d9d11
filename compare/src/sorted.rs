//! Tables for the quick call, which halves where a table is sorted by line, then column. It looks for that in four parts side by side
//! and in the rest behind them, and goes down by quarters. So here are sorted tables of every length, with equal positions across every
//! place, and tables that fall at one token, at each in turn.

use std::ops::RangeInclusive;

use crate::cases::Tally;
use crate::many::{Asks, around};
use crate::model::{NONE, Token};

type Place = (u32, u32);
type Go<'a> = &'a mut dyn FnMut(Asks) -> bool;

const HALF: u32 = 1 << 31;

/// Whether no token stands before the one before it.
pub fn is_sorted(tokens: &[Token]) -> bool {
    tokens.windows(2).all(|w| (w[0].dst_line, w[0].dst_col) <= (w[1].dst_line, w[1].dst_col))
}

/// Every short length, and longer ones around powers of four.
pub fn lengths() -> impl Iterator<Item = usize> {
    (0..=70).chain([127, 128, 129, 255, 256, 257])
}

/// All residues, and on either side of a power of four.
pub const LONG: [usize; 7] = [1000, 1001, 1002, 1003, 1023, 1024, 1025];
const LONGER: [usize; 3] = [4095, 4096, 4097];

pub fn once(mut asked: Vec<Place>) -> Vec<Place> {
    asked.sort();
    asked.dedup();
    asked
}

/// At, before and past every token, on its line.
pub fn beside(places: &[Place]) -> Vec<Place> {
    let near = |&(line, col): &Place| [(line, col.saturating_sub(1)), (line, col), (line, col.saturating_add(1))];
    once(places.iter().flat_map(near).collect())
}

/// Every position on so many lines and columns.
fn square(n: u32) -> Vec<Place> {
    (0..n * n).map(|p| (p / n, p % n)).collect()
}

/// Every sorted list of so many tokens on so many lines and columns.
pub fn every_sorted(tokens: RangeInclusive<usize>, wide: u32, go: Go) {
    let (at, asked) = (square(wide), square(wide + 1));
    for tokens in tokens {
        let mut list = Some(vec![0; tokens]);
        while let Some(mut now) = list {
            if !go(Asks::of(now.iter().map(|&i| at[i]).collect(), &asked)) {
                return;
            }
            // The last token that can stand further on does, and those behind it with it.
            list = now.iter().rposition(|&p| p + 1 < at.len()).map(|i| {
                let next = now[i] + 1;
                now[i..].fill(next);
                now
            });
        }
    }
}

/// Every list of so many tokens at a few places, sorted or not.
pub fn every_list(tokens: RangeInclusive<usize>, at: &[Place], go: Go) {
    let count = at.len();
    for tokens in tokens {
        for code in 0..count.pow(tokens as u32) {
            let places = (0..tokens).map(|i| at[code / count.pow(i as u32) % count]).collect();
            if !go(Asks::of(places, &square(3))) {
                return;
            }
        }
    }
}

pub const KINDS: usize = 6;

/// So many tokens, sorted, of one kind.
pub fn in_order(kind: usize, count: usize) -> Vec<Place> {
    let edges = [0, 1, HALF - 1, HALF, NONE - 1, NONE];
    let place = |i: usize| {
        let n = i as u32;
        match kind {
            // On one line; one a line; twenty a line.
            0 => (0, 2 * n + 1),
            1 => (2 * n + 1, 5),
            2 => (n / 20, 3 * (n % 20) + 1),
            // Each line begins before the one before it did.
            3 => (n / 3, 5 * (count as u32 - n / 3) + 2 * (n % 3)),
            // All equal.
            4 => (7, 7),
            // Lines and columns at the edges.
            5 => (edges[i * 36 / count / 6], edges[i * 36 / count % 6]),
            _ => unreachable!("there is no such kind"),
        }
    };
    (0..count).map(place).collect()
}

/// Every kind in every length, asked around every token in one call; of the long ones those apart from each other.
fn every_length(go: Go) {
    let short = lengths().flat_map(|count| (0..KINDS).map(move |kind| (count, kind)));
    let long = LONG.into_iter().flat_map(|count| [0, 1, 2, 3].map(|kind| (count, kind)));
    let longer = LONGER.into_iter().flat_map(|count| [0, 2].map(|kind| (count, kind)));
    for (count, kind) in short.chain(long).chain(longer) {
        let places = in_order(kind, count);
        let asked = if count < LONG[0] { once(around(&places)) } else { beside(&places) };
        if !go(Asks::of(places, &asked)) {
            return;
        }
    }
}

/// So many tokens, of which as many as `run` stand at each place, the first time fewer by `less`.
pub fn equal_runs(count: usize, run: usize, less: usize) -> Vec<Place> {
    let place = |i: usize| ((i + less) / run) as u32;
    (0..count).map(|i| (place(i) / 4, 2 * (place(i) % 4) + 1)).collect()
}

/// Two to ten equal tokens at each place, with every seam between quarters at each of them.
fn equals(go: Go) {
    let short = lengths().flat_map(|count| (2..=10).flat_map(move |run| (0..run).map(move |less| (count, run, less))));
    let long = LONG.into_iter().flat_map(|count| (2..=10).flat_map(move |run| [0, run / 2].map(|less| (count, run, less))));
    for (count, run, less) in short.chain(long) {
        let places = equal_runs(count, run, less);
        let asked = once(around(&places));
        if !go(Asks::of(places, &asked)) {
            return;
        }
    }
}

/// Two places, the first of which is before the second.
const STEPS: [(Place, Place); 6] = [
    ((0, 1), (0, 3)),
    ((1, 3), (3, 1)),
    ((0, NONE), (1, 0)),
    ((HALF - 1, NONE), (HALF, 0)),
    ((5, HALF - 1), (5, HALF)),
    ((NONE, NONE - 1), (NONE, NONE)),
];

/// Tokens at one place and then at another that is behind it, or before it: every count of the ones and of the others.
fn steps(go: Go) {
    for count in lengths() {
        for (one, other) in STEPS.into_iter().flat_map(|(one, other)| [(one, other), (other, one)]) {
            for first in 0..=count {
                let places = [vec![one; first], vec![other; count - first]].concat();
                if !go(Asks::of(places, &around(&[one, other]))) {
                    return;
                }
            }
        }
    }
}

pub const FALLS: usize = 6;

/// So many tokens, sorted but for the one at `i`, which stands before the one before it.
pub fn fallen(kind: usize, count: usize, i: usize) -> Vec<Place> {
    let apart = |n: usize| (1 + n as u32 / 5, 2 * (n as u32 % 5) + 1);
    let of = |place: fn(u32) -> Place| (0..count as u32).map(place).collect::<Vec<Place>>();
    let n = i as u32;
    let (mut places, at, place) = match kind {
        // By one column on one line; to the same column of the line before; to a larger column of it, so that no column falls.
        0 => (of(|n| (0, 2 * n + 2)), i, (0, 2 * n - 1)),
        1 => (of(|n| (2 * n + 2, 5)), i, (2 * n - 1, 5)),
        2 => (of(|n| (2 * n + 2, n)), i, (2 * n - 1, n)),
        // To the start of everything; or the one before it is at its end.
        3 => ((0..count).map(apart).collect(), i, (0, 0)),
        4 => ((0..count).map(apart).collect(), i - 1, (NONE, NONE)),
        // By one line of the largest numbers.
        5 => (of(|n| (HALF + 2 * n, NONE)), i, (HALF + 2 * n - 3, NONE)),
        _ => unreachable!("there is no such kind"),
    };
    places[at] = place;
    places
}

/// Every kind at every token; of the long tables a kind at each.
fn falls(go: Go) {
    let each = |count: usize| (1..count).flat_map(move |i| (0..FALLS).map(move |kind| (count, i, kind)));
    let short = lengths().flat_map(each);
    let long = LONG.into_iter().take(4).flat_map(|count| (1..count).map(move |i| (count, i, (count + i) % FALLS)));
    for (count, i, kind) in short.chain(long) {
        let places = fallen(kind, count, i);
        let asked = match count {
            0..=24 => once(around(&places)),
            _ => once(around(&places[i.saturating_sub(2)..count.min(i + 2)])),
        };
        if !go(Asks::of(places, &asked)) {
            return;
        }
    }
}

pub fn run(tally: &mut Tally) {
    tally.group("many: every sorted list of 5 to 8 tokens", |go| every_sorted(5..=8, 3, go));
    tally.group("many: every sorted list of 0 to 24 tokens at four places", |go| every_sorted(0..=24, 2, go));
    tally.group("many: every list of 5 to 8 tokens at three places", |go| every_list(5..=8, &[(0, 0), (0, 1), (1, 0)], go));
    tally.group("many: every list of 9 to 13 tokens on two columns", |go| every_list(9..=13, &[(1, 0), (1, 1)], go));
    tally.group("many: every list of 9 to 13 tokens on two lines", |go| every_list(9..=13, &[(0, 1), (1, 0)], go));
    tally.group("many: sorted, every length", every_length);
    tally.group("many: sorted, equal tokens", equals);
    tally.group("many: one place and then another", steps);
    tally.group("many: sorted but for one token", falls);
}
