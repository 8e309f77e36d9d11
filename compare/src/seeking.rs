//! Tables and positions for composing, which halves where the inner table is sorted: first among the sixteen tokens from the last place
//! on, where the position lies there, else among all. So here one position is asked after another from every place, over sorted tables
//! of every length, with equal tokens too, and over tables that fall.

use crate::cases::{Random, Tally};
use crate::composing::{Pair, names_of};
use crate::many::{self, around};
use crate::model::{NONE, Token};
use crate::sorted::{self, beside, once};

type Place = (u32, u32);
type Go<'a> = &'a mut dyn FnMut(Pair) -> bool;

/// An outer token at each position, in this order, over inner tokens at these places, each with a source line of its own. A few tokens
/// of either have no source; a few inner ones have a name.
pub fn in_turn(places: &[Place], asked: &[Place]) -> Pair {
    let inner = |(i, &(line, col)): (usize, &Place)| {
        let source = if i % 9 == 4 { NONE } else { (i % 3) as u32 };
        Token::with([line, col, i as u32, 5, source, if i % 4 == 1 { 0 } else { NONE }], 0)
    };
    let outer = |(k, &(line, col)): (usize, &Place)| {
        let source = if k % 13 == 12 { NONE } else { 0 };
        Token::with([k as u32 / 20, k as u32 % 20, line, col, source, [0, 1, 1, NONE, 2, 0, 3][k % 7]], 0)
    };
    let outer: Vec<Token> = asked.iter().enumerate().map(outer).collect();
    let inner: Vec<Token> = places.iter().enumerate().map(inner).collect();
    Pair::of(&outer, names_of(&[b"a", b"b", b"a"], b""), &inner, names_of(&[b"b"], b""))
}

/// Each position after each.
fn each_after_each(asked: &[Place]) -> Vec<Place> {
    asked.iter().flat_map(|&a| asked.iter().flat_map(move |&b| [a, b])).collect()
}

/// Each position after one.
fn each_after(one: Place, asked: &[Place]) -> Vec<Place> {
    asked.iter().flat_map(|&b| [one, b]).collect()
}

fn mixed(random: &mut Random, mut asked: Vec<Place>) -> Vec<Place> {
    for i in (1..asked.len()).rev() {
        asked.swap(i, random.below(i + 1));
    }
    asked
}

/// Rising, falling, in any order, and each three times.
pub fn orders(random: &mut Random, asked: &[Place]) -> [Vec<Place>; 4] {
    let rising = once(asked.to_vec());
    let falling = rising.iter().rev().copied().collect();
    let thrice = rising.iter().step_by(3).flat_map(|&p| [p; 3]).collect();
    [rising.clone(), falling, mixed(random, rising), thrice]
}

/// Sorted tables: of a kind, and with equal tokens.
const TABLES: usize = sorted::KINDS + 3;

pub fn table(kind: usize, count: usize) -> Vec<Place> {
    match kind.checked_sub(sorted::KINDS) {
        None => sorted::in_order(kind, count),
        Some(i) => sorted::equal_runs(count, [2, 5, 17][i], count % 2),
    }
}

/// From each token to each position at, before and past a token: what is near ends at every place in turn.
fn from_each(go: Go) {
    for count in (0..=40).chain([63, 64, 65, 66, 80]) {
        for kind in 0..TABLES {
            let places = table(kind, count);
            let asked = beside(&places);
            let step = if count <= 40 { 1 } else { 5 };
            for from in (0..count).step_by(step) {
                if !go(in_turn(&places, &each_after(places[from], &asked))) {
                    return;
                }
            }
        }
    }
}

/// Every length in every kind and every order; positions on lines that have no token, before the first and past the last among them.
fn every_order(random: &mut Random, go: Go) {
    let short = sorted::lengths().flat_map(|count| (0..TABLES).map(move |kind| (count, kind)));
    let long = sorted::LONG.into_iter().flat_map(|count| [0, 2, TABLES - 1].map(|kind| (count, kind)));
    for (count, kind) in short.chain(long) {
        let places = table(kind, count);
        let asked = if count < sorted::LONG[0] { around(&places) } else { beside(&places) };
        for asked in orders(random, &asked) {
            if !go(in_turn(&places, &asked)) {
                return;
            }
        }
    }
}

/// Sorted but for one token, at each in turn, asked around it and all over the table in any order.
fn falls(random: &mut Random, go: Go) {
    for count in sorted::lengths() {
        for i in 1..count {
            let places = sorted::fallen((count + i) % sorted::FALLS, count, i);
            let far = (0..20).map(|_| random.pick(&places));
            let asked = around(&places[i.saturating_sub(2)..count.min(i + 2)]).into_iter().chain(far).collect();
            if !go(in_turn(&places, &mixed(random, asked))) {
                return;
            }
        }
    }
}

/// Any count in any shape, sorted, shuffled or turned round, in any order.
fn shapes(random: &mut Random, times: usize, go: Go) {
    for count in many::COUNTS {
        for shape in 0..many::SHAPES {
            for _ in 0..times {
                let places = many::shaped(random, shape, count);
                let asked = around(&places);
                let order = random.below(4);
                if !go(in_turn(&places, &orders(random, &asked)[order])) {
                    return;
                }
            }
        }
    }
}

pub fn run(tally: &mut Tally, seed: u64, scale: usize) {
    let after = |asks: many::Asks| in_turn(&asks.places, &each_after_each(&asks.asked()));
    tally.group("compose: every sorted list of 0 to 4 tokens", |go| sorted::every_sorted(0..=4, 3, &mut |asks| go(after(asks))));
    tally.group("compose: every sorted list of 0 to 22 tokens at four places", |go| {
        sorted::every_sorted(0..=22, 2, &mut |asks| go(after(asks)))
    });
    tally.group("compose: every list of 0 to 7 tokens at three places", |go| {
        sorted::every_list(0..=7, &[(0, 0), (0, 1), (1, 0)], &mut |asks| go(after(asks)))
    });
    tally.group("compose: sorted, from each token", from_each);
    tally.group("compose: sorted, every order", |go| every_order(&mut Random::new(seed, "orders"), go));
    tally.group("compose: sorted but for one token", |go| falls(&mut Random::new(seed, "falls"), go));
    tally.group("compose: every shape", |go| shapes(&mut Random::new(seed, "compose shapes"), 10 * scale, go));
}
