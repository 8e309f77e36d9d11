//! Names for composing. The plain call searches them one by one, the other by an index in its working memory, where a name has the slot
//! that a number of its bytes tells. So here are names that are equal in one list, or in both, that share a slot, or all of that number,
//! and that are asked for again.

use std::collections::HashMap;

use crate::cases::{Random, Tally};
use crate::composing::{Pair, names_of};
use crate::model::{NONE, Names, Token};

type Go<'a> = &'a mut dyn FnMut(Pair) -> bool;

/// As crates/name_index has it. Where that changes, these names only share no slot any more.
fn number_of(name: &[u8]) -> u64 {
    name.iter().fold(0, |h, &b| (h + u64::from(b)) * 2_654_435_761 % (1 << 32))
}

fn slot_of(name: &[u8], slots: usize) -> usize {
    (number_of(name) * slots as u64 / (1 << 32)) as usize
}

fn any_name(random: &mut Random) -> Vec<u8> {
    (0..6).map(|_| b'a' + random.below(26) as u8).collect()
}

/// Names of one length with the same number, two by two: among so many names some are.
fn alike() -> Vec<[Vec<u8>; 2]> {
    let mut random = Random::new(1, "alike");
    let mut seen: HashMap<u64, Vec<u8>> = HashMap::new();
    let mut pairs = Vec::new();
    while pairs.len() < 4 {
        let name = any_name(&mut random);
        if let Some(other) = seen.insert(number_of(&name), name.clone()).filter(|other| *other != name) {
            pairs.push([other, name]);
        }
    }
    pairs
}

/// Outer tokens that ask for these ids in turn. Some stand where the inner token has a name, or no source, and ask for none.
pub fn asking(ids: &[u32], outer_names: Names, inner_names: Names) -> Pair {
    let inner = [[0, 0, 1, 1, 0, NONE], [0, 5, 2, 2, 0, 0], [1, 0, 3, 3, NONE, NONE]].map(|six| Token::with(six, 0));
    let outer = |(k, &id): (usize, &u32)| {
        let (line, col) = match k % 16 {
            6 => (0, 5),
            13 => (1, 0),
            _ => (0, 0),
        };
        Token::with([0, k as u32, line, col, 0, id], 0)
    };
    let outer: Vec<Token> = ids.iter().enumerate().map(outer).collect();
    Pair::of(&outer, outer_names, &inner, inner_names)
}

fn list(names: &[Vec<u8>], past: &[u8]) -> Names {
    names_of(&names.iter().map(|n| &n[..]).collect::<Vec<_>>(), past)
}

/// The lists of up to three of these names.
fn lists(names: &[Vec<u8>]) -> Vec<Vec<Vec<u8>>> {
    let mut all = vec![vec![]];
    let mut from = 0;
    for _ in 0..3 {
        let to = all.len();
        for i in from..to {
            for name in names {
                all.push([&all[i][..], &[name.clone()]].concat());
            }
        }
        from = to;
    }
    all
}

/// Every two lists of up to three names; each id, one past the list and none are asked for after each other, from each on.
fn every_two_lists(go: Go) {
    let [one, other] = alike().swap_remove(0);
    let lists = lists(&[b"".to_vec(), b"a".to_vec(), one, other]);
    for (outer, inner) in lists.iter().flat_map(|o| lists.iter().map(move |i| (o, i))) {
        let ids: Vec<u32> = (0..=outer.len() as u32).chain([NONE]).collect();
        for first in 0..ids.len() {
            let turned = [&ids[first..], &ids[..first]].concat();
            let asked: Vec<u32> = turned.iter().flat_map(|&a| turned.iter().flat_map(move |&b| [a, b])).collect();
            if !go(asking(&asked, list(outer, b""), list(inner, b"x"))) {
                return;
            }
        }
    }
}

/// So many names of one slot, of so many.
fn of_one_slot(random: &mut Random, count: usize, slot: usize, slots: usize) -> Vec<Vec<u8>> {
    let mut names = Vec::new();
    while names.len() < count {
        let name = any_name(random);
        if slot_of(&name, slots) == slot {
            names.push(name);
        }
    }
    names
}

/// Lists whose names share one slot: the first, the last or one between.
fn one_slot(random: &mut Random, go: Go) {
    for (outer, inner) in (0..=12).flat_map(|o| (0..=12).map(move |i| (o, i))) {
        let slots: usize = outer + inner;
        for slot in [0, slots / 2, slots.saturating_sub(1)] {
            let names = of_one_slot(random, slots, slot, slots.max(1));
            let mut outer_list = names[..outer].to_vec();
            // One of the inner ones too, and one of its own again.
            if outer > 2 && inner > 0 {
                outer_list[1] = names[outer + random.below(inner)].clone();
                outer_list[2] = names[0].clone();
            }
            let ids: Vec<u32> = (0..outer as u32 + 1).chain(0..outer as u32).collect();
            if !go(asking(&ids, list(&outer_list, b""), list(&names[outer..], b""))) {
                return;
            }
        }
    }
}

/// The ids of so many tokens, of a list of so many names: any, the same again and again, two by turns, rising or falling.
pub fn some_ids(random: &mut Random, tokens: usize, names: usize) -> Vec<u32> {
    let id = |random: &mut Random| match random.below(12) {
        0 => NONE,
        1 => random.pick(&[names as u32, names as u32 + 1, 0x8000_0000, NONE - 1]),
        _ => random.below(names.max(1)) as u32,
    };
    let mut ids = Vec::new();
    while ids.len() < tokens {
        let (a, b, times) = (id(random), id(random), 1 + random.below(12));
        match random.below(5) {
            0 => ids.extend(vec![a; times]),
            1 => ids.extend([a, b].repeat(times)),
            2 => ids.extend((0..times as u32).map(|k| a.wrapping_add(k))),
            3 => ids.extend((0..times as u32).map(|k| a.wrapping_sub(k))),
            _ => ids.push(a),
        }
    }
    ids.truncate(tokens);
    ids
}

/// So many names of so many kinds, some of which have the same number.
pub fn some_names(random: &mut Random, count: usize, kinds: usize) -> Names {
    let alike: Vec<Vec<u8>> = alike().into_iter().flatten().collect();
    let name = |random: &mut Random| match random.below(kinds) {
        0 => vec![],
        k if k <= alike.len() => alike[k - 1].clone(),
        k => format!("n{k}").into_bytes(),
    };
    list(&(0..count).map(|_| name(random)).collect::<Vec<_>>(), b"")
}

/// Lists of so many names at most, of few kinds or of many: empty ones, some with the same number, some that begin alike.
fn any_lists(random: &mut Random, cases: usize, names: std::ops::Range<usize>, tokens: usize, go: Go) {
    let alike: Vec<Vec<u8>> = alike().into_iter().flatten().collect();
    for _ in 0..cases {
        let kinds = random.pick(&[3, names.end, 4 * names.end]);
        let long = random.one_in(8);
        let some = |random: &mut Random| -> Vec<Vec<u8>> {
            let name = |random: &mut Random| match random.below(12) {
                0 => random.pick(&[&b""[..], b"\0", b"\0\0", b"a", b"\0a"]).to_vec(),
                1 | 2 => alike[random.below(alike.len())].clone(),
                _ => format!("{}{}", if long { "a".repeat(300) } else { "n".to_string() }, random.below(kinds)).into_bytes(),
            };
            (0..names.start + random.below(names.len())).map(|_| name(random)).collect()
        };
        let (outer, inner) = (some(random), some(random));
        let tokens = random.below(tokens + 1);
        let mut pair = asking(&some_ids(random, tokens, outer.len()), list(&outer, b""), list(&inner, b"rest"));
        pair.added += random.below(3);
        if !go(pair) {
            return;
        }
    }
}

pub fn run(tally: &mut Tally, seed: u64, scale: usize) {
    tally.group("compose: every two lists of 0 to 3 names", every_two_lists);
    tally.group("compose: names of one slot", |go| one_slot(&mut Random::new(seed, "slots"), go));
    tally.group("compose: names", |go| any_lists(&mut Random::new(seed, "names"), 20_000 * scale, 0..13, 40, go));
    tally.group("compose: many names", |go| any_lists(&mut Random::new(seed, "many names"), 100 * scale, 100..500, 1_500, go));
}
