//! Two tables compared, each pair both ways round. Ours is held to the model; to the crate's own tokens, by position and place there;
//! and to the crate's texts of both, which are the same where there is no entry, and only there if both surely read back. Some pairs are
//! made together with their entries, and are judged by those too.

use crate::cases::{Case, Class, Random, Tally, met_code, other_segments, parts, with_segments};
use crate::looking::LINES;
use crate::many::{SHAPES, shaped};
use crate::model::{
    self, Answer, Change, DIFFERENT, NONE, ONLY_LEFT, ONLY_RIGHT, Six, Token, TokenChunk, WIDTH, table_of, tokens_of,
};
use crate::ours::{self, Lent};
use crate::sorted;
use crate::theirs::{BUILDS, RELEASE};

type Place = (u32, u32);
type Go<'a> = &'a mut dyn FnMut(Changes) -> bool;

const HALF: u32 = 1 << 31;

/// Lists of more tokens are held to one build of the crate.
const LONG: usize = 10_000;

#[derive(Clone)]
pub struct Changes {
    pub left: Vec<u32>,
    pub right: Vec<u32>,
    /// How many places the list has that is filled. Without: more than it takes, just enough, one less and none.
    pub room: Option<usize>,
    /// The entries, where the pair was made with them.
    pub due: Option<Vec<Change>>,
}

impl std::fmt::Debug for Changes {
    fn fmt(&self, f: &mut std::fmt::Formatter<'_>) -> std::fmt::Result {
        for (name, table) in [("left", &self.left), ("right", &self.right)] {
            write!(f, "{name}")?;
            for token in table.chunks(WIDTH) {
                write!(f, " {token:?}")?;
            }
            write!(f, "; ")?;
        }
        match self.room {
            Some(room) => write!(f, "room for {room} numbers"),
            None => write!(f, "any room"),
        }
    }
}

/// Whether ours gives what was compared, in a list of so many places, the rest of it as it was.
fn gives(want: &Result<Vec<Change>, Answer>, left: &[u32], right: &[u32], room: usize) -> Result<(), String> {
    let (answer, entries, numbers) = model::compared(want, room);
    let mut out = Lent::new(room);
    let got = ours::compare(left, right, &mut out);
    if got != (answer, entries) {
        return Err(format!("with room for {room} ours {got:?}, the model {:?}", (answer, entries)));
    }
    if !out.is(&numbers) {
        return Err(format!("with room for {room} ours {:?}, and {numbers:?} was due with the rest as it was", out.numbers()));
    }
    met_code("changes", answer.code);
    Ok(())
}

/// One way round: with each room, and again with other segments on either side.
fn one_way(left: &[u32], right: &[u32], room: Option<usize>) -> Result<Result<Vec<Change>, Answer>, String> {
    let want = model::changes(left, right);
    let needed = want.as_ref().map_or(0, |entries| 3 * entries.len());
    let mut rooms = room.map_or(vec![needed + 4, needed, needed.saturating_sub(1), 0], |room| vec![room]);
    rooms.dedup();
    for &room in &rooms {
        gives(&want, left, right, room)?;
    }
    gives(&want, &other_segments(left), right, rooms[0]).map_err(|why| format!("other segments on the left: {why}"))?;
    gives(&want, left, &other_segments(right), rooms[0]).map_err(|why| format!("other segments on the right: {why}"))?;
    Ok(want)
}

fn turned(entries: &[Change]) -> Vec<Change> {
    let kind = |kind| match kind {
        ONLY_LEFT => ONLY_RIGHT,
        ONLY_RIGHT => ONLY_LEFT,
        other => other,
    };
    entries.iter().map(|&[k, l, r]| [kind(k), r, l]).collect()
}

/// The tokens of the crate, told apart as the crate does.
fn by_crate(left: &[Token], right: &[Token], entries: &[Change]) -> Result<(), String> {
    let index = |i: u32| (i != NONE).then_some(i as usize);
    let ours: Vec<_> = entries.iter().map(|&[_, l, r]| (index(l), index(r))).collect();
    let builds = if left.len().max(right.len()) < LONG { &BUILDS[..] } else { &BUILDS[1..] };
    for build in builds {
        let (theirs, equal) = (build.differ)(left, right);
        if theirs != ours {
            return Err(format!("the {} crate's tokens differ at {theirs:?}, ours {entries:?}", build.name));
        }
        if equal != entries.is_empty() {
            return Err(format!("the {} crate's lists are equal: {equal}, ours {entries:?}", build.name));
        }
    }
    met_code("changes, by the crate", (!entries.is_empty()).into());
    Ok(())
}

/// The crate's texts of all tokens, where it can write them.
fn by_text(left: &[Token], right: &[Token], entries: &[Change]) -> Result<(), String> {
    if left.iter().chain(right).any(|t| t.dst_line > LINES) {
        return Ok(());
    }
    let text = |tokens: &[Token]| {
        let chunk = TokenChunk { end: tokens.len() as u32, ..TokenChunk::default() };
        (RELEASE.encode)(tokens, chunk).ok_or("the crate does not write it")
    };
    let same = text(left)? == text(right)?;
    let read_back = [left, right].iter().all(|tokens| model::meets_premises(&table_of(tokens), NONE, NONE));
    if (entries.is_empty() && !same) || (read_back && same && !entries.is_empty()) {
        return Err(format!("the crate's texts are the same: {same}, ours {entries:?}"));
    }
    if read_back {
        met_code("changes, by the text", (!same).into());
    }
    Ok(())
}

impl Case for Changes {
    fn check(&self) -> Result<Vec<Class>, String> {
        let (left, right) = (&self.left, &self.right);
        let there = one_way(left, right, self.room)?;
        let back = one_way(right, left, self.room).map_err(|why| format!("the other way round: {why}"))?;
        let entries = match there {
            Ok(entries) => entries,
            Err(refusal) => {
                if refusal.code == model::UNSORTED {
                    let [l, r] = [left, right].map(|table| model::first_fall(&tokens_of(table)).is_some());
                    met_code("changes, unsorted", u64::from(l) + 2 * u64::from(r));
                }
                return Ok(vec![]);
            }
        };
        // From here on the entries are ours too.
        if back != Ok(turned(&entries)) {
            return Err(format!("{entries:?}, and the other way round {back:?}"));
        }
        if self.due.as_ref().is_some_and(|due| *due != entries) {
            return Err(format!("{entries:?}, and the pair was made with {:?}", self.due));
        }
        if left == right {
            let mut out = Lent::new(3);
            let table = (left.as_ptr(), left.len());
            let got = unsafe { ours::raw::compare(table, table, &mut out) };
            if got != (model::answer(model::DONE, 0), 0) || !out.is(&[]) {
                return Err(format!("the same memory on both sides: {got:?}"));
            }
        }
        for &[kind, ..] in &entries {
            met_code("changes, by kind", kind.into());
        }
        let tokens = [left, right].map(|table| tokens_of(table));
        by_crate(&tokens[0], &tokens[1], &entries)?;
        by_text(&tokens[0], &tokens[1], &entries)?;
        Ok(vec![])
    }

    fn smaller(&self) -> Vec<Changes> {
        let mut list = Vec::new();
        let counts = [&self.left, &self.right].map(|table| table.len() / WIDTH);
        let without = |table: &[u32], from: usize, to: usize| {
            let count = table.len() / WIDTH;
            [&table[..WIDTH * from.min(count)], &table[WIDTH * to.min(count)..]].concat()
        };
        let of = |left: Vec<u32>, right: Vec<u32>| Changes { left, right, room: self.room, due: None };
        for (from, to) in parts(counts[0].max(counts[1])) {
            let (left, right) = (without(&self.left, from, to), without(&self.right, from, to));
            list.push(of(left.clone(), right.clone()));
            list.push(of(left, self.right.clone()));
            list.push(of(self.left.clone(), right));
        }
        for i in 0..self.left.len().min(4 * WIDTH) {
            let mut left = self.left.clone();
            left[i] = 0;
            list.push(of(left, self.right.clone()));
        }
        for i in 0..self.right.len().min(4 * WIDTH) {
            let mut right = self.right.clone();
            right[i] = 0;
            list.push(of(self.left.clone(), right));
        }
        list
    }

    fn size(&self) -> usize {
        let numbers = self.left.iter().chain(&self.right);
        1000 * (self.left.len() + self.right.len()) + numbers.map(|&n| n.min(9) as usize).sum::<usize>()
    }
}

impl Changes {
    pub fn of(left: &[Token], right: &[Token]) -> Changes {
        Changes { left: table_of(&with_segments(left, 2)), right: table_of(&with_segments(right, 3)), room: None, due: None }
    }
}

/// Tokens at these places, each with a source position of its own.
pub fn at_places(places: &[Place]) -> Vec<Token> {
    let token = |(i, &(line, col)): (usize, &Place)| Token::with([line, col, i as u32 / 5, 3 * (i as u32 % 5), 0, NONE], 0);
    places.iter().enumerate().map(token).collect()
}

/// A token at a place, of two that differ in one number.
fn variant((line, col): Place, other: bool, number: usize) -> Token {
    let mut six: Six = [line, col, 5, 6, 0, 1];
    if other {
        six[number] = if number < 4 { 7 } else { NONE };
    }
    Token::with(six, 0)
}

/// Every list of up to so many tokens, in the order of these places; each token one of two.
fn small(most: usize, places: &[Place]) -> Vec<Vec<(usize, bool)>> {
    let mut all: Vec<Vec<(usize, bool)>> = vec![vec![]];
    let mut last = all.clone();
    for _ in 0..most {
        let longer = |list: &Vec<(usize, bool)>| {
            let from = list.last().map_or(0, |&(place, _)| place);
            let with = |(place, other)| [&list[..], &[(place, other)]].concat();
            (from..places.len()).flat_map(|place| [(place, false), (place, true)]).map(with).collect::<Vec<_>>()
        };
        last = last.iter().flat_map(longer).collect();
        all.extend(last.iter().cloned());
    }
    all
}

/// Each pair of them once: the check turns it round. The two that a token may be differ in each number in turn.
pub fn small_pairs(most: usize, places: &[Place], go: Go) {
    let lists = small(most, places);
    for i in 0..lists.len() {
        for j in 0..=i {
            let tokens = |list: &[(usize, bool)]| -> Vec<Token> {
                list.iter().map(|&(place, other)| variant(places[place], other, 2 + (i + j) % 4)).collect()
            };
            if !go(Changes::of(&tokens(&lists[i]), &tokens(&lists[j]))) {
                return;
            }
        }
    }
}

/// Every list, sorted or not, of up to so many tokens at these places; each pair of them once.
fn any_pairs(most: u32, places: &[Place], go: Go) {
    let n = places.len();
    let list = |tokens: u32, code: usize| at_places(&(0..tokens).map(|i| places[code / n.pow(i) % n]).collect::<Vec<_>>());
    let lists: Vec<Vec<Token>> =
        (0..=most).flat_map(|tokens| (0..n.pow(tokens)).map(move |code| (tokens, code))).map(|(t, c)| list(t, c)).collect();
    for i in 0..lists.len() {
        for j in 0..=i {
            if !go(Changes::of(&lists[i], &lists[j])) {
                return;
            }
        }
    }
}

/// Every length of two short tables, either of them falling or not, and of what is filled: every refusal with every other.
pub fn lengths(go: Go) {
    let tokens = |side: u32, falls: bool| -> Vec<Token> {
        let token = |i: u32| Token::with([0, 2 * i + 1 + side * u32::from(i % 3 == 2), 4, side * (i % 2), 0, NONE], i);
        let mut tokens: Vec<Token> = (0..4).map(token).collect();
        if falls {
            tokens[1].dst_col = 0;
        }
        tokens
    };
    for (l, r) in (0..=4 * WIDTH).flat_map(|l| (0..=4 * WIDTH).map(move |r| (l, r))) {
        for (left_falls, right_falls) in [(false, false), (true, false), (false, true), (true, true)] {
            let (left, right) = (table_of(&tokens(0, left_falls)), table_of(&tokens(1, right_falls)));
            for room in [None, Some(0), Some(1), Some(3), Some(6), Some(8), Some(9), Some(11), Some(12)] {
                if !go(Changes { left: left[..l].to_vec(), right: right[..r].to_vec(), room, due: None }) {
                    return;
                }
            }
        }
    }
}

/// Each number of each token of the right table changed alone.
pub fn one_number(go: Go) {
    for count in (1..=20).chain([31, 32, 33, 64, 65]) {
        for kind in 0..sorted::KINDS {
            let left = at_places(&sorted::in_order(kind, count));
            for (i, number) in (0..count).flat_map(|i| (0..WIDTH).map(move |number| (i, number))) {
                for change in [|n: u32| n.wrapping_add(1), |n: u32| n.wrapping_sub(1), |n: u32| n ^ HALF, |_| NONE, |_| 0] {
                    let (left, mut right) = (table_of(&left), table_of(&left));
                    right[WIDTH * i + number] = change(right[WIDTH * i + number]);
                    if !go(Changes { left, right, room: None, due: None }) {
                        return;
                    }
                }
            }
        }
    }
}

/// So many tokens at one place, of which the k-th has this source line.
fn equals(place: Place, count: usize, line: impl Fn(usize) -> u32) -> Vec<Token> {
    (0..count).map(|k| Token::with([place.0, place.1, line(k), 1, 0, NONE], 0)).collect()
}

const RUNS: usize = 6;

/// So many tokens at one place on the left, and so many on the right.
fn two_runs(kind: usize, place: Place, l: usize, r: usize) -> [Vec<Token>; 2] {
    let common = l.min(r);
    let right = |k: usize| match kind {
        // All alike; each its own; in the other order; one further on; the last that has another beside it differs; the first does.
        0 => 0,
        2 => (r - 1 - k) as u32,
        3 => k as u32 + 1,
        4 if k + 1 == common => 99,
        5 if k == 0 => 99,
        _ => k as u32,
    };
    [equals(place, l, |k| if kind == 0 { 0 } else { k as u32 }), equals(place, r, right)]
}

/// Runs of equal positions, of every two lengths, with tokens before and behind them; two runs, one behind the other; long ones.
pub fn runs(go: Go) {
    let mut put = |parts: &[[Vec<Token>; 2]]| {
        let side = |side: usize| parts.iter().flat_map(|part| part[side].clone()).collect::<Vec<Token>>();
        go(Changes::of(&side(0), &side(1)))
    };
    let short = (0..=9).flat_map(|l| (0..=9).map(move |r| (l, r)));
    let long = [1, 63, 64, 65, 200];
    let long = long.into_iter().flat_map(|l| long.map(|r| (l, r)));
    for (l, r) in short.chain(long) {
        for kind in 0..RUNS {
            for (before, behind) in [(0, 0), (1, 0), (0, 1), (1, 1), (3, 2)] {
                let [before, behind] = [((0, 4), before), ((0, 6), behind)].map(|(place, n)| two_runs(1, place, n, n));
                if !put(&[before, two_runs(kind, (0, 5), l, r), behind]) {
                    return;
                }
            }
        }
    }
    for code in 0..5usize.pow(4) {
        let n = |i: u32| code / 5usize.pow(i) % 5;
        for kind in 0..RUNS {
            if !put(&[two_runs(kind, (0, 5), n(0), n(1)), two_runs(kind, (1, 0), n(2), n(3))]) {
                return;
            }
        }
    }
}

/// One table goes on where the other ends; all of one stand before the other, or by turns with its own.
fn tails(go: Go) {
    for count in sorted::lengths() {
        for kind in 0..sorted::KINDS {
            let all = at_places(&sorted::in_order(kind, count));
            let step = if count <= 24 { 1 } else { count / 8 };
            for cut in (0..=count).step_by(step) {
                let by_turns =
                    |turn: usize| all.iter().enumerate().filter(|(i, _)| i % 3 % 2 == turn).map(|(_, t)| *t).collect::<Vec<_>>();
                let pairs = [
                    (all.clone(), all[..cut].to_vec()),
                    (all.clone(), all[cut..].to_vec()),
                    (all[..cut].to_vec(), all[cut..].to_vec()),
                    (by_turns(0), by_turns(1)),
                ];
                for (left, right) in pairs {
                    if !go(Changes::of(&left, &right)) {
                        return;
                    }
                }
            }
        }
    }
}

/// Every list of so many tokens at a few places, sorted or not, beside an empty one.
fn lists(tokens: std::ops::RangeInclusive<usize>, places: &[Place], go: Go) {
    sorted::every_list(tokens, places, &mut |asks| go(Changes::of(&at_places(&asks.places), &[])));
}

/// A table that falls at one token, each in turn, beside one that is sorted and one that falls elsewhere; and one that falls twice.
fn falls(go: Go) {
    for count in sorted::lengths().filter(|&count| count > 1) {
        for i in 1..count {
            for kind in 0..sorted::FALLS {
                let left = at_places(&sorted::fallen(kind, count, i));
                let other = 1 + (5 * i + kind) % (count - 1);
                let mut again = left.clone();
                again[other].dst_line = again[other - 1].dst_line;
                again[other].dst_col = again[other - 1].dst_col.saturating_sub(1);
                for right in [at_places(&sorted::in_order(kind, i)), at_places(&sorted::fallen(kind, count, other)), again] {
                    if !go(Changes::of(&left, &right)) {
                        return;
                    }
                }
            }
        }
    }
}

/// A token with numbers that often are those of another.
fn any_token(random: &mut Random, (line, col): Place) -> Token {
    let source = random.pick(&[0, 0, 1, NONE]);
    Token::with(
        [line, col, random.below(3) as u32, random.below(2) as u32, source, random.pick(&[NONE, NONE, 0])],
        random.number(),
    )
}

/// The list after so many edits: a token put in, left out, twice, with another number, or exchanged with the next.
pub fn edited(random: &mut Random, tokens: &[Token], edits: usize) -> Vec<Token> {
    let mut list = tokens.to_vec();
    for _ in 0..edits {
        let i = random.below(list.len() + 1);
        let Some(&t) = list.get(i) else {
            list.push(any_token(random, tokens.last().map_or((0, 0), |t| (t.dst_line, t.dst_col))));
            continue;
        };
        match random.below(6) {
            0 => list.insert(i, any_token(random, (t.dst_line, t.dst_col))),
            1 => list.insert(i, t),
            2 => drop(list.remove(i)),
            3 | 4 => {
                let mut numbers = t.numbers();
                let at = 2 + random.below(WIDTH - 2);
                numbers[at] = if random.one_in(3) { random.number() } else { numbers[at] ^ 1 << random.below(32) };
                list[i] = Token::of(&numbers);
            }
            // Of equal positions; of others both stand at the place of the first then.
            _ if i + 1 < list.len() => {
                let next = list[i + 1];
                list[i] = Token { dst_line: t.dst_line, dst_col: t.dst_col, ..next };
                list[i + 1] = Token { dst_line: next.dst_line, dst_col: next.dst_col, ..t };
            }
            _ => {}
        }
    }
    list
}

/// A sorted table in one of the shapes, and a copy after some edits, or another table of the shape; some that fall or are cut.
pub fn random_pairs(random: &mut Random, cases: usize, most: usize, go: Go) {
    for _ in 0..cases {
        let count = random.below(most + 1);
        let shape = random.below(SHAPES);
        let table = |random: &mut Random, count: usize| {
            let mut places = shaped(random, shape, count);
            places.sort();
            places.iter().map(|&place| any_token(random, place)).collect::<Vec<Token>>()
        };
        let left = table(random, count);
        let mut right = match random.below(8) {
            0 => left.clone(),
            1 => {
                let other = random.below(most + 1);
                table(random, other)
            }
            _ => {
                let edits = 1 + random.below(12);
                edited(random, &left, edits)
            }
        };
        if random.one_in(12) && right.len() > 1 {
            let (i, j) = (random.below(right.len()), random.below(right.len()));
            right.swap(i, j);
        }
        let mut case = Changes { left: table_of(&left), right: table_of(&right), room: None, due: None };
        if random.one_in(40) {
            let cut = 1 + random.below(WIDTH - 1);
            let side = if random.one_in(2) { &mut case.left } else { &mut case.right };
            side.truncate(side.len().saturating_sub(cut));
        }
        if !go(case) {
            return;
        }
    }
}

/// A pair made with its entries: at each position some tokens on either side, and of each place it is said whether both are the same.
pub fn made(random: &mut Random, positions: usize) -> Changes {
    let (mut left, mut right, mut due) = (Vec::new(), Vec::new(), Vec::new());
    let (mut line, mut col) = (0, random.below(3) as u32);
    for _ in 0..positions {
        let (l, r) = random.pick(&[(1, 1), (1, 1), (1, 1), (1, 0), (0, 1), (2, 2), (3, 3), (2, 1), (1, 3), (0, 2), (4, 0)]);
        for place in 0..l.max(r) {
            let t = any_token(random, (line, col));
            let mut numbers = t.numbers();
            // The seventh number may be any in either.
            numbers[WIDTH - 1] = random.number();
            let indices = [left.len() as u32, right.len() as u32];
            if place < l && place < r && random.one_in(3) {
                let at = 2 + random.below(4);
                numbers[at] ^= 1 << random.below(32);
                due.push([DIFFERENT, indices[0], indices[1]]);
            } else if place >= r {
                due.push([ONLY_LEFT, indices[0], NONE]);
            } else if place >= l {
                due.push([ONLY_RIGHT, NONE, indices[1]]);
            }
            if place < l {
                left.push(t);
            }
            if place < r {
                right.push(Token::of(&numbers));
            }
        }
        if random.one_in(5) {
            line += 1 + random.below(3) as u32;
            col = random.below(4) as u32;
        } else {
            col += 1 + random.below(5) as u32;
        }
    }
    Changes { left: table_of(&left), right: table_of(&right), room: None, due: Some(due) }
}

fn made_pairs(random: &mut Random, cases: usize, most: usize, go: Go) {
    for _ in 0..cases {
        let positions = random.below(most + 1);
        if !go(made(random, positions)) {
            return;
        }
    }
}

/// Places at the edges of lines and columns, in their order.
pub fn edges() -> [Place; 5] {
    [(0, 0), (0, NONE), (HALF - 1, NONE), (HALF, 0), (NONE, NONE)]
}

/// Every position on these lines and columns.
pub fn grid(numbers: &[u32]) -> Vec<Place> {
    numbers.iter().flat_map(|&line| numbers.iter().map(move |&col| (line, col))).collect()
}

pub fn run(tally: &mut Tally, seed: u64, scale: usize) {
    tally.group("changes: every length", lengths);
    tally.group("changes: every two lists of up to 4 tokens", |go| small_pairs(4, &grid(&[0, 1]), go));
    tally.group("changes: every two lists of up to 3 tokens at the edges", |go| small_pairs(3, &edges(), go));
    tally
        .group("changes: any two lists of up to 2 tokens at the edges", |go| any_pairs(2, &grid(&[0, HALF - 1, HALF, NONE]), go));
    tally.group("changes: one number", one_number);
    tally.group("changes: runs of equal positions", runs);
    tally.group("changes: tails", tails);
    tally.group("changes: any list of up to 8 tokens at three places", |go| lists(0..=8, &[(0, 0), (0, 1), (1, 0)], go));
    tally.group("changes: any list of 9 to 13 tokens on two columns", |go| lists(9..=13, &[(1, 0), (1, 1)], go));
    tally.group("changes: any list of 9 to 13 tokens on two lines", |go| lists(9..=13, &[(0, 1), (1, 0)], go));
    tally.group("changes: tables that fall", falls);
    tally.group("changes: made with their entries", |go| {
        made_pairs(&mut Random::new(seed, "made changes"), 20_000 * scale, 60, go)
    });
    tally.group("changes: lists", |go| random_pairs(&mut Random::new(seed, "changes"), 40_000 * scale, 200, go));
    tally.group("changes: long lists", |go| random_pairs(&mut Random::new(seed, "long changes"), 300 * scale, 5_000, go));
}
