//! Composing, by the plain call and by the one with working memory. Each is held to the model, and the second to the first; the crate
//! is held to the model with the crate's own lookup in it, and every difference that then remains between the two is one of the
//! lookup's. seeking.rs has the tables and positions that are in need of a look, naming.rs the names.

use std::collections::HashMap;

use crate::cases::{Case, Class, Random, Tally, met_code, other_segments, parts, with_segments};
use crate::looking::{self, LINES};
use crate::model::{
    self, Answer, Composed, DONE, Inner, NONE, NameOf, Names, Outer, Six, Token, WIDTH, sixes, table_of, tokens_of,
};
use crate::ours::{Lent, Room, composer};
use crate::theirs::{BUILDS, Build};
use crate::{naming, seeking, sorted};

pub const TWO_SOURCES: Class = "compose: two outer sources; the crate panics";
pub const PANICS: Class = "compose: lines of the inner list fall; the crate panics";
pub const LOOKUP: Class = "compose: differs by the lookup";

#[derive(Clone)]
pub struct Pair {
    pub outer: Vec<u32>,
    pub sources: u32,
    pub outer_names: Names,
    pub inner: Vec<u32>,
    pub inner_names: Names,
    /// Numbers lent for the result, and for the added list.
    pub result: usize,
    pub added: usize,
}

/// The answer, how many names were added, and what was lent, as it is then.
type Given = ((Answer, u64), Room);

fn names_shown(names: &Names) -> String {
    if !names.sound() {
        return format!("{names:?}");
    }
    format!("{:?}", (0..names.count()).map(|i| names.name(i).escape_ascii().to_string()).collect::<Vec<_>>())
}

impl std::fmt::Debug for Pair {
    fn fmt(&self, f: &mut std::fmt::Formatter<'_>) -> std::fmt::Result {
        let table = |t: &[u32]| t.chunks(WIDTH).map(|t| format!("{t:?}")).collect::<Vec<_>>().join(" ");
        write!(
            f,
            "outer {} of {} sources and names {}, inner {} and names {}, room {} and {}",
            table(&self.outer),
            self.sources,
            names_shown(&self.outer_names),
            table(&self.inner),
            names_shown(&self.inner_names),
            self.result,
            self.added
        )
    }
}

impl Pair {
    /// One source, and just enough room.
    pub fn of(outer: &[Token], outer_names: Names, inner: &[Token], inner_names: Names) -> Pair {
        Pair {
            result: WIDTH * outer.len(),
            added: outer_names.count(),
            outer: table_of(&with_segments(outer, 0)),
            sources: 1,
            outer_names,
            inner: table_of(&with_segments(inner, 1)),
            inner_names,
        }
    }

    fn outer(&self) -> Outer<'_> {
        Outer { table: &self.outer, sources: self.sources, names: &self.outer_names }
    }

    fn inner(&self) -> Inner<'_> {
        Inner { table: &self.inner, names: &self.inner_names }
    }

    pub fn model(&self) -> Composed {
        model::compose(&self.outer(), &self.inner(), self.result, self.added)
    }

    fn ours_agrees(&self) -> Result<(), String> {
        if !composer::HERE {
            return Ok(());
        }
        let m = self.model();
        let plain = self.ours_is(&m, &self.inner, None)?;
        // A result's token has the segment of the outer token in its place, mapped or not.
        let result = plain.1.result.numbers();
        if let Some(i) = (6..WIDTH * m.tokens.len()).step_by(WIDTH).find(|&i| result[i] != self.outer[i]) {
            return Err(format!("token {} has the segment {}, its outer token {}", i / WIDTH, result[i], self.outer[i]));
        }
        let other = other_segments(&self.inner);
        self.ours_is(&m, &other, None).map_err(|why| format!("with other inner segments: {why}"))?;
        met_code("compose", m.answer.code);
        if m.answer.code == DONE {
            met_code("compose, a sorted table", sorted::is_sorted(&tokens_of(&self.inner)).into());
        }
        self.with_work_agrees(&m, &plain, &other)?;
        // The added list as it was lent, whose places past the count hold the pattern; none; and ids on either side of the count.
        let count = self.outer_names.count() as u32;
        let around = [count, count.saturating_sub(1), count + 1, 0, NONE];
        for list in [&m.added[..], plain.1.added.numbers(), &[], &around] {
            self.names_agree(list)?;
        }
        Ok(())
    }

    /// The library, over an inner table, held to the model's answer; what it gave and wrote.
    fn ours_is(&self, m: &Composed, inner: &[u32], work: Option<Lent>) -> Result<Given, String> {
        let before = work.clone();
        let mut room = Room { result: Lent::new(self.result), added: Lent::new(self.added), work };
        let got = composer::compose(&self.outer, self.sources, &self.outer_names, inner, &self.inner_names, &mut room);
        let want = (m.answer, m.added.len() as u64);
        if got != want {
            return Err(format!("ours {got:?}, the model {want:?}"));
        }
        if !room.result.is(&table_of(&m.tokens)) {
            return Err(format!("ours has {:?}, the model {:?}", tokens_of(room.result.numbers()), m.tokens));
        }
        if !room.added.is(&m.added) {
            return Err(format!("ours adds {:?}, the model {:?}", room.added.numbers(), m.added));
        }
        if m.answer.code != DONE && room.work != before {
            return Err("a refusal changed the working memory".to_string());
        }
        if room.work.as_ref().is_some_and(|work| !work.is(work.numbers())) {
            return Err("something was written beside the working memory".to_string());
        }
        Ok((got, room))
    }

    /// The call with working memory: just enough, more, one number less, and none. It may hold anything: numbers as an index has them,
    /// any numbers, or what a call left.
    fn with_work_agrees(&self, m: &Composed, plain: &Given, other: &[u32]) -> Result<(), String> {
        let need = model::work_for(&self.outer_names, &self.inner_names);
        for len in [need, need + 1 + self.size() % 20, need.saturating_sub(1), 0] {
            let m = model::compose_with(m, need, len);
            let shown = |why: String| format!("with {len} numbers of working memory: {why}");
            let with = self.ours_is(&m, &self.inner, Some(self.used(len))).map_err(shown)?;
            met_code(if len < need { "compose, too little work" } else { "compose, with work" }, m.answer.code);
            if len >= need {
                if with.0 != plain.0 || with.1.result != plain.1.result || with.1.added != plain.1.added {
                    return Err(shown("not what the plain call gives".to_string()));
                }
                self.ours_is(&m, other, with.1.work).map_err(|why| shown(format!("again, with other inner segments: {why}")))?;
            }
        }
        Ok(())
    }

    /// Working memory that was used before. Half of the time an entry leads to one before it, as in an index.
    fn used(&self, len: usize) -> Lent {
        let mut random = Random::new((self.size() + len) as u64, "work");
        let names = (self.outer_names.count() + self.inner_names.count()).max(1);
        let index = random.one_in(2);
        let numbers: Vec<u32> =
            (0..len).map(|p| if index { random.below(p % names + 1) as u32 } else { random.next() as u32 }).collect();
        Lent::holding(&numbers)
    }

    fn names_agree(&self, added: &[u32]) -> Result<(), String> {
        let count = (self.inner_names.count() + added.len()) as u32;
        for id in (0..count + 2).chain([0x7fff_ffff, 0x8000_0000, NONE - 1, NONE]) {
            let got = composer::name_of(&self.inner_names, &self.outer_names, added, id);
            let m = model::name_of(&self.inner_names, &self.outer_names, added, id);
            let fits = match m {
                None => got == NameOf { found: 0, outer: 0, start: 0, end: 0 },
                Some((outer, start, end)) => {
                    got == NameOf { found: 1, outer: u64::from(outer), start: start as u64, end: end as u64 }
                }
            };
            if !fits {
                return Err(format!("the name of {id}: ours {got:?}, the model {m:?}"));
            }
        }
        Ok(())
    }

    /// The crate, held to the model with the crate's lookup in it. What it gives.
    fn theirs(&self, build: &Build) -> Result<Option<(Vec<Six>, Vec<Vec<u8>>)>, String> {
        let outer = tokens_of(&self.outer);
        let inner = tokens_of(&self.inner);
        let theirs = (build.compose)(&outer, self.sources as usize, &self.outer_names, &inner, &self.inner_names);
        if self.sources > 1 {
            return if theirs.is_none() { Ok(None) } else { Err(format!("the {} crate takes two sources", build.name)) };
        }
        let asked: Vec<(u32, u32)> = outer.iter().map(|t| (t.src_line, t.src_col)).collect();
        let want = (build.look)(&inner, &asked).map(|found| {
            let looked = found.iter().map(|f| f.0.map(|six| Token::with(six, NONE)));
            let known: HashMap<(u32, u32), Option<Token>> = asked.iter().copied().zip(looked).collect();
            let (tokens, added) = model::composed(&self.outer(), &self.inner(), &|line, col| known[&(line, col)]);
            let inner_names = (0..self.inner_names.count()).map(|i| self.inner_names.name(i).to_vec());
            let names = inner_names.chain(added.iter().map(|&a| self.outer_names.name(a as usize).to_vec()));
            (sixes(&tokens), names.collect())
        });
        if theirs != want {
            return Err(format!("the {} crate has {theirs:?}, the model with its lookup {want:?}", build.name));
        }
        Ok(theirs)
    }

    pub fn crate_takes(&self) -> bool {
        let utf8 = |n: &Names| n.sound() && (0..n.count()).all(|i| std::str::from_utf8(n.name(i)).is_ok());
        self.outer.len() % WIDTH == 0
            && self.inner.len() % WIDTH == 0
            && utf8(&self.outer_names)
            && utf8(&self.inner_names)
            && tokens_of(&self.inner).iter().all(|t| t.dst_line <= LINES)
    }
}

impl Case for Pair {
    fn check(&self) -> Result<Vec<Class>, String> {
        self.ours_agrees()?;
        if !self.crate_takes() {
            return Ok(vec![]);
        }
        let mut classes = Vec::new();
        for build in BUILDS {
            let theirs = self.theirs(&build)?;
            let inner = tokens_of(&self.inner);
            let look = |line, col| model::lookup(&inner, line, col).map(|i| inner[i]);
            let (tokens, _) = model::composed(&self.outer(), &self.inner(), &look);
            let differs = |t: &Token| t.source_id != NONE && looking::class_of(&inner, t.src_line, t.src_col).is_some();
            let explained = || tokens_of(&self.outer).iter().any(differs);
            match theirs {
                None if self.sources > 1 => classes.push(TWO_SOURCES),
                None => classes.push(PANICS),
                Some((t, _)) if t == sixes(&tokens) => {}
                Some(_) if explained() => classes.push(LOOKUP),
                Some((t, _)) => return Err(format!("the {} crate has {t:?}, ours {tokens:?}", build.name)),
            }
        }
        classes.dedup();
        Ok(classes)
    }

    fn smaller(&self) -> Vec<Pair> {
        let mut list = Vec::new();
        for (from, to) in parts(self.outer.len() / WIDTH) {
            let mut p = self.clone();
            p.outer.drain(WIDTH * from..WIDTH * to);
            list.push(p);
        }
        for (from, to) in parts(self.inner.len() / WIDTH) {
            let mut p = self.clone();
            p.inner.drain(WIDTH * from..WIDTH * to);
            list.push(p);
        }
        let without = |names: &Names, from: usize, to: usize| {
            let kept: Vec<&[u8]> = (0..names.count()).filter(|&k| k < from || to <= k).map(|k| names.name(k)).collect();
            names_of(&kept, b"")
        };
        if self.outer_names.sound() && self.inner_names.sound() {
            for (from, to) in parts(self.outer_names.count()) {
                list.push(Pair { outer_names: without(&self.outer_names, from, to), ..self.clone() });
            }
            for (from, to) in parts(self.inner_names.count()) {
                list.push(Pair { inner_names: without(&self.inner_names, from, to), ..self.clone() });
            }
        }
        for i in 0..self.outer.len() {
            let mut p = self.clone();
            p.outer[i] = 0;
            list.push(p);
        }
        for i in 0..self.inner.len() {
            let mut p = self.clone();
            p.inner[i] = 0;
            list.push(p);
        }
        list
    }

    fn size(&self) -> usize {
        let numbers = self.outer.iter().chain(&self.inner).filter(|&&n| n != 0).count();
        let names = self.outer_names.count() + self.inner_names.count();
        100 * (self.outer.len() + self.inner.len()) + 30 * names + numbers + self.sources.min(9) as usize
    }
}

/// A sound list of these names; past its last end stands what is handed in.
pub fn names_of(names: &[&[u8]], past: &[u8]) -> Names {
    let mut list = Names::default();
    for name in names {
        list.text.extend(*name);
        list.ends.push(list.text.len());
    }
    list.text.extend(past);
    list
}

const POOL: [&[u8]; 8] = [b"", b"a", b"b", b"ab", b"ba", "é".as_bytes(), b"abc", b"aa"];

fn random_names(random: &mut Random, most: usize) -> Names {
    let list: Vec<&[u8]> = (0..random.below(most + 1)).map(|_| random.pick(&POOL)).collect();
    let mut names = names_of(&list, random.pick(&[&b""[..], b"", b"rest"]));
    if random.one_in(30) && !names.ends.is_empty() {
        // An end out of order, or past the text.
        let i = random.below(names.ends.len());
        names.ends[i] = random.pick(&[0, 1, names.text.len(), names.text.len() + 1, 1 << 40, usize::MAX]);
    }
    names
}

fn random_id(random: &mut Random, count: usize) -> u32 {
    match random.below(8) {
        0 | 1 => NONE,
        2 => random.pick(&[count as u32, count as u32 + 1, 0x8000_0000, NONE - 1]),
        _ => random.below(count.max(1)) as u32,
    }
}

pub fn pairs(random: &mut Random, cases: usize, most: usize, go: &mut dyn FnMut(Pair) -> bool) {
    for _ in 0..cases {
        let lines = random.pick(&[1, 2, 5]);
        let wide = random.pick(&[2, 4, 30]);
        let outer_names = random_names(random, 6);
        let inner_names = random_names(random, 5);
        let mut inner: Vec<Token> = (0..random.below(most + 1))
            .map(|i| Token {
                dst_line: random.below(lines) as u32,
                dst_col: random.below(wide) as u32,
                src_line: i as u32,
                src_col: random.below(3) as u32,
                source_id: if random.one_in(6) { NONE } else { random.below(3) as u32 },
                name_id: random_id(random, inner_names.count()),
                segment: 0,
            })
            .collect();
        if random.one_in(12) {
            for t in &mut inner {
                t.dst_line = random.number();
            }
        }
        match random.below(5) {
            0 => {}
            1 => inner.sort_by_key(|t| t.dst_line),
            _ => inner.sort_by_key(|t| (t.dst_line, t.dst_col)),
        }
        let outer: Vec<Token> = (0..random.below(most + 1))
            .map(|i| Token {
                dst_line: i as u32 / 3,
                dst_col: random.number(),
                src_line: random.below(lines + 1) as u32,
                src_col: random.below(wide + 1) as u32,
                source_id: if random.one_in(6) { NONE } else { random.pick(&[0, 0, 0, 1, 9]) },
                name_id: random_id(random, outer_names.count()),
                segment: 0,
            })
            .collect();
        let mut pair = Pair {
            result: WIDTH * outer.len() + random.below(8),
            added: outer_names.count() + random.below(3),
            outer: table_of(&with_segments(&outer, 0)),
            sources: random.pick(&[1, 1, 1, 1, 1, 1, 0]),
            outer_names,
            inner: table_of(&with_segments(&inner, 0)),
            inner_names,
        };
        match random.below(30) {
            0 => pair.sources = random.pick(&[2, 3]),
            1 => pair.outer.truncate(random.below(pair.outer.len() + 1)),
            2 => pair.inner.truncate(random.below(pair.inner.len() + 1)),
            3 => pair.result = random.below(pair.result + 1),
            4 => pair.added = random.below(pair.added + 1),
            5 => {
                pair.result = random.below(pair.result + 1);
                pair.added = random.below(pair.added + 1);
            }
            _ => {}
        }
        if !go(pair) {
            return;
        }
    }
}

/// One outer token over every list of up to three inner tokens on lines 0 and 1 and columns 0 to 2.
pub fn small(go: &mut dyn FnMut(Pair) -> bool) {
    let kinds = 2 * 3 * 3;
    let outer_names = names_of(&[b"a", b"b"], b"");
    let inner_names = names_of(&[b"b"], b"");
    for count in 0..=3usize {
        for code in 0..usize::pow(kinds, count as u32) {
            let inner: Vec<Token> = (0..count)
                .map(|i| {
                    let k = (code / usize::pow(kinds, i as u32) % kinds) as u32;
                    let (source_id, name_id) = [(0, NONE), (0, 0), (NONE, NONE)][k as usize / 6];
                    Token::with([k % 2, k / 2 % 3, i as u32, 1, source_id, name_id], 0)
                })
                .collect();
            for (src_line, src_col) in [(0, 1), (1, 0), (1, 2), (2, 0)] {
                for name_id in [0, 1, 2, NONE] {
                    let t = Token::with([0, 9, src_line, src_col, 0, name_id], 0);
                    let pair = Pair {
                        // The code varies it: here the outer token is nearly the same in each pair.
                        outer: table_of(&with_segments(&[t], code as u64)),
                        sources: 1,
                        outer_names: outer_names.clone(),
                        inner: table_of(&with_segments(&inner, 0)),
                        inner_names: inner_names.clone(),
                        result: WIDTH,
                        added: 2,
                    };
                    if !go(pair) {
                        return;
                    }
                }
            }
        }
    }
}

/// Every refusal beside every other: two sources, no table, an end out of order, too little room for the result and for the added names.
/// The check itself lends too little working memory too.
fn refusals(go: &mut dyn FnMut(Pair) -> bool) {
    let token = |col: u32, name_id: u32| Token::with([0, col, 0, col, 0, name_id], 0);
    let (outer, inner) = ([token(0, 0), token(1, 1), token(2, 2)], [token(0, NONE), token(1, NONE)]);
    for (outer_count, inner_count) in (0..3).flat_map(|o| (0..3).map(move |i| (o, i))) {
        let names = |count: usize| names_of(&[&b"a"[..], b"", b"b"][..count], b"");
        let whole = Pair::of(&outer, names(outer_count), &inner, names(inner_count));
        for wrong in 0..1 << 7 {
            let mut pair = whole.clone();
            let is = |bit: u32| wrong >> bit & 1 == 1;
            pair.sources = if is(0) { 2 } else { 1 };
            pair.outer.truncate(pair.outer.len() - usize::from(is(1)));
            pair.inner.truncate(pair.inner.len() - usize::from(is(2)));
            for (names, wrong) in [(&mut pair.outer_names, is(3)), (&mut pair.inner_names, is(4))] {
                if let Some(end) = names.ends.last_mut().filter(|_| wrong) {
                    *end = 9;
                }
            }
            pair.result -= usize::from(is(5));
            pair.added = pair.added.saturating_sub(is(6).into());
            if !go(pair) {
                return;
            }
        }
    }
}

pub fn run(tally: &mut Tally, seed: u64, scale: usize) {
    tally.group("compose: every small inner list", small);
    tally.group("compose: short lists", |go| pairs(&mut Random::new(seed, "pairs"), 200_000 * scale, 6, go));
    tally.group("compose: long lists", |go| pairs(&mut Random::new(seed, "long pairs"), 1_000 * scale, 200, go));
    tally.group("compose: every refusal beside every other", refusals);
    seeking::run(tally, seed, scale);
    naming::run(tally, seed, scale);
}
