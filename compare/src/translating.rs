//! Translating, over tables and over records. Where the rules refuse, the crate panics, wraps or loses an id.

use crate::cases::{Case, Class, EDGES, Random, Tally, met_code, with_segments};
use crate::decoding::random_tokens;
use crate::model::{self, Answer, NONE, Six, Token, WIDTH, answer, bad_table, sixes, table_of, tokens_of};
use crate::ours::{self, Lent};
use crate::theirs::BUILDS;

pub const ID_LOST: Class = "translate: an id sum of 4294967295 becomes none";
pub const PAST: Class = "translate: a sum past it; debug panics, release wraps";

#[derive(Clone, Debug)]
pub struct Move {
    pub table: Vec<u32>,
    pub line: u32,
    pub source: u32,
    pub name: u32,
}

/// What the crate's plain sums give, and whether one of them passes 32 bits.
fn plain_sums(tokens: &[Token], line: u32, source: u32, name: u32) -> (Vec<Six>, bool) {
    let mut past = false;
    let mut sum = |a: u32, b: u32| {
        past |= a.checked_add(b).is_none();
        a.wrapping_add(b)
    };
    let moved = tokens
        .iter()
        .map(|t| {
            let source = if t.source_id == NONE { NONE } else { sum(t.source_id, source) };
            let name = if t.name_id == NONE { NONE } else { sum(t.name_id, name) };
            [sum(t.dst_line, line), t.dst_col, t.src_line, t.src_col, source, name]
        })
        .collect();
    (moved, past)
}

impl Move {
    /// Both forms against the model; and the segments as they were, whatever the answer.
    fn ours(&self, want: Answer, after: &[u32]) -> Result<(), String> {
        let kept = |table: &Lent| (6..after.len()).step_by(WIDTH).all(|i| table.numbers()[i] == self.table[i]);
        let mut table = Lent::holding(&self.table);
        let got = ours::translate(&mut table, self.line, self.source, self.name);
        if got != want || !table.is(after) || !kept(&table) {
            return Err(format!("over a table: {got:?} and {:?}, the model has {want:?} and {after:?}", table.numbers()));
        }
        met_code("translate", got.code);
        if self.table.len() % WIDTH == 0 {
            let mut table = Lent::holding(&self.table);
            let got = ours::translate_tokens(&mut table, self.line, self.source, self.name);
            if got != want || !table.is(after) || !kept(&table) {
                return Err(format!("over records: {got:?} and {:?}, the model has {want:?} and {after:?}", table.numbers()));
            }
            met_code("translate, records", got.code);
        }
        Ok(())
    }
}

impl Case for Move {
    fn check(&self) -> Result<Vec<Class>, String> {
        if bad_table(self.table.len()) {
            self.ours(answer(model::BAD_TABLE, 0), &self.table)?;
            return Ok(vec![]);
        }
        let tokens = tokens_of(&self.table);
        let (plain, past) = plain_sums(&tokens, self.line, self.source, self.name);
        let mut classes = Vec::new();
        match model::translate(&tokens, self.line, self.source, self.name) {
            Ok(moved) => {
                self.ours(answer(model::DONE, 0), &table_of(&moved))?;
                if past || plain != sixes(&moved) {
                    return Err(format!("the model has {moved:?}, plain sums {plain:?}"));
                }
            }
            Err(i) => {
                self.ours(answer(model::TOO_BIG, i as u64), &self.table)?;
                classes.push(if past { PAST } else { ID_LOST });
            }
        }
        // Inside the domain the plain sums are the translation; outside it this is how the crate departs.
        for build in BUILDS {
            let theirs = (build.translate)(&tokens, self.line, self.source, self.name);
            let want = if past && build.name == "debug" { None } else { Some(plain.clone()) };
            if theirs != want {
                return Err(format!("the {} crate has {theirs:?}, and {want:?} was expected of it", build.name));
            }
        }
        Ok(classes)
    }

    fn smaller(&self) -> Vec<Move> {
        let mut list = Vec::new();
        for i in 0..self.table.len() / WIDTH {
            let mut m = self.clone();
            m.table.drain(WIDTH * i..WIDTH * (i + 1));
            list.push(m);
        }
        for i in 0..self.table.len() + 3 {
            let mut m = self.clone();
            *m.number(i) = 0;
            list.push(m);
        }
        list
    }

    fn size(&self) -> usize {
        let mut m = self.clone();
        let cost = |n: u32| match n {
            0 => 0,
            1 => 1,
            _ => 2,
        };
        let ids = |i: usize| i < self.table.len() && i % WIDTH > 3;
        let numbers = (0..self.table.len() + 3).map(|i| cost(*m.number(i)) - if ids(i) && self.table[i] == NONE { 2 } else { 0 });
        100 * self.table.len() + numbers.sum::<usize>()
    }
}

impl Move {
    fn number(&mut self, i: usize) -> &mut u32 {
        let n = self.table.len();
        match i.checked_sub(n) {
            None => &mut self.table[i],
            Some(0) => &mut self.line,
            Some(1) => &mut self.source,
            Some(_) => &mut self.name,
        }
    }
}

/// Each number of one token, and each offset, at each edge.
pub fn edges(go: &mut dyn FnMut(Move) -> bool) {
    let few = [0, 1, 0x8000_0000, 0xffff_fffd, 0xffff_fffe, 0xffff_ffff];
    for line in few {
        for dst_line in few {
            for source in few {
                for source_id in few {
                    for name in few {
                        for name_id in few {
                            let t = Token::with([dst_line, 7, 8, NONE, source_id, name_id], 0);
                            if !go(Move { table: table_of(&with_segments(&[t], 0)), line, source, name }) {
                                return;
                            }
                        }
                    }
                }
            }
        }
    }
}

pub fn lists(random: &mut Random, cases: usize, most: usize, go: &mut dyn FnMut(Move) -> bool) {
    for _ in 0..cases {
        let mut tokens = random_tokens(random, most);
        if random.one_in(2) {
            for t in &mut tokens {
                t.dst_line = random.number();
            }
        }
        let mut table = table_of(&tokens);
        // Offsets near what the largest number allows.
        let mut offset = |largest: Option<u32>| {
            let limit = NONE - largest.unwrap_or(0);
            match random.below(5) {
                0 => random.pick(&EDGES),
                1 => random.below(9) as u32,
                _ => limit.wrapping_add(random.below(5) as u32).wrapping_sub(3),
            }
        };
        let ids = |f: fn(&Token) -> u32| tokens.iter().map(f).filter(|&i| i != NONE).max();
        let line = offset(tokens.iter().map(|t| t.dst_line).max());
        let source = offset(ids(|t| t.source_id));
        let name = offset(ids(|t| t.name_id));
        if random.one_in(10) {
            table.truncate(random.below(table.len() + 1));
        }
        if !go(Move { table, line, source, name }) {
            return;
        }
    }
}

pub fn run(tally: &mut Tally, seed: u64, scale: usize) {
    tally.group("translate: one token at each edge", edges);
    tally.group("translate: short lists", |go| lists(&mut Random::new(seed, "moves"), 200_000 * scale, 6, go));
    tally.group("translate: long lists", |go| lists(&mut Random::new(seed, "long moves"), 500 * scale, 1000, go));
}
