//! Writing: bytes against the crate, end states by way of the next chunk, refusals and rooms against the model.

use crate::cases::{Case, Class, EDGES, Random, Tally, met_code, other_segments, with_segments};
use crate::decoding::{pieces, random_tokens};
use crate::model::{self, Encoded, Mode, NONE, Token, TokenChunk, WIDTH, answer, sixes, table_of, tokens_of};
use crate::ours::{self, Entry, Lent, LentBytes, writer};
use crate::theirs::BUILDS;

pub const LINE_BACK: Class = "write: a line goes back; debug panics, release wraps";
pub const BAD_CHUNK: Class = "write: a bad chunk; the crate panics";

/// Texts longer than this are measured and not made.
const LONG: u64 = 1 << 16;

#[derive(Clone, Debug)]
pub struct Write {
    pub table: Vec<u32>,
    pub chunk: TokenChunk,
}

/// The library's answer for a room, all of it held to the model.
fn ours_agrees(table: &[u32], chunk: TokenChunk, room: usize) -> Result<(), String> {
    ours_is(&model::encode(table, chunk, room), table, chunk, room)
}

/// The same with other segments, which the writer does not look at.
fn ours_agrees_still(table: &[u32], chunk: TokenChunk, room: usize) -> Result<(), String> {
    let m = model::encode(table, chunk, room);
    ours_is(&m, &other_segments(table), chunk, room).map_err(|why| format!("with other segments: {why}"))
}

fn ours_is(m: &Encoded, table: &[u32], chunk: TokenChunk, room: usize) -> Result<(), String> {
    if !writer::HERE {
        return Ok(());
    }
    let mut out = LentBytes::new(room);
    let (a, bytes, next) = writer::encode(table, chunk, &mut out);
    let want = (m.answer, m.text.len() as u64, m.next);
    if (a, bytes, next) != want {
        return Err(format!("room {room}: ours {:?}, the model {want:?}", (a, bytes, next)));
    }
    if !out.is(&m.text) {
        let wrote = out.bytes()[..m.text.len()].escape_ascii().to_string();
        return Err(format!("room {room}: ours wrote {wrote:?} or more, the model {:?}", m.text.escape_ascii().to_string()));
    }
    met_code("write", a.code);
    Ok(())
}

/// Semicolons that the crate writes: up to where a line goes back, and in all, differences wrapping.
fn semicolons(tokens: &[Token], chunk: TokenChunk) -> (u64, u64) {
    let mut line = chunk.prev_dst_line;
    let mut before = None;
    let mut sum = 0;
    for t in &tokens[chunk.start as usize..chunk.end as usize] {
        if t.dst_line < line {
            before.get_or_insert(sum);
        }
        sum += u64::from(t.dst_line.wrapping_sub(line));
        line = t.dst_line;
    }
    (before.unwrap_or(sum), sum)
}

impl Write {
    /// The six previous numbers that stand after a chunk show in the bytes of tokens put behind it.
    fn state_agrees(&self, m: &Encoded) -> Result<(), String> {
        let mut tokens = tokens_of(&self.table);
        tokens.truncate(self.chunk.end as usize);
        let line = m.next.prev_dst_line;
        let probe = Token::with([line, 3, 4, 5, 6, 7], 8);
        tokens.push(probe);
        tokens.push(Token { dst_line: line.saturating_add(1), ..probe });
        let end = tokens.len() as u32;
        for build in BUILDS {
            let whole = (build.encode)(&tokens, TokenChunk { end, ..self.chunk });
            let rest = (build.encode)(&tokens, TokenChunk { end, ..m.next });
            let joined = rest.map(|r| [m.text.clone(), r].concat());
            if whole.is_none() || joined != whole {
                let shown = |t: &Option<Vec<u8>>| t.as_ref().map(|t| t.escape_ascii().to_string());
                let (whole, joined) = (shown(&whole), shown(&joined));
                return Err(format!("after the chunk the state is {:?}; whole {whole:?}, in two {joined:?}", m.next));
            }
        }
        Ok(())
    }
}

impl Write {
    /// The test of the premises against the model, in each mode; and where it says yes, the crate reads back what the crate writes. So
    /// does ours in checked mode where its own test says yes; else a value is too wide.
    fn premises_agree(&self) -> Result<(), String> {
        let largest = |at: usize| {
            let ids = self.table.iter().skip(at).step_by(WIDTH).filter(|&&id| id != NONE);
            ids.copied().max().map_or(0, |id| id + 1)
        };
        let (sources, names) = (largest(4), largest(5));
        let others = other_segments(&self.table);
        for (s, n) in [(sources, names), (sources.max(1) - 1, names), (sources, names.max(1) - 1), (names, sources)] {
            let (lenient, checked) = (model::meets_premises(&self.table, s, n), model::meets_checked_premises(&self.table, s, n));
            for (mode, part, want) in
                [(Mode::Lenient, "premises, lenient", lenient), (Mode::Checked, "premises, checked", checked)]
            {
                let ours = ours::meets_premises(mode, &self.table, s, n);
                if ours != u64::from(want) {
                    return Err(format!("{part}, with {s} sources and {n} names: ours {ours}, the model {want}"));
                }
                if ours::meets_premises(mode, &others, s, n) != ours {
                    return Err(format!("{part}, with {s} sources and {n} names: another answer with other segments"));
                }
                met_code(part, ours);
            }
            let chunk = TokenChunk { end: (self.table.len() / WIDTH) as u32, ..TokenChunk::default() };
            if lenient && model::encode(&self.table, chunk, 0).answer.number <= LONG {
                let tokens = tokens_of(&self.table);
                for build in BUILDS {
                    let text = (build.encode)(&tokens, chunk).and_then(|text| String::from_utf8(text).ok()).unwrap_or_default();
                    if (build.decode)(&text, s, n) != Some(Ok(sixes(&tokens))) {
                        return Err(format!("the premises are met, and the {} crate does not read it back", build.name));
                    }
                    let mut again = Lent::new(self.table.len());
                    let (a, count, _) = ours::decode(Entry::Checked, text.as_bytes(), s, n, &mut again);
                    // What is read back has the segments of the text that was written.
                    let segments = pieces(text.as_bytes()).into_iter().map(|piece| piece.start as u32);
                    let read: Vec<Token> = tokens.iter().zip(segments).map(|(t, segment)| Token { segment, ..*t }).collect();
                    let back = a == answer(model::DONE, 0) && count as usize == tokens.len() && again.is(&table_of(&read));
                    if back != checked || (!checked && a.code != model::WIDE_VALUE) {
                        return Err(format!(
                            "the test of checked mode's premises says {checked}, and to read it back gives {a:?}"
                        ));
                    }
                }
            }
        }
        Ok(())
    }
}

impl Case for Write {
    fn check(&self) -> Result<Vec<Class>, String> {
        self.premises_agree()?;
        let none = model::encode(&self.table, self.chunk, 0);
        let need = match none.answer.code {
            model::NO_ROOM => none.answer.number,
            _ => 0,
        };
        ours_agrees(&self.table, self.chunk, 0)?;
        let mut classes = Vec::new();
        if need > LONG {
            ours_agrees(&self.table, self.chunk, 5)?;
            return Ok(classes);
        }
        let need = need as usize;
        ours_agrees(&self.table, self.chunk, need)?;
        ours_agrees_still(&self.table, self.chunk, need)?;
        ours_agrees(&self.table, self.chunk, need + 1 + need % 50)?;
        if need > 0 {
            ours_agrees(&self.table, self.chunk, need - 1)?;
            // 36 bytes a token and one a line hold any text: a room on either side of that.
            let tokens = (self.chunk.end - self.chunk.start) as usize;
            let line = self.table[WIDTH * (self.chunk.end as usize - 1)];
            let most = 36 * tokens + (line - self.chunk.prev_dst_line) as usize;
            ours_agrees(&self.table, self.chunk, most)?;
            ours_agrees(&self.table, self.chunk, most.max(1) - 1)?;
        }
        if self.table.len() % WIDTH != 0 {
            return Ok(classes);
        }
        let tokens = tokens_of(&self.table);
        let m = model::encode(&self.table, self.chunk, need);
        match m.answer.code {
            model::DONE => {
                for build in BUILDS {
                    let theirs = (build.encode)(&tokens, self.chunk);
                    if theirs.as_ref() != Some(&m.text) {
                        let shown = theirs.map(|t| t.escape_ascii().to_string());
                        let text = m.text.escape_ascii().to_string();
                        return Err(format!("the {} crate writes {shown:?}, the model {text:?}", build.name));
                    }
                }
                self.state_agrees(&m)?;
            }
            model::LINE_GOES_BACK => {
                // The crate may write 2^32 - 1 semicolons; it is run where they are few.
                let (before, all) = semicolons(&tokens, self.chunk);
                let debug = if before <= LONG { (BUILDS[0].encode)(&tokens, self.chunk) } else { None };
                let release = if all <= LONG { (BUILDS[1].encode)(&tokens, self.chunk) } else { Some(vec![]) };
                if debug.is_some() || release.is_none() {
                    return Err(format!("a line goes back: debug {debug:?}, release {release:?}"));
                }
                classes.push(LINE_BACK);
            }
            model::BAD_CHUNK => {
                for build in BUILDS {
                    if (build.encode)(&tokens, self.chunk).is_some() {
                        return Err(format!("a bad chunk: the {} crate takes it", build.name));
                    }
                }
                classes.push(BAD_CHUNK);
            }
            code => return Err(format!("the model says {code}")),
        }
        Ok(classes)
    }

    fn smaller(&self) -> Vec<Write> {
        let mut list = Vec::new();
        for i in 0..self.table.len() / WIDTH {
            let mut w = self.clone();
            w.table.drain(WIDTH * i..WIDTH * (i + 1));
            let c = &mut w.chunk;
            c.start -= u32::from(i < c.start as usize);
            c.end -= u32::from(i < c.end as usize);
            list.push(w);
        }
        for i in 0..self.table.len() {
            let mut w = self.clone();
            w.table[i] = if i % WIDTH < 4 || w.table[i] < 9 { 0 } else { NONE };
            list.push(w);
        }
        let c = self.chunk;
        for chunk in [
            TokenChunk { prev_dst_line: 0, ..c },
            TokenChunk { prev_dst_col: 0, ..c },
            TokenChunk { prev_src_line: 0, ..c },
            TokenChunk { prev_src_col: 0, ..c },
            TokenChunk { prev_name_id: 0, ..c },
            TokenChunk { prev_source_id: 0, ..c },
        ] {
            list.push(Write { chunk, ..self.clone() });
        }
        list
    }

    fn size(&self) -> usize {
        let c = self.chunk;
        let previous = [c.prev_dst_line, c.prev_dst_col, c.prev_src_line, c.prev_src_col, c.prev_name_id, c.prev_source_id];
        let cost = |n: &u32| if [0, NONE].contains(n) { 0 } else { 1 + (*n > 9) as usize };
        let numbers = self.table.iter().chain(&previous).map(cost).sum::<usize>();
        let (start, end) = (c.start.min(9) as usize, c.end.min(9) as usize);
        100 * self.table.len() + 10 * numbers + start + end
    }

    fn show(&self) -> String {
        let c = &self.chunk;
        let tokens: Vec<String> = self.table.chunks(WIDTH).map(|t| format!("{t:?}")).collect();
        format!(
            "tokens {}, chunk {} {} after {} {} {} {} {} {}",
            tokens.join(" "),
            c.start,
            c.end,
            c.prev_dst_line,
            c.prev_dst_col,
            c.prev_src_line,
            c.prev_src_col,
            c.prev_name_id,
            c.prev_source_id
        )
    }
}

/// A list written in pieces, each from the state that the one before it left.
#[derive(Clone, Debug)]
struct Cuts {
    tokens: Vec<Token>,
    ends: Vec<u32>,
}

impl Case for Cuts {
    fn check(&self) -> Result<Vec<Class>, String> {
        let table = table_of(&self.tokens);
        let mut chunk = TokenChunk::default();
        let mut text = Vec::new();
        for &end in &self.ends {
            chunk.end = end;
            let m = model::encode(&table, chunk, LONG as usize);
            Write { table: table.clone(), chunk }.check()?;
            text.extend(&m.text);
            if writer::HERE {
                let mut out = LentBytes::new(m.text.len());
                let (_, _, next) = writer::encode(&table, chunk, &mut out);
                chunk = next;
            } else {
                chunk = m.next;
            }
        }
        let whole = TokenChunk { end: self.tokens.len() as u32, ..TokenChunk::default() };
        for build in BUILDS {
            if (build.encode)(&self.tokens, whole).as_ref() != Some(&text) {
                return Err(format!("in pieces it is {:?}", text.escape_ascii().to_string()));
            }
        }
        Ok(vec![])
    }

    fn smaller(&self) -> Vec<Cuts> {
        (0..self.tokens.len())
            .map(|i| {
                let mut c = self.clone();
                c.tokens.remove(i);
                c.ends.iter_mut().for_each(|e| *e -= u32::from((i as u32) < *e));
                c
            })
            .collect()
    }

    fn size(&self) -> usize {
        self.tokens.len() * 10 + self.ends.len()
    }
}

/// Every way to cut a list of up to so many tokens, empty pieces too.
fn every_cut(random: &mut Random, cases: usize, go: &mut dyn FnMut(Cuts) -> bool) {
    for _ in 0..cases {
        let mut tokens = random_tokens(random, 5);
        if random.one_in(3) {
            for t in &mut tokens {
                t.dst_line = t.dst_line.min(3);
                t.name_id = random.pick(&[NONE, 0, 1]);
                t.source_id = random.pick(&[NONE, 0, 1]);
            }
        }
        let n = tokens.len() as u32;
        for mask in 0..1u32 << (n + 1) {
            let mut ends: Vec<u32> = (0..=n).filter(|i| mask >> i & 1 == 1).collect();
            // A piece twice in the same place is empty.
            if random.one_in(4) && !ends.is_empty() {
                let again = random.below(ends.len());
                ends.insert(again, ends[again]);
            }
            ends.push(n);
            if !go(Cuts { tokens: tokens.clone(), ends }) {
                return;
            }
        }
    }
}

/// One token with each number at each edge, after previous numbers at each edge.
fn edges(random: &mut Random, cases: usize, go: &mut dyn FnMut(Write) -> bool) {
    for _ in 0..cases {
        let count = 1 + random.below(3);
        let edge = |random: &mut Random| if random.one_in(2) { random.pick(&EDGES) } else { random.number() };
        let mut line: u32 = random.pick(&[0, 0, 1, 5, 0xffff_fff0]);
        let first = line;
        let mut tokens = Vec::new();
        for _ in 0..count {
            line = line.saturating_add(random.pick(&[0, 0, 0, 1, 3]));
            if random.one_in(16) {
                line = random.pick(&EDGES);
            }
            tokens.push(Token {
                dst_line: line,
                dst_col: edge(random),
                src_line: edge(random),
                src_col: edge(random),
                source_id: edge(random),
                name_id: edge(random),
                segment: 0,
            });
        }
        let chunk = TokenChunk {
            start: random.below(2) as u32,
            end: count as u32,
            prev_dst_line: if random.one_in(12) { edge(random) } else { first },
            prev_dst_col: edge(random),
            prev_src_line: edge(random),
            prev_src_col: edge(random),
            prev_name_id: edge(random),
            prev_source_id: edge(random),
        };
        if !go(Write { table: table_of(&with_segments(&tokens, 0)), chunk }) {
            return;
        }
    }
}

pub fn chunks(random: &mut Random, cases: usize, most: usize, go: &mut dyn FnMut(Write) -> bool) {
    for _ in 0..cases {
        let mut tokens = random_tokens(random, most);
        if random.one_in(8) && !tokens.is_empty() {
            let i = random.below(tokens.len());
            tokens[i].dst_line = random.below(4) as u32;
        }
        let n = tokens.len();
        let mut start = random.below(n + 1);
        let mut end = start + random.below(n - start + 1);
        if random.one_in(3) {
            start = 0;
        }
        if random.one_in(20) {
            (start, end) = (random.below(n + 3), random.below(n + 3));
        }
        let mut chunk = TokenChunk { start: start as u32, end: end as u32, ..TokenChunk::default() };
        if start > 0 && random.one_in(2) && start <= n {
            let t = tokens[start - 1];
            chunk.prev_dst_line = t.dst_line;
            chunk.prev_dst_col = t.dst_col;
            chunk.prev_src_line = t.src_line;
            chunk.prev_src_col = t.src_col;
            chunk.prev_name_id = random.number();
            chunk.prev_source_id = random.number();
        }
        let mut table = table_of(&tokens);
        if random.one_in(20) {
            table.truncate(random.below(table.len() + 1));
        }
        if !go(Write { table, chunk }) {
            return;
        }
    }
}

/// Lists of up to three tokens over few numbers: every choice of them.
pub fn small_lists(go: &mut dyn FnMut(Write) -> bool) {
    let kinds: Vec<Token> = (0..24)
        .map(|k: u32| Token {
            dst_line: k % 2,
            dst_col: k / 2 % 2,
            src_line: 1,
            src_col: 16 * (k / 4 % 2),
            source_id: [0, 1, NONE][k as usize / 8],
            name_id: [0, NONE][k as usize / 4 % 2],
            segment: 0,
        })
        .collect();
    for count in 0..=2usize {
        for code in 0..kinds.len().pow(count as u32) {
            let tokens: Vec<Token> = (0..count).map(|i| kinds[code / kinds.len().pow(i as u32) % kinds.len()]).collect();
            for start in 0..=count as u32 + 1 {
                for end in 0..=count as u32 + 1 {
                    for line in 0..3 {
                        let chunk = TokenChunk { start, end, prev_dst_line: line, ..TokenChunk::default() };
                        if !go(Write { table: table_of(&with_segments(&tokens, 0)), chunk }) {
                            return;
                        }
                    }
                }
            }
        }
    }
}

/// Each field by each step of up to two digits, and around each count of digits, both ways.
fn every_step(go: &mut dyn FnMut(Write) -> bool) {
    let around = (0..32).flat_map(|k| (0..5).map(move |d| (1u32 << k).wrapping_add(d).wrapping_sub(2)));
    for step in (0..1100).chain(around) {
        for (from, to) in [(0, step), (step, 0), (u32::MAX - step, u32::MAX - 1)] {
            for source_id in [to, NONE] {
                let token = Token::with([0, to, to, to, source_id, to], 0);
                let chunk = TokenChunk {
                    start: 0,
                    end: 1,
                    prev_dst_line: 0,
                    prev_dst_col: from,
                    prev_src_line: from,
                    prev_src_col: from,
                    prev_name_id: from,
                    prev_source_id: from,
                };
                if !go(Write { table: table_of(&with_segments(&[token], 0)), chunk }) {
                    return;
                }
            }
        }
    }
}

/// One number of a token by steps around 2^31, up and down, from each edge: on the same line and on the next, with a token between
/// them that has no name or no source, and with a name and without. The way to the edge has no step of 2^31 or more.
fn limit_steps(go: &mut dyn FnMut(Write) -> bool) {
    let way = |to: u32| (1..=3u64).map(move |k| (k * 0x7fff_ffff).min(u64::from(to)) as u32);
    for field in 1..6 {
        for from in EDGES {
            for step in [0u32, 1, 0x7fff_fffe, 0x7fff_ffff, 0x8000_0000, 0x8000_0001, 0xffff_fffe] {
                for to in [from.checked_add(step), from.checked_sub(step)].into_iter().flatten() {
                    for (between, line) in (0..12).map(|k| (k % 6, k / 6)) {
                        let at = |dst_line: u32, number: u32| {
                            let mut numbers = [dst_line, 3, 3, 3, 0, 0];
                            numbers[field] = number;
                            Token::with(numbers, 0)
                        };
                        let mut tokens: Vec<Token> = way(from).map(|number| at(0, number)).collect();
                        let mut middle = at(0, from);
                        match between {
                            1 => middle = Token { source_id: NONE, name_id: NONE, ..middle },
                            2 => middle = Token { name_id: NONE, ..middle },
                            3 => middle = Token { source_id: NONE, name_id: NONE, ..at(1, from) },
                            _ => {}
                        }
                        let mut last = at(middle.dst_line + line, to);
                        if between == 4 {
                            last.name_id = NONE;
                        }
                        if between == 5 {
                            last = Token {
                                source_id: NONE,
                                name_id: NONE,
                                src_line: middle.src_line,
                                src_col: middle.src_col,
                                ..last
                            };
                        }
                        tokens.extend([middle, last]);
                        let chunk = TokenChunk { end: tokens.len() as u32, ..TokenChunk::default() };
                        if !go(Write { table: table_of(&with_segments(&tokens, 0)), chunk }) {
                            return;
                        }
                    }
                }
            }
        }
    }
}

/// The crate's number for a difference, which its digits spell.
#[derive(Clone, Debug)]
struct Difference(u32, u32);

impl Case for Difference {
    fn check(&self) -> Result<Vec<Class>, String> {
        let difference = i128::from(self.0) - i128::from(self.1);
        let number = difference.unsigned_abs() * 2 + u128::from(difference < 0);
        for build in BUILDS {
            if u128::from((build.value)(self.0, self.1)) != number {
                return Err(format!("the {} crate has {}", build.name, (build.value)(self.0, self.1)));
            }
        }
        Ok(vec![])
    }

    fn smaller(&self) -> Vec<Difference> {
        vec![]
    }

    fn size(&self) -> usize {
        self.0 as usize + self.1 as usize
    }
}

pub fn run(tally: &mut Tally, seed: u64, scale: usize) {
    tally.group("write: differences", |go| {
        for k in 0..32 {
            for d in 0..3u32 {
                for b in EDGES {
                    let a = (1u32 << k).wrapping_add(d).wrapping_sub(1);
                    go(Difference(a, b));
                    go(Difference(b, a));
                    go(Difference(b.wrapping_add(a), b));
                }
            }
        }
    });
    tally.group("write: every step of two digits", every_step);
    tally.group("write: steps around checked mode's limit", limit_steps);
    tally.group("write: small lists, every chunk", small_lists);
    tally.group("write: every cut of small lists", |go| every_cut(&mut Random::new(seed, "cuts"), 3_000 * scale, go));
    tally.group("write: extreme numbers", |go| edges(&mut Random::new(seed, "extreme"), 150_000 * scale, go));
    tally.group("write: short lists", |go| chunks(&mut Random::new(seed, "chunks"), 100_000 * scale, 8, go));
    tally.group("write: long lists", |go| chunks(&mut Random::new(seed, "long chunks"), 500 * scale, 1500, go));
}
