//! Records a sample of the crate's answers, for the program crates/replay_answers to run without the crate.
//!
//! The program's input is made of blocks of 4,096 bytes, filled up with newlines; no record lies across two. A record is two
//! lines: a letter and numbers (a dash for 4,294,967,295), then a text or more numbers. A line `# NAME` begins a group.

use std::collections::HashMap;
use std::fs;
use std::path::Path;

use crate::cases::{Case, EDGES, Random, with_segments};
use crate::changes::{self, Changes};
use crate::composing::{self, Pair};
use crate::decoding::{self, Text};
use crate::looking::{self, Ask};
use crate::many::{self, Asks};
use crate::model::{self, NONE, Names, Six, Token, TokenChunk, WIDTH, bad_table, is_delimiter, sixes, table_of, tokens_of};
use crate::theirs::{BUILDS, RELEASE};
use crate::translating::Move;
use crate::writing::{self, Write};
use crate::{naming, seeking, sorted};

const BLOCK: usize = 4096;

/// The numbers and bytes that the replay crates have room for.
const NUMBERS: usize = 480;
const BYTES: usize = 3000;
const ENDS: usize = 32;

#[derive(Default)]
struct File {
    bytes: Vec<u8>,
    groups: Vec<(String, usize)>,
    last: Vec<u8>,
}

impl File {
    /// Puts lines into the block that is begun, or into the next.
    fn put(&mut self, lines: &[u8]) {
        let used = self.bytes.len() % BLOCK;
        if used + lines.len() > BLOCK {
            self.bytes.resize(self.bytes.len() + BLOCK - used, b'\n');
        }
        self.bytes.extend(lines);
    }

    fn group(&mut self, name: &str) {
        self.groups.push((name.to_string(), 0));
        self.put(format!("# {name}\n").as_bytes());
    }

    fn record(&mut self, kind: char, numbers: &[u32], second: &[u8]) {
        let shown: Vec<String> = numbers.iter().map(|&n| if n == NONE { "-".to_string() } else { n.to_string() }).collect();
        let mut lines = format!("{kind} {}\n", shown.join(" ")).into_bytes();
        lines.extend(second);
        lines.push(b'\n');
        if numbers.len() > NUMBERS || second.len() > BYTES || lines.len() > BLOCK || second.contains(&b'\n') || lines == self.last
        {
            return;
        }
        self.last.clone_from(&lines);
        self.put(&lines);
        self.groups.last_mut().expect("a group").1 += 1;
    }

    fn write(&self, folder: &Path) {
        let out: String = self.groups.iter().map(|(name, count)| format!("# {name}: {count} of {count} agree\n")).collect();
        let put = |name: &str, bytes: &[u8]| fs::write(folder.join(name), bytes).expect("a file of the replay was not written");
        put("stdin", &self.bytes);
        put("stdout", out.as_bytes());
        let count: usize = self.groups.iter().map(|g| g.1).sum();
        println!("{}: {count} records, {} bytes", folder.display(), self.bytes.len());
    }
}

fn numbers_text(numbers: &[u32]) -> String {
    numbers.iter().map(|&n| if n == NONE { "-".to_string() } else { n.to_string() }).collect::<Vec<_>>().join(" ")
}

// ---------------------------------------------------------------- decoding

struct Decoded {
    code: u64,
    number: u64,
    offset: usize,
    start: usize,
    tokens: Vec<Six>,
}

/// The crate's answer; where it refuses, the segment is the first whose end it does not pass, and the offset is told by its answers on
/// parts of the text.
fn decoded(case: &Text) -> Option<Decoded> {
    let text = std::str::from_utf8(&case.text).ok()?;
    let run = |build: usize, text: &str| (BUILDS[build].decode)(text, case.sources, case.names).expect("decoding panicked");
    let answer = run(0, text);
    assert!(answer == run(1, text), "the builds differ on {}", case.show());
    let refused = match answer {
        Ok(tokens) => return Some(Decoded { code: 0, number: 0, offset: text.len(), start: text.len(), tokens }),
        Err(a) => a,
    };
    let bytes = text.as_bytes();
    let starts = (0..bytes.len()).filter(|&i| !is_delimiter(bytes[i]) && (i == 0 || is_delimiter(bytes[i - 1])));
    for start in starts {
        if run(1, &text[..decoding::segment_end(bytes, start)]).is_err() {
            let tokens = run(1, &text[..start]).expect("the text before the refused segment");
            return Some(Decoded {
                code: refused.code,
                number: refused.number,
                offset: case.place(start, refused),
                start,
                tokens,
            });
        }
    }
    unreachable!("no segment is refused in {}", case.show())
}

fn put_text(file: &mut File, case: &Text) {
    if let Some(d) = decoded(case) {
        let mut numbers = vec![case.sources, case.names, d.code as u32, d.number as u32, d.offset as u32];
        // The crate has no segments: those are where the pieces of the text begin.
        let segments = decoding::pieces(&case.text).into_iter().map(|piece| piece.start as u32);
        let tokens: Vec<Token> = d.tokens.iter().zip(segments).map(|(&six, segment)| Token::with(six, segment)).collect();
        assert!(tokens.len() == d.tokens.len(), "fewer pieces than tokens in {}", case.show());
        numbers.extend(table_of(&tokens));
        file.record('d', &numbers, &case.text);
    }
}

/// What tells two short texts apart: the answer, how many tokens, how long, and the kinds of the refused segment's bytes.
fn kind_of(case: &Text, d: &Decoded) -> (u64, u64, usize, usize, Vec<u8>) {
    let segment = case.text[d.start..].iter().take_while(|&&b| !is_delimiter(b));
    let kinds = segment.map(|&b| match b {
        b'A'..=b'f' => 0,
        b'g'..=b'z' | b'0'..=b'9' | b'+' | b'/' => 1,
        _ => 2,
    });
    (d.code, d.number, d.tokens.len(), case.text.len(), kinds.collect())
}

fn decode(file: &mut File, seed: u64) {
    file.group("decode: worked texts");
    for (text, _, _) in decoding::worked() {
        put_text(file, &text);
    }

    // Of all texts of up to four symbols, two of each kind.
    file.group("decode: short texts");
    let mut seen: HashMap<_, u32> = HashMap::new();
    for symbols in 0..=4 {
        decoding::all_texts("", symbols, &decoding::COUNTS, &mut |case| {
            if let Some(d) = decoded(&case) {
                let times = seen.entry(kind_of(&case, &d)).or_insert(0);
                *times += 1;
                if *times <= 2 {
                    put_text(file, &case);
                }
            }
            true
        });
    }

    // Four and five fields of one digit, and what may stand behind them.
    file.group("decode: one digit a field");
    for fields in 3..=7 {
        for field in 0..fields.min(6) {
            for digit in [b'A', b'B', b'C', b'D', b'e', b'f', b'g'] {
                for behind in ["", ",", ";", "A", ",A", ";C"] {
                    let mut text = vec![b'A'; fields];
                    text[field] = digit;
                    text.extend(behind.bytes());
                    if behind.len() < 2 || digit == b'C' {
                        put_text(file, &Text { text, sources: 2, names: 2 });
                    }
                }
            }
        }
    }

    // Of all the cases with counts of digits, one for each count of fields, field, count of digits and answer.
    file.group("decode: counts of digits");
    let mut seen = HashMap::new();
    decoding::digit_counts(&mut |case| {
        if let Some(d) = decoded(&case) {
            let key = (
                case.text.len(),
                d.code,
                d.number == 0,
                d.tokens.len(),
                case.text.iter().take(30).map(|&b| b == b'A').collect::<Vec<_>>(),
            );
            if seen.insert(key, ()).is_none() {
                put_text(file, &case);
            }
        }
        true
    });

    // Where a value may end, and where it is too long.
    file.group("decode: twelve to fourteen digits");
    for digits in 11..=14 {
        for digit in [b'g', b'h', b'/'] {
            for (before, behind) in
                [("", ""), ("", ","), ("", ";"), ("", "A"), ("", "Q"), ("", "P"), ("A;", ",A"), ("AAAA", ";"), ("A", "A")]
            {
                let text = [before.as_bytes(), &vec![digit; digits], behind.as_bytes()].concat();
                put_text(file, &Text { text, sources: 1, names: 1 });
            }
        }
    }

    let mut random = Random::new(seed, "recorded texts");
    file.group("decode: sums at the limits");
    decoding::sums(&mut |case| {
        if random.one_in(60) {
            put_text(file, &case);
        }
        true
    });
    file.group("decode: 64-bit patterns");
    decoding::patterns(&mut random, 400, &mut |case| {
        put_text(file, &case);
        true
    });
    file.group("decode: lists and damaged copies");
    decoding::long_texts(&mut random, 80, 8, &mut |case| {
        put_text(file, &case);
        true
    });
    decoding::long_texts(&mut random, 8, 60, &mut |case| {
        put_text(file, &case);
        true
    });
}

// ---------------------------------------------------------------- writing

fn chunk_numbers(c: TokenChunk) -> [u32; 8] {
    [c.start, c.end, c.prev_dst_line, c.prev_dst_col, c.prev_src_line, c.prev_src_col, c.prev_name_id, c.prev_source_id]
}

/// A chunk inside the domain, the crate's bytes, and the state that the crate goes on from (held to it by the case itself).
fn put_chunk(file: &mut File, case: &Write) {
    let m = crate::model::encode(&case.table, case.chunk, BYTES);
    if m.answer.code != 0 {
        return;
    }
    case.check().expect("a recorded chunk");
    let tokens = tokens_of(&case.table);
    let text = (RELEASE.encode)(&tokens, case.chunk).expect("the crate writes it");
    let mut numbers = chunk_numbers(case.chunk).to_vec();
    numbers.extend(chunk_numbers(m.next));
    numbers.extend(&case.table);
    file.record('w', &numbers, &text);
}

fn encode(file: &mut File, seed: u64) {
    let mut random = Random::new(seed, "recorded chunks");
    file.group("encode: worked and equal tokens");
    let varied = |list: &[Six], other: u64| {
        table_of(&with_segments(&list.iter().map(|&six| Token::with(six, 0)).collect::<Vec<_>>(), other))
    };
    let pair = varied(&[[0, 0, 2, 3, 0, NONE], [1, 1, 2, 3, NONE, NONE]], 0);
    for (start, end) in [(0, 2), (0, 1), (1, 2)] {
        let chunk = TokenChunk { start, end, prev_src_line: 2 * start, prev_src_col: 3 * start, ..TokenChunk::default() };
        put_chunk(file, &Write { table: pair.clone(), chunk });
    }
    for numbers in [[0; 6], [0, 0, 0, 0, 0, NONE], [2, 7, 1, 1, 3, 4], [0, 1, 0, 0, NONE, NONE]] {
        for count in 2..=4 {
            let chunk = TokenChunk { end: count, ..TokenChunk::default() };
            put_chunk(file, &Write { table: varied(&vec![numbers; count as usize], 0), chunk });
        }
    }
    file.group("encode: small lists");
    writing::small_lists(&mut |case| {
        if case.table.len() < 2 * WIDTH || random.one_in(15) {
            put_chunk(file, &case);
        }
        true
    });
    file.group("encode: one number at an edge");
    for field in 0..6 {
        for edge in EDGES {
            for before in [0, 1, 1 << 31, NONE - 1, NONE] {
                let mut numbers = [0, 0, 0, 0, 0, 0];
                numbers[field] = edge;
                let chunk = TokenChunk {
                    start: 0,
                    end: 1,
                    prev_dst_line: if field == 0 { edge.saturating_sub(before % 7) } else { 0 },
                    prev_dst_col: before,
                    prev_src_line: before,
                    prev_src_col: before,
                    prev_name_id: before,
                    prev_source_id: before,
                };
                put_chunk(file, &Write { table: varied(&[numbers], before.into()), chunk });
            }
        }
    }
    file.group("encode: a step at each count of digits");
    for field in 1..6 {
        for bits in [4, 9, 14, 19, 24, 29] {
            for size in [(1 << bits) - 1, 1 << bits] {
                for (from, to) in [(7, 7 + size), (7 + size, 7)] {
                    let mut numbers = [0, 7, 7, 7, 7, 7];
                    numbers[field] = to;
                    let before = |at: usize| if at == field { from } else { 7 };
                    let chunk = TokenChunk {
                        start: 0,
                        end: 1,
                        prev_dst_line: 0,
                        prev_dst_col: before(1),
                        prev_src_line: before(2),
                        prev_src_col: before(3),
                        prev_name_id: before(5),
                        prev_source_id: before(4),
                    };
                    put_chunk(file, &Write { table: varied(&[numbers], 0), chunk });
                }
            }
        }
    }
    file.group("encode: pieces, each from the state before it");
    for _ in 0..60 {
        let tokens = decoding::random_tokens(&mut random, 12);
        let mut chunk = TokenChunk::default();
        loop {
            chunk.end = (chunk.start as usize + random.below(4)).min(tokens.len()) as u32;
            let case = Write { table: table_of(&tokens), chunk };
            put_chunk(file, &case);
            chunk = crate::model::encode(&case.table, chunk, BYTES).next;
            if chunk.start as usize == tokens.len() || random.one_in(12) {
                break;
            }
        }
    }
    file.group("encode: long lists");
    writing::chunks(&mut random, 40, 60, &mut |case| {
        put_chunk(file, &case);
        true
    });
}

// ---------------------------------------------------------------- translating and lookup

fn put_move(file: &mut File, case: &Move) {
    let tokens = tokens_of(&case.table);
    if bad_table(case.table.len()) || crate::model::translate(&tokens, case.line, case.source, case.name).is_err() {
        return;
    }
    let moved = (RELEASE.translate)(&tokens, case.line, case.source, case.name).expect("the crate translates it");
    let moved = with_segments_of(&moved, &tokens);
    let mut numbers = vec![case.line, case.source, case.name];
    numbers.extend(&case.table);
    file.record('t', &numbers, numbers_text(&table_of(&moved)).as_bytes());
}

/// The crate's tokens, each with the segment that came in with the token in its place: translating keeps it, and composing takes the
/// outer token's.
fn with_segments_of(six: &[Six], tokens: &[Token]) -> Vec<Token> {
    assert!(six.len() == tokens.len());
    six.iter().zip(tokens).map(|(&six, t)| Token::with(six, t.segment)).collect()
}

fn translate(file: &mut File, seed: u64) {
    let mut random = Random::new(seed, "recorded moves");
    file.group("translate: one token at the edges");
    crate::translating::edges(&mut |case| {
        if random.one_in(20) {
            put_move(file, &case);
        }
        true
    });
    file.group("translate: lists");
    crate::translating::lists(&mut random, 500, 8, &mut |case| {
        put_move(file, &case);
        true
    });
    crate::translating::lists(&mut random, 10, 60, &mut |case| {
        put_move(file, &case);
        true
    });
}

/// Where the crate's lookup has no way to differ from ours.
fn put_ask(file: &mut File, case: &Ask) {
    let tokens = case.tokens();
    if tokens.iter().any(|t| t.dst_line > looking::LINES) || looking::class_of(&tokens, case.line, case.col).is_some() {
        return;
    }
    let found = (RELEASE.look)(&tokens, &[(case.line, case.col)]).expect("the crate looks it up")[0].0;
    let mut numbers = vec![case.line, case.col, found.map_or(NONE, |[_, _, src_line, ..]| src_line)];
    numbers.extend(table_of(&tokens));
    file.record('l', &numbers, b"");
}

fn lookup(file: &mut File, seed: u64) {
    let mut random = Random::new(seed, "recorded asks");
    file.group("lookup: small lists");
    for tokens in 0..=3 {
        looking::all_lists(tokens, &mut |case| {
            if tokens < 2 || random.one_in(15) {
                put_ask(file, &case);
            }
            true
        });
    }
    file.group("lookup: lists");
    looking::random_lists(&mut random, 400, 12, &mut |case| {
        put_ask(file, &case);
        true
    });
    looking::random_lists(&mut random, 20, 60, &mut |case| {
        put_ask(file, &case);
        true
    });
}

// ---------------------------------------------------------------- composing

/// Where the crate's lookup has no way to differ from ours, so that its composing is ours.
fn put_pair(file: &mut File, case: &Pair) {
    let takes = case.crate_takes()
        && case.sources <= 1
        && case.result >= case.outer.len()
        && case.added >= case.outer_names.count()
        && case.outer_names.count().max(case.inner_names.count()) <= ENDS;
    let (outer, inner) = (tokens_of(&case.outer), tokens_of(&case.inner));
    let differs = |t: &Token| t.source_id != NONE && looking::class_of(&inner, t.src_line, t.src_col).is_some();
    if !takes || outer.iter().any(differs) {
        return;
    }
    let made = (RELEASE.compose)(&outer, case.sources as usize, &case.outer_names, &inner, &case.inner_names);
    let Some((tokens, names)) = made else { return };
    // The crate adds names and no ids: the ids are the model's, and name what the crate added.
    let count = case.inner_names.count();
    let m = case.model();
    assert!(sixes(&m.tokens) == tokens, "the model differs on {case:?}");
    let added = m.added;
    assert!(names[count..].iter().zip(&added).all(|(name, &id)| name == case.outer_names.name(id as usize)));
    assert!(names.len() == count + added.len());
    let end = |names: &Names| names.ends.last().copied().unwrap_or(0);
    let mut numbers = vec![
        case.sources,
        case.outer.len() as u32,
        case.inner.len() as u32,
        case.outer_names.count() as u32,
        count as u32,
        end(&case.outer_names) as u32,
    ];
    numbers.extend(&case.outer);
    numbers.extend(&case.inner);
    numbers.extend(table_of(&with_segments_of(&tokens, &outer)));
    numbers.extend(case.outer_names.ends.iter().chain(&case.inner_names.ends).map(|&e| e as u32));
    numbers.extend(added);
    let text = [&case.outer_names.text[..end(&case.outer_names)], &case.inner_names.text[..]].concat();
    file.record('c', &numbers, &text);
}

fn compose(file: &mut File, seed: u64) {
    let mut random = Random::new(seed, "recorded pairs");
    file.group("compose: small inner lists");
    let mut few = Random::new(seed, "recorded small pairs");
    composing::small(&mut |case| {
        if few.one_in(60) {
            put_pair(file, &case);
        }
        true
    });
    // Names twice in either list, empty names, ids past the lists.
    file.group("compose: names");
    let lists: [&[&[u8]]; 6] = [&[], &[b"a"], &[b"b", b"b"], &[b"b", b"a", b"b"], &[b"", b"a", b""], &[b"ab", b"a", b"ab", b"b"]];
    for outer_list in lists {
        for inner_list in lists {
            let (outer_names, inner_names) = (composing::names_of(outer_list, b""), composing::names_of(inner_list, b"x"));
            let at = |col: u32, name_id: u32| Token::with([0, col, 0, col, 0, name_id], 0);
            let ids = (0..outer_list.len() as u32 + 1).rev();
            let outer: Vec<Token> = ids.clone().chain(ids).enumerate().map(|(i, id)| at(i as u32, id)).collect();
            for inner_id in [NONE, 0, inner_list.len() as u32] {
                let inner = [at(0, NONE), at(3, inner_id)];
                put_pair(
                    file,
                    &Pair {
                        outer: table_of(&with_segments(&outer, 0)),
                        sources: 1,
                        outer_names: outer_names.clone(),
                        inner: table_of(&with_segments(&inner, 1)),
                        inner_names: inner_names.clone(),
                        result: WIDTH * outer.len(),
                        added: outer_list.len(),
                    },
                );
            }
        }
    }
    file.group("compose: lists");
    composing::pairs(&mut random, 600, 6, &mut |case| {
        put_pair(file, &case);
        true
    });
    composing::pairs(&mut random, 100, 18, &mut |case| {
        put_pair(file, &case);
        true
    });
    // Longer than what is near, and shorter; in rising order, falling or any.
    file.group("compose: sorted inner tables");
    for count in [1, 3, 8, 15, 16, 17, 18, 24, 32, 33, 34, 40] {
        for (i, kind) in [0, 3, 6].into_iter().enumerate() {
            let places = seeking::table(kind, count);
            put_positions(file, &mut random, &places, &sorted::beside(&places), (count + i) % 3);
        }
    }
    // From one token to another so many further on, on either side of where what is near ends.
    for step in 14..=18 {
        let places = seeking::table(0, 34);
        let asked: Vec<(u32, u32)> = (0..8).flat_map(|i| [places[i], places[i + step]]).take(15).collect();
        put_pair(file, &seeking::in_turn(&places, &asked));
    }
    file.group("compose: inner lines that fall");
    for count in [5, 12, 17, 18, 20, 24, 30] {
        for i in [count / 3, count - 2] {
            let places = sorted::fallen(1 + i % 2, count, i);
            put_positions(file, &mut random, &places, &many::around(&places[i - 1..=i]), 2);
        }
    }
    file.group("compose: many names");
    for (outer, inner) in [(ENDS, ENDS), (ENDS, 0), (20, 12), (12, 20), (6, ENDS), (ENDS, 6)] {
        for kinds in [4, 12, 40, 200] {
            let (outer, inner) = (naming::some_names(&mut random, outer, kinds), naming::some_names(&mut random, inner, kinds));
            let ids = naming::some_ids(&mut random, 25, outer.count());
            put_pair(file, &naming::asking(&ids, outer, inner));
        }
    }
}

/// Outer tokens at as many of the positions as a record has room for, those where the crate's lookup has no way to differ, in one of the
/// orders.
fn put_positions(file: &mut File, random: &mut Random, places: &[(u32, u32)], asked: &[(u32, u32)], order: usize) {
    let inner = tokens_of(&seeking::in_turn(places, &[]).inner);
    let judged: Vec<(u32, u32)> = asked.iter().copied().filter(|&(l, c)| looking::class_of(&inner, l, c).is_none()).collect();
    let room = (NUMBERS - 20 - WIDTH * places.len()) / (2 * WIDTH);
    let some: Vec<(u32, u32)> = (0..room).map(|_| random.pick(&judged)).collect();
    let in_order = &seeking::orders(random, &some)[order];
    put_pair(file, &seeking::in_turn(places, in_order));
}

// ---------------------------------------------------------------- many positions

/// Those of the positions where the crate's lookup has no way to differ from ours.
fn put_asks(file: &mut File, case: &Asks) {
    let tokens = tokens_of(&case.table());
    if tokens.iter().any(|t| t.dst_line > looking::LINES) {
        return;
    }
    let pairs = case.positions.chunks(2).map(|pair| (pair[0], pair[1]));
    let asked: Vec<(u32, u32)> = pairs.filter(|&(line, col)| looking::class_of(&tokens, line, col).is_none()).collect();
    if asked.is_empty() != case.positions.is_empty() || 3 * asked.len() > NUMBERS {
        return;
    }
    let Some(looked) = (RELEASE.look)(&tokens, &asked) else { return };
    let mut second: Vec<u32> = asked.iter().flat_map(|&(line, col)| [line, col]).collect();
    second.extend(looked.iter().map(|(found, _)| found.map_or(NONE, |[_, _, src_line, ..]| src_line)));
    file.record('m', &table_of(&tokens), numbers_text(&second).as_bytes());
}

fn lookup_many(file: &mut File, seed: u64) {
    let mut random = Random::new(seed, "recorded lists of asks");
    file.group("many: small lists");
    for tokens in 0..=3 {
        many::all_lists(tokens, &mut |case| {
            if tokens < 3 || random.one_in(8) {
                put_asks(file, &case);
            }
            true
        });
    }
    // The crate's columns are any numbers, its lines small ones.
    file.group("many: columns at the edges");
    for places in [[(0, NONE), (1, 0)], [(0, NONE), (2, 0)], [(0, 0), (1, NONE)], [(1, NONE - 1), (1, NONE)]] {
        let asked: Vec<(u32, u32)> = (0..3).flat_map(|line| [0, 1, NONE - 1, NONE].map(|col| (line, col))).collect();
        for count in 0..=2 {
            put_asks(file, &Asks::of(places[..count].to_vec(), &asked));
        }
    }
    file.group("many: at a block's end");
    for tokens in 1..=3 {
        many::across(tokens, &mut |case| {
            if random.one_in(9usize.pow(tokens as u32) / 3) {
                put_asks(file, &case);
            }
            true
        });
    }
    file.group("many: lists");
    for count in [0, 1, 9, 30, 63, 64, 65, 66, 67, 68] {
        for shape in 0..many::SHAPES {
            let places = many::shaped(&mut random, shape, count);
            let asked = many::some_around(&mut random, &places);
            put_asks(file, &Asks::of(places, &asked));
        }
    }
    file.group("many: sorted tables");
    for count in (2..=9).chain([12, 15, 16, 17, 20, 31, 32, 33, 63, 64, 65, 68]) {
        let runs = sorted::equal_runs(count, 2 + count % 9, count % 2);
        for places in [sorted::in_order(0, count), sorted::in_order(3, count), runs] {
            for asked in sorted::beside(&places).chunks(80) {
                put_asks(file, &Asks::of(places.clone(), asked));
            }
        }
    }
    // Each line has its tokens together, and the last token is on the last line: the crate's lookup has no way to differ.
    file.group("many: lines that fall");
    for count in 4..=13 {
        for i in 1..count - 1 {
            let places = sorted::fallen(1 + i % 2, count, i);
            let asked = many::around(&places[i - 1..=i]);
            put_asks(file, &Asks::of(places, &asked));
        }
    }
}

// ---------------------------------------------------------------- comparing two tables

/// The entries are told by the crate's tokens, in both builds alike; a refusal is the model's.
fn put_changes(file: &mut File, case: &Changes) {
    case.check().expect("a recorded pair");
    let (left, right) = (tokens_of(&case.left), tokens_of(&case.right));
    let mut second = match model::changes(&case.left, &case.right) {
        Err(refusal) => vec![refusal.code as u32, refusal.number as u32],
        Ok(_) => vec![0, 0],
    };
    if second[0] == 0 {
        let [debug, release] = BUILDS.map(|build| (build.differ)(&left, &right).0);
        assert!(debug == release);
        second.extend(release.iter().flat_map(|&(l, r)| {
            let kind = match (l, r) {
                (_, None) => model::ONLY_LEFT,
                (None, _) => model::ONLY_RIGHT,
                _ => model::DIFFERENT,
            };
            [kind, l.map_or(NONE, |i| i as u32), r.map_or(NONE, |i| i as u32)]
        }));
    }
    if second.len() <= NUMBERS {
        let numbers = [&[case.left.len() as u32], &case.left[..], &case.right[..]].concat();
        file.record('v', &numbers, numbers_text(&second).as_bytes());
    }
}

fn compare(file: &mut File, seed: u64) {
    let mut random = Random::new(seed, "recorded changes");
    let turned = |case: Changes| Changes { left: case.right, right: case.left, ..case };
    file.group("compare: small lists");
    changes::small_pairs(2, &changes::grid(&[0, 1]), &mut |case| {
        if random.one_in(14) {
            let case = if random.one_in(2) { turned(case) } else { case };
            put_changes(file, &Changes { due: None, ..case });
        }
        true
    });
    file.group("compare: positions at the edges");
    changes::small_pairs(2, &changes::edges(), &mut |case| {
        if random.one_in(40) {
            put_changes(file, &case);
        }
        true
    });
    file.group("compare: runs of equal positions");
    changes::runs(&mut |case| {
        if case.left.len() + case.right.len() < NUMBERS / 2 && random.one_in(90) {
            put_changes(file, &case);
        }
        true
    });
    file.group("compare: one number");
    changes::one_number(&mut |case| {
        if case.left.len() < 6 * WIDTH && random.one_in(60) {
            put_changes(file, &case);
        }
        true
    });
    file.group("compare: made with their entries");
    for positions in 0..30 {
        put_changes(file, &changes::made(&mut random, positions));
    }
    file.group("compare: lists");
    changes::random_pairs(&mut random, 50, 34, &mut |case| {
        put_changes(file, &case);
        true
    });
    // Of each length, and whichever table falls.
    file.group("compare: refused");
    changes::lengths(&mut |case| {
        if case.room.is_none() && random.one_in(60) {
            put_changes(file, &case);
        }
        true
    });
    for count in 2..=9 {
        for i in 1..count {
            let (falls, rises) = (sorted::fallen(i % sorted::FALLS, count, i), sorted::in_order(0, i));
            let case = Changes::of(&changes::at_places(&falls), &changes::at_places(&rises));
            put_changes(file, &if i % 2 == 0 { turned(case) } else { case });
        }
    }
}

/// Writes stdin and stdout of crates/replay_answers.
pub fn run(seed: u64) {
    let mut file = File::default();
    decode(&mut file, seed);
    encode(&mut file, seed);
    translate(&mut file, seed);
    lookup(&mut file, seed);
    compose(&mut file, seed);
    lookup_many(&mut file, seed);
    compare(&mut file, seed);
    file.write(&Path::new("crates").join("replay_answers"));
}
