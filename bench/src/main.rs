//! Times the library and the crate oxc_sourcemap 9.0.0 side by side, in one process, in turn. A figure is the library's time
//! divided by the crate's, with the quartiles of the ratios of neighbouring runs behind it.

mod changes;
mod library;
mod memory;
mod texts;
mod timing;

use std::borrow::Cow;
use std::hint::black_box;
use std::path::{Path, PathBuf};
use std::process::ExitCode;
use std::time::Instant;

use changes::changes;
use memory::Memory;
use oxc_sourcemap::{SourceMap, Token, TokenChunk, reach};
use peghayrick::{TokenChunk as Chunk, WIDTH};
use texts::{Kind, Names, Random, Text, made, made_names, made_tokens, real, real_names, table_of, whole};
use timing::{Thing, Timed, after, plain, shown, timed, timed_few};

#[global_allocator]
static MEMORY: Memory = Memory::new();

const SMALL: usize = 20_000;
const LARGE: usize = 1_000_000;
const REAL: [&str; 3] = ["tsc-js-typescript", "terser-typescript", "esbuild-bundle-ts-parser"];

fn made_texts(count: usize, size: &str) -> Vec<Text> {
    vec![
        made(&format!("one-{size}"), Kind::OneDigit, count),
        made(&format!("mixed-{size}"), Kind::Mixed, count),
        made(&format!("multi-{size}"), Kind::Multi, count),
    ]
}

fn real_texts(corpus: &Path) -> Result<Vec<Text>, String> {
    REAL.iter().map(|id| real(corpus, id)).collect()
}

/// A thing done with freed memory handed out again.
fn reusing<'a>(mut thing: Thing<'a>) -> Thing<'a> {
    Box::new(move |times| {
        MEMORY.reuse(true);
        let seconds = thing(times);
        MEMORY.reuse(false);
        seconds
    })
}

fn each(seconds: f64, tokens: usize) -> String {
    format!("{:8.1}", seconds * 1e9 / tokens as f64)
}

fn over(ratio: f64, most: f64) -> &'static str {
    if ratio > most { "  over" } else { "" }
}

fn decode_ours<'a>(t: &'a Text, table: &'a mut [u32]) -> impl FnMut() + 'a {
    move || {
        let d = library::decode_lenient(t.text.as_bytes(), t.sources, t.names, table);
        assert!(d.code == 0 && d.tokens as usize == t.tokens.len());
    }
}

fn decode_theirs(t: &Text) -> impl FnMut() + '_ {
    move || {
        let tokens = reach::decode_mapping(&t.text, t.names as usize, t.sources as usize);
        assert!(black_box(tokens).is_ok_and(|tokens| tokens.len() == t.tokens.len()));
    }
}

fn decode(seconds: f64, texts: &[Text], most: f64) {
    for t in texts {
        let mut table = vec![0u32; t.tokens.len() * WIDTH];
        let mut checked = table.clone();
        decode_ours(t, &mut table)();
        // All but the segment, which the crate's tokens do not have.
        let same = |(ours, theirs): (&[u32], &[u32])| ours[..6] == theirs[..6];
        assert!(table.chunks(WIDTH).zip(table_of(&t.tokens).chunks(WIDTH)).all(same), "{}: not the crate's tokens", t.name);
        let r = timed(
            seconds,
            vec![
                plain(decode_ours(t, &mut table)),
                plain(decode_theirs(t)),
                reusing(plain(decode_theirs(t))),
                plain(|| assert!(library::decode_checked(t.text.as_bytes(), t.sources, t.names, &mut checked).code == 0)),
            ],
        );
        println!(
            "{:<10} {:>8} {:>9} {:>18} {:>18} {:>14.2} {} {:>6}{}",
            t.name,
            t.tokens.len(),
            t.text.len(),
            shown(r.ratios[0]),
            shown(r.ratios[1]),
            r.medians[3] / r.medians[0],
            each(r.medians[0], t.tokens.len()),
            r.runs,
            over(r.ratios[0].0, most),
        );
    }
}

/// The crate's chunks of so many tokens, each from the state that the tokens before it leave.
fn chunks_of(tokens: &[Token], step: usize) -> Vec<TokenChunk> {
    let (mut line, mut col, mut src_line, mut src_col, mut name, mut source) = (0, 0, 0, 0, 0, 0);
    let mut chunks = Vec::new();
    for (i, part) in tokens.chunks(step).enumerate() {
        let start = (i * step) as u32;
        chunks.push(TokenChunk::new(start, start + part.len() as u32, line, col, src_line, src_col, name, source));
        for t in part {
            (line, col) = (t.get_dst_line(), t.get_dst_col());
            if let Some(id) = t.get_source_id() {
                (src_line, src_col, source) = (t.get_src_line(), t.get_src_col(), id);
                name = t.get_name_id().unwrap_or(name);
            }
        }
    }
    chunks
}

/// Writes a table in pieces, each from the state before it, into the room that `ends` gives it; the whole rest without.
fn write_ours<'a>(table: &'a [u32], step: usize, bytes: usize, ends: Option<&'a [usize]>, out: &'a mut [u8]) -> impl FnMut() + 'a {
    let tokens = table.len() / WIDTH;
    move || {
        let mut chunk = Chunk::default();
        let mut at = 0;
        let mut piece = 0;
        while (chunk.start as usize) < tokens {
            chunk.end = (chunk.start as usize + step).min(tokens) as u32;
            let to = ends.map_or(out.len(), |ends| ends[piece]);
            let e = library::encode(table, chunk, &mut out[at..to]);
            assert!(e.code == 0);
            at += e.bytes as usize;
            chunk = e.next;
            piece += 1;
        }
        assert!(at == bytes);
    }
}

fn write_theirs<'a>(tokens: &'a [Token], chunks: &'a [TokenChunk], bytes: usize, mut out: String) -> impl FnMut() + 'a {
    move || {
        out.clear();
        for chunk in chunks {
            reach::serialize_mappings(tokens, chunk, &mut out);
        }
        assert!(black_box(&out).len() == bytes);
    }
}

/// As `SourceMap::to_json` does: the text is allocated by the crate's own estimate.
fn write_theirs_anew<'a>(tokens: &'a [Token], chunks: &'a [TokenChunk], bytes: usize) -> impl FnMut() + 'a {
    let estimate = tokens.len() * 12 + tokens.last().map_or(0, |t| t.get_dst_line() as usize);
    move || {
        let mut out = String::with_capacity(estimate);
        for chunk in chunks {
            reach::serialize_mappings(tokens, chunk, &mut out);
        }
        assert!(black_box(&out).len() == bytes);
    }
}

fn roomy(tokens: &[Token]) -> usize {
    tokens.len() * 36 + tokens.last().map_or(0, |t| t.get_dst_line() as usize)
}

fn write(seconds: f64, texts: &[Text], step: usize, roomy_most: f64) {
    for t in texts {
        let step = step.min(t.tokens.len());
        let table = table_of(&t.tokens);
        let chunks = chunks_of(&t.tokens, step);
        let mut text = String::new();
        let mut ends = Vec::new();
        for chunk in &chunks {
            reach::serialize_mappings(&t.tokens, chunk, &mut text);
            ends.push(text.len());
        }
        let bytes = text.len();
        let mut wide = vec![0u8; roomy(&t.tokens)];
        let mut tight = vec![0u8; bytes];
        write_ours(&table, step, bytes, None, &mut wide)();
        assert!(wide[..bytes] == *text.as_bytes(), "{}: not the crate's bytes", t.name);
        let theirs = || plain(write_theirs(&t.tokens, &chunks, bytes, String::with_capacity(roomy(&t.tokens))));
        let anew = || plain(write_theirs_anew(&t.tokens, &chunks, bytes));
        let r = timed(seconds, vec![plain(write_ours(&table, step, bytes, None, &mut wide)), theirs(), anew()]);
        let x = timed(seconds, vec![plain(write_ours(&table, step, bytes, Some(&ends), &mut tight)), theirs(), anew()]);
        assert!(tight == *text.as_bytes(), "{}: not the crate's bytes", t.name);
        println!(
            "{:<10} {:>8} {:>18} {:>18} {:>18} {:>18} {} {:>6}{}{}",
            t.name,
            t.tokens.len(),
            shown(r.ratios[0]),
            shown(r.ratios[1]),
            shown(x.ratios[0]),
            shown(x.ratios[1]),
            each(r.medians[0], t.tokens.len()),
            r.runs,
            over(r.ratios[0].0, roomy_most),
            over(x.ratios[0].0, 1.6),
        );
    }
}

/// In place, one line further each time: a run in which no sum leaves its range.
fn translate(seconds: f64) {
    println!("\ntranslate: in place, by (1, 0, 0); the crate's Token::translated over a slice, which tests nothing");
    println!("{:>8} {:>18} {:>18} {:>8} {:>6}", "tokens", "table", "records", "ns/token", "runs");
    for count in [1_000, 10_000, SMALL, 100_000, LARGE] {
        let mut theirs = made_tokens(Kind::Mixed, count);
        let mut table = table_of(&theirs);
        let mut records = table.clone();
        let mut other = theirs.clone();
        // The compiler must not know the offsets, or it makes the crate's loop one that moves lines alone.
        let offsets = || black_box((1u32, 0u32, 0u32));
        let step = |tokens: &mut [Token]| {
            let (line, source, name) = offsets();
            for t in tokens.iter_mut() {
                *t = reach::translated(*t, line, source, name);
            }
            black_box(tokens);
        };
        let mut in_table = || {
            let (line, source, name) = offsets();
            assert!(library::translate(&mut table, line, source, name).code == 0);
        };
        let mut in_records = || {
            let (line, source, name) = offsets();
            assert!(library::translate_tokens(&mut records, line, source, name).code == 0);
        };
        let a = timed(seconds, vec![plain(&mut in_table), plain(|| step(&mut theirs))]);
        let b = timed(seconds, vec![plain(&mut in_records), plain(|| step(&mut other))]);
        println!("{:>8} {:>18} {:>18} {} {:>6}", count, shown(a.ratios[0]), shown(b.ratios[0]), each(a.medians[0], count), a.runs);
    }
}

fn list_of(names: &Names) -> Vec<Cow<'static, str>> {
    let mut from = 0;
    names
        .ends
        .iter()
        .map(|&to| {
            let name = String::from_utf8_lossy(&names.text[from..to]).into_owned();
            from = to;
            Cow::Owned(name)
        })
        .collect()
}

fn map_of(tokens: &[Token], names: &Names, sources: usize) -> SourceMap<'static> {
    let sources = (0..sources).map(|i| Cow::Owned(format!("s{i}"))).collect();
    SourceMap::new(None, list_of(names), None, sources, vec![], tokens.to_vec().into_boxed_slice(), None)
}

/// Positions of tokens all over a list, a column past each.
fn log_from(r: &mut Random, tokens: &[Token], count: usize) -> Vec<(u32, u32)> {
    (0..count)
        .map(|_| {
            let t = tokens[r.below(tokens.len() as u64) as usize];
            (t.get_dst_line(), t.get_dst_col() + 1)
        })
        .collect()
}

fn log_of(tokens: &[Token], count: usize) -> Vec<(u32, u32)> {
    log_from(&mut Random(77), tokens, count)
}

fn lookup(seconds: f64) {
    println!("\nlookup: a log of forty positions; the crate with and without the making of its table of lines");
    println!("{:>8} {:>18} {:>20} {:>12} {:>6}", "tokens", "made each time", "made before", "us/log", "runs");
    for count in [1_000, 10_000, 100_000, LARGE] {
        let tokens = made_tokens(Kind::Mixed, count);
        let table = table_of(&tokens);
        let map = map_of(&tokens, &Names::default(), 10);
        let log = log_of(&tokens, 40);
        let before = map.generate_lookup_table();
        let ours = || {
            for &(line, col) in &log {
                assert!(black_box(library::lookup(&table, line, col)).code == 0);
            }
        };
        let theirs = || {
            let lines = map.generate_lookup_table();
            for &(line, col) in &log {
                assert!(black_box(map.lookup_token(&lines, line, col)).is_some());
            }
        };
        let made = || {
            for &(line, col) in &log {
                assert!(black_box(map.lookup_token(&before, line, col)).is_some());
            }
        };
        let r = timed(seconds, vec![plain(ours), plain(theirs), plain(made)]);
        println!(
            "{:>8} {:>18} {:>20} {:>12.1} {:>6}",
            count,
            shown(r.ratios[0]),
            format!("{:.0}", r.ratios[1].0),
            r.medians[0] * 1e6,
            r.runs
        );
    }
}

/// The tokens on one line, each some columns past the one before it.
fn on_one_line(tokens: &[Token]) -> Vec<Token> {
    let mut r = Random(9);
    let mut col = 0;
    let mut moved = |t: &Token| {
        col += 1 + r.below(8) as u32;
        Token::new(0, col, t.get_src_line(), t.get_src_col(), t.get_source_id(), t.get_name_id())
    };
    tokens.iter().map(&mut moved).collect()
}

fn shuffled(mut tokens: Vec<Token>) -> Vec<Token> {
    let mut r = Random(3);
    for i in (1..tokens.len()).rev() {
        tokens.swap(i, r.below(i as u64 + 1) as usize);
    }
    tokens
}

/// Five positions, each eight times.
fn log_of_five(tokens: &[Token]) -> Vec<(u32, u32)> {
    let five = log_of(tokens, 5);
    (0..40).map(|i| five[i % 5]).collect()
}

/// A log in one call. The crate makes no table of lines where lines fall.
fn many_of(seconds: f64, name: &str, tokens: &[Token], log: &[(u32, u32)]) {
    let table = table_of(tokens);
    let positions: Vec<u32> = log.iter().flat_map(|&(line, col)| [line, col]).collect();
    let mut found = vec![0u32; log.len()];
    assert!(library::lookup_many(&table, &positions, &mut found).code == 0);
    let same = |(&(line, col), &index): (&(u32, u32), &u32)| library::lookup(&table, line, col).number == u64::from(index);
    assert!(log.iter().zip(&found).all(same), "{name}: not what one lookup after another says");
    let sorted = tokens.windows(2).all(|w| w[0].get_dst_line() <= w[1].get_dst_line());
    let map = sorted.then(|| map_of(tokens, &Names::default(), 10));
    let before = map.as_ref().map(|map| map.generate_lookup_table());
    let ours = || assert!(black_box(library::lookup_many(&table, &positions, &mut found)).code == 0);
    let one_by_one = || {
        for &(line, col) in log {
            assert!(black_box(library::lookup(&table, line, col)).code == 0);
        }
    };
    let mut things = vec![plain(ours), plain(one_by_one)];
    if let (Some(map), Some(before)) = (&map, &before) {
        things.push(plain(|| {
            let lines = map.generate_lookup_table();
            for &(line, col) in log {
                assert!(black_box(map.lookup_token(&lines, line, col)).is_some());
            }
        }));
        things.push(plain(|| {
            for &(line, col) in log {
                assert!(black_box(map.lookup_token(before, line, col)).is_some());
            }
        }));
    }
    let r = timed(seconds, things);
    println!(
        "{:<10} {:>8} {:>10} {:>18} {:>20} {:>14} {:>12.1} {:>6}",
        name,
        tokens.len(),
        log.len(),
        shown(r.ratios[0]),
        r.ratios.get(1).map_or("-".into(), |&ratio| shown(ratio)),
        r.ratios.get(2).map_or("-".into(), |ratio| format!("{:.1}", ratio.0)),
        r.medians[0] * 1e6,
        r.runs
    );
}

fn many(seconds: f64) {
    println!("\nlookup, many positions in one call: to one call for each; to the crate with and without the making of its table of lines");
    println!(
        "{:<10} {:>8} {:>10} {:>18} {:>20} {:>14} {:>12} {:>6}",
        "table", "tokens", "positions", "one by one", "made each time", "made before", "us/call", "runs"
    );
    for count in [1_000, 100_000, LARGE] {
        let by_line = made_tokens(Kind::Mixed, count);
        let (one_line, mixed) = (on_one_line(&by_line), shuffled(by_line.clone()));
        let rows = [
            ("by line", &by_line, log_of(&by_line, 40)),
            ("one line", &one_line, log_of(&one_line, 40)),
            ("shuffled", &mixed, log_of(&mixed, 40)),
            ("repeats", &by_line, log_of_five(&by_line)),
            ("by line", &by_line, log_of(&by_line, 2)),
            ("by line", &by_line, log_of(&by_line, 1)),
        ];
        for (name, tokens, log) in &rows {
            many_of(seconds, name, tokens, log);
        }
    }
}

/// Each five tokens at one position.
fn equal_fives(tokens: &[Token]) -> Vec<Token> {
    let moved = |(i, t): (usize, &Token)| {
        let (line, col) = (tokens[i - i % 5].get_dst_line(), tokens[i - i % 5].get_dst_col());
        Token::new(line, col, t.get_src_line(), t.get_src_col(), t.get_source_id(), t.get_name_id())
    };
    tokens.iter().enumerate().map(moved).collect()
}

/// So many logs are asked in turn. Where one is asked again and again, the processor learns its branches, and its tokens stay in the
/// cache.
const LOGS: usize = 512;

/// Logs of so many positions, each of them so many times, as the library takes them.
fn logs_of(tokens: &[Token], positions: usize, times: usize) -> Vec<Vec<u32>> {
    let mut r = Random(77);
    let mut log = || log_from(&mut r, tokens, positions).repeat(times).into_iter().flat_map(|(line, col)| [line, col]).collect();
    (0..LOGS).map(|_| log()).collect()
}

/// The quick call, for one log after another.
fn quick_of(seconds: f64, name: &str, tokens: &[Token], logs: &[Vec<u32>]) {
    let table = table_of(tokens);
    let positions = logs[0].len() / 2;
    let (mut found, mut other) = (vec![0u32; positions], vec![0u32; positions]);
    for log in logs.iter().take(16) {
        assert!(library::lookup_many_quick(&table, log, &mut found).code == 0);
        assert!(library::lookup_many(&table, log, &mut other).code == 0);
        assert!(found == other, "{name}: not what the plain call says");
    }
    let sorted = tokens.windows(2).all(|w| w[0].get_dst_line() <= w[1].get_dst_line());
    let map = sorted.then(|| map_of(tokens, &Names::default(), 10));
    let before = map.as_ref().map(|map| map.generate_lookup_table());
    let in_turn = || {
        let mut each = logs.iter().cycle();
        move || each.next().expect("a log")
    };
    let (mut one, mut two, mut three, mut four) = (in_turn(), in_turn(), in_turn(), in_turn());
    let mut things = vec![
        plain(|| assert!(black_box(library::lookup_many_quick(&table, one(), &mut found)).code == 0)),
        plain(|| assert!(black_box(library::lookup_many(&table, two(), &mut other)).code == 0)),
        plain(|| assert!(black_box(library::lookup_many_quick(&table, black_box(&[]), &mut [])).code == 0)),
    ];
    if let (Some(map), Some(before)) = (&map, &before) {
        things.push(plain(move || {
            let lines = map.generate_lookup_table();
            for pair in three().chunks_exact(2) {
                assert!(black_box(map.lookup_token(&lines, pair[0], pair[1])).is_some());
            }
        }));
        things.push(plain(move || {
            for pair in four().chunks_exact(2) {
                assert!(black_box(map.lookup_token(before, pair[0], pair[1])).is_some());
            }
        }));
    }
    let r = timed(seconds, things);
    let ratio = |i: usize| match r.ratios.get(i) {
        None => "-".into(),
        Some(ratio) if ratio.0 >= 100.0 => format!("{:.0}", ratio.0),
        Some(&ratio) => shown(ratio),
    };
    println!(
        "{:<10} {:>8} {:>10} {:>5} {:>18} {:>20} {:>20} {:>18} {:>10.2} {:>6}",
        name,
        tokens.len(),
        positions,
        logs.len(),
        ratio(0),
        ratio(2),
        ratio(3),
        ratio(1),
        r.medians[0] * 1e6,
        r.runs
    );
}

fn quick(seconds: f64) {
    println!("\nlookup, the quick call: to the plain one; to the crate with and without the making of its table of lines; to");
    println!("the call for no position, which looks whether the table is sorted. {LOGS} logs in turn, or one again and again");
    println!(
        "{:<10} {:>8} {:>10} {:>5} {:>18} {:>20} {:>20} {:>18} {:>10} {:>6}",
        "table", "tokens", "positions", "logs", "plain", "made each time", "made before", "no position", "us/call", "runs"
    );
    for count in [1_000, 100_000, LARGE] {
        let by_line = made_tokens(Kind::Mixed, count);
        let (one_line, mixed, equals) = (on_one_line(&by_line), shuffled(by_line.clone()), equal_fives(&by_line));
        let rows = [
            ("by line", &by_line, 40, 1),
            ("one line", &one_line, 40, 1),
            ("shuffled", &mixed, 40, 1),
            ("repeats", &by_line, 5, 8),
            ("equals", &equals, 40, 1),
            ("by line", &by_line, 2, 1),
            ("by line", &by_line, 1, 1),
        ];
        for (name, tokens, positions, times) in rows {
            let logs = logs_of(tokens, positions, times);
            quick_of(seconds, name, tokens, &logs);
            quick_of(seconds, name, tokens, &logs[..1]);
        }
    }
}

/// How the positions of an outer list lie: as tokens of the inner one come, or from anywhere to anywhere.
#[derive(Clone, Copy)]
enum Order {
    Rising,
    Any,
}

/// An outer list of tokens that lead to places of the inner one; two in five have one of so many names.
fn outer_over(inner: &[Token], count: usize, order: Order, names: usize) -> Vec<Token> {
    let mut r = Random(5);
    let mut log = log_of(inner, count);
    if let Order::Rising = order {
        log.sort();
    }
    log.into_iter()
        .enumerate()
        .map(|(i, (line, col))| {
            let name = (r.below(10) < 4).then(|| r.below(names as u64) as u32);
            Token::new(i as u32 / 20, (i as u32 % 20) * 10, line, col, Some(0), name)
        })
        .collect()
}

/// A map to compose: its tokens, its names, and how many sources it has.
struct Map {
    tokens: Vec<Token>,
    names: Names,
    sources: usize,
}

/// Where the plain call takes longer, in seconds, it is run a few times.
const LONG: f64 = 0.25;
const FEW: usize = 3;

/// Ours, and the crate's composing of these maps.
fn beside<'a>(ours: Thing<'a>, theirs: Option<&'a (SourceMap<'static>, SourceMap<'static>)>) -> Vec<Thing<'a>> {
    let run = |(outer, inner): (SourceMap<'static>, SourceMap<'static>)| drop(black_box(outer.compose(inner)));
    let theirs = theirs.map(|pair| after(move || pair.clone(), run));
    [Some(ours), theirs].into_iter().flatten().collect()
}

/// Both calls beside the crate, which makes no table of lines where lines fall.
fn compose_of(seconds: f64, name: &str, outer: &Map, inner: &Map) {
    let (outer_table, inner_table) = (table_of(&outer.tokens), table_of(&inner.tokens));
    let maps = library::Maps { outer: &outer_table, outer_names: &outer.names, inner: &inner_table, inner_names: &inner.names };
    let (outer_count, inner_count) = (outer.names.ends.len(), inner.names.ends.len());
    let (mut result, mut added) = (vec![0u32; outer_table.len()], vec![0u32; outer_count]);
    let (mut result_with, mut added_with) = (result.clone(), added.clone());
    let mut work = vec![0u32; 2 * inner_count + 3 * outer_count];
    let begun = Instant::now();
    let plainly = library::compose(&maps, &mut result, &mut added);
    let slow = begun.elapsed().as_secs_f64() > LONG;
    let with = library::compose_with(&maps, &mut result_with, &mut added_with, &mut work);
    assert!(plainly.code == 0 && with.code == 0 && plainly.added == with.added, "{name}: refused");
    assert!(result == result_with && added == added_with, "{name}: the calls differ");
    let sorted = inner.tokens.windows(2).all(|w| w[0].get_dst_line() <= w[1].get_dst_line());
    let pair = (map_of(&outer.tokens, &outer.names, 1), map_of(&inner.tokens, &inner.names, inner.sources));
    let theirs = sorted.then_some(&pair);
    let ours = || assert!(library::compose(&maps, &mut result, &mut added).code == 0);
    let things = beside(plain(ours), theirs);
    let p: Timed = if slow { timed_few(FEW, things) } else { timed(seconds, things) };
    let ours = || assert!(library::compose_with(&maps, &mut result_with, &mut added_with, &mut work).code == 0);
    let w = timed(seconds, beside(plain(ours), theirs));
    let ratio = |t: &Timed| t.ratios.first().map_or("-".into(), |&ratio| shown(ratio));
    println!(
        "{:<22} {:>8} {:>8} {:>12} {:>6} {:>20} {:>20} {:>11.1} {:>11.1} {:>11} {:>9}",
        name,
        outer.tokens.len(),
        inner.tokens.len(),
        format!("{outer_count} {inner_count}"),
        with.added,
        ratio(&p),
        ratio(&w),
        p.medians[0] * 1e6,
        w.medians[0] * 1e6,
        w.medians.get(1).map_or("-".into(), |m| format!("{:.1}", m * 1e6)),
        format!("{} {}", p.runs, w.runs)
    );
}

/// The real maps that lie one over another, or are taken for such.
const CHAINS: [(&str, &str, &str); 3] = [
    ("chain", "chain-tsc-terser-1outer", "chain-tsc-terser-1inner"),
    ("terser over esbuild", "terser-three", "esbuild-bundle-ts-parser"),
    ("terser over tsc", "terser-typescript", "tsc-js-typescript"),
];

fn real_map(corpus: &Path, id: &str) -> Result<Map, String> {
    let t = real(corpus, id)?;
    Ok(Map { names: real_names(corpus, id, t.names as usize)?, tokens: t.tokens, sources: t.sources as usize })
}

fn compose(seconds: f64, corpus: &Path) {
    println!("\ncompose: the plain call, and the one with working memory; the crate's own copies of its maps are made before the clock");
    println!("runs. Positions in rising order, or any. Where the plain call takes more than {LONG} s, it is run {FEW} times");
    println!(
        "{:<22} {:>8} {:>8} {:>12} {:>6} {:>20} {:>20} {:>11} {:>11} {:>11} {:>9}",
        "positions", "outer", "inner", "names", "added", "compose", "compose_with", "us", "with, us", "crate, us", "runs"
    );
    let made = |count: usize, names: Names| Map { tokens: made_tokens(Kind::Mixed, count), names, sources: 10 };
    let over = |inner: &Map, count: usize, order: Order, names: Names| Map {
        tokens: outer_over(&inner.tokens, count, order, names.ends.len()),
        names,
        sources: 1,
    };
    let few = |prefix: &str| made_names(prefix, 200);
    let orders = [("rising", Order::Rising), ("any", Order::Any)];
    let inner = made(100_000, few("i"));
    compose_of(seconds, "any", &over(&inner, 40, Order::Any, few("o")), &inner);
    for count in [1_000, 8_000, 10_000, 100_000, LARGE] {
        let inner = made(count, few("i"));
        for (name, order) in orders {
            compose_of(seconds, name, &over(&inner, count, order, few("o")), &inner);
        }
    }
    let inner = made(8_000, made_names("i", 20));
    for (name, order) in orders {
        compose_of(seconds, name, &over(&inner, 8_000, order, made_names("o", 20)), &inner);
    }
    let inner = made(100_000, made_names("i", 10_000));
    for (name, prefix) in [("rising, other names", "o"), ("rising, equal names", "i")] {
        compose_of(seconds, name, &over(&inner, 100_000, Order::Rising, made_names(prefix, 10_000)), &inner);
    }
    for (name, outer, inner) in CHAINS {
        match (real_map(corpus, outer), real_map(corpus, inner)) {
            (Ok(outer), Ok(inner)) => compose_of(seconds, name, &outer, &inner),
            (Err(e), _) | (_, Err(e)) => println!("(no {name}: {e})"),
        }
    }
    let mut inner = made(1_000, few("i"));
    let outer = over(&inner, 1_000, Order::Any, few("o"));
    inner.tokens.reverse();
    compose_of(seconds, "any, over a fall", &outer, &inner);
}

/// Short texts, where what a call costs by itself shows.
fn small(seconds: f64) {
    println!("\nsmall texts: decoding, one call");
    println!("{:>8} {:>8} {:>18} {:>8} {:>6}", "bytes", "tokens", "ratio", "ns", "runs");
    for count in [0, 1, 4, 20, 100] {
        let t = made("small", Kind::Mixed, count);
        let mut table = vec![0u32; count * WIDTH];
        let r = timed(seconds, vec![plain(decode_ours(&t, &mut table)), plain(decode_theirs(&t))]);
        println!("{:>8} {:>8} {:>18} {:>8.0} {:>6}", t.text.len(), count, shown(r.ratios[0]), r.medians[0] * 1e9, r.runs);
    }
}

/// What is counted: callgrind looks at this alone.
#[unsafe(no_mangle)]
#[inline(never)]
pub extern "C" fn counted(run: &mut Thing) {
    run(1);
}

const COUNTED: [&str; 5] = ["ours", "crate", "write-ours", "write-exact", "write-crate"];

fn count(part: &str, t: &Text) -> Result<(), String> {
    if let Some(kind) = part.strip_prefix("changes-") {
        return changes::count(kind, t);
    }
    let mut table = vec![0u32; t.tokens.len() * WIDTH];
    let given = table_of(&t.tokens);
    let chunks = [whole(&t.tokens)];
    let mut text = String::new();
    reach::serialize_mappings(&t.tokens, &chunks[0], &mut text);
    let all = t.tokens.len();
    let mut wide = vec![0u8; roomy(&t.tokens)];
    let mut tight = vec![0u8; text.len()];
    let mut thing = match part {
        "ours" => plain(decode_ours(t, &mut table)),
        "crate" => plain(decode_theirs(t)),
        "write-ours" => plain(write_ours(&given, all, text.len(), None, &mut wide)),
        "write-exact" => plain(write_ours(&given, all, text.len(), None, &mut tight)),
        "write-crate" => plain(write_theirs(&t.tokens, &chunks, text.len(), String::with_capacity(roomy(&t.tokens)))),
        _ => return Err(format!("no part {part}")),
    };
    counted(&mut thing);
    Ok(())
}

fn main() -> ExitCode {
    match run() {
        Ok(()) => ExitCode::SUCCESS,
        Err(why) => {
            eprintln!("bench: {why}");
            ExitCode::from(2)
        }
    }
}

fn run() -> Result<(), String> {
    let mut corpus = PathBuf::from("../shared/corpus");
    let mut seconds = 2.0;
    let mut words = Vec::new();
    let mut given = std::env::args().skip(1);
    while let Some(word) = given.next() {
        let mut next = || given.next().ok_or(format!("{word} wants a word after it"));
        match word.as_str() {
            "--corpus" => corpus = next()?.into(),
            "--seconds" => seconds = next()?.parse().map_err(|_| "--seconds wants a number")?,
            _ => words.push(word),
        }
    }
    let reals = |corpus: &Path| {
        real_texts(corpus).unwrap_or_else(|e| {
            println!("(no real maps: {e})");
            Vec::new()
        })
    };
    let in_cache = || made_texts(SMALL, "2e4");
    if words.first().is_some_and(|w| w.starts_with("count")) {
        let texts: Vec<Text> = in_cache().into_iter().chain(reals(&corpus)).collect();
        if let [_, part, name] = &words[..] {
            let text = texts.iter().find(|t| t.name == *name).ok_or(format!("no text {name}"))?;
            return count(part, text);
        }
        for part in COUNTED {
            for t in &texts {
                println!("{part} {} {}", t.name, t.tokens.len());
            }
        }
        for kind in changes::COUNTED {
            for t in texts.iter().filter(|t| t.name == "mixed-2e4" || !t.name.ends_with("2e4")) {
                println!("changes-{kind} {} {}", t.name, 2 * t.tokens.len());
            }
        }
        return Ok(());
    }
    let parts = ["decode", "write", "chunks", "translate", "lookup", "changes", "compose", "small"];
    if let Some(word) = words.iter().find(|w| !parts.contains(&w.as_str())) {
        return Err(format!("no part {word}: {}", parts.join(" ")));
    }
    let asked = |part: &str| words.is_empty() || words.iter().any(|w| w == part);
    println!("ours / crate: the ratio of medians over runs in turn, and in brackets the quartiles of the ratios of neighbouring runs.");
    println!("Lent tables and texts are reused and not cleared between runs, and every page of them is touched before.");
    if asked("decode") {
        println!("\ndecode: the crate allocates its table in each call ('reused': from memory that it freed before). To reach: 0.9, 1e6 aside");
        println!(
            "{:<10} {:>8} {:>9} {:>18} {:>18} {:>14} {:>8} {:>6}",
            "text", "tokens", "bytes", "ratio", "reused", "checked/ours", "ns/token", "runs"
        );
        decode(seconds, &in_cache(), 0.9);
        decode(seconds, &made_texts(LARGE, "1e6"), f64::INFINITY);
        decode(seconds, &reals(&corpus), 0.9);
    }
    for (part, step) in [("write", usize::MAX), ("chunks", 64)] {
        if asked(part) {
            let how = if part == "write" { "in one call" } else { "in chunks of 64 tokens, each from the state before it" };
            println!("\n{part}: {how}; 'anew': the crate allocates its text. To reach: roomy 1.0, tables larger than the cache 1.2; exact 1.6");
            println!(
                "{:<10} {:>8} {:>18} {:>18} {:>18} {:>18} {:>8} {:>6}",
                "text", "tokens", "roomy", "roomy, anew", "exact", "exact, anew", "ns/token", "runs"
            );
            write(seconds, &in_cache(), step, 1.0);
            write(seconds, &made_texts(LARGE, "1e6"), step, 1.2);
            write(seconds, &reals(&corpus), step, 1.2);
        }
    }
    if asked("translate") {
        translate(seconds);
    }
    if asked("lookup") {
        lookup(seconds);
        many(seconds);
        quick(seconds);
    }
    if asked("changes") {
        changes(seconds, &corpus);
    }
    if asked("compose") {
        compose(seconds, &corpus);
    }
    if asked("small") {
        small(seconds);
    }
    Ok(())
}
