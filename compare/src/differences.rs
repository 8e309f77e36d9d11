//! The inputs of docs/DIFFERENCES.md, row by row: what ours gives and what each build of the crate gives.

use std::time::Instant;

use crate::cases::Tally;
use crate::composing::names_of;
use crate::model::{self, Answer, NONE, NameOf, Names, Six, Token, TokenChunk, WIDTH, answer, sixes, table_of};
use crate::ours::{self, Entry, Lent, LentBytes, Room, composer, writer};
use crate::theirs::{BUILDS, Build};

fn at(dst_line: u32, dst_col: u32) -> Token {
    Token { dst_line, dst_col, src_line: 0, src_col: 0, source_id: NONE, name_id: NONE, segment: 0 }
}

fn same<T: PartialEq + std::fmt::Debug>(what: &str, got: T, want: T) -> Result<(), String> {
    if got == want { Ok(()) } else { Err(format!("{what}: {got:?}, and the page has {want:?}")) }
}

fn ours_decode(entry: Entry, text: &[u8], sources: u32, names: u32, numbers: usize) -> (Answer, u64, u64) {
    ours::decode(entry, text, sources, names, &mut Lent::new(numbers))
}

fn decoding(build: &Build) -> Result<(), String> {
    for numbers in 0..WIDTH {
        same("no place", ours_decode(Entry::Lenient, b"A", 0, 0, numbers), (answer(model::TABLE_FULL, 0), 0, 0))?;
    }
    same("no place, the crate", (build.decode)("A", 0, 0), Some(Ok(vec![at(0, 0).six()])))?;
    let mut table = Lent::new(WIDTH);
    same("the segment", ours::decode(Entry::Lenient, b",A", 0, 0, &mut table), (answer(model::DONE, 0), 1, 2))?;
    same("the segment", table.is(&table_of(&[Token { segment: 1, ..at(0, 0) }])), true)?;
    same("the segment, the crate", (build.decode)(",A", 0, 0), Some(Ok(vec![at(0, 0).six()])))?;
    same("0x80", ours_decode(Entry::Lenient, &[0x80], 0, 0, WIDTH), (answer(model::VLQ_LEFTOVER, 0), 0, 1))?;
    same("the place", ours_decode(Entry::Lenient, b"AADA", 1, 0, WIDTH), (answer(model::BAD_SEGMENT_SIZE, 0), 0, 2))?;
    same("the place, the crate", (build.decode)("AADA", 1, 0), Some(Err(answer(model::BAD_SEGMENT_SIZE, 0))))?;
    // 2^32 in one value, and in a sum of values that are taken.
    let lost = "ggggggI";
    same("wide", ours_decode(Entry::Checked, lost.as_bytes(), 0, 0, WIDTH).0, answer(model::WIDE_VALUE, 0))?;
    same("wide, the crate", (build.decode)(lost, 0, 0), Some(Ok(vec![at(0, 0).six()])))?;
    let sum = "+/////D,+/////D,E";
    same("a wide sum", ours_decode(Entry::Checked, sum.as_bytes(), 0, 0, 3 * WIDTH), (answer(model::WIDE_VALUE, 0), 2, 16))?;
    let places = [(1 << 31) - 1, NONE - 1, 0].map(|col| at(0, col).six());
    same("a wide sum, the crate", (build.decode)(sum, 0, 0), Some(Ok(places.to_vec())))?;
    same("name", ours_decode(Entry::Checked, b"AAAAD", 1, 1, WIDTH).0, answer(model::WIDE_VALUE, 4))?;
    let lost = answer(model::BAD_NAME_REFERENCE, u64::from(NONE));
    same("name, the crate", (build.decode)("AAAAD", 1, 1), Some(Err(lost)))?;
    // From ECMA-426: where checked mode judges a value as the standard does, and where it does not either.
    let wide = answer(model::WIDE_VALUE, 0);
    let below = answer(model::BAD_SEGMENT_SIZE, 0);
    for (text, col, checked) in [("B", 0, below), ("hA", 0, below), ("ggggggE", 1 << 31, wide), ("ggggggggggggQ", 0, wide)] {
        same(text, (build.decode)(text, 0, 0), Some(Ok(vec![at(0, col).six()])))?;
        let mut table = Lent::new(WIDTH);
        let done = (answer(model::DONE, 0), 1, text.len() as u64);
        same(text, ours::decode(Entry::Lenient, text.as_bytes(), 0, 0, &mut table), done)?;
        same(text, table.is(&table_of(&[at(0, col)])), true)?;
        same(text, ours_decode(Entry::Checked, text.as_bytes(), 0, 0, WIDTH), (checked, 0, 0))?;
    }
    let sixth = answer(model::BAD_SEGMENT_SIZE, 6);
    same("a sixth field", ours_decode(Entry::Checked, b"AAAAA+/////H", 1, 1, WIDTH), (sixth, 0, 0))?;
    same("a sixth field, the crate", (build.decode)("AAAAA+/////H", 1, 1), Some(Err(sixth)))?;
    let none: &[Token] = &[];
    for (text, sources, tokens) in [
        (",", 0, none),
        (
            "AAEG,C",
            1,
            &[
                Token { src_line: 2, src_col: 3, source_id: 0, ..at(0, 0) },
                Token { src_line: 2, src_col: 3, segment: 5, ..at(0, 1) },
            ],
        ),
    ] {
        same(text, (build.decode)(text, sources, 0), Some(Ok(sixes(tokens))))?;
        let mut table = Lent::new(2 * WIDTH);
        let done = (answer(model::DONE, 0), tokens.len() as u64, text.len() as u64);
        same(text, ours::decode(Entry::Checked, text.as_bytes(), sources, 0, &mut table), done)?;
        same(text, table.is(&table_of(tokens)), true)?;
    }
    for (text, code) in [
        ("gggggggggggggA", model::VLQ_OVERFLOW),
        ("!A", model::BAD_SEGMENT_SIZE),
        ("D", model::BAD_SEGMENT_SIZE),
        ("AAAA", model::BAD_SOURCE_REFERENCE),
    ] {
        same(text, (build.decode)(text, 0, 0), Some(Err(answer(code, 0))))?;
        same(text, ours_decode(Entry::Checked, text.as_bytes(), 0, 0, WIDTH).0, answer(code, 0))?;
    }
    Ok(())
}

fn writing(build: &Build) -> Result<(), String> {
    let back = TokenChunk { end: 1, prev_dst_line: 1, ..TokenChunk::default() };
    let past = TokenChunk { end: 1, ..TokenChunk::default() };
    let turned = TokenChunk { start: 1, ..TokenChunk::default() };
    // The release build's 4,294,967,295 semicolons are not written here.
    if build.name == "debug" {
        same("a line goes back", (build.encode)(&[at(0, 0)], back), None)?;
    }
    same("a bad chunk", (build.encode)(&[], past), None)?;
    same("a bad chunk", (build.encode)(&[], turned), None)?;
    same("no room", (build.encode)(&[at(0, 0)], past), Some(b"A".to_vec()))?;
    if writer::HERE {
        let token = table_of(&[at(0, 0)]);
        let mut out = LentBytes::new(0);
        same("a line goes back", writer::encode(&token, back, &mut out), (answer(model::LINE_GOES_BACK, 0), 0, back))?;
        same("a bad chunk", writer::encode(&[], past, &mut out), (answer(model::BAD_CHUNK, 0), 0, past))?;
        same("a bad chunk", writer::encode(&[], turned, &mut out), (answer(model::BAD_CHUNK, 0), 0, turned))?;
        same("no room", writer::encode(&token, past, &mut out), (answer(model::NO_ROOM, 1), 0, past))?;
        let after = TokenChunk { start: 1, end: 1, prev_dst_col: 1, ..TokenChunk::default() };
        let got = writer::encode(&table_of(&[at(0, 1)]), past, &mut LentBytes::new(1));
        same("the state", got, (answer(model::DONE, 0), 1, after))?;
    }
    Ok(())
}

fn translating(build: &Build) -> Result<(), String> {
    let id = Token { source_id: NONE - 1, ..at(0, 0) };
    let big = answer(model::TOO_BIG, 0);
    same("an id", ours::translate(&mut Lent::holding(&table_of(&[id])), 0, 1, 0), big)?;
    same("an id, the crate", (build.translate)(&[id], 0, 1, 0), Some(vec![at(0, 0).six()]))?;
    same("a line", ours::translate(&mut Lent::holding(&table_of(&[at(1, 0)])), NONE, 0, 0), big)?;
    let want = if build.name == "debug" { None } else { Some(vec![at(0, 0).six()]) };
    same("a line, the crate", (build.translate)(&[at(1, 0)], NONE, 0, 0), want)
}

fn looking(build: &Build) -> Result<(), String> {
    let rows: [(&[(u32, u32)], (u32, u32), u64, Option<u32>); 5] = [
        (&[(0, 1)], (0, 0), u64::from(NONE), Some(0)),
        (&[(0, 0), (0, 0)], (0, 0), 1, Some(0)),
        (&[(0, 1), (0, 0)], (0, 1), 0, Some(1)),
        (&[(1, 0), (0, 0)], (0, 0), 1, None),
        (&[(1, 0), (0, 0), (1, 1)], (1, 0), 0, Some(2)),
    ];
    for (i, (places, asked, index, theirs)) in rows.into_iter().enumerate() {
        // The source line tells the tokens apart.
        let tokens: Vec<Token> = places.iter().enumerate().map(|(i, &(l, c))| Token { src_line: i as u32, ..at(l, c) }).collect();
        same("ours", ours::lookup(&table_of(&tokens), asked.0, asked.1), answer(model::DONE, index))?;
        let looked = (build.look)(&tokens, &[asked]).map(|l| l[0]);
        let src_line = |six: Six| six[2];
        same("the crate's", looked.and_then(|l| l.0).map(src_line), theirs)?;
        // The plain lookup does not clamp.
        let plain = looked.and_then(|l| l.1).map(src_line);
        same("the crate's plain one", plain, if i == 0 || i == 4 { None } else { theirs })?;
    }
    Ok(())
}

fn composing(build: &Build) -> Result<(), String> {
    let none = Names::default();
    let fall = [at(1, 0), at(0, 0)];
    let outer = [Token { source_id: 0, ..at(0, 0) }];
    let inner = [Token { source_id: 0, ..at(0, 1) }];
    same("two sources", (build.compose)(&[], 2, &none, &[], &none), None)?;
    same("lines fall", (build.compose)(&[], 1, &none, &fall, &none), None)?;
    same("before", (build.compose)(&outer, 1, &none, &inner, &none), Some((sixes(&outer), vec![])))?;
    if composer::HERE {
        // By the plain call, and by the one with working memory: three numbers are enough for one outer name.
        for work in [None, Some(3)] {
            let run = |outer: &[Token], sources, names: &Names, inner: &[Token], numbers, added| {
                let mut room = Room { result: Lent::new(numbers), added: Lent::new(added), work: work.map(Lent::new) };
                let got = composer::compose(&table_of(outer), sources, names, &table_of(inner), &none, &mut room);
                (got, room.result)
            };
            let code = |(got, _): ((Answer, u64), Lent)| got;
            same("two sources", code(run(&[], 2, &none, &[], WIDTH, 0)), (answer(model::MORE_THAN_ONE_SOURCE, 0), 0))?;
            same("lines fall", code(run(&[], 1, &none, &fall, WIDTH, 0)), (answer(model::DONE, 0), 0))?;
            let (got, result) = run(&outer, 1, &none, &inner, WIDTH, 0);
            same("before", got, (answer(model::DONE, 0), 0))?;
            same("before", result.is(&table_of(&[at(0, 0)])), true)?;
            same("no place", code(run(&[at(0, 0)], 1, &none, &[], WIDTH - 1, 0)), (answer(model::TABLE_FULL, 0), 0))?;
            let one = names_of(&[b"a"], b"");
            same("no place", code(run(&[], 1, &one, &[], WIDTH - 1, 0)), (answer(model::NO_ROOM, 1), 0))?;
        }
        let unknown = NameOf { found: 0, outer: 0, start: 0, end: 0 };
        same("no name", composer::name_of(&none, &none, &[], 0), unknown)?;
    }
    Ok(())
}

pub fn run(tally: &mut Tally, _seed: u64, _scale: usize) {
    let parts: [(&str, fn(&Build) -> Result<(), String>); 5] = [
        ("decoding", decoding),
        ("writing", writing),
        ("translating", translating),
        ("lookup", looking),
        ("composing", composing),
    ];
    for (name, part) in parts {
        for build in &BUILDS {
            let begun = Instant::now();
            let result = part(build);
            tally.single(&format!("DIFFERENCES.md: {name}, {}", build.name), result, begun.elapsed().as_secs_f64());
        }
    }
}
