//! Lengths at the limits of docs/RULES.md. The memory is lent without being there: pages of zeros, made when touched.

use std::time::Instant;

use crate::cases::Tally;
use crate::model::{self, Answer, MOST, Mode, NONE, TokenChunk, WIDTH, answer};
use crate::ours::{self, Entry, Lent, Many};

unsafe extern "C" {
    fn mmap(at: *mut u8, len: usize, protection: i32, flags: i32, file: i32, offset: i64) -> *mut u8;
}

/// So many bytes of zeros (readable, writable, private, anonymous, not reserved), or nothing where the system has no room.
fn zeros(bytes: usize) -> Option<*mut u8> {
    let at = unsafe { mmap(std::ptr::null_mut(), bytes, 3, 0x4022, -1, 0) };
    if at as isize == -1 { None } else { Some(at) }
}

fn expect<T: PartialEq + std::fmt::Debug>(what: &str, got: T, want: T) -> Result<(), String> {
    if got == want { Ok(()) } else { Err(format!("{what}: ours {got:?}, and {want:?} was due")) }
}

const BAD: Answer = Answer { code: model::BAD_TABLE, number: 0 };

/// The numbers of the largest table, and of one with a token more.
const LARGEST: usize = WIDTH * MOST;
const OVER: usize = WIDTH * (MOST + 1);

/// Lengths that are no table: no multiple of seven, the multiples of six among them, short and up to the longest; and a token too many.
fn no_tables() -> impl Iterator<Item = usize> {
    let short = (1..100).filter(|n| n % 7 != 0);
    short.chain([6 * MOST, 6 * (MOST + 1), LARGEST - 1, LARGEST + 1, OVER - 1, OVER])
}

/// What is no table, and that nothing was written over it.
fn tables(at: *mut u32) -> Result<(), String> {
    unsafe {
        for numbers in no_tables() {
            expect("lookup", ours::raw::lookup(at, numbers, 0, 0), BAD)?;
            for mode in [Mode::Lenient, Mode::Checked] {
                expect("premises", ours::raw::meets_premises(mode, at, numbers, 1, 1), 0)?;
            }
            expect("translate", ours::raw::translate(at, numbers, 1, 1, 1), BAD)?;
        }
        expect("translate, records", ours::raw::translate_tokens(at, MOST + 1, 1, 1, 1), BAD)?;
        expect("nothing written", (0..100).all(|i| *at.add(i) == 0), true)?;
        for tokens in 0..15 {
            let last = if tokens == 0 { u64::from(NONE) } else { tokens as u64 - 1 };
            expect("lookup, a table", ours::raw::lookup(at, 7 * tokens, 0, 0), answer(0, last))?;
            for call in Many::ALL {
                let mut found = Lent::new(2);
                expect("many, a table", ours::raw::lookup_many(call, at, 7 * tokens, &[0, 0], &mut found), answer(0, 0))?;
                expect("many, what is found", found.is(&[last as u32]), true)?;
            }
            expect("premises, a table", ours::raw::meets_premises(Mode::Lenient, at, 7 * tokens, 1, 1), 1)?;
            expect("translate, a table", ours::raw::translate(at, 7 * tokens, 0, 0, 0), answer(0, 0))?;
        }
        // A table to write in has no such limit.
        expect("decode", ours::raw::decode(Entry::Lenient, b",A", (0, 0), at, OVER), (answer(0, 0), 1, 2))?;
        let first: Vec<u32> = (0..8).map(|i| *at.add(i)).collect();
        expect("the first numbers", first, vec![0, 0, 0, 0, NONE, NONE, 1, 0])
    }
}

/// No table is refused before an odd list, and that before no room; lists of more positions than 32 bits count.
fn many(call: Many, at: *mut u32) -> Result<(), String> {
    let mut found = Lent::new(2);
    let odd = answer(model::ODD_LIST, 0);
    let no_room = |pairs: usize| answer(model::NO_ROOM, pairs as u64);
    unsafe {
        for numbers in no_tables() {
            for positions in [&[][..], &[0], &[0; 4], &[0; 6]] {
                expect("many", ours::raw::lookup_many(call, at, numbers, positions, &mut found), BAD)?;
            }
        }
        // The largest table is taken: what is refused is the list, or the room.
        for numbers in [0, WIDTH, LARGEST] {
            expect("many, an odd list", ours::raw::lookup_many(call, at, numbers, &[0; 7], &mut found), odd)?;
            expect("many, no room", ours::raw::lookup_many(call, at, numbers, &[0; 6], &mut found), no_room(3))?;
            let long = std::slice::from_raw_parts(at, OVER);
            expect("many, a long odd list", ours::raw::lookup_many(call, at, numbers, long, &mut found), odd)?;
            let even = &long[1..];
            expect("many, a long list", ours::raw::lookup_many(call, at, numbers, even, &mut found), no_room(even.len() / 2))?;
        }
    }
    expect("many, nothing written", found.is(&[]), true)
}

/// No table, left or right, is refused before one that falls. The largest are taken: what is refused is their second token.
fn changes(at: *mut u32) -> Result<(), String> {
    let mut out = Lent::new(9);
    let table = at.cast_const();
    let mut compare = |left: usize, right: usize| unsafe { ours::raw::compare((table, left), (table, right), &mut out) };
    let done = |entries: u64| (answer(model::DONE, 0), entries);
    for tokens in 0..15 {
        expect("changes, a table", compare(WIDTH * tokens, WIDTH * tokens), done(0))?;
    }
    unsafe { *at = 1 };
    for numbers in no_tables() {
        for other in [0, WIDTH, 2 * WIDTH, LARGEST, numbers] {
            expect("changes, left", compare(numbers, other), (BAD, 0))?;
            expect("changes, right", compare(other, numbers), (BAD, 0))?;
        }
    }
    for other in [0, WIDTH, LARGEST] {
        let falls = (answer(model::UNSORTED, 1), 0);
        expect("changes, the largest on the left", compare(LARGEST, other), falls)?;
        expect("changes, the largest on the right", compare(other, LARGEST), falls)?;
    }
    unsafe { *at = 0 };
    expect("changes, nothing written", out.is(&[]), true)
}

#[cfg(encode)]
fn chunks(at: *mut u32) -> Result<(), String> {
    let most = MOST as u32;
    let chunk = TokenChunk { start: most, end: most, ..TokenChunk::default() };
    let last = TokenChunk { start: most - 1, ..chunk };
    let mut out = ours::LentBytes::new(8);
    unsafe {
        for numbers in no_tables() {
            expect("write, no table", ours::raw::encode(at, numbers, chunk, &mut out), (BAD, 0, chunk))?;
        }
        expect("write, nothing of the most", ours::raw::encode(at, LARGEST, chunk, &mut out), (answer(0, 0), 0, chunk))?;
        expect("write, the last of the most", ours::raw::encode(at, LARGEST, last, &mut out), (answer(0, 0), 6, chunk))?;
    }
    expect("the bytes", out.is(b",AAAAA"), true)
}

#[cfg(not(encode))]
fn chunks(_: *mut u32) -> Result<(), String> {
    Ok(())
}

/// 2^31 ends are one too many; one less is a sound list.
#[cfg(compose)]
fn names(at: *mut u32) -> Result<(), String> {
    let ends = at.cast::<usize>();
    let most = model::MOST_NAMES;
    unsafe {
        expect("names, too many", ours::raw::name_found(ends, most + 1, 0), 0)?;
        expect("names, the most", ours::raw::name_found(ends, most, most as u32 - 1), 1)?;
        expect("names, past the most", ours::raw::name_found(ends, most, most as u32), 0)?;
        for numbers in no_tables() {
            expect("compose, outer", ours::raw::compose_codes(at, numbers, at, WIDTH, ends, 0), [BAD; 2])?;
            expect("compose, inner", ours::raw::compose_codes(at, WIDTH, at, numbers, ends, 0), [BAD; 2])?;
        }
        let bad = [answer(model::BAD_NAMES, 0); 2];
        expect("compose, names", ours::raw::compose_codes(at, WIDTH, at, WIDTH, ends, most + 1), bad)?;
        // The largest tables are taken: what is refused is the room.
        let full = [answer(model::TABLE_FULL, 0); 2];
        expect("compose, the largest", ours::raw::compose_codes(at, LARGEST, at, LARGEST, ends, 0), full)?;
        // So are the most names; the numbers of working memory that they take have more than 32 bits.
        let short = answer(model::NO_ROOM, 5 * most as u64);
        expect("compose, working memory", ours::raw::work_code(ends, most, at, 5 * most - 1), short)
    }
}

#[cfg(not(compose))]
fn names(_: *mut u32) -> Result<(), String> {
    Ok(())
}

pub fn run(tally: &mut Tally) {
    let begun = Instant::now();
    // Two lists, since decoding writes in the first.
    let result = match (zeros(4 * OVER), zeros(4 * OVER)) {
        (Some(first), Some(second)) => {
            let second = second.cast();
            tables(first.cast())
                .and_then(|()| Many::ALL.into_iter().try_for_each(|call| many(call, second)))
                .and_then(|()| changes(second))
                .and_then(|()| chunks(second))
                .and_then(|()| names(second))
        }
        _ => {
            println!("no room for lists at the limits: left out");
            Ok(())
        }
    };
    tally.single("limits: lengths", result, begun.elapsed().as_secs_f64());
}
