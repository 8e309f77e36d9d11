//! The library by its C names. What is lent stands between two stretches of a pattern, and comes back with a word on
//! whether they, and everything lent for reading only, still hold it.

use crate::model::{Answer, Mode, NameOf, Names, Token, TokenChunk, WIDTH};

#[repr(C)]
pub struct DecodedOut {
    code: u64,
    number: u64,
    tokens: u64,
    offset: u64,
}

#[repr(C)]
pub struct ComparedOut {
    code: u64,
    number: u64,
    entries: u64,
}

type DecodeFn = unsafe extern "C" fn(*const u8, usize, u32, u32, *mut u32, usize) -> DecodedOut;
type ManyFn = unsafe extern "C" fn(*const u32, usize, *const u32, usize, *mut u32, usize) -> Answer;

unsafe extern "C" {
    fn pgk_decode_lenient(text: *const u8, n: usize, sources: u32, names: u32, table: *mut u32, k: usize) -> DecodedOut;
    fn pgk_decode_checked(text: *const u8, n: usize, sources: u32, names: u32, table: *mut u32, k: usize) -> DecodedOut;
    fn pgk_translate(table: *mut u32, n: usize, line: u32, source: u32, name: u32) -> Answer;
    fn pgk_translate_tokens(tokens: *mut Token, n: usize, line: u32, source: u32, name: u32) -> Answer;
    fn pgk_lookup(table: *const u32, n: usize, line: u32, col: u32) -> Answer;
    fn pgk_lookup_many(table: *const u32, n: usize, positions: *const u32, m: usize, found: *mut u32, k: usize) -> Answer;
    fn pgk_lookup_many_quick(table: *const u32, n: usize, positions: *const u32, m: usize, found: *mut u32, k: usize) -> Answer;
    fn pgk_compare(left: *const u32, n: usize, right: *const u32, m: usize, out: *mut u32, k: usize) -> ComparedOut;
    fn pgk_table_size(text: *const u8, n: usize) -> usize;
    fn pgk_meets_premises(table: *const u32, n: usize, sources: u32, names: u32) -> u64;
    fn pgk_meets_checked_premises(table: *const u32, n: usize, sources: u32, names: u32) -> u64;
}

const GUARD: usize = 16;

fn pattern(i: usize) -> u32 {
    (i as u32).wrapping_mul(0x9e37_79b9) ^ 0xa5a5_5a5a
}

/// Numbers to lend, between two guards, all of it the pattern at first.
#[derive(Clone, PartialEq)]
pub struct Lent {
    memory: Vec<u32>,
    len: usize,
}

impl Lent {
    pub fn new(len: usize) -> Lent {
        Lent { memory: (0..len + 2 * GUARD).map(pattern).collect(), len }
    }

    pub fn holding(numbers: &[u32]) -> Lent {
        let mut lent = Lent::new(numbers.len());
        lent.memory[GUARD..GUARD + numbers.len()].copy_from_slice(numbers);
        lent
    }

    pub fn ptr(&mut self) -> *mut u32 {
        self.memory[GUARD..].as_mut_ptr()
    }

    pub fn numbers(&self) -> &[u32] {
        &self.memory[GUARD..GUARD + self.len]
    }

    /// Whether the numbers begin with these, and everything else is the pattern still.
    pub fn is(&self, numbers: &[u32]) -> bool {
        numbers.len() <= self.len
            && self.numbers()[..numbers.len()] == *numbers
            && self.memory.iter().enumerate().all(|(i, &m)| (GUARD..GUARD + numbers.len()).contains(&i) || m == pattern(i))
    }
}

/// What is lent to composing for writing; working memory where the call takes it.
pub struct Room {
    pub result: Lent,
    pub added: Lent,
    pub work: Option<Lent>,
}

/// Bytes to lend, between two guards, all of it the pattern at first.
pub struct LentBytes {
    memory: Vec<u8>,
    len: usize,
}

impl LentBytes {
    pub fn new(len: usize) -> LentBytes {
        LentBytes { memory: (0..len + 2 * GUARD).map(|i| pattern(i) as u8).collect(), len }
    }

    pub fn ptr(&mut self) -> *mut u8 {
        self.memory[GUARD..].as_mut_ptr()
    }

    pub fn bytes(&self) -> &[u8] {
        &self.memory[GUARD..GUARD + self.len]
    }

    pub fn is(&self, bytes: &[u8]) -> bool {
        bytes.len() <= self.len
            && self.bytes()[..bytes.len()] == *bytes
            && self.memory.iter().enumerate().all(|(i, &m)| (GUARD..GUARD + bytes.len()).contains(&i) || m == pattern(i) as u8)
    }
}

/// The decodes that name their mode. The one that names none is run in bindings/.
#[derive(Clone, Copy, PartialEq, Eq, Debug)]
pub enum Entry {
    Lenient,
    Checked,
}

impl Entry {
    pub const ALL: [Entry; 2] = [Entry::Lenient, Entry::Checked];

    pub fn mode(self) -> Mode {
        match self {
            Entry::Lenient => Mode::Lenient,
            Entry::Checked => Mode::Checked,
        }
    }

    fn function(self) -> DecodeFn {
        match self {
            Entry::Lenient => pgk_decode_lenient,
            Entry::Checked => pgk_decode_checked,
        }
    }
}

/// A decode's answer, count and offset; the table lent has so many numbers.
pub fn decode(entry: Entry, text: &[u8], sources: u32, names: u32, table: &mut Lent) -> (Answer, u64, u64) {
    let lent = text.to_vec();
    let d = unsafe { entry.function()(lent.as_ptr(), lent.len(), sources, names, table.ptr(), table.len) };
    assert!(lent == text, "the text changed");
    (Answer { code: d.code, number: d.number }, d.tokens, d.offset)
}

pub fn translate(table: &mut Lent, line: u32, source: u32, name: u32) -> Answer {
    unsafe { pgk_translate(table.ptr(), table.len, line, source, name) }
}

/// The same over records, lent in the same memory.
pub fn translate_tokens(table: &mut Lent, line: u32, source: u32, name: u32) -> Answer {
    assert!(table.len % WIDTH == 0);
    unsafe { pgk_translate_tokens(table.ptr().cast(), table.len / WIDTH, line, source, name) }
}

pub fn lookup(table: &[u32], line: u32, col: u32) -> Answer {
    let lent = table.to_vec();
    let answer = unsafe { pgk_lookup(lent.as_ptr(), lent.len(), line, col) };
    assert!(lent == table, "the table changed");
    answer
}

/// The calls for many positions, which answer alike.
#[derive(Clone, Copy, PartialEq, Eq, Debug)]
pub enum Many {
    Plain,
    Quick,
}

impl Many {
    pub const ALL: [Many; 2] = [Many::Plain, Many::Quick];

    fn function(self) -> ManyFn {
        match self {
            Many::Plain => pgk_lookup_many,
            Many::Quick => pgk_lookup_many_quick,
        }
    }
}

pub fn lookup_many(call: Many, table: &[u32], positions: &[u32], found: &mut Lent) -> Answer {
    let (t, p) = (table.to_vec(), positions.to_vec());
    let answer = unsafe { raw::lookup_many(call, t.as_ptr(), t.len(), &p, found) };
    assert!(t == table && p == positions, "what was lent for reading changed");
    answer
}

/// The answer, and how many entries.
pub fn compare(left: &[u32], right: &[u32], out: &mut Lent) -> (Answer, u64) {
    let (l, r) = (left.to_vec(), right.to_vec());
    let answer = unsafe { raw::compare((l.as_ptr(), l.len()), (r.as_ptr(), r.len()), out) };
    assert!(l == left && r == right, "what was lent for reading changed");
    answer
}

pub fn table_size(text: &[u8]) -> usize {
    let lent = text.to_vec();
    let size = unsafe { pgk_table_size(lent.as_ptr(), lent.len()) };
    assert!(lent == text, "the text changed");
    size
}

pub fn meets_premises(mode: Mode, table: &[u32], sources: u32, names: u32) -> u64 {
    let lent = table.to_vec();
    let yes = unsafe { raw::meets_premises(mode, lent.as_ptr(), lent.len(), sources, names) };
    assert!(lent == table, "the table changed");
    yes
}

/// The entries over memory that a caller of its own answers for.
pub mod raw {
    use super::*;

    pub unsafe fn decode(
        entry: Entry,
        text: &[u8],
        (sources, names): (u32, u32),
        table: *mut u32,
        numbers: usize,
    ) -> (Answer, u64, u64) {
        let d = unsafe { entry.function()(text.as_ptr(), text.len(), sources, names, table, numbers) };
        (Answer { code: d.code, number: d.number }, d.tokens, d.offset)
    }

    pub unsafe fn lookup(table: *const u32, numbers: usize, line: u32, col: u32) -> Answer {
        unsafe { pgk_lookup(table, numbers, line, col) }
    }

    pub unsafe fn lookup_many(call: Many, table: *const u32, numbers: usize, positions: &[u32], found: &mut Lent) -> Answer {
        unsafe { call.function()(table, numbers, positions.as_ptr(), positions.len(), found.ptr(), found.len) }
    }

    pub unsafe fn compare(left: (*const u32, usize), right: (*const u32, usize), out: &mut Lent) -> (Answer, u64) {
        let c = unsafe { pgk_compare(left.0, left.1, right.0, right.1, out.ptr(), out.len) };
        (Answer { code: c.code, number: c.number }, c.entries)
    }

    pub unsafe fn meets_premises(mode: Mode, table: *const u32, numbers: usize, sources: u32, names: u32) -> u64 {
        match mode {
            Mode::Lenient => unsafe { pgk_meets_premises(table, numbers, sources, names) },
            Mode::Checked => unsafe { pgk_meets_checked_premises(table, numbers, sources, names) },
        }
    }

    pub unsafe fn translate(table: *mut u32, numbers: usize, line: u32, source: u32, name: u32) -> Answer {
        unsafe { pgk_translate(table, numbers, line, source, name) }
    }

    pub unsafe fn translate_tokens(table: *mut u32, tokens: usize, line: u32, source: u32, name: u32) -> Answer {
        unsafe { pgk_translate_tokens(table.cast(), tokens, line, source, name) }
    }

    #[cfg(encode)]
    pub use super::writer::raw as encode;

    #[cfg(compose)]
    pub use super::composer::{compose_codes, name_found, work_code};
}

/// The writer, where the library has it.
#[cfg(encode)]
pub mod writer {
    use super::*;

    #[repr(C)]
    struct EncodedOut {
        code: u64,
        number: u64,
        bytes: u64,
        next: TokenChunk,
    }

    unsafe extern "C" {
        fn pgk_encode(table: *const u32, n: usize, chunk: TokenChunk, out: *mut u8, k: usize) -> EncodedOut;
    }

    pub const HERE: bool = true;

    /// The answer, how many bytes, and the end state.
    pub fn encode(table: &[u32], chunk: TokenChunk, out: &mut LentBytes) -> (Answer, u64, TokenChunk) {
        let lent = table.to_vec();
        let answer = unsafe { raw(lent.as_ptr(), lent.len(), chunk, out) };
        assert!(lent == table, "the table changed");
        answer
    }

    pub unsafe fn raw(table: *const u32, numbers: usize, chunk: TokenChunk, out: &mut LentBytes) -> (Answer, u64, TokenChunk) {
        let e = unsafe { pgk_encode(table, numbers, chunk, out.ptr(), out.len) };
        (Answer { code: e.code, number: e.number }, e.bytes, e.next)
    }
}

#[cfg(not(encode))]
pub mod writer {
    use super::*;

    pub const HERE: bool = false;

    pub fn encode(_: &[u32], _: TokenChunk, _: &mut LentBytes) -> (Answer, u64, TokenChunk) {
        unreachable!()
    }
}

/// Composing, where the library has it.
#[cfg(compose)]
pub mod composer {
    use super::*;

    #[repr(C)]
    struct ComposedOut {
        code: u64,
        number: u64,
        added: u64,
    }

    unsafe extern "C" {
        fn pgk_compose(
            outer: *const u32,
            outer_len: usize,
            outer_sources: u32,
            outer_names: *const u8,
            outer_names_len: usize,
            outer_ends: *const usize,
            outer_ends_len: usize,
            inner: *const u32,
            inner_len: usize,
            inner_names: *const u8,
            inner_names_len: usize,
            inner_ends: *const usize,
            inner_ends_len: usize,
            result: *mut u32,
            result_len: usize,
            added: *mut u32,
            added_len: usize,
        ) -> ComposedOut;
        fn pgk_compose_with(
            outer: *const u32,
            outer_len: usize,
            outer_sources: u32,
            outer_names: *const u8,
            outer_names_len: usize,
            outer_ends: *const usize,
            outer_ends_len: usize,
            inner: *const u32,
            inner_len: usize,
            inner_names: *const u8,
            inner_names_len: usize,
            inner_ends: *const usize,
            inner_ends_len: usize,
            result: *mut u32,
            result_len: usize,
            added: *mut u32,
            added_len: usize,
            work: *mut u32,
            work_len: usize,
        ) -> ComposedOut;
        fn pgk_name_of(
            inner_names: *const u8,
            inner_names_len: usize,
            inner_ends: *const usize,
            inner_ends_len: usize,
            outer_names: *const u8,
            outer_names_len: usize,
            outer_ends: *const usize,
            outer_ends_len: usize,
            added: *const u32,
            added_len: usize,
            id: u32,
        ) -> NameOf;
    }

    pub const HERE: bool = true;

    /// The answer and how many names were added: by the call that takes working memory where some is lent.
    pub fn compose(
        outer: &[u32],
        sources: u32,
        outer_names: &Names,
        inner: &[u32],
        inner_names: &Names,
        room: &mut Room,
    ) -> (Answer, u64) {
        let (o, i, on, inn) = (outer.to_vec(), inner.to_vec(), outer_names.clone(), inner_names.clone());
        let (ot, oe, it, ie) = (&on.text, &on.ends, &inn.text, &inn.ends);
        let (op, otp, oep, ip, itp, iep) = (o.as_ptr(), ot.as_ptr(), oe.as_ptr(), i.as_ptr(), it.as_ptr(), ie.as_ptr());
        let (ol, otl, oel, il, itl, iel) = (o.len(), ot.len(), oe.len(), i.len(), it.len(), ie.len());
        let (r, rl, a, al) = (room.result.ptr(), room.result.len, room.added.ptr(), room.added.len);
        let c = match &mut room.work {
            None => unsafe { pgk_compose(op, ol, sources, otp, otl, oep, oel, ip, il, itp, itl, iep, iel, r, rl, a, al) },
            Some(work) => unsafe {
                let (w, wl) = (work.ptr(), work.len);
                pgk_compose_with(op, ol, sources, otp, otl, oep, oel, ip, il, itp, itl, iep, iel, r, rl, a, al, w, wl)
            },
        };
        assert!(o == outer && i == inner && on == *outer_names && inn == *inner_names, "what was lent for reading changed");
        (Answer { code: c.code, number: c.number }, c.added)
    }

    pub fn name_of(inner: &Names, outer: &Names, added: &[u32], id: u32) -> NameOf {
        unsafe {
            pgk_name_of(
                inner.text.as_ptr(),
                inner.text.len(),
                inner.ends.as_ptr(),
                inner.ends.len(),
                outer.text.as_ptr(),
                outer.text.len(),
                outer.ends.as_ptr(),
                outer.ends.len(),
                added.as_ptr(),
                added.len(),
                id,
            )
        }
    }

    /// Whether a list of inner ends over an empty text has a name.
    pub unsafe fn name_found(ends: *const usize, count: usize, id: u32) -> u64 {
        let none = std::ptr::dangling::<u8>();
        unsafe { pgk_name_of(none, 0, ends, count, none, 0, ends, 0, none.cast(), 0, id).found }
    }

    /// The answers of both calls for two tables of zeros, an outer list of names over an empty text, and no room at all.
    pub unsafe fn compose_codes(
        outer: *const u32,
        outer_numbers: usize,
        inner: *const u32,
        inner_numbers: usize,
        ends: *const usize,
        count: usize,
    ) -> [Answer; 2] {
        let n = std::ptr::dangling::<u8>();
        let (on, inn) = (outer_numbers, inner_numbers);
        let mut room = Lent::new(0);
        let r = room.ptr();
        let both = unsafe {
            [
                pgk_compose(outer, on, 1, n, 0, ends, count, inner, inn, n, 0, ends, 0, r, 0, r, 0),
                pgk_compose_with(outer, on, 1, n, 0, ends, count, inner, inn, n, 0, ends, 0, r, 0, r, 0, r, 0),
            ]
        };
        both.map(|c| Answer { code: c.code, number: c.number })
    }

    /// The answer for no tokens, two lists of so many names over an empty text, room for all of them to be added, and so much working
    /// memory.
    pub unsafe fn work_code(ends: *const usize, count: usize, work: *mut u32, work_numbers: usize) -> Answer {
        let n = std::ptr::dangling::<u8>();
        let (t, a, w, wl) = (work.cast_const(), work, work, work_numbers);
        let c = unsafe { pgk_compose_with(t, 0, 1, n, 0, ends, count, t, 0, n, 0, ends, count, a, 0, a, count, w, wl) };
        Answer { code: c.code, number: c.number }
    }
}

#[cfg(not(compose))]
pub mod composer {
    use super::*;

    pub const HERE: bool = false;

    pub fn compose(_: &[u32], _: u32, _: &Names, _: &[u32], _: &Names, _: &mut Room) -> (Answer, u64) {
        unreachable!()
    }

    pub fn name_of(_: &Names, _: &Names, _: &[u32], _: u32) -> NameOf {
        unreachable!()
    }
}
