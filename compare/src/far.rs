//! Texts of 4 GiB, where a 32-bit count comes round or ends: only when asked for. Such a text is a few MiB of memory mapped again and
//! again, so that it costs next to none. The rules' own numbers judge, and the model is held to them; and the crate's release build,
//! where it takes the text. To decode it the crate asks for six times its length: that is not reserved, and little of it is touched.
//! To write one takes 9 GiB. And the largest tables compared, which are such memory too.

use std::alloc::{GlobalAlloc, Layout, System};
use std::fs::File;
use std::io::Write;
use std::os::fd::{AsRawFd, FromRawFd};
use std::time::Instant;

use crate::cases::{Tally, met_code};
use crate::model::{self, Answer, MOST, NONE, Token, TokenChunk, WIDTH, answer, sixes, table_of};
use crate::ours::{self, Entry, Lent, LentBytes, writer};
use crate::theirs::RELEASE;

const ROUND: usize = 1 << 32;

/// The first place that is too late for a segment.
const LATE: usize = 4_294_967_295;

fn same<T: PartialEq + std::fmt::Debug>(what: &str, got: T, want: T) -> Result<(), String> {
    if got == want { Ok(()) } else { Err(format!("{what}: {got:?}, and {want:?} was due")) }
}

unsafe extern "C" {
    fn memfd_create(name: *const std::ffi::c_char, flags: u32) -> i32;
    fn mmap(at: *mut u8, len: usize, protection: i32, flags: i32, file: i32, offset: i64) -> *mut u8;
    fn munmap(at: *mut u8, len: usize) -> i32;
    fn madvise(at: *mut u8, len: usize, advice: i32) -> i32;
}

/// Read and write; private, over an address; private, of no file, not reserved.
const ACCESS: i32 = 3;
const PRIVATE_FIXED: i32 = 0x12;
const NOT_RESERVED: i32 = 0x4022;

/// Large pages, where the system has them: pages of zeros that are only read are one page then, and quickly made.
const LARGE_PAGES: i32 = 14;

/// The program's memory. So much at once is not reserved: only the crate asks for it.
pub struct Memory;

const MUCH: usize = 1 << 34;

unsafe impl GlobalAlloc for Memory {
    unsafe fn alloc(&self, layout: Layout) -> *mut u8 {
        if layout.size() < MUCH {
            return unsafe { System.alloc(layout) };
        }
        let at = unsafe { mmap(std::ptr::null_mut(), layout.size(), ACCESS, NOT_RESERVED, -1, 0) };
        if at as isize == -1 { std::ptr::null_mut() } else { at }
    }

    unsafe fn dealloc(&self, at: *mut u8, layout: Layout) {
        if layout.size() < MUCH {
            unsafe { System.dealloc(at, layout) }
        } else {
            unsafe { munmap(at, layout.size()) };
        }
    }

    unsafe fn realloc(&self, at: *mut u8, layout: Layout, size: usize) -> *mut u8 {
        if layout.size().max(size) < MUCH {
            return unsafe { System.realloc(at, layout, size) };
        }
        unsafe {
            let to = self.alloc(Layout::from_size_align_unchecked(size, layout.align()));
            if !to.is_null() {
                std::ptr::copy_nonoverlapping(at, to, layout.size().min(size));
                self.dealloc(at, layout);
            }
            to
        }
    }
}

/// The bytes that are there once: whole pages, and whole tokens.
const STRETCH: usize = 2340 * 7 * 4096;

/// So many bytes of one kind, with others at their beginning and their end. A page that is written to becomes one of its own.
struct Far {
    at: *mut u8,
    len: usize,
    mapped: usize,
}

impl Far {
    fn new(begin: &[u8], byte: u8, until: usize, end: &[u8]) -> Result<Far, String> {
        let far = Far::again(&[byte], until + end.len())?;
        unsafe {
            std::ptr::copy_nonoverlapping(begin.as_ptr(), far.at, begin.len());
            std::ptr::copy_nonoverlapping(end.as_ptr(), far.at.add(until), end.len());
        }
        Ok(far)
    }

    /// The same few bytes again and again.
    fn again(few: &[u8], len: usize) -> Result<Far, String> {
        let failed = |what: &str| format!("{what}: {}", std::io::Error::last_os_error());
        let mut far = Far::zeros(len.div_ceil(STRETCH) * STRETCH)?;
        unsafe {
            let file = memfd_create(c"far".as_ptr(), 0);
            if file < 0 {
                return Err(failed("memfd_create"));
            }
            let mut file = File::from_raw_fd(file);
            file.write_all(&few.repeat(STRETCH / few.len())).map_err(|e| e.to_string())?;
            for from in (0..far.mapped).step_by(STRETCH) {
                let there = far.at.add(from);
                if mmap(there, STRETCH, ACCESS, PRIVATE_FIXED, file.as_raw_fd(), 0) != there {
                    return Err(failed("mmap"));
                }
            }
        }
        far.len = len;
        Ok(far)
    }

    fn zeros(len: usize) -> Result<Far, String> {
        let at = unsafe { mmap(std::ptr::null_mut(), len, ACCESS, NOT_RESERVED, -1, 0) };
        if at as isize == -1 {
            return Err(format!("mmap: {}", std::io::Error::last_os_error()));
        }
        Ok(Far { at, len, mapped: len })
    }

    fn text(&self) -> &[u8] {
        unsafe { std::slice::from_raw_parts(self.at, self.len) }
    }
}

impl Drop for Far {
    fn drop(&mut self) {
        unsafe { munmap(self.at, self.mapped) };
    }
}

/// A decode's answer, tokens and offset, in so many numbers.
type Due<'a> = (Answer, &'a [Token], usize);

fn token(dst_line: u32, segment: u32) -> Token {
    Token { dst_line, source_id: NONE, name_id: NONE, segment, ..Token::default() }
}

/// Ours in one mode, with room for so many tokens and some numbers more; and the model, where it is wanted.
fn decodes(entry: Entry, text: &[u8], counts: (u32, u32), places: usize, due: Due, model: bool) -> Result<(), String> {
    let (a, tokens, offset) = due;
    let numbers = WIDTH * places + text.len() % WIDTH;
    let mut table = Lent::new(numbers);
    let got = unsafe { ours::raw::decode(entry, text, counts, table.ptr(), numbers) };
    same(&format!("ours, {entry:?}, {places} places"), got, (a, tokens.len() as u64, offset as u64))?;
    same("the table", table.is(&table_of(tokens)), true)?;
    met_code(if entry == Entry::Checked { "decode, checked" } else { "decode, lenient" }, a.code);
    if model {
        let m = model::decode(entry.mode(), text, counts.0, counts.1, places);
        same(&format!("the model, {entry:?}, {places} places"), (m.answer, &m.tokens[..], m.offset), due)?;
    }
    Ok(())
}

/// The crate's release build takes the text, and has these tokens.
fn crate_takes(text: &[u8], tokens: &[Token]) -> Result<(), String> {
    let text = std::str::from_utf8(text).map_err(|e| e.to_string())?;
    same("the crate", (RELEASE.decode)(text, 0, 0), Some(Ok(sixes(tokens))))
}

/// The last line that a token can lie on, and the next: its segment begins too late. So 2^32 semicolons bring no token back to line 0.
fn lines() -> Result<(), String> {
    let last = Far::new(b"", b';', LATE - 1, b"A;A;A")?;
    let tokens = [token(NONE - 1, NONE - 1)];
    for entry in Entry::ALL {
        decodes(entry, last.text(), (0, 0), 3, (answer(model::TOO_BIG, 1), &tokens, LATE + 1), false)?;
        decodes(entry, &last.text()[..LATE], (0, 0), 1, (answer(model::DONE, 0), &tokens, LATE), true)?;
    }
    // The crate goes on to the last line, and to line 0.
    crate_takes(last.text(), &[NONE - 1, NONE, 0].map(|line| token(line, 0)))
}

/// A segment of 2^32 + 4 fields: the count with the refusal comes round, and no token is made.
fn fields() -> Result<(), String> {
    let text = Far::new(b"", b'A', ROUND + 4, b"")?;
    for entry in Entry::ALL {
        decodes(entry, text.text(), (0, 0), 1, (answer(model::BAD_SEGMENT_SIZE, 4), &[], 0), false)?;
    }
    Ok(())
}

/// The first segment on either side of the limit, with room and without.
fn first() -> Result<(), String> {
    let big = answer(model::TOO_BIG, 0);
    let text = Far::new(b"", b',', LATE, b"A")?;
    for entry in Entry::ALL {
        // TooBig before TableFull.
        for places in [0, 1] {
            decodes(entry, text.text(), (0, 0), places, (big, &[], LATE), places == 0)?;
        }
    }
    crate_takes(text.text(), &[token(0, 0)])?;
    let text = Far::new(b"", b',', LATE - 1, b"A")?;
    for entry in Entry::ALL {
        let full = answer(model::TABLE_FULL, 0);
        decodes(entry, text.text(), (0, 0), 0, (full, &[], LATE - 1), false)?;
        decodes(entry, text.text(), (0, 0), 1, (answer(model::DONE, 0), &[token(0, NONE - 1)], LATE), true)?;
    }
    // Where the place itself comes round.
    let text = Far::new(b"", b',', ROUND, b"A")?;
    for entry in Entry::ALL {
        decodes(entry, text.text(), (0, 0), 1, (big, &[], ROUND), false)?;
    }
    Ok(())
}

/// Tokens before the limit are kept, and their count is the number.
fn behind() -> Result<(), String> {
    let text = Far::new(b"A,", b',', LATE, b"A")?;
    for entry in Entry::ALL {
        for places in [1, 2] {
            decodes(entry, text.text(), (0, 0), places, (answer(model::TOO_BIG, 1), &[token(0, 0)], LATE), places == 1)?;
        }
        // A table that is full before is so first.
        decodes(entry, text.text(), (0, 0), 0, (answer(model::TABLE_FULL, 0), &[], 0), false)?;
    }
    let text = Far::new(b"A;A,", b',', LATE - 3, b"A,A,A")?;
    let tokens = [token(0, 0), token(1, 2), token(1, NONE - 3), token(1, NONE - 1)];
    for entry in Entry::ALL {
        for places in [4, 5] {
            decodes(entry, text.text(), (0, 0), places, (answer(model::TOO_BIG, 4), &tokens, LATE + 1), places == 4)?;
        }
        decodes(entry, text.text(), (0, 0), 3, (answer(model::TABLE_FULL, 0), &tokens[..3], LATE - 1), false)?;
    }
    crate_takes(text.text(), &[&tokens[..], &[token(1, 0)]].concat())
}

/// A bad segment gives its own code there, wherever its fault lies.
fn bad() -> Result<(), String> {
    let refused = |code, number, field| (answer(code, number), LATE + field);
    let big = refused(model::TOO_BIG, 0, 0);
    // The lenient answer, then the checked one.
    let both = |due| [due, due];
    let rows: [(&[u8], (u32, u32), [(Answer, usize); 2]); 9] = [
        (b"D", (0, 0), both(refused(model::BAD_SEGMENT_SIZE, 0, 0))),
        (b"AA", (0, 0), both(refused(model::BAD_SEGMENT_SIZE, 2, 0))),
        (b"AAAA", (0, 0), both(refused(model::BAD_SOURCE_REFERENCE, 0, 1))),
        (b"AAAD", (1, 0), both(refused(model::BAD_SEGMENT_SIZE, 0, 3))),
        (b"AAAAC", (1, 1), both(refused(model::BAD_NAME_REFERENCE, 1, 4))),
        (b"AAAAA", (1, 1), both(big)),
        (b"g", (0, 0), both(refused(model::VLQ_LEFTOVER, 0, 1))),
        (b"gggggggggggggA", (0, 0), both(refused(model::VLQ_OVERFLOW, 0, 13))),
        (b"ggggggE", (0, 0), [big, refused(model::WIDE_VALUE, 0, 0)]),
    ];
    for (segment, counts, due) in rows {
        let text = Far::new(b"", b',', LATE, segment)?;
        for (entry, (a, offset)) in Entry::ALL.into_iter().zip(due) {
            let places = segment.len() % 2;
            decodes(entry, text.text(), counts, places, (a, &[], offset), segment.len() == 7)
                .map_err(|why| format!("{:?}: {why}", segment.escape_ascii().to_string()))?;
        }
    }
    Ok(())
}

/// The longest text of one token: from line 0 to the last, five fields. Its segment begins too late to be read back.
fn longest() -> Result<(), String> {
    if !writer::HERE {
        return Ok(());
    }
    let token = [NONE, NONE, NONE, NONE, NONE - 1, NONE - 1, 0];
    let chunk = TokenChunk { end: 1, ..TokenChunk::default() };
    let theirs = (RELEASE.encode)(&[Token::of(&token)], chunk).ok_or("the crate panics")?;
    let bytes = theirs.len();
    let mut out = LentBytes::new(bytes);
    let next = TokenChunk {
        start: 1,
        end: 1,
        prev_dst_line: NONE,
        prev_dst_col: NONE,
        prev_src_line: NONE,
        prev_src_col: NONE,
        prev_name_id: NONE - 1,
        prev_source_id: NONE - 1,
    };
    same("ours", writer::encode(&token, chunk, &mut out), (answer(model::DONE, 0), bytes as u64, next))?;
    same("the bytes", out.is(&theirs), true)?;
    drop(out);
    for entry in Entry::ALL {
        // Checked mode has its own code for the first value, of 2^32 - 1.
        let due = if entry == Entry::Checked { answer(model::WIDE_VALUE, 0) } else { answer(model::TOO_BIG, 0) };
        decodes(entry, &theirs, (NONE, NONE), 1, (due, &[], LATE), false)?;
    }
    drop(theirs);
    let mut short = LentBytes::new(bytes - 1);
    let refused = (answer(model::NO_ROOM, bytes as u64), 0, chunk);
    same("one byte less", writer::encode(&token, chunk, &mut short), refused)
}

/// The largest tables compared: the last index, more numbers than 32 bits count, more entries than that, and a fall at the last token.
fn largest() -> Result<(), String> {
    let numbers = WIDTH * MOST;
    let last = MOST as u32 - 1;
    let zeros = Far::zeros(4 * numbers)?;
    unsafe { madvise(zeros.at, zeros.mapped, LARGE_PAGES) };
    let at = zeros.at.cast::<u32>();
    let compared = |left: (*mut u32, usize), right: (*mut u32, usize), due: (Answer, u64), entries: &[u32]| {
        let mut out = Lent::new(4);
        let got = unsafe { ours::raw::compare((left.0, left.1), (right.0, right.1), &mut out) };
        met_code("changes", got.0.code);
        same("ours", got, due)?;
        same("the entries", out.is(entries), true)
    };
    let (whole, less, none) = ((at, numbers), (at, numbers - WIDTH), (at, 0));
    let one = (answer(model::DONE, 0), 1);
    compared(whole, less, one, &[model::ONLY_LEFT, last, NONE])?;
    compared(less, whole, one, &[model::ONLY_RIGHT, NONE, last])?;
    let no_room = |entries: usize| (answer(model::NO_ROOM, 3 * entries as u64), 0);
    compared(whole, none, no_room(MOST), &[])?;
    compared(none, whole, no_room(MOST), &[])?;
    let token: Vec<u8> = [0u32, 1, 0, 0, 0, 0, 0].iter().flat_map(|n| n.to_ne_bytes()).collect();
    let others = Far::again(&token, 4 * numbers)?;
    compared(whole, (others.at.cast(), numbers), no_room(2 * MOST), &[])?;
    drop(others);
    unsafe { *at.add(numbers - 2 * WIDTH) = 1 };
    let falls = (answer(model::UNSORTED, last.into()), 0);
    compared(whole, none, falls, &[])?;
    compared(none, whole, falls, &[])
}

pub fn run(tally: &mut Tally) {
    let parts: [(&str, fn() -> Result<(), String>); 7] = [
        ("the last line", lines),
        ("2^32 fields", fields),
        ("the first segment at the limit", first),
        ("tokens before the limit", behind),
        ("a bad segment at the limit", bad),
        ("a token on the last line", longest),
        ("the largest tables compared", largest),
    ];
    for (name, part) in parts {
        let begun = Instant::now();
        let result = part();
        tally.single(&format!("far: {name}"), result, begun.elapsed().as_secs_f64());
    }
}
