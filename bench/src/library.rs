//! The library by its C names (bindings/rust has them), over slices, with nothing between.

use peghayrick::raw::*;
use peghayrick::{TokenChunk, WIDTH};

use crate::texts::Names;

pub fn decode_lenient(text: &[u8], sources: u32, names: u32, table: &mut [u32]) -> Decoded {
    unsafe { pgk_decode_lenient(text.as_ptr(), text.len(), sources, names, table.as_mut_ptr(), table.len()) }
}

pub fn decode_checked(text: &[u8], sources: u32, names: u32, table: &mut [u32]) -> Decoded {
    unsafe { pgk_decode_checked(text.as_ptr(), text.len(), sources, names, table.as_mut_ptr(), table.len()) }
}

pub fn encode(table: &[u32], chunk: TokenChunk, out: &mut [u8]) -> Encoded {
    unsafe { pgk_encode(table.as_ptr(), table.len(), chunk, out.as_mut_ptr(), out.len()) }
}

pub fn translate(table: &mut [u32], line: u32, source: u32, name: u32) -> Answer {
    unsafe { pgk_translate(table.as_mut_ptr(), table.len(), line, source, name) }
}

pub fn translate_tokens(table: &mut [u32], line: u32, source: u32, name: u32) -> Answer {
    unsafe { pgk_translate_tokens(table.as_mut_ptr().cast(), table.len() / WIDTH, line, source, name) }
}

pub fn lookup(table: &[u32], line: u32, col: u32) -> Answer {
    unsafe { pgk_lookup(table.as_ptr(), table.len(), line, col) }
}

pub fn lookup_many(table: &[u32], positions: &[u32], found: &mut [u32]) -> Answer {
    let (p, f) = (positions.as_ptr(), found.as_mut_ptr());
    unsafe { pgk_lookup_many(table.as_ptr(), table.len(), p, positions.len(), f, found.len()) }
}

/// The same answers: by halving where the table is sorted.
pub fn lookup_many_quick(table: &[u32], positions: &[u32], found: &mut [u32]) -> Answer {
    let (p, f) = (positions.as_ptr(), found.as_mut_ptr());
    unsafe { pgk_lookup_many_quick(table.as_ptr(), table.len(), p, positions.len(), f, found.len()) }
}

pub fn compare(left: &[u32], right: &[u32], out: &mut [u32]) -> Compared {
    let (l, r, o) = (left.as_ptr(), right.as_ptr(), out.as_mut_ptr());
    unsafe { pgk_compare(l, left.len(), r, right.len(), o, out.len()) }
}

/// A name list as the C names take it: the text and the ends.
fn lent(names: &Names) -> (*const u8, usize, *const usize, usize) {
    (names.text.as_ptr(), names.text.len(), names.ends.as_ptr(), names.ends.len())
}

/// What composing reads: both tables, each with its names.
pub struct Maps<'a> {
    pub outer: &'a [u32],
    pub outer_names: &'a Names,
    pub inner: &'a [u32],
    pub inner_names: &'a Names,
}

pub fn compose(maps: &Maps, result: &mut [u32], added: &mut [u32]) -> Composed {
    let (o, ol, i, il) = (maps.outer.as_ptr(), maps.outer.len(), maps.inner.as_ptr(), maps.inner.len());
    let ((on, onl, oe, oel), (inn, innl, ie, iel)) = (lent(maps.outer_names), lent(maps.inner_names));
    let (r, rl, a, al) = (result.as_mut_ptr(), result.len(), added.as_mut_ptr(), added.len());
    unsafe { pgk_compose(o, ol, 1, on, onl, oe, oel, i, il, inn, innl, ie, iel, r, rl, a, al) }
}

/// The same answers: names are found by an index in the working memory.
pub fn compose_with(maps: &Maps, result: &mut [u32], added: &mut [u32], work: &mut [u32]) -> Composed {
    let (o, ol, i, il) = (maps.outer.as_ptr(), maps.outer.len(), maps.inner.as_ptr(), maps.inner.len());
    let ((on, onl, oe, oel), (inn, innl, ie, iel)) = (lent(maps.outer_names), lent(maps.inner_names));
    let (r, rl, a, al) = (result.as_mut_ptr(), result.len(), added.as_mut_ptr(), added.len());
    let (w, wl) = (work.as_mut_ptr(), work.len());
    unsafe { pgk_compose_with(o, ol, 1, on, onl, oe, oel, i, il, inn, innl, ie, iel, r, rl, a, al, w, wl) }
}
