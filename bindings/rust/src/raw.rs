//! The C interface as it is, `bindings/c/peghayrick.h` in Rust. The functions of the crate stand over it.
//!
//! Every pointer is lent for the call with its length, is not null and has its type's alignment; what is
//! written overlaps nothing else. The functions of the crate see to that: they hand on slices.

use crate::{Token, TokenChunk};

/// `pgk_answer`
#[repr(C)]
#[derive(Debug, Clone, Copy, PartialEq, Eq)]
#[allow(missing_docs)]
pub struct Answer {
    pub code: u64,
    pub number: u64,
}

/// `pgk_decoded`
#[repr(C)]
#[derive(Debug, Clone, Copy, PartialEq, Eq)]
#[allow(missing_docs)]
pub struct Decoded {
    pub code: u64,
    pub number: u64,
    pub tokens: u64,
    pub offset: u64,
}

/// `pgk_encoded`
#[repr(C)]
#[derive(Debug, Clone, Copy, PartialEq, Eq)]
#[allow(missing_docs)]
pub struct Encoded {
    pub code: u64,
    pub number: u64,
    pub bytes: u64,
    pub next: TokenChunk,
}

/// `pgk_composed`
#[repr(C)]
#[derive(Debug, Clone, Copy, PartialEq, Eq)]
#[allow(missing_docs)]
pub struct Composed {
    pub code: u64,
    pub number: u64,
    pub added: u64,
}

/// `pgk_compared`
#[repr(C)]
#[derive(Debug, Clone, Copy, PartialEq, Eq)]
#[allow(missing_docs)]
pub struct Compared {
    pub code: u64,
    pub number: u64,
    pub entries: u64,
}

/// `pgk_name`
#[repr(C)]
#[derive(Debug, Clone, Copy, PartialEq, Eq)]
#[allow(missing_docs)]
pub struct Name {
    pub found: u64,
    pub outer: u64,
    pub start: u64,
    pub end: u64,
}

#[allow(missing_docs)]
extern "C" {
    pub fn pgk_version() -> u64;
    pub fn pgk_table_size(text: *const u8, text_len: usize) -> usize;
    pub fn pgk_decode(text: *const u8, text_len: usize, sources: u32, names: u32, table: *mut u32, table_len: usize) -> Decoded;
    pub fn pgk_decode_lenient(
        text: *const u8,
        text_len: usize,
        sources: u32,
        names: u32,
        table: *mut u32,
        table_len: usize,
    ) -> Decoded;
    pub fn pgk_decode_checked(
        text: *const u8,
        text_len: usize,
        sources: u32,
        names: u32,
        table: *mut u32,
        table_len: usize,
    ) -> Decoded;
    pub fn pgk_encode(table: *const u32, table_len: usize, chunk: TokenChunk, out: *mut u8, out_len: usize) -> Encoded;
    pub fn pgk_meets_premises(table: *const u32, table_len: usize, sources: u32, names: u32) -> u64;
    pub fn pgk_meets_checked_premises(table: *const u32, table_len: usize, sources: u32, names: u32) -> u64;
    pub fn pgk_translate(table: *mut u32, table_len: usize, line_offset: u32, source_offset: u32, name_offset: u32) -> Answer;
    pub fn pgk_translate_tokens(
        tokens: *mut Token,
        count: usize,
        line_offset: u32,
        source_offset: u32,
        name_offset: u32,
    ) -> Answer;
    pub fn pgk_lookup(table: *const u32, table_len: usize, line: u32, col: u32) -> Answer;
    pub fn pgk_lookup_many(
        table: *const u32,
        table_len: usize,
        positions: *const u32,
        positions_len: usize,
        found: *mut u32,
        found_len: usize,
    ) -> Answer;
    pub fn pgk_lookup_many_quick(
        table: *const u32,
        table_len: usize,
        positions: *const u32,
        positions_len: usize,
        found: *mut u32,
        found_len: usize,
    ) -> Answer;
    pub fn pgk_compose(
        outer: *const u32,
        outer_len: usize,
        outer_sources: u32,
        outer_names: *const u8,
        outer_names_len: usize,
        outer_ends: *const usize,
        outer_ends_len: usize,
        inner: *const u32,
        inner_len: usize,
        inner_names: *const u8,
        inner_names_len: usize,
        inner_ends: *const usize,
        inner_ends_len: usize,
        result: *mut u32,
        result_len: usize,
        added: *mut u32,
        added_len: usize,
    ) -> Composed;
    pub fn pgk_compose_with(
        outer: *const u32,
        outer_len: usize,
        outer_sources: u32,
        outer_names: *const u8,
        outer_names_len: usize,
        outer_ends: *const usize,
        outer_ends_len: usize,
        inner: *const u32,
        inner_len: usize,
        inner_names: *const u8,
        inner_names_len: usize,
        inner_ends: *const usize,
        inner_ends_len: usize,
        result: *mut u32,
        result_len: usize,
        added: *mut u32,
        added_len: usize,
        work: *mut u32,
        work_len: usize,
    ) -> Composed;
    pub fn pgk_name_of(
        inner_names: *const u8,
        inner_names_len: usize,
        inner_ends: *const usize,
        inner_ends_len: usize,
        outer_names: *const u8,
        outer_names_len: usize,
        outer_ends: *const usize,
        outer_ends_len: usize,
        added: *const u32,
        added_len: usize,
        id: u32,
    ) -> Name;
    pub fn pgk_compare(
        left: *const u32,
        left_len: usize,
        right: *const u32,
        right_len: usize,
        out: *mut u32,
        out_len: usize,
    ) -> Compared;
}
