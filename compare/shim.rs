//! The library's C names over code that was compiled without a proof, as `rt try` compiles it: there an answer of more than two words
//! is written where a first argument says, and a chunk is passed by its address. Only compare/mutate uses this.
#![allow(clippy::too_many_arguments)]

use std::mem::MaybeUninit;

/// An answer of so many 64-bit words.
#[repr(C)]
pub struct Words<const N: usize>([u64; N]);

#[repr(C)]
#[derive(Clone, Copy)]
pub struct Chunk([u32; 8]);

/// A lent list: where it begins, and how long it is. Each is two arguments.
type Lent = *const u8;

fn answered<const N: usize>(f: impl FnOnce(*mut Words<N>)) -> Words<N> {
    let mut words = MaybeUninit::uninit();
    f(words.as_mut_ptr());
    unsafe { words.assume_init() }
}

/// An entry whose answer comes back as C wants it.
macro_rules! plain {
    ($name:ident, $raw:ident, ($($arg:ident: $type:ty),*), $answer:ty) => {
        #[unsafe(no_mangle)]
        pub unsafe extern "C" fn $name($($arg: $type),*) -> $answer {
            unsafe extern "C" {
                fn $raw($($arg: $type),*) -> $answer;
            }
            unsafe { $raw($($arg),*) }
        }
    };
}

/// An entry whose answer is written where the first argument says.
macro_rules! placed {
    ($name:ident, $raw:ident, ($($arg:ident: $type:ty),*), $answer:ty) => {
        #[unsafe(no_mangle)]
        pub unsafe extern "C" fn $name($($arg: $type),*) -> $answer {
            unsafe extern "C" {
                fn $raw(r: *mut $answer, $($arg: $type),*);
            }
            answered(|r| unsafe { $raw(r, $($arg),*) })
        }
    };
}

placed!(pgk_decode_lenient, raw_pgk_decode_lenient, (text: Lent, n: usize, sources: u32, names: u32, table: Lent, k: usize), Words<4>);
placed!(pgk_decode_checked, raw_pgk_decode_checked, (text: Lent, n: usize, sources: u32, names: u32, table: Lent, k: usize), Words<4>);
plain!(pgk_translate, raw_pgk_translate, (table: Lent, n: usize, line: u32, source: u32, name: u32), Words<2>);
plain!(pgk_translate_tokens, raw_pgk_translate_tokens, (tokens: Lent, n: usize, line: u32, source: u32, name: u32), Words<2>);
plain!(pgk_lookup, raw_pgk_lookup, (table: Lent, n: usize, line: u32, col: u32), Words<2>);
plain!(pgk_lookup_many, raw_pgk_lookup_many, (table: Lent, n: usize, asked: Lent, p: usize, found: Lent, k: usize), Words<2>);
plain!(pgk_lookup_many_quick, raw_pgk_lookup_many_quick, (table: Lent, n: usize, asked: Lent, p: usize, found: Lent, k: usize), Words<2>);
placed!(pgk_compare, raw_pgk_compare, (left: Lent, n: usize, right: Lent, p: usize, out: Lent, k: usize), Words<3>);
plain!(pgk_table_size, raw_pgk_table_size, (text: Lent, n: usize), u64);
plain!(pgk_meets_premises, raw_pgk_meets_premises, (table: Lent, n: usize, sources: u32, names: u32), u64);
plain!(pgk_meets_checked_premises, raw_pgk_meets_checked_premises, (table: Lent, n: usize, sources: u32, names: u32), u64);

#[unsafe(no_mangle)]
pub unsafe extern "C" fn pgk_encode(table: Lent, n: usize, chunk: Chunk, out: Lent, k: usize) -> Words<7> {
    unsafe extern "C" {
        fn raw_pgk_encode(r: *mut Words<7>, table: Lent, n: usize, chunk: &Chunk, out: Lent, k: usize);
    }
    answered(|r| unsafe { raw_pgk_encode(r, table, n, &chunk, out, k) })
}

#[rustfmt::skip]
placed!(pgk_compose, raw_pgk_compose, (
    outer: Lent, outer_len: usize, sources: u32, outer_names: Lent, outer_names_len: usize, outer_ends: Lent, outer_ends_len: usize,
    inner: Lent, inner_len: usize, inner_names: Lent, inner_names_len: usize, inner_ends: Lent, inner_ends_len: usize,
    result: Lent, result_len: usize, added: Lent, added_len: usize
), Words<3>);

#[rustfmt::skip]
placed!(pgk_compose_with, raw_pgk_compose_with, (
    outer: Lent, outer_len: usize, sources: u32, outer_names: Lent, outer_names_len: usize, outer_ends: Lent, outer_ends_len: usize,
    inner: Lent, inner_len: usize, inner_names: Lent, inner_names_len: usize, inner_ends: Lent, inner_ends_len: usize,
    result: Lent, result_len: usize, added: Lent, added_len: usize, work: Lent, work_len: usize
), Words<3>);

#[rustfmt::skip]
placed!(pgk_name_of, raw_pgk_name_of, (
    inner: Lent, inner_len: usize, inner_ends: Lent, inner_ends_len: usize, outer: Lent, outer_len: usize,
    outer_ends: Lent, outer_ends_len: usize, added: Lent, added_len: usize, id: u32
), Words<4>);
