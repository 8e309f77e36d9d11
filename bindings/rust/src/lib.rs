//! The mapping core of source maps: decode, encode, translate, look up, compose, compare.
//!
//! Every function is proved to answer by the format's rules for every input; this crate hands slices
//! to it and names its answers. It allocates nothing and has no panics: the caller lends all memory.
//!
//! ```
//! use peghayrick::{decode_mapping, lookup_token, table_size, written, Refusal};
//!
//! /// The source line and column of a generated position, all counted from 0.
//! fn step(mappings: &[u8], sources: u32, names: u32, line: u32, col: u32) -> Result<Option<(u32, u32)>, Refusal> {
//!     let mut table = vec![0u32; table_size(mappings)];
//!     let decoded = decode_mapping(mappings, sources, names, &mut table)?;
//!     let token = lookup_token(written(&table, decoded.tokens), line, col)?;
//!     Ok(token.filter(|t| t.get_source_id().is_some()).map(|t| (t.src_line, t.src_col)))
//! }
//!
//! assert_eq!(step(b"AAEG;C", 1, 0, 0, 7), Ok(Some((2, 3))));
//! assert_eq!(step(b"AAEG;C", 1, 0, 1, 7), Ok(None));
//! assert!(step(b"AAE", 1, 0, 0, 0).is_err());
//! ```
//!
//! # Positions
//! Lines and columns count from 0: a screen that counts from 1 adds 1 to both. Columns count UTF-16 units, as
//! bundlers write them: they are neither bytes nor `char`s. A token without a source carries a source line and
//! column all the same; they say nothing of it and must not be shown. Test [`Token::get_source_id`] first.
//!
//! # Which decode
//! [`decode_mapping`], which names no mode, is checked, and so the one for a screen: it takes each value as ECMA-426 does and
//! refuses a number that is too wide. [`decode_checked`] is the same by name. [`decode_lenient`] drops the upper bits, as
//! oxc_sourcemap does: take it for that crate's answers, and not for a screen. Before 0.5.0 [`decode_mapping`] was lenient. A
//! refused map must not be looked up, although the tokens before the refused segment are in the table.
//!
//! # Tables
//! A table is a list of `u32`, [`WIDTH`] a token, in the order of [`Token`]'s fields. [`NONE`] as an id means none.
//! A table that is read must have a multiple of [`WIDTH`] numbers and at most 4,294,967,294 tokens, or else
//! [`Refusal::BadTable`]. A table that is written has places for its length divided by [`WIDTH`], rounded down.
//! One token for each `,` and `;` of a text and one more are always enough to decode it; [`table_size`] counts
//! what it needs. [`written`] cuts off the places that were not written, which a lookup would find too.
//! [`tokens_of`] and [`table_of`] see one as the other, without a copy.
//!
//! # Segments
//! A token's [`segment`](Token::segment) says which piece of text gave it: the bytes from that offset on, up to the next `,`
//! or `;` or the text's end. Decoding sets it, [`translate`] keeps it, composing takes the outer token's; the writer, the
//! lookup, the comparison and the premises pass it over, and on input it may be any number. It is an offset into the text that
//! the token was decoded from, and no table says which that was. Joined tables hold offsets into the text of each part, a
//! composed one into the outer map's text, and none of them into the text that [`serialize_mappings`] writes. Keep those texts,
//! and which part a token is of, to point into them.
//!
//! # Writing back
//! A text that was decoded and is written again comes back without the `;` at its end and without empty segments:
//! no token tells of them. So its segments begin elsewhere, and [`Token::same_mapping`] compares without them. Whether a table that was made, translated or composed reads back as it was written,
//! [`meets_premises`] says for lenient mode, and [`meets_checked_premises`] for both.
//!
//! # Cost
//! A lookup reads the line of every token, 0.4 to 1.2 ns each. [`lookup_many`] reads the table once for all of its positions.
//! [`lookup_many_quick`] has the same answers: on a sorted table it costs little more than one pass over it, and it is the one
//! to call unless the table is known not to be sorted.
//! [`compose`] and [`compose_with`] look once whether the inner table is sorted by line and then by column. If so, each outer
//! token with a source halves it, near the place of the one before it first, so the time is near-linear in both tables. If not,
//! each reads the line of every inner token, so the time grows with the product of both: compose such a map where the bundle is
//! built and not while a run waits. [`compose`] searches the inner names and the added ones, one by one, for each token that
//! takes its outer name, unless the name taken before was the same. [`compose_with`] enters each inner name into an index in lent
//! memory once a call, and looks for each outer name that is taken once a call: beyond that one pass over the names, its time
//! hardly depends on how many there are. Names that meet in the index, as those chosen to do so, are compared one by one.
//!
//! [`compare_tables`] reads each table once to see that it is sorted, and then walks both side by side twice, to count the
//! differences and to write them: its time is linear in both.
//!
//! # Refusals
//! Every input is answered, a value or a [`Refusal`]. A refused decode keeps the tokens before the refused segment,
//! and says how many they are. Every other refusal writes nothing.
//!
//! # Building
//! x86-64 Linux only. The build script links `libpeghayrick.a`: from the folder `PEGHAYRICK_LIB_DIR` (a relative one
//! counts from the folder in which cargo was started), or else from `bindings/archive`, which proves it first.
//! Tried with Rust 1.85 and 1.95; `rust-version` claims the former.
#![no_std]
#![deny(missing_docs, unsafe_op_in_unsafe_fn)]
#![warn(clippy::missing_errors_doc)]

#[cfg(not(all(target_arch = "x86_64", target_pointer_width = "64", target_os = "linux")))]
compile_error!("libpeghayrick.a is built for x86-64 Linux only");

mod change;
pub mod raw;
mod refusal;
mod token;

pub use change::{Change, Changes};
pub use refusal::{Refusal, Stop};
use token::pairs_of;
pub use token::{table_of, table_of_mut, tokens_of, written, Position, Token, TokenChunk, NONE, WIDTH};

/// The version of this crate: major × 1,000,000 + minor × 1,000 + patch.
pub const VERSION: u64 = 9000;

/// The version of the archive that was linked. Where it is not [`VERSION`], `PEGHAYRICK_LIB_DIR` named another version's.
///
/// ```
/// assert_eq!(peghayrick::version(), peghayrick::VERSION);
/// ```
pub fn version() -> u64 {
    // SAFETY: it takes nothing.
    unsafe { raw::pgk_version() }
}

/// A decode that is done.
#[derive(Debug, Clone, Copy, PartialEq, Eq)]
pub struct Decoded {
    /// How many tokens were written.
    pub tokens: usize,
    /// The text's length.
    pub offset: usize,
}

fn decoded(d: raw::Decoded) -> Result<Decoded, Refusal> {
    let (tokens, offset) = (d.tokens as usize, d.offset as usize);
    match d.code {
        0 => Ok(Decoded { tokens, offset }),
        code => Err(Refusal::new(code, d.number, Some(Stop { tokens, offset }))),
    }
}

fn answered(a: raw::Answer) -> Result<u64, Refusal> {
    match a.code {
        0 => Ok(a.number),
        code => Err(Refusal::new(code, a.number, None)),
    }
}

/// How many numbers a table needs so that no decode of the mappings says [`TableFull`](Refusal::TableFull):
/// [`WIDTH`] for each segment (a run of bytes that are neither `,` nor `;`), or `usize::MAX` where that does not fit.
/// Never more than one token for each `,` and `;` and one more. It reads the text once.
///
/// ```
/// use peghayrick::{decode_mapping, table_size, Decoded, WIDTH};
/// assert_eq!(table_size(b"AAEG;,;C;"), 2 * WIDTH);
/// let mut table = vec![0u32; table_size(b"AAEG;,;C;")];
/// assert_eq!(decode_mapping(b"AAEG;,;C;", 1, 0, &mut table), Ok(Decoded { tokens: 2, offset: 9 }));
/// ```
pub fn table_size(text: &[u8]) -> usize {
    // SAFETY: the slice is lent with its own pointer and length for the call.
    unsafe { raw::pgk_table_size(text.as_ptr(), text.len()) }
}

/// Decodes mappings into a table, by the counts of sources and names that the map lists, sources first. The decode that
/// names no mode is checked: it is [`decode_checked`], the one for a screen, and wherever a wrong position does harm.
///
/// Each value is taken as ECMA-426 does, by all of its digits: a magnitude of 2^31 or more is refused as
/// [`WideValue`](Refusal::WideValue), and minus zero (`B`, `hA`) is -2^31, by which most sums fall below 0. A column, line or
/// name id that leaves 32 bits is refused as [`WideValue`](Refusal::WideValue) too.
///
/// Before 0.5.0 this was [`decode_lenient`]: who wants those answers, which are oxc_sourcemap's, calls that by name.
///
/// ```
/// use peghayrick::{decode_lenient, decode_mapping, tokens_of, Decoded, Refusal, Stop, Token, WIDTH};
/// let mut table = [0u32; 2 * WIDTH];
/// assert_eq!(decode_mapping(b"AAEG;C", 1, 0, &mut table), Ok(Decoded { tokens: 2, offset: 6 }));
/// let wash = Token::new(0, 0, 2, 3, Some(0), None).with_segment(Some(0));
/// assert_eq!(tokens_of(&table), [wash, Token::new(1, 1, 2, 3, None, None).with_segment(Some(5))]);
///
/// // A refusal says where: here a digit is due at the text's end. The tokens before the segment are in the table.
/// let refusal = decode_mapping(b"AAEG;AAAA,!", 1, 0, &mut table).unwrap_err();
/// assert_eq!(refusal, Refusal::VlqLeftover { at: Stop { tokens: 2, offset: 11 } });
/// assert_eq!(tokens_of(&table)[1], Token { dst_line: 1, segment: 5, ..wash });
///
/// // A column of 2^31 in one step: no bundle has it, and oxc_sourcemap takes it.
/// let refusal = decode_mapping(b"ggggggE", 0, 0, &mut table).unwrap_err();
/// assert_eq!(refusal, Refusal::WideValue { field: 0, at: Stop { tokens: 0, offset: 0 } });
/// assert!(decode_lenient(b"ggggggE", 0, 0, &mut table).is_ok());
/// ```
///
/// # Errors
/// The first that applies in a segment: [`VlqLeftover`](Refusal::VlqLeftover), [`VlqOverflow`](Refusal::VlqOverflow),
/// [`WideValue`](Refusal::WideValue), [`BadSegmentSize`](Refusal::BadSegmentSize),
/// [`BadSourceReference`](Refusal::BadSourceReference), [`BadNameReference`](Refusal::BadNameReference),
/// [`TooBig`](Refusal::TooBig), [`TableFull`](Refusal::TableFull). `WideValue` stands there for one of the segment's first five
/// values, once they are all read; for a sum it comes after the sum's own test below 0. `TooBig` is a good segment that begins
/// at byte 4,294,967,295 or later, where no token can say so.
pub fn decode_mapping(mappings: &[u8], sources: u32, names: u32, table: &mut [u32]) -> Result<Decoded, Refusal> {
    // SAFETY: each slice is lent with its own pointer and length for the call; the two cannot overlap.
    decoded(unsafe { raw::pgk_decode(mappings.as_ptr(), mappings.len(), sources, names, table.as_mut_ptr(), table.len()) })
}

/// Decodes with the answers of oxc_sourcemap 9.0.0: a column, line or name id that leaves 32 bits loses its upper bits, so a
/// damaged map may give a wrong position, and minus zero is 0. Not for a screen.
///
/// It takes texts that [`decode_mapping`] refuses; where a text has minus zero, it may also refuse what that takes, or give
/// other positions.
///
/// ```
/// let mut table = [7u32; peghayrick::WIDTH];
/// assert!(peghayrick::decode_lenient(b"ggggggI", 0, 0, &mut table).is_ok());
/// assert_eq!(table[1], 0);
/// ```
///
/// # Errors
/// As [`decode_mapping`], but for [`WideValue`](Refusal::WideValue).
pub fn decode_lenient(mappings: &[u8], sources: u32, names: u32, table: &mut [u32]) -> Result<Decoded, Refusal> {
    // SAFETY: as in decode_mapping.
    decoded(unsafe {
        raw::pgk_decode_lenient(mappings.as_ptr(), mappings.len(), sources, names, table.as_mut_ptr(), table.len())
    })
}

/// Decodes as [`decode_mapping`] does, by name.
///
/// ```
/// use peghayrick::{decode_checked, decode_lenient, tokens_of, Refusal, Stop, WIDTH};
/// let mut table = [7u32; 3 * WIDTH];
/// // The largest value, 2^31 - 1, and the next.
/// assert!(decode_checked(b"+/////D", 0, 0, &mut table).is_ok());
/// let refusal = decode_checked(b"ggggggE", 0, 0, &mut table).unwrap_err();
/// assert_eq!(refusal, Refusal::WideValue { field: 0, at: Stop { tokens: 0, offset: 0 } });
///
/// // Values that are taken one by one, and a sum that is not.
/// let refusal = decode_checked(b"+/////D,+/////D,E", 0, 0, &mut table).unwrap_err();
/// assert_eq!(refusal, Refusal::WideValue { field: 0, at: Stop { tokens: 2, offset: 16 } });
///
/// // Minus zero: from column 0 it falls below 0, from column 2^31 it leads to 0.
/// let refusal = decode_checked(b"B", 0, 0, &mut table).unwrap_err();
/// assert_eq!(refusal, Refusal::BadSegmentSize { fields: 0, at: Stop { tokens: 0, offset: 0 } });
/// assert!(decode_checked(b"+/////D,C,B", 0, 0, &mut table).is_ok());
/// assert_eq!(tokens_of(&table)[2].dst_col, 0);
/// assert!(decode_lenient(b"+/////D,C,B", 0, 0, &mut table).is_ok());
/// assert_eq!(tokens_of(&table)[2].dst_col, 1 << 31);
/// ```
///
/// # Errors
/// As [`decode_mapping`].
pub fn decode_checked(mappings: &[u8], sources: u32, names: u32, table: &mut [u32]) -> Result<Decoded, Refusal> {
    // SAFETY: as in decode_mapping.
    decoded(unsafe {
        raw::pgk_decode_checked(mappings.as_ptr(), mappings.len(), sources, names, table.as_mut_ptr(), table.len())
    })
}

/// A chunk that is written.
#[derive(Debug, Clone, Copy, PartialEq, Eq)]
pub struct Encoded {
    /// How many bytes were written.
    pub bytes: usize,
    /// The state for the next chunk: set its `end` and write on.
    pub next: TokenChunk,
}

/// Writes a chunk of a table as mappings. Bytes past the count are kept. A text that was decoded comes back without
/// the `;` at its end and without empty segments. The segment of a token is not read.
///
/// ```
/// use peghayrick::{serialize_mappings, table_of, Refusal, Token, TokenChunk};
/// let tokens = [Token::new(0, 0, 2, 3, Some(0), None), Token::new(1, 1, 2, 3, None, None)];
/// let mut out = [0u8; 6];
///
/// // In one go,
/// let whole = serialize_mappings(table_of(&tokens), TokenChunk::first(2), &mut out)?;
/// assert_eq!((whole.bytes, &out), (6, b"AAEG;C"));
///
/// // or in chunks.
/// let one = serialize_mappings(table_of(&tokens), TokenChunk::first(1), &mut out)?;
/// let two = serialize_mappings(table_of(&tokens), TokenChunk { end: 2, ..one.next }, &mut out[one.bytes..])?;
/// assert_eq!((one.bytes, two.bytes, &out), (4, 2, b"AAEG;C"));
///
/// // Too little room: the refusal says how much is needed.
/// let refusal = serialize_mappings(table_of(&tokens), TokenChunk::first(2), &mut out[..5]);
/// assert_eq!(refusal, Err(Refusal::NoRoom { needed: 6 }));
/// # Ok::<(), Refusal>(())
/// ```
///
/// Lent 36 bytes for each token and one for each line that the chunk advances, the call need not count the bytes
/// first, and is quicker by a third.
///
/// # Errors
/// In this order: [`BadTable`](Refusal::BadTable), [`BadChunk`](Refusal::BadChunk),
/// [`LineGoesBack`](Refusal::LineGoesBack), [`NoRoom`](Refusal::NoRoom).
pub fn serialize_mappings(table: &[u32], chunk: TokenChunk, out: &mut [u8]) -> Result<Encoded, Refusal> {
    // SAFETY: each slice is lent with its own pointer and length for the call; the two cannot overlap.
    let e = unsafe { raw::pgk_encode(table.as_ptr(), table.len(), chunk, out.as_mut_ptr(), out.len()) };
    match e.code {
        0 => Ok(Encoded { bytes: e.bytes as usize, next: e.next }),
        code => Err(Refusal::new(code, e.number, None)),
    }
}

/// Whether what [`serialize_mappings`] writes of the whole table surely reads back, by [`decode_lenient`] and these counts, as
/// that table but for the segments: lines do not go back, ids are none or below their counts, no name stands without a
/// source, and a token without a source repeats the source position of the latest token with one (0, 0 before any). `false`
/// for a bad table.
///
/// A table that was decoded by these counts should meet them: that is no theorem, so ask. One that was made, translated or
/// composed need not. Of more than 4,294,967,295 bytes nothing is said: there [`TooBig`](Refusal::TooBig) may be the answer.
///
/// ```
/// use peghayrick::{meets_premises, table_of, Token};
/// let with = Token::new(0, 0, 2, 3, Some(0), None);
/// assert!(meets_premises(table_of(&[with, Token::new(1, 1, 2, 3, None, None)]), 1, 0));
///
/// // The position of a token without a source is not written: it would read back as 2, 3.
/// assert!(!meets_premises(table_of(&[with, Token::new(1, 1, 0, 0, None, None)]), 1, 0));
/// assert!(!meets_premises(table_of(&[with]), 0, 0));
/// ```
pub fn meets_premises(table: &[u32], sources: u32, names: u32) -> bool {
    // SAFETY: the slice is lent with its own pointer and length for the call.
    unsafe { raw::pgk_meets_premises(table.as_ptr(), table.len(), sources, names) == 1 }
}

/// Whether what [`serialize_mappings`] writes of the whole table surely reads back by [`decode_mapping`] too, by these counts: the
/// table [meets the premises](meets_premises), and each step that is written is below 2^31, up or down. There is a step to
/// each generated column (on a new line from 0), with a source to the source id, line and column (from the latest token with
/// one, 0 before any), and with a name to the name id (from the latest that is written). `false` for a bad table.
///
/// Where [`meets_premises`] alone says `true`, [`decode_mapping`] refuses what is written as
/// [`WideValue`](Refusal::WideValue): ask before a screen relies on it. A table that was decoded in checked mode may have a
/// step of -2^31 too, from minus zero.
///
/// ```
/// use peghayrick::*;
///
/// /// The mappings of a table for the controller, which reads them by `decode_mapping`; `None` where it would not.
/// fn exported(table: &[u32], sources: u32, names: u32) -> Option<Vec<u8>> {
///     if !meets_checked_premises(table, sources, names) {
///         return None;
///     }
///     let count = (table.len() / WIDTH) as u32;
///     let lines = table.chunks(WIDTH).last().map_or(0, |token| token[0]);
///     let mut out = vec![0; 36 * count as usize + lines as usize];
///     let encoded = serialize_mappings(table, TokenChunk::first(count), &mut out).ok()?;
///     out.truncate(encoded.bytes);
///     Some(out)
/// }
///
/// let wash = Token::new(0, 0, 2, 3, Some(0), None);
/// let spin = Token::new(0, 8, 4, 3, Some(0), None);
/// assert_eq!(exported(table_of(&[wash, spin]), 1, 0).as_deref(), Some(&b"AAEG,QAEA"[..]));
///
/// // A tool has put a column 2^31 too far: lenient mode reads it back, and checked mode refuses it.
/// let far = [wash, Token::new(0, 1 << 31, 4, 3, Some(0), None)];
/// assert!(meets_premises(table_of(&far), 1, 0));
/// assert!(!meets_checked_premises(table_of(&far), 1, 0));
/// assert_eq!(exported(table_of(&far), 1, 0), None);
///
/// // It is the step that counts: behind another token the same column is written by less.
/// assert!(meets_checked_premises(table_of(&[wash, spin, far[1]]), 1, 0));
/// ```
pub fn meets_checked_premises(table: &[u32], sources: u32, names: u32) -> bool {
    // SAFETY: the slice is lent with its own pointer and length for the call.
    unsafe { raw::pgk_meets_checked_premises(table.as_ptr(), table.len(), sources, names) == 1 }
}

/// Adds `line_offset` to each generated line, and the other offsets to each id that is not none. Each segment is kept: it is an
/// offset into the text that this table was decoded from, also behind the tokens of other texts.
///
/// ```
/// use peghayrick::{translate, Refusal, NONE};
/// let mut table = [0, 5, 2, 3, 0, NONE, 17];
/// assert_eq!(translate(&mut table, 10, 2, 2), Ok(()));
/// assert_eq!(table, [10, 5, 2, 3, 2, NONE, 17]);
/// assert_eq!(translate(&mut table, 0, NONE - 2, 0), Err(Refusal::TooBig { index: 0, at: None }));
/// assert_eq!(translate(&mut table[..5], 0, 0, 0), Err(Refusal::BadTable));
/// ```
///
/// # Errors
/// [`BadTable`](Refusal::BadTable); [`TooBig`](Refusal::TooBig) if a line would pass 4,294,967,295 or an id reach it.
pub fn translate(table: &mut [u32], line_offset: u32, source_offset: u32, name_offset: u32) -> Result<(), Refusal> {
    // SAFETY: the slice is lent with its own pointer and length for the call.
    answered(unsafe { raw::pgk_translate(table.as_mut_ptr(), table.len(), line_offset, source_offset, name_offset) }).map(|_| ())
}

/// [`translate`] over token records.
///
/// ```
/// use peghayrick::{translate_tokens, Token};
/// let mut tokens = [Token::new(0, 5, 2, 3, Some(0), None)];
/// assert_eq!(translate_tokens(&mut tokens, 10, 2, 2), Ok(()));
/// assert_eq!(tokens, [Token::new(10, 5, 2, 3, Some(2), None)]);
/// ```
///
/// # Errors
/// As [`translate`]; [`BadTable`](Refusal::BadTable) only past 4,294,967,294 records.
pub fn translate_tokens(tokens: &mut [Token], line_offset: u32, source_offset: u32, name_offset: u32) -> Result<(), Refusal> {
    // SAFETY: the slice is lent with its own pointer and length for the call.
    answered(unsafe { raw::pgk_translate_tokens(tokens.as_mut_ptr(), tokens.len(), line_offset, source_offset, name_offset) })
        .map(|_| ())
}

/// The index of the token at a generated position: among those on the line with a column at most `col`,
/// the largest column; among equals, the latest. The table may be in any order.
///
/// Hand in the part that was [`written`], or places that were never written are found too. Each lookup reads the
/// line of every token.
///
/// ```
/// use peghayrick::{lookup_index, table_of, Token};
/// let tokens = [Token::new(0, 1, 9, 0, Some(0), None), Token::new(0, 1, 9, 4, Some(0), None)];
/// assert_eq!(lookup_index(table_of(&tokens), 0, 7), Ok(Some(1)));
/// assert_eq!(lookup_index(table_of(&tokens), 0, 0), Ok(None));
/// ```
///
/// # Errors
/// [`BadTable`](Refusal::BadTable).
pub fn lookup_index(table: &[u32], line: u32, col: u32) -> Result<Option<u32>, Refusal> {
    // SAFETY: the slice is lent with its own pointer and length for the call.
    let number = answered(unsafe { raw::pgk_lookup(table.as_ptr(), table.len(), line, col) })?;
    Ok(u32::try_from(number).ok().filter(|&index| index != NONE))
}

/// The token at a generated position, as [`lookup_index`] finds it. It may have no source: then its source line and
/// column must not be shown.
///
/// ```
/// use peghayrick::{lookup_token, table_of, Token};
/// let tokens = [Token::new(0, 1, 9, 0, Some(0), None), Token::new(0, 6, 9, 4, Some(0), None)];
/// assert_eq!(lookup_token(table_of(&tokens), 0, 5), Ok(Some(tokens[0])));
/// assert_eq!(lookup_token(table_of(&tokens), 1, 5), Ok(None));
/// ```
///
/// # Errors
/// [`BadTable`](Refusal::BadTable).
pub fn lookup_token(table: &[u32], line: u32, col: u32) -> Result<Option<Token>, Refusal> {
    let index = lookup_index(table, line, col)?;
    Ok(index.and_then(|i| tokens_of(table).get(i as usize).copied()))
}

/// The indices of the tokens at many generated positions, in one call: `found[i]` becomes what [`lookup_index`] says of
/// `positions[i]`, and [`NONE`] where that is `None`. `NONE` is the index of no token, so `tokens.get(found[i] as usize)` is
/// `None` there too.
///
/// The positions may be in any order and may come again; the table may be in any order. Places of `found` past the positions
/// are kept. No positions are done. A token that is found may have no source: then its source line and column must not be
/// shown.
///
/// Hand in the part of the table that was [`written`]. It is read once for all positions, in blocks of 64 tokens, and a block
/// is read again only for a position that lies within it. For one or two positions [`lookup_index`] is quicker. Unless the
/// table is known not to be sorted, call [`lookup_many_quick`], which has the same answers.
///
/// ```
/// use peghayrick::{lookup_many, table_of, Position, Refusal, Token, NONE};
/// let tokens = [Token::new(0, 1, 9, 0, Some(0), None), Token::new(0, 6, 9, 4, Some(0), None)];
/// let asked = [Position::new(0, 7), Position::new(0, 0), Position::new(0, 5), Position::new(0, 7)];
/// let mut found = [0; 4];
/// lookup_many(table_of(&tokens), &asked, &mut found)?;
/// assert_eq!(found, [1, NONE, 0, 1]);
///
/// let columns: Vec<Option<u32>> = found.iter().map(|&index| tokens.get(index as usize).map(|t| t.src_col)).collect();
/// assert_eq!(columns, [Some(4), None, Some(0), Some(4)]);
///
/// // Too little room: nothing is written, and the refusal says how much is needed.
/// assert_eq!(lookup_many(table_of(&tokens), &asked, &mut found[..3]), Err(Refusal::NoRoom { needed: 4 }));
/// # Ok::<(), Refusal>(())
/// ```
///
/// # Errors
/// In this order: [`BadTable`](Refusal::BadTable); [`NoRoom`](Refusal::NoRoom) if `found` is shorter than the positions, with
/// their number. A refusal writes nothing. [`OddList`](Refusal::OddList), which the C form has between the two, cannot come: a
/// slice of [`Position`] always has both numbers of each.
pub fn lookup_many(table: &[u32], positions: &[Position], found: &mut [u32]) -> Result<(), Refusal> {
    // SAFETY: it is one of the two.
    unsafe { look_many(raw::pgk_lookup_many, table, positions, found) }
}

/// The answers of [`lookup_many`], by halving where the table is sorted: on every table and every list of positions it returns
/// the same and leaves the same in `found`.
///
/// It looks once whether the table is sorted by line and then by column; equal tokens may follow each other. If so, it halves;
/// if not, it does what [`lookup_many`] does. So this is the one to call unless the table is known not to be sorted. A decoded
/// table is sorted by line always, and by column where the bundler wrote columns that do not fall, as all usual ones do.
/// [`translate`] keeps the order, and [`compose`] that of the outer table.
///
/// On a sorted table it costs one pass over it and some tokens more for each position, so little more than one pass unless the
/// table is short; on any other what [`lookup_many`] costs, and the tokens that are read until one falls. For one position
/// [`lookup_index`] reads less: the line of every token, where this reads line and column of each.
///
/// ```
/// use peghayrick::{decode_mapping, lookup_many_quick, table_size, tokens_of, written, Position, Refusal, NONE};
///
/// /// The source lines of positions in a map with one source and no names, all counted from 0.
/// fn lines(mappings: &[u8], positions: &[Position]) -> Result<Vec<Option<u32>>, Refusal> {
///     let mut table = vec![0; table_size(mappings)];
///     let decoded = decode_mapping(mappings, 1, 0, &mut table)?;
///     let table = written(&table, decoded.tokens);
///     let mut found = vec![NONE; positions.len()];
///     lookup_many_quick(table, positions, &mut found)?;
///     let line = |&index| tokens_of(table).get(index as usize).filter(|t| t.get_source_id().is_some()).map(|t| t.src_line);
///     Ok(found.iter().map(line).collect())
/// }
///
/// let asked = [Position::new(0, 5), Position::new(0, 3), Position::new(0, 2)];
/// // Columns 3 and 5, and columns 5 and 3: a table that falls is answered too.
/// assert_eq!(lines(b"GAAA,EACA", &asked), Ok(vec![Some(1), Some(0), None]));
/// assert_eq!(lines(b"KAAA,FACA", &asked), Ok(vec![Some(0), Some(1), None]));
/// ```
///
/// # Errors
/// As [`lookup_many`].
pub fn lookup_many_quick(table: &[u32], positions: &[Position], found: &mut [u32]) -> Result<(), Refusal> {
    // SAFETY: it is one of the two.
    unsafe { look_many(raw::pgk_lookup_many_quick, table, positions, found) }
}

/// The two calls for many positions: the table, the positions and the places, each with its length.
type LookMany = unsafe extern "C" fn(*const u32, usize, *const u32, usize, *mut u32, usize) -> raw::Answer;

/// Lends all three to one of the two calls.
///
/// # Safety
/// `call` is [`raw::pgk_lookup_many`] or [`raw::pgk_lookup_many_quick`].
unsafe fn look_many(call: LookMany, table: &[u32], positions: &[Position], found: &mut [u32]) -> Result<(), Refusal> {
    let pairs = pairs_of(positions);
    // SAFETY: each slice is lent with its own pointer and length for the call; the one that is written overlaps nothing.
    answered(unsafe { call(table.as_ptr(), table.len(), pairs.as_ptr(), pairs.len(), found.as_mut_ptr(), found.len()) })
        .map(|_| ())
}

/// A name list: a text and the end of each name in it; a name begins where the one before it ends.
///
/// The ends never fall, the last lies within the text, and there are at most 2,147,483,647, or else
/// [`Refusal::BadNames`].
#[derive(Debug, Clone, Copy, PartialEq, Eq, Default)]
pub struct Names<'a> {
    /// The names, one after another.
    pub text: &'a [u8],
    /// Where each name ends in the text.
    pub ends: &'a [usize],
}

/// A composition that is done.
#[derive(Debug, Clone, Copy, PartialEq, Eq)]
pub struct Composed {
    /// How many outer names were added.
    pub added: usize,
}

/// Composes two maps: `outer`, from generated to intermediate code, and `inner`, from there to the source.
///
/// One result token is written for each outer token. Its name id counts the inner names, then the added
/// ones: `added` takes, in order, the ids of the outer names that were added. [`name_of`] reads them. Its segment is the outer
/// token's, also where it is left without a source: an offset into the text of `outer`, and never into that of `inner`.
///
/// With a sorted inner table the time is near-linear in both tables; where names are many, [`compose_with`] is quicker. See the
/// crate's page, under Cost.
///
/// ```
/// use peghayrick::{compose, name_of, table_of, table_of_mut, Names, Refusal, Token};
/// let outer = [Token::new(0, 9, 0, 4, Some(0), Some(0)).with_segment(Some(5)), Token::new(1, 0, 7, 7, Some(0), None)];
/// let inner = [Token::new(0, 3, 20, 2, Some(1), None).with_segment(Some(8))];
/// let outer_names = Names { text: b"wash", ends: &[4] };
/// let inner_names = Names { text: b"spin", ends: &[4] };
///
/// let mut result = [Token::new(0, 0, 0, 0, None, None); 2];
/// let mut added = [0u32; 1];
/// let done = compose(table_of(&outer), 1, outer_names, table_of(&inner), inner_names, table_of_mut(&mut result), &mut added)?;
///
/// let found = Token::new(0, 9, 20, 2, Some(1), Some(1)).with_segment(Some(5));
/// assert_eq!(result, [found, Token::new(1, 0, 0, 0, None, None)]);
/// assert_eq!(name_of(inner_names, outer_names, &added[..done.added], 1), Some(&b"wash"[..]));
/// # Ok::<(), Refusal>(())
/// ```
///
/// # Errors
/// In this order: [`MoreThanOneSource`](Refusal::MoreThanOneSource); [`BadTable`](Refusal::BadTable), outer then
/// inner; [`BadNames`](Refusal::BadNames) likewise; [`TableFull`](Refusal::TableFull) if the result has fewer places
/// than outer has tokens; [`NoRoom`](Refusal::NoRoom) if `added` is shorter than the outer names.
pub fn compose(
    outer: &[u32],
    outer_sources: u32,
    outer_names: Names<'_>,
    inner: &[u32],
    inner_names: Names<'_>,
    result: &mut [u32],
    added: &mut [u32],
) -> Result<Composed, Refusal> {
    // SAFETY: each slice is lent with its own pointer and length for the call; the two that are written overlap nothing.
    let c = unsafe {
        raw::pgk_compose(
            outer.as_ptr(),
            outer.len(),
            outer_sources,
            outer_names.text.as_ptr(),
            outer_names.text.len(),
            outer_names.ends.as_ptr(),
            outer_names.ends.len(),
            inner.as_ptr(),
            inner.len(),
            inner_names.text.as_ptr(),
            inner_names.text.len(),
            inner_names.ends.as_ptr(),
            inner_names.ends.len(),
            result.as_mut_ptr(),
            result.len(),
            added.as_mut_ptr(),
            added.len(),
        )
    };
    composed(c)
}

/// How many places of working memory [`compose_with`] needs for these names: two for each inner name and three for each outer
/// one. The inner names come first, as in [`name_of`].
///
/// ```
/// use peghayrick::{work_places, Names};
/// let inner = Names { text: b"spin", ends: &[4] };
/// let outer = Names { text: b"washdry", ends: &[4, 7] };
/// assert_eq!(work_places(inner, outer), 2 + 3 * 2);
/// assert_eq!(work_places(Names::default(), Names::default()), 0);
/// ```
pub const fn work_places(inner_names: Names<'_>, outer_names: Names<'_>) -> usize {
    // It fits: no slice has more than isize::MAX bytes, and an end takes eight.
    2 * inner_names.ends.len() + 3 * outer_names.ends.len()
}

/// [`compose`] with lent working memory, in which names are found by an index that is made once a call. On every input it
/// returns the same and leaves the same in `result` and `added`, as long as [`work_places`] places are lent.
///
/// `work` may hold anything before the call, and may be longer than needed. What it holds after a call that is done is left
/// open; it may be lent to the next call as it is.
///
/// This is the one to call where names are many: beyond one pass over them, its time hardly depends on their number. With a
/// handful of names, or where few tokens take their outer name, [`compose`] does as well, and needs no memory.
///
/// ```
/// use peghayrick::*;
///
/// /// The tokens of `outer` over `inner`, and for each its name.
/// fn composed<'a>(
///     outer: &[Token],
///     outer_names: Names<'a>,
///     inner: &[Token],
///     inner_names: Names<'a>,
/// ) -> Result<Vec<(Token, Option<&'a [u8]>)>, Refusal> {
///     let mut result = vec![Token::default(); outer.len()];
///     let mut added = vec![0; outer_names.ends.len()];
///     let mut work = vec![0; work_places(inner_names, outer_names)];
///     let (outer, inner, places) = (table_of(outer), table_of(inner), table_of_mut(&mut result));
///     let done = compose_with(outer, 1, outer_names, inner, inner_names, places, &mut added, &mut work)?;
///     let name = |token: &Token| token.get_name_id().and_then(|id| name_of(inner_names, outer_names, &added[..done.added], id));
///     Ok(result.iter().map(|token| (*token, name(token))).collect())
/// }
///
/// let outer_names = Names { text: b"spinwash", ends: &[4, 8] };
/// let inner_names = Names { text: b"drywash", ends: &[3, 7] };
/// let outer = [Token::new(0, 0, 5, 0, Some(0), Some(0)), Token::new(0, 9, 5, 8, Some(0), Some(1))];
/// let inner = [Token::new(5, 0, 20, 2, Some(1), None)];
///
/// // Of the outer names, spin is added behind the two inner names, and wash is an inner name too.
/// let spin = (Token::new(0, 0, 20, 2, Some(1), Some(2)), Some(&b"spin"[..]));
/// let wash = (Token::new(0, 9, 20, 2, Some(1), Some(1)), Some(&b"wash"[..]));
/// assert_eq!(composed(&outer, outer_names, &inner, inner_names), Ok(vec![spin, wash]));
///
/// // Too little working memory: nothing is written, and the refusal says how much is needed.
/// let (mut result, mut added, mut work) = ([0; 2 * WIDTH], [0; 2], [0; 9]);
/// let (outer, inner) = (table_of(&outer), table_of(&inner));
/// let refusal = compose_with(outer, 1, outer_names, inner, inner_names, &mut result, &mut added, &mut work);
/// assert_eq!(refusal, Err(Refusal::NoRoom { needed: 10 }));
/// ```
///
/// # Errors
/// As [`compose`], and after all of these [`NoRoom`](Refusal::NoRoom) if `work` has fewer than [`work_places`] places, with that
/// number. The number tells which list is too short: for `added` it is the count of outer names, and for `work` it is larger. A
/// refusal leaves `work` as it was.
// One more than clippy's seven: what compose takes, in its order, and the working memory.
#[allow(clippy::too_many_arguments)]
pub fn compose_with(
    outer: &[u32],
    outer_sources: u32,
    outer_names: Names<'_>,
    inner: &[u32],
    inner_names: Names<'_>,
    result: &mut [u32],
    added: &mut [u32],
    work: &mut [u32],
) -> Result<Composed, Refusal> {
    // SAFETY: each slice is lent with its own pointer and length for the call; the three that are written overlap nothing.
    let c = unsafe {
        raw::pgk_compose_with(
            outer.as_ptr(),
            outer.len(),
            outer_sources,
            outer_names.text.as_ptr(),
            outer_names.text.len(),
            outer_names.ends.as_ptr(),
            outer_names.ends.len(),
            inner.as_ptr(),
            inner.len(),
            inner_names.text.as_ptr(),
            inner_names.text.len(),
            inner_names.ends.as_ptr(),
            inner_names.ends.len(),
            result.as_mut_ptr(),
            result.len(),
            added.as_mut_ptr(),
            added.len(),
            work.as_mut_ptr(),
            work.len(),
        )
    };
    composed(c)
}

fn composed(c: raw::Composed) -> Result<Composed, Refusal> {
    match c.code {
        0 => Ok(Composed { added: c.added as usize }),
        code => Err(Refusal::new(code, c.number, None)),
    }
}

/// The name of a result id of [`compose`] or [`compose_with`], a part of one of the two texts; `None` for an id that does not
/// exist or a name list that is broken. Hand in the added names only, not the whole list that was lent.
///
/// ```
/// use peghayrick::{name_of, Names};
/// let inner = Names { text: b"spin", ends: &[4, 4] };
/// let outer = Names { text: b"washdry", ends: &[4, 7] };
/// assert_eq!(name_of(inner, outer, &[1], 0), Some(&b"spin"[..]));
/// assert_eq!(name_of(inner, outer, &[1], 1), Some(&b""[..]));
/// assert_eq!(name_of(inner, outer, &[1], 2), Some(&b"dry"[..]));
/// assert_eq!(name_of(inner, outer, &[1], 3), None);
/// ```
pub fn name_of<'a>(inner_names: Names<'a>, outer_names: Names<'a>, added: &[u32], id: u32) -> Option<&'a [u8]> {
    // SAFETY: each slice is lent with its own pointer and length for the call; none is written.
    let n = unsafe {
        raw::pgk_name_of(
            inner_names.text.as_ptr(),
            inner_names.text.len(),
            inner_names.ends.as_ptr(),
            inner_names.ends.len(),
            outer_names.text.as_ptr(),
            outer_names.text.len(),
            outer_names.ends.as_ptr(),
            outer_names.ends.len(),
            added.as_ptr(),
            added.len(),
            id,
        )
    };
    if n.found == 0 {
        return None;
    }
    let names = if n.outer == 0 { inner_names } else { outer_names };
    names.text.get(n.start as usize..n.end as usize)
}

/// What changed between two tables, as those of a bundle before and after an edit. Each is sorted by line and then by column;
/// tokens at one position may follow each other.
///
/// At one generated position the k-th token of `left` there is held against the k-th of `right` there, by their first six
/// numbers, as [`Token::same_mapping`] does: the segment is not compared. Each difference is a [`Change`]; they come in order of
/// position, and at one position by the place k. None mean that the first six numbers agree throughout. Another order among the
/// tokens at one position is a difference, of each place that differs.
///
/// `out` takes three numbers for each difference, and the numbers past them are kept. There are at most as many differences as
/// both tables have tokens, so `3 * (left.len() / WIDTH + right.len() / WIDTH)` numbers are always enough; or lend none, and
/// [`NoRoom`](Refusal::NoRoom) says how many are needed.
///
/// ```
/// use peghayrick::{compare_tables, table_of, Change, Refusal, Token};
/// let lyse = Token::new(0, 0, 2, 0, Some(0), Some(0));
/// let wash = Token::new(0, 11, 3, 0, Some(0), Some(1));
/// let elute = Token::new(1, 0, 4, 0, Some(0), Some(2));
///
/// // A second wash was put in behind the first, so the elution stands a line further down in the source.
/// let old = [lyse, wash, elute];
/// let new = [lyse, wash, Token::new(0, 22, 4, 0, Some(0), Some(1)), Token { src_line: 5, ..elute }];
/// let (old, new) = (table_of(&old), table_of(&new));
/// let mut out = [0; 3 * (3 + 4)];
/// let changes = compare_tables(old, new, &mut out)?;
/// assert!(changes.eq([Change::OnlyRight(2), Change::Different { left: 2, right: 3 }]));
///
/// // A table and itself need no room.
/// assert_eq!(compare_tables(old, old, &mut [])?.len(), 0);
///
/// // Too little room: nothing is written, and the refusal says how many numbers are needed.
/// assert_eq!(compare_tables(old, new, &mut out[..5]).unwrap_err(), Refusal::NoRoom { needed: 6 });
/// # Ok::<(), Refusal>(())
/// ```
///
/// # What is compared
/// Numbers. Two maps have ids by their own lists of sources and names: where the lists differ, bring both tables to shared ids
/// first, or a name that changed and kept its id is not seen, and one that stayed and has another id is a difference. The source
/// line and column of a token without a source say nothing and are compared too: decoding repeats there those of the latest token
/// with one, so set them to 0 in both tables. The example `changes` does both. A step that is put in moves all that stands
/// behind it on its line of the bundle, and each token that moved is a difference.
///
/// # Errors
/// In this order: [`BadTable`](Refusal::BadTable), left then right; [`Unsorted`](Refusal::Unsorted), left then right, if a token
/// stands before the one before it, with the index of the first that does; [`NoRoom`](Refusal::NoRoom) if `out` has fewer than
/// three numbers for each difference, with the numbers that are needed. A refusal writes nothing.
///
/// Of which table the first two are is not said: it is `left` where `compare_tables` of `left` and `left` gives the same, and
/// else `right`. A decoded table is sorted by line always, and by column where the bundler wrote columns that do not fall, as all
/// usual ones do.
pub fn compare_tables<'a>(left: &[u32], right: &[u32], out: &'a mut [u32]) -> Result<Changes<'a>, Refusal> {
    // SAFETY: each slice is lent with its own pointer and length for the call; the one that is written overlaps nothing.
    let c = unsafe { raw::pgk_compare(left.as_ptr(), left.len(), right.as_ptr(), right.len(), out.as_mut_ptr(), out.len()) };
    match c.code {
        0 => Ok(Changes::new(out, c.entries as usize)),
        code => Err(Refusal::new(code, c.number, None)),
    }
}

// The examples of these pages run as doc tests.
#[cfg(doctest)]
#[doc = include_str!("../README.md")]
struct Readme;
#[cfg(doctest)]
#[doc = include_str!("../../../docs/MIGRATION.md")]
struct Migration;
