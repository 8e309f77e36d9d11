//! Tokens, positions, chunks and tables.

use core::mem::{align_of, size_of, size_of_val};
use core::{fmt, slice};

/// As an id, a segment or an index that [`lookup_many`](crate::lookup_many), [`lookup_many_quick`](crate::lookup_many_quick) or
/// [`compare_tables`](crate::compare_tables) wrote: none.
pub const NONE: u32 = u32::MAX;

/// How many numbers a token has in a table.
pub const WIDTH: usize = 7;

/// One mapping: a generated position, a source position, and the ids of a source and a name, [`NONE`] for none; and where its
/// [`segment`](Token::segment) begins. Lines and columns count from 0, columns in UTF-16 units.
///
/// Where there is no source, the source line and column say nothing and must not be shown.
///
/// Tokens are equal where all seven numbers are. What is written and read again has other segments: compare that by
/// [`same_mapping`](Token::same_mapping).
///
/// ```
/// use peghayrick::Token;
/// let token = Token::new(0, 9, 2, 3, Some(0), None);
/// assert_eq!(
///     format!("{token:?}"),
///     "Token { dst_line: 0, dst_col: 9, src_line: 2, src_col: 3, source_id: Some(0), name_id: None, segment: None }"
/// );
/// assert_eq!(Token::default(), Token::new(0, 0, 0, 0, None, None));
/// ```
#[repr(C)]
#[derive(Clone, Copy, PartialEq, Eq, Hash)]
pub struct Token {
    /// The generated line.
    pub dst_line: u32,
    /// The generated column.
    pub dst_col: u32,
    /// The source line; of no meaning without a source.
    pub src_line: u32,
    /// The source column; of no meaning without a source.
    pub src_col: u32,
    /// The source id, or [`NONE`].
    pub source_id: u32,
    /// The name id, or [`NONE`].
    pub name_id: u32,
    /// Where its segment begins, a byte of the text that it was decoded from, or [`NONE`].
    pub segment: u32,
}

/// A number that may be none, as a token holds it.
const fn raw(number: Option<u32>) -> u32 {
    match number {
        Some(number) => number,
        None => NONE,
    }
}

impl Token {
    /// A token without a segment. An id of `Some(4294967295)` is none too.
    pub const fn new(
        dst_line: u32,
        dst_col: u32,
        src_line: u32,
        src_col: u32,
        source_id: Option<u32>,
        name_id: Option<u32>,
    ) -> Self {
        Self { dst_line, dst_col, src_line, src_col, source_id: raw(source_id), name_id: raw(name_id), segment: NONE }
    }

    /// The token with this segment. `Some(4294967295)` is none too.
    ///
    /// ```
    /// use peghayrick::{table_of, Token, NONE};
    /// let token = Token::new(1, 2, 3, 4, Some(5), None).with_segment(Some(6));
    /// assert_eq!(table_of(&[token]), [1, 2, 3, 4, 5, NONE, 6]);
    /// ```
    pub const fn with_segment(self, segment: Option<u32>) -> Self {
        Self { segment: raw(segment), ..self }
    }

    /// The generated line.
    pub const fn get_dst_line(&self) -> u32 {
        self.dst_line
    }

    /// The generated column.
    pub const fn get_dst_col(&self) -> u32 {
        self.dst_col
    }

    /// The source line; of no meaning without a source.
    pub const fn get_src_line(&self) -> u32 {
        self.src_line
    }

    /// The source column; of no meaning without a source.
    pub const fn get_src_col(&self) -> u32 {
        self.src_col
    }

    /// The source id, if there is one.
    pub const fn get_source_id(&self) -> Option<u32> {
        if self.source_id == NONE {
            None
        } else {
            Some(self.source_id)
        }
    }

    /// The name id, if there is one.
    pub const fn get_name_id(&self) -> Option<u32> {
        if self.name_id == NONE {
            None
        } else {
            Some(self.name_id)
        }
    }

    /// Where its segment begins, if that is known: a byte of the text that the token was decoded from. The bytes from there
    /// up to the next `,` or `;` or the text's end gave the token.
    ///
    /// Joined tables hold offsets into the text of each part, and a composed one into the outer map's: see the crate's page,
    /// under Segments.
    ///
    /// ```
    /// use peghayrick::{decode_mapping, lookup_token, Refusal, WIDTH};
    /// let text = b"AAEG,EAAC;C";
    /// let mut table = [0; 3 * WIDTH];
    /// decode_mapping(text, 1, 0, &mut table)?;
    ///
    /// let segment = lookup_token(&table, 0, 7)?.and_then(|token| token.segment());
    /// assert_eq!(segment, Some(5));
    /// let piece = text[5..].split(|byte| b",;".contains(byte)).next();
    /// assert_eq!(piece, Some(&b"EAAC"[..]));
    /// # Ok::<(), Refusal>(())
    /// ```
    pub const fn segment(&self) -> Option<u32> {
        if self.segment == NONE {
            None
        } else {
            Some(self.segment)
        }
    }

    /// Whether both say the same, wherever they were read: all numbers are equal but for the segment.
    ///
    /// ```
    /// use peghayrick::Token;
    /// let token = Token::new(0, 9, 2, 3, Some(0), None);
    /// assert!(token.same_mapping(&token.with_segment(Some(5))));
    /// assert!(token != token.with_segment(Some(5)));
    /// ```
    pub const fn same_mapping(&self, other: &Self) -> bool {
        self.dst_line == other.dst_line
            && self.dst_col == other.dst_col
            && self.src_line == other.src_line
            && self.src_col == other.src_col
            && self.source_id == other.source_id
            && self.name_id == other.name_id
    }
}

/// At 0, 0, without a source, a name and a segment. Zeros alone would be a token of source 0.
impl Default for Token {
    fn default() -> Self {
        Self::new(0, 0, 0, 0, None, None)
    }
}

/// The fields, ids and the segment as `None` or `Some(n)`.
impl fmt::Debug for Token {
    fn fmt(&self, f: &mut fmt::Formatter<'_>) -> fmt::Result {
        f.debug_struct("Token")
            .field("dst_line", &self.dst_line)
            .field("dst_col", &self.dst_col)
            .field("src_line", &self.src_line)
            .field("src_col", &self.src_col)
            .field("source_id", &self.get_source_id())
            .field("name_id", &self.get_name_id())
            .field("segment", &self.segment())
            .finish()
    }
}

/// A generated position, as [`lookup_many`](crate::lookup_many) and [`lookup_many_quick`](crate::lookup_many_quick) are asked
/// for it. Line and column count from 0, the column in UTF-16 units.
///
/// ```
/// use peghayrick::Position;
/// // Column 32 of line 3, as JavaScript engines count: from 1.
/// let stop = Position { line: 3 - 1, col: 32 - 1 };
/// assert_eq!(stop, Position::new(2, 31));
/// ```
#[repr(C)]
#[derive(Debug, Clone, Copy, Default, PartialEq, Eq, Hash)]
pub struct Position {
    /// The generated line.
    pub line: u32,
    /// The generated column.
    pub col: u32,
}

impl Position {
    /// A position: the line, then the column.
    pub const fn new(line: u32, col: u32) -> Self {
        Self { line, col }
    }
}

/// A part of a table that is written at once, and the numbers that its first token is written against.
#[repr(C)]
#[derive(Debug, Clone, Copy, Default, PartialEq, Eq)]
pub struct TokenChunk {
    /// The first token.
    pub start: u32,
    /// The token past the last.
    pub end: u32,
    /// The generated line before.
    pub prev_dst_line: u32,
    /// The generated column before.
    pub prev_dst_col: u32,
    /// The source line before.
    pub prev_src_line: u32,
    /// The source column before.
    pub prev_src_col: u32,
    /// The name id before.
    pub prev_name_id: u32,
    /// The source id before.
    pub prev_source_id: u32,
}

impl TokenChunk {
    /// A chunk.
    #[allow(clippy::too_many_arguments)]
    pub const fn new(
        start: u32,
        end: u32,
        prev_dst_line: u32,
        prev_dst_col: u32,
        prev_src_line: u32,
        prev_src_col: u32,
        prev_name_id: u32,
        prev_source_id: u32,
    ) -> Self {
        Self { start, end, prev_dst_line, prev_dst_col, prev_src_line, prev_src_col, prev_name_id, prev_source_id }
    }

    /// The first chunk of a table, up to token `end`.
    pub const fn first(end: u32) -> Self {
        Self::new(0, end, 0, 0, 0, 0, 0, 0)
    }
}

// What the casts below rest on.
const _: () = assert!(size_of::<Token>() == WIDTH * size_of::<u32>() && align_of::<Token>() == align_of::<u32>());
const _: () = assert!(size_of::<Position>() == 2 * size_of::<u32>() && align_of::<Position>() == align_of::<u32>());

/// The tokens of a table; numbers past the last whole token are left out.
///
/// ```
/// use peghayrick::{tokens_of, Token, NONE};
/// assert_eq!(tokens_of(&[1, 2, 3, 4, NONE, NONE, NONE, 8]), [Token::new(1, 2, 3, 4, None, None)]);
/// ```
pub fn tokens_of(table: &[u32]) -> &[Token] {
    // SAFETY: a Token is WIDTH u32 in a row, aligned as they are; so many whole tokens lie within the slice.
    unsafe { slice::from_raw_parts(table.as_ptr().cast(), table.len() / WIDTH) }
}

/// Tokens as a table.
///
/// ```
/// use peghayrick::{table_of, Token, NONE};
/// assert_eq!(table_of(&[Token::new(1, 2, 3, 4, Some(5), None)]), [1, 2, 3, 4, 5, NONE, NONE]);
/// ```
pub fn table_of(tokens: &[Token]) -> &[u32] {
    // SAFETY: a Token is WIDTH u32 in a row, aligned as they are; the bytes are the same.
    unsafe { slice::from_raw_parts(tokens.as_ptr().cast(), size_of_val(tokens) / size_of::<u32>()) }
}

/// Tokens as a table to write to.
///
/// ```
/// use peghayrick::{decode_mapping, table_of_mut, Token};
/// let mut tokens = [Token::new(0, 0, 0, 0, None, None); 8];
/// let decoded = decode_mapping(b"C", 0, 0, table_of_mut(&mut tokens))?;
/// assert_eq!((decoded.tokens, tokens[0].dst_col, tokens[0].segment()), (1, 1, Some(0)));
/// # Ok::<(), peghayrick::Refusal>(())
/// ```
pub fn table_of_mut(tokens: &mut [Token]) -> &mut [u32] {
    // SAFETY: as in table_of; any WIDTH u32 are a Token.
    unsafe { slice::from_raw_parts_mut(tokens.as_mut_ptr().cast(), size_of_val(tokens) / size_of::<u32>()) }
}

/// The part of a table that a decode wrote: its first `tokens` tokens, or all that it has.
///
/// ```
/// use peghayrick::written;
/// assert_eq!(written(&[1, 2, 3, 4, 5, 6, 7, 8], 1), [1, 2, 3, 4, 5, 6, 7]);
/// assert_eq!(written(&[1, 2, 3, 4, 5, 6, 7, 8], 0), []);
/// ```
pub fn written(table: &[u32], tokens: usize) -> &[u32] {
    table.get(..tokens.saturating_mul(WIDTH)).unwrap_or(table)
}

/// Positions as pairs of numbers, a line and its column after it.
pub(crate) fn pairs_of(positions: &[Position]) -> &[u32] {
    // SAFETY: a Position is two u32 in a row, aligned as they are; the bytes are the same.
    unsafe { slice::from_raw_parts(positions.as_ptr().cast(), size_of_val(positions) / size_of::<u32>()) }
}
