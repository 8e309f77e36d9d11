//! The refusals, with their codes and what to do about each.

use core::fmt;

/// Where a refused decode stopped.
#[derive(Debug, Clone, Copy, PartialEq, Eq)]
pub struct Stop {
    /// How many tokens were written: those before the refused segment.
    pub tokens: usize,
    /// The byte at fault: where a digit was due (VlqLeftover), the fourteenth digit (VlqOverflow), the first digit of the field
    /// that falls below 0, refers to nothing or is too wide, or the first digit of the segment (a wrong count, TooBig, TableFull).
    /// The refused segment begins behind the last `,` or `;` before it, or with the text where there is none.
    pub offset: usize,
}

/// Why a call was refused. The codes are 1 to 14, 17 and 22, in this order; later versions may have more.
///
/// `Display` says what is wrong, where, and what to do; [`words`](Refusal::words) is one fixed sentence a code:
///
/// ```
/// use peghayrick::decode_mapping;
/// let mut table = [0u32; 60];
/// let refusal = decode_mapping(b"AAAA,AAA", 1, 0, &mut table).unwrap_err();
/// assert_eq!(refusal.code(), 3);
/// assert_eq!(refusal.number(), 3);
/// assert_eq!(
///     refusal.to_string(),
///     "the map is damaged at byte 5: a segment has 3 fields, not 1, 4 or 5 (BadSegmentSize, 1 token before it); \
///      do not use this map: build the bundle and its map again and load both"
/// );
/// ```
#[derive(Debug, Clone, Copy, PartialEq, Eq)]
#[non_exhaustive]
pub enum Refusal {
    /// 1: a value is cut short.
    VlqLeftover {
        /// Where the decode stopped.
        at: Stop,
    },
    /// 2: a value has a fourteenth digit.
    VlqOverflow {
        /// Where the decode stopped.
        at: Stop,
    },
    /// 3: a segment has not 1, 4 or 5 fields, or a column or line falls below 0.
    BadSegmentSize {
        /// The field count modulo 2^32, or 0 for a column or line below 0.
        fields: u32,
        /// Where the decode stopped.
        at: Stop,
    },
    /// 4: a segment refers to a source that is not listed.
    BadSourceReference {
        /// The source id before this segment.
        source_id: u32,
        /// Where the decode stopped.
        at: Stop,
    },
    /// 5: a segment refers to a name that is not listed.
    BadNameReference {
        /// The new name id, modulo 2^32.
        name_id: u32,
        /// Where the decode stopped.
        at: Stop,
    },
    /// 6: a number is too wide (not in lenient mode): a value of magnitude 2^31 or more in one of a segment's first five fields,
    /// a column, line or name id of 2^32 or more, or a name id below 0.
    WideValue {
        /// The field: 0 generated column, 1 source, 2 source line, 3 source column, 4 name.
        field: u32,
        /// Where the decode stopped.
        at: Stop,
    },
    /// 7: the table has too few places.
    TableFull {
        /// Where the decode stopped; `None` from [`compose`](crate::compose) and [`compose_with`](crate::compose_with).
        at: Option<Stop>,
    },
    /// 8: the output, the list of added names, the working memory of [`compose_with`](crate::compose_with), the list of found
    /// indices or that of [`compare_tables`](crate::compare_tables) is too short.
    NoRoom {
        /// How many places are needed.
        needed: u64,
    },
    /// 9: a token is on a line below that of the token before it.
    LineGoesBack {
        /// The index of the first such token, from the table's start.
        index: u64,
    },
    /// 10: not start ≤ end ≤ token count.
    BadChunk,
    /// 11: the table's length is not a multiple of [`WIDTH`](crate::WIDTH), or it has more than 4,294,967,294 tokens.
    BadTable,
    /// 12: a translated line or id leaves its range, or a decoded segment begins at byte 4,294,967,295 or later, where no
    /// token can say so.
    TooBig {
        /// The index of the first such token.
        index: u64,
        /// Where the decode stopped; `None` from [`translate`](crate::translate).
        at: Option<Stop>,
    },
    /// 13: the outer map has more than one source.
    MoreThanOneSource,
    /// 14: a name list's ends fall or pass its text, or it has more than 2,147,483,647 names.
    BadNames,
    /// 17: the list of positions has an odd length. No function of the crate gives it, since
    /// [`lookup_many`](crate::lookup_many) and [`lookup_many_quick`](crate::lookup_many_quick) take whole positions; their forms
    /// in [`raw`](crate::raw) answer with this code.
    OddList,
    /// 22: a table that is compared is not sorted by generated line and then column. It is the left one where
    /// [`compare_tables`](crate::compare_tables) of that table with itself is refused so too, and else the right one.
    Unsorted {
        /// The index of the first token that stands before the one before it.
        index: u64,
    },
    /// Another code: the archive that was linked is not of this crate's version.
    Unknown {
        /// The code.
        code: u64,
        /// The number with it.
        number: u64,
    },
}

use Refusal::*;

impl Refusal {
    /// The refusal with this code and number; `at` from a decode only.
    pub(crate) fn new(code: u64, number: u64, at: Option<Stop>) -> Self {
        // The numbers with codes 3 to 6 fit into 32 bits.
        let short = number as u32;
        match (code, at) {
            (1, Some(at)) => VlqLeftover { at },
            (2, Some(at)) => VlqOverflow { at },
            (3, Some(at)) => BadSegmentSize { fields: short, at },
            (4, Some(at)) => BadSourceReference { source_id: short, at },
            (5, Some(at)) => BadNameReference { name_id: short, at },
            (6, Some(at)) => WideValue { field: short, at },
            (7, at) => TableFull { at },
            (8, None) => NoRoom { needed: number },
            (9, None) => LineGoesBack { index: number },
            (10, None) => BadChunk,
            (11, None) => BadTable,
            (12, at) => TooBig { index: number, at },
            (13, None) => MoreThanOneSource,
            (14, None) => BadNames,
            (17, None) => OddList,
            (22, None) => Unsorted { index: number },
            _ => Unknown { code, number },
        }
    }

    /// The code: 1 to 14, 17 or 22.
    pub const fn code(&self) -> u64 {
        match *self {
            VlqLeftover { .. } => 1,
            VlqOverflow { .. } => 2,
            BadSegmentSize { .. } => 3,
            BadSourceReference { .. } => 4,
            BadNameReference { .. } => 5,
            WideValue { .. } => 6,
            TableFull { .. } => 7,
            NoRoom { .. } => 8,
            LineGoesBack { .. } => 9,
            BadChunk => 10,
            BadTable => 11,
            TooBig { .. } => 12,
            MoreThanOneSource => 13,
            BadNames => 14,
            OddList => 17,
            Unsorted { .. } => 22,
            Unknown { code, .. } => code,
        }
    }

    /// What the code says and what to do about it, one sentence a code, without a full stop: the C header's `pgk_words`.
    ///
    /// ```
    /// use peghayrick::Refusal;
    /// assert_eq!(
    ///     Refusal::NoRoom { needed: 9 }.words(),
    ///     "there is too little room: lend as many places as the number says and call again"
    /// );
    /// ```
    pub const fn words(&self) -> &'static str {
        match self {
            OddList => WORDS[14],
            Unsorted { .. } => WORDS[15],
            Unknown { .. } => WORDS[16],
            known => WORDS[known.code() as usize - 1],
        }
    }

    /// The number with the code; 0 where there is none.
    pub const fn number(&self) -> u64 {
        match *self {
            BadSegmentSize { fields: n, .. }
            | BadSourceReference { source_id: n, .. }
            | BadNameReference { name_id: n, .. }
            | WideValue { field: n, .. } => n as u64,
            NoRoom { needed: n }
            | LineGoesBack { index: n }
            | TooBig { index: n, .. }
            | Unsorted { index: n }
            | Unknown { number: n, .. } => n,
            VlqLeftover { .. }
            | VlqOverflow { .. }
            | TableFull { .. }
            | BadChunk
            | BadTable
            | MoreThanOneSource
            | BadNames
            | OddList => 0,
        }
    }

    /// Where a decode stopped; `None` for every other call.
    pub const fn at(&self) -> Option<Stop> {
        match *self {
            VlqLeftover { at }
            | VlqOverflow { at }
            | BadSegmentSize { at, .. }
            | BadSourceReference { at, .. }
            | BadNameReference { at, .. }
            | WideValue { at, .. } => Some(at),
            TableFull { at } | TooBig { at, .. } => at,
            _ => None,
        }
    }

    /// The name, as `VlqLeftover`.
    pub const fn name(&self) -> &'static str {
        match self {
            VlqLeftover { .. } => "VlqLeftover",
            VlqOverflow { .. } => "VlqOverflow",
            BadSegmentSize { .. } => "BadSegmentSize",
            BadSourceReference { .. } => "BadSourceReference",
            BadNameReference { .. } => "BadNameReference",
            WideValue { .. } => "WideValue",
            TableFull { .. } => "TableFull",
            NoRoom { .. } => "NoRoom",
            LineGoesBack { .. } => "LineGoesBack",
            BadChunk => "BadChunk",
            BadTable => "BadTable",
            TooBig { .. } => "TooBig",
            MoreThanOneSource => "MoreThanOneSource",
            BadNames => "BadNames",
            OddList => "OddList",
            Unsorted { .. } => "Unsorted",
            Unknown { .. } => "Unknown",
        }
    }
}

/// What the codes 1 to 14, 17 and 22 say and what to do about each: `pgk_words` of the C header. The last is for an unknown code.
const WORDS: [&str; 17] = [
    "a value is cut short: do not use this map, build the bundle and its map again and load both",
    "a value has more than 13 digits: do not use this map, build the bundle and its map again and load both",
    "a segment has not 1, 4 or 5 fields, or a column or line falls below 0: do not use this map, build the bundle and its map again and load both",
    "a segment refers to a source that the map does not list: hand in the count of sources first and that of names second; if they are right, do not use this map, build the bundle and its map again and load both",
    "a segment refers to a name that the map does not list: hand in the count of sources first and that of names second; if they are right, do not use this map, build the bundle and its map again and load both",
    "a number does not fit into 32 bits: do not use this map, build the bundle and its map again and load both",
    "the table has too few places: lend as many numbers as table_size counts for the text, or to compose as many as the outer table has",
    "there is too little room: lend as many places as the number says and call again",
    "a token is on a line below that of the token before it: sort the tokens by generated line, or begin the chunk with the state that the chunk before it returned",
    "the chunk does not lie within the table: its start must be at most its end, and its end at most the number of tokens",
    "the table does not hold whole tokens, or holds more than 4294967294: hand in WIDTH numbers a token, and only the tokens that were written",
    "a line or an id would become too large, or a segment begins at byte 4294967295 or later: to translate, use smaller offsets or join fewer maps (nothing was moved); to decode, build the bundle in parts, each with its own map",
    "the outer map has more than one source: compose only a map of a single input with that input's map",
    "a name list is broken: its ends must not fall, the last must lie within the text, and at most 2147483647 names are taken",
    "the list of positions has an odd length: hand in two numbers for each position, its line first and then its column",
    "a table is not sorted by generated line and then column: sort its tokens, and keep the order of those at one position; it is the left table where that compared with itself gives this code too, and else the right one",
    "the code is unknown: link the libpeghayrick.a that belongs to this version",
];

/// What a damaged map calls for.
const AGAIN: &str = "do not use this map: build the bundle and its map again and load both";

impl fmt::Display for Refusal {
    fn fmt(&self, f: &mut fmt::Formatter<'_>) -> fmt::Result {
        let name = self.name();
        if let (code @ 1..=6, Some(at)) = (self.code(), self.at()) {
            write!(f, "the map is damaged at byte {}: ", at.offset)?;
            match (code, self.number()) {
                (1, _) => f.write_str("a value is cut short")?,
                (2, _) => f.write_str("a value has more than 13 digits")?,
                (3, 0) => f.write_str("a column or line falls below 0")?,
                (3, n) => write!(f, "a segment has {n} field{}, not 1, 4 or 5", if n == 1 { "" } else { "s" })?,
                (4, n) => write!(f, "a segment refers to a source that the map does not list (the source before it is {n})")?,
                (5, n) => write!(f, "a segment refers to name {n}, which the map does not list")?,
                (_, 0) => f.write_str("a generated column or the step to it does not fit into 32 bits")?,
                (_, 1) => f.write_str("the step to a source does not fit into 32 bits")?,
                (_, 2) => f.write_str("a source line or the step to it does not fit into 32 bits")?,
                (_, 3) => f.write_str("a source column or the step to it does not fit into 32 bits")?,
                (_, 4) => f.write_str("a name id or the step to it does not fit into 32 bits")?,
                (_, n) => write!(f, "field {n} of a segment does not fit into 32 bits")?,
            }
            let s = if at.tokens == 1 { "" } else { "s" };
            return write!(f, " ({name}, {} token{s} before it); {AGAIN}", at.tokens);
        }
        match self {
            TableFull { at: Some(at) } => {
                write!(f, "the table is full after {} tokens, at byte {} of the map ({name}); lend as many numbers as table_size counts and decode again", at.tokens, at.offset)
            }
            TableFull { at: None } => write!(f, "the result table has fewer places than the outer map has tokens ({name}); lend one as long as the outer table"),
            NoRoom { needed } => write!(f, "there is too little room: {needed} places are needed ({name}); lend so many and call again"),
            LineGoesBack { index } => {
                write!(f, "token {index} is on a line below that of the token before it ({name}); sort the tokens by generated line, or begin the chunk with the state that the chunk before it returned")
            }
            BadChunk => write!(f, "the chunk does not lie within the table ({name}); its start must be at most its end, and its end at most the number of tokens"),
            BadTable => write!(f, "the table does not hold whole tokens, or more than 4294967294 of them ({name}); hand in WIDTH numbers a token, and only the tokens that were written"),
            TooBig { index, at: Some(at) } => {
                write!(f, "the map is too long: the segment of token {index} begins at byte {}, past 4294967294 ({name}); build the bundle in parts, each with its own map", at.offset)
            }
            TooBig { index, at: None } => write!(f, "the line or an id of token {index} becomes too large ({name}); nothing was moved: use smaller offsets, or join fewer maps"),
            MoreThanOneSource => write!(f, "the outer map has more than one source ({name}); only a map of a single input can be composed with that input's map"),
            BadNames => write!(f, "a name list is broken ({name}); its ends must not fall, the last must lie within the text, and at most 2147483647 names are taken"),
            OddList => write!(f, "the list of positions has an odd length ({name}); hand in two numbers for each position, its line first and then its column"),
            Unsorted { index } => {
                write!(f, "token {index} of a table stands before the token before it, by generated line and column ({name}); sort the tokens, and keep the order of those at one position: the left table's where that compared with itself is refused too, and else the right one's")
            }
            _ => write!(f, "unknown code {} with {}; link the libpeghayrick.a that belongs to this crate", self.code(), self.number()),
        }
    }
}

impl core::error::Error for Refusal {}

#[cfg(test)]
mod tests {
    extern crate std;
    use super::*;
    use std::string::ToString;

    /// Code 12 of both kinds. A text of 4 GiB, which a decode refuses so, is tried in bindings/tests/boundary.c.
    #[test]
    fn too_big() {
        let at = Stop { tokens: 3, offset: 4294967295 };
        let late = Refusal::new(12, 3, Some(at));
        assert_eq!(late, TooBig { index: 3, at: Some(at) });
        assert_eq!((late.code(), late.number(), late.at(), late.name()), (12, 3, Some(at), "TooBig"));
        assert!(late.to_string().contains("the segment of token 3 begins at byte 4294967295"));
        let moved = Refusal::new(12, 3, None);
        assert_eq!((moved.code(), moved.number(), moved.at(), moved.name()), (12, 3, None, "TooBig"));
        assert!(moved.to_string().contains("nothing was moved"));
    }

    /// Code 17, which no safe function gives. The codes around it and around 22 are unknown.
    #[test]
    fn odd_list() {
        let odd = Refusal::new(17, 0, None);
        assert_eq!(odd, OddList);
        assert_eq!((odd.code(), odd.number(), odd.at(), odd.name()), (17, 0, None, "OddList"));
        assert!(odd.to_string().starts_with("the list of positions has an odd length (OddList); "));
        for code in [15, 16, 18, 19, 20, 21, 23] {
            assert_eq!(Refusal::new(code, 3, None), Unknown { code, number: 3 });
        }
    }
}
