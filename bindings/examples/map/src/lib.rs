//! A source map as JSON over the mapping core: what `SourceMap::from_json_string`, `lookup_source_view_token` and
//! `to_json_string` of oxc_sourcemap 9.0.0 did. An example to take and change.
//!
//! Differences from the crate: values are taken as ECMA-426 has them, and numbers that leave 32 bits are refused (checked
//! mode); a position whose token has no source has no step, where the crate hands out a token with a source position that
//! means nothing; strings are owned.
//!
//! ```
//! use peghayrick_map::{Map, Step};
//! let json = r#"{"version":3,"sources":["wash.js"],"names":["spin"],"mappings":"AAEGA;C;"}"#;
//! let map = Map::from_json_string(json)?;
//! let step = Step { source: "wash.js", line: 2, column: 3, name: Some("spin"), mappings: ["", "AAEGA", ""] };
//! assert_eq!(map.lookup(0, 7)?, Some(step));
//! assert_eq!(map.lookup(1, 7)?, None);
//! assert_eq!(map.to_json_string()?, r#"{"version":3,"names":["spin"],"sources":["wash.js"],"mappings":"AAEGA;C"}"#);
//! # Ok::<(), peghayrick_map::Error>(())
//! ```

use peghayrick::{decode_mapping, lookup_token, serialize_mappings, table_size, tokens_of, Refusal, Token, TokenChunk, WIDTH};
use serde::{Deserialize, Serialize};
use std::fmt;

/// A source map: its lists, its mappings as they were read, and the table of their tokens.
#[derive(Debug, Clone, PartialEq, Eq)]
pub struct Map {
    /// The name of the generated file.
    pub file: Option<String>,
    /// What a reader puts before each source. It is kept, and not put before [`Step::source`].
    pub source_root: Option<String>,
    /// The sources, as the map lists them.
    pub sources: Vec<String>,
    /// The text of each source, where the map has it.
    pub sources_content: Vec<Option<String>>,
    /// The names.
    pub names: Vec<String>,
    /// The ids of sources that a debugger may skip.
    pub ignore_list: Option<Vec<u32>>,
    /// The id that ties the map to its file.
    pub debug_id: Option<String>,
    text: String,
    table: Vec<u32>,
}

/// Where a generated position comes from. Line and column count from 0, the column in UTF-16 units.
#[derive(Debug, Clone, Copy, PartialEq, Eq)]
pub struct Step<'a> {
    /// The source, as the map lists it.
    pub source: &'a str,
    /// The line in the source.
    pub line: u32,
    /// The column in the source.
    pub column: u32,
    /// The name, where the token has one.
    pub name: Option<&'a str>,
    /// The line of mappings that says so, from `;` to `;`: what stands before the token's segment, the segment, and what stands
    /// behind it.
    pub mappings: [&'a str; 3],
}

/// The line of mappings that a segment stands in, cut before and behind it.
fn around(text: &str, segment: usize) -> Option<[&str; 3]> {
    let (before, rest) = text.split_at_checked(segment)?;
    let rest = rest.split(';').next()?;
    let (segment, behind) = rest.split_at(rest.find(',').unwrap_or(rest.len()));
    Some([before.rsplit(';').next()?, segment, behind])
}

/// Why a map was not taken, or not written.
#[derive(Debug)]
pub enum Error {
    /// The text is not JSON, or not of this shape. An index map has `sections` in place of `mappings`, and lands here.
    Json(serde_json::Error),
    /// The version is not 3.
    Version(u64),
    /// The ignore list names a source that is not listed.
    IgnoreList(u32),
    /// There are more sources or names than ids.
    TooMany,
    /// The mapping core refused: a damaged map.
    Refused(Refusal),
}

impl fmt::Display for Error {
    fn fmt(&self, f: &mut fmt::Formatter<'_>) -> fmt::Result {
        match self {
            Error::Json(why) => write!(f, "the map cannot be read: {why}"),
            Error::Version(version) => write!(f, "the map has version {version}, not 3"),
            Error::IgnoreList(id) => write!(f, "the map's ignoreList has source {id}, which the map does not list"),
            Error::TooMany => write!(f, "the map lists more than 4294967295 sources or names"),
            Error::Refused(refusal) => write!(f, "{refusal}"),
        }
    }
}

impl std::error::Error for Error {
    fn source(&self) -> Option<&(dyn std::error::Error + 'static)> {
        match self {
            Error::Json(why) => Some(why),
            Error::Refused(refusal) => Some(refusal),
            _ => None,
        }
    }
}

impl From<serde_json::Error> for Error {
    fn from(why: serde_json::Error) -> Self {
        Error::Json(why)
    }
}

impl From<Refusal> for Error {
    fn from(refusal: Refusal) -> Self {
        Error::Refused(refusal)
    }
}

/// The JSON that is read.
#[derive(Deserialize)]
#[serde(rename_all = "camelCase")]
struct Read {
    version: u64,
    file: Option<String>,
    source_root: Option<String>,
    sources: Vec<String>,
    sources_content: Option<Vec<Option<String>>>,
    #[serde(default)]
    names: Vec<String>,
    mappings: String,
    ignore_list: Option<Vec<u32>>,
    // Taken only where ignoreList is missing or null; else it may be anything.
    #[serde(rename = "x_google_ignoreList")]
    x_google_ignore_list: Option<serde_json::Value>,
    debug_id: Option<String>,
}

/// The JSON that is written, in the crate's order.
#[derive(Serialize)]
#[serde(rename_all = "camelCase")]
struct Written<'a> {
    version: u64,
    #[serde(skip_serializing_if = "Option::is_none")]
    file: Option<&'a str>,
    #[serde(skip_serializing_if = "Option::is_none")]
    source_root: Option<&'a str>,
    names: &'a [String],
    sources: &'a [String],
    #[serde(skip_serializing_if = "Option::is_none")]
    sources_content: Option<&'a [Option<String>]>,
    #[serde(skip_serializing_if = "Option::is_none")]
    ignore_list: Option<&'a [u32]>,
    mappings: &'a str,
    #[serde(skip_serializing_if = "Option::is_none")]
    debug_id: Option<&'a str>,
}

impl Map {
    /// Reads a map and decodes its mappings, in checked mode.
    ///
    /// # Errors
    /// Each [`Error`].
    pub fn from_json_string(json: &str) -> Result<Self, Error> {
        let read: Read = serde_json::from_str(json)?;
        if read.version != 3 {
            return Err(Error::Version(read.version));
        }
        let ignore_list = match (read.ignore_list, read.x_google_ignore_list) {
            (None, Some(list)) => Some(serde_json::from_value(list)?),
            (list, _) => list,
        };
        let listed = |id: &u32| (*id as usize) < read.sources.len();
        if let Some(&id) = ignore_list.iter().flatten().find(|id| !listed(id)) {
            return Err(Error::IgnoreList(id));
        }
        let count = |list: &[String]| u32::try_from(list.len()).map_err(|_| Error::TooMany);

        let text = read.mappings.as_bytes();
        let mut table = vec![0; table_size(text)];
        // It names no mode, so it is checked.
        let decoded = decode_mapping(text, count(&read.sources)?, count(&read.names)?, &mut table)?;
        table.truncate(WIDTH * decoded.tokens);
        Ok(Map {
            file: read.file,
            source_root: read.source_root,
            sources: read.sources,
            sources_content: read.sources_content.unwrap_or_default(),
            names: read.names,
            ignore_list,
            debug_id: read.debug_id,
            text: read.mappings,
            table,
        })
    }

    /// The tokens, in the order of the mappings. Their segments are offsets into the mappings as they were read.
    pub fn tokens(&self) -> &[Token] {
        tokens_of(&self.table)
    }

    /// Where a generated position comes from; `None` where no token stands at or before it on its line, or the token has no
    /// source. Each call reads the line of every token.
    ///
    /// # Errors
    /// [`Error::Refused`], which no table that was decoded brings about.
    pub fn lookup(&self, line: u32, column: u32) -> Result<Option<Step<'_>>, Error> {
        let token = lookup_token(&self.table, line, column)?;
        Ok(token.and_then(|token| {
            Some(Step {
                source: self.sources.get(token.get_source_id()? as usize)?,
                line: token.src_line,
                column: token.src_col,
                name: token.get_name_id().and_then(|id| self.names.get(id as usize)).map(String::as_str),
                mappings: around(&self.text, token.segment()? as usize)?,
            })
        }))
    }

    /// The mappings. They are those that were read, but for `;` at the end and empty segments, of which no token tells. A step
    /// of -2^31, which minus zero is, is written as a value that checked mode refuses.
    ///
    /// # Errors
    /// [`Error::Refused`], which no table that was decoded brings about.
    pub fn mappings(&self) -> Result<String, Error> {
        let chunk = TokenChunk::first(self.tokens().len() as u32);
        let mut out = Vec::new();
        // Lent no bytes, the refusal says how many are needed.
        if let Err(Refusal::NoRoom { needed }) = serialize_mappings(&self.table, chunk, &mut out) {
            out.resize(needed as usize, 0);
        }
        serialize_mappings(&self.table, chunk, &mut out)?;
        Ok(out.into_iter().map(char::from).collect())
    }

    /// The map as JSON. Contents are left out where there are none.
    ///
    /// # Errors
    /// As [`Map::mappings`].
    pub fn to_json_string(&self) -> Result<String, Error> {
        let written = Written {
            version: 3,
            file: self.file.as_deref(),
            source_root: self.source_root.as_deref(),
            names: &self.names,
            sources: &self.sources,
            sources_content: self.sources_content.iter().any(Option::is_some).then_some(&self.sources_content),
            ignore_list: self.ignore_list.as_deref(),
            mappings: &self.mappings()?,
            debug_id: self.debug_id.as_deref(),
        };
        Ok(serde_json::to_string(&written)?)
    }
}
