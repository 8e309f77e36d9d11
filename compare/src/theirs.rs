//! The crate, in its debug and its release build. It takes the model's tokens without the segment, and gives six numbers for each of
//! its own. A panic is an answer: `None`.

use std::borrow::Cow;
use std::collections::{BTreeMap, HashMap};
use std::panic::{AssertUnwindSafe, catch_unwind};

use crate::model::{self, Answer, NONE, Names, Six, Token, TokenChunk, answer};

pub const BUILDS: [Build; 2] = [
    Build {
        name: "debug",
        decode: debug::decode,
        encode: debug::encode,
        value: debug::value,
        translate: debug::translate,
        look: debug::look,
        compose: debug::compose,
        differ: debug::differ,
    },
    Build {
        name: "release",
        decode: release::decode,
        encode: release::encode,
        value: release::value,
        translate: release::translate,
        look: release::look,
        compose: release::compose,
        differ: release::differ,
    },
];

pub const RELEASE: Build = BUILDS[1];

/// The index of a token in one list, and of the other in the other.
pub type Indices = (Option<usize>, Option<usize>);

/// What the crate's lookups give: the clamping one, then the plain one.
pub type Looked = (Option<Six>, Option<Six>);

#[derive(Clone, Copy)]
pub struct Build {
    pub name: &'static str,
    /// The tokens, or the refusal.
    pub decode: fn(&str, u32, u32) -> Option<Result<Vec<Six>, Answer>>,
    pub encode: fn(&[Token], TokenChunk) -> Option<Vec<u8>>,
    /// The text of a difference's value, by way of a token with one field.
    pub value: fn(u32, u32) -> u64,
    pub translate: fn(&[Token], u32, u32, u32) -> Option<Vec<Six>>,
    /// The answers to a list of positions; none of it where making the lookup table panics.
    pub look: fn(&[Token], &[(u32, u32)]) -> Option<Vec<Looked>>,
    /// The tokens and the names of the composed map.
    pub compose: fn(&[Token], usize, &Names, &[Token], &Names) -> Option<(Vec<Six>, Vec<Vec<u8>>)>,
    /// Where two maps have other tokens, as the crate tells its tokens apart, in order of the position and the place there; and whether
    /// their lists of tokens are equal.
    pub differ: fn(&[Token], &[Token]) -> (Vec<Indices>, bool),
}

fn caught<T>(f: impl FnOnce() -> T) -> Option<T> {
    catch_unwind(AssertUnwindSafe(f)).ok()
}

fn some_id(id: u32) -> Option<u32> {
    if id == NONE { None } else { Some(id) }
}

fn list_of(names: &Names) -> Vec<Cow<'static, str>> {
    (0..names.count()).map(|i| Cow::Owned(String::from_utf8(names.name(i).to_vec()).expect("a name is no UTF-8"))).collect()
}

macro_rules! build {
    ($name:ident, $krate:ident) => {
        mod $name {
            use super::*;
            use $krate::{Error, SourceMap, reach};

            fn into(t: &Token) -> $krate::Token {
                $krate::Token::new(t.dst_line, t.dst_col, t.src_line, t.src_col, some_id(t.source_id), some_id(t.name_id))
            }

            fn all(tokens: &[Token]) -> Vec<$krate::Token> {
                tokens.iter().map(into).collect()
            }

            fn from(t: $krate::Token) -> Six {
                let (source, name) = (t.get_source_id().unwrap_or(NONE), t.get_name_id().unwrap_or(NONE));
                [t.get_dst_line(), t.get_dst_col(), t.get_src_line(), t.get_src_col(), source, name]
            }

            fn map(tokens: &[Token], sources: usize, names: &Names) -> SourceMap<'static> {
                let sources = (0..sources).map(|i| Cow::Owned(format!("s{i}"))).collect();
                SourceMap::new(None, list_of(names), None, sources, vec![], all(tokens).into_boxed_slice(), None)
            }

            pub fn decode(text: &str, sources: u32, names: u32) -> Option<Result<Vec<Six>, Answer>> {
                caught(|| match reach::decode_mapping(text, names as usize, sources as usize) {
                    Ok(tokens) => Ok(tokens.into_iter().map(from).collect()),
                    Err(e) => Err(match e {
                        Error::VlqLeftover => answer(model::VLQ_LEFTOVER, 0),
                        Error::VlqOverflow => answer(model::VLQ_OVERFLOW, 0),
                        Error::BadSegmentSize(n) => answer(model::BAD_SEGMENT_SIZE, n.into()),
                        Error::BadSourceReference(n) => answer(model::BAD_SOURCE_REFERENCE, n.into()),
                        Error::BadNameReference(n) => answer(model::BAD_NAME_REFERENCE, n.into()),
                        // Neither has a code: no mapping leads to them.
                        Error::VlqNoValues | Error::BadJson(_) => answer(u64::MAX, 0),
                    }),
                })
            }

            pub fn encode(tokens: &[Token], chunk: TokenChunk) -> Option<Vec<u8>> {
                let chunk = $krate::TokenChunk::new(
                    chunk.start,
                    chunk.end,
                    chunk.prev_dst_line,
                    chunk.prev_dst_col,
                    chunk.prev_src_line,
                    chunk.prev_src_col,
                    chunk.prev_name_id,
                    chunk.prev_source_id,
                );
                let tokens = all(tokens);
                caught(|| {
                    let mut out = String::new();
                    reach::serialize_mappings(&tokens, &chunk, &mut out);
                    out.into_bytes()
                })
            }

            pub fn value(a: u32, b: u32) -> u64 {
                reach::vlq_value(a, b)
            }

            pub fn translate(tokens: &[Token], line: u32, source: u32, name: u32) -> Option<Vec<Six>> {
                caught(|| tokens.iter().map(|t| from(reach::translated(into(t), line, source, name))).collect())
            }

            pub fn look(tokens: &[Token], asked: &[(u32, u32)]) -> Option<Vec<Looked>> {
                let map = map(tokens, 0, &Names::default());
                caught(|| {
                    let table = map.generate_lookup_table();
                    asked
                        .iter()
                        .map(|&(line, col)| {
                            (map.lookup_token_approx(&table, line, col).map(from), map.lookup_token(&table, line, col).map(from))
                        })
                        .collect()
                })
            }

            pub fn compose(
                outer: &[Token],
                sources: usize,
                outer_names: &Names,
                inner: &[Token],
                inner_names: &Names,
            ) -> Option<(Vec<Six>, Vec<Vec<u8>>)> {
                let outer = map(outer, sources, outer_names);
                let inner = map(inner, 1, inner_names);
                caught(|| {
                    let made = outer.compose(inner);
                    (made.get_tokens().map(from).collect(), made.get_names().map(|n| n.as_bytes().to_vec()).collect())
                })
            }

            pub fn differ(left: &[Token], right: &[Token]) -> (Vec<Indices>, bool) {
                let maps = [left, right].map(|tokens| map(tokens, 0, &Names::default()));
                let mut there: BTreeMap<(u32, u32, usize), [Option<(usize, $krate::Token)>; 2]> = BTreeMap::new();
                for (side, map) in maps.iter().enumerate() {
                    let mut counts: HashMap<(u32, u32), usize> = HashMap::new();
                    for (i, t) in map.get_tokens().enumerate() {
                        let (line, col) = (t.get_dst_line(), t.get_dst_col());
                        let before = counts.entry((line, col)).or_default();
                        there.entry((line, col, *before)).or_default()[side] = Some((i, t));
                        *before += 1;
                    }
                }
                let other = |[l, r]: &[Option<(usize, $krate::Token)>; 2]| l.map(|l| l.1) != r.map(|r| r.1);
                let indices = there.into_values().filter(other).map(|[l, r]| (l.map(|l| l.0), r.map(|r| r.0))).collect();
                (indices, maps[0].get_tokens().eq(maps[1].get_tokens()))
            }
        }
    };
}

build!(debug, oxc_debug);
build!(release, oxc_release);
