//! The texts that are timed: made ones, from a fixed seed, and real ones.

use std::fs;
use std::path::Path;
use std::process::Command;

use oxc_sourcemap::reach::{self, serde_json};
use oxc_sourcemap::{Token, TokenChunk};
use peghayrick::WIDTH;

pub struct Text {
    pub name: String,
    pub text: String,
    pub sources: u32,
    pub names: u32,
    pub tokens: Vec<Token>,
}

/// Names as the library takes them: a text, and the end of each name in it.
#[derive(Default)]
pub struct Names {
    pub text: Vec<u8>,
    pub ends: Vec<usize>,
}

impl Names {
    fn push(&mut self, name: &str) {
        self.text.extend(name.bytes());
        self.ends.push(self.text.len());
    }
}

pub struct Random(pub u64);

impl Random {
    pub fn below(&mut self, n: u64) -> u64 {
        self.0 ^= self.0 << 13;
        self.0 ^= self.0 >> 7;
        self.0 ^= self.0 << 17;
        (self.0 >> 11) % n
    }

    /// A step whose size has so many bits at most, from a number that stays within 0 and `most`.
    fn stepped(&mut self, from: u32, bits: u32, most: u32) -> u32 {
        let size = self.below(1 << bits) as i64;
        let step = if self.below(2) == 0 { size } else { -size };
        let to = from as i64 + step;
        if (0..=most as i64).contains(&to) { to as u32 } else { (from as i64 - step).clamp(0, most as i64) as u32 }
    }
}

#[derive(Clone, Copy)]
pub enum Kind {
    OneDigit,
    Mixed,
    Multi,
}

/// A list of so many tokens, about twenty a line. One-digit: 60 % four fields, 40 % five. Mixed: 85 % of that kind, 5 % one field,
/// 10 % with values of one to four digits. Multi: every value but the ids' of one to four digits, ids of one or two.
pub fn made_tokens(kind: Kind, count: usize) -> Vec<Token> {
    let mut r = Random(0x9e37_79b9_7f4a_7c15);
    let (mut line, mut col, mut src_line, mut src_col, mut source, mut name) = (0u32, 0u32, 500u32, 40u32, 5u32, 50u32);
    let mut tokens = Vec::with_capacity(count);
    for i in 0..count {
        if i > 0 && r.below(20) == 0 {
            line += 1;
            col = 0;
        }
        let sort = match kind {
            Kind::OneDigit => 0,
            Kind::Mixed => match r.below(100) {
                0..85 => 0,
                85..90 => 1,
                _ => 2,
            },
            Kind::Multi => 2,
        };
        let mut bits = || if sort == 2 { 4 + 5 * r.below(4) as u32 } else { 4 };
        let (b0, b2, b3) = (bits(), bits(), bits());
        col = col.saturating_add(r.below(1 << b0) as u32);
        if sort == 1 {
            tokens.push(Token::new(line, col, src_line, src_col, None, None));
            continue;
        }
        source = if r.below(10) == 0 { r.stepped(source, 2, 9) } else { source };
        src_line = r.stepped(src_line, b2, 1 << 30);
        src_col = r.stepped(src_col, b3, 1 << 30);
        let named = r.below(10) < 4;
        if named {
            name = r.stepped(name, if sort == 2 { 6 } else { 4 }, 199);
        }
        tokens.push(Token::new(line, col, src_line, src_col, Some(source), named.then_some(name)));
    }
    tokens
}

pub fn whole(tokens: &[Token]) -> TokenChunk {
    TokenChunk::new(0, tokens.len() as u32, 0, 0, 0, 0, 0, 0)
}

pub fn made(name: &str, kind: Kind, count: usize) -> Text {
    let tokens = made_tokens(kind, count);
    let mut text = String::new();
    reach::serialize_mappings(&tokens, &whole(&tokens), &mut text);
    Text { name: name.into(), text, sources: 10, names: 200, tokens }
}

/// A real map of the corpus by its id.
pub fn real(corpus: &Path, id: &str) -> Result<Text, String> {
    let at = corpus.join("manifest.json");
    let manifest = fs::read_to_string(&at).map_err(|e| format!("{}: {e}", at.display()))?;
    let manifest: serde_json::Value = serde_json::from_str(&manifest).map_err(|e| e.to_string())?;
    let map = manifest["maps"].as_array().and_then(|maps| maps.iter().find(|m| m["id"] == id)).ok_or(format!("no map {id}"))?;
    let file = corpus.join(map["file"].as_str().ok_or("no file")?);
    let text = match file.extension().is_some_and(|e| e == "xz") {
        true => Command::new("xz").arg("-dc").arg(&file).output().map_err(|e| format!("xz: {e}"))?.stdout,
        false => fs::read(&file).map_err(|e| format!("{}: {e}", file.display()))?,
    };
    let text = String::from_utf8(text).map_err(|e| e.to_string())?;
    let number = |key: &str| map[key].as_u64().ok_or(format!("{id} has no {key}")).map(|n| n as u32);
    let (sources, names) = (number("S")?, number("N")?);
    let tokens = reach::decode_mapping(&text, names as usize, sources as usize).map_err(|e| format!("{id}: {e}"))?;
    Ok(Text { name: id.split('-').next().unwrap_or(id).into(), text, sources, names, tokens })
}

/// So many names that begin alike.
pub fn made_names(prefix: &str, count: usize) -> Names {
    let mut names = Names::default();
    for i in 0..count {
        names.push(&format!("{prefix}{i}"));
    }
    names
}

/// The names of a real map; made ones where the corpus does not have them.
pub fn real_names(corpus: &Path, id: &str, count: usize) -> Result<Names, String> {
    let at = corpus.join("names").join(format!("{id}.json"));
    if !at.exists() {
        return Ok(made_names("name", count));
    }
    let text = fs::read_to_string(&at).map_err(|e| format!("{}: {e}", at.display()))?;
    let list: Vec<String> = serde_json::from_str(&text).map_err(|e| format!("{}: {e}", at.display()))?;
    let mut names = Names::default();
    list.iter().for_each(|name| names.push(name));
    Ok(names)
}

/// The list as the library's table. The crate's token has no segment: it is none.
pub fn table_of(tokens: &[Token]) -> Vec<u32> {
    let id = |id: Option<u32>| id.unwrap_or(u32::MAX);
    let numbers = |t: &Token| -> [u32; WIDTH] {
        let (source, name) = (id(t.get_source_id()), id(t.get_name_id()));
        [t.get_dst_line(), t.get_dst_col(), t.get_src_line(), t.get_src_col(), source, name, u32::MAX]
    };
    tokens.iter().flat_map(numbers).collect()
}
