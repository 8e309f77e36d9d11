//! What changed between two bundles: their maps side by side, one line for each difference, as the protocol group reads them.
//!
//! ```text
//! changes OLD NEW
//! ```
//!
//! OLD and NEW are the two maps, as changes/old/bundle.txt and changes/new/bundle.txt: three lines, the sources, the names, both
//! parted by spaces, and the mappings. A line is a token of the bundle, its position and where it leads:
//!
//! ```text
//! - 6:29 -> elution.ts 5:1 store                              only in the old map
//! + 4:34 -> wash.ts 6:1 dry                                   only in the new map
//! ~ 2:12 -> lysis.ts 4:1 mix => lysis.ts 4:1 shake            old => new
//! ```
//!
//! Lines and columns count from 1, as JavaScript engines count them; the library counts from 0. Columns count UTF-16 units.
//! Ends with 0: there is no difference; 1: there are some; 2: a map or the call was refused.

use peghayrick::*;
use std::collections::HashMap;
use std::process::ExitCode;

/// A map: its sources, its names and its tokens.
struct Map {
    sources: Vec<Vec<u8>>,
    names: Vec<Vec<u8>>,
    tokens: Vec<Token>,
}

/// The words of a line; an empty line has none.
fn words(line: &[u8]) -> Vec<Vec<u8>> {
    line.split(|&b| b == b' ').filter(|_| !line.is_empty()).map(<[u8]>::to_vec).collect()
}

/// Reads and decodes a map.
fn load(whose: &str, path: &str) -> Result<Map, String> {
    let file = std::fs::read(path).map_err(|_| format!("the {whose} map cannot be opened: check the path"))?;
    let lines: Vec<&[u8]> = file.split(|&b| b == b'\n').collect();
    let [sources, names, mappings, b""] = lines[..] else {
        return Err(format!("the {whose} map has not three lines, or is cut short: export it again"));
    };
    let (sources, names) = (words(sources), words(names));
    let mut table = vec![0; table_size(mappings)];
    // The decode that names no mode is checked: no position that loses bits is compared.
    let decoded = decode_mapping(mappings, sources.len() as u32, names.len() as u32, &mut table).map_err(|refusal| {
        let (at, words, code, number) =
            (refusal.at().map_or(0, |at| at.offset), refusal.words(), refusal.code(), refusal.number());
        format!("the {whose} map is refused at byte {at}: {words} (code {code}, number {number})")
    })?;
    Ok(Map { sources, names, tokens: tokens_of(written(&table, decoded.tokens)).to_vec() })
}

/// A list that both maps share: each text of theirs once, by its id.
#[derive(Default)]
struct Shared<'a> {
    texts: Vec<&'a [u8]>,
    ids: HashMap<&'a [u8], u32>,
}

impl<'a> Shared<'a> {
    /// The id of a text. One that is not listed yet is added.
    fn id(&mut self, text: &'a [u8]) -> u32 {
        *self.ids.entry(text).or_insert_with(|| {
            self.texts.push(text);
            self.texts.len() as u32 - 1
        })
    }

    fn text(&self, id: u32) -> String {
        String::from_utf8_lossy(self.texts[id as usize]).into_owned()
    }
}

/// The sources and the names of both maps.
#[derive(Default)]
struct Lists<'a> {
    sources: Shared<'a>,
    names: Shared<'a>,
}

impl<'a> Lists<'a> {
    /// The tokens of a map by the shared ids. Ids are compared as numbers, and each map counts its own lists: a step that has
    /// another name, and the same id as before, would not be seen, and a step that stayed, with another id, would be shown.
    fn tokens(&mut self, map: &'a Map) -> Vec<Token> {
        let mut tokens = map.tokens.clone();
        for token in &mut tokens {
            match token.get_source_id() {
                Some(id) => token.source_id = self.sources.id(&map.sources[id as usize]),
                // Its source line and column say nothing, and are those of the latest token with a source. They are compared too.
                None => (token.src_line, token.src_col) = (0, 0),
            }
            if let Some(id) = token.get_name_id() {
                token.name_id = self.names.id(&map.names[id as usize]);
            }
        }
        tokens
    }

    /// Where a token leads: its source, the line and column there, and its name.
    fn step(&self, token: &Token) -> String {
        let Some(source) = token.get_source_id() else {
            return "no source".into();
        };
        let name = token.get_name_id().map_or(String::new(), |id| format!(" {}", self.names.text(id)));
        format!("{} {}{name}", self.sources.text(source), position(token.src_line, token.src_col))
    }
}

/// A position, counted from 1.
fn position(line: u32, col: u32) -> String {
    format!("{}:{}", u64::from(line) + 1, u64::from(col) + 1)
}

/// Prints what changed. Whether something did.
fn run(old: &str, new: &str) -> Result<bool, String> {
    let (old, new) = (load("old", old)?, load("new", new)?);
    let mut lists = Lists::default();
    let (old, new) = (lists.tokens(&old), lists.tokens(&new));

    // At most one difference for each token of both, three numbers each.
    let mut out = vec![0; 3 * (old.len() + new.len())];
    let changes = compare_tables(table_of(&old), table_of(&new), &mut out).map_err(|refusal| {
        // Which of the two is meant: the old one where it is refused with itself too.
        let old_too = compare_tables(table_of(&old), table_of(&old), &mut []).err() == Some(refusal);
        let (whose, words, code, number) =
            (if old_too { "old" } else { "new" }, refusal.words(), refusal.code(), refusal.number());
        format!("the {whose} map is not compared: {words} (code {code}, number {number})")
    })?;
    if changes.len() == 0 {
        println!("no difference");
        return Ok(false);
    }

    let (all, mut counts) = (changes.len(), [0; 3]);
    for change in changes {
        let (mark, token, step) = match change {
            Change::OnlyLeft(left) => ("-", &old[left as usize], lists.step(&old[left as usize])),
            Change::OnlyRight(right) => ("+", &new[right as usize], lists.step(&new[right as usize])),
            Change::Different { left, right } => {
                let (was, is) = (&old[left as usize], &new[right as usize]);
                ("~", was, format!("{} => {}", lists.step(was), lists.step(is)))
            }
        };
        println!("{mark} {} -> {step}", position(token.dst_line, token.dst_col));
        counts[change.kind() as usize - 1] += 1;
    }
    let [only_old, only_new, changed] = counts;
    let s = if all == 1 { "" } else { "s" };
    println!("{all} difference{s}: {only_old} only in the old map, {only_new} only in the new map, {changed} changed");
    Ok(true)
}

fn main() -> ExitCode {
    let args: Vec<String> = std::env::args().collect();
    let [_, old, new] = &args[..] else {
        eprintln!("usage: changes OLD NEW");
        return ExitCode::from(2);
    };
    if version() != VERSION {
        eprintln!("libpeghayrick.a is not of version {}: build this program again", env!("CARGO_PKG_VERSION"));
        return ExitCode::from(2);
    }
    match run(old, new) {
        Ok(false) => ExitCode::SUCCESS,
        Ok(true) => ExitCode::from(1),
        Err(why) => {
            eprintln!("{why}");
            ExitCode::from(2)
        }
    }
}
