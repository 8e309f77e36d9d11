//! What the controller does where the bundle was made in two steps: lysis.js of the sources, bundle.js of lysis.js, each with a
//! map. The bundle's map leads to lysis.js only, and the map of lysis.js from there to the sources. Composed, they are one map,
//! which leads from a position in the bundle to the source; the step of a stopped run is printed, with its name, which may be a
//! name of either map.
//!
//! ```text
//! chain BUNDLE INPUT LINE COLUMN
//! ```
//!
//! BUNDLE and INPUT are the two maps, as chain/bundle.txt and chain/lysis.txt: three lines, the sources, the names, both parted
//! by spaces, and the mappings. LINE and COLUMN are where the run stopped in bundle.js. They count from 1, as JavaScript engines
//! count them, and so do those that are printed; the library counts from 0. Columns count UTF-16 units.
//! Ends with 0: the step was printed; 1: there is none; 2: a map or the call was refused.

use peghayrick::*;
use std::process::ExitCode;

/// A map: its sources, its names one after another with the end of each, and the table of its tokens.
struct Map {
    sources: Vec<String>,
    text: Vec<u8>,
    ends: Vec<usize>,
    table: Vec<u32>,
}

impl Map {
    fn names(&self) -> Names<'_> {
        Names { text: &self.text, ends: &self.ends }
    }
}

/// A decimal number from 1 to 4294967295: digits and nothing else.
fn number(s: &str) -> Option<u32> {
    s.bytes().all(|b| b.is_ascii_digit()).then(|| s.parse().ok()).flatten().filter(|&number| number != 0)
}

/// The words of a line; an empty line has none.
fn words(line: &[u8]) -> impl Iterator<Item = &[u8]> {
    line.split(|&b| b == b' ').filter(|_| !line.is_empty())
}

/// Reads and decodes a map.
fn load(whose: &str, path: &str) -> Result<Map, String> {
    let file = std::fs::read(path).map_err(|_| format!("the {whose}'s map cannot be opened: check the path"))?;
    let lines: Vec<&[u8]> = file.split(|&b| b == b'\n').collect();
    let [sources, names, mappings, b""] = lines[..] else {
        return Err(format!("the {whose}'s map has not three lines, or is cut short: export it again"));
    };
    let sources: Vec<String> = words(sources).map(|source| String::from_utf8_lossy(source).into_owned()).collect();
    let (mut text, mut ends) = (Vec::new(), Vec::new());
    for name in words(names) {
        text.extend_from_slice(name);
        ends.push(text.len());
    }
    let mut table = vec![0; table_size(mappings)];
    // The decode that names no mode is checked: no position that loses bits comes to the screen.
    let decoded = decode_mapping(mappings, sources.len() as u32, ends.len() as u32, &mut table).map_err(|refusal| {
        let (at, words, code, number) =
            (refusal.at().map_or(0, |at| at.offset), refusal.words(), refusal.code(), refusal.number());
        format!("the {whose}'s map is refused at byte {at}: {words} (code {code}, number {number})")
    })?;
    table.truncate(WIDTH * decoded.tokens);
    Ok(Map { sources, text, ends, table })
}

/// Composes both maps and finds the step of a position.
fn step(outer: &Map, inner: &Map, line: u32, col: u32) -> Result<Option<String>, Refusal> {
    // The result has as many tokens as outer, as many names may be added as outer has, and the working memory is counted.
    let mut table = vec![0; outer.table.len()];
    let mut added = vec![0; outer.ends.len()];
    let mut work = vec![0; work_places(inner.names(), outer.names())];
    let (sources, places) = (outer.sources.len() as u32, &mut added);
    let composed =
        compose_with(&outer.table, sources, outer.names(), &inner.table, inner.names(), &mut table, places, &mut work)?;

    // A token without a source has a source line and column that say nothing.
    Ok(lookup_token(&table, line, col)?.filter(|t| t.get_source_id().is_some()).map(|t| {
        // The sources of a composed table are those of the inner map; a name is one of either map.
        let source = &inner.sources[t.source_id as usize];
        let name = name_of(inner.names(), outer.names(), &added[..composed.added], t.name_id);
        let name = name.map_or(String::new(), |name| format!(", name {}", String::from_utf8_lossy(name)));
        format!("{source}, line {}, column {}{name}", u64::from(t.src_line) + 1, u64::from(t.src_col) + 1)
    }))
}

/// Prints the step of a position. Whether there is one.
fn run(bundle: &str, input: &str, line: u32, column: u32) -> Result<bool, String> {
    let (outer, inner) = (load("bundle", bundle)?, load("input", input)?);
    let step = step(&outer, &inner, line - 1, column - 1).map_err(|refusal| {
        format!("the maps are not composed: {} (code {}, number {})", refusal.words(), refusal.code(), refusal.number())
    })?;
    match &step {
        Some(step) => println!("stop bundle.js:{line}:{column} is at {step}"),
        None => println!("stop bundle.js:{line}:{column} has no step in the source"),
    }
    Ok(step.is_some())
}

fn main() -> ExitCode {
    let args: Vec<String> = std::env::args().collect();
    let [_, bundle, input, line, column] = &args[..] else {
        eprintln!("usage: chain BUNDLE INPUT LINE COLUMN");
        return ExitCode::from(2);
    };
    let (Some(line), Some(column)) = (number(line), number(column)) else {
        eprintln!("LINE and COLUMN are numbers from 1 to 4294967295");
        return ExitCode::from(2);
    };
    if version() != VERSION {
        eprintln!("libpeghayrick.a is not of version {}: build this program again", env!("CARGO_PKG_VERSION"));
        return ExitCode::from(2);
    }
    match run(bundle, input, line, column) {
        Ok(true) => ExitCode::SUCCESS,
        Ok(false) => ExitCode::from(1),
        Err(why) => {
            eprintln!("{why}");
            ExitCode::from(2)
        }
    }
}
