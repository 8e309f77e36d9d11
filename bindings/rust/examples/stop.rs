//! What the controller does when a run stops: decode the protocol's map, look up all positions of the run's log in one call,
//! and print the source step of each; the last is where the run stopped, and the piece of the map that says so comes with it.
//! A damaged map is refused with a message that says what to do.
//!
//! ```text
//! stop MAP LOG
//! ```
//!
//! MAP has the counts of sources and names on its first line, and the mappings after it, as samples/lysis.txt.
//! Each line of LOG is HH:MM:SS bundle.js:LINE:COLUMN and ends with a newline, as in samples/lysis.log. Lines and columns
//! count from 1 there, as JavaScript engines count them, and so do those that are printed; the library counts from 0. Columns
//! count UTF-16 units.
//! Ends with 0: the step where the run stopped was printed; 1: it has none; 2: the map, the log or the call was refused.

use peghayrick::{decode_mapping, lookup_many_quick, table_size, tokens_of, version, written, Position, NONE, VERSION};
use std::process::ExitCode;

/// A decimal number of 32 bits: digits and nothing else.
fn number(s: &str) -> Option<u32> {
    s.bytes().all(|b| b.is_ascii_digit()).then(|| s.parse().ok()).flatten()
}

/// The counts on the first line, and the mappings after it.
fn parts(map: &[u8]) -> Option<(u32, u32, &[u8])> {
    let end = map.iter().position(|&b| b == b'\n')?;
    let (sources, names) = std::str::from_utf8(&map[..end]).ok()?.split_once(' ')?;
    Some((number(sources)?, number(names)?, &map[end + 1..]))
}

/// The line of mappings that a segment stands in, from `;` to `;`, and the segment marked under it. Each byte takes one place:
/// one that cannot be shown is `?`.
fn marked(mappings: &[u8], segment: usize) -> String {
    let (before, after) = mappings.split_at(segment);
    let indent = before.iter().rev().take_while(|&&b| b != b';').count();
    let length = after.iter().take_while(|b| !b",;".contains(b)).count();
    let line = mappings[segment - indent..].iter().take_while(|&&b| b != b';');
    let line: String = line.map(|&b| if b.is_ascii_graphic() { char::from(b) } else { '?' }).collect();
    format!("mappings  {line}\n          {}{}", " ".repeat(indent), "^".repeat(length))
}

/// The position of a line of the log, counted from 0. `None` where the line is not of the form: then it may be cut short, and
/// what is left of it is no position.
fn position(line: &str) -> Option<Position> {
    let (time, at) = line.strip_suffix('\n')?.split_once(" bundle.js:")?;
    let form: String = time.chars().map(|c| if c.is_ascii_digit() { '0' } else { c }).collect();
    let (line, col) = at.split_once(':')?;
    let position = Position::new(number(line)?.checked_sub(1)?, number(col)?.checked_sub(1)?);
    (form == "00:00:00").then_some(position)
}

/// The positions of the log; there is at least one.
fn positions(log: &str) -> Result<Vec<Position>, String> {
    if log.is_empty() {
        return Err("the log has no lines: export it again".into());
    }
    let bad = |line| format!("line {line} of the log is not HH:MM:SS bundle.js:LINE:COLUMN, or is cut short: export it again");
    (1..).zip(log.split_inclusive('\n')).map(|(number, line)| position(line).ok_or_else(|| bad(number))).collect()
}

/// Prints each line of the log with its step, and the piece of the mappings for the last. Whether that has a step.
fn steps(map: &[u8], log: &str) -> Result<bool, String> {
    let positions = positions(log)?;
    let (sources, names, mappings) = parts(map).ok_or("the map has no counts on its first line: export it again")?;
    let mut table = vec![0u32; table_size(mappings)];
    // The decode that names no mode is checked: no position that loses bits comes to the screen.
    let decoded = decode_mapping(mappings, sources, names, &mut table).map_err(|refusal| {
        let (at, words, code, number) =
            (refusal.at().map_or(0, |at| at.offset), refusal.words(), refusal.code(), refusal.number());
        format!("the map is refused at byte {at}: {words} (code {code}, number {number})")
    })?;
    let table = written(&table, decoded.tokens);
    let mut found = vec![NONE; positions.len()];
    // The quick lookup halves where the map is sorted, as usual ones are, and has the same answers where it is not.
    lookup_many_quick(table, &positions, &mut found)
        .map_err(|refusal| format!("the lookup is refused: {} (code {})", refusal.words(), refusal.code()))?;

    let mut last = None;
    for (number, (line, index)) in (1..).zip(log.lines().zip(found)) {
        print!("{} {line}", if number == positions.len() { "stop" } else { "    " });
        // NONE is no token's index. A token without a source has a source line and column that say nothing.
        last = tokens_of(table).get(index as usize).filter(|t| t.get_source_id().is_some());
        let Some(t) = last else {
            println!(" has no step in the source");
            continue;
        };
        let name = t.get_name_id().map_or(String::new(), |name| format!(", name {name}"));
        let (line, column) = (u64::from(t.src_line) + 1, u64::from(t.src_col) + 1);
        println!(" is at source {}, line {line}, column {column}{name}", t.source_id);
    }
    if let Some(t) = last {
        println!("{}", marked(mappings, t.segment as usize));
    }
    Ok(last.is_some())
}

fn main() -> ExitCode {
    let args: Vec<String> = std::env::args().collect();
    let [_, map, log] = &args[..] else {
        eprintln!("usage: stop MAP LOG");
        return ExitCode::from(2);
    };
    if version() != VERSION {
        eprintln!("libpeghayrick.a is not of version {}: build this program again", env!("CARGO_PKG_VERSION"));
        return ExitCode::from(2);
    }
    let Ok(map) = std::fs::read(map) else {
        eprintln!("the map cannot be opened: check the path");
        return ExitCode::from(2);
    };
    let Ok(log) = std::fs::read(log) else {
        eprintln!("the log cannot be opened: check the path");
        return ExitCode::from(2);
    };
    match steps(&map, &String::from_utf8_lossy(&log)) {
        Ok(true) => ExitCode::SUCCESS,
        Ok(false) => ExitCode::from(1),
        Err(why) => {
            eprintln!("{why}");
            ExitCode::from(2)
        }
    }
}
