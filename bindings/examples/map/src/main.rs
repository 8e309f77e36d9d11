//! The step of a stop position, from a whole map file, and the piece of its mappings that says so.
//!
//! ```text
//! peghayrick_map MAP LINE COLUMN
//! ```
//!
//! Lines and columns count from 0, those that are printed too. Ends with 0: a step was printed; 1: there is none; 2: the map
//! or the call was refused.

use peghayrick_map::Map;
use std::process::ExitCode;

/// A line of mappings, and its segment marked under it. Each character takes one place: one that cannot be shown is `?`.
fn marked([before, segment, behind]: [&str; 3]) -> String {
    let shown = |c: char| if c.is_ascii_graphic() { c } else { '?' };
    let line: String = [before, segment, behind].concat().chars().map(shown).collect();
    let (indent, marks) = (" ".repeat(before.chars().count()), "^".repeat(segment.chars().count()));
    format!("mappings  {line}\n          {indent}{marks}")
}

fn step(path: &str, line: u32, column: u32) -> Result<Option<String>, String> {
    let json = std::fs::read_to_string(path).map_err(|why| format!("the map cannot be read: {why}"))?;
    let map = Map::from_json_string(&json).map_err(|why| why.to_string())?;
    let step = map.lookup(line, column).map_err(|why| why.to_string())?;
    Ok(step.map(|step| {
        let name = step.name.map_or(String::new(), |name| format!(", name {name}"));
        format!("{}, line {}, column {}{name}\n{}", step.source, step.line, step.column, marked(step.mappings))
    }))
}

fn main() -> ExitCode {
    let args: Vec<String> = std::env::args().skip(1).collect();
    let [path, line, column] = &args[..] else {
        eprintln!("usage: peghayrick_map MAP LINE COLUMN");
        return ExitCode::from(2);
    };
    let (Ok(line), Ok(column)) = (line.parse(), column.parse()) else {
        eprintln!("LINE and COLUMN are numbers below 4294967296, counted from 0");
        return ExitCode::from(2);
    };
    match step(path, line, column) {
        Ok(Some(step)) => {
            println!("stop {line}:{column} is at {step}");
            ExitCode::SUCCESS
        }
        Ok(None) => {
            println!("stop {line}:{column} has no step in the source");
            ExitCode::from(1)
        }
        Err(why) => {
            eprintln!("{why}");
            ExitCode::from(2)
        }
    }
}
