//! Holds the library against the crate it was written from, and both against a plain model of docs/RULES.md.

mod cases;
mod changes;
mod composing;
mod corpus;
mod decoding;
mod differences;
mod exact;
mod far;
mod limits;
mod looking;
mod many;
mod model;
mod naming;
mod ours;
mod record;
mod seeking;
mod sorted;
mod theirs;
mod translating;
mod writing;

use std::path::PathBuf;

use cases::Tally;

#[global_allocator]
static MEMORY: far::Memory = far::Memory;

struct Args {
    seed: u64,
    scale: usize,
    only: Option<String>,
    corpus: Option<PathBuf>,
    record: bool,
    stop: bool,
}

fn args() -> Args {
    let mut a = Args { seed: 1, scale: 1, only: None, corpus: None, record: false, stop: false };
    let mut words = std::env::args().skip(1);
    while let Some(word) = words.next() {
        let mut value = || words.next().unwrap_or_else(|| usage());
        match word.as_str() {
            "record" => a.record = true,
            "--stop" => a.stop = true,
            "--seed" => a.seed = value().parse().unwrap_or_else(|_| usage()),
            "--scale" => a.scale = value().parse().unwrap_or_else(|_| usage()),
            "--corpus" => a.corpus = Some(value().into()),
            "--only" => a.only = Some(value()).filter(|part| PARTS.contains(&part.as_str())).or_else(|| usage()),
            _ => usage(),
        }
    }
    a
}

const PARTS: [&str; 12] =
    ["differences", "translate", "lookup", "many", "changes", "compose", "write", "decode", "exact", "limits", "corpus", "far"];

fn usage() -> ! {
    eprintln!(
        "usage: compare [--seed N] [--scale N] [--stop] [--corpus FOLDER] [record]
               [--only {}]",
        PARTS.join("|")
    );
    std::process::exit(2)
}

fn main() {
    let a = args();
    // The crate's panics are answers.
    std::panic::set_hook(Box::new(|_| {}));
    if a.record {
        return record::run(a.seed);
    }
    println!("seed {}, scale {}", a.seed, a.scale);
    for (here, name) in [(ours::writer::HERE, "pgk_encode"), (ours::composer::HERE, "pgk_compose")] {
        if !here {
            println!("the library has no {name}: there the model alone is held to the crate");
        }
    }
    let mut tally = Tally::default();
    tally.stop = a.stop;
    let parts: [(&str, fn(&mut Tally, u64, usize)); 9] = [
        ("differences", differences::run),
        ("translate", translating::run),
        ("lookup", looking::run),
        ("many", many::run),
        ("changes", changes::run),
        ("compose", composing::run),
        ("write", writing::run),
        ("decode", decoding::run),
        ("exact", exact::run),
    ];
    let wanted = |name: &str| a.only.as_deref().is_none_or(|o| o == name);
    for (name, part) in parts {
        if wanted(name) {
            part(&mut tally, a.seed, a.scale);
        }
    }
    if a.only.as_deref() == Some("far") {
        far::run(&mut tally);
    }
    if wanted("limits") {
        limits::run(&mut tally);
    }
    match &a.corpus {
        Some(folder) if wanted("corpus") => corpus::run(&mut tally, folder, a.seed),
        Some(_) => {}
        None => println!("no corpus was named: the real maps are left out"),
    }
    std::process::exit(if tally.summary(a.only.is_none()) { 0 } else { 1 });
}
