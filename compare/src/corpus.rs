//! Real maps: each decodes to its digest, writes back to its digest, and the chain composes as its file says.

use std::fs;
use std::io::Write as _;
use std::path::Path;
use std::process::{Command, Stdio};
use std::time::Instant;

use oxc_release::reach::serde_json::{self, Value};

use crate::cases::{Case, Random, Tally};
use crate::changes::{Changes, edited};
use crate::composing::{Pair, names_of};
use crate::decoding::Text;
use crate::looking::Ask;
use crate::many::Asks;
use crate::model::{self, Inner, Mode, NONE, Names, Outer, Token, TokenChunk, sixes, table_of};
use crate::ours::{self, LentBytes, writer};
use crate::sorted;
use crate::theirs::BUILDS;
use crate::translating::Move;

type Checked<T> = Result<T, String>;

fn tool(name: &str, words: &[&str], input: &[u8]) -> Checked<Vec<u8>> {
    let failed = |e: std::io::Error| format!("{name}: {e}");
    let mut child = Command::new(name).args(words).stdin(Stdio::piped()).stdout(Stdio::piped()).spawn().map_err(failed)?;
    let mut stdin = child.stdin.take().ok_or("no pipe")?;
    let bytes = input.to_vec();
    let feed = std::thread::spawn(move || stdin.write_all(&bytes));
    let out = child.wait_with_output().map_err(failed)?;
    feed.join().map_err(|_| "the pipe broke")?.map_err(failed)?;
    Ok(out.stdout)
}

fn sha256(bytes: &[u8]) -> Checked<String> {
    Ok(String::from_utf8_lossy(&tool("sha256sum", &[], bytes)?)[..64].to_string())
}

fn json(path: &Path) -> Checked<Value> {
    let text = fs::read_to_string(path).map_err(|e| format!("{}: {e}", path.display()))?;
    serde_json::from_str(&text).map_err(|e| format!("{}: {e}", path.display()))
}

fn text_at(path: &Path) -> Checked<Vec<u8>> {
    let bytes = fs::read(path).map_err(|e| format!("{}: {e}", path.display()))?;
    if path.extension().is_some_and(|e| e == "xz") { tool("xz", &["-dc"], &bytes) } else { Ok(bytes) }
}

fn same<T: PartialEq + std::fmt::Debug>(what: &str, got: T, want: T) -> Checked<()> {
    if got == want { Ok(()) } else { Err(format!("{what}: {got:?}, and {want:?} was due")) }
}

/// The text of all tokens: the crate's, the model's and ours alike.
fn written(tokens: &[Token]) -> Checked<Vec<u8>> {
    let table = table_of(tokens);
    let chunk = TokenChunk { end: tokens.len() as u32, ..TokenChunk::default() };
    let m = model::encode(&table, chunk, usize::MAX);
    for build in BUILDS {
        if (build.encode)(tokens, chunk).as_ref() != Some(&m.text) {
            return Err(format!("the {} crate writes another text than the model", build.name));
        }
    }
    if writer::HERE {
        let mut out = LentBytes::new(m.text.len());
        let got = writer::encode(&table, chunk, &mut out);
        same("the writer", got, (m.answer, m.text.len() as u64, m.next))?;
        if !out.is(&m.text) {
            return Err("ours writes another text".to_string());
        }
        // The same in seven pieces.
        let mut chunk = TokenChunk::default();
        let mut joined: Vec<u8> = Vec::new();
        for piece in 1..=7 {
            chunk.end = (tokens.len() * piece / 7) as u32;
            let mut out = LentBytes::new(m.text.len());
            let (_, bytes, next) = writer::encode(&table, chunk, &mut out);
            joined.extend(&out.bytes()[..bytes as usize]);
            chunk = next;
        }
        if joined != m.text {
            return Err("ours in seven pieces is another text".to_string());
        }
    }
    Ok(m.text)
}

/// Its tokens.
fn one_map(corpus: &Path, map: &Value, random: &mut Random) -> Checked<Vec<Token>> {
    let number = |key: &str| map[key].as_u64().unwrap_or(u64::MAX);
    let text = text_at(&corpus.join(map["file"].as_str().unwrap_or("")))?;
    same("bytes", text.len() as u64, number("bytes"))?;
    same("sha256", sha256(&text)?.as_str(), map["sha256"].as_str().unwrap_or(""))?;
    let (sources, names) = (number("S") as u32, number("N") as u32);
    let case = Text { text, sources, names };
    case.check()?;
    // What the case held to the crate and to ours.
    let decoded = model::decode(Mode::Lenient, &case.text, sources, names, usize::MAX);
    same("code", decoded.answer.code, model::DONE)?;
    same("checked mode", &model::decode(Mode::Checked, &case.text, sources, names, usize::MAX), &decoded)?;
    let tokens = decoded.tokens;
    same("tokens", tokens.len() as u64, number("tokens"))?;
    let words: Vec<u8> = sixes(&tokens).iter().flatten().flat_map(|n| n.to_le_bytes()).collect();
    same("tokens_sha256", sha256(&words)?.as_str(), map["tokens_sha256"].as_str().unwrap_or(""))?;

    let mut text = written(&tokens)?;
    while text.last() == Some(&b';') {
        text.pop();
    }
    same("the writer's bytes", text.len() as u64, map["writer"]["bytes"].as_u64().unwrap_or(0))?;
    same("the writer's sha256", sha256(&text)?.as_str(), map["writer"]["sha256"].as_str().unwrap_or(""))?;

    let table = table_of(&tokens);
    for mode in [Mode::Lenient, Mode::Checked] {
        same("premises", ours::meets_premises(mode, &table, sources, names), 1)?;
    }
    Move { table: table.clone(), line: 1000, source: 7, name: 9 }.check()?;
    Move { table, line: 0, source: NONE - sources + 1, name: 0 }.check()?;
    let places: Vec<(u32, u32)> = tokens.iter().map(|t| (t.dst_line, t.dst_col)).collect();
    let asked: Vec<(u32, u32)> = (0..40)
        .map(|_| {
            let (line, col) = random.pick(&places);
            (line, col + random.below(3) as u32)
        })
        .collect();
    if tokens.len() < 100_000 {
        for &(line, col) in &asked[..20] {
            Ask { places: places.clone(), line, col }.check()?;
        }
    }
    same("sorted", sorted::is_sorted(&tokens), true)?;
    Asks::of(places, &asked).check()?;
    Ok(tokens)
}

/// A map compared with itself, with a copy after some edits, and with those before it: of long ones with the one before it alone.
fn compared(tokens: &[Token], before: &[Vec<Token>], random: &mut Random) -> Checked<()> {
    let long = |list: &[Token]| list.len() > 100_000;
    let edits = edited(random, tokens, 40);
    let others =
        before.iter().rev().enumerate().filter(|(i, other)| *i == 0 || !long(tokens) && !long(other)).map(|(_, other)| other);
    for other in [&tokens.to_vec(), &edits].into_iter().chain(others) {
        Changes { left: table_of(tokens), right: table_of(other), room: None, due: None }.check()?;
    }
    Ok(())
}

fn names_in(path: &Path) -> Checked<Names> {
    let list = json(path)?;
    let list: Vec<&str> = list.as_array().ok_or("no list")?.iter().filter_map(|n| n.as_str()).collect();
    Ok(names_of(&list.iter().map(|n| n.as_bytes()).collect::<Vec<_>>(), b""))
}

/// The chain, as its file gives it in the second column.
fn chain(corpus: &Path) -> Checked<()> {
    let part = |which: &str, names: u32| -> Checked<Vec<u32>> {
        let text = text_at(&corpus.join(format!("maps/chain-tsc-terser-1{which}.txt")))?;
        Ok(table_of(&model::decode(Mode::Lenient, &text, 1, names, usize::MAX).tokens))
    };
    let outer_names = names_in(&corpus.join("names/chain-tsc-terser-1outer.json"))?;
    let inner_names = names_in(&corpus.join("names/chain-tsc-terser-1inner.json"))?;
    let outer = part("outer", outer_names.count() as u32)?;
    let inner = part("inner", inner_names.count() as u32)?;
    let pair = Pair { result: outer.len(), added: outer_names.count(), outer, sources: 1, outer_names, inner, inner_names };
    pair.check()?;
    let m = model::compose(
        &Outer { table: &pair.outer, sources: 1, names: &pair.outer_names },
        &Inner { table: &pair.inner, names: &pair.inner_names },
        pair.result,
        pair.added,
    );
    let text = fs::read_to_string(corpus.join("chain-1.txt")).map_err(|e| e.to_string())?;
    let mut rows = Vec::new();
    for line in text.lines() {
        if let Some((_, list)) = line.split_once("added names (outer ids): ") {
            let added: Vec<u32> = list.split_whitespace().filter_map(|n| n.parse().ok()).collect();
            same("added names", &m.added, &added)?;
        }
        if !line.starts_with('#') {
            rows.push(line.split('|').take(2).map(str::trim).collect::<Vec<_>>().join(" "));
        }
    }
    let id = |id: u32| if id == NONE { "-".to_string() } else { id.to_string() };
    let shown = |t: &Token| {
        let name = model::name_of(&pair.inner_names, &pair.outer_names, &m.added, t.name_id);
        let name = name.map_or("-".to_string(), |(outer, start, end)| {
            let text = if outer { &pair.outer_names.text } else { &pair.inner_names.text };
            String::from_utf8_lossy(&text[start..end]).to_string()
        });
        format!("{} {} {} {} {} {} {name}", t.dst_line, t.dst_col, t.src_line, t.src_col, id(t.source_id), id(t.name_id))
    };
    same("rows", m.tokens.iter().map(shown).collect::<Vec<_>>(), rows)
}

pub fn run(tally: &mut Tally, corpus: &Path, seed: u64) {
    let mut random = Random::new(seed, "corpus");
    let maps = match json(&corpus.join("manifest.json")) {
        Ok(manifest) => manifest["maps"].as_array().cloned().unwrap_or_default(),
        Err(e) => return tally.single("corpus", Err(e), 0.0),
    };
    let mut before = Vec::new();
    for map in &maps {
        let begun = Instant::now();
        let tokens = one_map(corpus, map, &mut random);
        let result = tokens.as_ref().map(|_| ()).map_err(String::clone);
        let name = format!("corpus: {}, {} tokens", map["id"].as_str().unwrap_or(""), map["tokens"]);
        tally.single(&name, result, begun.elapsed().as_secs_f64());
        let begun = Instant::now();
        if let Ok(tokens) = tokens {
            let result = compared(&tokens, &before, &mut random);
            tally.single(&format!("{name}, compared"), result, begun.elapsed().as_secs_f64());
            before.push(tokens);
        }
    }
    let begun = Instant::now();
    tally.single("corpus: the chain composed", chain(corpus), begun.elapsed().as_secs_f64());
}
