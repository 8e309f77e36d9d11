//! Two tables compared, beside a walk over the crate's tokens: the crate has no such call.

use std::cmp::Ordering;
use std::hint::black_box;
use std::path::Path;

use oxc_sourcemap::Token;

use crate::texts::{Kind, Random, Text, made_tokens, real, table_of};
use crate::timing::{plain, shown, timed};
use crate::{counted, library};

const NONE: u32 = u32::MAX;

type Entry = [u32; 3];

fn place(t: &Token) -> (u32, u32) {
    (t.get_dst_line(), t.get_dst_col())
}

/// Both lists walked once: each entry is handed on.
#[inline(always)]
fn walk(left: &[Token], right: &[Token], mut entry: impl FnMut(Entry)) {
    let (mut i, mut j) = (0, 0);
    while i < left.len() && j < right.len() {
        match place(&left[i]).cmp(&place(&right[j])) {
            Ordering::Less => {
                entry([1, i as u32, NONE]);
                i += 1;
            }
            Ordering::Greater => {
                entry([2, NONE, j as u32]);
                j += 1;
            }
            Ordering::Equal => {
                if left[i] != right[j] {
                    entry([3, i as u32, j as u32]);
                }
                i += 1;
                j += 1;
            }
        }
    }
    (i..left.len()).for_each(|i| entry([1, i as u32, NONE]));
    (j..right.len()).for_each(|j| entry([2, NONE, j as u32]));
}

/// One pass that tests nothing, into a list that grows.
#[inline(never)]
fn merged(left: &[Token], right: &[Token], out: &mut Vec<Entry>) {
    out.clear();
    walk(left, right, |entry| out.push(entry));
}

/// With what ours tests: both lists are sorted, and there is room for what is counted first.
#[inline(never)]
fn merged_tested(left: &[Token], right: &[Token], out: &mut [Entry]) -> Option<usize> {
    if !left.is_sorted_by_key(place) || !right.is_sorted_by_key(place) {
        return None;
    }
    let mut entries = 0;
    walk(left, right, |_| entries += 1);
    let out = out.get_mut(..entries)?;
    let mut at = 0;
    walk(left, right, |entry| {
        out[at] = entry;
        at += 1;
    });
    Some(entries)
}

/// The list with positions of its own: each column twice as large, and one more or not.
fn apart(tokens: &[Token], more: u32) -> Vec<Token> {
    let moved = |t: &Token| {
        let (col, source, name) = (2 * t.get_dst_col() + more, t.get_source_id(), t.get_name_id());
        Token::new(t.get_dst_line(), col, t.get_src_line(), t.get_src_col(), source, name)
    };
    tokens.iter().map(moved).collect()
}

/// The list with all lines behind those of another.
fn behind(tokens: &[Token], line: u32) -> Vec<Token> {
    let moved = |t: &Token| {
        let (source, name) = (t.get_source_id(), t.get_name_id());
        Token::new(line + 1 + t.get_dst_line(), t.get_dst_col(), t.get_src_line(), t.get_src_col(), source, name)
    };
    tokens.iter().map(moved).collect()
}

/// Of so many tokens one has another source line.
fn changed(tokens: &[Token], one_in: u64) -> Vec<Token> {
    let mut r = Random(41);
    let other = |t: &Token| {
        let more = u32::from(r.below(one_in) == 0);
        let (source, name) = (t.get_source_id(), t.get_name_id());
        Token::new(t.get_dst_line(), t.get_dst_col(), t.get_src_line() + more, t.get_src_col(), source, name)
    };
    tokens.iter().map(other).collect()
}

/// Of so many tokens one is left out, one put in twice and one changed.
fn edited(tokens: &[Token], one_in: u64) -> Vec<Token> {
    let mut r = Random(43);
    let (changed, mut list) = (changed(tokens, one_in), Vec::new());
    for t in changed {
        match r.below(one_in) {
            0 => {}
            1 => list.extend([t, t]),
            _ => list.push(t),
        }
    }
    list
}

fn row(seconds: f64, name: &str, left: &[Token], right: &[Token]) {
    let (left_table, right_table) = (table_of(left), table_of(right));
    let tokens = left.len() + right.len();
    let mut out = vec![0u32; 3 * tokens];
    let (mut list, mut lent) = (Vec::with_capacity(tokens), vec![[0; 3]; tokens]);
    let c = library::compare(&left_table, &right_table, &mut out);
    merged(left, right, &mut list);
    assert!(c.code == 0 && merged_tested(left, right, &mut lent) == Some(list.len()), "{name}: refused");
    let entries = c.entries as usize;
    assert!(out[..3 * entries] == list.concat() && lent[..entries] == list, "{name}: not what the walk says");
    let r = timed(
        seconds,
        vec![
            plain(|| assert!(black_box(library::compare(&left_table, &right_table, &mut out)).code == 0)),
            plain(|| merged_tested(left, right, black_box(&mut lent)).map(|n| assert!(n == entries)).unwrap()),
            plain(|| merged(left, right, black_box(&mut list))),
        ],
    );
    let each = |seconds: f64| seconds * 1e9 / tokens as f64;
    println!(
        "{:<22} {:>8} {:>8} {:>8} {:>18} {:>18} {:>8.2} {:>8.2} {:>8.2} {:>6}",
        name,
        left.len(),
        right.len(),
        entries,
        shown(r.ratios[0]),
        shown(r.ratios[1]),
        each(r.medians[0]),
        each(r.medians[1]),
        each(r.medians[2]),
        r.runs
    );
}

/// Real maps, beside copies of them and each other.
const PAIRS: [[(&str, &str); 2]; 3] = [
    [("esbuild", "esbuild-bundle-ts-parser"), ("uglify", "uglify-input-tsc-parser")],
    [("three", "terser-three"), ("terser", "terser-typescript")],
    [("terser", "terser-typescript"), ("tsc", "tsc-js-typescript")],
];

pub fn changes(seconds: f64, corpus: &Path) {
    println!(
        "\nchanges: two tables compared; a walk over the crate's tokens that tests as much and counts first, and one that tests"
    );
    println!("nothing, in one pass. ns for each token of both tables together: ours, the walk that tests, the one that does not");
    println!(
        "{:<22} {:>8} {:>8} {:>8} {:>18} {:>18} {:>8} {:>8} {:>8} {:>6}",
        "tables", "left", "right", "entries", "to the tested", "to the plain", "ns", "tested", "plain", "runs"
    );
    for count in [1_000, 10_000, 100_000, 1_000_000] {
        let tokens = made_tokens(Kind::Mixed, count);
        let last = tokens.last().map_or(0, |t| t.get_dst_line());
        row(seconds, "equal", &tokens, &tokens);
        row(seconds, "1 of 100 changed", &tokens, &changed(&tokens, 100));
        row(seconds, "1 of 10 edited", &tokens, &edited(&tokens, 10));
        row(seconds, "disjoint, by turns", &apart(&tokens, 0), &apart(&tokens, 1));
        row(seconds, "disjoint, behind", &tokens, &behind(&tokens, last));
    }
    for [(name, id), (other, other_id)] in PAIRS {
        match (real(corpus, id), real(corpus, other_id)) {
            (Ok(left), Ok(right)) => {
                row(seconds, &format!("{name}, itself"), &left.tokens, &left.tokens);
                row(seconds, &format!("{name}, 1 of 100"), &left.tokens, &changed(&left.tokens, 100));
                row(seconds, &format!("{name}, {other}"), &left.tokens, &right.tokens);
            }
            (Err(e), _) | (_, Err(e)) => println!("(no {name} and {other}: {e})"),
        }
    }
}

/// Ours, and the walk that tests as much: a text's tokens beside themselves, with one of a hundred changed, with positions apart.
pub const COUNTED: [&str; 6] = ["equal", "equal-walk", "some", "some-walk", "apart", "apart-walk"];

pub fn count(kind: &str, t: &Text) -> Result<(), String> {
    let (left, right) = match kind.trim_end_matches("-walk") {
        "equal" => (t.tokens.clone(), t.tokens.clone()),
        "some" => (t.tokens.clone(), changed(&t.tokens, 100)),
        "apart" => (apart(&t.tokens, 0), apart(&t.tokens, 1)),
        _ => return Err(format!("no part changes-{kind}")),
    };
    let (left_table, right_table) = (table_of(&left), table_of(&right));
    let mut out = vec![0u32; 3 * (left.len() + right.len())];
    let mut lent = vec![[0; 3]; left.len() + right.len()];
    let mut thing = match kind.ends_with("-walk") {
        true => plain(|| assert!(merged_tested(&left, &right, black_box(&mut lent)).is_some())),
        false => plain(|| assert!(black_box(library::compare(&left_table, &right_table, &mut out)).code == 0)),
    };
    counted(&mut thing);
    Ok(())
}
