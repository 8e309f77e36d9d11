//! Holds the Rust structs, constants and words to those of the C header, which `bindings/tests/layout.c` prints. `bindings/test`
//! names what it printed in `PEGHAYRICK_LAYOUT`; without that, it is built here.

use core::mem::{align_of, offset_of, size_of};
use peghayrick::{raw, work_places, Change, Names, Position, Refusal, Stop, Token, TokenChunk, NONE, VERSION, WIDTH};
use std::fmt::Write;
use std::path::Path;
use std::process::Command;

fn width<S, F>(_: fn(&S) -> &F) -> usize {
    size_of::<F>()
}

macro_rules! layout {
    ($out:ident, $c:literal, $rust:ty: $($field:ident)*) => {
        writeln!($out, "{} {} {}", $c, size_of::<$rust>(), align_of::<$rust>()).unwrap();
        $(
            let size = width::<$rust, _>(|s| &s.$field);
            writeln!($out, "{}.{} {} {}", $c, stringify!($field), offset_of!($rust, $field), size).unwrap();
        )*
    };
}

fn rust() -> String {
    let mut out = String::new();
    layout!(out, "pgk_token", Token: dst_line dst_col src_line src_col source_id name_id segment);
    layout!(out, "pgk_chunk", TokenChunk: start end prev_dst_line prev_dst_col prev_src_line prev_src_col prev_name_id prev_source_id);
    layout!(out, "pgk_answer", raw::Answer: code number);
    layout!(out, "pgk_decoded", raw::Decoded: code number tokens offset);
    layout!(out, "pgk_encoded", raw::Encoded: code number bytes next);
    layout!(out, "pgk_composed", raw::Composed: code number added);
    layout!(out, "pgk_compared", raw::Compared: code number entries);
    layout!(out, "pgk_name", raw::Name: found outer start end);
    layout!(out, "uint32_t[2]", Position:);
    layout!(out, "size_t", usize:);
    writeln!(out, "PGK_NONE {NONE}").unwrap();
    writeln!(out, "PGK_WIDTH {WIDTH}").unwrap();
    let (none, one) = (Names::default(), Names { text: b"", ends: &[0] });
    writeln!(out, "pgk_work_places {} {}", work_places(one, none), work_places(none, one)).unwrap();
    let kinds = [Change::OnlyLeft(0), Change::OnlyRight(0), Change::Different { left: 0, right: 0 }];
    for (name, change) in ["ONLY_LEFT", "ONLY_RIGHT", "DIFFERENT"].into_iter().zip(kinds) {
        writeln!(out, "PGK_{name} {}", change.kind()).unwrap();
    }
    writeln!(out, "PGK_VERSION {VERSION}").unwrap();
    writeln!(out, "PGK_VERSION_TEXT {}", env!("CARGO_PKG_VERSION")).unwrap();
    for refusal in refusals() {
        writeln!(out, "PGK_{} {} {}", upper(refusal.name()), refusal.code(), refusal.words()).unwrap();
    }
    let unknown = Refusal::Unknown { code: 99, number: 0 };
    writeln!(out, "unknown {} {}", unknown.code(), unknown.words()).unwrap();
    out
}

fn refusals() -> [Refusal; 16] {
    let at = Stop { tokens: 0, offset: 0 };
    [
        Refusal::VlqLeftover { at },
        Refusal::VlqOverflow { at },
        Refusal::BadSegmentSize { fields: 2, at },
        Refusal::BadSourceReference { source_id: 0, at },
        Refusal::BadNameReference { name_id: 0, at },
        Refusal::WideValue { field: 0, at },
        Refusal::TableFull { at: None },
        Refusal::NoRoom { needed: 1 },
        Refusal::LineGoesBack { index: 0 },
        Refusal::BadChunk,
        Refusal::BadTable,
        Refusal::TooBig { index: 0, at: None },
        Refusal::MoreThanOneSource,
        Refusal::BadNames,
        Refusal::OddList,
        Refusal::Unsorted { index: 0 },
    ]
}

/// `VlqLeftover` as `VLQ_LEFTOVER`.
fn upper(name: &str) -> String {
    let mut out = String::new();
    for c in name.chars() {
        if c.is_uppercase() && !out.is_empty() {
            out.push('_');
        }
        out.push(c.to_ascii_uppercase());
    }
    out
}

/// What layout.c prints.
fn c() -> String {
    if let Some(path) = std::env::var_os("PEGHAYRICK_LAYOUT") {
        return std::fs::read_to_string(path).expect("what layout.c printed");
    }
    let bindings = Path::new(env!("CARGO_MANIFEST_DIR")).join("..");
    let program = Path::new(env!("CARGO_TARGET_TMPDIR")).join("layout");
    let mut cc = Command::new("cc");
    cc.arg("-I").arg(bindings.join("c")).arg(bindings.join("tests/layout.c")).arg("-o").arg(&program);
    assert!(cc.status().expect("cc, or run bindings/test").success());
    String::from_utf8(Command::new(program).output().expect("layout").stdout).expect("text")
}

#[test]
fn both_have_the_same_structs_constants_and_words() {
    assert_eq!(rust(), c());
}

/// The sizes by number, so that both sides cannot move together.
#[test]
fn sizes() {
    assert_eq!((size_of::<Token>(), offset_of!(Token, segment), WIDTH), (28, 24, 7));
    assert_eq!((size_of::<Position>(), align_of::<Position>()), (8, 4));
    assert_eq!((offset_of!(Position, line), offset_of!(Position, col)), (0, 4));
    assert_eq!(size_of::<TokenChunk>(), 32);
    assert_eq!((size_of::<raw::Answer>(), size_of::<raw::Decoded>(), size_of::<raw::Encoded>()), (16, 32, 56));
    assert_eq!((size_of::<raw::Composed>(), size_of::<raw::Compared>(), size_of::<raw::Name>()), (24, 24, 32));
}
