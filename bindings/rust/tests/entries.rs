//! The version, the size of a table, the premises of writing, and what a token and a position derive.

use peghayrick::*;
use std::collections::HashSet;

/// The archive that was linked, the constant and the package are of one version.
#[test]
fn one_version() {
    let part = |text: &str| text.parse::<u64>().unwrap();
    let package = part(env!("CARGO_PKG_VERSION_MAJOR")) * 1_000_000
        + part(env!("CARGO_PKG_VERSION_MINOR")) * 1_000
        + part(env!("CARGO_PKG_VERSION_PATCH"));
    assert_eq!(VERSION, package);
    assert_eq!(version(), VERSION);
}

#[test]
fn sizes_of_tables() {
    for (text, tokens) in [
        ("", 0),
        (";;,", 0),
        ("A", 1),
        (",A;", 1),
        ("AAEG;C", 2),
        ("AAEG;C;;", 2),
        ("A,,A;;A", 3),
        ("gggggggggggggggg", 1),
        ("!\u{e4}\n", 1),
    ] {
        assert_eq!(table_size(text.as_bytes()), WIDTH * tokens, "{text}");
    }
}

/// Every text of up to seven of these symbols: a table of that size is never full, and no smaller one does where all is taken.
#[test]
fn no_table_of_that_size_is_full() {
    let symbols = b",;AC!";
    let (mut done, mut refused) = (0, 0);
    for length in 0..=7u32 {
        for number in 0..5usize.pow(length) {
            let text: Vec<u8> = (0..length).map(|k| symbols[number / 5usize.pow(k) % 5]).collect();
            let delimiters = text.iter().filter(|b| b",;".contains(b)).count();
            let size = table_size(&text);
            assert!(size <= WIDTH * (delimiters + 1));
            let mut table = vec![0; size];
            match decode_checked(&text, 9, 9, &mut table) {
                Ok(decoded) => {
                    assert_eq!(WIDTH * decoded.tokens, size);
                    done += 1;
                    if size != 0 {
                        let full = decode_checked(&text, 9, 9, &mut table[1..]).unwrap_err();
                        assert_eq!((full.code(), full.at().map(|at| at.tokens)), (7, Some(decoded.tokens - 1)));
                    }
                }
                Err(refusal) => {
                    assert_ne!(refusal.code(), 7, "{text:?}");
                    refused += 1;
                }
            }
        }
    }
    assert!(done > 1000 && refused > 1000, "{done} {refused}");
}

type Decode = fn(&[u8], u32, u32, &mut [u32]) -> Result<Decoded, Refusal>;

/// Written and read again.
fn again(decode: Decode, tokens: &[Token], sources: u32, names: u32) -> Result<Vec<Token>, Refusal> {
    let mut out = vec![0; 36 * tokens.len() + 9];
    let encoded = serialize_mappings(table_of(tokens), TokenChunk::first(tokens.len() as u32), &mut out)?;
    let mut table = vec![0; table_size(&out[..encoded.bytes])];
    let decoded = decode(&out[..encoded.bytes], sources, names, &mut table)?;
    Ok(tokens_of(written(&table, decoded.tokens)).to_vec())
}

/// Whether both lists have the same tokens, wherever each was read.
fn same(one: &[Token], other: &[Token]) -> bool {
    one.len() == other.len() && one.iter().zip(other).all(|(a, b)| a.same_mapping(b))
}

#[test]
fn premises() {
    let (source, name) = (Token::new(0, 1, 2, 3, Some(1), None), Token::new(0, 4, 5, 6, Some(0), Some(2)));
    let bare = |line, src_line, src_col| Token::new(line, 9, src_line, src_col, None, None);
    for (tokens, meets) in [
        (vec![], true),
        (vec![source, name], true),
        (vec![bare(3, 0, 0), source, bare(0, 2, 3)], false),
        (vec![bare(0, 0, 0), source, bare(0, 2, 3), name, bare(1, 5, 6)], true),
        (vec![bare(0, 0, 1)], false),
        (vec![source, bare(0, 2, 2)], false),
        (vec![source, bare(0, 0, 0)], false),
        (vec![Token::new(0, 0, 0, 0, None, Some(0))], false),
        (vec![Token::new(0, 0, 0, 0, Some(2), None)], false),
        (vec![Token::new(0, 0, 0, 0, Some(0), Some(3))], false),
        (vec![Token::new(1, 0, 0, 0, Some(0), None), source], false),
    ] {
        assert_eq!(meets_premises(table_of(&tokens), 2, 3), meets, "{tokens:?}");
        assert_eq!(meets_checked_premises(table_of(&tokens), 2, 3), meets, "{tokens:?}");
        // Each of these that does not meet them is refused, or reads back as something else.
        for decode in [decode_lenient as Decode, decode_checked] {
            assert_eq!(again(decode, &tokens, 2, 3).is_ok_and(|read| same(&read, &tokens)), meets, "{tokens:?}");
        }
    }
    assert!(!meets_premises(&table_of(&[source])[..WIDTH - 1], 2, 3));
    assert!(!meets_checked_premises(&table_of(&[source])[..WIDTH - 1], 2, 3));
}

/// A step of one number, up and down: 2^31 - 1 is the last that checked mode reads back.
#[test]
fn premises_of_checked_mode() {
    const MOST: u32 = (1 << 31) - 1;
    let token = |field: usize, number: u32| {
        let mut numbers = [0, 5, 5, 5, 5, 5, 5];
        numbers[field] = number;
        tokens_of(&numbers)[0]
    };
    for field in 1..6 {
        for (ways, meets) in [
            (&[MOST][..], true),
            (&[MOST + 1], false),
            (&[MOST, 2 * MOST], true),
            (&[7, MOST + 7], true),
            (&[7, MOST + 8], false),
            (&[MOST, 0], true),
            (&[MOST, MOST + 1, 1], true),
            (&[MOST, MOST + 1, 0], false),
        ] {
            let tokens: Vec<Token> = ways.iter().map(|&number| token(field, number)).collect();
            let table = table_of(&tokens);
            assert!(meets_premises(table, NONE, NONE));
            assert_eq!(meets_checked_premises(table, NONE, NONE), meets, "{tokens:?}");
            assert!(again(decode_lenient, &tokens, NONE, NONE).is_ok_and(|read| same(&read, &tokens)), "{tokens:?}");
            match again(decode_checked, &tokens, NONE, NONE) {
                Ok(read) => assert!(meets && same(&read, &tokens), "{tokens:?}"),
                Err(refusal) => assert_eq!((refusal.code(), meets), (6, false), "{tokens:?}"),
            }
        }
    }
    // A line begins at column 0; what is not written has no step.
    let line = |dst_line, dst_col| Token::new(dst_line, dst_col, 0, 0, None, None);
    assert!(meets_checked_premises(table_of(&[line(0, MOST), line(0, MOST + 9), line(1, 0)]), 0, 0));
    assert!(!meets_checked_premises(table_of(&[line(0, MOST), line(0, MOST + 9), line(0, 0)]), 0, 0));
    // What checked mode took need not read back in it: minus zero is a step of -2^31.
    let mut table = [0; 3 * WIDTH];
    assert!(decode_checked(b"+/////D,C,B", 0, 0, &mut table).is_ok());
    assert!(meets_premises(&table, 0, 0) && !meets_checked_premises(&table, 0, 0));
}

#[test]
fn positions() {
    assert_eq!(Position::default(), Position { line: 0, col: 0 });
    let places = [Position::new(1, 0), Position::new(0, 1), Position::new(0, 9), Position { line: 0, col: 9 }];
    assert_eq!(places.into_iter().collect::<HashSet<_>>().len(), 3);
    assert_eq!(format!("{:?}", places[1]), "Position { line: 0, col: 1 }");
}

#[test]
fn tokens() {
    assert_eq!(table_of(&[Token::default()]), [0, 0, 0, 0, NONE, NONE, NONE]);
    let token = Token::new(1, 2, 3, 4, Some(5), None);
    let three: HashSet<Token> = [token, token, token.with_segment(Some(7)), Token::default()].into_iter().collect();
    assert_eq!(three.len(), 3);
    assert_eq!(token.with_segment(Some(7)).segment(), Some(7));
    assert_eq!(token.with_segment(Some(7)).with_segment(None), token);
    assert_eq!(token.with_segment(Some(NONE)).segment(), None);
    assert_eq!(
        format!("{token:?} {:?}", Token::default().name_id),
        "Token { dst_line: 1, dst_col: 2, src_line: 3, src_col: 4, source_id: Some(5), name_id: None, segment: None } 4294967295"
    );
}
