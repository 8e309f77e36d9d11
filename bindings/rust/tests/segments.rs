//! The segment of a token: where decoding says that it begins, who keeps it, and who passes it over.

use peghayrick::*;

type Decode = fn(&[u8], u32, u32, &mut [u32]) -> Result<Decoded, Refusal>;
const DECODES: [Decode; 3] = [decode_mapping, decode_checked, decode_lenient];

/// Where the segments of a text begin, by the rule: each run of bytes that are neither `,` nor `;`.
fn begins(text: &[u8]) -> Vec<usize> {
    let delimiter = |at: usize| b",;".contains(&text[at]);
    (0..text.len()).filter(|&at| !delimiter(at) && (at == 0 || delimiter(at - 1))).collect()
}

#[test]
fn of_worked_texts() {
    for (text, segments) in [
        ("", &[][..]),
        ("A", &[0]),
        ("AAEG;C", &[0, 5]),
        (",,A;;A", &[2, 5]),
        ("A,A,A", &[0, 2, 4]),
        ("gAAAA,CAAC;;,EAAE;", &[0, 6, 13]),
        // What is kept before a refused segment.
        ("A,!", &[0]),
        (";A;,AAA", &[1]),
        ("AAEG;C,D,D", &[0, 5, 7]),
    ] {
        for decode in DECODES {
            let mut table = [9; 4 * WIDTH];
            let tokens = match decode(text.as_bytes(), 1, 1, &mut table) {
                Ok(decoded) => decoded.tokens,
                Err(refusal) => refusal.at().unwrap().tokens,
            };
            let read: Vec<_> = tokens_of(written(&table, tokens)).iter().map(|token| token.segment().unwrap()).collect();
            assert_eq!(read, segments, "{text}");
        }
    }
}

/// Every text of up to seven of these symbols.
#[test]
fn of_every_short_text() {
    let symbols = b",;AC!";
    let mut seen = 0;
    for length in 0..=7u32 {
        for number in 0..5usize.pow(length) {
            let text: Vec<u8> = (0..length).map(|k| symbols[number / 5usize.pow(k) % 5]).collect();
            let mut table = vec![9; table_size(&text)];
            let decoded = decode_mapping(&text, 1, 1, &mut table);
            let tokens = decoded.map_or_else(|refusal| refusal.at().unwrap().tokens, |decoded| decoded.tokens);
            for (token, begin) in tokens_of(written(&table, tokens)).iter().zip(begins(&text)) {
                assert_eq!(token.segment(), Some(begin as u32), "{text:?}");
                seen += 1;
            }
        }
    }
    assert!(seen > 10_000, "{seen}");
}

/// Any number may stand there.
const ANY: [u32; 6] = [0, 1, 24, 1 << 31, NONE - 1, NONE];

#[test]
fn translating_keeps_it() {
    let tokens = ANY.map(|segment| Token { segment, ..Token::new(1, 2, 3, 4, Some(5), Some(6)) });
    let moved = ANY.map(|segment| Token { segment, ..Token::new(11, 2, 3, 4, Some(25), Some(36)) });
    let mut records = tokens;
    assert_eq!(translate_tokens(&mut records, 10, 20, 30), Ok(()));
    assert_eq!(records, moved);
    let mut table = table_of(&tokens).to_vec();
    assert_eq!(translate(&mut table, 10, 20, 30), Ok(()));
    assert_eq!(table, table_of(&moved));
}

/// Of the outer token, whether the result has a source or not.
#[test]
fn composing_takes_the_outer_one() {
    for (k, segment) in ANY.into_iter().enumerate() {
        let inner = Token { segment: ANY[(k + 1) % 6], ..Token::new(0, 3, 20, 2, Some(1), None) };
        let bare = Token { segment: ANY[(k + 2) % 6], ..Token::new(1, 0, 0, 0, None, None) };
        let outer = [
            Token { segment, ..Token::new(0, 9, 0, 4, Some(0), None) }, // mapped
            Token { segment, ..Token::new(1, 0, 7, 7, Some(0), None) }, // nothing is found
            Token { segment, ..Token::new(2, 0, 1, 0, Some(0), None) }, // what is found has no source
            Token { segment, ..Token::new(3, 0, 0, 0, None, None) },    // without a source
        ];
        let (mut result, mut again) = ([Token::default(); 4], [Token::default(); 4]);
        let (none, outer, inner) = (Names::default(), table_of(&outer), [inner, bare]);
        let done = compose(outer, 1, none, table_of(&inner), none, table_of_mut(&mut result), &mut []);
        assert_eq!(done, Ok(Composed { added: 0 }));
        let done = compose_with(outer, 1, none, table_of(&inner), none, table_of_mut(&mut again), &mut [], &mut []);
        assert_eq!((done, again), (Ok(Composed { added: 0 }), result));
        assert_eq!(result[0], Token { segment, ..Token::new(0, 9, 20, 2, Some(1), None) });
        for (line, token) in (1..).zip(&result[1..]) {
            assert_eq!(*token, Token { segment, ..Token::new(line, 0, 0, 0, None, None) });
        }
    }
}

#[test]
fn the_others_pass_it_over() {
    let tokens = [Token::new(0, 0, 2, 3, Some(0), None), Token::new(1, 1, 2, 3, None, None)];
    for segment in ANY {
        let tokens = tokens.map(|token| Token { segment, ..token });
        let table = table_of(&tokens);
        let mut out = *b"#######";
        assert_eq!(serialize_mappings(table, TokenChunk::first(2), &mut out).map(|encoded| encoded.bytes), Ok(6));
        assert_eq!(&out, b"AAEG;C#");
        assert_eq!((lookup_index(table, 0, 7), lookup_index(table, 1, 0)), (Ok(Some(0)), Ok(None)));
        assert_eq!(lookup_token(table, 1, 1), Ok(Some(tokens[1])));
        for many in [lookup_many, lookup_many_quick] {
            let (asked, mut found) = ([Position::new(0, 7), Position::new(1, 0), Position::new(1, 1)], [7; 3]);
            assert_eq!((many(table, &asked, &mut found), found), (Ok(()), [0, NONE, 1]));
        }
        for other in ANY {
            let others = tokens.map(|token| Token { segment: other, ..token });
            assert_eq!(compare_tables(table, table_of(&others), &mut []).map(|changes| changes.len()), Ok(0));
        }
        assert!(meets_premises(table, 1, 0) && meets_checked_premises(table, 1, 0));
        assert!(!meets_premises(table, 0, 0) && !meets_checked_premises(table, 0, 0));
    }
}

/// What is written is another text: its segments begin elsewhere, and the rest of the tokens is the same.
#[test]
fn written_and_read_again() {
    let (text, mut table, mut again) = (b";;AAAA,,gAAEG;C;", [0; 3 * WIDTH], [0; 3 * WIDTH]);
    assert!(decode_mapping(text, 1, 0, &mut table).is_ok());
    let mut out = [0; 16];
    let bytes = serialize_mappings(&table, TokenChunk::first(3), &mut out).unwrap().bytes;
    assert_eq!(&out[..bytes], b";;AAAA,AAEG;C");
    assert!(decode_mapping(&out[..bytes], 1, 0, &mut again).is_ok());
    let segments = |table| tokens_of(table).iter().map(|token| token.segment().unwrap()).collect::<Vec<_>>();
    assert_eq!((segments(&table), segments(&again)), (vec![2, 8, 14], vec![2, 7, 12]));
    assert!(tokens_of(&table).iter().zip(tokens_of(&again)).all(|(a, b)| a.same_mapping(b)));
}

#[test]
fn same_mapping_compares_the_first_six() {
    let token = tokens_of(&[1, 2, 3, 4, 5, 6, 7])[0];
    for field in 0..WIDTH {
        let mut numbers = [1, 2, 3, 4, 5, 6, 7];
        numbers[field] = 9;
        assert_eq!(token.same_mapping(&tokens_of(&numbers)[0]), field == 6);
        assert_ne!(token, tokens_of(&numbers)[0]);
    }
}
