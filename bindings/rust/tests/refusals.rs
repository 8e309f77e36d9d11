//! Every code through the safe functions, with its number, its place and its words.

use peghayrick::*;

const AT: Stop = Stop { tokens: 1, offset: 5 };

/// Decodes `AAAA,` and the segment into a table of two places, in checked mode or not.
fn second(segment: &str, checked: bool) -> Refusal {
    let text = format!("AAAA,{segment}");
    let mut table = [7u32; 2 * WIDTH + 1];
    let decode = if checked { decode_checked } else { decode_lenient };
    let refusal = decode(text.as_bytes(), 1, 1, &mut table).unwrap_err();
    assert_eq!(table[..WIDTH], [0, 0, 0, 0, 0, NONE, 0]);
    assert_eq!(table[WIDTH..], [7; WIDTH + 1]);
    refusal
}

/// Code, number and place agree, and the words name the refusal and something to do.
fn holds(refusal: Refusal, want: Refusal, code: u64, number: u64, at: Option<Stop>, says: &str) {
    assert_eq!(refusal, want);
    assert_eq!((refusal.code(), refusal.number(), refusal.at()), (code, number, at));
    let words = refusal.to_string();
    assert!(words.contains(says), "{words}");
    assert!(words.contains(refusal.name()) && words.contains("; "), "{words}");
    assert!(format!("{refusal:?}").starts_with(refusal.name()));
}

#[test]
fn done() {
    let mut table = [7u32; WIDTH];
    assert_eq!(decode_mapping(b"", 0, 0, &mut []), Ok(Decoded { tokens: 0, offset: 0 }));
    assert_eq!(decode_mapping(b"A", 0, 0, &mut table), Ok(Decoded { tokens: 1, offset: 1 }));
    assert_eq!(table, [0, 0, 0, 0, NONE, NONE, 0]);
}

#[test]
fn decoding() {
    // Each is refused at the byte at fault.
    let at = |offset| Stop { tokens: 1, offset };
    let both = |segment: &str, want: Refusal, code, number, says: &str| {
        for checked in [false, true] {
            holds(second(segment, checked), want, code, number, want.at(), says);
        }
    };
    both("!", Refusal::VlqLeftover { at: at(6) }, 1, 0, "byte 6: a value is cut short");
    both("!,A", Refusal::VlqLeftover { at: at(6) }, 1, 0, "byte 6: a value is cut short");
    both("gggggggggggggA", Refusal::VlqOverflow { at: at(18) }, 2, 0, "byte 18: a value has more than 13 digits");
    both("AAA", Refusal::BadSegmentSize { fields: 3, at: at(5) }, 3, 3, "byte 5: a segment has 3 fields");
    both("D", Refusal::BadSegmentSize { fields: 0, at: at(5) }, 3, 0, "byte 5: a column or line falls below 0");
    both("gAADA", Refusal::BadSegmentSize { fields: 0, at: at(8) }, 3, 0, "byte 8: a column or line falls below 0");
    both("AAAD", Refusal::BadSegmentSize { fields: 0, at: at(8) }, 3, 0, "byte 8: a column or line falls below 0");
    both("ACAA", Refusal::BadSourceReference { source_id: 0, at: at(6) }, 4, 0, "byte 6: a segment refers to a source");
    both("AAAAC", Refusal::BadNameReference { name_id: 1, at: at(9) }, 5, 1, "byte 9: a segment refers to name 1");
    let lost = Refusal::BadNameReference { name_id: NONE, at: at(9) };
    holds(second("AAAAD", false), lost, 5, 4294967295, Some(at(9)), "name 4294967295");
    for (segment, field, offset, says) in [
        ("ggggggI", 0, 5, "byte 5: a generated column"),
        ("ggggggE", 0, 5, "byte 5: a generated column or the step to it"),
        ("hgggggE", 0, 5, "byte 5: a generated column"),
        ("+/////H", 0, 5, "byte 5: a generated column"),
        ("ggggggggggggQ", 0, 5, "byte 5: a generated column"),
        ("AggggggEAA", 1, 6, "byte 6: the step to a source"),
        ("AAggggggIA", 2, 7, "byte 7: a source line"),
        ("AAAggggggI", 3, 8, "byte 8: a source column"),
        ("AAAAggggggE", 4, 9, "byte 9: a name id or the step to it"),
        ("AAAAD", 4, 9, "byte 9: a name id"),
        ("AAAAB", 4, 9, "byte 9: a name id"),
        // Before the column, before the count, and the first of two.
        ("DggggggEAA", 1, 6, "byte 6: the step to a source"),
        ("AggggggE", 1, 6, "byte 6: the step to a source"),
        ("AAAAggggggEA", 4, 9, "byte 9: a name id"),
        ("AAggggggEggggggE", 2, 7, "byte 7: a source line"),
    ] {
        let wide = Refusal::WideValue { field, at: at(offset) };
        holds(second(segment, true), wide, 6, u64::from(field), Some(at(offset)), says);
    }
    // Minus zero falls below 0, a sixth field is not judged, and a value that breaks comes first.
    for (segment, want, number) in [
        ("B", Refusal::BadSegmentSize { fields: 0, at: at(5) }, 0),
        ("hA", Refusal::BadSegmentSize { fields: 0, at: at(5) }, 0),
        ("AAAAAggggggE", Refusal::BadSegmentSize { fields: 6, at: at(5) }, 6),
        ("ggggggEg", Refusal::VlqLeftover { at: at(13) }, 0),
        ("ggggggEgggggggggggggA", Refusal::VlqOverflow { at: at(25) }, 0),
    ] {
        assert_eq!(second(segment, true), want, "{segment}");
        assert_eq!(want.number(), number);
    }
    let full = decode_mapping(b"AAAA,A", 1, 0, &mut [7; 2 * WIDTH - 1]).unwrap_err();
    holds(full, Refusal::TableFull { at: Some(AT) }, 7, 0, Some(AT), "as many numbers as table_size counts");
}

#[test]
fn writing() {
    let tokens = [Token::new(1, 0, 0, 0, None, None), Token::new(0, 0, 0, 0, None, None)];
    let table = table_of(&tokens);
    let mut out = *b"####";
    let mut write = |table: &[u32], chunk, room: usize| serialize_mappings(table, chunk, &mut out[..room]).unwrap_err();
    holds(write(table, TokenChunk::first(1), 1), Refusal::NoRoom { needed: 2 }, 8, 2, None, "2 places are needed");
    holds(write(table, TokenChunk::first(2), 4), Refusal::LineGoesBack { index: 1 }, 9, 1, None, "token 1");
    holds(write(table, TokenChunk::first(3), 4), Refusal::BadChunk, 10, 0, None, "chunk");
    for numbers in [1, 6, 8, 12, 13] {
        holds(write(&table[..numbers], TokenChunk::first(1), 4), Refusal::BadTable, 11, 0, None, "WIDTH numbers a token");
    }
    assert_eq!(&out, b"####");
}

#[test]
fn translating() {
    let mut tokens = [Token::new(0, 0, 0, 0, None, None), Token::new(0, 0, 0, 0, Some(NONE - 1), None)];
    let before = tokens;
    let refusal = translate_tokens(&mut tokens, 0, 1, 0).unwrap_err();
    holds(refusal, Refusal::TooBig { index: 1, at: None }, 12, 1, None, "token 1");
    let refusal = translate(table_of_mut(&mut tokens), NONE, 1, 0).unwrap_err();
    holds(refusal, Refusal::TooBig { index: 1, at: None }, 12, 1, None, "nothing was moved");
    assert_eq!(tokens, before);
    // Tables of 0.5.0, six numbers a token, among them.
    for numbers in [1, 6, 8, 12, 13, 36] {
        assert_eq!(translate(&mut vec![0; numbers], 0, 0, 0), Err(Refusal::BadTable), "{numbers}");
        assert_eq!(lookup_token(&vec![0; numbers], 0, 0), Err(Refusal::BadTable), "{numbers}");
        assert!(!meets_premises(&vec![0; numbers], 1, 1) && !meets_checked_premises(&vec![0; numbers], 1, 1), "{numbers}");
    }
    for numbers in [0, 7, 14, 42] {
        assert_eq!(translate(&mut vec![0; numbers], 0, 0, 0), Ok(()), "{numbers}");
        assert!(lookup_token(&vec![0; numbers], 0, 0).is_ok() && meets_premises(&vec![0; numbers], 1, 1), "{numbers}");
    }
    assert_eq!(translate_tokens(&mut [], NONE, NONE, NONE), Ok(()));
}

#[test]
fn looking() {
    let tokens = [Token::new(0, 1, 9, 0, Some(0), None), Token::new(0, 6, 9, 4, Some(0), None)];
    let asked = [Position::new(0, 7), Position::new(0, 0), Position::new(0, 7)];
    // In a sorted table, and in one that is not.
    for (tokens, want) in [(tokens, [1, NONE, 1, 7]), ([tokens[1], tokens[0]], [0, NONE, 0, 7])] {
        for many in [lookup_many, lookup_many_quick] {
            let table = table_of(&tokens);
            let mut found = [7u32; 4];
            let mut call = |table: &[u32], room: usize| many(table, &asked, &mut found[..room]).unwrap_err();
            for room in 0..3 {
                holds(call(table, room), Refusal::NoRoom { needed: 3 }, 8, 3, None, "3 places are needed");
            }
            // A bad table comes first.
            for numbers in [1, 6, 8, 12, 13] {
                for room in 0..5 {
                    holds(call(&table[..numbers], room), Refusal::BadTable, 11, 0, None, "WIDTH numbers a token");
                }
            }
            assert_eq!(found, [7; 4]);
            assert_eq!(many(&table[1..], &[], &mut []), Err(Refusal::BadTable));
            assert_eq!(many(table, &asked, &mut found), Ok(()));
            assert_eq!(found, want);
        }
    }
}

/// Code 17, which only the C forms give: after a bad table and before too little room.
#[test]
fn odd_lists() {
    let odd = Refusal::OddList;
    holds(odd, odd, 17, 0, None, "hand in two numbers for each position");
    for many in [raw::pgk_lookup_many, raw::pgk_lookup_many_quick] {
        let (table, asked, mut found) = ([0u32; WIDTH], [0u32; 4], [7u32; 2]);
        let mut call = |numbers: usize, pairs: usize, room: usize| {
            // SAFETY: each pointer is that of a list which has the length at least.
            let a = unsafe { many(table.as_ptr(), numbers, asked.as_ptr(), pairs, found.as_mut_ptr(), room) };
            (a.code, a.number)
        };
        for room in 0..3 {
            assert_eq!(call(WIDTH, 1, room), (odd.code(), odd.number()));
            assert_eq!(call(WIDTH, 3, room), (odd.code(), odd.number()));
            assert_eq!(call(WIDTH - 1, 3, room), (11, 0));
        }
        assert_eq!(call(WIDTH, 4, 1), (8, 2));
        assert_eq!(found, [7; 2]);
    }
}

/// By both calls; with working memory, enough or none, each of these refusals comes before its own.
#[test]
fn composing() {
    let outer = [Token::new(0, 0, 0, 0, Some(0), Some(0))];
    let outer = table_of(&outer);
    let names = Names { text: b"ab", ends: &[1, 2] };
    let none = Names::default();
    for places in [None, Some(6), Some(0)] {
        let (mut result, mut added, mut work) = ([7u32; WIDTH + 1], [7u32; 2], [7u32; 6]);
        let mut call = |outer: &[u32], sources, names, inner: &[u32], inner_names, numbers: usize, room: usize| {
            let (result, added) = (&mut result[..numbers], &mut added[..room]);
            match places {
                None => compose(outer, sources, names, inner, inner_names, result, added),
                Some(places) => compose_with(outer, sources, names, inner, inner_names, result, added, &mut work[..places]),
            }
            .unwrap_err()
        };
        let more = call(outer, 2, names, outer, none, WIDTH, 2);
        holds(more, Refusal::MoreThanOneSource, 13, 0, None, "more than one source");
        holds(call(&outer[1..], 1, names, outer, none, WIDTH, 2), Refusal::BadTable, 11, 0, None, "whole tokens");
        holds(call(outer, 1, names, &outer[1..], none, WIDTH, 2), Refusal::BadTable, 11, 0, None, "whole tokens");
        for bad in [Names { text: b"ab", ends: &[1, 3] }, Names { text: b"ab", ends: &[2, 1] }] {
            holds(call(outer, 1, bad, outer, none, WIDTH, 2), Refusal::BadNames, 14, 0, None, "name list");
            holds(call(outer, 1, names, outer, bad, WIDTH, 2), Refusal::BadNames, 14, 0, None, "name list");
        }
        holds(call(outer, 1, names, outer, none, WIDTH - 1, 2), Refusal::TableFull { at: None }, 7, 0, None, "outer table");
        for room in 0..2 {
            holds(call(outer, 1, names, outer, none, WIDTH, room), Refusal::NoRoom { needed: 2 }, 8, 2, None, "2 places");
        }
        assert_eq!((result, added, work), ([7; WIDTH + 1], [7; 2], [7; 6]));
    }
    let (mut result, mut added) = ([7u32; WIDTH + 1], [7u32; 2]);
    let done = compose(outer, 1, names, outer, none, &mut result, &mut added);
    assert_eq!(done, Ok(Composed { added: 0 }));
    assert_eq!(result, [0, 0, 0, 0, 0, 0, NONE, 7]);
    assert_eq!(name_of(Names { text: b"", ends: &[1] }, none, &[], 0), None);
    assert_eq!(name_of(none, names, &[1], 0), Some(&b"b"[..]));
    assert_eq!(name_of(none, names, &[2], 0), None);
    assert_eq!(name_of(none, names, &[1], NONE), None);
}

/// Too little working memory comes last, by the places that are needed: two for each inner name and three for each outer one.
#[test]
fn working_memory() {
    let (outer, inner) = ([Token::new(0, 0, 0, 0, Some(0), Some(0))], [Token::new(0, 0, 2, 3, Some(0), None)]);
    let (none, one, two) = (Names::default(), Names { text: b"a", ends: &[1] }, Names { text: b"ab", ends: &[1, 2] });
    for (inner_names, outer_names, needed) in [(none, one, 3), (one, none, 2), (one, one, 5), (two, one, 7), (one, two, 8)] {
        assert_eq!(work_places(inner_names, outer_names), needed);
        let (mut result, mut added, mut work) = ([7u32; WIDTH + 1], [7u32; 3], [7u32; 12]);
        let mut call = |room: usize, places: usize| {
            let (outer, inner, added, work) = (table_of(&outer), table_of(&inner), &mut added[..room], &mut work[..places]);
            compose_with(outer, 1, outer_names, inner, inner_names, &mut result, added, work)
        };
        let count = outer_names.ends.len();
        for places in 0..needed {
            let short = Refusal::NoRoom { needed: needed as u64 };
            holds(call(count, places).unwrap_err(), short, 8, needed as u64, None, "lend so many and call again");
            // The places for the added names come first.
            if count > 0 {
                assert_eq!(call(count - 1, places), Err(Refusal::NoRoom { needed: count as u64 }));
            }
        }
        assert!(call(count, needed).is_ok() && call(3, needed + 1).is_ok() && call(3, 12).is_ok());
        assert_eq!(result[WIDTH], 7);
        let (mut result, mut work) = ([7u32; WIDTH], [7u32; 8]);
        let refused = compose_with(
            table_of(&outer),
            1,
            outer_names,
            table_of(&inner),
            inner_names,
            &mut result,
            &mut [0; 2],
            &mut work[1..needed],
        );
        assert_eq!((refused, result, work), (Err(Refusal::NoRoom { needed: needed as u64 }), [7; WIDTH], [7; 8]));
    }
}

/// In this order: a bad table, left and right; a table that is not sorted, left and right; too little room.
#[test]
fn comparing() {
    let (early, late) = (Token::new(0, 6, 9, 0, Some(0), None), Token::new(1, 0, 9, 4, Some(0), None));
    let (sorted, falls, later) = ([early, late], [late, early], [early, late, late, early, late]);
    let (sorted, falls, later) = (table_of(&sorted), table_of(&falls), table_of(&later));
    let mut out = [7u32; 6];
    let mut call = |left: &[u32], right: &[u32], room: usize| compare_tables(left, right, &mut out[..room]).unwrap_err();
    for room in 0..=6 {
        for numbers in [1, 6, 8, 12, 13] {
            for other in [sorted, falls, &sorted[..13], &[]] {
                holds(call(&sorted[..numbers], other, room), Refusal::BadTable, 11, 0, None, "WIDTH numbers a token");
                holds(call(other, &sorted[..numbers], room), Refusal::BadTable, 11, 0, None, "WIDTH numbers a token");
            }
        }
        for other in [sorted, &[]] {
            holds(call(falls, other, room), Refusal::Unsorted { index: 1 }, 22, 1, None, "token 1 of a table");
            holds(call(other, later, room), Refusal::Unsorted { index: 3 }, 22, 3, None, "token 3 of a table");
        }
        // The left table comes first, and each says by itself whether it is the one.
        assert_eq!(call(falls, later, room), Refusal::Unsorted { index: 1 });
        assert_eq!(call(later, falls, room), Refusal::Unsorted { index: 3 });
        assert_eq!(call(later, later, room), Refusal::Unsorted { index: 3 });
    }
    for room in 0..6 {
        holds(call(sorted, &[], room), Refusal::NoRoom { needed: 6 }, 8, 6, None, "6 places are needed");
        holds(call(&[], sorted, room), Refusal::NoRoom { needed: 6 }, 8, 6, None, "6 places are needed");
    }
    for room in 0..3 {
        holds(call(sorted, &sorted[..WIDTH], room), Refusal::NoRoom { needed: 3 }, 8, 3, None, "3 places are needed");
    }
    assert_eq!(out, [7; 6]);
    // Which of the two is meant: the left one where it gives the same code with itself.
    assert_eq!(compare_tables(&falls[1..], sorted, &mut out).unwrap_err(), Refusal::BadTable);
    assert_eq!(compare_tables(&falls[1..], &falls[1..], &mut out).unwrap_err(), Refusal::BadTable);
    assert_eq!(compare_tables(falls, &sorted[1..], &mut out).unwrap_err(), Refusal::BadTable);
    assert_eq!(compare_tables(falls, falls, &mut out).unwrap_err(), Refusal::Unsorted { index: 1 });
    assert_eq!(compare_tables(sorted, sorted, &mut []).map(|changes| changes.len()), Ok(0));
    assert_eq!(compare_tables(sorted, &[], &mut out).map(|changes| changes.len()), Ok(2));
}

/// Empty slices: their address is never null.
#[test]
fn nothing_lent() {
    let empty: Vec<u32> = Vec::new();
    assert_eq!(decode_checked(&[], NONE, NONE, &mut empty.clone()), Ok(Decoded { tokens: 0, offset: 0 }));
    assert_eq!(serialize_mappings(&empty, TokenChunk::default(), &mut []), Ok(Encoded { bytes: 0, next: TokenChunk::default() }));
    assert_eq!(lookup_token(&empty, 0, 0), Ok(None));
    assert_eq!(lookup_many(&empty, &[], &mut empty.clone()), Ok(()));
    assert_eq!(lookup_many_quick(&empty, &[], &mut empty.clone()), Ok(()));
    assert_eq!(table_size(&[]), 0);
    assert!(meets_premises(&empty, 0, 0));
    assert_eq!(translate(&mut empty.clone(), 1, 1, 1), Ok(()));
    let none = Names::default();
    assert_eq!(compose(&empty, 0, none, &empty, none, &mut [], &mut []), Ok(Composed { added: 0 }));
    assert_eq!(compose_with(&empty, 0, none, &empty, none, &mut [], &mut [], &mut []), Ok(Composed { added: 0 }));
    assert_eq!(work_places(none, none), 0);
    assert_eq!(name_of(none, none, &[], 0), None);
    assert_eq!(compare_tables(&empty, &empty, &mut empty.clone()).map(|changes| changes.len()), Ok(0));
}

/// Tables cut at every place: four-byte alignment is enough.
#[test]
fn any_alignment() {
    let mut numbers = [0u32; 2 * WIDTH + 4];
    for start in 0..4 {
        let table = &mut numbers[start..start + 2 * WIDTH];
        assert_eq!(decode_mapping(b"AAEG;C", 1, 0, table), Ok(Decoded { tokens: 2, offset: 6 }));
        assert_eq!(lookup_index(table, 1, 1), Ok(Some(1)));
        for many in [lookup_many, lookup_many_quick] {
            let mut found = [7; 3];
            assert_eq!(many(table, &[Position::new(1, 1)], &mut found[start % 3..]), Ok(()));
            assert_eq!(found[start % 3], 1);
        }
        assert_eq!(translate_tokens(&mut [tokens_of(table)[1]], 1, 1, 1), Ok(()));
        let (names, mut result, mut added, mut work) = (Names { text: b"a", ends: &[1] }, [7; 2 * WIDTH], [7; 4], [7; 9]);
        let (result, added, places) = (&mut result, &mut added[start..], &mut work[start..start + 5]);
        assert_eq!(compose_with(table, 1, names, table, names, result, &mut added[..1], places), Ok(Composed { added: 0 }));
        assert!(work[..start].iter().chain(&work[start + 5..]).all(|&place| place == 7));
        let mut entries = [7; 9];
        let changes = compare_tables(table, &table[WIDTH..], &mut entries[start..start + 3]).map(|changes| changes.len());
        assert_eq!((changes, &entries[start..start + 3]), (Ok(1), &[1, 0, NONE][..]));
        assert!(entries[..start].iter().chain(&entries[start + 3..]).all(|&place| place == 7));
        let mut out = [0u8; 6];
        assert_eq!(serialize_mappings(table, TokenChunk::first(2), &mut out).map(|e| e.bytes), Ok(6));
        assert_eq!(&out, b"AAEG;C");
    }
}
