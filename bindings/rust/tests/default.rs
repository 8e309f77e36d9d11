//! The decode that names no mode is the checked one: the same answer and the same table on every text, where lenient mode has others.

use peghayrick::*;

type Decode = fn(&[u8], u32, u32, &mut [u32]) -> Result<Decoded, Refusal>;

/// A decode's answer and everything that the table holds then.
fn left(decode: Decode, text: &[u8], sources: u32, names: u32, numbers: usize) -> (Result<Decoded, Refusal>, Vec<u32>) {
    let mut table: Vec<u32> = (0x5eed_0000..).take(numbers).collect();
    (decode(text, sources, names, &mut table), table)
}

#[test]
fn wide_values_are_refused() {
    let at = |tokens, offset| Stop { tokens, offset };
    for (text, field, stop) in [
        ("ggggggE", 0, at(0, 0)),
        ("+/////H", 0, at(0, 0)),
        ("ggggggI", 0, at(0, 0)),
        ("ggggggggggggQ", 0, at(0, 0)),
        ("AAggggggIA", 2, at(0, 2)),
        ("+/////D,+/////D,E", 0, at(2, 16)),
        ("AAAAA,AA+/////DA,AA+/////DA,AAEA", 2, at(3, 30)),
    ] {
        let mut table = [0; 4 * WIDTH];
        let wide = Refusal::WideValue { field, at: stop };
        assert_eq!(decode_mapping(text.as_bytes(), 1, 1, &mut table), Err(wide), "{text}");
        assert!(decode_lenient(text.as_bytes(), 1, 1, &mut table).is_ok(), "{text}");
    }
}

/// Where lenient mode has another refusal, or other tokens.
#[test]
fn other_differences() {
    let mut table = [0; 3 * WIDTH];
    let stop = Stop { tokens: 0, offset: 4 };
    assert_eq!(decode_mapping(b"AAAAD", 1, 1, &mut table), Err(Refusal::WideValue { field: 4, at: stop }));
    assert_eq!(decode_lenient(b"AAAAD", 1, 1, &mut table), Err(Refusal::BadNameReference { name_id: NONE, at: stop }));
    // Minus zero.
    for text in [&b"B"[..], b"hA"] {
        let below = Refusal::BadSegmentSize { fields: 0, at: Stop { tokens: 0, offset: 0 } };
        assert_eq!(decode_mapping(text, 0, 0, &mut table), Err(below));
        assert!(decode_lenient(text, 0, 0, &mut table).is_ok());
    }
    for (decode, column) in [(decode_mapping as Decode, 0), (decode_lenient, 1 << 31)] {
        assert_eq!(decode(b"+/////D,C,B", 0, 0, &mut table), Ok(Decoded { tokens: 3, offset: 11 }));
        assert_eq!(tokens_of(&table)[2].dst_col, column);
    }
    // What lenient mode refuses: its source stays at 2^31, the last, and the next step passes it.
    let (text, mut table) = (b"A+/////DAA,ACAA,ABAA,ACAA", [0; 4 * WIDTH]);
    assert_eq!(decode_mapping(text, (1 << 31) + 1, 0, &mut table), Ok(Decoded { tokens: 4, offset: 25 }));
    assert_eq!(tokens_of(&table)[1..].iter().map(|token| token.source_id).collect::<Vec<_>>(), [1 << 31, 0, 1]);
    let past = Refusal::BadSourceReference { source_id: 1 << 31, at: Stop { tokens: 3, offset: 22 } };
    assert_eq!(decode_lenient(text, (1 << 31) + 1, 0, &mut table), Err(past));
}

/// xorshift64.
struct Random(u64);

impl Random {
    fn below(&mut self, n: usize) -> usize {
        self.0 ^= self.0 << 13;
        self.0 ^= self.0 >> 7;
        self.0 ^= self.0 << 17;
        (self.0 >> 16) as usize % n
    }
}

/// Values at which the modes differ and others, segments, delimiters, and damage.
const PARTS: [&[u8]; 32] = [
    b"A",
    b"A",
    b"C",
    b"D",
    b"E",
    b"gB",
    b"AAAA",
    b"AACA",
    b"CAAC",
    b"AAAAA",
    b"EAAAC",
    b"AAAAD",
    b",",
    b",",
    b",",
    b",",
    b";",
    b";",
    b"B",
    b"hA",
    b"gA",
    b"+/////D",
    b"//////D",
    b"ggggggE",
    b"hgggggE",
    b"+/////H",
    b"ggggggI",
    b"ggggggggggggA",
    b"ggggggggggggQ",
    b"hgggggggggggQ",
    b"!",
    b"\xff",
];

#[test]
fn as_checked_on_a_swarm() {
    // Under valgrind fewer of them.
    let texts = std::env::var("PEGHAYRICK_SWARM").map_or(300_000, |texts| texts.parse().unwrap());
    let mut random = Random(88172645463325252);
    let (mut done, mut refused, mut wide, mut apart) = (0, 0, 0, 0);
    let mut text = Vec::new();
    for _ in 0..texts {
        text.clear();
        for _ in 0..random.below(20) {
            text.extend_from_slice(PARTS[random.below(PARTS.len())]);
        }
        let counts = [0, 1, 2, 1 << 31, NONE];
        let (sources, names) = (counts[random.below(5)], counts[random.below(5)]);
        let numbers = if random.below(4) == 0 { random.below(10 * WIDTH) } else { table_size(&text) + random.below(WIDTH) };
        let by_default = left(decode_mapping, &text, sources, names, numbers);
        assert_eq!(by_default, left(decode_checked, &text, sources, names, numbers), "{text:?}, {sources}, {names}");
        match by_default.0 {
            Ok(_) => done += 1,
            Err(Refusal::WideValue { .. }) => wide += 1,
            Err(_) => refused += 1,
        }
        apart += usize::from(by_default != left(decode_lenient, &text, sources, names, numbers));
    }
    let few = texts / 50;
    assert!(done > few && refused > few && wide > few && apart > few, "{done} {refused} {wide} {apart} of {texts}");
}
