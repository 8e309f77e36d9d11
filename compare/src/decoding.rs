//! Decoding: the model held to the crate in both builds, and the library held to the model in every entry and room.

use std::borrow::Cow;
use std::ops::Range;

use crate::cases::{Case, Class, EDGES, Random, Tally, met_code, with_segments};
use crate::model::{self, Answer, DIGITS, Decoded, Mode, NONE, Token, TokenChunk, WIDTH, answer, is_delimiter, sixes, table_of};
use crate::ours::{self, Entry, Lent};
use crate::theirs::{BUILDS, RELEASE};

#[derive(Clone, Debug)]
pub struct Text {
    pub text: Vec<u8>,
    pub sources: u32,
    pub names: u32,
}

impl Text {
    fn new(text: &[u8], sources: u32, names: u32) -> Text {
        Text { text: text.to_vec(), sources, names }
    }
}

/// The text as the crate takes it. Where it is no UTF-8, each byte of 128 or more gives way to `!`: both read as 63.
pub fn utf8(text: &[u8]) -> Cow<'_, str> {
    match std::str::from_utf8(text) {
        Ok(s) => Cow::Borrowed(s),
        Err(_) => Cow::Owned(text.iter().map(|&b| if b < 128 { b as char } else { '!' }).collect()),
    }
}

/// Where the segment that begins at a place ends.
pub fn segment_end(bytes: &[u8], start: usize) -> usize {
    (start..bytes.len()).find(|&i| is_delimiter(bytes[i])).unwrap_or(bytes.len())
}

/// Where the pieces lie that are left of a text cut at `,` and `;`, the empty ones aside: the k-th token is that of the k-th. This
/// judges the segments of tokens apart from the model, which reads values.
pub fn pieces(text: &[u8]) -> Vec<Range<usize>> {
    let mut start = 0;
    let mut list = Vec::new();
    for piece in text.split(|&b| b == b',' || b == b';') {
        if !piece.is_empty() {
            list.push(start..start + piece.len());
        }
        start += piece.len() + 1;
    }
    list
}

impl Text {
    /// The model's lenient answer against the crate's, the refused segment and the offset by running the crate on parts of the text.
    fn crate_agrees(&self, m: &Decoded) -> Result<(), String> {
        let text = utf8(&self.text);
        for build in BUILDS {
            let theirs = (build.decode)(&text, self.sources, self.names).ok_or(format!("the {} crate panics", build.name))?;
            let same = match &theirs {
                Ok(tokens) => m.answer == answer(model::DONE, 0) && *tokens == sixes(&m.tokens) && m.offset == text.len(),
                Err(a) => m.answer == *a,
            };
            if !same {
                return Err(format!("the model says {m:?}, the {} crate {theirs:?}", build.name));
            }
        }
        if m.answer.code != model::DONE {
            self.cut(&text, m)?;
        }
        self.one_token(&text, m)
    }

    /// One token in some texts: cut before its piece the crate has the tokens before it, and cut behind the piece this one more.
    fn one_token(&self, text: &str, m: &Decoded) -> Result<(), String> {
        let sum = self.text.iter().fold(self.text.len(), |sum, &b| sum.wrapping_mul(31).wrapping_add(b.into()));
        if m.tokens.is_empty() || sum % 8 != 0 {
            return Ok(());
        }
        let k = sum / 8 % m.tokens.len();
        let piece = pieces(&self.text).swap_remove(k);
        for (end, count) in [(piece.start, k), (piece.end, k + 1)] {
            let theirs = (RELEASE.decode)(&text[..end], self.sources, self.names);
            if theirs != Some(Ok(sixes(&m.tokens[..count]))) || m.tokens[k].segment as usize != piece.start {
                return Err(format!("token {k}, cut at {end}: the crate has {theirs:?}; the model says {m:?}"));
            }
        }
        Ok(())
    }

    /// The crate takes the text before the refused segment, and refuses the text to its end; and the fault lies at the offset.
    fn cut(&self, text: &str, m: &Decoded) -> Result<(), String> {
        let bytes = text.as_bytes();
        let begins = !is_delimiter(bytes[m.start]) && (m.start == 0 || is_delimiter(bytes[m.start - 1]));
        let before = (RELEASE.decode)(&text[..m.start], self.sources, self.names);
        let whole = (RELEASE.decode)(&text[..segment_end(bytes, m.start)], self.sources, self.names);
        if !begins || before != Some(Ok(sixes(&m.tokens))) || whole != Some(Err(m.answer)) {
            return Err(format!(
                "cut at {}: before it {before:?}, to the segment's end {whole:?}; the model says {m:?}",
                m.start
            ));
        }
        let place = self.place(m.start, m.answer);
        if place != m.offset {
            return Err(format!("by the crate the fault lies at {place}; the model says {m:?}"));
        }
        Ok(())
    }

    /// Where the fault of the refused segment that begins at `start` lies. The crate says no place, but its answers on the text cut
    /// within the segment, or with a field of it changed, tell the place.
    pub fn place(&self, start: usize, refused: Answer) -> usize {
        // Bytes of 128 or more read as 63, as `!` does; so the text can be cut anywhere.
        let text: String = self.text.iter().map(|&b| if b < 128 { b as char } else { '!' }).collect();
        let again = |text: &str| (RELEASE.decode)(text, self.sources, self.names) == Some(Err(refused));
        let end = segment_end(text.as_bytes(), start);
        let ends: Vec<usize> = (start..end).filter(|&i| model::digit_of(text.as_bytes()[i]) < 32).map(|i| i + 1).collect();
        let field = |i: usize| if i == 0 { start } else { ends[i - 1] };
        match refused.code {
            model::VLQ_LEFTOVER => end,
            // The shortest beginning that has the digit too many.
            model::VLQ_OVERFLOW => (start..end).find(|&i| again(&text[..=i])).expect("a digit too many"),
            model::BAD_SOURCE_REFERENCE => field(1),
            model::BAD_NAME_REFERENCE => field(4),
            model::BAD_SEGMENT_SIZE if refused.number == 0 => {
                // The column alone; or the source line, if it is still refused with the source column as it was.
                if again(&text[..ends[0]]) {
                    start
                } else if again(&format!("{}A{}", &text[..field(3)], &text[ends[3]..end])) {
                    field(2)
                } else {
                    field(3)
                }
            }
            _ => start,
        }
    }

    /// A table of the size that the library counts is never full; where each segment gives a token, a place less is too few.
    fn size_agrees(&self) -> Result<(), String> {
        let (size, want) = (ours::table_size(&self.text), model::table_size(&self.text));
        if size != want {
            return Err(format!("table size: ours {size}, the model {want}"));
        }
        for entry in Entry::ALL {
            let decode = |table: &mut Lent| ours::decode(entry, &self.text, self.sources, self.names, table);
            let (a, tokens, _) = decode(&mut Lent::new(size));
            if a.code == model::TABLE_FULL || WIDTH * tokens as usize > size {
                return Err(format!("{entry:?}: {tokens} tokens and code {} in a table of {size} numbers", a.code));
            }
            if a.code == model::DONE && size > 0 {
                let (less, ..) = decode(&mut Lent::new(size - WIDTH));
                if WIDTH * tokens as usize != size || less.code != model::TABLE_FULL {
                    return Err(format!("{entry:?}: {tokens} tokens, but code {} in {} numbers", less.code, size - WIDTH));
                }
            }
        }
        Ok(())
    }

    /// Counts what checked mode met that lenient mode does not have: a field whose value is too wide, a field whose sum is, and the
    /// fields in which minus zero was taken.
    fn counted(&self, m: &Decoded) {
        if m.answer.code == model::WIDE_VALUE {
            let (number, _) = model::number_at(&self.text, m.offset).expect("a value at the offset");
            met_code(if number >= 1 << 32 { "checked, a wide value" } else { "checked, a wide sum" }, m.answer.number);
        }
        for taken in self.text[..m.start].split(|&b| is_delimiter(b)) {
            let (mut at, mut field) = (0, 0);
            while at < taken.len() {
                let (number, end) = model::number_at(taken, at).expect("a value that was taken");
                if number == 1 {
                    met_code("checked, minus zero taken", field);
                }
                (at, field) = (end, field + 1);
            }
        }
    }

    /// The library in one entry, with room for so many numbers. The segments are held to the pieces of the text too.
    fn ours_agrees(&self, entry: Entry, numbers: usize, pieces: &[Range<usize>]) -> Result<Decoded, String> {
        let m = model::decode(entry.mode(), &self.text, self.sources, self.names, numbers / WIDTH);
        let mut table = Lent::new(numbers);
        let (a, tokens, offset) = ours::decode(entry, &self.text, self.sources, self.names, &mut table);
        let want = (m.answer, m.tokens.len() as u64, m.offset as u64);
        if (a, tokens, offset) != want {
            return Err(format!("{entry:?}, {numbers} numbers lent: ours {:?}, the model {want:?}", (a, tokens, offset)));
        }
        if !table.is(&table_of(&m.tokens)) {
            return Err(format!(
                "{entry:?}, {numbers} numbers lent: the table holds {:?}, the model has {:?}",
                table.numbers(),
                m.tokens
            ));
        }
        let segments = table.numbers().chunks_exact(WIDTH).take(m.tokens.len()).map(|token| token[6] as usize);
        if !segments.eq(pieces[..m.tokens.len()].iter().map(|piece| piece.start)) {
            return Err(format!(
                "{entry:?}, {numbers} numbers lent: the table holds {:?}, the pieces {pieces:?}",
                table.numbers()
            ));
        }
        met_code(if entry == Entry::Checked { "decode, checked" } else { "decode, lenient" }, a.code);
        Ok(m)
    }
}

impl Case for Text {
    fn check(&self) -> Result<Vec<Class>, String> {
        let decoded = |mode| model::decode(mode, &self.text, self.sources, self.names, usize::MAX);
        let (lenient, checked) = (decoded(Mode::Lenient), decoded(Mode::Checked));
        self.crate_agrees(&lenient)?;
        self.size_agrees()?;
        self.counted(&checked);
        let pieces = pieces(&self.text);
        // Rooms: one token more than it takes, just as many, one less, none; up to six numbers past a whole token.
        for entry in Entry::ALL {
            let count = if entry == Entry::Checked { checked.tokens.len() } else { lenient.tokens.len() };
            let odd = (self.text.len() + count) % WIDTH;
            self.ours_agrees(entry, WIDTH * (count + 1) + odd, &pieces)?;
            self.ours_agrees(entry, WIDTH * count + (odd + 1) % WIDTH, &pieces)?;
            if count > 0 {
                let full = self.ours_agrees(entry, WIDTH * (count - 1) + (odd + 2) % WIDTH, &pieces)?;
                if full.answer.code == model::TABLE_FULL && entry == Entry::Lenient {
                    // The crate takes the text cut where the table was full, and has just those tokens there.
                    let text = utf8(&self.text);
                    let before = (RELEASE.decode)(&text[..full.start], self.sources, self.names);
                    if before != Some(Ok(sixes(&full.tokens))) || full.offset != full.start {
                        return Err(format!(
                            "full at {}: the crate has {before:?} before it, the model {:?}",
                            full.offset, full.tokens
                        ));
                    }
                }
                self.ours_agrees(entry, odd, &pieces)?;
            }
        }
        Ok(vec![])
    }

    fn smaller(&self) -> Vec<Text> {
        let mut list = Vec::new();
        let n = self.text.len();
        let mut size = n.max(1);
        while size > 0 {
            for from in (0..n).step_by(size) {
                let mut text = self.text[..from].to_vec();
                text.extend(&self.text[(from + size).min(n)..]);
                list.push(Text { text, ..*self });
            }
            size /= 2;
        }
        for (sources, names) in [(0, 0), (1, 0), (1, 1), (0, self.names), (1, self.names), (self.sources, 0), (self.sources, 1)] {
            list.push(Text { text: self.text.clone(), sources, names });
        }
        for (i, &b) in self.text.iter().enumerate() {
            if b != b'A' {
                let mut text = self.text.clone();
                text[i] = b'A';
                list.push(Text { text, ..*self });
            }
        }
        list
    }

    fn size(&self) -> usize {
        let plain = self.text.iter().filter(|&&b| b != b'A').count();
        let wide = |n: u32| (n > 0) as usize + (n > 1) as usize;
        16 * self.text.len() + 8 * plain.min(1) + plain + wide(self.sources) + wide(self.names)
    }

    fn show(&self) -> String {
        format!("text {:?}, {} sources, {} names", self.text.escape_ascii().to_string(), self.sources, self.names)
    }
}

/// Delimiters, digits that end a value (0, minus 0, 1, -1), digits that do not, and bytes outside the alphabet.
const SYMBOLS: [&str; 10] = [",", ";", "A", "B", "C", "D", "g", "/", "!", "é"];

pub const COUNTS: [(u32, u32); 4] = [(0, 0), (1, 0), (1, 1), (2, 2)];

/// Every text of so many symbols after a beginning, for each pair of counts.
pub fn all_texts(begin: &str, symbols: usize, counts: &[(u32, u32)], go: &mut dyn FnMut(Text) -> bool) -> bool {
    let mut places = vec![0; symbols];
    loop {
        let mut text = begin.as_bytes().to_vec();
        for &p in &places {
            text.extend(SYMBOLS[p].bytes());
        }
        for &(sources, names) in counts {
            if !go(Text::new(&text, sources, names)) {
                return false;
            }
        }
        let Some(i) = places.iter().rposition(|&p| p + 1 < SYMBOLS.len()) else { return true };
        places[i] += 1;
        places[i + 1..].fill(0);
    }
}

/// Digits that spell a 64-bit pattern in so many places (the 13th holds 4 of its bits; over is what is pushed out).
fn spelled(bits: u64, places: usize, over: bool) -> Vec<u8> {
    (0..places)
        .map(|k| {
            let mut digit = if k < 13 { (bits >> (5 * k)) as usize % 32 } else { 0 };
            if k == 12 && over {
                digit |= 16;
            }
            DIGITS[digit + if k + 1 < places { 32 } else { 0 }]
        })
        .collect()
}

/// Every count of digits from 1 to 14 in every field of segments of one to six fields.
pub fn digit_counts(go: &mut dyn FnMut(Text) -> bool) {
    let before: [&[u8]; 3] = [b"", b"gB,", b"2HCUUK,"];
    for fields in 1..=6 {
        for field in 0..fields {
            for digits in 1..=14usize {
                for low in 0..4u8 {
                    for middle in [b'g', b'/', b'h', b'v', b'!'] {
                        for last in 0..32 {
                            let mut value = vec![middle; digits];
                            value[digits - 1] = DIGITS[last];
                            if digits > 1 {
                                value[0] = [b'g', b'h', b'+', b'/'][low as usize];
                            } else if low > 0 || middle != b'g' {
                                continue;
                            }
                            for begin in before {
                                let mut text = begin.to_vec();
                                for f in 0..fields {
                                    if f == field { text.extend(&value) } else { text.push(b'A') }
                                }
                                if !go(Text { text, sources: 4, names: 4 }) {
                                    return;
                                }
                            }
                        }
                    }
                }
            }
        }
    }
}

/// Sums around each limit: a running number at an edge, and a step to, just below and just past another.
pub fn sums(go: &mut dyn FnMut(Text) -> bool) {
    let mut steps: Vec<i128> = vec![0];
    for k in [1, 2, 4, 5, 9, 10, 30, 31, 32, 33, 34, 61] {
        for d in [-1, 0, 1] {
            steps.push((1i128 << k) + d);
        }
    }
    steps.push((1 << 62) - 1);
    steps.push(1 << 62);
    for edge in EDGES {
        steps.push(i128::from(edge));
    }
    let all: Vec<i128> = steps.iter().flat_map(|&s| [s, -s]).collect();
    for field in 0..5usize {
        for from in EDGES {
            for &step in &all {
                for (sources, names) in [(u32::MAX, u32::MAX), (1, 1), (u32::MAX, 2), (3, u32::MAX), (u32::MAX - 1, u32::MAX - 1)]
                {
                    let mut text = Vec::new();
                    for (f, v) in [(field, i128::from(from)), (field, step)] {
                        for g in 0..if field == 4 { 5 } else { 4 } {
                            text.extend(model::value_text(if g == f { v } else { 0 }));
                        }
                        text.push(b',');
                    }
                    // A segment of one field shows the running source position.
                    text.push(b'A');
                    if !go(Text { text, sources, names }) {
                        return;
                    }
                }
            }
        }
    }
}

/// A number in so many digits, or in the fewest where they are too few.
fn digits_of(number: u128, places: usize) -> Vec<u8> {
    let least = (1..13).find(|k| number >> (5 * k) == 0).unwrap_or(13);
    spelled(number as u64, places.max(least), number >> 64 == 1)
}

/// Segments of so many fields after which one field's running number is `to`, and no value reaches 2^31.
fn reached(field: usize, fields: usize, to: u32) -> Vec<u8> {
    let mut text = Vec::new();
    let mut rest = i128::from(to);
    while rest > 0 {
        let step = rest.min((1 << 31) - 1);
        for f in 0..fields {
            text.extend(model::value_text(if f == field { step } else { 0 }));
        }
        text.push(b',');
        rest -= step;
    }
    text
}

/// The same sums as checked mode meets them: no value of the way to an edge is too wide.
fn reached_sums(go: &mut dyn FnMut(Text) -> bool) {
    let mut numbers: Vec<u128> = NUMBERS.to_vec();
    for edge in EDGES {
        numbers.extend([2 * u128::from(edge), 2 * u128::from(edge) + 1]);
    }
    for field in 0..5 {
        for from in EDGES {
            for &number in &numbers {
                for (sources, names) in [(u32::MAX, u32::MAX), (1, 1), (u32::MAX, 2), (3, u32::MAX), (u32::MAX - 1, u32::MAX - 1)]
                {
                    let fields = if field == 4 { 5 } else { 4 };
                    let mut text = reached(field, fields, from);
                    for f in 0..fields {
                        text.extend(digits_of(if f == field { number } else { 0 }, 1));
                    }
                    text.extend(b",A");
                    if !go(Text { text, sources, names }) {
                        return;
                    }
                }
            }
        }
    }
}

/// Numbers of digits at which checked mode changes: 0 and minus zero, 1 and -1, a magnitude on either side of 2^31, and the bits up to
/// the 65th.
const NUMBERS: [u128; 25] = [
    0,
    1,
    2,
    3,
    4,
    (1 << 31) - 1,
    1 << 31,
    (1 << 31) + 1,
    (1 << 32) - 2,
    (1 << 32) - 1,
    1 << 32,
    (1 << 32) + 1,
    (1 << 32) + 2,
    1 << 33,
    (1 << 33) + 1,
    (1 << 63) - 1,
    1 << 63,
    (1 << 63) + 1,
    (1 << 64) - 1,
    1 << 64,
    (1 << 64) + 1,
    (1 << 64) + 2,
    (1 << 64) + (1 << 32),
    (1 << 64) + (1 << 63) + 1,
    (1 << 65) - 1,
];

/// Running numbers that checked mode reaches too: all 0; all 2^31, where minus zero is taken; the largest.
const BEFORE: [&str; 3] = [
    "",
    "+/////D+/////D+/////D+/////D+/////D,CCCCC,",
    "+/////D+/////D+/////D+/////D+/////D,+/////D+/////D+/////D+/////D+/////D,CACCA,",
];

/// Each of those numbers, in the fewest digits, one more and thirteen, in each field of segments of one to seven; with fields before
/// and behind it that fall below 0, are minus zero or too wide themselves; and with a value that breaks behind it.
fn wide_values(go: &mut dyn FnMut(Text) -> bool) {
    for begin in BEFORE {
        for fields in 1..=7 {
            for field in 0..fields {
                for number in NUMBERS {
                    let least = digits_of(number, 1).len();
                    for places in [least, (least + 1).min(13), 13] {
                        for (other, behind) in [
                            ("A", ""),
                            ("A", ",A;A"),
                            ("A", "g"),
                            ("A", "!,"),
                            ("A", "gggggggggggggA"),
                            ("B", ""),
                            ("D", ""),
                            ("hA", ",C"),
                            ("ggggggE", ""),
                        ] {
                            let mut text = begin.as_bytes().to_vec();
                            for f in 0..fields {
                                if f == field { text.extend(digits_of(number, places)) } else { text.extend(other.bytes()) }
                            }
                            text.extend(behind.bytes());
                            if !go(Text { text, sources: u32::MAX, names: u32::MAX }) {
                                return;
                            }
                        }
                    }
                }
            }
        }
    }
}

/// Walks that checked mode mostly takes: from edge to edge by values below 2^31 and by minus zero, in any count of digits; and now and
/// then another number, or a count of fields that is none.
pub fn walks(random: &mut Random, cases: usize, go: &mut dyn FnMut(Text) -> bool) {
    for _ in 0..cases {
        let mut text = Vec::new();
        let mut now = [0u32; 5];
        for _ in 0..1 + random.below(8) {
            let fields = if random.one_in(12) { random.pick(&[2, 3, 6, 7]) } else { random.pick(&[1, 4, 5, 5]) };
            for field in 0..fields {
                let before = now.get(field).copied().unwrap_or(0);
                let to = if random.one_in(3) { before } else { random.pick(&EDGES) };
                let step = i128::from(to) - i128::from(before);
                let number = match step.unsigned_abs() {
                    _ if random.one_in(40) => random.pick(&NUMBERS),
                    0x8000_0000 if step < 0 => 1,
                    m if m < 1 << 31 => 2 * m + u128::from(step < 0),
                    _ => 0,
                };
                if number > 0 && field < 5 {
                    now[field] = to;
                }
                let places = random.pick(&[1, 1, 1, 2, 4, 7, 8, 12, 13]);
                text.extend(digits_of(number, places));
            }
            text.push(if random.one_in(6) { b';' } else { b',' });
            if text.ends_with(b";") {
                now[0] = 0;
            }
        }
        let counts = [1, 2, 1 << 31, (1 << 31) + 1, u32::MAX - 1, u32::MAX, u32::MAX];
        if !go(Text { text, sources: random.pick(&counts), names: random.pick(&counts) }) {
            return;
        }
    }
}

/// Patterns of 64 bits in 13 digits, the sign bit and the bit pushed out among them, in every field.
pub fn patterns(random: &mut Random, cases: usize, go: &mut dyn FnMut(Text) -> bool) {
    for _ in 0..cases {
        let mut text = Vec::new();
        let segments = 1 + random.below(3);
        for _ in 0..segments {
            for _ in 0..random.pick(&[1, 1, 4, 4, 5, 5, 2, 3, 6]) {
                let bits = match random.below(7) {
                    0 => random.next(),
                    1 => random.next() << 1 << random.below(63),
                    2 => (u64::MAX << random.below(64)) | random.next() % 2,
                    3 => (1 << random.below(64)) | random.next() % 2,
                    4 => u64::from(random.number()) * 2 + random.next() % 2,
                    _ => random.next() % 8,
                };
                let least = (1..13).find(|k| bits >> (5 * k) == 0).unwrap_or(13);
                let places = random.pick(&[least, least, least, 13, (least + 1).min(13), 14]);
                text.extend(spelled(bits, places, random.one_in(3)));
            }
            text.push(random.pick(b",;"));
        }
        if random.one_in(2) {
            text.pop();
        }
        let counts = [0, 1, 2, 5, 1 << 31, u32::MAX - 1, u32::MAX];
        if !go(Text { text, sources: random.pick(&counts), names: random.pick(&counts) }) {
            return;
        }
    }
}

/// A list of tokens that a writer may meet: lines never fall, columns may; any number for the segment.
pub fn random_tokens(random: &mut Random, most: usize) -> Vec<Token> {
    let kind = random.below(4);
    let mut line = 0u32;
    let mut t = Token::default();
    let count = random.below(most + 1);
    let mut tokens = Vec::new();
    for _ in 0..count {
        let mut near = |n: u32, far: usize| match kind {
            0 => n.wrapping_add(random.below(far) as u32),
            1 => random.number(),
            2 => (u64::from(n) + random.below(20) as u64).saturating_sub(10).min(u64::from(NONE - 1)) as u32,
            _ => n.wrapping_add(random.below(far * 30) as u32),
        };
        t.dst_col = near(t.dst_col, 16);
        t.src_line = near(t.src_line, 3);
        t.src_col = near(t.src_col, 16);
        t.source_id = near(if t.source_id == NONE { 0 } else { t.source_id }, 2);
        t.name_id = near(if t.name_id == NONE { 0 } else { t.name_id }, 2);
        if random.one_in(5) {
            line += random.pick(&[1, 1, 1, 2, 5, 40]);
            t.dst_col = random.below(9) as u32;
        }
        t.dst_line = line;
        let mut token = t;
        if random.one_in(3) {
            token.name_id = NONE;
        }
        if random.one_in(12) {
            token.source_id = NONE;
            token.name_id = NONE;
        }
        tokens.push(token);
    }
    with_segments(&tokens, 0)
}

/// A text for such a list: the writer's own, or one with longer spellings, empty segments and lines.
fn text_of(random: &mut Random, tokens: &[Token]) -> Vec<u8> {
    let chunk = TokenChunk { end: tokens.len() as u32, ..TokenChunk::default() };
    let text = model::encode(&table_of(tokens), chunk, usize::MAX).text;
    if random.one_in(2) {
        return text;
    }
    let mut loose = Vec::new();
    for &b in &text {
        if is_delimiter(b) {
            for _ in 0..random.pick(&[0, 0, 0, 1, 2]) {
                loose.push(b',');
            }
            loose.push(b);
        } else if model::digit_of(b) < 32 && random.one_in(6) {
            loose.push(DIGITS[model::digit_of(b) as usize + 32]);
            loose.extend(random.pick(&[&b"A"[..], b"gA", b"ggggA"]));
        } else {
            loose.push(b);
        }
    }
    loose
}

fn damaged(random: &mut Random, text: &[u8]) -> Vec<u8> {
    let mut text = text.to_vec();
    for _ in 0..1 + random.below(4) {
        let at = random.below(text.len() + 1);
        match random.below(6) {
            0 => text.truncate(at),
            1 => text.splice(at..at, SYMBOLS[random.below(SYMBOLS.len())].bytes()).for_each(drop),
            2 if at < text.len() => text[at] = random.pick(DIGITS),
            3 if at < text.len() => drop(text.remove(at)),
            4 if at < text.len() => text[at] = random.next() as u8,
            _ => {
                let piece: Vec<u8> = (0..random.below(8)).map(|_| random.pick(b"ACDEFgh/,;!")).collect();
                text.splice(at..at, piece).for_each(drop);
            }
        }
    }
    text
}

pub fn long_texts(random: &mut Random, cases: usize, most: usize, go: &mut dyn FnMut(Text) -> bool) {
    for _ in 0..cases {
        let tokens = random_tokens(random, most);
        let text = text_of(random, &tokens);
        let limit = |ids: &mut dyn Iterator<Item = u32>| ids.filter(|&i| i != NONE).max().map_or(0, |m| m + 1);
        let sources = limit(&mut tokens.iter().map(|t| t.source_id));
        let names = limit(&mut tokens.iter().map(|t| t.name_id));
        if !go(Text { text: text.clone(), sources, names }) {
            return;
        }
        for _ in 0..3 {
            let bad = Text { text: damaged(random, &text), sources, names };
            if !go(bad) {
                return;
            }
        }
        // Counts just too small.
        if !go(Text { text: text.clone(), sources: sources.saturating_sub(1), names })
            || !go(Text { text, sources, names: names.saturating_sub(1) })
        {
            return;
        }
    }
}

/// Any bytes at all, UTF-8 or not.
pub fn any_bytes(random: &mut Random, cases: usize, go: &mut dyn FnMut(Text) -> bool) {
    for _ in 0..cases {
        let n = random.below(40);
        let kind = random.below(3);
        let text = (0..n)
            .map(|_| match kind {
                0 => random.next() as u8,
                1 => random.pick(&[b',', b';', b'A', b'C', b'g', 0x80, 0xff, b'-', b'_', b'=', b' ', b'\n', 0]),
                _ => {
                    if random.one_in(6) {
                        random.next() as u8
                    } else {
                        random.pick(b"AAAACDEF,,;;")
                    }
                }
            })
            .collect();
        if !go(Text { text, sources: random.below(4) as u32, names: random.below(4) as u32 }) {
            return;
        }
    }
}

pub fn worked() -> Vec<(Text, Decoded, Decoded)> {
    let done = |tokens: &[[u32; WIDTH]], n: usize| Decoded {
        answer: answer(0, 0),
        tokens: tokens.iter().map(|t| Token::of(t)).collect(),
        offset: n,
        start: n,
    };
    let behind = |tokens: &[[u32; WIDTH]], code, number, start, offset| Decoded {
        answer: answer(code, number),
        start,
        ..done(tokens, offset)
    };
    let refused = |code, number, offset| behind(&[], code, number, 0, offset);
    let both = |t: &[u8], s, n, d: Decoded| (Text::new(t, s, n), d.clone(), d);
    let at = |col, segment| [0, col, 0, 0, NONE, NONE, segment];
    let one = at(0, 0);
    vec![
        both(b"", 0, 0, done(&[], 0)),
        both(b"A", 0, 0, done(&[one], 1)),
        both(b"AAAA", 0, 0, refused(4, 0, 1)),
        both(b"ACAA", 1, 0, refused(4, 0, 1)),
        (Text::new(b"AAAAD", 1, 1), refused(5, 4294967295, 4), refused(6, 4, 4)),
        both(b"DAA", 1, 0, refused(3, 0, 0)),
        both(b"AADA", 1, 0, refused(3, 0, 2)),
        both(b"AAAD", 1, 0, refused(3, 0, 3)),
        both(b"gAADA", 1, 0, refused(3, 0, 3)),
        both(b"AAA", 1, 0, refused(3, 3, 0)),
        both(b"AAAAAA", 1, 1, refused(3, 6, 0)),
        both(b"+/////D", 0, 0, done(&[at(2147483647, 0)], 7)),
        (Text::new(b"ggggggE", 0, 0), done(&[at(2147483648, 0)], 7), refused(6, 0, 0)),
        (Text::new(b"hgggggE", 0, 0), refused(3, 0, 0), refused(6, 0, 0)),
        (Text::new(b"+/////H", 0, 0), done(&[at(4294967295, 0)], 7), refused(6, 0, 0)),
        (Text::new(b"ggggggI", 0, 0), done(&[one], 7), refused(6, 0, 0)),
        (Text::new(b"AAggggggIA", 1, 0), done(&[[0, 0, 0, 0, 0, NONE, 0]], 10), refused(6, 2, 2)),
        (Text::new(b"D+/////HA", 1, 0), refused(3, 0, 0), refused(6, 1, 1)),
        both(b"AAAAA+/////H", 1, 1, refused(3, 6, 0)),
        (
            Text::new(b"+/////D,+/////D,E", 0, 0),
            done(&[at(2147483647, 0), at(4294967294, 8), at(0, 16)], 17),
            behind(&[at(2147483647, 0), at(4294967294, 8)], 6, 0, 16, 16),
        ),
        (Text::new(b"B", 0, 0), done(&[one], 1), refused(3, 0, 0)),
        (Text::new(b"hA", 0, 0), done(&[one], 2), refused(3, 0, 0)),
        (Text::new(b"AAAAB", 1, 1), done(&[[0; WIDTH]], 5), refused(6, 4, 4)),
        both(b"ggggggggggggA", 0, 0, done(&[one], 13)),
        (Text::new(b"ggggggggggggQ", 0, 0), done(&[one], 13), refused(6, 0, 0)),
        (Text::new(b"hgggggggggggQ", 0, 0), done(&[one], 13), refused(6, 0, 0)),
        both(b"gggggggggggggA", 0, 0, refused(2, 0, 13)),
        both(b"ggggggggggggg,", 0, 0, refused(1, 0, 13)),
        both(b"!", 0, 0, refused(1, 0, 1)),
        both(b"A,!", 0, 0, behind(&[one], 1, 0, 2, 3)),
        both(b"!A", 0, 0, refused(3, 0, 0)),
        both(b"AAEG;C", 1, 0, done(&[[0, 0, 2, 3, 0, NONE, 0], [1, 1, 2, 3, NONE, NONE, 5]], 6)),
    ]
}

/// A row of the worked texts: the model against the table as it is written.
#[derive(Clone, Debug)]
struct Row(usize);

impl Case for Row {
    fn check(&self) -> Result<Vec<Class>, String> {
        let (text, lenient, checked) = worked().swap_remove(self.0);
        for (mode, want) in [(Mode::Lenient, lenient), (Mode::Checked, checked)] {
            let m = model::decode(mode, &text.text, text.sources, text.names, usize::MAX);
            if m != want {
                return Err(format!("{}, {mode:?}: the model says {m:?}", text.show()));
            }
        }
        text.check()
    }

    fn smaller(&self) -> Vec<Row> {
        vec![]
    }

    fn size(&self) -> usize {
        self.0
    }
}

/// Every byte, alone, before and behind a digit, and in each field of one digit.
fn every_byte(go: &mut dyn FnMut(Text) -> bool) {
    for byte in 0..=255u8 {
        let mut texts =
            vec![vec![byte], vec![byte, b'A'], vec![byte, b'C', b',', b'A'], vec![b'g', byte], vec![b'g', byte, b'C']];
        for fields in 4..=6 {
            for field in 0..fields {
                for behind in [&b""[..], b",A", b";AAAAA,A"] {
                    let mut text = vec![b'A'; fields];
                    text[field] = byte;
                    text.extend(behind);
                    texts.push(text);
                }
            }
        }
        for text in texts {
            if !go(Text { text, sources: 2, names: 2 }) {
                return;
            }
        }
    }
}

/// A text longer than any list of tokens should be: field counts past the few, and 2^16 lines.
fn odd_ones(go: &mut dyn FnMut(Text) -> bool) {
    for fields in [6, 7, 255, 256, 257, 65535, 65536, 65537] {
        for text in [vec![b'A'; fields], [b"CAAA;".to_vec(), vec![b'C'; fields]].concat()] {
            if !go(Text { text, sources: 1, names: 1 }) {
                return;
            }
        }
    }
    for lines in [65535, 65536, 65537] {
        go(Text { text: [vec![b';'; lines], b"A".to_vec()].concat(), sources: 0, names: 0 });
    }
}

pub fn run(tally: &mut Tally, seed: u64, scale: usize) {
    tally.group("decode: the worked texts", |go| {
        for i in 0..worked().len() {
            go(Row(i));
        }
    });
    tally.group("decode: sums that checked mode reaches", reached_sums);
    tally.group("decode: values around checked mode's limit", wide_values);
    tally.group("decode: walks by checked mode's values", |go| walks(&mut Random::new(seed, "walks"), 150_000 * scale, go));
    for symbols in 0..=6 {
        tally.group(&format!("decode: every text of {symbols} symbols"), |go| {
            all_texts("", symbols, &COUNTS, go);
        });
    }
    // Behind a beginning that sets the running numbers.
    let largest = "+/////DA+/////D+/////DA,+/////DA+/////D+/////DA,CACCA;";
    let begins = [
        ("EEEEE,", "EEEEE,", 3),
        ("ECEEC;", "ECEEC;", 3),
        ("the largest numbers", largest, 3),
        ("numbers of 2^31", BEFORE[1], (1 << 31) + 2),
    ];
    for (name, begin, count) in begins {
        tally.group(&format!("decode: every text to 5 behind {name}"), |go| {
            for symbols in 0..=5 {
                if !all_texts(begin, symbols, &[(count, count)], go) {
                    return;
                }
            }
        });
    }
    tally.group("decode: every byte", every_byte);
    tally.group("decode: every count of digits", digit_counts);
    tally.group("decode: sums around the limits", sums);
    tally.group("decode: 64-bit patterns", |go| patterns(&mut Random::new(seed, "patterns"), 200_000 * scale, go));
    tally.group("decode: random bytes", |go| any_bytes(&mut Random::new(seed, "bytes"), 400_000 * scale, go));
    tally
        .group("decode: short lists and damaged copies", |go| long_texts(&mut Random::new(seed, "short"), 60_000 * scale, 8, go));
    tally.group("decode: long lists and damaged copies", |go| long_texts(&mut Random::new(seed, "long"), 300 * scale, 2000, go));
    tally.group("decode: many fields, many lines", odd_ones);
}
