//! docs/RULES.md as a plain program, written from the rules' words and apart from the library's code. It is slow and has no tricks:
//! whole lists, wide integers, one rule after the other.

use std::collections::BTreeMap;

pub const NONE: u32 = u32::MAX;

/// The most tokens of an input table.
pub const MOST: usize = 4_294_967_294;

/// The most names of a name list.
pub const MOST_NAMES: usize = 2_147_483_647;

#[repr(C)]
#[derive(Clone, Copy, PartialEq, Eq, Debug, Default, Hash)]
pub struct Token {
    pub dst_line: u32,
    pub dst_col: u32,
    pub src_line: u32,
    pub src_col: u32,
    pub source_id: u32,
    pub name_id: u32,
    /// Where its segment begins in the text that it was decoded from.
    pub segment: u32,
}

/// The numbers of a token in a table.
pub const WIDTH: usize = 7;

/// What the crate has of a token: all but the segment.
pub type Six = [u32; 6];

impl Token {
    pub fn six(&self) -> Six {
        [self.dst_line, self.dst_col, self.src_line, self.src_col, self.source_id, self.name_id]
    }

    pub fn numbers(&self) -> [u32; WIDTH] {
        let [a, b, c, d, e, f] = self.six();
        [a, b, c, d, e, f, self.segment]
    }

    pub fn with(six: Six, segment: u32) -> Token {
        let [dst_line, dst_col, src_line, src_col, source_id, name_id] = six;
        Token { dst_line, dst_col, src_line, src_col, source_id, name_id, segment }
    }

    pub fn of(n: &[u32]) -> Token {
        Token::with([n[0], n[1], n[2], n[3], n[4], n[5]], n[6])
    }
}

pub fn sixes(tokens: &[Token]) -> Vec<Six> {
    tokens.iter().map(Token::six).collect()
}

pub fn table_of(tokens: &[Token]) -> Vec<u32> {
    tokens.iter().flat_map(|t| t.numbers()).collect()
}

pub fn tokens_of(table: &[u32]) -> Vec<Token> {
    table.chunks_exact(WIDTH).map(Token::of).collect()
}

pub const DONE: u64 = 0;
pub const VLQ_LEFTOVER: u64 = 1;
pub const VLQ_OVERFLOW: u64 = 2;
pub const BAD_SEGMENT_SIZE: u64 = 3;
pub const BAD_SOURCE_REFERENCE: u64 = 4;
pub const BAD_NAME_REFERENCE: u64 = 5;
pub const WIDE_VALUE: u64 = 6;
pub const TABLE_FULL: u64 = 7;
pub const NO_ROOM: u64 = 8;
pub const LINE_GOES_BACK: u64 = 9;
pub const BAD_CHUNK: u64 = 10;
pub const BAD_TABLE: u64 = 11;
pub const TOO_BIG: u64 = 12;
pub const MORE_THAN_ONE_SOURCE: u64 = 13;
pub const BAD_NAMES: u64 = 14;
pub const ODD_LIST: u64 = 17;
pub const UNSORTED: u64 = 22;

/// A code and the number with it.
#[repr(C)]
#[derive(Clone, Copy, PartialEq, Eq, Debug)]
pub struct Answer {
    pub code: u64,
    pub number: u64,
}

pub fn answer(code: u64, number: u64) -> Answer {
    Answer { code, number }
}

// ---------------------------------------------------------------- values

pub const DIGITS: &[u8; 64] = b"ABCDEFGHIJKLMNOPQRSTUVWXYZabcdefghijklmnopqrstuvwxyz0123456789+/";

pub fn is_delimiter(byte: u8) -> bool {
    byte == b',' || byte == b';'
}

/// What a byte that is no delimiter stands for.
pub fn digit_of(byte: u8) -> u8 {
    match DIGITS.iter().position(|&d| d == byte) {
        Some(i) => i as u8,
        None => 63,
    }
}

/// The whole number that the digits at a place without a delimiter make, and where they end; or the code, and where it broke.
pub fn number_at(text: &[u8], from: usize) -> Result<(u128, usize), (u64, usize)> {
    let mut sum: u128 = 0;
    let mut at = from;
    let mut k = 0;
    loop {
        if at == text.len() || is_delimiter(text[at]) {
            return Err((VLQ_LEFTOVER, at));
        }
        if k == 13 {
            return Err((VLQ_OVERFLOW, at));
        }
        let digit = digit_of(text[at]);
        sum += u128::from(digit % 32) << (5 * k);
        k += 1;
        at += 1;
        if digit < 32 {
            return Ok((sum, at));
        }
    }
}

/// As the crate has it: the 13th digit has its top bit pushed out of 64, and the rest is a signed 64-bit number.
fn crate_value(number: u128) -> i128 {
    let kept = number % (1 << 64);
    let signed = if kept < 1 << 63 { kept as i128 } else { kept as i128 - (1 << 64) };
    let half = signed.div_euclid(2);
    if signed.rem_euclid(2) == 1 { -half } else { half }
}

/// As ECMA-426 has it, on every digit: none where the magnitude is 2^31 or more; minus zero is -2^31.
fn standard_value(number: u128) -> Option<i128> {
    let magnitude = (number / 2) as i128;
    let minus = number % 2 == 1;
    match (minus, magnitude) {
        (_, m) if m >= 1 << 31 => None,
        (true, 0) => Some(-(1 << 31)),
        (true, m) => Some(-m),
        (false, m) => Some(m),
    }
}

/// The value of a number; none where it is too wide.
fn value_of(mode: Mode, number: u128) -> Option<i128> {
    match mode {
        Mode::Lenient => Some(crate_value(number)),
        Mode::Checked => standard_value(number),
    }
}

// ---------------------------------------------------------------- mappings

#[derive(Clone, Copy, PartialEq, Eq, Debug)]
pub enum Mode {
    Lenient,
    Checked,
}

#[derive(Clone, PartialEq, Eq, Debug)]
pub struct Decoded {
    pub answer: Answer,
    pub tokens: Vec<Token>,
    /// Where the fault lies; the text's length when done.
    pub offset: usize,
    /// Where the refused segment begins; the text's length when done.
    pub start: usize,
}

const WORD: i128 = 1 << 32;

/// A segment that begins here or later has no token: the number is that of none.
const FIRST_TOO_BIG: usize = 4_294_967_295;

/// A refusal, and the field that it is about: none for the segment as a whole.
type Refused = (Answer, Option<usize>);

/// A sum of step 1 or 4: field is its number in WideValue.
fn kept(mode: Mode, field: usize, sum: i128) -> Result<u32, Refused> {
    if sum < 0 {
        return Err((answer(BAD_SEGMENT_SIZE, 0), Some(field)));
    }
    if mode == Mode::Checked && sum >= WORD {
        return Err((answer(WIDE_VALUE, field as u64), Some(field)));
    }
    Ok(sum.rem_euclid(WORD) as u32)
}

#[derive(Clone, Copy)]
struct Running {
    dst_line: u32,
    dst_col: u32,
    source_id: u32,
    src_line: u32,
    src_col: u32,
    name_id: u32,
}

/// The values, then steps 1 to 5. Where the segment begins is not known here.
fn segment(mode: Mode, sources: u32, names: u32, run: &mut Running, numbers: &[u128]) -> Result<Token, Refused> {
    let mut values = Vec::new();
    for (field, &number) in numbers.iter().enumerate() {
        match value_of(mode, number) {
            Some(value) => values.push(value),
            None if field < 5 => return Err((answer(WIDE_VALUE, field as u64), Some(field))),
            // It only counts.
            None => values.push(0),
        }
    }
    run.dst_col = kept(mode, 0, i128::from(run.dst_col) + values[0])?;
    match values.len() {
        1 | 4 | 5 => {}
        count => return Err((answer(BAD_SEGMENT_SIZE, count as u64 % (1 << 32)), None)),
    }
    let mut token = Token {
        dst_line: run.dst_line,
        dst_col: run.dst_col,
        src_line: run.src_line,
        src_col: run.src_col,
        source_id: NONE,
        name_id: NONE,
        segment: NONE,
    };
    if values.len() == 1 {
        return Ok(token);
    }
    let source = i128::from(run.source_id) + values[1];
    if source < 0 || source >= i128::from(sources) {
        return Err((answer(BAD_SOURCE_REFERENCE, u64::from(run.source_id)), Some(1)));
    }
    run.source_id = source as u32;
    run.src_line = kept(mode, 2, i128::from(run.src_line) + values[2])?;
    run.src_col = kept(mode, 3, i128::from(run.src_col) + values[3])?;
    token.source_id = run.source_id;
    token.src_line = run.src_line;
    token.src_col = run.src_col;
    if values.len() == 5 {
        let name = i128::from(run.name_id) + values[4];
        if mode == Mode::Checked && !(0..WORD).contains(&name) {
            return Err((answer(WIDE_VALUE, 4), Some(4)));
        }
        run.name_id = name.rem_euclid(WORD) as u32;
        if run.name_id >= names {
            return Err((answer(BAD_NAME_REFERENCE, u64::from(run.name_id)), Some(4)));
        }
        token.name_id = run.name_id;
    }
    Ok(token)
}

pub fn decode(mode: Mode, text: &[u8], sources: u32, names: u32, places: usize) -> Decoded {
    let mut run = Running { dst_line: 0, dst_col: 0, source_id: 0, src_line: 0, src_col: 0, name_id: 0 };
    let mut tokens = Vec::new();
    let mut at = 0;
    while at < text.len() {
        if text[at] == b',' {
            at += 1;
            continue;
        }
        if text[at] == b';' {
            run.dst_line = run.dst_line.wrapping_add(1);
            run.dst_col = 0;
            at += 1;
            continue;
        }
        let start = at;
        let refused = |answer, tokens, offset| Decoded { answer, tokens, offset, start };
        let mut numbers = Vec::new();
        let mut places_of_fields = Vec::new();
        while at < text.len() && !is_delimiter(text[at]) {
            match number_at(text, at) {
                Ok((number, end)) => {
                    numbers.push(number);
                    places_of_fields.push(at);
                    at = end;
                }
                Err((code, place)) => return refused(answer(code, 0), tokens, place),
            }
        }
        match segment(mode, sources, names, &mut run, &numbers) {
            Err((a, field)) => return refused(a, tokens, field.map_or(start, |field| places_of_fields[field])),
            Ok(_) if start >= FIRST_TOO_BIG => return refused(answer(TOO_BIG, tokens.len() as u64), tokens, start),
            Ok(_) if tokens.len() >= places => return refused(answer(TABLE_FULL, 0), tokens, start),
            Ok(token) => tokens.push(Token { segment: start as u32, ..token }),
        }
    }
    Decoded { answer: answer(DONE, 0), tokens, offset: text.len(), start: text.len() }
}

/// The numbers of a table with a place for each run of bytes that are no delimiter.
pub fn table_size(text: &[u8]) -> usize {
    WIDTH * text.split(|&b| is_delimiter(b)).filter(|run| !run.is_empty()).count()
}

// ---------------------------------------------------------------- writing

/// A value in the fewest digits.
pub fn value_text(value: i128) -> Vec<u8> {
    let mut rest = value.unsigned_abs() * 2 + u128::from(value < 0);
    let mut text = Vec::new();
    loop {
        let digit = (rest % 32) as usize;
        rest /= 32;
        if rest == 0 {
            text.push(DIGITS[digit]);
            return text;
        }
        text.push(DIGITS[digit + 32]);
    }
}

#[repr(C)]
#[derive(Clone, Copy, PartialEq, Eq, Debug, Default)]
pub struct TokenChunk {
    pub start: u32,
    pub end: u32,
    pub prev_dst_line: u32,
    pub prev_dst_col: u32,
    pub prev_src_line: u32,
    pub prev_src_col: u32,
    pub prev_name_id: u32,
    pub prev_source_id: u32,
}

#[derive(Clone, PartialEq, Eq, Debug)]
pub struct Encoded {
    pub answer: Answer,
    pub text: Vec<u8>,
    pub next: TokenChunk,
}

/// Whether so many numbers are no table, as input.
pub fn bad_table(numbers: usize) -> bool {
    numbers % WIDTH != 0 || numbers / WIDTH > MOST
}

/// Whether what is written of the table surely reads back.
pub fn meets_premises(table: &[u32], sources: u32, names: u32) -> bool {
    if bad_table(table.len()) {
        return false;
    }
    let (mut line, mut position) = (0, (0, 0));
    tokens_of(table).iter().all(|t| {
        let forth = t.dst_line >= line;
        line = t.dst_line;
        let ids = (t.source_id == NONE || t.source_id < sources) && (t.name_id == NONE || t.name_id < names);
        if t.source_id != NONE {
            position = (t.src_line, t.src_col);
            return forth && ids;
        }
        forth && ids && t.name_id == NONE && position == (t.src_line, t.src_col)
    })
}

/// Whether it surely reads back in checked mode too: each step that is written stays below 2^31, up or down.
pub fn meets_checked_premises(table: &[u32], sources: u32, names: u32) -> bool {
    let mut state = TokenChunk::default();
    let near = |t: &Token| token_steps(&mut state, t).iter().all(|step| step.abs() < 1 << 31);
    meets_premises(table, sources, names) && tokens_of(table).iter().all(near)
}

/// The values that a token is written in, after a state, which it changes.
fn token_steps(state: &mut TokenChunk, t: &Token) -> Vec<i128> {
    let step = |now: u32, before: u32| i128::from(now) - i128::from(before);
    if t.dst_line != state.prev_dst_line {
        state.prev_dst_line = t.dst_line;
        state.prev_dst_col = 0;
    }
    let mut steps = vec![step(t.dst_col, state.prev_dst_col)];
    state.prev_dst_col = t.dst_col;
    if t.source_id != NONE {
        steps.push(step(t.source_id, state.prev_source_id));
        steps.push(step(t.src_line, state.prev_src_line));
        steps.push(step(t.src_col, state.prev_src_col));
        state.prev_source_id = t.source_id;
        state.prev_src_line = t.src_line;
        state.prev_src_col = t.src_col;
        if t.name_id != NONE {
            steps.push(step(t.name_id, state.prev_name_id));
            state.prev_name_id = t.name_id;
        }
    }
    steps
}

/// room: how many bytes are lent. The bytes are made only where they fit.
pub fn encode(table: &[u32], chunk: TokenChunk, room: usize) -> Encoded {
    let refused = |code, number| Encoded { answer: answer(code, number), text: vec![], next: chunk };
    if bad_table(table.len()) {
        return refused(BAD_TABLE, 0);
    }
    let count = table.len() / WIDTH;
    if chunk.start > chunk.end || chunk.end as usize > count {
        return refused(BAD_CHUNK, 0);
    }
    let part = tokens_of(&table[WIDTH * chunk.start as usize..WIDTH * chunk.end as usize]);
    let mut line = chunk.prev_dst_line;
    for (i, t) in part.iter().enumerate() {
        if t.dst_line < line {
            return refused(LINE_GOES_BACK, u64::from(chunk.start) + i as u64);
        }
        line = t.dst_line;
    }
    // Each token as so many semicolons and the bytes after them.
    let mut state = chunk;
    let mut pieces = Vec::new();
    let mut need: u64 = 0;
    for (i, t) in part.iter().enumerate() {
        let lines = t.dst_line - state.prev_dst_line;
        let mut text = Vec::new();
        if lines == 0 && (i > 0 || chunk.start != 0) {
            text.push(b',');
        }
        for step in token_steps(&mut state, t) {
            text.extend(value_text(step));
        }
        need += u64::from(lines) + text.len() as u64;
        pieces.push((lines, text));
    }
    if need > room as u64 {
        return refused(NO_ROOM, need);
    }
    let mut text = Vec::new();
    for (lines, bytes) in pieces {
        text.resize(text.len() + lines as usize, b';');
        text.extend(bytes);
    }
    state.start = chunk.end;
    Encoded { answer: answer(DONE, 0), text, next: state }
}

// ---------------------------------------------------------------- translating

/// The translation of a whole list, or the index of the first token that gets too big.
pub fn translate(tokens: &[Token], line: u32, source: u32, name: u32) -> Result<Vec<Token>, usize> {
    let id = |id: u32, by: u32| match id {
        NONE => Some(NONE),
        _ => {
            let sum = u64::from(id) + u64::from(by);
            if sum < u64::from(NONE) { Some(sum as u32) } else { None }
        }
    };
    let mut moved = Vec::new();
    for (i, t) in tokens.iter().enumerate() {
        let dst_line = u64::from(t.dst_line) + u64::from(line);
        match (id(t.source_id, source), id(t.name_id, name)) {
            (Some(source_id), Some(name_id)) if dst_line <= 4_294_967_295 => {
                moved.push(Token { dst_line: dst_line as u32, source_id, name_id, ..*t });
            }
            _ => return Err(i),
        }
    }
    Ok(moved)
}

// ---------------------------------------------------------------- lookup

pub fn lookup(tokens: &[Token], line: u32, col: u32) -> Option<usize> {
    let mut best: Option<usize> = None;
    for (i, t) in tokens.iter().enumerate() {
        if t.dst_line == line && t.dst_col <= col && best.is_none_or(|b| tokens[b].dst_col <= t.dst_col) {
            best = Some(i);
        }
    }
    best
}

pub fn lookup_in_table(table: &[u32], line: u32, col: u32) -> Answer {
    if bad_table(table.len()) {
        return answer(BAD_TABLE, 0);
    }
    match lookup(&tokens_of(table), line, col) {
        Some(i) => answer(DONE, i as u64),
        None => answer(DONE, u64::from(NONE)),
    }
}

/// Many positions, line and column in turn: the answer, and the numbers that the list to fill begins with then.
pub fn lookup_many(table: &[u32], positions: &[u32], room: usize) -> (Answer, Vec<u32>) {
    let pairs = positions.len() / 2;
    if bad_table(table.len()) {
        return (answer(BAD_TABLE, 0), vec![]);
    }
    if positions.len() != 2 * pairs {
        return (answer(ODD_LIST, 0), vec![]);
    }
    if pairs > room {
        return (answer(NO_ROOM, pairs as u64), vec![]);
    }
    let tokens = tokens_of(table);
    let index = |pair: &[u32]| lookup(&tokens, pair[0], pair[1]).map_or(NONE, |i| i as u32);
    (answer(DONE, 0), positions.chunks(2).map(index).collect())
}

// ---------------------------------------------------------------- comparing two tables

/// An entry: kind, left index, right index.
pub type Change = [u32; 3];

pub const ONLY_LEFT: u32 = 1;
pub const ONLY_RIGHT: u32 = 2;
pub const DIFFERENT: u32 = 3;

/// The first token that stands before the one before it, by line, then column.
pub fn first_fall(tokens: &[Token]) -> Option<usize> {
    let place = |i: usize| (tokens[i].dst_line, tokens[i].dst_col);
    (1..tokens.len()).find(|&i| place(i) < place(i - 1))
}

/// Two tables compared, the room aside: the entries, or the refusal.
pub fn changes(left: &[u32], right: &[u32]) -> Result<Vec<Change>, Answer> {
    let tables = [left, right];
    if tables.iter().any(|table| bad_table(table.len())) {
        return Err(answer(BAD_TABLE, 0));
    }
    let tokens = tables.map(tokens_of);
    if let Some(i) = tokens.iter().find_map(|list| first_fall(list)) {
        return Err(answer(UNSORTED, i as u64));
    }
    // Each position that has a token, and the tokens of each table there.
    let mut positions: BTreeMap<(u32, u32), [Vec<usize>; 2]> = BTreeMap::new();
    for (side, list) in tokens.iter().enumerate() {
        for (i, t) in list.iter().enumerate() {
            positions.entry((t.dst_line, t.dst_col)).or_default()[side].push(i);
        }
    }
    let mut entries = Vec::new();
    for [lefts, rights] in positions.values() {
        for place in 0..lefts.len().max(rights.len()) {
            match (lefts.get(place), rights.get(place)) {
                (Some(&l), Some(&r)) if tokens[0][l].six() == tokens[1][r].six() => {}
                (Some(&l), Some(&r)) => entries.push([DIFFERENT, l as u32, r as u32]),
                (Some(&l), None) => entries.push([ONLY_LEFT, l as u32, NONE]),
                (None, Some(&r)) => entries.push([ONLY_RIGHT, NONE, r as u32]),
                (None, None) => unreachable!("a place without a token"),
            }
        }
    }
    Ok(entries)
}

/// What was compared, with so much room: the answer, how many entries, and the numbers that the list to fill begins with then.
pub fn compared(changes: &Result<Vec<Change>, Answer>, room: usize) -> (Answer, u64, Vec<u32>) {
    match changes {
        Err(refusal) => (*refusal, 0, vec![]),
        Ok(entries) if 3 * entries.len() > room => (answer(NO_ROOM, 3 * entries.len() as u64), 0, vec![]),
        Ok(entries) => (answer(DONE, 0), entries.len() as u64, entries.concat()),
    }
}

// ---------------------------------------------------------------- names and composing

#[derive(Clone, PartialEq, Eq, Debug, Default)]
pub struct Names {
    pub text: Vec<u8>,
    pub ends: Vec<usize>,
}

impl Names {
    pub fn sound(&self) -> bool {
        self.ends.windows(2).all(|w| w[0] <= w[1])
            && self.ends.last().is_none_or(|&e| e <= self.text.len())
            && self.ends.len() <= MOST_NAMES
    }

    /// Where a name of a sound list begins and ends.
    pub fn span(&self, id: usize) -> (usize, usize) {
        (if id == 0 { 0 } else { self.ends[id - 1] }, self.ends[id])
    }

    pub fn name(&self, id: usize) -> &[u8] {
        let (start, end) = self.span(id);
        &self.text[start..end]
    }

    pub fn count(&self) -> usize {
        self.ends.len()
    }
}

#[derive(Clone, PartialEq, Eq, Debug)]
pub struct Composed {
    pub answer: Answer,
    pub tokens: Vec<Token>,
    pub added: Vec<u32>,
}

pub struct Outer<'a> {
    pub table: &'a [u32],
    pub sources: u32,
    pub names: &'a Names,
}

pub struct Inner<'a> {
    pub table: &'a [u32],
    pub names: &'a Names,
}

/// The refusals of composing, in order; rooms are in numbers.
pub fn compose_refusal(outer: &Outer, inner: &Inner, result: usize, added: usize) -> Option<Answer> {
    if outer.sources > 1 {
        return Some(answer(MORE_THAN_ONE_SOURCE, 0));
    }
    if bad_table(outer.table.len()) || bad_table(inner.table.len()) {
        return Some(answer(BAD_TABLE, 0));
    }
    if !outer.names.sound() || !inner.names.sound() {
        return Some(answer(BAD_NAMES, 0));
    }
    if result / WIDTH < outer.table.len() / WIDTH {
        return Some(answer(TABLE_FULL, 0));
    }
    if added < outer.names.count() {
        return Some(answer(NO_ROOM, outer.names.count() as u64));
    }
    None
}

/// The composed tokens and the added names, with the lookup handed in.
pub fn composed(outer: &Outer, inner: &Inner, look: &dyn Fn(u32, u32) -> Option<Token>) -> (Vec<Token>, Vec<u32>) {
    let mut added: Vec<u32> = Vec::new();
    let mut tokens = Vec::new();
    for t in tokens_of(outer.table) {
        let found = if t.source_id == NONE { None } else { look(t.src_line, t.src_col) };
        let token = match found {
            Some(o) if o.source_id != NONE => Token {
                dst_line: t.dst_line,
                dst_col: t.dst_col,
                src_line: o.src_line,
                src_col: o.src_col,
                source_id: o.source_id,
                name_id: if o.name_id != NONE { o.name_id } else { name_for(outer.names, inner.names, &mut added, t.name_id) },
                segment: t.segment,
            },
            _ => Token { src_line: 0, src_col: 0, source_id: NONE, name_id: NONE, ..t },
        };
        tokens.push(token);
    }
    (tokens, added)
}

fn name_for(outer: &Names, inner: &Names, added: &mut Vec<u32>, id: u32) -> u32 {
    if id == NONE || id as usize >= outer.count() {
        return NONE;
    }
    let name = outer.name(id as usize);
    if let Some(i) = (0..inner.count()).find(|&i| inner.name(i) == name) {
        return i as u32;
    }
    if let Some(i) = added.iter().position(|&a| outer.name(a as usize) == name) {
        return (inner.count() + i) as u32;
    }
    added.push(id);
    (inner.count() + added.len() - 1) as u32
}

pub fn compose(outer: &Outer, inner: &Inner, result: usize, added: usize) -> Composed {
    if let Some(answer) = compose_refusal(outer, inner, result, added) {
        return Composed { answer, tokens: vec![], added: vec![] };
    }
    let inner_tokens = tokens_of(inner.table);
    let (tokens, added) = composed(outer, inner, &|line, col| lookup(&inner_tokens, line, col).map(|i| inner_tokens[i]));
    Composed { answer: answer(DONE, 0), tokens, added }
}

/// The numbers of working memory that composing takes.
pub fn work_for(outer: &Names, inner: &Names) -> usize {
    2 * inner.count() + 3 * outer.count()
}

/// Composing with so much working memory, of which so much is needed: one test more, behind all others.
pub fn compose_with(plain: &Composed, needed: usize, work: usize) -> Composed {
    if plain.answer.code == DONE && work < needed {
        return Composed { answer: answer(NO_ROOM, needed as u64), tokens: vec![], added: vec![] };
    }
    plain.clone()
}

/// The name of a result id: whether it is there, whether it stands in the outer text, and where.
#[repr(C)]
#[derive(Clone, Copy, PartialEq, Eq, Debug)]
pub struct NameOf {
    pub found: u64,
    pub outer: u64,
    pub start: u64,
    pub end: u64,
}

pub fn name_of(inner: &Names, outer: &Names, added: &[u32], id: u32) -> Option<(bool, usize, usize)> {
    if !inner.sound() || !outer.sound() {
        return None;
    }
    let id = id as usize;
    if id < inner.count() {
        let (start, end) = inner.span(id);
        return Some((false, start, end));
    }
    let entry = *added.get(id - inner.count())? as usize;
    if entry >= outer.count() {
        return None;
    }
    let (start, end) = outer.span(entry);
    Some((true, start, end))
}
