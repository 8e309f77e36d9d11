//! Checked decoding by a judge of its own, after ECMA-426 and apart from model.rs: whole numbers from the first digit to the last sum,
//! with no remainder, no mask and no mode in them. It says which tokens stand before the first segment that cannot be kept, and where
//! their segments begin, and nothing of codes and offsets.

use crate::cases::{Case, Class, Random, Tally, met_code};
use crate::decoding::{self, COUNTS, Text};
use crate::ours::{self, Entry, Lent};

/// The 2^31 of the standard's limit, and the 2^32 of a number in a table.
const LIMIT: i128 = 2_147_483_648;
const WORD: i128 = 4_294_967_296;

const ALPHABET: &str = "ABCDEFGHIJKLMNOPQRSTUVWXYZabcdefghijklmnopqrstuvwxyz0123456789+/";

/// A value as the low five bits of each of its digits, the first digit first.
type Value = Vec<u8>;

/// No value: nothing stands between two delimiters. None: its digits make no values.
type Segment = Option<Vec<Value>>;

type Line = Vec<Segment>;

// ---------------------------------------------------------------- the judge

/// The standard's value; none where it is too wide.
fn value(digits: &[u8]) -> Option<i128> {
    let (mut unsigned, mut weight) = (0, 1);
    for &digit in digits {
        unsigned += i128::from(digit) * weight;
        weight *= 32;
    }
    let magnitude = unsigned / 2;
    let minus = unsigned - 2 * magnitude == 1;
    match (minus, magnitude) {
        (_, LIMIT..) => None,
        (true, 0) => Some(-LIMIT),
        (true, _) => Some(-magnitude),
        (false, _) => Some(magnitude),
    }
}

/// The running numbers. The column begins anew on each line, the others go on.
#[derive(Default)]
struct Sums {
    column: i128,
    source: i128,
    src_line: i128,
    src_col: i128,
    name: i128,
}

/// A segment's token but for where the segment begins; none where it cannot be kept.
fn token(line: usize, sums: &mut Sums, segment: &[Value], sources: i128, names: i128) -> Option<[i128; 6]> {
    let values: Vec<i128> = segment.iter().map(|digits| value(digits)).collect::<Option<_>>()?;
    let added = |sum: &mut i128, value: i128, below: i128| {
        *sum += value;
        (0 <= *sum && *sum < below).then_some(*sum)
    };
    let (line, none) = (line as i128, WORD - 1);
    let column = added(&mut sums.column, values[0], WORD)?;
    match values[1..] {
        [] => Some([line, column, sums.src_line, sums.src_col, none, none]),
        [source, src_line, src_col, ref name @ ..] if name.len() < 2 => {
            let source = added(&mut sums.source, source, sources)?;
            let src_line = added(&mut sums.src_line, src_line, WORD)?;
            let src_col = added(&mut sums.src_col, src_col, WORD)?;
            let name = match name {
                [] => none,
                name => added(&mut sums.name, name[0], names)?,
            };
            Some([line, column, src_line, src_col, source, name])
        }
        _ => None,
    }
}

/// The tokens before the first segment that cannot be kept, each with the digits and delimiters counted that stand before its
/// segment, and whether there is none such.
fn judged(lines: &[Line], sources: u32, names: u32) -> (Vec<([i128; 6], i128)>, bool) {
    let mut sums = Sums::default();
    let mut tokens = Vec::new();
    let mut before = 0;
    for (number, line) in lines.iter().enumerate() {
        sums.column = 0;
        for (i, segment) in line.iter().enumerate() {
            // The comma.
            before += i128::from(i > 0);
            match segment {
                Some(values) if values.is_empty() => {}
                Some(values) => match token(number, &mut sums, values, sources.into(), names.into()) {
                    Some(token) => tokens.push((token, before)),
                    None => return (tokens, false),
                },
                None => return (tokens, false),
            }
            before += segment.iter().flatten().map(|digits| digits.len() as i128).sum::<i128>();
        }
        // The semicolon.
        before += 1;
    }
    (tokens, true)
}

/// Ours in checked mode, with a place for each segment and more, against the judge.
fn agrees(part: &'static str, text: &[u8], lines: &[Line], sources: u32, names: u32) -> Result<(), String> {
    let (tokens, whole) = judged(lines, sources, names);
    let segments: usize = lines.iter().map(Vec::len).sum();
    let mut table = Lent::new(7 * segments + text.len() % 7);
    let (a, count, offset) = ours::decode(Entry::Checked, text, sources, names, &mut table);
    met_code(part, a.code);
    let numbers = tokens.iter().flat_map(|(six, begin)| six.iter().chain([begin]));
    let want: Vec<u32> = numbers.map(|&n| u32::try_from(n).expect("a number of 32 bits")).collect();
    let coded = if whole { (a.code, a.number, offset) == (0, 0, text.len() as u64) } else { a.code != 0 };
    if !coded || count != tokens.len() as u64 || !table.is(&want) {
        let held = &table.numbers()[..7 * (count as usize).min(segments)];
        return Err(format!("ours {a:?}, {count} tokens, offset {offset}, {held:?}; due {whole}, {tokens:?}"));
    }
    Ok(())
}

// ---------------------------------------------------------------- texts made of lists

/// A text as lists, from which it is written and from which it is judged: it is not read.
#[derive(Clone, Debug)]
struct Lists {
    lines: Vec<Line>,
    sources: u32,
    names: u32,
}

fn spelled(digits: &[u8]) -> String {
    let last = digits.len() - 1;
    let letter = |(i, &digit): (usize, &u8)| {
        let at = if i < last { 32 + usize::from(digit) } else { usize::from(digit) };
        &ALPHABET[at..=at]
    };
    digits.iter().enumerate().map(letter).collect()
}

impl Lists {
    fn text(&self) -> String {
        let segment = |s: &Segment| s.iter().flatten().map(|digits| spelled(digits)).collect::<String>();
        let line = |l: &Line| l.iter().map(segment).collect::<Vec<_>>().join(",");
        self.lines.iter().map(line).collect::<Vec<_>>().join(";")
    }
}

impl Case for Lists {
    fn check(&self) -> Result<Vec<Class>, String> {
        agrees("exact, lists", self.text().as_bytes(), &self.lines, self.sources, self.names)?;
        Ok(vec![])
    }

    fn smaller(&self) -> Vec<Lists> {
        let mut list = Vec::new();
        let mut without = |change: &dyn Fn(&mut Vec<Line>)| {
            let mut next = self.clone();
            change(&mut next.lines);
            list.push(next);
        };
        for l in 0..self.lines.len() {
            without(&|lines| drop(lines.remove(l)));
            for s in 0..self.lines[l].len() {
                without(&|lines| drop(lines[l].remove(s)));
                for v in 0..self.lines[l][s].iter().flatten().count() {
                    let at = |lines: &mut Vec<Line>, change: &dyn Fn(&mut Value)| {
                        lines[l][s].iter_mut().for_each(|values| change(&mut values[v]))
                    };
                    without(&|lines| at(lines, &|digits| *digits = vec![0]));
                    without(&|lines| at(lines, &|digits| digits.truncate((digits.len() - 1).max(1))));
                }
            }
        }
        list
    }

    fn size(&self) -> usize {
        let text = self.text();
        2 * text.len() + text.bytes().filter(|&b| b != b'A').count()
    }

    fn show(&self) -> String {
        format!("text {:?}, {} sources, {} names", self.text(), self.sources, self.names)
    }
}

/// A number's digits, with needless zeros behind them up to so many digits.
fn digits_of(number: i128, places: usize) -> Value {
    let mut digits = Vec::new();
    let mut rest = number;
    while digits.is_empty() || rest > 0 || digits.len() < places {
        let next = rest / 32;
        digits.push((rest - 32 * next) as u8);
        rest = next;
    }
    digits
}

/// Numbers of digits at which a value changes: zero and minus zero, one digit and two, both signs on either side of 2^31 - 1, 2^31
/// and 2^32, and the last bits of thirteen digits.
const NUMBERS: [i128; 28] = [
    0,
    1,
    2,
    3,
    30,
    31,
    32,
    33,
    1_022,
    1_023,
    1_024,
    1_025,
    2 * LIMIT - 4,
    2 * LIMIT - 3,
    2 * LIMIT - 2,
    2 * LIMIT - 1,
    2 * LIMIT,
    2 * LIMIT + 1,
    2 * LIMIT + 2,
    2 * LIMIT + 3,
    2 * WORD - 1,
    2 * WORD,
    2 * WORD + 1,
    2 * WORD + 2,
    WORD * WORD / 2,
    WORD * WORD,
    WORD * WORD + 1,
    2 * WORD * WORD - 1,
];

/// Numbers that a running sum is led to.
const PLACES: [i128; 10] = [0, 1, 2, LIMIT - 2, LIMIT - 1, LIMIT, LIMIT + 1, WORD - 2, WORD - 1, WORD];

/// A value that leads a sum to some number below a bound, mostly; and now and then any value.
fn any_value(random: &mut Random, sum: &mut i128, below: i128) -> Value {
    let places = random.pick(&[1, 1, 1, 1, 2, 3, 6, 7, 8, 12, 13]);
    let digits = match random.below(60) {
        0 => (0..1 + random.below(13)).map(|_| random.below(32) as u8).collect(),
        1 => digits_of(random.pick(&NUMBERS), places),
        way => {
            let to = match way {
                2..20 => *sum,
                20..45 => random.below(40) as i128,
                45..55 => random.pick(&PLACES),
                _ => i128::from(random.next() as u32),
            };
            let to = if random.one_in(50) { to } else { to.min(below - 1).max(0) };
            // In as much as one value takes it.
            let step = (to - *sum).clamp(-LIMIT, LIMIT - 1);
            let number = if step == -LIMIT { 1 } else { 2 * step.abs() + i128::from(step < 0) };
            digits_of(number, places)
        }
    };
    *sum += value(&digits).unwrap_or(0);
    digits
}

fn lists(random: &mut Random, cases: usize, go: &mut dyn FnMut(Lists) -> bool) {
    for _ in 0..cases {
        let counts = [0, 1, 2, 3, 40, 1 << 31, (1 << 31) + 1, u32::MAX - 1, u32::MAX, u32::MAX];
        let (sources, names) = (random.pick(&counts), random.pick(&counts));
        let bounds = [WORD, sources.into(), WORD, WORD, names.into()];
        let mut sums = [0; 5];
        let mut lines = Vec::new();
        for _ in 0..1 + random.below(4) {
            sums[0] = 0;
            let mut line = Vec::new();
            for _ in 0..random.below(5) {
                let fields = match (sources, names) {
                    (0, _) if !random.one_in(20) => random.pick(&[0, 1]),
                    (_, 0) if !random.one_in(20) => random.pick(&[0, 1, 4, 4]),
                    _ => random.pick(&[0, 1, 4, 4, 5, 5, 5]),
                };
                line.push(Some((0..fields).map(|f| any_value(random, &mut sums[f], bounds[f])).collect()));
            }
            lines.push(line);
        }
        if !go(Lists { lines, sources, names }) {
            return;
        }
    }
}

/// One value alone, with each number and each count of digits, in each field of a segment behind one that sets all sums.
fn each_number(go: &mut dyn FnMut(Lists) -> bool) {
    let set = |to: i128| Some((0..5).map(|_| digits_of(2 * to, 1)).collect());
    let most = LIMIT - 1;
    for before in [vec![], vec![set(1)], vec![set(most)], vec![set(most), set(1)], vec![set(most), set(most)]] {
        for fields in [1, 4, 5] {
            for field in 0..fields {
                for number in NUMBERS {
                    for places in 1..=13 {
                        let value = |f| if f == field { digits_of(number, places) } else { vec![0] };
                        let mut line = before.clone();
                        line.push(Some((0..fields).map(value).collect()));
                        line.push(Some(vec![vec![0]]));
                        if !go(Lists { lines: vec![line], sources: u32::MAX, names: u32::MAX }) {
                            return;
                        }
                    }
                }
            }
        }
    }
}

// ---------------------------------------------------------------- texts that are read

/// A reading for this part alone: cut at `;`, then at `,`; a digit is its place among the sixty-four characters, any other byte 63.
fn read(text: &[u8]) -> Vec<Line> {
    text.split(|&b| b == b';').map(|line| line.split(|&b| b == b',').map(read_segment).collect()).collect()
}

/// None where the last digit of a segment says that another follows, or a value has more than thirteen.
fn read_segment(bytes: &[u8]) -> Segment {
    let mut values = Vec::new();
    let mut value = Vec::new();
    for &byte in bytes {
        let digit = ALPHABET.bytes().position(|letter| letter == byte).unwrap_or(63) as u8;
        let last = digit < 32;
        value.push(if last { digit } else { digit - 32 });
        if value.len() > 13 {
            return None;
        }
        if last {
            values.push(std::mem::take(&mut value));
        }
    }
    value.is_empty().then_some(values)
}

/// Any text at all.
#[derive(Clone, Debug)]
struct Any(Text);

impl Case for Any {
    fn check(&self) -> Result<Vec<Class>, String> {
        let Text { text, sources, names } = &self.0;
        agrees("exact, texts", text, &read(text), *sources, *names)?;
        Ok(vec![])
    }

    fn smaller(&self) -> Vec<Any> {
        self.0.smaller().into_iter().map(Any).collect()
    }

    fn size(&self) -> usize {
        self.0.size()
    }

    fn show(&self) -> String {
        self.0.show()
    }
}

pub fn run(tally: &mut Tally, seed: u64, scale: usize) {
    tally.group("exact: each number in each field", each_number);
    tally.group("exact: texts made of lists", |go| lists(&mut Random::new(seed, "exact lists"), 500_000 * scale, go));
    tally.group("exact: every text to 5 symbols", |go| {
        for symbols in 0..=5 {
            if !decoding::all_texts("", symbols, &COUNTS[1..3], &mut |text| go(Any(text))) {
                return;
            }
        }
    });
    tally.group("exact: walks by checked mode's values", |go| {
        decoding::walks(&mut Random::new(seed, "exact walks"), 100_000 * scale, &mut |text| go(Any(text)))
    });
    tally.group("exact: 64-bit patterns", |go| {
        decoding::patterns(&mut Random::new(seed, "exact patterns"), 50_000 * scale, &mut |text| go(Any(text)))
    });
    tally.group("exact: random bytes", |go| {
        decoding::any_bytes(&mut Random::new(seed, "exact bytes"), 150_000 * scale, &mut |text| go(Any(text)))
    });
    tally.group("exact: short lists and damaged copies", |go| {
        decoding::long_texts(&mut Random::new(seed, "exact short"), 15_000 * scale, 8, &mut |text| go(Any(text)))
    });
}
