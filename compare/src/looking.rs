//! Lookup. Ours is held to the model; the crate's `lookup_token_approx` differs in five ways, each told apart here.

use crate::cases::{Case, Class, EDGES, Random, Tally, met_code, other_segments, with_segments};
use crate::model::{self, NONE, Token, WIDTH, answer, bad_table, table_of};
use crate::ours;
use crate::theirs::{BUILDS, Looked};

pub const BEFORE: Class = "lookup: before the line's first token";
pub const EQUALS: Class = "lookup: equals at exactly the asked column";
pub const COLUMNS_FALL: Class = "lookup: columns fall on a line";
pub const LINES_FALL: Class = "lookup: lines fall; the crate panics";
pub const LINE_BACK: Class = "lookup: a line comes back";

/// The crate's lookup table has a place for each line up to the last token's.
pub const LINES: u32 = 1 << 16;

/// How the crate sees the tokens of a line: the last run of them. None where it panics.
pub enum Line {
    Panics,
    Runs { count: usize, last: std::ops::Range<usize> },
}

pub fn line_of(tokens: &[Token], line: u32) -> Line {
    let end = tokens.last().map_or(0, |t| t.dst_line);
    if tokens.iter().any(|t| t.dst_line > end) {
        return Line::Panics;
    }
    let mut count = 0;
    let mut last = 0..0;
    let mut i = 0;
    while i < tokens.len() {
        let from = i;
        while i < tokens.len() && tokens[i].dst_line == tokens[from].dst_line {
            i += 1;
        }
        if tokens[from].dst_line == line {
            count += 1;
            last = from..i;
        }
    }
    Line::Runs { count, last }
}

/// Why the crate's lookup may differ from ours at a position.
pub fn class_of(tokens: &[Token], line: u32, col: u32) -> Option<Class> {
    match line_of(tokens, line) {
        Line::Panics => Some(LINES_FALL),
        Line::Runs { count, .. } if count > 1 => Some(LINE_BACK),
        Line::Runs { last, .. } => {
            let run = &tokens[last];
            if run.windows(2).any(|w| w[1].dst_col < w[0].dst_col) {
                Some(COLUMNS_FALL)
            } else if run.first().is_some_and(|t| col < t.dst_col) {
                Some(BEFORE)
            } else if run.iter().filter(|t| t.dst_col == col).count() > 1 {
                Some(EQUALS)
            } else {
                None
            }
        }
    }
}

/// What the crate's two lookups give on a run whose columns do not fall.
fn foreseen(run: &[Token], col: u32) -> Looked {
    let plain = match run.iter().position(|t| t.dst_col == col) {
        Some(i) => Some(run[i]),
        None => run.iter().rfind(|t| t.dst_col < col).copied(),
    };
    (plain.or(run.first().copied()).map(|t| t.six()), plain.map(|t| t.six()))
}

#[derive(Clone)]
pub struct Ask {
    pub places: Vec<(u32, u32)>,
    pub line: u32,
    pub col: u32,
}

impl std::fmt::Debug for Ask {
    fn fmt(&self, f: &mut std::fmt::Formatter<'_>) -> std::fmt::Result {
        for (line, col) in &self.places {
            write!(f, "({line} {col}) ")?;
        }
        write!(f, "asked {} {}", self.line, self.col)
    }
}

impl Ask {
    /// Tokens that differ from each other: the source line is the index.
    pub fn tokens(&self) -> Vec<Token> {
        let token = |(i, &(dst_line, dst_col)): (usize, &(u32, u32))| Token::with([dst_line, dst_col, i as u32, 5, 0, NONE], 0);
        with_segments(&self.places.iter().enumerate().map(token).collect::<Vec<_>>(), 0)
    }
}

impl Case for Ask {
    fn check(&self) -> Result<Vec<Class>, String> {
        let tokens = self.tokens();
        let table = table_of(&tokens);
        let want = model::lookup_in_table(&table, self.line, self.col);
        let got = ours::lookup(&table, self.line, self.col);
        if got != want {
            return Err(format!("ours {got:?}, the model {want:?}"));
        }
        met_code("lookup", got.code);
        let other = ours::lookup(&other_segments(&table), self.line, self.col);
        if other != got {
            return Err(format!("ours {got:?}, and {other:?} with other segments"));
        }
        let bad = &table[..table.len() - table.len().min(1 + self.col as usize % (WIDTH - 1))];
        if bad_table(bad.len()) {
            if ours::lookup(bad, self.line, self.col) != answer(model::BAD_TABLE, 0) {
                return Err(format!("{} numbers are taken", bad.len()));
            }
            met_code("lookup", model::BAD_TABLE);
        }
        if tokens.iter().any(|t| t.dst_line > LINES) {
            return Ok(vec![]);
        }
        let ours = (want.number < u64::from(NONE)).then(|| tokens[want.number as usize]);
        let mut classes = Vec::new();
        for build in BUILDS {
            let theirs = (build.look)(&tokens, &[(self.line, self.col)]).map(|l| l[0]);
            let class = class_of(&tokens, self.line, self.col);
            match (&theirs, line_of(&tokens, self.line)) {
                (None, Line::Panics) => {}
                (Some(looked), Line::Runs { last, .. }) => {
                    let run = &tokens[last];
                    let sorted = run.windows(2).all(|w| w[0].dst_col <= w[1].dst_col);
                    if sorted && *looked != foreseen(run, self.col) {
                        return Err(format!(
                            "the {} crate gives {looked:?}, foreseen was {:?}",
                            build.name,
                            foreseen(run, self.col)
                        ));
                    }
                }
                _ => return Err(format!("the {} crate gives {theirs:?}", build.name)),
            }
            let same = theirs.is_some_and(|(approx, _)| approx == ours.map(|t| t.six()));
            match class {
                None if !same => return Err(format!("the {} crate gives {theirs:?}, ours {ours:?}", build.name)),
                Some(c) if !same && build.name == "release" => classes.push(c),
                _ => {}
            }
        }
        Ok(classes)
    }

    fn smaller(&self) -> Vec<Ask> {
        let mut list = Vec::new();
        for i in 0..self.places.len() {
            let mut a = self.clone();
            a.places.remove(i);
            list.push(a);
        }
        list
    }

    fn size(&self) -> usize {
        let numbers = self.places.iter().flat_map(|&(l, c)| [l, c]).chain([self.line, self.col]);
        1000 * self.places.len() + numbers.map(|n| n.min(9) as usize).sum::<usize>()
    }
}

/// Every list of so many tokens on lines and columns 0 to 2, at every position from 0 to 3.
pub fn all_lists(tokens: usize, go: &mut dyn FnMut(Ask) -> bool) {
    for code in 0..9usize.pow(tokens as u32) {
        let mut rest = code;
        let places: Vec<(u32, u32)> = (0..tokens)
            .map(|_| {
                let p = (rest % 9) as u32;
                rest /= 9;
                (p / 3, p % 3)
            })
            .collect();
        for line in 0..4 {
            for col in 0..4 {
                if !go(Ask { places: places.clone(), line, col }) {
                    return;
                }
            }
        }
    }
}

pub fn random_lists(random: &mut Random, cases: usize, most: usize, go: &mut dyn FnMut(Ask) -> bool) {
    for _ in 0..cases {
        let wide = random.pick(&[3, 10, 100]);
        let lines = random.pick(&[1, 3, 12]);
        let mut places: Vec<(u32, u32)> =
            (0..random.below(most + 1)).map(|_| (random.below(lines) as u32, random.below(wide) as u32)).collect();
        if random.one_in(8) {
            // Numbers as large as they come: the crate's table would not fit, so only the model judges.
            for p in &mut places {
                *p = (random.pick(&EDGES), random.pick(&EDGES));
            }
        }
        match random.below(4) {
            0 => {}
            1 => places.sort_by_key(|p| p.0),
            _ => places.sort(),
        }
        let (line, col) = match places.is_empty() || random.one_in(4) {
            true => (random.below(lines + 1) as u32, random.below(wide + 1) as u32),
            false => {
                let (l, c) = random.pick(&places);
                (l, c.wrapping_add(random.below(3) as u32).wrapping_sub(1))
            }
        };
        if !go(Ask { places, line, col }) {
            return;
        }
    }
}

pub fn run(tally: &mut Tally, seed: u64, scale: usize) {
    for tokens in 0..=4 {
        tally.group(&format!("lookup: every list of {tokens} tokens"), |go| all_lists(tokens, go));
    }
    tally.group("lookup: short lists", |go| random_lists(&mut Random::new(seed, "asks"), 200_000 * scale, 12, go));
    tally.group("lookup: long lists", |go| random_lists(&mut Random::new(seed, "long asks"), 2_000 * scale, 400, go));
}
