//! Many positions in one call, by the plain call and by the quick one. Each is held to the model, to one lookup after another, and to
//! the crate where its lookup has no way to differ; and the quick one to the plain one. The plain one reads the table in blocks of 64
//! tokens: the tables here end before, at and past a block's end. sorted.rs has those that the quick one is in need of.

use crate::cases::{Case, Class, EDGES, Random, Tally, met_code, other_segments, parts};
use crate::looking::{self, Ask, LINES};
use crate::model::{self, NONE, Token, WIDTH, table_of, tokens_of};
use crate::ours::{self, Lent, Many};
use crate::sorted;
use crate::theirs::BUILDS;

const BLOCK: usize = 64;

/// How many tokens.
pub const COUNTS: [usize; 9] = [0, 1, 63, 64, 65, 127, 128, 129, 200];

#[derive(Clone)]
pub struct Asks {
    /// Where the tokens stand.
    pub places: Vec<(u32, u32)>,
    /// So many numbers are left out at the table's end.
    pub cut: usize,
    /// Line and column in turn; of an odd length too.
    pub positions: Vec<u32>,
    /// How many places the list has that is filled.
    pub room: usize,
}

impl std::fmt::Debug for Asks {
    fn fmt(&self, f: &mut std::fmt::Formatter<'_>) -> std::fmt::Result {
        for (line, col) in &self.places {
            write!(f, "({line} {col}) ")?;
        }
        write!(f, "without {} numbers, asked {:?}, room for {}", self.cut, self.positions, self.room)
    }
}

impl Asks {
    /// With just enough room.
    pub fn of(places: Vec<(u32, u32)>, asked: &[(u32, u32)]) -> Asks {
        Asks { places, cut: 0, positions: asked.iter().flat_map(|&(l, c)| [l, c]).collect(), room: asked.len() }
    }

    /// Line and column of each position.
    pub fn asked(&self) -> Vec<(u32, u32)> {
        self.positions.chunks_exact(2).map(|pair| (pair[0], pair[1])).collect()
    }

    pub fn table(&self) -> Vec<u32> {
        let mut table = table_of(&Ask { places: self.places.clone(), line: 0, col: 0 }.tokens());
        table.truncate(table.len().saturating_sub(self.cut));
        table
    }
}

/// Every place that is filled, held to one lookup.
fn one_by_one(table: &[u32], positions: &[u32], found: &[u32]) -> Result<(), String> {
    for (k, pair) in positions.chunks(2).enumerate() {
        let one = unsafe { ours::raw::lookup(table.as_ptr(), table.len(), pair[0], pair[1]) };
        if one != model::answer(model::DONE, found[k].into()) {
            return Err(format!("ours {} at {pair:?}, and one lookup {one:?}", found[k]));
        }
    }
    Ok(())
}

/// And to the crate; where it may differ, looking.rs says how.
fn by_crate(tokens: &[Token], positions: &[u32], found: &[u32]) -> Result<(), String> {
    if tokens.iter().any(|t| t.dst_line > LINES) {
        return Ok(());
    }
    let asked: Vec<(u32, u32)> = positions.chunks(2).map(|pair| (pair[0], pair[1])).collect();
    let judged: Vec<usize> = (0..asked.len()).filter(|&k| looking::class_of(tokens, asked[k].0, asked[k].1).is_none()).collect();
    if judged.is_empty() {
        return Ok(());
    }
    for build in BUILDS {
        let Some(theirs) = (build.look)(tokens, &asked) else {
            return Err(format!("the {} crate panics", build.name));
        };
        for &k in &judged {
            let ours = tokens.get(found[k] as usize).map(Token::six);
            if theirs[k].0 != ours {
                return Err(format!("the {} crate gives {:?} at {:?}, ours {ours:?}", build.name, theirs[k].0, asked[k]));
            }
            met_code("many, by the crate", ours.is_some().into());
        }
    }
    Ok(())
}

impl Case for Asks {
    fn check(&self) -> Result<Vec<Class>, String> {
        let table = self.table();
        let (want, numbers) = model::lookup_many(&table, &self.positions, self.room);
        for (table, which) in [(&table, ""), (&other_segments(&table), ", with other segments")] {
            let [plain, quick] = Many::ALL.map(|call| {
                let mut found = Lent::new(self.room);
                (ours::lookup_many(call, table, &self.positions, &mut found), found)
            });
            for ((got, found), name) in [(&plain, "ours"), (&quick, "our quick call")] {
                if *got != want {
                    return Err(format!("{name} {got:?}, the model {want:?}{which}"));
                }
                if !found.is(&numbers) {
                    return Err(format!("{name} {:?}, and {numbers:?} was due with the rest as it was{which}", found.numbers()));
                }
            }
            if quick != plain {
                return Err(format!("the quick call differs from the plain one in what is lent{which}"));
            }
        }
        met_code("many", want.code);
        met_code("many, quick", want.code);
        if want.code == model::DONE {
            // Both calls gave these numbers.
            let tokens = tokens_of(&table);
            met_code("many, a sorted table", sorted::is_sorted(&tokens).into());
            one_by_one(&table, &self.positions, &numbers)?;
            by_crate(&tokens, &self.positions, &numbers)?;
        }
        Ok(vec![])
    }

    fn smaller(&self) -> Vec<Asks> {
        let (tokens, pairs) = (self.places.len(), self.positions.len() / 2);
        let mut list = Vec::new();
        for (from, to) in parts(tokens) {
            let mut a = self.clone();
            a.places.drain(from..to);
            list.push(a);
        }
        for (from, to) in parts(pairs) {
            let mut a = self.clone();
            a.positions.drain(2 * from..2 * to);
            list.push(Asks { room: self.room.saturating_sub(to - from), ..a.clone() });
            list.push(a);
        }
        if self.room > 0 {
            list.push(Asks { room: self.room - 1, ..self.clone() });
        }
        list
    }

    fn size(&self) -> usize {
        let numbers = self.places.iter().flat_map(|&(l, c)| [l, c]).chain(self.positions.iter().copied());
        1000 * self.places.len() + 100 * self.positions.len() + 10 * self.room + numbers.map(|n| n.min(9) as usize).sum::<usize>()
    }
}

/// Every position on lines and columns 0 to 3.
fn everywhere() -> Vec<(u32, u32)> {
    (0..16).map(|p| (p / 4, p % 4)).collect()
}

/// Every list of so many tokens on lines and columns 0 to 2.
fn lists(tokens: usize) -> impl Iterator<Item = Vec<(u32, u32)>> {
    (0..9usize.pow(tokens as u32)).map(move |code| {
        let place = |i: usize| (code / 9usize.pow(i as u32) % 9) as u32;
        (0..tokens).map(|i| (place(i) / 3, place(i) % 3)).collect()
    })
}

/// Each at every position in one call.
pub fn all_lists(tokens: usize, go: &mut dyn FnMut(Asks) -> bool) {
    for places in lists(tokens) {
        if !go(Asks::of(places, &everywhere())) {
            return;
        }
    }
}

/// Each of them with a block's end before, within and behind it: other tokens fill the block, and in some cases one more.
pub fn across(tokens: usize, go: &mut dyn FnMut(Asks) -> bool) {
    for list in lists(tokens) {
        for before in BLOCK - tokens..=BLOCK {
            for other in [(0, 0), (1, 1), (2, 2), (9, 9)] {
                for behind in [0, BLOCK] {
                    let places = [vec![other; before], list.clone(), vec![other; behind]].concat();
                    if !go(Asks::of(places, &everywhere())) {
                        return;
                    }
                }
            }
        }
    }
}

/// Every list of up to three positions on lines and columns 0 to 2, with repeated ones, over every list of up to two tokens.
fn all_positions(go: &mut dyn FnMut(Asks) -> bool) {
    for places in (0..=2).flat_map(lists) {
        for asked in (0..=3).flat_map(lists) {
            if !go(Asks::of(places.clone(), &asked)) {
                return;
            }
        }
    }
}

/// Every length of a short table, of a short list of positions and of what is filled: every refusal with every other.
fn lengths(go: &mut dyn FnMut(Asks) -> bool) {
    for numbers in 0..=4 * WIDTH {
        for asked in 0..=10 {
            for room in 0..=8 {
                let tokens = numbers.div_ceil(WIDTH);
                let places = (0..tokens as u32).map(|i| (i % 2, i)).collect();
                let positions = [1, 3, 0, 0, 0, 2, 1, 0, 1, 9][..asked].to_vec();
                if !go(Asks { places, cut: tokens * WIDTH - numbers, positions, room }) {
                    return;
                }
            }
        }
    }
}

fn swap(random: &mut Random, places: &mut [(u32, u32)], times: usize) {
    for _ in 0..times.min(places.len() * 2) {
        let (i, j) = (random.below(places.len()), random.below(places.len()));
        places.swap(i, j);
    }
}

pub const SHAPES: usize = 13;

/// So many tokens that lie in one of the shapes.
pub fn shaped(random: &mut Random, shape: usize, count: usize) -> Vec<(u32, u32)> {
    let wide = random.pick(&[4, 40, 400]);
    let lines = 1 + count / random.pick(&[5, 20, 60]);
    let mut on = |lines: usize| -> Vec<(u32, u32)> {
        (0..count).map(|_| (random.below(lines) as u32, random.below(wide) as u32)).collect()
    };
    let rising = |mut places: Vec<(u32, u32)>| {
        places.sort();
        places
    };
    let falling = |mut places: Vec<(u32, u32)>| {
        places.sort_by(|a, b| b.cmp(a));
        places
    };
    match shape {
        // Sorted, nearly sorted, shuffled, and from the end to the start.
        0 => rising(on(lines)),
        1 => {
            let mut places = rising(on(lines));
            swap(random, &mut places, 4);
            places
        }
        2 => on(lines),
        3 => falling(on(lines)),
        // The same on one line.
        4 => rising(on(1)),
        5 => on(1),
        6 => falling(on(1)),
        // One token a line.
        7 => (0..count as u32).map(|i| (i, i % 3)).collect(),
        8 => {
            let mut places: Vec<(u32, u32)> = (0..count as u32).map(|i| (i, i % 3)).collect();
            swap(random, &mut places, 2 * count);
            places
        }
        // Equal positions, within a block and across its end.
        9 => {
            let mut places = Vec::new();
            while places.len() < count {
                let place = (random.below(3) as u32, random.below(3) as u32);
                let times = random.pick(&[1, 2, 5, 63, 64, 65, 70]);
                places.extend(std::iter::repeat_n(place, times));
            }
            places.truncate(count);
            if random.one_in(2) { rising(places) } else { places }
        }
        // Rising within each block, and smaller columns in the next one.
        10 => (0..count).map(|i| (0, (count / BLOCK - i / BLOCK) as u32 * 50 + (i % BLOCK) as u32)).collect(),
        // Numbers as large as they come.
        11 | 12 => {
            let places: Vec<(u32, u32)> = (0..count).map(|_| (random.pick(&EDGES), random.pick(&EDGES))).collect();
            if shape == 11 { rising(places) } else { places }
        }
        _ => unreachable!("there is no such shape"),
    }
}

/// Positions at every token, a column before and past it, a line before and past it, and in the corners.
pub fn around(places: &[(u32, u32)]) -> Vec<(u32, u32)> {
    let near = |&(line, col): &(u32, u32)| {
        let columns = [(line, col), (line, col.wrapping_sub(1)), (line, col.wrapping_add(1))];
        columns.into_iter().chain([(line.wrapping_sub(1), col), (line.wrapping_add(1), col)])
    };
    places.iter().flat_map(near).chain([(0, 0), (0, NONE), (NONE, 0), (NONE, NONE)]).collect()
}

/// Up to forty positions around tokens, repeated ones among them.
pub fn some_around(random: &mut Random, places: &[(u32, u32)]) -> Vec<(u32, u32)> {
    let near = around(places);
    let mut asked: Vec<(u32, u32)> = (0..random.below(41)).map(|_| random.pick(&near)).collect();
    for k in 1..asked.len() {
        if random.one_in(6) {
            asked[k] = asked[k - 1 - random.below(k.min(3))];
        }
    }
    asked
}

/// Every count in every shape, asked around every token in one call.
fn shapes(random: &mut Random, times: usize, go: &mut dyn FnMut(Asks) -> bool) {
    for count in COUNTS {
        for shape in 0..SHAPES {
            for _ in 0..times {
                let places = shaped(random, shape, count);
                let asked = around(&places);
                if !go(Asks::of(places, &asked)) {
                    return;
                }
            }
        }
    }
}

/// Any count in any shape; in some cases too much room, too little, an odd list or no table.
fn random_asks(random: &mut Random, cases: usize, most: usize, go: &mut dyn FnMut(Asks) -> bool) {
    for _ in 0..cases {
        let count = if most <= 200 && random.one_in(2) { random.pick(&COUNTS) } else { random.below(most + 1) };
        let shape = random.below(SHAPES);
        let places = shaped(random, shape, count);
        let asked = some_around(random, &places);
        let mut case = Asks::of(places, &asked);
        match random.below(8) {
            0 => case.room += 1,
            1 => case.room += random.below(20),
            2 => case.room = case.room.saturating_sub(1),
            3 => case.room = random.below(case.room + 1),
            _ => {}
        }
        if random.one_in(10) {
            case.positions.push(random.number());
        }
        if random.one_in(10) {
            case.cut = 1 + random.below(WIDTH - 1);
        }
        if !go(case) {
            return;
        }
    }
}

pub fn run(tally: &mut Tally, seed: u64, scale: usize) {
    tally.group("many: every length", lengths);
    for tokens in 0..=4 {
        tally.group(&format!("many: every list of {tokens} tokens"), |go| all_lists(tokens, go));
    }
    for tokens in 1..=3 {
        tally.group(&format!("many: every list of {tokens} tokens at a block's end"), |go| across(tokens, go));
    }
    tally.group("many: every list of positions", all_positions);
    sorted::run(tally);
    tally.group("many: every shape", |go| shapes(&mut Random::new(seed, "shapes"), 40 * scale, go));
    tally.group("many: lists", |go| random_asks(&mut Random::new(seed, "many asks"), 150_000 * scale, 200, go));
    tally.group("many: long lists", |go| random_asks(&mut Random::new(seed, "long many asks"), 1_000 * scale, 5_000, go));
}
