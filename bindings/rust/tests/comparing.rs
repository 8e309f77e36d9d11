//! What changed between two tables, held to the rule: position by position, the k-th token there against the k-th.

use peghayrick::*;
use std::collections::BTreeMap;
use Change::{Different, OnlyLeft, OnlyRight};

/// The numbers of a token that are compared.
fn six(tokens: &[Token], index: u32) -> &[u32] {
    &table_of(&tokens[index as usize..])[..6]
}

/// The rule: which tokens of each table stand at each position, and then place by place.
fn by_rule(left: &[Token], right: &[Token]) -> Vec<Change> {
    let mut positions: BTreeMap<(u32, u32), [Vec<u32>; 2]> = BTreeMap::new();
    for (side, tokens) in [left, right].into_iter().enumerate() {
        for (index, token) in (0..).zip(tokens) {
            positions.entry((token.dst_line, token.dst_col)).or_default()[side].push(index);
        }
    }
    let mut changes = vec![];
    for [lefts, rights] in positions.values() {
        for k in 0..lefts.len().max(rights.len()) {
            changes.extend(match (lefts.get(k), rights.get(k)) {
                (Some(&l), Some(&r)) => (six(left, l) != six(right, r)).then_some(Different { left: l, right: r }),
                (Some(&l), None) => Some(OnlyLeft(l)),
                (None, r) => r.map(|&r| OnlyRight(r)),
            });
        }
    }
    changes
}

/// An entry as it stands in the lent memory.
fn entry(change: &Change) -> [u32; 3] {
    match *change {
        OnlyLeft(left) => [1, left, NONE],
        OnlyRight(right) => [2, NONE, right],
        Different { left, right } => [3, left, right],
    }
}

/// The same difference, seen from the other side.
fn mirrored(change: &Change) -> Change {
    match *change {
        OnlyLeft(index) => OnlyRight(index),
        OnlyRight(index) => OnlyLeft(index),
        Different { left, right } => Different { left: right, right: left },
    }
}

/// Numbers that no entry has.
fn marks(count: usize) -> Vec<u32> {
    (0x5eed_0000..).take(count).collect()
}

/// Holds one call to the rule, with all that it leaves in the lent memory, whatever its length.
fn held(left: &[Token], right: &[Token]) -> Vec<Change> {
    let want = by_rule(left, right);
    let entries: Vec<u32> = want.iter().flat_map(entry).collect();
    let (left, right) = (table_of(left), table_of(right));
    let most = 3 * (left.len() / WIDTH + right.len() / WIDTH);
    assert!(entries.len() <= most);
    // As much as is needed, and more than is ever needed.
    for room in [entries.len(), most + 4] {
        let mut out = marks(room);
        let changes = compare_tables(left, right, &mut out).unwrap();
        assert_eq!(changes.len(), want.len());
        assert!(changes.clone().eq(want.iter().copied()), "{changes:?} and not {want:?}");
        assert!(changes.rev().eq(want.iter().rev().copied()));
        let kept = entries.len();
        assert_eq!(out[..kept], entries);
        assert_eq!(out[kept..], marks(room)[kept..], "numbers past the entries");
    }
    // A number too few, and none.
    for room in [entries.len().saturating_sub(1), 0].into_iter().filter(|&room| room < entries.len()) {
        let (mut out, needed) = (marks(room), entries.len() as u64);
        assert_eq!(compare_tables(left, right, &mut out).unwrap_err(), Refusal::NoRoom { needed });
        assert_eq!(out, marks(room), "a refusal writes nothing");
    }
    want
}

/// Holds both ways round to the rule and to each other, and says what changed.
fn changes(left: &[Token], right: &[Token]) -> Vec<Change> {
    let want = held(left, right);
    // The other way round the same differences, in the same order.
    assert_eq!(held(right, left), want.iter().map(mirrored).collect::<Vec<_>>());
    // None exactly where the first six numbers agree throughout.
    let agree = left.len() == right.len() && left.iter().zip(right).all(|(a, b)| a.same_mapping(b));
    assert_eq!(want.is_empty(), agree);
    // A table and itself.
    assert_eq!(held(left, left), []);
    want
}

/// A token at a position, with a source line that tells it from others.
fn at(line: u32, col: u32, step: u32) -> Token {
    Token::new(line, col, step, 0, Some(0), None)
}

#[test]
fn worked() {
    // Nothing, and something on one side alone.
    assert_eq!(changes(&[], &[]), []);
    assert_eq!(changes(&[at(2, 5, 1)], &[]), [OnlyLeft(0)]);
    assert_eq!(changes(&[], &[at(2, 5, 1), at(2, 5, 1)]), [OnlyRight(0), OnlyRight(1)]);
    // The same, another step, another position.
    assert_eq!(changes(&[at(2, 5, 1)], &[at(2, 5, 1)]), []);
    assert_eq!(changes(&[at(2, 5, 1)], &[at(2, 5, 2)]), [Different { left: 0, right: 0 }]);
    assert_eq!(changes(&[at(2, 5, 1)], &[at(2, 6, 1)]), [OnlyLeft(0), OnlyRight(0)]);
    assert_eq!(changes(&[at(2, 5, 1)], &[at(1, 9, 1)]), [OnlyRight(0), OnlyLeft(0)]);
    // A step that is put in, one that goes, and one that is another, among steps that stay.
    let old = [at(0, 0, 1), at(0, 4, 2), at(1, 0, 3), at(1, 7, 4), at(3, 0, 5)];
    let new = [at(0, 0, 1), at(0, 2, 9), at(0, 4, 2), at(1, 7, 8), at(3, 0, 5)];
    assert_eq!(changes(&old, &new), [OnlyRight(1), OnlyLeft(2), Different { left: 3, right: 3 }]);
    // The line counts before the column.
    assert_eq!(changes(&[at(0, 9, 1), at(1, 0, 2)], &[at(1, 0, 2)]), [OnlyLeft(0)]);
    // The largest line and column.
    let last = [at(NONE, NONE - 1, 0), at(NONE, NONE, 1), at(NONE, NONE, 2)];
    assert_eq!(changes(&last, &last[1..2]), [OnlyLeft(0), OnlyLeft(2)]);
}

/// Tokens that are left over at the end of either table, and whole lines of them.
#[test]
fn tails() {
    let tokens: Vec<Token> = (0..9).map(|k| at(k / 3, k % 3, k)).collect();
    for cut in 0..=9 {
        let rest: Vec<Change> = (cut..9).map(OnlyLeft).collect();
        assert_eq!(changes(&tokens, &tokens[..cut as usize]), rest);
        let begin: Vec<Change> = (0..cut).map(OnlyLeft).collect();
        assert_eq!(changes(&tokens, &tokens[cut as usize..]), begin);
    }
    // Both have some behind all of the other's.
    assert_eq!(changes(&tokens[..2], &tokens[2..4]), [OnlyLeft(0), OnlyLeft(1), OnlyRight(0), OnlyRight(1)]);
}

/// The k-th token at a position against the k-th there, however many each table has.
#[test]
fn one_position() {
    let [a, b, c] = [at(4, 4, 1), at(4, 4, 2), at(4, 4, 3)];
    let both = |k| Different { left: k, right: k };
    // Two and three.
    assert_eq!(changes(&[a, b], &[a, b, c]), [OnlyRight(2)]);
    assert_eq!(changes(&[a, b], &[c, a, b]), [both(0), both(1), OnlyRight(2)]);
    assert_eq!(changes(&[a, b], &[a, c, b]), [both(1), OnlyRight(2)]);
    // Another order, and one that comes again.
    assert_eq!(changes(&[a, b], &[b, a]), [both(0), both(1)]);
    assert_eq!(changes(&[a, b, c], &[c, b, a]), [both(0), both(2)]);
    assert_eq!(changes(&[a, a], &[a]), [OnlyLeft(1)]);
    assert_eq!(changes(&[a, a, b], &[a, b]), [both(1), OnlyLeft(2)]);
    // With other positions before and behind.
    let (before, behind) = (at(4, 3, 7), at(4, 5, 8));
    let want = [Different { left: 1, right: 0 }, Different { left: 2, right: 1 }, OnlyRight(2)];
    assert_eq!(changes(&[before, a, b, behind], &[b, a, c, behind])[1..], want);
    assert_eq!(changes(&[before, a, b, behind], &[b, a, c, behind])[0], OnlyLeft(0));
    // Many: all the same, all but the last, and one more.
    for count in 1..70u32 {
        let equal = vec![a; count as usize];
        assert_eq!(changes(&equal, &equal), []);
        let mut other = equal.clone();
        other[count as usize - 1] = b;
        assert_eq!(changes(&equal, &other), [both(count - 1)]);
        other.push(a);
        assert_eq!(changes(&equal, &other), [both(count - 1), OnlyRight(count)]);
    }
}

/// Six numbers are compared, the first two as the position, and the seventh is not.
#[test]
fn each_number() {
    let numbers = [5, 5, 5, 5, 5, 5, 5];
    for field in 0..WIDTH {
        for number in [0, 4, 6, 1 << 31, NONE - 1, NONE] {
            let mut other = numbers;
            other[field] = number;
            let want = match field {
                0 | 1 if number < 5 => vec![OnlyRight(0), OnlyLeft(0)],
                0 | 1 => vec![OnlyLeft(0), OnlyRight(0)],
                6 => vec![],
                _ => vec![Different { left: 0, right: 0 }],
            };
            assert_eq!(changes(tokens_of(&numbers), tokens_of(&other)), want, "{field} {number}");
        }
    }
    // Of a token without a source too: decoding repeats there the source position of the latest token with one.
    let bare = |src_line| Token::new(0, 0, src_line, 0, None, None);
    assert_eq!(changes(&[bare(2)], &[bare(3)]), [Different { left: 0, right: 0 }]);
}

/// What is decoded of two texts that say the same: the segments differ, and nothing else. And of one that says something else.
#[test]
fn of_texts() {
    let decoded = |text: &[u8]| {
        let mut table = vec![0; table_size(text)];
        let tokens = decode_mapping(text, 1, 0, &mut table).unwrap().tokens;
        tokens_of(written(&table, tokens)).to_vec()
    };
    let (plain, spread) = (decoded(b"AAEG,EAAC;C"), decoded(b",gAAEG,,EAAC,;,iA;"));
    assert_ne!(plain, spread);
    assert_eq!(changes(&plain, &spread), []);
    assert_eq!(changes(&plain, &decoded(b"AAEG,EACC")), [Different { left: 1, right: 1 }, OnlyLeft(2)]);
}

/// Every sorted table of up to three tokens, of two kinds on three positions, and each against each.
#[test]
fn every_small_pair() {
    let places = [(0, NONE), (1, 0), (1, 1)];
    let mut tables: Vec<Vec<Token>> = vec![];
    for count in 0..=3u32 {
        for number in 0..6usize.pow(count) {
            let kinds: Vec<usize> = (0..count).map(|k| number / 6usize.pow(k) % 6).collect();
            if kinds.is_sorted_by_key(|kind| kind / 2) {
                let token = |kind: &usize| at(places[kind / 2].0, places[kind / 2].1, *kind as u32 % 2);
                tables.push(kinds.iter().map(token).collect());
            }
        }
    }
    assert_eq!(tables.len(), 1 + 6 + 24 + 80);
    let mut kinds = [0; 4];
    for left in &tables {
        for right in &tables {
            for change in held(left, right) {
                kinds[change.kind() as usize] += 1;
            }
        }
    }
    assert!(kinds[0] == 0 && kinds[1] == kinds[2] && kinds[3] > 1000, "{kinds:?}");
}

/// xorshift64.
struct Random(u64);

impl Random {
    fn below(&mut self, n: u32) -> u32 {
        self.0 ^= self.0 << 13;
        self.0 ^= self.0 >> 7;
        self.0 ^= self.0 << 17;
        (self.0 >> 16) as u32 % n
    }

    fn token(&mut self, lines: u32, cols: u32) -> Token {
        let (line, col) = (self.below(lines), self.below(cols));
        let source = (self.below(4) != 0).then(|| self.below(2));
        let name = (self.below(2) != 0).then(|| self.below(2));
        Token::new(line, col, self.below(2), self.below(2), source, name).with_segment(Some(self.below(99)))
    }

    /// A sorted table of up to so many tokens.
    fn table(&mut self, most: u32, lines: u32, cols: u32) -> Vec<Token> {
        let mut tokens: Vec<Token> = (0..self.below(most + 1)).map(|_| self.token(lines, cols)).collect();
        tokens.sort_by_key(|token| (token.dst_line, token.dst_col));
        tokens
    }

    /// The table after some edits: tokens that go, come, move and change; sorted.
    fn edited(&mut self, tokens: &[Token], lines: u32, cols: u32) -> Vec<Token> {
        let mut edited: Vec<Token> = tokens.iter().map(|token| token.with_segment(Some(self.below(99)))).collect();
        for _ in 0..self.below(5) {
            let place = self.below(edited.len() as u32 + 1) as usize;
            match self.below(4) {
                0 if place < edited.len() => drop(edited.remove(place)),
                1 if place < edited.len() => edited[place].src_line += 1,
                2 if place + 1 < edited.len() => edited.swap(place, place + 1),
                _ => {
                    let token = self.token(lines, cols);
                    edited.insert(place, token);
                }
            }
        }
        edited.sort_by_key(|token| (token.dst_line, token.dst_col));
        edited
    }
}

/// Sorted tables at random, most of their tokens at the same positions: two that have nothing to do with each other, and one and
/// what became of it.
#[test]
fn a_swarm() {
    // Under valgrind fewer of them.
    let rounds = std::env::var("PEGHAYRICK_SWARM").map_or(20_000, |texts| texts.parse::<u32>().unwrap() / 20);
    let mut random = Random(88172645463325252);
    let (mut kinds, mut alike) = ([0u32; 4], 0);
    for round in 0..rounds {
        let (most, lines, cols) = (1 + random.below(30), 1 + random.below(4), 1 + random.below(6));
        let left = random.table(most, lines, cols);
        let right = if round % 3 == 0 { random.table(most, lines, cols) } else { random.edited(&left, lines, cols) };
        let changes = changes(&left, &right);
        alike += u32::from(changes.is_empty());
        for change in changes {
            kinds[change.kind() as usize] += 1;
        }
    }
    assert!(kinds[1..].iter().all(|&count| count > rounds) && alike > rounds / 20, "{kinds:?} {alike} of {rounds}");
}

/// Long tables, with one difference at each place in turn.
#[test]
fn long_tables() {
    for count in [64, 65, 128, 500] {
        let tokens: Vec<Token> = (0..count).map(|k| at(k / 40, k % 40 / 2, k)).collect();
        assert_eq!(held(&tokens, &tokens), []);
        for index in (0..count).step_by(if count < 100 { 1 } else { 37 }).chain([count - 1]) {
            let mut other = tokens.clone();
            other[index as usize].name_id = 0;
            assert_eq!(held(&tokens, &other), [Different { left: index, right: index }]);
        }
    }
}

/// A table that falls at one token, each in turn, on either side: by the column alone or by the line alone, to right before the
/// token before or to before all. The first that falls is told, and the left table comes first.
#[test]
fn one_token_falls() {
    let sorted = [at(0, 0, 0)];
    for count in (2..40).chain([63, 64, 65, 130]) {
        let by_column: Vec<Token> = (0..count).map(|k| at(3, 10 * k + 10, k)).collect();
        let by_line: Vec<Token> = (0..count).map(|k| at(2 * k + 2, 5, k)).collect();
        for index in 1..count {
            for (tokens, line, col) in
                [(&by_column, 3, 10 * index - 5), (&by_column, 3, 0), (&by_line, 2 * index - 1, 9), (&by_line, 0, 9)]
            {
                let mut fallen = tokens.clone();
                (fallen[index as usize].dst_line, fallen[index as usize].dst_col) = (line, col);
                let refused = |left: &[Token], right: &[Token]| {
                    let mut out = [7; 9];
                    let refusal = compare_tables(table_of(left), table_of(right), &mut out).unwrap_err();
                    assert_eq!(out, [7; 9]);
                    refusal
                };
                let unsorted = |index| Refusal::Unsorted { index: u64::from(index) };
                assert_eq!(refused(&fallen, &sorted), unsorted(index));
                assert_eq!(refused(&sorted, &fallen), unsorted(index));
                // A second fall behind it is not told; one before it is.
                let mut twice = fallen.clone();
                twice.extend([at(2, 0, 0), at(1, 0, 0)]);
                assert_eq!(refused(&twice, &sorted), unsorted(index));
                twice.rotate_right(2);
                assert_eq!(refused(&sorted, &twice), unsorted(1));
                // Both fall: the left one is told. Which it is, each table says by itself.
                assert_eq!(refused(&fallen, &twice), unsorted(index));
                assert_eq!(refused(&twice, &fallen), unsorted(1));
                assert_eq!(refused(&fallen, &fallen), unsorted(index));
                assert!(compare_tables(table_of(&sorted), table_of(&sorted), &mut []).is_ok());
            }
        }
    }
    // Equal positions do not fall.
    assert_eq!(changes(&[at(1, 1, 0); 3], &[at(1, 1, 0); 3]), []);
}

/// What `Changes` is: an iterator from both ends, that says how many are left and stays at its end.
#[test]
fn the_iterator() {
    let (left, right) = ([at(0, 0, 0), at(0, 1, 0)], [at(0, 0, 1), at(0, 2, 0)]);
    let mut out = [7; 12];
    let changes = compare_tables(table_of(&left), table_of(&right), &mut out).unwrap();
    assert_eq!(format!("{changes:?}"), "[Different { left: 0, right: 0 }, OnlyLeft(1), OnlyRight(1)]");
    let mut both = changes.clone();
    assert_eq!((both.len(), both.size_hint()), (3, (3, Some(3))));
    assert_eq!(both.next_back(), Some(OnlyRight(1)));
    assert_eq!(both.next(), Some(Different { left: 0, right: 0 }));
    assert_eq!((both.len(), format!("{both:?}").as_str()), (1, "[OnlyLeft(1)]"));
    assert_eq!(both.next_back(), Some(OnlyLeft(1)));
    for _ in 0..3 {
        assert_eq!((both.next(), both.next_back(), both.len()), (None, None, 0));
    }
    assert_eq!(changes.clone().nth(2), Some(OnlyRight(1)));
    assert_eq!(changes.clone().nth(3), None);
    let indices: Vec<_> = changes.map(|change| (change.kind(), change.left(), change.right())).collect();
    assert_eq!(indices, [(3, Some(0), Some(0)), (1, Some(1), None), (2, None, Some(1))]);
    assert_eq!(out, [3, 0, 0, 1, 1, NONE, 2, NONE, 1, 7, 7, 7]);
}
