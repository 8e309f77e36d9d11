//! Many positions at once, by both calls: each says what one lookup after another says, whether the table is sorted or not.

use peghayrick::*;

type Many = fn(&[u32], &[Position], &mut [u32]) -> Result<(), Refusal>;
const CALLS: [(&str, Many); 2] = [("lookup_many", lookup_many), ("lookup_many_quick", lookup_many_quick)];

fn at(line: u32, col: u32) -> Position {
    Position::new(line, col)
}

/// Holds both calls to one lookup after another, which is returned, in a table of tokens at these places.
fn found(places: &[Position], asked: &[Position]) -> Vec<u32> {
    let tokens: Vec<Token> = places.iter().map(|at| Token::new(at.line, at.col, 0, 0, None, None)).collect();
    let table = table_of(&tokens);
    let alone: Vec<u32> = asked.iter().map(|at| lookup_index(table, at.line, at.col).unwrap().unwrap_or(NONE)).collect();
    for (name, call) in CALLS {
        let mut found = vec![7; asked.len() + 2];
        assert_eq!(call(table, asked, &mut found), Ok(()));
        assert_eq!(found[..asked.len()], alone, "{name}, {places:?}, {asked:?}");
        assert_eq!(found[asked.len()..], [7; 2], "{name} writes past the positions");
    }
    alone
}

#[test]
fn worked() {
    // No positions, no tokens, and one token.
    assert_eq!(found(&[], &[]), []);
    assert_eq!(found(&[at(0, 0)], &[]), []);
    assert_eq!(found(&[], &[at(0, 0), at(NONE, NONE)]), [NONE; 2]);
    let around = [at(2, 5), at(2, 4), at(2, 6), at(1, 5), at(3, 5), at(2, NONE), at(NONE, 5)];
    assert_eq!(found(&[at(2, 5)], &around), [0, NONE, 0, NONE, NONE, 0, NONE]);
    // Among equals the latest, however many there are, and whatever stands around them.
    for count in 1..70 {
        let equal = vec![at(2, 5); count as usize];
        assert_eq!(found(&equal, &around[..3]), [count - 1, NONE, count - 1]);
        let between = [&[at(2, 4)][..], &equal, &[at(2, 6)]].concat();
        assert_eq!(found(&between, &around[..3]), [count, 0, count + 1]);
    }
    // A sorted table: before its first token, before a line's first token, on lines without tokens, past the last line.
    let sorted = [at(1, 4), at(1, 9), at(3, 0), at(3, 0), at(3, 7), at(6, 2), at(6, 3)];
    assert_eq!(found(&sorted, &[at(0, 9), at(1, 3), at(6, 1), at(2, 9), at(4, 0), at(7, 0)]), [NONE; 6]);
    let asked = [at(1, 4), at(1, 8), at(1, NONE), at(3, 0), at(3, 6), at(3, 7), at(6, 2), at(6, 9)];
    assert_eq!(found(&sorted, &asked), [0, 0, 1, 3, 3, 4, 5, 6]);
    // The largest line and column, in both orders.
    let last = [at(NONE, NONE), at(NONE, NONE - 1), at(NONE - 1, NONE), at(NONE, 0), at(0, NONE)];
    assert_eq!(found(&[at(0, NONE), at(NONE, 0), at(NONE, NONE)], &last), [2, 1, NONE, 1, 0]);
    assert_eq!(found(&[at(NONE, NONE), at(NONE, 0), at(0, NONE)], &last), [0, 1, NONE, 1, 2]);
}

/// Nine places, in order.
fn nine() -> [Position; 9] {
    let numbers = [0, 1, NONE];
    core::array::from_fn(|k| at(numbers[k / 3], numbers[k % 3]))
}

/// Every table of up to four tokens, in any order, on nine places, and each of them asked for twice.
#[test]
fn every_small_table() {
    let places = nine();
    let asked: Vec<Position> = places.iter().chain(places.iter().rev()).copied().collect();
    let (mut none, mut some) = (0, 0);
    for count in 0..=4u32 {
        for number in 0..9usize.pow(count) {
            let tokens: Vec<Position> = (0..count).map(|k| places[number / 9usize.pow(k) % 9]).collect();
            for index in found(&tokens, &asked) {
                none += usize::from(index == NONE);
                some += usize::from(index < count);
            }
        }
    }
    assert_eq!(none + some, 7381 * 18);
    assert!(none > 10_000 && some > 10_000, "{none} {some}");
}

/// Every sorted table of up to eight tokens on nine places.
#[test]
fn every_sorted_table() {
    let places = nine();
    let (mut tables, mut kinds) = (0, vec![]);
    loop {
        let tokens: Vec<Position> = kinds.iter().map(|&kind: &usize| places[kind]).collect();
        found(&tokens, &places);
        tables += 1;
        // The next one: a token is moved on, and those behind it to the same place; or there is one token more.
        match kinds.iter().rposition(|&kind| kind < 8) {
            Some(k) => {
                let kind = kinds[k] + 1;
                kinds[k..].fill(kind);
            }
            None if kinds.len() == 8 => break,
            None => kinds = vec![0; kinds.len() + 1],
        }
    }
    assert_eq!(tables, 24_310);
}

/// Tables that fall at one token, each in turn: the second, the last and those at each quarter's end among them. They fall by the
/// column alone or by the line alone, to right before the token before or to before all. Were such a table taken for sorted, the
/// token before the fall would not be found.
#[test]
fn one_token_falls() {
    for count in (2..70).chain([127, 128, 129, 130, 257]) {
        let by_column: Vec<Position> = (0..count).map(|k| at(3, 10 * k + 10)).collect();
        let by_line: Vec<Position> = (0..count).map(|k| at(2 * k + 2, 5)).collect();
        for index in 1..count {
            for (sorted, fallen) in [
                (&by_column, at(3, 10 * index - 5)),
                (&by_column, at(3, 0)),
                (&by_line, at(2 * index - 1, 9)),
                (&by_line, at(0, 9)),
            ] {
                let mut places = sorted.clone();
                places[index as usize] = fallen;
                let before = places[index as usize - 1];
                let asked = [before, fallen, places[0], places[count as usize - 1], sorted[index as usize]];
                assert_eq!(found(&places, &asked)[..2], [index - 1, index]);
            }
        }
    }
}

/// Long tables: sorted, sorted but for one token, and in no order.
#[test]
fn long_tables() {
    let mut seed = 88172645463325252u64;
    let mut below = |n: u32| {
        seed ^= seed << 13;
        seed ^= seed >> 7;
        seed ^= seed << 17;
        (seed >> 16) as u32 % n
    };
    for count in [1, 5, 63, 64, 65, 127, 128, 129, 1000] {
        for falls in 0..3 {
            let mut places: Vec<Position> = (0..count).map(|_| at(below(30), below(40))).collect();
            if falls < 2 {
                places.sort_by_key(|at| (at.line, at.col));
            }
            if falls == 1 {
                places[below(count) as usize] = at(below(30), below(40));
            }
            let asked: Vec<Position> = (0..32 * 42).map(|k| at(k / 42, k % 42)).chain(places.iter().copied()).collect();
            let found = found(&places, &asked);
            assert!(found.contains(&NONE) && found.iter().any(|&index| index != NONE));
        }
    }
}
