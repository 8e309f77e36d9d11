//! Composing by both calls: `compose_with` returns what `compose` returns and leaves what it leaves, whatever its working memory
//! holds and however long it is; and both are held to the rule, over inner tables that are sorted and that are not.

use peghayrick::*;
use std::collections::HashMap;

/// A list of names, as it is lent.
struct List {
    text: Vec<u8>,
    ends: Vec<usize>,
}

impl List {
    fn of<T: AsRef<[u8]>>(names: &[T]) -> Self {
        let mut list = List { text: vec![], ends: vec![] };
        for name in names {
            list.text.extend_from_slice(name.as_ref());
            list.ends.push(list.text.len());
        }
        list
    }

    fn names(&self) -> Names<'_> {
        Names { text: &self.text, ends: &self.ends }
    }
}

/// Two maps: outer tokens and names, inner tokens and names.
#[derive(Clone, Copy)]
struct Maps<'a> {
    outer: &'a [Token],
    outer_names: Names<'a>,
    inner: &'a [Token],
    inner_names: Names<'a>,
}

/// What a call answers, and all that the result and the list of added names hold then: two numbers more than they need each.
type Left = (Result<Composed, Refusal>, Vec<u32>, Vec<u32>);

impl Maps<'_> {
    fn places(&self) -> (Vec<u32>, Vec<u32>) {
        let numbers = |from: u32, count: usize| (from..).take(count).collect();
        (numbers(0x5eed_0000, WIDTH * self.outer.len() + 2), numbers(0xadd_0000, self.outer_names.ends.len() + 2))
    }

    fn plain(&self) -> Left {
        let (mut result, mut added) = self.places();
        let (outer, inner) = (table_of(self.outer), table_of(self.inner));
        let done = compose(outer, 1, self.outer_names, inner, self.inner_names, &mut result, &mut added);
        (done, result, added)
    }

    fn with(&self, work: &mut [u32]) -> Left {
        let (mut result, mut added) = self.places();
        let (outer, inner) = (table_of(self.outer), table_of(self.inner));
        let done = compose_with(outer, 1, self.outer_names, inner, self.inner_names, &mut result, &mut added, work);
        (done, result, added)
    }

    /// The rule: each lookup by itself, and each name in a table of its own.
    fn by_rule(&self) -> Left {
        fn list(names: Names<'_>) -> Vec<&[u8]> {
            let begins = [0].into_iter().chain(names.ends.iter().copied());
            begins.zip(names.ends).map(|(begin, &end)| &names.text[begin..end]).collect()
        }
        let (outer_names, inner_names) = (list(self.outer_names), list(self.inner_names));
        let mut ids = HashMap::new();
        for (id, name) in (0..).zip(&inner_names) {
            ids.entry(*name).or_insert(id);
        }
        let (mut result, mut added) = self.places();
        let mut count = 0;
        for (outer, place) in self.outer.iter().zip(result.chunks_mut(WIDTH)) {
            let mut token = Token { segment: outer.segment, ..Token::new(outer.dst_line, outer.dst_col, 0, 0, None, None) };
            let found = lookup_token(table_of(self.inner), outer.src_line, outer.src_col).unwrap();
            if let (Some(_), Some(inner)) = (outer.get_source_id(), found.filter(|inner| inner.get_source_id().is_some())) {
                (token.src_line, token.src_col, token.source_id) = (inner.src_line, inner.src_col, inner.source_id);
                token.name_id = inner.name_id;
                let name = outer.get_name_id().and_then(|id| outer_names.get(id as usize));
                if let (None, Some(name)) = (inner.get_name_id(), name) {
                    token.name_id = *ids.entry(name).or_insert_with(|| {
                        added[count] = outer.name_id;
                        count += 1;
                        (inner_names.len() + count - 1) as u32
                    });
                }
            }
            place.copy_from_slice(table_of(&[token]));
        }
        (Ok(Composed { added: count }), result, added)
    }

    /// Holds both calls to the rule, and returns the name ids of the result and the ids of the added names.
    fn held(&self) -> (Vec<Option<u32>>, Vec<u32>) {
        let want = self.by_rule();
        assert_eq!(self.plain(), want);
        let needed = work_places(self.inner_names, self.outer_names);
        assert_eq!(needed, 2 * self.inner_names.ends.len() + 3 * self.outer_names.ends.len());
        // Exactly enough and more, full of nothing, of numbers that might be entries, and of the largest.
        for more in [0, 1, 40] {
            let mut work = vec![0; needed + more];
            assert_eq!(self.with(&mut work), want);
            // What one call left is lent to the next as it is.
            assert_eq!(self.with(&mut work), want);
            for fill in [1, 2, needed as u32, NONE] {
                work.fill(fill);
                assert_eq!(self.with(&mut work), want, "{fill}");
            }
            for (k, place) in (1..).zip(&mut work) {
                *place = 2654435761u32.wrapping_mul(k) >> (k % 32);
            }
            assert_eq!(self.with(&mut work), want);
        }
        // One place less, and none: nothing is written.
        for places in [needed.checked_sub(1), Some(0)].into_iter().flatten().filter(|&places| places < needed) {
            let mut work = vec![7; places];
            let (result, added) = self.places();
            assert_eq!(self.with(&mut work), (Err(Refusal::NoRoom { needed: needed as u64 }), result, added));
            assert_eq!(work, vec![7; places]);
        }
        let (done, result, added) = want;
        let tokens = tokens_of(written(&result, self.outer.len()));
        (tokens.iter().map(Token::get_name_id).collect(), added[..done.unwrap().added].to_vec())
    }
}

/// The ids that outer names are given, by these ids of outer tokens over one inner token without a name.
fn ids(inner_names: &[&str], outer_names: &[&str], asked: &[u32]) -> (Vec<Option<u32>>, Vec<u32>) {
    let outer: Vec<Token> = (0..).zip(asked).map(|(col, &id)| Token::new(0, col, 0, 0, Some(0), Some(id))).collect();
    let inner = [Token::new(0, 0, 9, 9, Some(0), None)];
    let (outer_names, inner_names) = (List::of(outer_names), List::of(inner_names));
    Maps { outer: &outer, outer_names: outer_names.names(), inner: &inner, inner_names: inner_names.names() }.held()
}

#[test]
fn names() {
    let some = |ids: &[u32]| ids.iter().copied().map(Some).collect::<Vec<_>>();
    // No names at all, none of one kind, and none asked for.
    assert_eq!(ids(&[], &[], &[]), (vec![], vec![]));
    assert_eq!(ids(&[], &[], &[0, NONE]), (vec![None; 2], vec![]));
    assert_eq!(ids(&["wash"], &[], &[0, 1, NONE]), (vec![None; 3], vec![]));
    assert_eq!(ids(&[], &["wash"], &[0, 0]), (some(&[0, 0]), vec![0]));
    assert_eq!(ids(&["wash"], &["spin", "dry"], &[NONE]), (vec![None], vec![]));
    // Ids past the list, first and later, the last below none too.
    assert_eq!(ids(&["wash"], &["spin"], &[1, 0, 1, NONE - 1, 0]), (vec![None, Some(1), None, None, Some(1)], vec![0]));
    // Equal in both lists: the inner one. Equal among the inner names: the first.
    assert_eq!(ids(&["wash", "spin"], &["spin", "dry", "wash"], &[0, 1, 2, 0]), (some(&[1, 2, 0, 1]), vec![1]));
    assert_eq!(ids(&["dry", "wash", "dry", "wash"], &["wash", "dry"], &[0, 1]), (some(&[1, 0]), vec![]));
    // Equal among the outer names: added once, as the one that was asked for first.
    assert_eq!(ids(&["wash"], &["dry", "spin", "dry", "spin"], &[2, 0, 3, 1, 2]), (some(&[1, 1, 2, 2, 1]), vec![2, 3]));
    // In the order of the asking, each once.
    assert_eq!(ids(&[], &["a", "b", "c"], &[2, 2, 0, 2, 1, 0, 1]), (some(&[0, 0, 1, 0, 2, 1, 2]), vec![2, 0, 1]));
    // Empty names are names.
    assert_eq!(ids(&["a", "", ""], &["", "a", ""], &[0, 2, 1]), (some(&[1, 1, 0]), vec![]));
    assert_eq!(ids(&["a"], &["", ""], &[1, 0]), (some(&[1, 1]), vec![1]));
    assert_eq!(ids(&[""], &[""], &[0]), (some(&[0]), vec![]));
    // Names that begin alike, and that are alike but for their order.
    assert_eq!(
        ids(&["wash"], &["was", "washe", "wash", "ashw", "w"], &[0, 1, 2, 3, 4]),
        (some(&[1, 2, 0, 3, 4]), vec![0, 1, 3, 4])
    );
    assert_eq!(ids(&["w\u{e4}sche"], &["w\u{e4}sche", "w\u{f6}sche"], &[1, 0]), (some(&[1, 0]), vec![1]));
}

/// The found token's own name comes first, within the inner list or not; a token that is left without a source asks for none.
#[test]
fn who_asks() {
    let inner = [
        Token::new(0, 0, 9, 9, Some(0), None),
        Token::new(0, 2, 9, 9, Some(0), Some(0)),
        Token::new(0, 4, 9, 9, Some(0), Some(7)),
        Token::new(0, 6, 9, 9, None, Some(0)),
    ];
    let named = |col, id| Token::new(0, col, 0, col, Some(0), Some(id));
    let outer = [
        named(6, 1), // what is found has no source
        Token { source_id: NONE, ..named(0, 1) },
        Token { src_line: 1, ..named(0, 1) }, // nothing is found
        named(2, 0),                          // the inner token's name
        named(4, 0),                          // which may be past its list
        named(0, 0),
        named(0, 1),
    ];
    let (outer_names, inner_names) = (List::of(&["spin", "dry"]), List::of(&["wash"]));
    let maps = Maps { outer: &outer, outer_names: outer_names.names(), inner: &inner, inner_names: inner_names.names() };
    assert_eq!(maps.held(), (vec![None, None, None, Some(0), Some(7), Some(1), Some(2)], vec![0, 1]));
}

/// xorshift64.
struct Random(u64);

impl Random {
    fn below(&mut self, n: u32) -> u32 {
        self.0 ^= self.0 << 13;
        self.0 ^= self.0 >> 7;
        self.0 ^= self.0 << 17;
        (self.0 >> 16) as u32 % n
    }

    /// A list of so many names of up to so many letters.
    fn list(&mut self, count: u32, letters: u32) -> List {
        let name = |random: &mut Self| (0..random.below(letters + 1)).map(|_| b"ab\xff"[random.below(3) as usize]).collect();
        let names: Vec<Vec<u8>> = (0..count).map(|_| name(self)).collect();
        List::of(&names)
    }

    /// Inner tokens, sorted by their places, with a fall at one of them, or in no order.
    fn inner(&mut self, count: u32, falls: u32) -> Vec<Token> {
        let mut places: Vec<(u32, u32)> = (0..count).map(|_| (self.below(5), self.below(60))).collect();
        if falls < 2 {
            places.sort();
        }
        if falls == 1 && count > 0 {
            places[self.below(count) as usize] = (self.below(5), self.below(60));
        }
        let mut token = |(line, col)| {
            let source = (self.below(8) != 0).then(|| self.below(3));
            let name = (self.below(4) == 0).then(|| self.below(9));
            Token::new(line, col, self.below(99), self.below(99), source, name).with_segment(Some(self.below(99)))
        };
        places.into_iter().map(&mut token).collect()
    }

    /// Outer tokens, whose source places rise for a while, stay, or leap.
    fn outer(&mut self, count: u32, names: u32) -> Vec<Token> {
        let (mut line, mut col) = (0, 0);
        let mut token = |dst_col| {
            match self.below(12) {
                0 => (line, col) = (self.below(6), self.below(62)),
                1 => (line, col) = ((line + 1) % 6, 0),
                2 => (line, col) = (NONE, NONE),
                k => col = col.wrapping_add(k % 4),
            }
            let source = (self.below(10) != 0).then_some(0);
            let name = (self.below(5) != 0).then(|| self.below(names + 2));
            let token = Token::new(0, dst_col, line, col, source, name).with_segment(Some(self.below(99)));
            if line == NONE {
                (line, col) = (0, 0);
            }
            token
        };
        (0..count).map(&mut token).collect()
    }
}

/// Tables and names at random: few names of few letters, so that most are equal to others.
#[test]
fn a_swarm() {
    // Under valgrind fewer of them.
    let rounds = std::env::var("PEGHAYRICK_SWARM").map_or(3000, |texts| texts.parse::<u32>().unwrap() / 100);
    let mut random = Random(88172645463325252);
    let (mut given, mut grew) = (0, 0);
    for round in 0..rounds {
        let (outer_count, inner_count) = (random.below(9), random.below(9));
        let (outer_names, inner_names) = (random.list(outer_count, 2), random.list(inner_count, 2));
        let tokens = random.below(70);
        let inner = random.inner(tokens, round % 3);
        let tokens = random.below(40);
        let outer = random.outer(tokens, outer_count);
        let maps = Maps { outer: &outer, outer_names: outer_names.names(), inner: &inner, inner_names: inner_names.names() };
        let (ids, added) = maps.held();
        given += ids.iter().flatten().count();
        grew += added.len();
    }
    assert!(given as u32 > 4 * rounds && grew as u32 > rounds / 2, "{given} {grew} of {rounds}");
}

/// Long lists, of names that are in one list, in both, and more than once in one.
#[test]
fn many_names() {
    let mut random = Random(88172645463325252);
    for (inner_count, outer_count, letters) in [(1000, 1000, 6), (2000, 3, 12), (3, 2000, 12), (700, 900, 40), (500, 500, 1)] {
        let (outer_names, inner_names) = (random.list(outer_count, letters), random.list(inner_count, letters));
        let inner: Vec<Token> = (0..300).map(|k| Token::new(k / 20, 3 * (k % 20), k, 0, Some(0), None)).collect();
        let outer: Vec<Token> = (0..3000)
            .map(|k| Token::new(0, k, random.below(15), random.below(70), Some(0), Some(random.below(outer_count + 1))))
            .collect();
        let maps = Maps { outer: &outer, outer_names: outer_names.names(), inner: &inner, inner_names: inner_names.names() };
        let (ids, added) = maps.held();
        assert!(ids.iter().flatten().count() > 1000);
        assert_eq!(added.is_empty(), letters == 1);
    }
}

/// Sorted inner tables of every length up to 70, asked at, before and behind each token, forth, back and in leaps.
#[test]
fn every_place() {
    let none = Names::default();
    for count in 0..70u32 {
        let inner: Vec<Token> = (0..count).map(|k| Token::new(k / 9, 4 * (k % 9) / 3, k, 7, Some(0), None)).collect();
        let places: Vec<(u32, u32)> = (0..=count / 9 + 1).flat_map(|line| (0..13).map(move |col| (line, col))).collect();
        let forth = places.iter().copied();
        let leaps = (0..places.len()).map(|k| places[k * 37 % places.len()]);
        let asked = forth.clone().chain(forth.rev()).chain(leaps);
        let outer: Vec<Token> = asked.map(|(line, col)| Token::new(0, 0, line, col, Some(0), None)).collect();
        Maps { outer: &outer, outer_names: none, inner: &inner, inner_names: none }.held();
    }
}
