//! The differences of two tables, as [`compare_tables`](crate::compare_tables) writes them.

use core::fmt;
use core::iter::FusedIterator;
use core::marker::PhantomData;

/// How many numbers an entry has.
pub(crate) const ENTRY: usize = 3;

/// One difference of two tables, with the indices of its tokens: `tokens_of(left).get(index as usize)` is the token.
#[derive(Debug, Clone, Copy, PartialEq, Eq, Hash)]
pub enum Change {
    /// 1: the left table has a token at this place of its position, and the right one has not. The token's index in the left
    /// table.
    OnlyLeft(u32),
    /// 2: the right table has a token at this place of its position, and the left one has not. The token's index in the right
    /// table.
    OnlyRight(u32),
    /// 3: both have one, and the source line, the source column, the source id or the name id differs.
    Different {
        /// The token's index in the left table.
        left: u32,
        /// The token's index in the right table.
        right: u32,
    },
}

impl Change {
    /// The kind: 1 only left, 2 only right, 3 different.
    pub const fn kind(&self) -> u32 {
        match self {
            Change::OnlyLeft(_) => 1,
            Change::OnlyRight(_) => 2,
            Change::Different { .. } => 3,
        }
    }

    /// The index in the left table, if the left table has the token.
    ///
    /// ```
    /// use peghayrick::Change;
    /// assert_eq!(Change::OnlyLeft(7).left(), Some(7));
    /// assert_eq!(Change::OnlyRight(7).left(), None);
    /// assert_eq!(Change::Different { left: 7, right: 8 }.left(), Some(7));
    /// ```
    pub const fn left(&self) -> Option<u32> {
        match *self {
            Change::OnlyLeft(left) | Change::Different { left, .. } => Some(left),
            Change::OnlyRight(_) => None,
        }
    }

    /// The index in the right table, if the right table has the token.
    ///
    /// ```
    /// use peghayrick::Change;
    /// assert_eq!(Change::OnlyLeft(7).right(), None);
    /// assert_eq!(Change::OnlyRight(7).right(), Some(7));
    /// assert_eq!(Change::Different { left: 7, right: 8 }.right(), Some(8));
    /// ```
    pub const fn right(&self) -> Option<u32> {
        match *self {
            Change::OnlyRight(right) | Change::Different { right, .. } => Some(right),
            Change::OnlyLeft(_) => None,
        }
    }
}

/// What an entry is made: nothing but a [`Change`], and no one else can name it.
mod sealed {
    pub trait Entry {
        fn of(entry: [u32; super::ENTRY]) -> Self;
    }
}
use sealed::Entry;

/// The difference that an entry says: its kind and both indices.
impl Entry for Change {
    fn of(entry: [u32; ENTRY]) -> Self {
        match entry {
            [1, left, _] => Change::OnlyLeft(left),
            [2, _, right] => Change::OnlyRight(right),
            [_, left, right] => Change::Different { left, right },
        }
    }
}

/// The differences of two tables, in order of position, and at one position by the place there. They are read from the memory
/// that was lent to [`compare_tables`](crate::compare_tables). None at all mean that the first six numbers of the tokens agree
/// throughout.
///
/// ```
/// use peghayrick::{compare_tables, table_of, Change, Refusal, Token};
/// let (wash, dry) = (Token::new(0, 0, 2, 0, Some(0), None), Token::new(0, 11, 3, 0, Some(0), None));
/// let mut out = [0; 6];
/// let changes = compare_tables(table_of(&[wash, dry]), &[], &mut out)?;
/// assert_eq!(changes.len(), 2);
/// assert_eq!(format!("{changes:?}"), "[OnlyLeft(0), OnlyLeft(1)]");
/// assert_eq!(changes.clone().rev().next(), Some(Change::OnlyLeft(1)));
/// assert!(changes.eq([Change::OnlyLeft(0), Change::OnlyLeft(1)]));
/// # Ok::<(), Refusal>(())
/// ```
///
/// The type of the items is a parameter, though there is only one: so what a caller does not ask of the iterator is not compiled,
/// and `step_by`, which panics where a step is 0, is no part of this crate.
pub struct Changes<'a, C = Change> {
    /// Whole entries, those that are left.
    entries: &'a [u32],
    made: PhantomData<C>,
}

impl<'a> Changes<'a> {
    /// Those that stand in the first so many entries of the memory.
    pub(crate) fn new(out: &'a [u32], entries: usize) -> Self {
        Self { entries: out.get(..entries.saturating_mul(ENTRY)).unwrap_or(out), made: PhantomData }
    }
}

impl<C> Clone for Changes<'_, C> {
    fn clone(&self) -> Self {
        Self { entries: self.entries, made: PhantomData }
    }
}

impl<C: Entry> Iterator for Changes<'_, C> {
    type Item = C;

    fn next(&mut self) -> Option<C> {
        let (entry, entries) = self.entries.split_first_chunk()?;
        self.entries = entries;
        Some(C::of(*entry))
    }

    fn size_hint(&self) -> (usize, Option<usize>) {
        let entries = self.entries.len() / ENTRY;
        (entries, Some(entries))
    }
}

impl<C: Entry> DoubleEndedIterator for Changes<'_, C> {
    fn next_back(&mut self) -> Option<C> {
        // Not split_last_chunk: it calls split_at, which has a panic, though one that never comes.
        let (entries, entry) = self.entries.split_at_checked(self.entries.len().checked_sub(ENTRY)?)?;
        self.entries = entries;
        entry.first_chunk().map(|entry| C::of(*entry))
    }
}

impl<C: Entry> ExactSizeIterator for Changes<'_, C> {}

impl<C: Entry> FusedIterator for Changes<'_, C> {}

/// The differences that are left, as a list.
impl fmt::Debug for Changes<'_> {
    fn fmt(&self, f: &mut fmt::Formatter<'_>) -> fmt::Result {
        f.debug_list().entries(self.clone()).finish()
    }
}
