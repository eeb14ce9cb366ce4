//! The rows of a book, and the tables that they stand in.

use crate::index::{hash_of, Index};
use crate::keys::Key;
use crate::message::Kind;
use crate::AT_ONCE;
use std::collections::BTreeMap;

/// The name of an account: up to 28 bytes, zeros behind them, and last how many there are.
#[derive(Clone, Copy, PartialEq, Eq, PartialOrd, Ord)]
pub struct Name([u8; 32]);

impl Name {
    /// A name, of 1 to 28 printable bytes.
    pub fn new(text: &[u8]) -> Option<Name> {
        let mut bytes = [0; 32];
        bytes[..28].get_mut(..text.len())?.copy_from_slice(text);
        bytes[31] = text.len() as u8;
        let is_name = text.iter().fold(!text.is_empty(), |all, it| all & (b' '..=b'~').contains(it));
        is_name.then_some(Name(bytes))
    }

    #[inline]
    pub fn text(&self) -> &[u8] {
        &self.0[..usize::from(self.0[31])]
    }

    /// It has neither quotes nor backslashes.
    #[inline]
    pub fn is_plain(&self) -> bool {
        self.0.iter().fold(true, |all, &it| all & (it != b'"') & (it != b'\\'))
    }

    pub fn hash(&self) -> u64 {
        let (words, _) = self.0.as_chunks();
        hash_of([0, 1, 2, 3].map(|place| u64::from_ne_bytes(words[place])))
    }
}

/// An account, which others know by its place among the accounts.
pub struct Account {
    pub available: u64,
    pub currency: [u8; 3],
}

#[derive(Clone, Copy, PartialEq, Eq)]
pub enum Status {
    Active,
    Blocked,
    Lost,
    Stolen,
}

#[derive(Clone, Copy)]
pub struct Card {
    pub account: u32,
    pub second: Option<u32>,
    pub approvals: u32,
    pub day_count: u32,
    pub day_amount: u64,
    pub expiry: u16,
    pub status: Status,
}

/// What was spent with a card on a day.
#[derive(Clone, Copy)]
pub struct Day {
    pub count: u32,
    pub sum: u64,
}

#[derive(Clone, Copy)]
pub struct Budget {
    pub stands_in: bool,
    pub cap: u64,
    pub left: u64,
}

/// What paid for an original.
#[derive(Clone, Copy, PartialEq, Eq)]
pub enum Payer {
    Nothing,
    Account(u32),
    Budget,
}

/// What is kept of a request or an advice.
#[derive(Clone, Copy)]
pub struct Original {
    pub kind: Kind,
    pub card: Key,
    pub amount: u64,
    pub processing: [u8; 6],
    pub action: u16,
    pub approval: Option<[u8; 6]>,
    pub payer: Payer,
    pub stay: u64,
    pub reversed: Option<Key>,
}

/// What is kept of a reversal that came ahead of its original.
#[derive(Clone, Copy)]
pub struct Mark {
    pub kind: Kind,
    pub card: Key,
    pub reversal: Key,
}

/// What stands at an identity.
#[derive(Clone, Copy)]
pub enum Seen {
    Original(Original),
    Mark(Mark),
}

/// The places of rows by their keys.
pub trait Places: Default {
    /// Makes room for so many rows behind these.
    fn reserve<R>(&mut self, more: usize, rows: &[(Key, R)]);
    fn find<R>(&self, key: Key, rows: &[(Key, R)]) -> Option<u32>;
    /// The place of the key's row, or the one behind all rows: then that is its place from now on.
    fn find_or_put<R>(&mut self, key: Key, rows: &[(Key, R)]) -> u32;
    /// The places of those of the rows that pass a test, in the order of their keys.
    fn order<R>(&self, rows: &[(Key, R)], test: impl Fn(&R) -> bool) -> Vec<u32>;
}

impl Places for Index {
    fn reserve<R>(&mut self, more: usize, rows: &[(Key, R)]) {
        Index::reserve(self, more, |place| rows[place as usize].0.hash());
    }

    #[inline]
    fn find<R>(&self, key: Key, rows: &[(Key, R)]) -> Option<u32> {
        Index::find(self, key.hash(), |place| rows[place as usize].0 == key)
    }

    #[inline]
    fn find_or_put<R>(&mut self, key: Key, rows: &[(Key, R)]) -> u32 {
        Places::reserve(self, 1, rows);
        Index::find_or_put(self, key.hash(), |place| rows[place as usize].0 == key)
    }

    fn order<R>(&self, rows: &[(Key, R)], test: impl Fn(&R) -> bool) -> Vec<u32> {
        let tested = rows.iter().zip(0..).filter(|(row, _)| test(&row.1));
        let mut keys: Vec<(Key, u32)> = tested.map(|(row, place)| (row.0, place)).collect();
        keys.sort_unstable();
        keys.into_iter().map(|it| it.1).collect()
    }
}

impl Places for BTreeMap<Key, u32> {
    fn reserve<R>(&mut self, _: usize, _: &[(Key, R)]) {}

    fn find<R>(&self, key: Key, _: &[(Key, R)]) -> Option<u32> {
        self.get(&key).copied()
    }

    fn find_or_put<R>(&mut self, key: Key, rows: &[(Key, R)]) -> u32 {
        *self.entry(key).or_insert(rows.len() as u32)
    }

    fn order<R>(&self, rows: &[(Key, R)], test: impl Fn(&R) -> bool) -> Vec<u32> {
        self.values().copied().filter(|&place| test(&rows[place as usize].1)).collect()
    }
}

/// Rows, each found by its key.
pub struct Table<R, P> {
    rows: Vec<(Key, R)>,
    places: P,
}

impl<R, P: Places> Table<R, P> {
    pub fn new() -> Table<R, P> {
        Table { rows: Vec::new(), places: P::default() }
    }

    /// Makes room for so many rows more.
    pub fn reserve(&mut self, more: usize) {
        self.rows.reserve(more);
        self.places.reserve(more, &self.rows);
    }

    pub fn find(&self, key: Key) -> Option<&R> {
        self.places.find(key, &self.rows).map(|place| &self.rows[place as usize].1)
    }

    pub fn find_mut(&mut self, key: Key) -> Option<&mut R> {
        self.places.find(key, &self.rows).map(|place| &mut self.rows[place as usize].1)
    }

    /// The row of the key, or none: then the row that is added next is its row.
    pub fn find_or_reserve(&mut self, key: Key) -> Option<&mut R> {
        let place = self.places.find_or_put(key, &self.rows);
        self.rows.get_mut(place as usize).map(|row| &mut row.1)
    }

    /// Adds the row for which `find_or_reserve` answered none.
    pub fn add_reserved(&mut self, key: Key, row: R) {
        self.rows.push((key, row));
    }

    /// Adds a row; whether no other had its key.
    pub fn add(&mut self, key: Key, row: R) -> bool {
        let is_new = self.find_or_reserve(key).is_none();
        if is_new {
            self.add_reserved(key, row);
        }
        is_new
    }

    /// The rows, in any order.
    pub fn rows(&self) -> &[(Key, R)] {
        &self.rows
    }

    /// The places of the rows that pass a test, in the order of their keys.
    pub fn order(&self, test: impl Fn(&R) -> bool) -> Vec<u32> {
        self.places.order(&self.rows, test)
    }
}

impl<R: Copy, P> Table<R, P> {
    /// The rows at these places, some copied at once, so that the processor waits for them together.
    pub fn at<'a>(&'a self, places: &'a [u32]) -> impl Iterator<Item = (Key, R)> + 'a {
        let copied = |places: &[u32]| places.iter().map(|&place| self.rows[place as usize]).collect::<Vec<_>>();
        places.chunks(AT_ONCE).flat_map(copied)
    }
}

/// A book: what was seen, and what money is taken from.
pub struct Book<P> {
    pub seen: Table<Seen, P>,
    pub money: Money<P>,
}

pub struct Money<P> {
    pub accounts: Vec<Account>,
    /// The names of the accounts, in rising order.
    pub names: Vec<Name>,
    pub cards: Table<Card, P>,
    pub days: Table<Day, P>,
    pub budgets: Table<Budget, P>,
}

impl<P: Places> Book<P> {
    pub fn new() -> Book<P> {
        let (accounts, names) = (Vec::new(), Vec::new());
        let money = Money { accounts, names, cards: Table::new(), days: Table::new(), budgets: Table::new() };
        Book { seen: Table::new(), money }
    }
}
