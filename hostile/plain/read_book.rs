//! A book from its text, in the form in which it is written.

use crate::decode::{are_digits, is_day, is_stamp};
use crate::index::Index;
use crate::keys::{month_of, passes_luhn, Key, ACQUIRER};
use crate::message::Kind;
use crate::rows::{Account, Book, Budget, Card, Day, Mark, Name, Original, Payer, Places, Seen};
use crate::rules::{GREATEST, MOST_APPROVALS};
use crate::write_book::STATUSES;
use std::collections::BTreeMap;

const MOST_AMOUNT: u64 = 999_999_999_999;

/// The book, or nothing where the text isn't in the form that `write_book` gives it, or something is wrong with the book.
pub fn read_book<P: Places>(text: &[u8]) -> Option<Book<P>> {
    let mut book = Book::new();
    let mut reader = Reader { rest: text, names: Vec::new(), places: Index::default() };
    reader.list(b"{\"accounts\":[", |it| {
        let row = it.account()?;
        book.money.accounts.push(row);
        Some(())
    })?;
    reader.list(b"],\"ahead\":[", |it| {
        let (key, row) = it.ahead()?;
        book.seen.add(key, Seen::Mark(row)).then_some(())
    })?;
    reader.list(b"],\"budgets\":[", |it| {
        let (key, row) = it.budget()?;
        book.money.budgets.add(key, row).then_some(())
    })?;
    reader.list(b"],\"cards\":[", |it| {
        let (key, row) = it.card()?;
        book.money.cards.add(key, row).then_some(())
    })?;
    reader.list(b"],\"days\":[", |it| {
        let (key, row) = it.day()?;
        book.money.days.add(key, row).then_some(())
    })?;
    reader.list(b"],\"originals\":[", |it| {
        let (key, row) = it.original()?;
        book.seen.add(key, Seen::Original(row)).then_some(())
    })?;
    reader.text(b"],\"version\":3}")?;
    book.money.names = reader.names;
    (reader.rest.is_empty() && are_backings_in_range(&book)).then_some(book)
}

/// What an account or a budget has, and what stays paid from it, is at most 10^15.
fn are_backings_in_range<P: Places>(book: &Book<P>) -> bool {
    let mut accounts: Vec<u64> = book.money.accounts.iter().map(|it| it.available).collect();
    let mut budgets: BTreeMap<Key, u64> = book.money.budgets.rows().iter().map(|it| (it.0, it.1.left)).collect();
    for row in book.seen.rows() {
        let Seen::Original(original) = &row.1 else { continue };
        match original.payer {
            Payer::Nothing => {}
            Payer::Account(place) => accounts[place as usize] += original.stay,
            Payer::Budget => *budgets.entry(original.card.prefix()).or_default() += original.stay,
        }
    }
    accounts.iter().chain(budgets.values()).all(|&backing| backing <= GREATEST)
}

/// The text that is left, and the names of the accounts that were read, with their places.
struct Reader<'a> {
    rest: &'a [u8],
    names: Vec<Name>,
    places: Index,
}

impl<'a> Reader<'a> {
    /// The entries of a list, behind its beginning and in front of its end.
    fn list(&mut self, begin: &[u8], mut entry: impl FnMut(&mut Self) -> Option<()>) -> Option<()> {
        self.text(begin)?;
        if self.rest.starts_with(b"]") {
            return Some(());
        }
        loop {
            entry(self)?;
            if self.text(b",").is_none() {
                return Some(());
            }
        }
    }

    #[inline]
    fn text(&mut self, text: &[u8]) -> Option<()> {
        self.rest = self.rest.strip_prefix(text)?;
        Some(())
    }

    /// A number behind such a text, up to this one, without a zero in front.
    #[inline]
    fn number(&mut self, before: &[u8], most: u64) -> Option<u64> {
        self.text(before)?;
        let mut number: u64 = 0;
        let mut size = 0;
        while let Some(digit) = self.rest.get(size).filter(|it| it.is_ascii_digit()) {
            number = number * 10 + u64::from(digit - b'0');
            size += 1;
            if number > most {
                return None;
            }
        }
        let is_number = size == 1 || size > 1 && self.rest[0] != b'0';
        self.rest = &self.rest[size..];
        is_number.then_some(number)
    }

    /// What stands between such a text and the next quotes.
    #[inline]
    fn word(&mut self, before: &[u8]) -> Option<&'a [u8]> {
        self.text(before)?;
        let size = self.rest.iter().position(|&it| it == b'"')?;
        let word = &self.rest[..size];
        self.rest = &self.rest[size..];
        Some(word)
    }

    /// So many digits between such a text and the next quotes.
    #[inline]
    fn digits<const N: usize>(&mut self, before: &[u8]) -> Option<[u8; N]> {
        self.word(before)?.try_into().ok().filter(|it: &[u8; N]| are_digits(it))
    }

    fn card_number(&mut self, before: &[u8]) -> Option<&'a [u8]> {
        self.word(before).filter(|it| (12..=19).contains(&it.len()) && are_digits(it))
    }

    fn acquirer(&mut self, before: &[u8]) -> Option<&'a [u8]> {
        self.word(before).filter(|it| (1..=ACQUIRER).contains(&it.len()) && are_digits(it))
    }

    fn kind(&mut self, before: &[u8]) -> Option<Kind> {
        match self.word(before)? {
            b"request" => Some(Kind::Request),
            b"advice" => Some(Kind::Advice),
            _ => None,
        }
    }

    fn stamp(&mut self, before: &[u8]) -> Option<[u8; 12]> {
        self.digits(before).filter(is_stamp)
    }

    /// A name in quotes, in which quotes and backslashes stand behind a backslash.
    fn name(&mut self, before: &[u8]) -> Option<Name> {
        self.text(before)?;
        self.text(b"\"")?;
        let size = self.rest.iter().position(|it| matches!(it, b'"' | b'\\'))?;
        if self.rest[size] == b'"' {
            let name = Name::new(&self.rest[..size]);
            self.rest = &self.rest[size + 1..];
            return name;
        }
        let mut name = Vec::new();
        loop {
            let (&byte, rest) = self.rest.split_first()?;
            self.rest = rest;
            match byte {
                b'"' => return Name::new(&name),
                b'\\' => {
                    let (&escaped, rest) = rest.split_first()?;
                    self.rest = rest;
                    matches!(escaped, b'"' | b'\\').then(|| name.push(escaped))?;
                }
                _ => name.push(byte),
            }
        }
    }

    /// An account by its name; one that has no row is none.
    fn place(&mut self, before: &[u8]) -> Option<u32> {
        let name = self.name(before)?;
        self.places.find(name.hash(), |place| self.names[place as usize] == name)
    }

    /// What is there, or null.
    fn or_null<T>(&mut self, before: &[u8], read: impl FnOnce(&mut Self) -> Option<T>) -> Option<Option<T>> {
        self.text(before)?;
        if self.text(b"null").is_some() {
            Some(None)
        } else {
            read(self).map(Some)
        }
    }
}

/// Entries.
impl Reader<'_> {
    /// An account, whose name comes behind those before it.
    fn account(&mut self) -> Option<Account> {
        let available = self.number(b"{\"available\":", GREATEST)?;
        let currency = self.digits(b",\"currency\":\"")?;
        let name = self.name(b"\",\"id\":")?;
        self.text(b"}")?;
        let is_next = self.names.last().is_none_or(|last| *last < name);
        self.places.reserve(1, |place| self.names[place as usize].hash());
        self.places.find_or_put(name.hash(), |_| false);
        self.names.push(name);
        is_next.then_some(Account { available, currency })
    }

    fn ahead(&mut self) -> Option<(Key, Mark)> {
        let acquirer = self.acquirer(b"{\"acquirer\":\"")?;
        let kind = self.kind(b"\",\"kind\":\"")?;
        let card = Key::of_card(self.card_number(b"\",\"pan\":\"")?);
        self.text(b"\",\"reversal\":")?;
        let reversal = self.identity()?;
        let stamp = self.stamp(b",\"stamp\":\"")?;
        let trace = self.digits(b"\",\"trace\":\"")?;
        self.text(b"\"}")?;
        Some((Key::of_identity(acquirer, &trace, &stamp), Mark { kind, card, reversal }))
    }

    fn budget(&mut self) -> Option<(Key, Budget)> {
        let cap = self.number(b"{\"cap\":", GREATEST)?;
        let left = self.number(b",\"left\":", GREATEST)?;
        let stands_in = match self.word(b",\"mode\":\"")? {
            b"stand-in" => true,
            b"direct" => false,
            _ => return None,
        };
        let prefix = self.digits::<6>(b"\",\"prefix\":\"")?;
        self.text(b"\"}")?;
        Some((Key::of_card(&prefix), Budget { stands_in, cap, left }))
    }

    fn card(&mut self) -> Option<(Key, Card)> {
        let account = self.place(b"{\"account\":")?;
        let approvals = self.number(b",\"approvals\":", MOST_APPROVALS.into())? as u32;
        let day_amount = self.number(b",\"day_amount\":", GREATEST)?;
        let day_count = self.number(b",\"day_count\":", MOST_APPROVALS.into())? as u32;
        let expiry = self.digits(b",\"expiry\":\"").filter(|it| (*b"01"..=*b"12").contains(&[it[2], it[3]]))?;
        let number = self.card_number(b"\",\"pan\":\"").filter(|it| passes_luhn(it))?;
        let second = self.or_null(b"\",\"second\":", |it| it.place(b""))?;
        let word = self.word(b",\"status\":\"")?;
        let status = STATUSES.iter().find(|it| it.1 == word)?.0;
        self.text(b"\"}")?;
        let row = Card { account, second, approvals, day_count, day_amount, expiry: month_of(&expiry), status };
        (second != Some(account)).then_some((Key::of_card(number), row))
    }

    fn day(&mut self) -> Option<(Key, Day)> {
        let count = self.number(b"{\"count\":", MOST_APPROVALS.into())? as u32;
        let day = self.digits(b",\"day\":\"").filter(is_day)?;
        let card = Key::of_card(self.card_number(b"\",\"pan\":\"")?);
        let sum = self.number(b"\",\"sum\":", GREATEST)?;
        self.text(b"}")?;
        Some((card.with_day(&day), Day { count, sum }))
    }

    fn original(&mut self) -> Option<(Key, Original)> {
        let account = self.or_null(b"{\"account\":", |it| it.place(b""))?;
        let acquirer = self.acquirer(b",\"acquirer\":\"")?;
        let action: [u8; 3] = self.digits(b"\",\"action\":\"")?;
        let action = action.iter().fold(0, |number, digit| number * 10 + u16::from(digit - b'0'));
        let amount = self.number(b"\",\"amount\":", MOST_AMOUNT)?;
        let approval = self.or_null(b",\"approval\":", |it| {
            let code = it.word(b"\"")?.try_into().ok()?;
            it.text(b"\"")?;
            Some(code)
        })?;
        let kind = self.kind(b",\"kind\":\"")?;
        let payer = match (self.word(b"\",\"paid\":\"")?, account) {
            (b"nothing", None) => Payer::Nothing,
            (b"account", Some(place)) => Payer::Account(place),
            (b"budget", None) => Payer::Budget,
            _ => return None,
        };
        let card = Key::of_card(self.card_number(b"\",\"pan\":\"")?);
        let processing = self.digits(b"\",\"processing\":\"")?;
        let reversed = self.or_null(b"\",\"reversed\":", Reader::identity)?;
        let stamp = self.stamp(b",\"stamp\":\"")?;
        let stay = self.number(b"\",\"stay\":", MOST_AMOUNT)?;
        let trace = self.digits(b",\"trace\":\"")?;
        self.text(b"\"}")?;
        let row = Original { kind, card, amount, processing, action, approval, payer, stay, reversed };
        can_be(&row).then_some((Key::of_identity(acquirer, &trace, &stamp), row))
    }

    /// The identity of a reversal.
    fn identity(&mut self) -> Option<Key> {
        let acquirer = self.acquirer(b"{\"acquirer\":\"")?;
        let stamp = self.stamp(b"\",\"stamp\":\"")?;
        let trace = self.digits(b"\",\"trace\":\"")?;
        self.text(b"\"}")?;
        Some(Key::of_identity(acquirer, &trace, &stamp))
    }
}

/// An original is posted exactly where something paid, and all of it stays until it is reversed.
fn can_be(original: &Original) -> bool {
    let is_posted = original.payer != Payer::Nothing;
    let has_action = match original.kind {
        Kind::Request => is_posted == (original.action == 0) && is_posted == original.approval.is_some(),
        Kind::Advice => is_posted == (original.action == 901) && original.approval.is_none(),
    };
    let may_stay = if is_posted { original.amount } else { 0 };
    let is_left = original.stay == may_stay || original.reversed.is_some() && original.stay < may_stay;
    let has_code = original.approval.is_none_or(|it| it.iter().all(|it| it.is_ascii_alphanumeric() || *it == b' '));
    has_action && is_left && has_code
}
