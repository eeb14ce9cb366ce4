//! A book as text: JSON of version 3, as docs/OPERATOR.md has it.

use crate::encode::fixed_digits;
use crate::keys::{month_text, Key, ACQUIRER, CARD, DIGITS};
use crate::message::Kind;
use crate::rows::{Account, Book, Budget, Card, Day, Name, Payer, Places, Seen, Status};
use crate::PIECE;
use std::io::{self, Write};

pub const STATUSES: [(Status, &[u8]); 4] =
    [(Status::Active, b"active"), (Status::Blocked, b"blocked"), (Status::Lost, b"lost"), (Status::Stolen, b"stolen")];

/// 00 to 99.
const PAIRS: [[u8; 2]; 100] = {
    let mut pairs = [[0; 2]; 100];
    let mut number = 0;
    while number < 100 {
        pairs[number] = [b'0' + number as u8 / 10, b'0' + number as u8 % 10];
        number += 1;
    }
    pairs
};

/// Writes a book.
pub fn write_book<P: Places>(book: &Book<P>, to: impl Write) -> io::Result<()> {
    let mut out = Output { to, text: Vec::with_capacity(PIECE + 1024) };
    let (seen, money) = (&book.seen, &book.money);
    out.list(b"{\"accounts\":[", money.names.iter().zip(&money.accounts), account)?;
    out.list(b"],\"ahead\":[", seen.at(&seen.order(|it| matches!(it, Seen::Mark(_)))), ahead)?;
    out.list(b"],\"budgets\":[", money.budgets.at(&money.budgets.order(|_| true)), budget)?;
    out.list(b"],\"cards\":[", money.cards.at(&money.cards.order(|_| true)), |text, row| {
        card(text, row, &money.names)
    })?;
    out.list(b"],\"days\":[", money.days.at(&money.days.order(|_| true)), day)?;
    let originals = seen.order(|it| matches!(it, Seen::Original(_)));
    out.list(b"],\"originals\":[", seen.at(&originals), |text, row| original(text, row, &money.names))?;
    out.text.extend_from_slice(b"],\"version\":3}");
    out.to.write_all(&out.text)
}

struct Output<W> {
    to: W,
    text: Vec<u8>,
}

impl<W: Write> Output<W> {
    /// The entries of a list, behind its beginning.
    fn list<R>(
        &mut self,
        begin: &[u8],
        rows: impl IntoIterator<Item = R>,
        entry: impl Fn(&mut Vec<u8>, R),
    ) -> io::Result<()> {
        self.text.extend_from_slice(begin);
        for (place, row) in rows.into_iter().enumerate() {
            if place > 0 {
                self.text.push(b',');
            }
            entry(&mut self.text, row);
            if self.text.len() >= PIECE {
                self.to.write_all(&self.text)?;
                self.text.clear();
            }
        }
        Ok(())
    }
}

/// Texts one behind another.
macro_rules! put {
    ($text:expr, $($piece:expr),+) => {{ $($text.extend_from_slice($piece);)+ }};
}

fn account(text: &mut Vec<u8>, (id, it): (&Name, &Account)) {
    put!(text, b"{\"available\":");
    number(text, it.available);
    put!(text, b",\"currency\":\"", &it.currency, b"\",\"id\":");
    name(text, id);
    put!(text, b"}");
}

fn ahead(text: &mut Vec<u8>, (key, seen): (Key, Seen)) {
    let Seen::Mark(mark) = seen else { return };
    let (places, card) = (key.places(), mark.card.places());
    put!(text, b"{\"acquirer\":\"", &places[..key.digits_in(ACQUIRER)], b"\",\"kind\":\"", kind_word(mark.kind));
    put!(text, b"\",\"pan\":\"", &card[..mark.card.digits_in(CARD)], b"\",\"reversal\":");
    identity(text, mark.reversal);
    put!(text, b",\"stamp\":\"", stamp_of(&places), b"\",\"trace\":\"", trace_of(&places), b"\"}");
}

fn budget(text: &mut Vec<u8>, (key, it): (Key, Budget)) {
    put!(text, b"{\"cap\":");
    number(text, it.cap);
    put!(text, b",\"left\":");
    number(text, it.left);
    put!(text, b",\"mode\":\"", if it.stands_in { &b"stand-in"[..] } else { b"direct" });
    put!(text, b"\",\"prefix\":\"", &key.places()[..6], b"\"}");
}

fn card(text: &mut Vec<u8>, (key, it): (Key, Card), names: &[Name]) {
    put!(text, b"{\"account\":");
    name(text, &names[it.account as usize]);
    put!(text, b",\"approvals\":");
    number(text, it.approvals.into());
    put!(text, b",\"day_amount\":");
    number(text, it.day_amount);
    put!(text, b",\"day_count\":");
    number(text, it.day_count.into());
    put!(
        text,
        b",\"expiry\":\"",
        &month_text(it.expiry),
        b"\",\"pan\":\"",
        &key.places()[..key.digits_in(CARD)],
        b"\",\"second\":"
    );
    match it.second {
        Some(place) => name(text, &names[place as usize]),
        None => put!(text, b"null"),
    }
    put!(text, b",\"status\":\"", STATUSES[it.status as usize].1, b"\"}");
}

fn day(text: &mut Vec<u8>, (key, it): (Key, Day)) {
    let places = key.places();
    put!(text, b"{\"count\":");
    number(text, it.count.into());
    put!(
        text,
        b",\"day\":\"",
        &places[CARD..CARD + 6],
        b"\",\"pan\":\"",
        &places[..key.digits_in(CARD)],
        b"\",\"sum\":"
    );
    number(text, it.sum);
    put!(text, b"}");
}

fn original(text: &mut Vec<u8>, (key, seen): (Key, Seen), names: &[Name]) {
    let Seen::Original(it) = seen else { return };
    let (places, card) = (key.places(), it.card.places());
    put!(text, b"{\"account\":");
    match it.payer {
        Payer::Account(place) => name(text, &names[place as usize]),
        Payer::Nothing | Payer::Budget => put!(text, b"null"),
    }
    put!(
        text,
        b",\"acquirer\":\"",
        &places[..key.digits_in(ACQUIRER)],
        b"\",\"action\":\"",
        &fixed_digits::<3>(it.action.into()),
        b"\",\"amount\":"
    );
    number(text, it.amount);
    match &it.approval {
        Some(code) => put!(text, b",\"approval\":\"", code, b"\",\"kind\":\""),
        None => put!(text, b",\"approval\":null,\"kind\":\""),
    }
    put!(
        text,
        kind_word(it.kind),
        b"\",\"paid\":\"",
        payer_word(it.payer),
        b"\",\"pan\":\"",
        &card[..it.card.digits_in(CARD)]
    );
    put!(text, b"\",\"processing\":\"", &it.processing, b"\",\"reversed\":");
    match it.reversed {
        Some(reversal) => identity(text, reversal),
        None => put!(text, b"null"),
    }
    put!(text, b",\"stamp\":\"", stamp_of(&places), b"\",\"stay\":");
    number(text, it.stay);
    put!(text, b",\"trace\":\"", trace_of(&places), b"\"}");
}

/// The identity of a reversal.
fn identity(text: &mut Vec<u8>, key: Key) {
    let places = key.places();
    put!(
        text,
        b"{\"acquirer\":\"",
        &places[..key.digits_in(ACQUIRER)],
        b"\",\"stamp\":\"",
        stamp_of(&places),
        b"\",\"trace\":\"",
        trace_of(&places),
        b"\"}"
    );
}

fn trace_of(places: &[u8; DIGITS]) -> &[u8] {
    &places[ACQUIRER..ACQUIRER + 6]
}

fn stamp_of(places: &[u8; DIGITS]) -> &[u8] {
    &places[ACQUIRER + 6..ACQUIRER + 18]
}

fn kind_word(kind: Kind) -> &'static [u8] {
    match kind {
        Kind::Request => b"request",
        Kind::Advice => b"advice",
    }
}

fn payer_word(payer: Payer) -> &'static [u8] {
    match payer {
        Payer::Nothing => b"nothing",
        Payer::Account(_) => b"account",
        Payer::Budget => b"budget",
    }
}

/// A number in decimal, made from behind by pairs of digits.
fn number(text: &mut Vec<u8>, mut number: u64) {
    let (mut digits, mut at) = ([0; 20], 20);
    while number >= 10 {
        at -= 2;
        digits[at..at + 2].copy_from_slice(&PAIRS[(number % 100) as usize]);
        number /= 100;
    }
    if number > 0 || at == 20 {
        at -= 1;
        digits[at] = b'0' + number as u8;
    }
    // The first pair may begin with a zero.
    at += usize::from(digits[at] == b'0' && at < 19);
    put!(text, &digits[at..]);
}

/// The name of an account in quotes, its own ones and backslashes behind a backslash.
fn name(text: &mut Vec<u8>, name: &Name) {
    text.push(b'"');
    if name.is_plain() {
        put!(text, name.text());
    } else {
        for &byte in name.text() {
            if matches!(byte, b'"' | b'\\') {
                text.push(b'\\');
            }
            text.push(byte);
        }
    }
    text.push(b'"');
}
