//! A book, and a batch of ordinary traffic on its cards.
//!
//! Of a hundred messages 80 are requests, ten advices, five reversals and five repeats. They come over 25 hours from ten
//! acquirers; a quarter of the reversals is in part, and half of the messages have element 37. Limits and balances are high.
//! By percentages, prefixes are in stand-in mode, bodies are spoilt, reversals come ahead of their original, which follows
//! within a thousand messages, requests and advices name an account, and cards and messages are odd: what some rule refuses.

use crate::batch::{header, MOST_BODIES};
use crate::index::Index;
use crate::keys::{month_of, passes_luhn, Key};
use crate::message::bitmap_of;
use crate::rows::{Account, Book, Budget, Card, Name, Status};
use crate::rules::GREATEST;
use crate::{write, write_book, Fault};
use std::collections::BTreeMap;

/// How many prefixes cards have.
const PREFIXES: usize = 10;
const ACQUIRERS: [&str; 10] =
    ["400000", "400001", "400002", "400003", "400004", "400005", "400006", "400007", "8", "40000812345"];
/// How many messages are known that may be repeated or reversed, and how many come at most before an original.
const POOL: usize = 1000;

struct Options {
    messages: usize,
    cards: usize,
    seed: u64,
    stand_in: usize,
    bad: usize,
    ahead: usize,
    named: usize,
    odd: usize,
}

impl Options {
    /// The options among these words, and the names of two files behind them.
    fn of<'a>(words: &[&'a str]) -> Option<(Options, &'a str, &'a str)> {
        let mut it =
            Options { messages: MOST_BODIES, cards: 100, seed: 1, stand_in: 0, bad: 0, ahead: 10, named: 10, odd: 0 };
        let [words @ .., book, batch] = words else { return None };
        for pair in words.chunks(2) {
            let [name, value] = pair else { return None };
            let number = value.parse().ok()?;
            match *name {
                "--messages" => it.messages = number,
                "--cards" => it.cards = number,
                "--seed" => it.seed = number as u64,
                "--stand-in" => it.stand_in = number,
                "--bad" => it.bad = number,
                "--ahead" => it.ahead = number,
                "--named" => it.named = number,
                "--odd" => it.odd = number,
                _ => return None,
            }
        }
        let is_right = it.messages <= MOST_BODIES && (1..=1_000_000).contains(&it.cards);
        is_right.then_some((it, book, batch))
    }
}

/// Makes a book and a batch.
pub fn make(words: &[&str]) -> Result<(), Fault> {
    let (options, book_name, batch_name) = Options::of(words).ok_or_else(Fault::usage)?;
    let mut random = Random(options.seed);
    let (book, cards) = make_book(&options, &mut random);
    write_book(book_name, &book)?;
    let mut traffic = Traffic::new(&options, random, cards);
    let mut batch = header(b"I83B", options.messages);
    for place in 0..options.messages {
        let message = traffic.next(place);
        let mut body = message.spelled();
        if traffic.random.percent(options.bad) {
            traffic.random.spoil(&mut body);
        }
        batch.extend_from_slice(&(body.len() as u16).to_be_bytes());
        batch.extend_from_slice(&body);
    }
    write(batch_name, &batch)
}

/// Numbers from a seed (splitmix64).
struct Random(u64);

impl Random {
    fn below(&mut self, end: usize) -> usize {
        self.0 = self.0.wrapping_add(0x9e37_79b9_7f4a_7c15);
        let x = (self.0 ^ self.0 >> 30).wrapping_mul(0xbf58_476d_1ce4_e5b9);
        let x = (x ^ x >> 27).wrapping_mul(0x94d0_49bb_1331_11eb);
        ((x ^ x >> 31) % end as u64) as usize
    }

    fn percent(&mut self, share: usize) -> bool {
        self.below(100) < share
    }

    /// A body is cut, has a byte too many, or another byte.
    fn spoil(&mut self, body: &mut Vec<u8>) {
        let at = self.below(body.len());
        match self.below(4) {
            0 => body.truncate(at.max(1)),
            1 => body.push(b'0'),
            2 => body[at] ^= 1 << self.below(8),
            _ => body[at] = self.below(256) as u8,
        }
    }
}

/// A card of the book, with the names of its accounts.
struct Known {
    number: String,
    account: String,
    second: Option<String>,
}

/// The digits, and the one with which they pass the Luhn test.
fn with_luhn(digits: &str) -> String {
    let numbers = (0..10).map(|last| format!("{digits}{last}"));
    numbers.into_iter().find(|it| passes_luhn(it.as_bytes())).expect("one of ten digits passes")
}

/// The number of a card, with so many digits for its place.
fn card_number(place: usize, size: usize) -> String {
    with_luhn(&format!("40000{}{:0size$}", place % PREFIXES, place / PREFIXES))
}

fn make_book(options: &Options, random: &mut Random) -> (Book<Index>, Vec<Known>) {
    let mut book = Book::new();
    let mut cards = Vec::new();
    for place in 0..options.cards {
        cards.push(make_card(&mut book, options, random, place));
    }
    for known in cards.iter().filter_map(|it| it.second.as_ref()) {
        add_account(&mut book, known, 1_000_000_000, *b"978");
    }
    for prefix in 0..PREFIXES.min(options.cards) {
        let (cap, left) = if random.percent(options.odd) { (5000, 200_000) } else { (1_000_000, GREATEST / 10) };
        let stands_in = 100 * prefix < PREFIXES * options.stand_in;
        let key = Key::of_card(format!("40000{prefix}").as_bytes());
        book.money.budgets.add(key, Budget { stands_in, cap, left });
    }
    (book, cards)
}

fn add_account(book: &mut Book<Index>, name: &str, available: u64, currency: [u8; 3]) {
    book.money.names.push(Name::new(name.as_bytes()).expect("a name"));
    book.money.accounts.push(Account { available, currency });
}

/// A card, and its first account; the second accounts of all cards stand behind these.
fn make_card(book: &mut Book<Index>, options: &Options, random: &mut Random, place: usize) -> Known {
    let second = place.is_multiple_of(3);
    let mut card = Card {
        account: place as u32,
        second: second.then_some((options.cards + place / 3) as u32),
        approvals: 0,
        day_count: 999_999,
        day_amount: GREATEST / 10,
        expiry: month_of(b"2812"),
        status: Status::Active,
    };
    let (mut available, mut currency, mut size, mut mark) = (1_000_000_000, *b"978", 9, "");
    if random.percent(options.odd) {
        match random.below(11) {
            0 => card.status = Status::Blocked,
            1 => card.status = Status::Lost,
            2 => card.status = Status::Stolen,
            3 => card.expiry = month_of(b"2602"),
            4 => card.day_count = 3,
            5 => card.day_amount = 20_000,
            6 => card.approvals = 999_997,
            7 => available = 20_000,
            8 => currency = *b"840",
            9 => mark = " \"\\~",
            _ => size = 5 + random.below(8),
        }
    }
    let (number, account) = (card_number(place, size), format!("A{place:07}{mark}"));
    book.money.cards.add(Key::of_card(number.as_bytes()), card);
    add_account(book, &account, available, currency);
    Known { number, account, second: second.then(|| format!("S{place:07}")) }
}

/// A message: its type, and the texts of its elements.
#[derive(Clone)]
struct Draft {
    kind: &'static str,
    elements: BTreeMap<u32, String>,
}

impl Draft {
    fn set(&mut self, element: u32, text: impl Into<String>) {
        self.elements.insert(element, text.into());
    }

    fn amount(&self) -> u64 {
        self.elements[&4].parse().expect("an amount")
    }

    fn repeat(mut self) -> Draft {
        self.kind = match self.kind {
            "1100" => "1101",
            "1120" => "1121",
            "1420" => "1421",
            kind => kind,
        };
        self
    }

    /// Element 56 of a reversal.
    fn name(&self) -> String {
        let [trace, stamp, acquirer] = [11, 12, 32].map(|element| &self.elements[&element]);
        format!("{}{trace}{stamp}{:02}{acquirer}", self.kind, acquirer.len())
    }

    /// The bytes of the message.
    fn spelled(&self) -> Vec<u8> {
        let mut bitmap = self.elements.keys().fold(0, |all, &element| all | bitmap_of(&[element]));
        let is_long = bitmap as u64 != 0;
        if is_long {
            bitmap |= bitmap_of(&[1]);
        }
        let mut body = self.kind.as_bytes().to_vec();
        body.extend_from_slice(&bitmap.to_be_bytes()[..if is_long { 16 } else { 8 }]);
        for (element, text) in &self.elements {
            if matches!(element, 2 | 32 | 56 | 102) {
                body.extend_from_slice(format!("{:02}", text.len()).as_bytes());
            }
            body.extend_from_slice(text.as_bytes());
        }
        body
    }
}

/// The local date and time of a message: within 25 hours from a day of its own for each seed.
fn stamp_of(options: &Options, place: usize) -> String {
    let second = place * 90_000 / options.messages;
    let day = 1 + options.seed as usize % 27 + second / 86_400;
    format!("2603{day:02}{:02}{:02}{:02}", second / 3600 % 24, second / 60 % 60, second % 60)
}

/// Messages, one after another.
struct Traffic<'a> {
    options: &'a Options,
    random: Random,
    cards: Vec<Known>,
    traces: [usize; ACQUIRERS.len()],
    originals: Vec<Draft>,
    reversals: Vec<Draft>,
    /// Originals whose reversal came ahead, and at which place they follow.
    later: Vec<(usize, Draft)>,
}

impl<'a> Traffic<'a> {
    fn new(options: &'a Options, random: Random, cards: Vec<Known>) -> Traffic<'a> {
        let (originals, reversals, later) = (Vec::new(), Vec::new(), Vec::new());
        Traffic { options, random, cards, traces: [0; ACQUIRERS.len()], originals, reversals, later }
    }

    /// The message at this place of the batch.
    fn next(&mut self, place: usize) -> Draft {
        if let Some(due) = self.later.iter().position(|it| it.0 <= place) {
            return self.later.swap_remove(due).1;
        }
        let draw = self.random.below(100);
        if draw < 90 || self.originals.is_empty() {
            let message = self.original(place, draw);
            keep(&mut self.originals, &mut self.random, message.clone());
            return message;
        }
        if draw < 95 {
            let message = self.reversal(place);
            keep(&mut self.reversals, &mut self.random, message.clone());
            return message;
        }
        let of_reversals = !self.reversals.is_empty() && self.random.percent(10);
        let sent = if of_reversals { &self.reversals } else { &self.originals };
        sent[self.random.below(sent.len())].clone().repeat()
    }

    /// What all messages have, on a card by its place.
    fn front(&mut self, place: usize, kind: &'static str, card: String, amount: usize) -> Draft {
        let acquirer = self.random.below(ACQUIRERS.len());
        let stamp = stamp_of(self.options, place);
        self.traces[acquirer] += 1;
        let mut message = Draft { kind, elements: BTreeMap::new() };
        message.set(2, card);
        message.set(3, if self.random.percent(20) { "010000" } else { "000000" });
        message.set(4, format!("{amount:012}"));
        message.set(7, &stamp[2..]);
        message.set(11, format!("{:06}", self.traces[acquirer]));
        message.set(12, stamp);
        message.set(24, "100");
        message.set(32, ACQUIRERS[acquirer]);
        if self.random.percent(50) {
            message.set(37, format!("REF {place:08}"));
        }
        message.set(41, format!("TERM{:04}", self.random.below(1000)));
        message.set(49, "978");
        message
    }

    /// A request, or an advice.
    fn original(&mut self, place: usize, draw: usize) -> Draft {
        let card = self.random.below(self.cards.len());
        let amount = 1 + self.random.below(10_000);
        let kind = if draw < 80 { "1100" } else { "1120" };
        let mut message = self.front(place, kind, self.cards[card].number.clone(), amount);
        if kind == "1120" {
            message.set(39, "000");
        }
        if self.random.percent(self.options.named) {
            let known = &self.cards[card];
            let of_second = self.random.percent(50);
            let own = known.second.as_ref().filter(|_| of_second).unwrap_or(&known.account);
            message.set(102, if self.random.percent(2) { "NOBODY" } else { own });
        }
        if self.random.percent(self.options.odd) {
            self.make_odd(&mut message);
        }
        message
    }

    /// Something about a request or an advice that a rule refuses.
    fn make_odd(&mut self, message: &mut Draft) {
        let number = self.random.below(self.cards.len());
        match self.random.below(9) {
            0 => message.set(4, "000000000000"),
            1 => message.set(3, "200000"),
            2 => message.set(2, with_luhn(&format!("40000{}77{number:07}", number % PREFIXES))),
            3 => message.set(2, format!("{}0", self.cards[number].number.get(..14).unwrap_or("41111111111"))),
            4 => message.set(49, "840"),
            5 => message.set(102, self.cards[number].account.clone()),
            6 if message.kind == "1120" => message.set(39, "116"),
            7 => *message = message.clone().repeat(),
            _ => {
                // Another message of the same identity.
                let Some(other) = self.originals.last() else { return };
                [11, 12, 32].into_iter().for_each(|it| message.set(it, other.elements[&it].clone()));
            }
        }
    }

    /// A reversal of a message that was sent, or of one that follows.
    fn reversal(&mut self, place: usize) -> Draft {
        let original = if self.random.percent(self.options.ahead) {
            let draw = self.random.below(90);
            let original = self.original(place, draw);
            self.later.push((place + 1 + self.random.below(POOL), original.clone()));
            original
        } else {
            self.originals[self.random.below(self.originals.len())].clone()
        };
        let amount = original.amount() as usize;
        let is_part = self.random.percent(25) && amount > 0;
        let left = if is_part { amount / 2 } else { amount };
        let mut message = self.front(place, "1420", original.elements[&2].clone(), left);
        message.set(24, if is_part { "401" } else { "400" });
        message.set(56, original.name());
        if is_part {
            message.set(30, format!("{amount:012}000000000000"));
        }
        if self.random.percent(self.options.odd) {
            self.make_odd_reversal(&mut message, amount, is_part);
        }
        message
    }

    /// Something about a reversal that a rule refuses.
    fn make_odd_reversal(&mut self, message: &mut Draft, amount: usize, is_part: bool) {
        let number = self.random.below(self.cards.len());
        match self.random.below(5) {
            0 if is_part => message.set(30, format!("{:012}000000000000", amount + 1)),
            1 if is_part => message.set(4, format!("{amount:012}")),
            2 => message.set(2, self.cards[number].number.clone()),
            3 => {
                let other = format!("1120{}", &message.elements[&56][4..]);
                message.set(56, other);
            }
            _ => *message = message.clone().repeat(),
        }
    }
}

/// Keeps a message among those that may be repeated or reversed, in place of one where they are many.
fn keep(pool: &mut Vec<Draft>, random: &mut Random, message: Draft) {
    if pool.len() < POOL {
        pool.push(message);
    } else {
        pool[random.below(POOL)] = message;
    }
}
