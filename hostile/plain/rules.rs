//! The decision tables of docs/DEFINITIONS.md, on rows that are changed in place.

use crate::encode::fixed_digits;
use crate::keys::{passes_luhn, Key, CARD};
use crate::message::{Asks, Kind, Message, Reply};
use crate::rows::{Account, Book, Card, Day, Mark, Money, Name, Original, Payer, Places, Seen, Status};

/// The most that an account or a budget may have.
pub const GREATEST: u64 = 1_000_000_000_000_000;
/// The most approvals of a card.
pub const MOST_APPROVALS: u32 = 999_999;

impl<P: Places> Book<P> {
    /// Decides a message, and writes its rows.
    pub fn decide(&mut self, message: &Message) -> Reply {
        match message.asks {
            Asks::Request => self.request(message),
            Asks::Advice { approved } => self.advice(message, approved),
            Asks::Reversal { original, kind, part } => {
                Reply { action: self.reversal(message, original, kind, part), approval: None }
            }
        }
    }

    fn request(&mut self, message: &Message) -> Reply {
        if let Some(seen) = self.seen.find_or_reserve(message.identity) {
            return again(message, Kind::Request, seen);
        }
        let original = match self.money.pay_request(message) {
            Ok((approval, payer)) => Original { approval: Some(approval), ..paid(message, Kind::Request, 0, payer) },
            Err(action) => unpaid(message, Kind::Request, action),
        };
        self.keep(message.identity, original)
    }

    fn advice(&mut self, message: &Message, approved: bool) -> Reply {
        if let Some(seen) = self.seen.find_or_reserve(message.identity) {
            return again(message, Kind::Advice, seen);
        }
        let payer = if approved { self.money.pay_advice(message) } else { None };
        let original = match payer {
            Some(payer) => paid(message, Kind::Advice, 901, payer),
            None => unpaid(message, Kind::Advice, 900),
        };
        self.keep(message.identity, original)
    }

    /// Keeps an original that is new, and answers it.
    fn keep(&mut self, identity: Key, original: Original) -> Reply {
        let reply = Reply { action: original.action, approval: original.approval };
        self.seen.add_reserved(identity, Seen::Original(original));
        reply
    }

    fn reversal(&mut self, message: &Message, identity: Key, kind: Kind, part: Option<u64>) -> u16 {
        let original = match self.seen.find_or_reserve(identity) {
            None => {
                let mark = Mark { kind, card: message.card, reversal: message.identity };
                self.seen.add_reserved(identity, Seen::Mark(mark));
                return 914;
            }
            Some(Seen::Mark(_)) => return 914,
            Some(Seen::Original(original)) => original,
        };
        if original.card != message.card || original.kind != kind {
            return 914;
        }
        if let Some(reversal) = original.reversed {
            return if message.repeat && reversal == message.identity { 400 } else { 913 };
        }
        let stay = part.map_or(0, |_| message.amount);
        if original.payer != Payer::Nothing {
            if part.is_some_and(|amount| amount != original.amount || stay >= amount) {
                return 110;
            }
            let day = original.card.with_day_of(identity);
            if let Err(action) = self.money.give_back(original, day, stay, part.is_none()) {
                return action;
            }
            original.stay = stay;
        }
        original.reversed = Some(message.identity);
        400
    }
}

impl<P: Places> Money<P> {
    /// Takes the amount of a new request, and answers approval code and payer, or the action that refuses it.
    fn pay_request(&mut self, message: &Message) -> Result<([u8; 6], Payer), u16> {
        if !matches!(message.processing, [b'0', b'0' | b'1', ..]) {
            return Err(119);
        }
        if message.amount == 0 {
            return Err(110);
        }
        let Some(card) = self.cards.find_mut(message.card) else { return Err(unknown(message.card)) };
        let place = usable_account(message, card, &self.accounts, &self.names)?;
        let key = message.card.with_day_of(message.identity);
        let day = self.days.find_mut(key);
        let (count, sum) = day.as_ref().map_or((0, 0), |day| (day.count, day.sum));
        within_limits(card, count, sum + message.amount)?;
        let account = &mut self.accounts[place as usize];
        let (balance, payer) = match self.budgets.find_mut(message.card.prefix()) {
            Some(budget) if budget.stands_in => {
                if message.amount > budget.cap.min(budget.left) {
                    return Err(907);
                }
                (&mut budget.left, Payer::Budget)
            }
            _ if message.amount > account.available => return Err(116),
            _ => (&mut account.available, Payer::Account(place)),
        };
        *balance -= message.amount;
        card.approvals += 1;
        match day {
            Some(day) => (day.count, day.sum) = (count + 1, sum + message.amount),
            None => {
                self.days.add(key, Day { count: 1, sum: message.amount });
            }
        }
        Ok((fixed_digits(card.approvals.into()), payer))
    }

    /// Takes the amount of a new advice, if it can be paid, and answers the payer.
    fn pay_advice(&mut self, message: &Message) -> Option<Payer> {
        let card = self.cards.find(message.card)?;
        let place = account_of(message, card, &self.names)?;
        let account = &mut self.accounts[place as usize];
        if account.currency != message.currency {
            return None;
        }
        let budget = self.budgets.find_mut(message.card.prefix());
        let (balance, payer) = match budget.filter(|it| it.stands_in && message.amount <= it.cap.min(it.left)) {
            Some(budget) => (&mut budget.left, Payer::Budget),
            None => (&mut account.available, Payer::Account(place)),
        };
        *balance = balance.checked_sub(message.amount)?;
        Some(payer)
    }

    /// Gives back what is over `stay` of an original to what paid, or answers the action that refuses it.
    fn give_back(&mut self, original: &Original, day: Key, stay: u64, takes_approval: bool) -> Result<(), u16> {
        let amount = original.amount - stay;
        let balance = match original.payer {
            Payer::Account(place) => &mut self.accounts[place as usize].available,
            Payer::Budget | Payer::Nothing => &mut self.budgets.find_mut(original.card.prefix()).ok_or(914u16)?.left,
        };
        let day = match original.kind {
            Kind::Request => Some(self.days.find_mut(day).ok_or(914u16)?),
            Kind::Advice => None,
        };
        if *balance + amount > GREATEST {
            return Err(909);
        }
        if let Some(day) = day {
            let count = day.count.checked_sub(takes_approval.into()).ok_or(909u16)?;
            day.sum = day.sum.checked_sub(amount).ok_or(909u16)?;
            day.count = count;
        }
        *balance += amount;
        Ok(())
    }
}

/// A request or an advice at whose identity something stands.
fn again(message: &Message, kind: Kind, seen: &mut Seen) -> Reply {
    const DUPLICATE: Reply = Reply { action: 913, approval: None };
    match seen {
        Seen::Mark(mark) if mark.card == message.card && mark.kind == kind => {
            let action = if kind == Kind::Request { 914 } else { 900 };
            let reversed = Some(mark.reversal);
            *seen = Seen::Original(Original { reversed, ..unpaid(message, kind, action) });
            Reply { action, approval: None }
        }
        Seen::Original(original) if message.repeat && is_of_same(original, message, kind) => {
            Reply { action: original.action, approval: original.approval }
        }
        _ => DUPLICATE,
    }
}

fn is_of_same(original: &Original, message: &Message, kind: Kind) -> bool {
    original.kind == kind
        && original.card == message.card
        && original.amount == message.amount
        && original.processing == message.processing
}

fn paid(message: &Message, kind: Kind, action: u16, payer: Payer) -> Original {
    let Message { card, amount, processing, .. } = *message;
    Original { kind, card, amount, processing, action, approval: None, payer, stay: amount, reversed: None }
}

fn unpaid(message: &Message, kind: Kind, action: u16) -> Original {
    Original { stay: 0, ..paid(message, kind, action, Payer::Nothing) }
}

/// What a request on a card without a record is refused for. The numbers of a book's cards pass the Luhn test.
fn unknown(card: Key) -> u16 {
    if passes_luhn(&card.places()[..card.digits_in(CARD)]) {
        118
    } else {
        111
    }
}

/// The account that a request is to be paid from, or the action that refuses it.
fn usable_account(message: &Message, card: &Card, accounts: &[Account], names: &[Name]) -> Result<u32, u16> {
    match card.status {
        Status::Active => {}
        Status::Blocked => return Err(100),
        Status::Lost => return Err(208),
        Status::Stolen => return Err(209),
    }
    if card.expiry < message.identity.month() {
        return Err(101);
    }
    let place = account_of(message, card, names).ok_or(119u16)?;
    if accounts[place as usize].currency == message.currency {
        Ok(place)
    } else {
        Err(100)
    }
}

/// The card's account that the message names, if it is one of them; where it names none, the first.
fn account_of(message: &Message, card: &Card, names: &[Name]) -> Option<u32> {
    let Some(name) = message.account else { return Some(card.account) };
    let is_named = |place: &u32| names[*place as usize].text() == name;
    [Some(card.account), card.second].into_iter().flatten().find(is_named)
}

/// One approval more, and so much money, within the card's limits of a day.
fn within_limits(card: &Card, count: u32, sum: u64) -> Result<(), u16> {
    if card.day_count < count + 1 {
        return Err(123);
    }
    if card.day_amount < sum {
        return Err(121);
    }
    if card.approvals >= MOST_APPROVALS {
        Err(909)
    } else {
        Ok(())
    }
}
