//! A body as a message, or its first fault.

use crate::keys::{Key, CARD};
use crate::message::{bitmap_of, Asks, Echo, Fault, Kind, Message};

const SHORT: u8 = 1;
const BAD_TYPE: u8 = 2;
const SECONDARY_BITMAP: u8 = 3;
const UNEXPECTED: u8 = 4;
const MISSING: u8 = 5;
const BAD_LENGTH: u8 = 6;
const BAD_CHARACTER: u8 = 7;
const TRAILING: u8 = 8;
const BAD_VALUE: u8 = 9;

const ALL_MUST: u128 = bitmap_of(&[2, 3, 4, 7, 11, 12, 24, 32, 41, 49]);
const ADVICE_MUST: u128 = ALL_MUST | bitmap_of(&[39]);
const REVERSAL_MUST: u128 = ALL_MUST | bitmap_of(&[56]);
const MAY: u128 = bitmap_of(&[37, 102]);
const REVERSAL_MAY: u128 = bitmap_of(&[30, 37]);

/// The kinds of messages.
#[derive(Clone, Copy)]
enum Type {
    Request,
    Advice,
    Reversal,
}

fn fault<T>(number: u8, element: u8) -> Result<T, Fault> {
    Err(Fault { number, element })
}

fn has(bitmap: u128, element: u32) -> bool {
    bitmap >> (128 - element) & 1 == 1
}

/// The bytes that are left of a body.
struct Rest<'a>(&'a [u8]);

impl<'a> Rest<'a> {
    #[inline(always)]
    fn bytes<const N: usize>(&mut self, element: u8) -> Result<&'a [u8; N], Fault> {
        let Some((bytes, rest)) = self.0.split_first_chunk() else { return fault(SHORT, element) };
        self.0 = rest;
        Ok(bytes)
    }

    /// So many digits.
    #[inline(always)]
    fn digits<const N: usize>(&mut self, element: u8) -> Result<&'a [u8; N], Fault> {
        let text = self.bytes(element)?;
        if are_digits(text) {
            Ok(text)
        } else {
            fault(BAD_CHARACTER, element)
        }
    }

    /// A text of varying length, behind two digits of it.
    #[inline(always)]
    fn varying(&mut self, element: u8, least: usize, most: usize, class: fn(&[u8]) -> bool) -> Result<&'a [u8], Fault> {
        let length = self.bytes::<2>(element)?;
        if !are_digits(length) {
            return fault(BAD_LENGTH, element);
        }
        let length = two_digits(length);
        if length < least || length > most {
            return fault(BAD_LENGTH, element);
        }
        let Some((text, rest)) = self.0.split_at_checked(length) else { return fault(SHORT, element) };
        self.0 = rest;
        if class(text) {
            Ok(text)
        } else {
            fault(BAD_CHARACTER, element)
        }
    }

    /// What of these bytes was read since.
    #[inline(always)]
    fn read_of(&self, before: &'a [u8]) -> &'a [u8] {
        &before[..before.len() - self.0.len()]
    }
}

#[inline(always)]
fn are_all(text: &[u8], test: fn(u8) -> bool) -> bool {
    text.iter().fold(true, |all, &byte| all & test(byte))
}

/// Digits alone.
#[inline(always)]
pub fn are_digits(text: &[u8]) -> bool {
    if let (Some(&first), Some(&last)) = (text.first_chunk(), text.last_chunk()) {
        let (chunks, _) = text[8..].as_chunks();
        let ends = are_8_digits(u64::from_ne_bytes(first)) & are_8_digits(u64::from_ne_bytes(last));
        chunks.iter().fold(ends, |all, &chunk| all & are_8_digits(u64::from_ne_bytes(chunk)))
    } else if let (Some(&first), Some(&last)) = (text.first_chunk(), text.last_chunk()) {
        are_8_digits(u64::from(u32::from_ne_bytes(first)) << 32 | u64::from(u32::from_ne_bytes(last)))
    } else {
        are_all(text, |byte| byte.is_ascii_digit())
    }
}

/// Each of eight bytes is 3 in its upper half, and so too with 6 added.
#[inline(always)]
fn are_8_digits(bytes: u64) -> bool {
    let upper = |bytes: u64| bytes & 0xf0f0_f0f0_f0f0_f0f0 ^ 0x3030_3030_3030_3030;
    upper(bytes) | upper(bytes.wrapping_add(0x0606_0606_0606_0606)) == 0
}

#[inline(always)]
fn are_printable(text: &[u8]) -> bool {
    are_all(text, |byte| (b' '..=b'~').contains(&byte))
}

fn two_digits(text: &[u8; 2]) -> usize {
    usize::from(text[0] - b'0') * 10 + usize::from(text[1] - b'0')
}

/// The number of twelve digits: of the first eight by pairs, fours and all.
#[inline(always)]
fn number_of(text: &[u8; 12]) -> u64 {
    let (first, last) = text.split_first_chunk().expect("12 digits");
    let x = u64::from_le_bytes(*first) & 0x0f0f_0f0f_0f0f_0f0f;
    let x = (x * 10 + (x >> 8)) & 0x00ff_00ff_00ff_00ff;
    let x = (x * 100 + (x >> 16)) & 0x0000_ffff_0000_ffff;
    let x = (x * 10000 + (x >> 32)) & 0xffff_ffff;
    last.iter().fold(x, |number, digit| number * 10 + u64::from(digit - b'0'))
}

/// Six digits are `YYMMDD`, without a calendar.
#[inline(always)]
pub fn is_day(text: &[u8; 6]) -> bool {
    let [_, _, month @ .., tens, ones] = text;
    (*b"01"..=*b"12").contains(month) & (*b"01"..=*b"31").contains(&[*tens, *ones])
}

/// Twelve digits are `YYMMDDhhmmss`.
#[inline(always)]
pub fn is_stamp(text: &[u8; 12]) -> bool {
    let (day, time) = text.split_first_chunk().expect("12 digits");
    is_day(day) & (time[..2] <= b"23"[..]) & (time[2] <= b'5') & (time[4] <= b'5')
}

/// The type, the bitmap and whether it is a repeat.
#[inline(always)]
fn header(rest: &mut Rest) -> Result<(Type, bool, u128), Fault> {
    let (kind, repeat) = match rest.bytes(0)? {
        b"1100" => (Type::Request, false),
        b"1101" => (Type::Request, true),
        b"1120" => (Type::Advice, false),
        b"1121" => (Type::Advice, true),
        b"1420" => (Type::Reversal, false),
        b"1421" => (Type::Reversal, true),
        _ => return fault(BAD_TYPE, 0),
    };
    let bitmap = bitmap(rest)?;
    let (must, may) = match kind {
        Type::Request => (ALL_MUST, MAY),
        Type::Advice => (ADVICE_MUST, MAY),
        Type::Reversal => (REVERSAL_MUST, REVERSAL_MAY),
    };
    let (unexpected, missing) = (bitmap & !(must | may), must & !bitmap);
    if unexpected != 0 {
        return fault(UNEXPECTED, unexpected.leading_zeros() as u8 + 1);
    }
    if missing != 0 {
        return fault(MISSING, missing.leading_zeros() as u8 + 1);
    }
    Ok((kind, repeat, bitmap))
}

/// The bitmap of elements 2 to 128.
#[inline(always)]
fn bitmap(rest: &mut Rest) -> Result<u128, Fault> {
    let first = u64::from_be_bytes(*rest.bytes(0)?);
    if first >> 63 == 0 {
        return Ok(u128::from(first) << 64);
    }
    let second = u64::from_be_bytes(*rest.bytes(0)?);
    if second == 0 {
        return fault(SECONDARY_BITMAP, 0);
    }
    Ok(u128::from(first << 1 >> 1) << 64 | u128::from(second))
}

/// Element 24, and 30 of a reversal in part: the original's amount.
#[inline(always)]
fn function(rest: &mut Rest, kind: Type, bitmap: u128) -> Result<Option<u64>, Fault> {
    let function = rest.digits::<3>(24)?;
    if !matches!(kind, Type::Reversal) {
        return Ok(None);
    }
    match (function, has(bitmap, 30)) {
        (b"400", false) => Ok(None),
        (b"400", true) => fault(UNEXPECTED, 30),
        (b"401", false) => fault(MISSING, 30),
        (b"401", true) => {
            let text = rest.digits::<24>(30)?;
            let (amount, zeros) = text.split_first_chunk().expect("24 digits");
            if zeros == b"000000000000" {
                Ok(Some(number_of(amount)))
            } else {
                fault(BAD_VALUE, 30)
            }
        }
        _ => fault(BAD_VALUE, 24),
    }
}

/// Element 56: the original's identity and kind.
#[inline(always)]
fn reversal(rest: &mut Rest, part: Option<u64>) -> Result<Asks, Fault> {
    let text = rest.varying(56, 25, 35, are_digits)?;
    let (kind, more) = text.split_first_chunk::<4>().expect("25 digits");
    let (trace, more) = more.split_first_chunk().expect("21 digits");
    let (stamp, more) = more.split_first_chunk().expect("15 digits");
    let (length, acquirer) = more.split_first_chunk().expect("3 digits");
    let kind = match kind {
        b"1100" | b"1101" => Kind::Request,
        b"1120" | b"1121" => Kind::Advice,
        _ => return fault(BAD_VALUE, 56),
    };
    if !is_stamp(stamp) || two_digits(length) != acquirer.len() {
        return fault(BAD_VALUE, 56);
    }
    Ok(Asks::Reversal { original: Key::of_identity(acquirer, trace, stamp), kind, part })
}

/// Elements 32, which is answered, and 37, if it is there.
#[inline(always)]
fn acquirer<'a>(rest: &mut Rest<'a>, has_retrieval: bool) -> Result<&'a [u8], Fault> {
    let acquirer = rest.varying(32, 1, 11, are_digits)?;
    if has_retrieval && !are_all(rest.bytes::<12>(37)?, |byte| byte.is_ascii_alphanumeric() | (byte == b' ')) {
        return fault(BAD_CHARACTER, 37);
    }
    Ok(acquirer)
}

/// Elements 2 to 12, but for 7.
struct Front<'a> {
    card: &'a [u8],
    processing: [u8; 6],
    amount: u64,
    trace: &'a [u8; 6],
    stamp: &'a [u8; 12],
}

#[inline(always)]
fn front<'a>(rest: &mut Rest<'a>) -> Result<Front<'a>, Fault> {
    let card = rest.varying(2, 12, CARD, are_digits)?;
    let processing = *rest.digits(3)?;
    let amount = number_of(rest.digits(4)?);
    rest.digits::<10>(7)?;
    let trace = rest.digits(11)?;
    let stamp = rest.digits(12)?;
    if is_stamp(stamp) {
        Ok(Front { card, processing, amount, trace, stamp })
    } else {
        fault(BAD_VALUE, 12)
    }
}

/// Elements 41 and 49, of which the currency is answered.
#[inline(always)]
fn currency(rest: &mut Rest) -> Result<[u8; 3], Fault> {
    if !are_printable(rest.bytes::<8>(41)?) {
        return fault(BAD_CHARACTER, 41);
    }
    Ok(*rest.digits(49)?)
}

/// A body as a message, or its first fault.
pub fn decode(body: &[u8]) -> Result<Message<'_>, Fault> {
    let mut rest = Rest(body);
    let (kind, repeat, bitmap) = header(&mut rest)?;
    let (at_front, front) = (rest.0, front(&mut rest)?);
    let front_text = rest.read_of(at_front);
    let part = function(&mut rest, kind, bitmap)?;
    let (at_acquirer, has_retrieval) = (rest.0, has(bitmap, 37));
    let acquirer = acquirer(&mut rest, has_retrieval)?;
    let acquirer_text = rest.read_of(at_acquirer);
    let approved = matches!(kind, Type::Advice) && rest.digits(39)? == b"000";
    let (at_terminal, currency) = (rest.0, currency(&mut rest)?);
    let terminal = rest.read_of(at_terminal);
    let asks = match kind {
        Type::Request => Asks::Request,
        Type::Advice => Asks::Advice { approved },
        Type::Reversal => reversal(&mut rest, part)?,
    };
    let at_account = rest.0;
    let account = if has(bitmap, 102) { Some(rest.varying(102, 1, 28, are_printable)?) } else { None };
    if !rest.0.is_empty() {
        return fault(TRAILING, 0);
    }
    Ok(Message {
        asks,
        repeat,
        card: Key::of_card(front.card),
        processing: front.processing,
        amount: front.amount,
        identity: Key::of_identity(acquirer, front.trace, front.stamp),
        currency,
        account,
        echo: Echo { front: front_text, acquirer: acquirer_text, has_retrieval, terminal, account: at_account },
    })
}
