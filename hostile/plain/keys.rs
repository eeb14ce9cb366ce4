//! What names a row, as a number whose order is that of the texts.

use crate::index::hash_of;
use std::cmp::Ordering;
use std::num::NonZeroU64;

/// The digits of a card number.
pub const CARD: usize = 19;
/// The digits of an acquirer.
pub const ACQUIRER: usize = 11;
/// All places.
pub const DIGITS: usize = 32;
/// What stands where a text has no digit more: the byte before `0`.
const NONE: u8 = b'/';

/// Up to 32 digits, four bits each, from the highest on: one more than the digit, or 0 where there is none.
///
/// A card number has 19 places, and its day six more; an identity has eleven for the acquirer, six for the trace number and
/// twelve for the local date and time; a prefix has six.
#[derive(Clone, Copy, PartialEq, Eq)]
pub struct Key {
    high: NonZeroU64,
    low: u64,
}

impl Ord for Key {
    #[inline]
    fn cmp(&self, other: &Key) -> Ordering {
        self.all().cmp(&other.all())
    }
}

impl PartialOrd for Key {
    #[inline]
    fn partial_cmp(&self, other: &Key) -> Option<Ordering> {
        Some(self.cmp(other))
    }
}

/// Eight digits.
#[inline(always)]
fn packed_8(text: &[u8; 8]) -> u64 {
    let x = u64::from_be_bytes(*text) - 0x2f2f_2f2f_2f2f_2f2f;
    let x = (x | x >> 4) & 0x00ff_00ff_00ff_00ff;
    let x = (x | x >> 8) & 0x0000_ffff_0000_ffff;
    (x | x >> 16) & 0xffff_ffff
}

/// At most 16 digits.
#[inline(always)]
fn packed(text: &[u8]) -> u64 {
    let (chunks, rest) = text.as_chunks();
    let front = chunks.iter().fold(0, |all, chunk| all << 32 | packed_8(chunk));
    rest.iter().fold(front, |all, digit| all << 4 | u64::from(digit - NONE))
}

/// Four bits each as eight bytes.
#[inline(always)]
fn unpacked(digits: u32) -> [u8; 8] {
    let x = u64::from(digits);
    let x = (x | x << 16) & 0x0000_ffff_0000_ffff;
    let x = (x | x << 8) & 0x00ff_00ff_00ff_00ff;
    let x = (x | x << 4) & 0x0f0f_0f0f_0f0f_0f0f;
    (x + 0x2f2f_2f2f_2f2f_2f2f).to_be_bytes()
}

impl Key {
    /// The high and the low 16 places.
    #[inline(always)]
    fn new(high: u64, low: u64) -> Key {
        Key { high: NonZeroU64::new(high).expect("a text has a digit"), low }
    }

    #[inline(always)]
    fn all(self) -> u128 {
        u128::from(self.high.get()) << 64 | u128::from(self.low)
    }

    /// A card number, or a prefix of one.
    #[inline(always)]
    pub fn of_card(text: &[u8]) -> Key {
        let (high, low) = text.split_at(text.len().min(16));
        Key::new(packed(high) << (4 * (16 - high.len())), packed(low) << 4 << (4 * (15 - low.len())))
    }

    /// An identity: acquirer, trace number, local date and time.
    #[inline(always)]
    pub fn of_identity(acquirer: &[u8], trace: &[u8; 6], stamp: &[u8; 12]) -> Key {
        let acquirer = packed(acquirer) << (4 * (16 - acquirer.len()));
        let trace = packed(trace);
        Key::new(acquirer | trace >> 4, trace << 60 | packed(stamp) << 12)
    }

    /// A card's day: the day of an identity.
    #[inline]
    pub fn with_day_of(self, identity: Key) -> Key {
        let day = identity.low >> (4 * (DIGITS - ACQUIRER - 12)) & 0xff_ffff;
        Key { low: self.low | day << (4 * (DIGITS - CARD - 6)), ..self }
    }

    /// A card's day, in six digits.
    pub fn with_day(self, day: &[u8; 6]) -> Key {
        Key { low: self.low | packed(day) << (4 * (DIGITS - CARD - 6)), ..self }
    }

    /// The month of an identity's date, as `month_of` has one.
    #[inline]
    pub fn month(self) -> u16 {
        (self.low >> (4 * (DIGITS - ACQUIRER - 10))) as u16
    }

    /// The prefix of a card number.
    #[inline]
    pub fn prefix(self) -> Key {
        Key::new(self.high.get() >> 40 << 40, 0)
    }

    #[inline]
    pub fn hash(self) -> u64 {
        hash_of([self.high.get(), self.low])
    }

    /// How many of the first places have a digit, where all digits stand before those that have none.
    #[inline]
    pub fn digits_in(self, first: usize) -> usize {
        first - (self.all() >> (4 * (DIGITS - first))).trailing_zeros() as usize / 4
    }

    /// The key's 32 places, of which those without a digit hold another byte.
    #[inline]
    pub fn places(self) -> [u8; DIGITS] {
        let mut places = [NONE; DIGITS];
        let (chunks, _) = places.as_chunks_mut::<8>();
        for (place, chunk) in chunks.iter_mut().enumerate() {
            *chunk = unpacked((self.all() >> (96 - 32 * place)) as u32);
        }
        places
    }
}

/// A month in four digits; the later one is the greater number.
pub fn month_of(text: &[u8; 4]) -> u16 {
    text.iter().fold(0, |month, digit| month << 4 | u16::from(digit - NONE))
}

/// A month's four digits.
pub fn month_text(month: u16) -> [u8; 4] {
    std::array::from_fn(|place| (month >> (12 - 4 * place) & 15) as u8 + NONE)
}

/// The Luhn test: from the right, every second digit counts twice, less 9 where that has two digits.
pub fn passes_luhn(text: &[u8]) -> bool {
    let value = |(place, digit): (usize, &u8)| {
        let value = u32::from(digit - b'0') << (place % 2);
        if value > 9 {
            value - 9
        } else {
            value
        }
    };
    text.iter().rev().enumerate().map(value).sum::<u32>() % 10 == 0
}
