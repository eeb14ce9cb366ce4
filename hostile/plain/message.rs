//! Messages and what they are answered.

use crate::keys::Key;

/// A request or an advice.
#[derive(Clone, Copy, PartialEq, Eq)]
pub enum Kind {
    Request,
    Advice,
}

/// What a message asks for.
pub enum Asks {
    Request,
    /// An advice, and whether the acquirer approved.
    Advice {
        approved: bool,
    },
    /// A reversal of the original of this identity and kind: of all of it, or in part, where it names the original's amount.
    Reversal {
        original: Key,
        kind: Kind,
        part: Option<u64>,
    },
}

/// A message, whose texts stand in the batch.
pub struct Message<'a> {
    pub asks: Asks,
    pub repeat: bool,
    pub card: Key,
    pub processing: [u8; 6],
    pub amount: u64,
    pub identity: Key,
    pub currency: [u8; 3],
    /// Element 102.
    pub account: Option<&'a [u8]>,
    pub echo: Echo<'a>,
}

/// The bytes of a message that its reply repeats.
pub struct Echo<'a> {
    /// Elements 2 to 12.
    pub front: &'a [u8],
    /// Element 32, and 37 if it is there.
    pub acquirer: &'a [u8],
    pub has_retrieval: bool,
    /// Elements 41 and 49.
    pub terminal: &'a [u8],
    /// Element 102 with its length, or nothing.
    pub account: &'a [u8],
}

/// What a message is answered: element 39, and 38 of a request with 000.
pub struct Reply {
    pub action: u16,
    pub approval: Option<[u8; 6]>,
}

/// Why a body is no message: the number of its first fault, and the element that it is of.
#[derive(Clone, Copy, PartialEq, Eq, Debug)]
pub struct Fault {
    pub number: u8,
    pub element: u8,
}

/// A bitmap of 128 with these elements; bit 1 is the highest.
pub const fn bitmap_of(elements: &[u32]) -> u128 {
    let (mut bitmap, mut place) = (0, 0);
    while place < elements.len() {
        bitmap |= 1 << (128 - elements[place]);
        place += 1;
    }
    bitmap
}
