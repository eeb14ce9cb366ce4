//! The bodies of a reply file.

use crate::message::{bitmap_of, Asks, Fault, Message, Reply};

const ALL: u128 = bitmap_of(&[2, 3, 4, 7, 11, 12, 32, 39, 41, 49]);
const RETRIEVAL: u128 = bitmap_of(&[37]);
const APPROVAL: u128 = bitmap_of(&[38]);
const ACCOUNT: u128 = bitmap_of(&[1, 102]);

/// A number as so many digits.
#[inline]
pub fn fixed_digits<const N: usize>(mut number: u64) -> [u8; N] {
    let mut digits = [0; N];
    for digit in digits.iter_mut().rev() {
        *digit = b'0' + (number % 10) as u8;
        number /= 10;
    }
    digits
}

/// A fault as a body of a reply file.
pub fn encode_fault(fault: Fault, replies: &mut Vec<u8>) {
    replies.extend_from_slice(&[0, 6, b'F']);
    replies.extend_from_slice(&fixed_digits::<2>(fault.number.into()));
    replies.extend_from_slice(&fixed_digits::<3>(fault.element.into()));
}

/// A reply as a body of a reply file: `R`, type, bitmap and elements, of which most are the message's.
pub fn encode(message: &Message, reply: &Reply, replies: &mut Vec<u8>) {
    let (kind, echo) = (kind_of(&message.asks), &message.echo);
    let mut bitmap = ALL;
    if echo.has_retrieval {
        bitmap |= RETRIEVAL;
    }
    if reply.approval.is_some() {
        bitmap |= APPROVAL;
    }
    if message.account.is_some() {
        bitmap |= ACCOUNT;
    }
    let at = replies.len();
    replies.extend_from_slice(&[0, 0, b'R']);
    replies.extend_from_slice(kind);
    let bytes = bitmap.to_be_bytes();
    replies.extend_from_slice(if message.account.is_some() { &bytes } else { &bytes[..8] });
    replies.extend_from_slice(echo.front);
    replies.extend_from_slice(echo.acquirer);
    if let Some(approval) = &reply.approval {
        replies.extend_from_slice(approval);
    }
    replies.extend_from_slice(&fixed_digits::<3>(reply.action.into()));
    replies.extend_from_slice(echo.terminal);
    replies.extend_from_slice(echo.account);
    let length = (replies.len() - at - 2) as u16;
    replies[at..at + 2].copy_from_slice(&length.to_be_bytes());
}

/// The type of a reply.
fn kind_of(asks: &Asks) -> &'static [u8; 4] {
    match asks {
        Asks::Request => b"1110",
        Asks::Advice { .. } => b"1130",
        Asks::Reversal { .. } => b"1430",
    }
}
