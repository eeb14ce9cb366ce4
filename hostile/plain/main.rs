//! A plain program of the rules of `switch serial`, to stand beside it: hostile/bench says how they are compared.
//!
//! `plain serial BOOK BATCH REPLIES NEWBOOK [--map hash|btree]` decides a batch on a book of version 3, in the form in which
//! `switch` writes one, and writes what `switch serial` does. Rows stand in lists, where a hash table or a B-tree finds them
//! by their keys; accounts, which no message adds, are known by their places. Nothing is proved of it, and want of memory
//! ends it. `plain make .. BOOK BATCH` makes ordinary traffic.

mod batch;
mod decode;
mod encode;
mod index;
mod keys;
mod make;
mod message;
mod read_book;
mod rows;
mod rules;
mod write_book;

use crate::batch::Bodies;
use crate::index::Index;
use crate::keys::Key;
use crate::rows::{Book, Places};
use std::collections::BTreeMap;
use std::fs::{self, File};
use std::io::{self, Write};
use std::process::ExitCode;

/// How many bytes are written at once.
const PIECE: usize = 1 << 18;

/// How many messages are decoded before they are decided.
const AT_ONCE: usize = 32;

const USAGE: &str = "plain serial BOOK BATCH REPLIES NEWBOOK [--map hash|btree]
plain make [--messages N] [--cards N] [--seed N] [--stand-in P] [--bad P] [--ahead P] [--named P] [--odd P] BOOK BATCH";

/// What ends a command: its fault, and with which status.
pub struct Fault {
    text: String,
    status: u8,
}

impl Fault {
    pub fn new(text: String) -> Fault {
        Fault { text, status: 1 }
    }

    fn of(name: &str, fault: io::Error) -> Fault {
        Fault::new(format!("{name}: {fault}"))
    }

    pub fn usage() -> Fault {
        Fault { text: USAGE.to_string(), status: 2 }
    }
}

fn main() -> ExitCode {
    let words: Vec<String> = std::env::args().skip(1).collect();
    let words: Vec<&str> = words.iter().map(String::as_str).collect();
    let done = match words[..] {
        ["serial", book, batch, replies, new_book] | ["serial", book, batch, replies, new_book, "--map", "hash"] => {
            serial::<Index>(book, batch, replies, new_book)
        }
        ["serial", book, batch, replies, new_book, "--map", "btree"] => {
            serial::<BTreeMap<Key, u32>>(book, batch, replies, new_book)
        }
        ["make", ref words @ ..] => make::make(words),
        _ => Err(Fault::usage()),
    };
    match done {
        Ok(()) => ExitCode::SUCCESS,
        Err(fault) => {
            eprintln!("{}", fault.text);
            ExitCode::from(fault.status)
        }
    }
}

fn read(name: &str) -> Result<Vec<u8>, Fault> {
    fs::read(name).map_err(|fault| Fault::of(name, fault))
}

/// Writes a book into a file of this name.
pub fn write_book<P: Places>(name: &str, book: &Book<P>) -> Result<(), Fault> {
    let file = File::create(name).and_then(|file| write_book::write_book(book, file));
    file.map_err(|fault| Fault::of(name, fault))
}

/// Writes bytes into a file of this name.
pub fn write(name: &str, bytes: &[u8]) -> Result<(), Fault> {
    fs::write(name, bytes).map_err(|fault| Fault::of(name, fault))
}

/// Decides a batch on a book. Where BATCH is no batch, REPLIES has a beginning of the replies.
fn serial<P: Places>(book_name: &str, batch_name: &str, replies_name: &str, new_book_name: &str) -> Result<(), Fault> {
    let mut book: Book<P> = read_book::read_book(&read(book_name)?)
        .ok_or_else(|| Fault::new(format!("{book_name}: no book of version 3 as it is written, or a wrong one")))?;
    let batch = read(batch_name)?;
    let bodies = batch::bodies_of(&batch).ok_or_else(|| Fault::new(format!("{batch_name}: no batch")))?;
    let count = bodies.left();
    let decided = File::create(replies_name).and_then(|file| decide(&mut book, bodies, file));
    let decided = decided.map_err(|fault| Fault::of(replies_name, fault))?;
    let unreadable = decided.ok_or_else(|| Fault::new(format!("{batch_name}: no batch")))?;
    write_book(new_book_name, &book)?;
    println!("decided {count}, {unreadable} unreadable");
    Ok(())
}

/// Decides bodies, and writes a reply file; then how many are no message, or nothing where they end too early or too late. Some
/// are decoded before they are decided, so that the processor waits for the rows of several at once.
fn decide<P: Places>(book: &mut Book<P>, mut bodies: Bodies, mut file: File) -> io::Result<Option<usize>> {
    book.seen.reserve(bodies.left());
    let mut replies = Vec::with_capacity(2 * PIECE);
    replies.extend_from_slice(&batch::header(b"I83R", bodies.left()));
    let (mut messages, mut answers) = (Vec::with_capacity(AT_ONCE), Vec::with_capacity(AT_ONCE));
    let mut unreadable = 0;
    loop {
        messages.extend(bodies.by_ref().take(AT_ONCE).map(decode::decode));
        if messages.is_empty() {
            break;
        }
        answers.extend(messages.iter().flatten().map(|message| book.decide(message)));
        let mut answers = answers.drain(..);
        for message in messages.drain(..) {
            match message {
                Ok(message) => encode::encode(&message, &answers.next().expect("each has a reply"), &mut replies),
                Err(fault) => {
                    unreadable += 1;
                    encode::encode_fault(fault, &mut replies);
                }
            }
        }
        if replies.len() >= PIECE {
            file.write_all(&replies)?;
            replies.clear();
        }
    }
    file.write_all(&replies)?;
    Ok(bodies.are_whole().then_some(unreadable))
}
