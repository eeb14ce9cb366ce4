//! A client of a live host, and how long it waits for its replies.
//!
//!     latency PROGRAM BOOK LOG FRAMES OUTSTANDING SYNCED
//!
//! It starts `PROGRAM serve BOOK LOG`, sends the frames of the file FRAMES (two bytes of length, then the body) through a pipe, each in a
//! write of its own, with at most OUTSTANDING of them unanswered, and prints in microseconds the median and the 99th percentile of the
//! times from before the write to behind the reply. Then it writes as many bytes as an entry of that log had to the file SYNCED and syncs
//! them, 2,000 times, and prints the median and the 99th percentile of that, too: entries, bytes of one, then the four times. Where the
//! environment has PRELOAD, the host is started with that library (LD_PRELOAD).

use std::env;
use std::fs::{self, File};
use std::io::{self, BufReader, Read, Write};
use std::process::{ChildStdin, ChildStdout, Command, Stdio};
use std::sync::mpsc::{self, Receiver, Sender, SyncSender};
use std::thread;
use std::time::{Duration, Instant};

const HEAD_OF_LOG: usize = 38;
const DIGEST: usize = 32;
const SYNCS: usize = 2000;

fn main() -> io::Result<()> {
    let words: Vec<String> = env::args().collect();
    let [_, program, book, log, frames, outstanding, synced] = words.as_slice() else {
        eprintln!("latency PROGRAM BOOK LOG FRAMES OUTSTANDING SYNCED");
        std::process::exit(2);
    };
    let frames = frames_of(&fs::read(frames)?);
    let outstanding: usize = outstanding.parse().map_err(io::Error::other)?;
    let mut command = Command::new(program);
    command.args(["serve", book, log]).stdin(Stdio::piped()).stdout(Stdio::piped());
    if let Some(library) = env::var_os("PRELOAD") {
        command.env("LD_PRELOAD", library);
    }
    let mut host = command.spawn()?;
    let (input, output) = (host.stdin.take(), host.stdout.take());
    let (Some(input), Some(output)) = (input, output) else {
        return Err(io::Error::other("the host has no pipes"));
    };
    let waits = waits(input, output, &frames, outstanding)?;
    if !host.wait()?.success() {
        return Err(io::Error::other("the host ended with a fault"));
    }
    let log = fs::read(log)?;
    let entries = entries_of(&log);
    let size = (log.len() - HEAD_OF_LOG) / entries.max(1);
    let syncs = syncs(synced, size)?;
    println!("{entries} {size} {} {} {} {}", part(&waits, 50), part(&waits, 99), part(&syncs, 50), part(&syncs, 99));
    Ok(())
}

/// The frames that stand one behind the other, each with its length before it.
fn frames_of(bytes: &[u8]) -> Vec<Vec<u8>> {
    let mut frames = Vec::new();
    let mut left = bytes;
    while let [high, low, rest @ ..] = left {
        let length = usize::from(u16::from_be_bytes([*high, *low]));
        frames.push(left[..2 + length].to_vec());
        left = &rest[length..];
    }
    frames
}

/// How long each frame waited for its reply, in their order.
fn waits(input: ChildStdin, output: ChildStdout, frames: &[Vec<u8>], outstanding: usize) -> io::Result<Vec<Duration>> {
    // A frame has a place here until it is answered, so that the sender waits where there is none.
    let (place, places) = mpsc::sync_channel(outstanding);
    let (begun, waiting) = mpsc::channel();
    thread::scope(|scope| {
        let sender = scope.spawn(|| send(input, frames, place, begun));
        let waits = receive(output, frames.len(), places, waiting);
        match sender.join() {
            Ok(result) => result?,
            Err(_) => return Err(io::Error::other("the sender has panicked")),
        }
        waits
    })
}

fn send(mut input: ChildStdin, frames: &[Vec<u8>], place: SyncSender<()>, begun: Sender<Instant>) -> io::Result<()> {
    for frame in frames {
        if place.send(()).is_err() || begun.send(Instant::now()).is_err() {
            return Ok(());
        }
        input.write_all(frame)?;
    }
    Ok(())
}

fn receive(output: ChildStdout, count: usize, places: Receiver<()>, waiting: Receiver<Instant>) -> io::Result<Vec<Duration>> {
    let mut output = BufReader::with_capacity(1 << 16, output);
    let mut reply = Vec::new();
    let mut waits = Vec::with_capacity(count);
    for _ in 0..count {
        let mut head = [0; 2];
        output.read_exact(&mut head)?;
        reply.resize(usize::from(u16::from_be_bytes(head)), 0);
        output.read_exact(&mut reply)?;
        let begun = waiting.recv().map_err(io::Error::other)?;
        waits.push(begun.elapsed());
        places.recv().map_err(io::Error::other)?;
    }
    Ok(waits)
}

/// How many entries a log has: a length and its complement, the payload, a digest.
fn entries_of(log: &[u8]) -> usize {
    let mut left = log.get(HEAD_OF_LOG..).unwrap_or(&[]);
    let mut count = 0;
    while let [a, b, c, d, ..] = left {
        let length = u32::from_be_bytes([*a, *b, *c, *d]) as usize;
        left = left.get(8 + length + DIGEST..).unwrap_or(&[]);
        count += 1;
    }
    count
}

/// How long it takes to append so many bytes to a file and to sync them.
fn syncs(name: &str, size: usize) -> io::Result<Vec<Duration>> {
    let bytes = vec![b'x'; size];
    let mut file = File::create(name)?;
    let mut syncs = Vec::with_capacity(SYNCS);
    for _ in 0..SYNCS {
        let begun = Instant::now();
        file.write_all(&bytes)?;
        file.sync_data()?;
        syncs.push(begun.elapsed());
    }
    Ok(syncs)
}

/// The time below which so many hundredths of these are, in microseconds.
fn part(times: &[Duration], hundredths: usize) -> u128 {
    let mut sorted = times.to_vec();
    sorted.sort();
    sorted.get(sorted.len() * hundredths / 100).map_or(0, Duration::as_micros)
}
