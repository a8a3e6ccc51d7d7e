//! The same heap as `camlheap run`, in Rust and without a proof. It is here for measuring alone: `bench/twin.sh` times the
//! proved program beside it. It reads the same scripts, has the same table of words and makes the same atomic operations in the
//! same order, so what it takes is what the proved program could take. Nothing else should use it.
//!
//! A load whose word nobody uses stands where the proved program makes that step. What differs: where the system refuses a
//! thread, or memory runs out, it ends by a panic or an abort; it takes the words of heads as they come, without a check; and it
//! sleeps by a `Condvar`, which takes a lock.

mod commands;
mod ephemerons;
mod finalisers;
mod heap;
mod major;
mod minor;
mod pools;
mod replies;
mod script;
mod threads;
mod turns;
mod words;

use heap::{Heap, Sizes};
use std::fs::File;
use std::io::{self, BufRead, BufReader, BufWriter, Write};
use std::os::fd::AsFd;
use std::process::ExitCode;

const BUFFER: usize = 65_536;
const MOST_BYTES: usize = 16_777_216;

/// The sizes that the words behind `run` give, each option at most once.
fn sizes_of(words: &[String]) -> Option<Sizes> {
    let mut given = [("--domains", None), ("--minor", None), ("--pools", None)];
    let mut words = words.iter().map(String::as_str);
    if words.next()? != "run" {
        return None;
    }
    while let Some(word) = words.next() {
        let (name, text) = match word.split_once('=') {
            Some((name, text)) => (name, text),
            None => (word, words.next()?),
        };
        let (_, number) = given.iter_mut().find(|option| option.0 == name)?;
        let found = script::natural(text.as_bytes())?;
        if number.replace(u32::try_from(found).ok()?).is_some() {
            return None;
        }
    }
    let sizes = Sizes {
        domains: given[0].1.unwrap_or(2),
        minor_words: given[1].1.unwrap_or(32_768),
        pools: given[2].1.unwrap_or(512),
    };
    sizes.are_in_range().then_some(sizes)
}

/// All bytes of the input, and no more than one beyond the most.
fn read_all(input: File) -> io::Result<Vec<u8>> {
    let mut reader = BufReader::with_capacity(BUFFER, input);
    let mut bytes = Vec::new();
    while bytes.len() <= MOST_BYTES {
        let piece = reader.fill_buf()?;
        if piece.is_empty() {
            break;
        }
        bytes.extend_from_slice(piece);
        let read = piece.len();
        reader.consume(read);
    }
    Ok(bytes)
}

fn fails(status: u8, message: &str) -> ExitCode {
    eprintln!("{message}");
    ExitCode::from(status)
}

fn main() -> ExitCode {
    let words: Vec<String> = std::env::args().skip(1).collect();
    let Some(sizes) = sizes_of(&words) else {
        return fails(1, "usage: twin run [--domains N] [--minor W] [--pools P]");
    };
    let input = io::stdin().as_fd().try_clone_to_owned();
    let Ok(bytes) = input.and_then(|fd| read_all(File::from(fd))) else {
        return fails(3, "read fault");
    };
    if bytes.len() > MOST_BYTES {
        return fails(2, "script: more than 16777216 bytes");
    }
    let sections = match script::read(&bytes, sizes.domains) {
        Ok(sections) => sections,
        Err(fault) => return fails(2, &fault),
    };
    drop(bytes);
    let heap = Heap::new(sizes);
    let runs = threads::drive(&heap, sections);
    let written = io::stdout().as_fd().try_clone_to_owned().and_then(|fd| {
        let mut out = BufWriter::with_capacity(BUFFER, File::from(fd));
        for (domain, run) in runs.iter().enumerate() {
            replies::print(&mut out, domain, &run.replies)?;
        }
        out.flush()
    });
    match written {
        Ok(()) => ExitCode::SUCCESS,
        Err(_) => fails(4, "write fault"),
    }
}
