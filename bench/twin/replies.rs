//! Replies, and their lines.

use crate::words::Label;
use std::io::{self, Write};

#[derive(Clone, Copy)]
pub enum Reply {
    Done,
    Int(i64),
    Block(Label),
    BadType,
    BadIndex,
    Empty,
    Yes,
    No,
    Full,
    Live { blocks: u64, words: u64 },
    Fin { number: u32, label: Label },
    Last { number: u32 },
}

fn put_number(out: &mut impl Write, mut number: u64) -> io::Result<()> {
    let mut digits = [0; 20];
    let mut from = digits.len();
    loop {
        from -= 1;
        digits[from] = b'0' + (number % 10) as u8;
        number /= 10;
        if number == 0 {
            return out.write_all(&digits[from..]);
        }
    }
}

/// Writes a line of a word, a number, a mark and another number.
fn put_pair(out: &mut impl Write, word: &[u8], a: u64, mark: &[u8], b: u64) -> io::Result<()> {
    out.write_all(word)?;
    put_number(out, a)?;
    out.write_all(mark)?;
    put_number(out, b)?;
    out.write_all(b"\n")
}

fn put_one(out: &mut impl Write, word: &[u8], number: u64) -> io::Result<()> {
    out.write_all(word)?;
    put_number(out, number)?;
    out.write_all(b"\n")
}

fn put_label(out: &mut impl Write, word: &[u8], label: Label) -> io::Result<()> {
    put_pair(out, word, label.domain.into(), b":", label.serial.into())
}

fn put(out: &mut impl Write, reply: Reply) -> io::Result<()> {
    match reply {
        Reply::Done => out.write_all(b"ok\n"),
        Reply::Int(v) if v < 0 => put_one(out, b"int -", v.unsigned_abs()),
        Reply::Int(v) => put_one(out, b"int ", v.unsigned_abs()),
        Reply::Block(label) => put_label(out, b"blk ", label),
        Reply::BadType => out.write_all(b"type\n"),
        Reply::BadIndex => out.write_all(b"bounds\n"),
        Reply::Empty => out.write_all(b"none\n"),
        Reply::Yes => out.write_all(b"yes\n"),
        Reply::No => out.write_all(b"no\n"),
        Reply::Full => out.write_all(b"full\n"),
        Reply::Live { blocks, words } => put_pair(out, b"live ", blocks, b" ", words),
        Reply::Fin { number, label } => {
            out.write_all(b"fin ")?;
            put_number(out, number.into())?;
            put_label(out, b" ", label)
        }
        Reply::Last { number } => put_one(out, b"last ", number.into()),
    }
}

/// Writes the section of a domain.
pub fn print(out: &mut impl Write, domain: usize, replies: &[Reply]) -> io::Result<()> {
    put_one(out, b"domain ", domain as u64)?;
    for reply in replies {
        put(out, *reply)?;
    }
    Ok(())
}
