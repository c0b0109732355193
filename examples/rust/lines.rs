//! Writes call lines: reads rows from standard input, each the kind and the fields of a call as numbers parted by blanks, and writes the line
//! of each call to standard output. Says on standard error which rows are no calls, and a read or write that fails; then the status is 1.
//!
//!     (cd crates/yeldozhym && rt lib)
//!     rustc --edition 2021 -O -L native=crates/yeldozhym/out -o lines examples/rust/lines.rs

// Without Rust's start code, which hides that a standard stream is closed and that a reader leaves; see day.rs.
#![no_main]

use std::fs::File;
use std::io::{self, BufReader, BufWriter, Read, Write};
use std::os::fd::AsFd;

mod yeldozhym;

/// No call has more, since each takes a digit of its line and a comma or byte 10.
const MOST_NUMBERS: usize = yeldozhym::LONGEST_CALL / 2;

/// A standard stream as a file: of one that is closed, `Stdin` tells its end and `Stdout` success.
fn file(stream: impl AsFd) -> io::Result<File> {
    Ok(File::from(stream.as_fd().try_clone_to_owned()?))
}

/// The numbers of a row with one more byte, or nothing where this makes it something else than numbers.
fn with_byte(mut numbers: Vec<u32>, before: u8, byte: u8) -> Option<Vec<u32>> {
    if byte == b' ' || byte == b'\t' {
        return Some(numbers);
    }
    let digit = char::from(byte).to_digit(10)?;
    if !before.is_ascii_digit() {
        numbers.push(0);
    }
    let number = numbers.last_mut()?;
    *number = number.checked_mul(10)?.checked_add(digit)?;
    (numbers.len() <= MOST_NUMBERS).then_some(numbers)
}

/// Reads a row: its numbers, none where it is something else. Nothing at the end of the input.
fn read_row(input: &mut impl Iterator<Item = io::Result<u8>>) -> io::Result<Option<Vec<u32>>> {
    let Some(first) = input.next() else {
        return Ok(None);
    };
    let mut numbers = Some(Vec::new());
    let (mut before, mut byte) = (b' ', first?);
    while byte != b'\n' {
        numbers = numbers.and_then(|numbers| with_byte(numbers, before, byte));
        before = byte;
        byte = input.next().unwrap_or(Ok(b'\n'))?;
    }
    Ok(Some(numbers.unwrap_or_default()))
}

/// Tells whether all rows are calls.
fn write_lines() -> Result<bool, String> {
    let unread = |error| format!("cannot read: {error}");
    let unwritten = |error| format!("cannot write: {error}");
    let mut input = BufReader::new(file(io::stdin()).map_err(unread)?).bytes();
    let mut output = BufWriter::new(file(io::stdout()).map_err(unwritten)?);
    let mut line = [0; yeldozhym::LONGEST_CALL];
    let mut all = true;
    let mut row: u64 = 0;
    while let Some(numbers) = read_row(&mut input).map_err(unread)? {
        row += 1;
        let put = match numbers.split_first() {
            Some((&kind, fields)) => yeldozhym::put_line(kind, fields, &mut line, 0),
            None => yeldozhym::Put {
                code: 20,
                length: 0,
            },
        };
        // there is room for any line, so it is not 21
        if put.code == 20 {
            say(&format!("row {row} is no call"));
            all = false;
        }
        output.write_all(&line[..put.length]).map_err(unwritten)?;
    }
    output.flush().map_err(unwritten)?;
    Ok(all)
}

fn say(what: &str) {
    // a message that cannot be written changes nothing
    let _ = writeln!(io::stderr(), "lines: {what}");
}

#[no_mangle]
pub extern "C" fn main() -> i32 {
    match write_lines() {
        Ok(all) => i32::from(!all),
        Err(error) => {
            say(&error);
            1
        }
    }
}
