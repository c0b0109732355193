//! The test of tests/call_line.c from Rust, for tests/library: reads cases from standard input, as second/src/bin/calls.rs has them, and has each line written
//! into a buffer, with and without its code. The length told and every byte of the buffer must be those of the case, and the code the one that is due. Prints
//! how many cases there were.

use std::io::{self, BufRead};
use std::process::exit;
use std::str::FromStr;

#[path = "../examples/rust/yeldozhym.rs"]
mod yeldozhym;

/// The next number of a case.
fn number<T: FromStr>(words: &mut dyn Iterator<Item = &str>) -> Option<T> {
    words.next()?.parse().ok()
}

/// The bytes that the last word of a case stands for, `-` for none.
fn bytes(word: &str) -> Option<Vec<u8>> {
    if word == "-" {
        return Some(Vec::new());
    }
    let byte = |at| u8::from_str_radix(word.get(at..at + 2)?, 16).ok();
    (0..word.len()).step_by(2).map(byte).collect()
}

/// The code due: 20 where no kind has this number with so many fields, else 21 where nothing is written.
fn code_due(kind: u32, count: usize, length: usize) -> u32 {
    let is_call = matches!(
        (kind, count),
        (6 | 10, 1) | (4 | 7 | 9 | 11, 2) | (1 | 2, 3) | (5, 5) | (3 | 8, 6)
    );
    match (is_call, length) {
        (false, _) => 20,
        (true, 0) => 21,
        (true, _) => 0,
    }
}

/// Whether the case is held. Nothing where it is no case.
fn held(case: &str) -> Option<bool> {
    let words = &mut case.split(' ');
    let kind = number(words)?;
    let count = number(words)?;
    let fields: Option<Vec<u32>> = (0..count).map(|_: usize| number(words)).collect();
    let size: usize = number(words)?;
    let place = number(words)?;
    let length: usize = number(words)?;
    let expected = bytes(words.next()?)?;
    let fields = fields?;
    let code = code_due(kind, fields.len(), length);
    let before: Vec<u8> = (0..size).map(|i| (7 * i + 35) as u8).collect();
    let (mut out, mut put) = (before.clone(), before);
    let told = yeldozhym::write_line(kind, &fields, &mut out, place);
    let told_put = yeldozhym::put_line(kind, &fields, &mut put, place);
    let held = told == length
        && told_put == yeldozhym::Put { code, length }
        && out == expected
        && put == expected;
    (words.next().is_none() && expected.len() == size).then_some(held)
}

fn main() {
    let mut cases: u64 = 0;
    for line in io::stdin().lock().lines() {
        let what = match line.as_deref().map(held) {
            Ok(Some(true)) => {
                cases += 1;
                continue;
            }
            Ok(Some(false)) => "another code or length is told, or the bytes are others",
            Ok(None) => "this is no case",
            Err(_) => "cannot read",
        };
        eprintln!("call_line: case {}: {what}", cases + 1);
        exit(1);
    }
    println!("{cases}");
}
