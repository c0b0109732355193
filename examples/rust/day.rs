//! Works a day: reads call lines from standard input to its end and writes the answers to standard output.
//! Says a read or write that fails on standard error, and ends with status 1.
//!
//!     (cd crates/yeldozhym && rt lib)
//!     rustc --edition 2021 -O -L native=crates/yeldozhym/out -o day examples/rust/day.rs

// Without Rust's start code: it opens /dev/null in the place of a standard stream that is closed, so that the day would be empty, or its
// answers go nowhere. It ignores SIGPIPE too; here, as in C, a reader that leaves ends the program.
#![no_main]

use std::fs::File;
use std::io::{self, Read, Write};
use std::os::fd::AsFd;

mod yeldozhym;

/// A standard stream as a file: of one that is closed, `Stdin` tells its end and `Stdout` success.
fn file(stream: impl AsFd) -> io::Result<File> {
    Ok(File::from(stream.as_fd().try_clone_to_owned()?))
}

fn read_all() -> io::Result<Vec<u8>> {
    let mut input = Vec::new();
    file(io::stdin())?.read_to_end(&mut input)?;
    Ok(input)
}

fn failed(what: &str, error: io::Error) -> i32 {
    // a message that cannot be written changes nothing
    let _ = writeln!(io::stderr(), "day: {what}: {error}");
    1
}

#[no_mangle]
pub extern "C" fn main() -> i32 {
    let input = match read_all() {
        Ok(input) => input,
        Err(error) => return failed("cannot read", error),
    };
    match file(io::stdout()).and_then(|mut output| output.write_all(&yeldozhym::day(&input))) {
        Ok(()) => 0,
        Err(error) => failed("cannot write", error),
    }
}
