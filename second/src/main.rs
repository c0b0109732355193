//! The day program: reads call lines from standard input and prints a header
//! and one answer line for each of them. Memory stays the same for any input;
//! lines may arrive in pieces of any size. An input or output error is told
//! on standard error and ends the program with exit code 1.

use second::lines::{LINE_MOST, NO_ROOM};
use second::{answer_line, next_line, read_call, Call, Exchange, HEADER};
use std::fs::File;
use std::io::{self, ErrorKind, Read, Write};
use std::os::fd::AsFd;
use std::process::ExitCode;

const IN_ROOM: usize = 256 * 1024;
const OUT_ROOM: usize = 256 * 1024;

/// The last line that is answered.
const LAST_NUMBER: u64 = 4_294_967_295;

/// What was being done when an error came up, and the error.
type Fault = (&'static str, io::Error);

/// The exchange with the number of the next line and the answers not yet
/// written out.
struct Day<W: Write> {
    exchange: Exchange,
    number: u64,
    output: W,
    out: Vec<u8>,
    filled: usize,
}

impl<W: Write> Day<W> {
    fn new(output: W, first_number: u64) -> Day<W> {
        let mut out = vec![0; OUT_ROOM];
        out[..HEADER.len()].copy_from_slice(HEADER);
        Day { exchange: Exchange::new(), number: first_number, output, out, filled: HEADER.len() }
    }

    /// Writes out the answers so far.
    fn flush(&mut self) -> Result<(), Fault> {
        if self.filled > 0 {
            self.output.write_all(&self.out[..self.filled]).map_err(|error| ("write", error))?;
            self.filled = 0;
            self.output.flush().map_err(|error| ("write", error))?;
        }
        Ok(())
    }

    /// Answers one line.
    #[inline]
    fn answer(&mut self, call: Option<Call>) -> Result<(), Fault> {
        loop {
            let room = &mut self.out[self.filled..];
            let (code, len) = answer_line(&mut self.exchange, self.number as u32, call, room);
            if code != NO_ROOM {
                self.filled += len;
                self.number += 1;
                return Ok(());
            }
            self.flush()?;
        }
    }

    fn done(&self) -> bool {
        self.number > LAST_NUMBER
    }
}

/// Works the whole input; the first line has the given number.
fn run(mut input: impl Read, output: impl Write, first_number: u64) -> Result<(), Fault> {
    let mut day = Day::new(output, first_number);
    let mut buffer = vec![0; IN_ROOM];
    // Bytes of an unfinished line at the buffer's start.
    let mut kept = 0;
    // The unfinished line is already too long; its bytes aren't kept.
    let mut long = false;
    loop {
        day.flush()?;
        let count = match input.read(&mut buffer[kept..]) {
            Ok(0) => break,
            Ok(count) => count,
            Err(error) if error.kind() == ErrorKind::Interrupted => continue,
            Err(error) => return Err(("read", error)),
        };
        let bytes = &buffer[..kept + count];
        let mut at = 0;
        if long {
            match bytes.iter().position(|&byte| byte == b'\n') {
                Some(end) => {
                    at = end + 1;
                    long = false;
                    day.answer(None)?;
                }
                None => continue,
            }
        }
        while !day.done() {
            let Some((used, call)) = next_line(&bytes[at..]) else {
                break;
            };
            at += used;
            day.answer(call)?;
        }
        if day.done() {
            return day.flush();
        }
        let end = bytes.len();
        kept = end - at;
        if kept > LINE_MOST {
            long = true;
            kept = 0;
        } else {
            buffer.copy_within(at..end, 0);
        }
    }
    if long {
        day.answer(None)?;
    } else if kept > 0 {
        day.answer(read_call(&buffer[..kept]))?;
    }
    day.flush()
}

/// Standard input and output as plain files, without further buffers.
fn day() -> Result<(), Fault> {
    let input = io::stdin().as_fd().try_clone_to_owned().map_err(|error| ("read", error))?;
    let output = io::stdout().as_fd().try_clone_to_owned().map_err(|error| ("write", error))?;
    run(File::from(input), File::from(output), 1)
}

fn main() -> ExitCode {
    match day() {
        Ok(()) => ExitCode::SUCCESS,
        Err((doing, error)) => {
            // Nothing is left to do where standard error fails too.
            let _ = writeln!(io::stderr(), "cannot {doing}: {error}");
            ExitCode::FAILURE
        }
    }
}

#[cfg(test)]
mod tests {
    use super::*;

    /// Gives its bytes in pieces of a fixed size, with interruptions.
    struct Pieces<'a> {
        bytes: &'a [u8],
        size: usize,
        interrupt: bool,
    }

    impl Read for Pieces<'_> {
        fn read(&mut self, room: &mut [u8]) -> io::Result<usize> {
            self.interrupt = !self.interrupt;
            if self.interrupt {
                return Err(ErrorKind::Interrupted.into());
            }
            let count = self.size.min(room.len()).min(self.bytes.len());
            room[..count].copy_from_slice(&self.bytes[..count]);
            self.bytes = &self.bytes[count..];
            Ok(count)
        }
    }

    fn work_from(input: &[u8], size: usize, first_number: u64) -> String {
        let mut output = Vec::new();
        let pieces = Pieces { bytes: input, size, interrupt: false };
        run(pieces, &mut output, first_number).unwrap();
        String::from_utf8(output).unwrap()
    }

    fn work(input: &[u8]) -> String {
        let whole = work_from(input, usize::MAX, 1);
        for size in [1, 2, 3, 7, 79, 80, 81, 82, 1000] {
            assert_eq!(work_from(input, size, 1), whole);
        }
        whole
    }

    #[test]
    fn day_of_the_paper() {
        let input = b"1,0,0,1000\n1,1,1,300\n1,2,0,500\n3,0,0,1,0,3000000,600\n\
            3,1,1,1,1,2000000,300\n5,1,10,2500000,100000,10\n6,0\n6,1\n7,1,14\n\
            8,1,2,19,1,60,160\n9,1,19\n10,0\n10,1\n2,1,0,751\n";
        let output = "line,code,first,second\n1,0,1000,0\n2,0,300,0\n3,0,500,0\n4,0,600,0\n\
            5,0,300,0\n6,0,2750000,2250000\n7,0,600,0\n8,0,300,0\n9,0,240,600\n10,0,60,150\n\
            11,0,600,300\n12,0,600,240\n13,0,300,750\n14,19,0,0\n";
        assert_eq!(work(input), output);
        assert_eq!(work(&input[..input.len() - 1]), output);
    }

    #[test]
    fn empty_input_and_empty_lines() {
        assert_eq!(work(b""), "line,code,first,second\n");
        assert_eq!(work(b"\n"), "line,code,first,second\n1,20,0,0\n");
        assert_eq!(work(b"\n\n1,0,0,5"), "line,code,first,second\n1,20,0,0\n2,20,0,0\n3,0,5,0\n");
    }

    #[test]
    fn last_line_without_end() {
        assert_eq!(work(b"1,0,0,5\n1,0,0,6"), "line,code,first,second\n1,0,5,0\n2,0,11,0\n");
        assert_eq!(work(b"1,0,0,5\n1,0,0,"), "line,code,first,second\n1,0,5,0\n2,20,0,0\n");
        assert_eq!(work(b"1,0,0,5\r"), "line,code,first,second\n1,20,0,0\n");
    }

    #[test]
    fn long_lines_are_one_line() {
        for len in [79, 80, 81, 82, 160, 161, 162, 300, 5000] {
            let mut line = vec![b'7'; len];
            line.extend_from_slice(b"\n1,0,0,5\n");
            assert_eq!(work(&line), "line,code,first,second\n1,20,0,0\n2,0,5,0\n");
            let line = vec![b'x'; len];
            assert_eq!(work(&line), "line,code,first,second\n1,20,0,0\n");
            // The end of a long line looks like a call, but isn't one.
            let mut line = vec![b' '; len];
            line.extend_from_slice(b"1,0,0,5\n1,0,0,6");
            assert_eq!(work(&line), "line,code,first,second\n1,20,0,0\n2,0,6,0\n");
        }
        let mut line = vec![b'1'; 3 * IN_ROOM];
        line.extend_from_slice(b"\n1,0,0,5\n");
        let output = work_from(&line, usize::MAX, 1);
        assert_eq!(output, "line,code,first,second\n1,20,0,0\n2,0,5,0\n");
    }

    #[test]
    fn many_answers_pass_the_buffer() {
        let input = b"1,0,0,1\n".repeat(60_000);
        let output = work_from(&input, usize::MAX, 1);
        assert_eq!(output.lines().count(), 60_001);
        assert_eq!(output.lines().last(), Some("60000,0,60000,0"));
    }

    #[test]
    fn stops_after_the_last_number() {
        let input = b"1,0,0,5\nx\n1,0,0,6\n1,0,0,7\n";
        for size in [1, 9, 10, 1000] {
            assert_eq!(
                work_from(input, size, LAST_NUMBER - 1),
                "line,code,first,second\n4294967294,0,5,0\n4294967295,20,0,0\n"
            );
            assert_eq!(
                work_from(b"1,0,0,5", size, LAST_NUMBER),
                "line,code,first,second\n4294967295,0,5,0\n"
            );
        }
        let mut long = vec![b'x'; 200];
        long.extend_from_slice(b"\n1,0,0,6\n");
        for size in [1, 90, 1000] {
            assert_eq!(
                work_from(&long, size, LAST_NUMBER),
                "line,code,first,second\n4294967295,20,0,0\n"
            );
        }
    }
}
