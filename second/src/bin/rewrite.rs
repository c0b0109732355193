//! Writes the calls of a day again: reads lines from standard input and
//! prints, for each one that is a call, this engine's own line of it with
//! byte 10, and nothing for the others. Memory stays the same for any input.

use second::lines::LINE_MOST;
use second::{read_call, write_call, CALL_ROOM};
use std::io::{self, BufRead, BufReader, BufWriter, Read, Write};
use std::process::ExitCode;

fn run(mut input: impl BufRead, mut output: impl Write) -> io::Result<()> {
    let mut line = Vec::new();
    let mut room = [0; CALL_ROOM];
    // The bytes to come are those of a line that is already too long.
    let mut long = false;
    loop {
        line.clear();
        let most = LINE_MOST as u64 + 1;
        if input.by_ref().take(most).read_until(b'\n', &mut line)? == 0 {
            return output.flush();
        }
        let ended = line.last() == Some(&b'\n');
        if ended {
            line.pop();
        }
        if !long {
            if let Some(call) = read_call(&line) {
                let len = write_call(&mut room, call);
                output.write_all(&room[..len])?;
            }
        }
        long = !ended;
    }
}

fn main() -> ExitCode {
    let input = BufReader::with_capacity(1 << 20, io::stdin());
    let output = BufWriter::with_capacity(1 << 20, io::stdout());
    match run(input, output) {
        Ok(()) => ExitCode::SUCCESS,
        Err(error) => {
            let _ = writeln!(io::stderr(), "cannot read or write: {error}");
            ExitCode::FAILURE
        }
    }
}

#[cfg(test)]
mod tests {
    use super::*;

    fn rewritten(input: &[u8]) -> Vec<u8> {
        let mut output = Vec::new();
        run(input, &mut output).unwrap();
        output
    }

    #[test]
    fn calls_alone_are_written() {
        assert_eq!(rewritten(b""), b"");
        assert_eq!(rewritten(b"\n"), b"");
        assert_eq!(rewritten(b"6,0"), b"6,0\n");
        assert_eq!(
            rewritten(b"6,00\n6,0\n\n10,63\r\n6,1 \n11,5\n12,5,0\n11,5,0"),
            b"6,0\n11,5,0\n"
        );
        let longest = b"3,4294967295,4294967295,4294967295,4294967295,4294967295,4294967295\n";
        assert_eq!(rewritten(longest), longest);
    }

    #[test]
    fn long_lines_are_one_line() {
        for len in [79, 80, 81, 82, 161, 162, 163, 5000] {
            for fill in [b' ', b'7', b','] {
                // The end of a long line looks like a call, but isn't one.
                let mut line = vec![fill; len];
                line.extend_from_slice(b"6,1\n6,2");
                assert_eq!(rewritten(&line), b"6,2\n");
                assert_eq!(rewritten(&line[..len]), b"");
            }
        }
    }
}
