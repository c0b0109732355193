//! Prints what the two writers of numbers leave in their parts, one for
//! 64 bits and one for 32: `numbers`. The numbers are a few large ones, each
//! with what is left of it as its last digits are taken off, and 0. For each
//! number come parts of 0 to 21 bytes with the writer for 64 bits and then, up
//! to 4294967295, parts of 0 to 11 bytes with that for 32. A line has the
//! part's bytes, each of them `#` before, and after a comma how many bytes the
//! writer told, 0 where the part is too short.

use second::numbers::put_number;
use std::io::{self, BufWriter, Write};
use std::iter::successors;
use std::process::ExitCode;

/// The numbers that lose their digits.
const LARGE: [u64; 6] = [
    18_446_744_073_709_551_615,
    10_000_000_000_000_000_000,
    9_999_999_999_999_999_999,
    9_876_543_210_987_654_321,
    4_294_967_296,
    4_294_967_295,
];

/// Most bytes of a part, by writer: one more than its largest number has.
const MOST_64: usize = 21;
const MOST_32: usize = 11;

/// All numbers, in their order.
fn numbers() -> impl Iterator<Item = u64> {
    let shorter = |&number: &u64| (number >= 10).then_some(number / 10);
    LARGE.into_iter().flat_map(move |number| successors(Some(number), shorter)).chain([0])
}

/// A line for each part of up to so many bytes.
fn print(number: u64, most: usize, output: &mut impl Write) -> io::Result<()> {
    for size in 0..=most {
        let mut part = vec![b'#'; size];
        let used = put_number(&mut part, number);
        output.write_all(&part)?;
        writeln!(output, ",{used}")?;
    }
    Ok(())
}

fn run(mut output: impl Write) -> io::Result<()> {
    for number in numbers() {
        print(number, MOST_64, &mut output)?;
        if number <= u64::from(u32::MAX) {
            print(number, MOST_32, &mut output)?;
        }
    }
    output.flush()
}

fn main() -> ExitCode {
    if std::env::args_os().len() > 1 {
        let _ = writeln!(io::stderr(), "use: numbers");
        return ExitCode::FAILURE;
    }
    match run(BufWriter::with_capacity(1 << 20, io::stdout())) {
        Ok(()) => ExitCode::SUCCESS,
        Err(error) => {
            let _ = writeln!(io::stderr(), "cannot write: {error}");
            ExitCode::FAILURE
        }
    }
}

#[cfg(test)]
mod tests {
    use super::*;

    fn printed() -> String {
        let mut text = Vec::new();
        run(&mut text).unwrap();
        String::from_utf8(text).unwrap()
    }

    #[test]
    fn parts_as_lines() {
        let mut text = Vec::new();
        print(10, 4, &mut text).unwrap();
        assert_eq!(text, b",0\n#,0\n10,2\n10#,2\n10##,2\n");
        text.clear();
        print(0, 2, &mut text).unwrap();
        assert_eq!(text, b",0\n0,1\n0#,1\n");
    }

    #[test]
    fn numbers_lose_their_digits() {
        let all: Vec<String> = numbers().map(|number| number.to_string()).collect();
        let mut expected = Vec::new();
        for number in LARGE {
            let text = number.to_string();
            expected.extend((1..=text.len()).rev().map(|len| text[..len].to_string()));
        }
        expected.push("0".to_string());
        assert_eq!(all, expected);
        assert_eq!(all.len(), 20 + 20 + 19 + 19 + 10 + 10 + 1);
    }

    #[test]
    fn every_line_is_the_standard_librarys() {
        let mut expected = String::new();
        for number in numbers() {
            let text = number.to_string();
            let both = [Some(21), u32::try_from(number).ok().map(|_| 11)];
            for size in both.into_iter().flatten().flat_map(|most| 0..=most) {
                if size < text.len() {
                    expected += &format!("{:#<size$},0\n", "");
                } else {
                    expected += &format!("{text:#<size$},{}\n", text.len());
                }
            }
        }
        assert_eq!(printed(), expected);
    }

    #[test]
    fn the_largest_number_of_each_width() {
        let text = printed();
        let lines: Vec<&str> = text.lines().collect();
        assert_eq!(lines.len(), 99 * 22 + 58 * 12);
        assert_eq!(lines[19], "###################,0");
        assert_eq!(lines[20], "18446744073709551615,20");
        assert_eq!(lines[21], "18446744073709551615#,20");
        assert_eq!(lines[22], ",0");
        // A part of 11 bytes is followed by one of none just where 32 bits are enough.
        let ended = |line: &str| text.matches(&format!("{line}\n,0\n")).count();
        assert_eq!(ended("\n4294967295#,10"), 1);
        assert_eq!(ended("\n4294967296#,10"), 0);
    }

    #[test]
    fn an_error_is_told() {
        let length = printed().len();
        let mut room = vec![0; length];
        assert!(run(&mut room[..]).is_ok());
        assert!(run(&mut room[1..]).is_err());
    }
}
