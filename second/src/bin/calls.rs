//! Prints cases for a host that has a call line written from plain numbers:
//! `calls SEED CASES` prints, for one call of each kind, every place in small
//! buffers of every size, and then CASES drawn cases, the same ones for the
//! same seed. A case is a line, its parts decimal and parted by a blank:
//! `KIND COUNT F1 .. FCOUNT SIZE PLACE LENGTH HEX`. The call has this kind and
//! these fields; the buffer has SIZE bytes, byte i being 7 * i + 35 modulo
//! 256; the line is to be written at PLACE. LENGTH is the length told, 0 where
//! nothing is written: no room, no such kind, or another number of fields. HEX
//! is the buffer after it in hexadecimal, `-` where it has no bytes.

use second::chance::Chance;
use second::engine::MOST;
use second::lines::{FIELDS, KINDS};
use second::{call_of, write_call_at};
use std::io::{self, BufWriter, Write};
use std::process::ExitCode;

/// A call of each kind, with numbers of mixed lengths.
const EACH_KIND: [(u32, &[u32]); KINDS] = [
    (1, &[9, 10, 0]),
    (2, &[100, 0, 7]),
    (3, &[63, 0, 3, 1, 999, 1_000]),
    (4, &[10, 9]),
    (5, &[1, 4_294_967_295, 0, 99, 64]),
    (6, &[0]),
    (7, &[3, 14]),
    (8, &[2, 15, 1_000_000_000, 1, 5, 99_999]),
    (9, &[99, 0]),
    (10, &[63]),
    (11, &[9, 10]),
];

/// Numbers that are no kind.
const NO_KINDS: [u32; 5] = [0, 12, 13, 14, u32::MAX];

/// Small buffers have up to so many bytes, or a few more than the line.
const SMALL: u64 = 12;

/// A kind with fields, and the buffer and the place where they are written.
struct Case {
    kind: u32,
    fields: Vec<u32>,
    size: u64,
    place: u64,
}

impl Case {
    fn draw(chance: &mut Chance) -> Case {
        let like = chance.between(1, KINDS as u64) as usize;
        let kind = draw_kind(chance, like as u32);
        let fields = draw_fields(chance, FIELDS[like]);
        let (size, place) = draw_room(chance, line_length(kind, &fields));
        Case { kind, fields, size, place }
    }

    fn print(&self, output: &mut impl Write) -> io::Result<()> {
        let mut buffer: Vec<u8> = (0..self.size).map(|i| (7 * i + 35) as u8).collect();
        let length = match call_of(self.kind, &self.fields) {
            Some(call) => write_call_at(&mut buffer, self.place, call).1,
            None => 0,
        };
        write!(output, "{} {}", self.kind, self.fields.len())?;
        for field in &self.fields {
            write!(output, " {field}")?;
        }
        write!(output, " {} {} {length} ", self.size, self.place)?;
        if buffer.is_empty() {
            write!(output, "-")?;
        }
        for byte in buffer {
            write!(output, "{byte:02x}")?;
        }
        writeln!(output)
    }
}

/// The bytes that a kind and fields take as a line with byte 10, be they a
/// call or not.
fn line_length(kind: u32, fields: &[u32]) -> u64 {
    let bytes = |number: u32| u64::from(number.checked_ilog10().unwrap_or(0)) + 2;
    bytes(kind) + fields.iter().map(|&field| bytes(field)).sum::<u64>()
}

/// Mostly the kind given, else a number that is none.
fn draw_kind(chance: &mut Chance, like: u32) -> u32 {
    match chance.below(24) {
        0 | 1 => chance.pick(&NO_KINDS),
        2 => chance.any_size(MOST) as u32,
        // The low bits are those of the kind.
        3 => like | 1 << chance.pick(&[8, 16, 31]),
        _ => like,
    }
}

/// Mostly as many fields as are right, often one fewer or one more.
fn draw_fields(chance: &mut Chance, right: usize) -> Vec<u32> {
    let count = match chance.below(16) {
        0 | 1 => right - 1,
        2 | 3 => right + 1,
        4 => chance.below(10) as usize,
        _ => right,
    };
    if chance.once_in(16) {
        return vec![u32::MAX; count];
    }
    let digits = chance.between(1, 10);
    (0..count).map(|_| draw_field(chance, digits)).collect()
}

/// A number of up to so many digits, often a border: 0, 9, 10, 99, 100 and so
/// on.
fn draw_field(chance: &mut Chance, digits: u64) -> u32 {
    let ten = 10u64.pow(chance.below(digits) as u32);
    let value = match chance.below(4) {
        0 => ten - 1,
        1 => ten,
        2 => 10 * ten - 1,
        _ => chance.between(ten, 10 * ten - 1),
    };
    value.min(MOST) as u32
}

/// A buffer's size and a place for a line of this length: mostly just enough
/// room or a byte too little.
fn draw_room(chance: &mut Chance, length: u64) -> (u64, u64) {
    let place = if chance.once_in(3) { 0 } else { chance.below(40) };
    let end = place + length;
    let size = chance.below(end + 1);
    match chance.below(24) {
        0..=5 => (end, place),
        6..=10 => (end - 1, place),
        11..=13 => (end + 1, place),
        14 => (chance.between(end.saturating_sub(5), end + 5), place),
        15 => (end + chance.below(100), place),
        16 => (size, size),
        17 => (size, size + 1),
        18 => (size, size + chance.any_size(1 << 62)),
        // The low bits of the place have room.
        19 => (end, place | 1 << chance.pick(&[8, 16, 31, 32, 33, 63])),
        20 => (end, u64::MAX - chance.below(150)),
        // Place and length together wrap to a place in the buffer.
        21 | 22 => (end, chance.below(length).wrapping_sub(length)),
        _ => (0, chance.pick(&[0, 0, 1, place, u64::MAX])),
    }
}

/// Every place in and after every small buffer, for a call of each kind.
fn small_buffers() -> impl Iterator<Item = Case> {
    EACH_KIND.into_iter().flat_map(|(kind, fields)| {
        let most = SMALL.max(line_length(kind, fields) + 3);
        (0..=most).flat_map(move |size| {
            (0..=size + 2).map(move |place| Case { kind, fields: fields.to_vec(), size, place })
        })
    })
}

fn run(seed: u64, cases: u64, mut output: impl Write) -> io::Result<()> {
    for case in small_buffers() {
        case.print(&mut output)?;
    }
    let mut chance = Chance::new(seed);
    for _ in 0..cases {
        Case::draw(&mut chance).print(&mut output)?;
    }
    output.flush()
}

fn main() -> ExitCode {
    let numbers: Vec<Option<u64>> = std::env::args().skip(1).map(|a| a.parse().ok()).collect();
    let [Some(seed), Some(cases)] = numbers[..] else {
        let _ = writeln!(io::stderr(), "use: calls SEED CASES");
        return ExitCode::FAILURE;
    };
    match run(seed, cases, BufWriter::with_capacity(1 << 20, io::stdout())) {
        Ok(()) => ExitCode::SUCCESS,
        Err(error) => {
            let _ = writeln!(io::stderr(), "cannot write: {error}");
            ExitCode::FAILURE
        }
    }
}

#[cfg(test)]
mod tests {
    use super::*;

    fn printed(kind: u32, fields: &[u32], size: u64, place: u64) -> String {
        let mut text = Vec::new();
        Case { kind, fields: fields.to_vec(), size, place }.print(&mut text).unwrap();
        String::from_utf8(text).unwrap()
    }

    #[test]
    fn cases_as_lines() {
        assert_eq!(printed(6, &[0], 6, 2), "6 1 0 6 2 4 232a362c300a\n");
        assert_eq!(printed(6, &[0], 6, 3), "6 1 0 6 3 0 232a31383f46\n");
        assert_eq!(printed(6, &[], 6, 2), "6 0 6 2 0 232a31383f46\n");
        assert_eq!(printed(10, &[63], 0, u64::MAX), "10 1 63 0 18446744073709551615 0 -\n");
        assert!(printed(12, &[0], 33, 0).ends_with(
            " 33 0 0 232a31383f464d545b6269\
            70777e858c939aa1a8afb6bdc4cbd2d9e0e7eef5fc03\n"
        ));
    }

    #[test]
    fn lengths_are_those_of_the_lines() {
        for (kind, fields) in EACH_KIND {
            let length = line_length(kind, fields);
            let call = call_of(kind, fields).unwrap();
            let mut room = [0; 100];
            assert_eq!(write_call_at(&mut room, 0, call), (0, length as usize));
        }
    }

    #[test]
    fn small_buffers_have_every_place() {
        for (kind, fields) in EACH_KIND {
            let length = line_length(kind, fields);
            let cases: Vec<Case> = small_buffers().filter(|case| case.kind == kind).collect();
            for size in 0..=SMALL.max(length) {
                for place in 0..=size + 2 {
                    let here = |case: &&Case| case.size == size && case.place == place;
                    assert_eq!(cases.iter().filter(here).count(), 1, "{kind} {size} {place}");
                }
            }
        }
    }
}
