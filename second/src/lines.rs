//! The text form of calls and answers: a call line read from bytes into a
//! call (or into nothing, which the day answers with code 20), a call written
//! as its line, also into a lent buffer at a place, and an answer line written
//! into a byte buffer, also into a lent one as the call is worked.

use crate::engine::{Answer, Call, Exchange};

/// The first line that the day program prints.
pub const HEADER: &[u8] = b"line,code,first,second\n";

/// Code of a line that is no call.
pub const NO_CALL: u8 = 20;

/// Code of a lent buffer that is too short for a line.
pub const NO_ROOM: u8 = 21;

/// Most bytes of a line before its byte 10.
pub const LINE_MOST: usize = 80;

/// Room that is always enough to write an answer line (at most 35 bytes long:
/// only code 0, of one digit, comes with numbers above 0).
const ANSWER_ROOM: usize = 48;

/// Room that is always enough to write a call line (at most 68 bytes long).
pub const CALL_ROOM: usize = 80;

/// Number of kinds; the first one is 1.
pub const KINDS: usize = 11;

/// Number of fields by kind.
pub const FIELDS: [usize; KINDS + 1] = [0, 3, 3, 6, 2, 5, 1, 2, 6, 2, 1, 2];

/// The codes that a kind can meet; kind 0 is a line that is no call.
pub const CODES: [&[u8]; KINDS + 1] = [
    &[NO_CALL],
    &[0, 1, 2, 6, 14],
    &[0, 1, 2, 6, 19],
    &[0, 1, 3, 4, 5, 6, 7, 19],
    &[0, 1, 4, 8, 9],
    &[0, 3, 10, 11, 12],
    &[0, 4, 8, 9, 11, 15],
    &[0, 3, 11, 12, 13],
    &[0, 1, 3, 5, 6, 11, 12, 16, 17, 18, 19],
    &[0, 3, 11, 12, 13],
    &[0, 4, 8, 9, 11],
    &[0, 1, 4, 8, 9, 11],
];

/// Most numbers on a line: the kind and six fields.
const NUMBERS: usize = 7;

/// What the field reader found before it stopped.
struct Fields {
    /// Place of the first byte that is neither digit nor comma, or the end.
    stop: usize,
    /// All fields so far are well-formed numbers.
    good: bool,
    count: usize,
    values: [u32; NUMBERS],
}

/// The same byte eight times.
const fn eight(byte: u8) -> u64 {
    u64::from_le_bytes([byte; 8])
}

/// The value of eight digits, the first one in the lowest byte.
#[inline]
fn eight_digits(word: u64) -> u64 {
    let pairs = (word.wrapping_mul(10 * 256 + 1) >> 8) & 0x00ff_00ff_00ff_00ff;
    let fours = (pairs.wrapping_mul(100 * 65_536 + 1) >> 16) & 0x0000_ffff_0000_ffff;
    fours.wrapping_mul(10_000 * 4_294_967_296 + 1) >> 32
}

/// Reads the number from a place on: its value, the place after its digits,
/// and whether it is well-formed.
#[inline]
fn read_number(bytes: &[u8], at: usize) -> (u32, usize, bool) {
    if let Some(chunk) = bytes[at..].first_chunk::<8>() {
        // Digits become 0 to 9; other bytes get their highest bit set.
        let word = u64::from_le_bytes(*chunk) ^ eight(b'0');
        let others = (((word & eight(0x7f)) + eight(0x76)) | word) & eight(0x80);
        let count = others.trailing_zeros() / 8;
        if count == 0 {
            return (0, at, false);
        }
        if count < 8 {
            let value = eight_digits(word << (64 - 8 * count));
            let good = (word & 0xff != 0) | (count == 1);
            return (value as u32, at + count as usize, good);
        }
    }
    read_digits(bytes, at)
}

/// The same, one digit after the other: for long numbers, and near the end.
#[inline(never)]
fn read_digits(bytes: &[u8], at: usize) -> (u32, usize, bool) {
    let mut value: u64 = 0;
    let mut end = at;
    while end < bytes.len() {
        let digit = bytes[end].wrapping_sub(b'0');
        if digit > 9 {
            break;
        }
        value = value.wrapping_mul(10).wrapping_add(u64::from(digit));
        end += 1;
    }
    // Above ten digits the value may have wrapped.
    let good = match end - at {
        0 => false,
        1 => true,
        2..=10 => bytes[at] != b'0' && value <= u64::from(u32::MAX),
        _ => false,
    };
    (value as u32, end, good)
}

#[inline]
fn read_fields(bytes: &[u8]) -> Fields {
    let mut fields = Fields { stop: 0, good: true, count: 0, values: [0; NUMBERS] };
    let mut at = 0;
    loop {
        let (value, end, good) = read_number(bytes, at);
        fields.good &= good;
        if fields.count < NUMBERS {
            fields.values[fields.count] = value;
        }
        fields.count += 1;
        if end < bytes.len() && bytes[end] == b',' {
            at = end + 1;
        } else {
            fields.stop = end;
            return fields;
        }
    }
}

/// The call of a kind and its fields. Nothing if there is no such kind, or if
/// it has another number of fields.
#[inline]
pub fn call_of(kind: u32, fields: &[u32]) -> Option<Call> {
    match (kind, fields) {
        (1, &[member, token, amount]) => Some(Call::Deposit { member, token, amount }),
        (2, &[member, token, amount]) => Some(Call::Withdraw { member, token, amount }),
        (3, &[ticket, member, market, side, limit, amount]) => {
            Some(Call::Order { ticket, member, market, side, limit, amount })
        }
        (4, &[ticket, member]) => Some(Call::Cancel { ticket, member }),
        (5, &[market, block, reference, slack, length]) => {
            Some(Call::Open { market, block, reference, slack, length })
        }
        (6, &[ticket]) => Some(Call::Enter { ticket }),
        (7, &[market, block]) => Some(Call::Match { market, block }),
        (8, &[market, member, block, side, base, bound]) => {
            Some(Call::Bid { market, member, block, side, base, bound })
        }
        (9, &[market, block]) => Some(Call::Settle { market, block }),
        (10, &[ticket]) => Some(Call::Claim { ticket }),
        (11, &[ticket, member]) => Some(Call::Leave { ticket, member }),
        _ => None,
    }
}

/// The call that the numbers of a line stand for, if any.
#[inline]
fn build(fields: &Fields) -> Option<Call> {
    if !fields.good || fields.stop > LINE_MOST {
        return None;
    }
    call_of(fields.values[0], fields.values.get(1..fields.count)?)
}

/// Reads a whole line, given without its byte 10.
pub fn read_call(line: &[u8]) -> Option<Call> {
    let fields = read_fields(line);
    if fields.stop < line.len() {
        return None;
    }
    build(&fields)
}

/// Reads a whole line of up to seven numbers, given without its byte 10.
pub fn read_numbers(line: &[u8]) -> Option<Vec<u32>> {
    let fields = read_fields(line);
    let whole = fields.good && fields.stop == line.len() && fields.stop <= LINE_MOST;
    fields.values.get(..fields.count).filter(|_| whole).map(<[u32]>::to_vec)
}

/// Reads a whole line of two numbers of which the first is 0, given without
/// its byte 10: the second one.
pub fn read_after_zero(line: &[u8]) -> Option<u32> {
    match read_numbers(line)?[..] {
        [0, number] => Some(number),
        _ => None,
    }
}

/// Reads the first line of `bytes`: the bytes it takes with its byte 10, and
/// its call if it is one. Nothing if there is no byte 10 yet.
#[inline]
pub fn next_line(bytes: &[u8]) -> Option<(usize, Option<Call>)> {
    let fields = read_fields(bytes);
    let stop = fields.stop;
    if stop < bytes.len() && bytes[stop] == b'\n' {
        return Some((stop + 1, build(&fields)));
    }
    let more = bytes[stop..].iter().position(|&byte| byte == b'\n')?;
    Some((stop + more + 1, None))
}

/// The eight digits of a number below 100,000,000, the first one in the
/// lowest byte.
#[inline]
fn split_eight(value: u32) -> u64 {
    let fours = u64::from(value / 10_000) | u64::from(value % 10_000) << 32;
    // Division by 100 and by 10 in each part at once, as product and shift.
    let hundreds = ((fours * 10_486) >> 20) & 0x0000_007f_0000_007f;
    let pairs = hundreds | (fours - hundreds * 100) << 16;
    let tens = ((pairs * 103) >> 10) & 0x000f_000f_000f_000f;
    tens | (pairs - tens * 10) << 8
}

/// Writes a number at a place of the room and gives the place after it. Up
/// to eight bytes after that may change too.
#[inline]
fn write_number<const ROOM: usize>(room: &mut [u8; ROOM], mut at: usize, mut value: u32) -> usize {
    let mut skip = 0;
    let top = value / 100_000_000;
    if top == 0 {
        // Leading zeros are left out, but not the last digit.
        skip = 7 - value.checked_ilog10().unwrap_or(0);
    } else {
        value %= 100_000_000;
        if top >= 10 {
            room[at] = b'0' + (top / 10) as u8;
            at += 1;
        }
        room[at] = b'0' + (top % 10) as u8;
        at += 1;
    }
    let text = (split_eight(value) | eight(b'0')) >> (8 * skip);
    room[at..at + 8].copy_from_slice(&text.to_le_bytes());
    at + 8 - skip as usize
}

/// What follows the line number where both numbers are 0, for each code.
const BOTH_ZERO: [[u8; 8]; 21] = both_zero_texts();

const fn both_zero_texts() -> [[u8; 8]; 21] {
    let mut texts = [*b",0,0,0\n\0"; 21];
    let mut code = 1;
    while code < 21 {
        let last = b'0' + code as u8 % 10;
        texts[code] = if code < 10 {
            [b',', last, b',', b'0', b',', b'0', b'\n', 0]
        } else {
            [b',', b'0' + code as u8 / 10, last, b',', b'0', b',', b'0', b'\n']
        };
        code += 1;
    }
    texts
}

/// Writes an answer line with its byte 10 and gives its length.
#[inline]
fn write_answer(room: &mut [u8; ANSWER_ROOM], number: u32, answer: Answer) -> usize {
    let mut at = write_number(room, 0, number);
    let Answer { code, first, second } = answer;
    if first | second == 0 {
        if let Some(text) = BOTH_ZERO.get(usize::from(code)) {
            room[at..at + 8].copy_from_slice(text);
            return at + 7 + usize::from(code >= 10);
        }
    }
    for value in [u32::from(code), first, second] {
        room[at] = b',';
        at = write_number(room, at + 1, value);
    }
    room[at] = b'\n';
    at + 1
}

/// Works a call, or a line that is none, and writes its answer line with byte
/// 10 into a lent buffer: the code and the answer line's length. Where the
/// buffer is too short for it, no byte changes and nothing moves, and the code
/// is 21 and the length 0.
#[inline]
pub fn answer_line(
    exchange: &mut Exchange,
    number: u32,
    call: Option<Call>,
    out: &mut [u8],
) -> (u8, usize) {
    let was = (out.len() < ANSWER_ROOM).then(|| exchange.clone());
    let answer = match call {
        Some(call) => exchange.call(call),
        None => Answer::refused(NO_CALL),
    };
    let mut line = [0; ANSWER_ROOM];
    let len = write_answer(&mut line, number, answer);
    if let Some(room) = out.get_mut(..len) {
        room.copy_from_slice(&line[..len]);
        return (answer.code, len);
    }
    if let Some(was) = was {
        *exchange = was;
    }
    (NO_ROOM, 0)
}

/// Writes a call line with its byte 10 and gives its length.
pub fn write_call(room: &mut [u8; CALL_ROOM], call: Call) -> usize {
    let mut at = write_number(room, 0, call.kind() as u32);
    let (values, count) = match call {
        Call::Deposit { member, token, amount } | Call::Withdraw { member, token, amount } => {
            ([member, token, amount, 0, 0, 0], 3)
        }
        Call::Order { ticket, member, market, side, limit, amount } => {
            ([ticket, member, market, side, limit, amount], 6)
        }
        Call::Cancel { ticket, member } | Call::Leave { ticket, member } => {
            ([ticket, member, 0, 0, 0, 0], 2)
        }
        Call::Open { market, block, reference, slack, length } => {
            ([market, block, reference, slack, length, 0], 5)
        }
        Call::Match { market, block } | Call::Settle { market, block } => {
            ([market, block, 0, 0, 0, 0], 2)
        }
        Call::Bid { market, member, block, side, base, bound } => {
            ([market, member, block, side, base, bound], 6)
        }
        Call::Enter { ticket } | Call::Claim { ticket } => ([ticket, 0, 0, 0, 0, 0], 1),
    };
    for &value in &values[..count] {
        room[at] = b',';
        at = write_number(room, at + 1, value);
    }
    room[at] = b'\n';
    at + 1
}

/// Writes a call line with its byte 10 into a lent buffer, from a place on:
/// code 0 and the line's length. Where the buffer has no room for it there,
/// no byte changes, and the code is 21 and the length 0.
pub fn write_call_at(out: &mut [u8], place: u64, call: Call) -> (u8, usize) {
    let mut line = [0; CALL_ROOM];
    let len = write_call(&mut line, call);
    let rest = usize::try_from(place).ok().and_then(|place| out.get_mut(place..));
    match rest.and_then(|rest| rest.get_mut(..len)) {
        Some(room) => {
            room.copy_from_slice(&line[..len]);
            (0, len)
        }
        None => (NO_ROOM, 0),
    }
}

#[cfg(test)]
mod tests {
    use super::*;
    use crate::chance::Chance;

    fn no_call(line: &[u8]) {
        assert_eq!(read_call(line), None, "{:?}", String::from_utf8_lossy(line));
        let mut ended = line.to_vec();
        ended.extend_from_slice(b"\n1,0,0,5\n");
        assert_eq!(next_line(&ended), Some((line.len() + 1, None)));
    }

    /// Calls of every kind, with numbers of mixed lengths.
    fn every_kind() -> [Call; 12] {
        let most = u32::MAX;
        [
            Call::Deposit { member: 0, token: 1, amount: most },
            Call::Withdraw { member: 2, token: 3, amount: 4 },
            Call::Order { ticket: 1, member: 2, market: 3, side: 4, limit: 5, amount: 6 },
            Call::Order {
                ticket: most,
                member: most,
                market: most,
                side: most,
                limit: most,
                amount: most,
            },
            Call::Cancel { ticket: 10, member: 100 },
            Call::Open { market: 1, block: 22, reference: 333, slack: 4444, length: 55555 },
            Call::Enter { ticket: 0 },
            Call::Match { market: 99, block: 101 },
            Call::Bid { market: 6, member: 5, block: 4, side: 3, base: 2, bound: 1 },
            Call::Settle { market: 12345678, block: 123456789 },
            Call::Claim { ticket: 1234567890 },
            Call::Leave { ticket: 63, member: most },
        ]
    }

    #[test]
    fn calls_of_every_kind() {
        let kinds: Vec<usize> = every_kind().iter().map(Call::kind).collect();
        assert!((1..=KINDS).all(|kind| kinds.contains(&kind)), "{kinds:?}");
        for call in every_kind() {
            let mut room = [0; CALL_ROOM];
            let len = write_call(&mut room, call);
            assert_eq!(room[len - 1], b'\n');
            assert_eq!(read_call(&room[..len - 1]), Some(call));
            assert_eq!(next_line(&room), Some((len, Some(call))));
            assert_eq!(next_line(&room[..len - 1]), None);
        }
        assert_eq!(
            read_call(b"3,0,0,1,0,3000000,600"),
            Some(Call::Order {
                ticket: 0,
                member: 0,
                market: 1,
                side: 0,
                limit: 3_000_000,
                amount: 600
            })
        );
    }

    #[test]
    fn lines_that_are_no_call() {
        let lines: [&[u8]; 44] = [
            b"",
            b",",
            b"0",
            b"0,1",
            b"1",
            b"11,0",
            b"11,1,2,3",
            b"11,1,02",
            b"12,1",
            b"12,1,2",
            b"4294967295,1",
            b"01,0,0,5",
            b"1,00,0,5",
            b"1,0,0,05",
            b"6,01",
            b"6,00",
            b"6",
            b"6,",
            b",6",
            b"6,,1",
            b"6,1,",
            b"6,1,2",
            b"1,0,0",
            b"1,0,0,5,0",
            b"1,0,0,5,",
            b"3,0,0,1,0,3000000,600,1",
            b"3,0,0,1,0,3000000,600,1,1,1,1,1",
            b"6,4294967296",
            b"6,9999999999",
            b"6,42949672950",
            b"6,18446744073709551617",
            b"6,340282366920938463463374607431768211457",
            b"6,1\r",
            b"6,1\0",
            b"\x006,1",
            b"6,1 ",
            b" 6,1",
            b"6, 1",
            b"6,+1",
            b"6,-1",
            b"6,1.",
            b"6;1",
            b"\"6\",1",
            b"6,\xb1",
        ];
        for line in lines {
            no_call(line);
        }
        for len in [79, 80, 81, 500] {
            no_call(&vec![b'1'; len]);
            no_call(&vec![b','; len]);
            no_call(&vec![b' '; len]);
            let mut padded = vec![b'0'; len];
            padded[..2].copy_from_slice(b"6,");
            no_call(&padded);
        }
    }

    #[test]
    fn numbers_after_a_zero() {
        for (line, number) in [("0,0", 0), ("0,64", 64), ("0,4294967295", u32::MAX)] {
            assert_eq!(read_after_zero(line.as_bytes()), Some(number));
            no_call(line.as_bytes());
        }
        let others = [
            "",
            "0",
            ",",
            "0,",
            ",0",
            ",0,1",
            "0,1,",
            "0,,1",
            "0,1,2",
            "00,1",
            "0,01",
            "0,00",
            "1,0",
            "6,1",
            "0,4294967296",
            "0,42949672950",
            "0,1 ",
            " 0,1",
            "0,1\r",
            "0,1\0",
            "0,-1",
            "+0,1",
            "0;1",
            "4294967296,1",
            "18446744073709551616,1",
        ];
        for line in others {
            assert_eq!(read_after_zero(line.as_bytes()), None, "{line:?}");
        }
        for len in [79, 80, 81] {
            let mut zeros = vec![b'0'; len];
            zeros[1] = b',';
            assert_eq!(read_after_zero(&zeros), None);
        }
    }

    #[test]
    fn numbers_of_a_line() {
        let seven = "4294967295,1,2,3,4,5,0";
        for line in ["0", "6", "0,0", "0,64", "0,4294967295", "0,10,3", "1,0", seven] {
            let numbers = line.split(',').map(|number| number.parse().unwrap()).collect();
            assert_eq!(read_numbers(line.as_bytes()), Some(numbers));
        }
        let others = [
            "",
            ",",
            "0,",
            ",0",
            ",0,1",
            "0,1,",
            "0,,1",
            "00,1",
            "0,01",
            "0,00",
            "0,4294967296",
            "0,42949672950",
            "0,1 ",
            " 0,1",
            "0,1\r",
            "0,1\0",
            "0,-1",
            "+0,1",
            "0;1",
            "4294967296,1",
            "18446744073709551616,1",
            "1,2,3,4,5,6,7,8",
        ];
        for line in others {
            assert_eq!(read_numbers(line.as_bytes()), None, "{line:?}");
        }
        for len in [79, 80, 81] {
            let mut zeros = vec![b'0'; len];
            zeros[1] = b',';
            assert_eq!(read_numbers(&zeros), None);
        }
    }

    #[test]
    fn numbers_of_every_length() {
        let mut value = 1u64;
        let mut values = vec![0];
        while value <= u64::from(u32::MAX) {
            values.extend([value - 1, value, value + 1, value * 10 / 9, value * 7 % 4_294_967_296]);
            value *= 3;
        }
        for power in 0..10 {
            let ten = 10u64.pow(power);
            values.extend([ten - 1, ten, ten + 1]);
        }
        values.extend((0..20_000).map(|i| i * 99_991 % 4_294_967_296));
        values.extend([4_294_967_294, 4_294_967_295]);
        values.retain(|&value| value <= u64::from(u32::MAX));
        for value in values {
            let mut room = [b'7'; ANSWER_ROOM];
            let len = write_number(&mut room, 3, value as u32);
            let text = value.to_string();
            assert_eq!(&room[3..len], text.as_bytes());
            let line = format!("6,{text}");
            assert_eq!(read_call(line.as_bytes()), Some(Call::Enter { ticket: value as u32 }));
            let line = format!("6,{text}\n,,,,,,,,");
            let used = text.len() + 3;
            let call = Some(Call::Enter { ticket: value as u32 });
            assert_eq!(next_line(line.as_bytes()), Some((used, call)));
            no_call(format!("6,0{text}").as_bytes());
        }
        for above in 4_294_967_296u64..4_294_967_400 {
            no_call(format!("6,{above}").as_bytes());
            no_call(format!("6,{above}0").as_bytes());
        }
    }

    #[test]
    fn every_byte_at_every_place() {
        let line = b"1,2,3,12345678";
        for place in 0..line.len() {
            for byte in 0..=255u8 {
                let mut bent = line.to_vec();
                bent[place] = byte;
                let plain = byte.is_ascii_digit() || byte == b',' || byte == b'\n';
                if !plain {
                    no_call(&bent);
                }
                // A short line reads as a long one does.
                if byte != b'\n' {
                    let call = read_call(&bent);
                    bent.extend_from_slice(b"\n________");
                    assert_eq!(next_line(&bent), Some((line.len() + 1, call)));
                }
            }
        }
    }

    #[test]
    fn answer_lines() {
        let mut room = [0; ANSWER_ROOM];
        for (number, code, first, second) in [
            (1, 0, 0, 0),
            (2, 9, 0, 0),
            (3, 10, 0, 0),
            (4, 20, 0, 0),
            (5, 0, 0, 1),
            (6, 0, 1, 0),
            (4294967295, 19, 0, 0),
            (9, 20, 10, 99),
            (10, 9, 100, 101),
            (4294967295, 20, 4294967295, 4294967295),
            (1000000000, 19, 999999999, 12345),
            (123456, 7, 1234567, 12345678),
        ] {
            let len = write_answer(&mut room, number, Answer { code, first, second });
            let text = format!("{number},{code},{first},{second}\n");
            assert_eq!(&room[..len], text.as_bytes());
        }
    }

    /// Writes a call into a buffer of bytes 35 at a place: code, length and
    /// the buffer after it.
    fn written(size: usize, place: u64, call: Call) -> (u8, usize, Vec<u8>) {
        let mut out = vec![b'#'; size];
        let (code, len) = write_call_at(&mut out, place, call);
        (code, len, out)
    }

    #[test]
    fn call_lines_at_a_place() {
        let enter = Call::Enter { ticket: 0 };
        let claim = Call::Claim { ticket: 63 };
        for (size, place, call, after) in [
            (4, 0, enter, "6,0\n"),
            (5, 0, enter, "6,0\n#"),
            (6, 2, enter, "##6,0\n"),
            (8, 2, claim, "##10,63\n"),
        ] {
            let len = after.trim_matches('#').len();
            assert_eq!(written(size, place, call), (0, len, after.as_bytes().to_vec()));
        }
        let longest = call_of(8, &[u32::MAX; 6]).unwrap();
        let text = b"8,4294967295,4294967295,4294967295,4294967295,4294967295,4294967295\n";
        assert_eq!(written(68, 0, longest), (0, 68, text.to_vec()));
        for (size, place, call) in [
            (3, 0, enter),
            (6, 3, enter),
            (6, 6, enter),
            (6, 7, enter),
            (0, 0, enter),
            (6, u64::MAX, enter),
            (67, 0, longest),
        ] {
            assert_eq!(written(size, place, call), (21, 0, vec![b'#'; size]));
        }
        assert_eq!(read_call(b"6,0"), Some(enter));
        assert_eq!(next_line(b"6,0\nxyz"), Some((4, Some(enter))));
        no_call(b"6,00");
    }

    #[test]
    fn call_lines_at_every_place() {
        for call in every_kind() {
            let mut room = [0; CALL_ROOM];
            let len = write_call(&mut room, call);
            for size in 0..len + 4 {
                let untouched = vec![b'#'; size];
                for place in 0..=size + 2 {
                    let mut after = untouched.clone();
                    let told = if place + len <= size {
                        after[place..place + len].copy_from_slice(&room[..len]);
                        (0, len, after)
                    } else {
                        (21, 0, after)
                    };
                    assert_eq!(written(size, place as u64, call), told, "{call:?} {size} {place}");
                }
                // Places after which the sum wraps, or of which the low bits have room.
                for back in 0..100 {
                    let far = written(size, u64::MAX - back, call);
                    assert_eq!(far, (21, 0, untouched.clone()));
                }
                for bit in [8, 16, 31, 32, 33, 63] {
                    assert_eq!(written(size, 1 << bit, call), (21, 0, untouched.clone()));
                }
            }
        }
    }

    #[test]
    fn lines_read_and_written_again() {
        let mut chance = Chance::new(1);
        let mut calls = [0; KINDS + 1];
        for _ in 0..200_000 {
            let kind = chance.between(1, KINDS as u64);
            let mut line = kind.to_string();
            for _ in 0..FIELDS[kind as usize] {
                line += &format!(",{}", chance.any_size(5_000_000_000) - 1);
            }
            let mut line = line.into_bytes();
            if chance.once_in(2) {
                let place = chance.below(line.len() as u64) as usize;
                line[place] = chance.pick(b"0123456789,");
            }
            if let Some(call) = read_call(&line) {
                line.push(b'\n');
                assert_eq!(written(line.len(), 0, call), (0, line.len(), line));
                calls[call.kind()] += 1;
            }
        }
        assert!(calls[1..].iter().all(|&count| count > 1_000), "{calls:?}");
    }

    #[test]
    fn calls_of_plain_numbers() {
        let fields = [0, 1, 22, 333, 4444, 55555, 666666, 7777777, u32::MAX];
        for kind in (0..300).chain([1 << 16 | 6, 1 << 31 | 6, u32::MAX]) {
            for count in 0..=fields.len() {
                let call = call_of(kind, &fields[..count]);
                let right = (1..=KINDS as u32).contains(&kind) && FIELDS[kind as usize] == count;
                assert_eq!(call.is_some(), right, "{kind} {count}");
                if let Some(call) = call {
                    let numbers: Vec<String> =
                        [kind].iter().chain(&fields[..count]).map(u32::to_string).collect();
                    let line = numbers.join(",") + "\n";
                    assert_eq!(written(line.len(), 0, call), (0, line.len(), line.into_bytes()));
                }
            }
        }
    }
}
