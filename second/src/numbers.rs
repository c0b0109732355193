//! A number in decimal, written straight into a lent part of a buffer.

/// Writes a number at the start of a part, without sign or needless leading
/// zero, and gives how many bytes that took. The bytes after it stay. Where
/// the part has fewer bytes than the number has digits, none changes and 0 is
/// given.
pub fn put_number(part: &mut [u8], value: u64) -> usize {
    // What the first digit counts.
    let mut unit = 1;
    let mut digits = 1;
    while value / unit >= 10 {
        unit *= 10;
        digits += 1;
    }
    let Some(places) = part.get_mut(..digits) else {
        return 0;
    };
    let mut rest = value;
    for place in places {
        *place = b'0' + (rest / unit) as u8;
        rest %= unit;
        unit /= 10;
    }
    digits
}

#[cfg(test)]
mod tests {
    use super::*;
    use crate::chance::Chance;

    /// Most digits of a number of 64 bits.
    const MOST_DIGITS: usize = 20;

    /// Parts have up to so many bytes.
    const MOST_BYTES: usize = 24;

    /// Writes a number into parts of every size, their bytes all different
    /// before it, and compares with the standard library's digits.
    fn compare(value: u64, first: u8) {
        let text = value.to_string();
        for size in 0..=MOST_BYTES {
            let before: Vec<u8> = (0..size).map(|i| first.wrapping_add((7 * i) as u8)).collect();
            let mut part = before.clone();
            let used = put_number(&mut part, value);
            if size < text.len() {
                assert_eq!((used, part), (0, before), "{value} in {size}");
            } else {
                assert_eq!(used, text.len(), "{value} in {size}");
                assert_eq!(&part[..used], text.as_bytes(), "{value} in {size}");
                assert_eq!(part[used..], before[used..], "{value} in {size}");
            }
        }
    }

    /// Every byte comes up as a part's first one.
    fn compare_all(value: u64) {
        for first in 0..=255 {
            compare(value, first);
        }
    }

    #[test]
    fn numbers_as_bytes() {
        let written = |size, value| {
            let mut part = vec![b'#'; size];
            let used = put_number(&mut part, value);
            (used, String::from_utf8(part).unwrap())
        };
        for (value, size, used, after) in [
            (0, 0, 0, ""),
            (0, 1, 1, "0"),
            (0, 3, 1, "0##"),
            (10, 1, 0, "#"),
            (10, 2, 2, "10"),
            (10, 3, 2, "10#"),
            (4_294_967_295, 9, 0, "#########"),
            (4_294_967_295, 10, 10, "4294967295"),
            (4_294_967_295, 11, 10, "4294967295#"),
            (10_020_300_400_005_000_000, 20, 20, "10020300400005000000"),
            (18_446_744_073_709_551_615, 19, 0, "###################"),
            (18_446_744_073_709_551_615, 20, 20, "18446744073709551615"),
            (18_446_744_073_709_551_615, 21, 20, "18446744073709551615#"),
        ] {
            assert_eq!(written(size, value), (used, after.to_string()));
        }
    }

    #[test]
    fn powers_of_ten_and_their_neighbours() {
        for power in 0..MOST_DIGITS as u32 {
            let ten = 10u64.pow(power);
            for value in [ten - 1, ten, ten + 1] {
                compare_all(value);
            }
            // The same digit at every place, and multiples of the power.
            for digit in 1..=9 {
                compare_all((ten - 1) / 9 * digit);
                if let Some(value) = ten.checked_mul(digit) {
                    compare_all(value);
                }
            }
        }
    }

    #[test]
    fn powers_of_two_and_their_neighbours() {
        for bit in 0..u64::BITS {
            let two = 1u64 << bit;
            for value in [two - 1, two, two + 1] {
                compare_all(value);
            }
        }
        let most = u64::from(u32::MAX);
        for value in [0, most - 1, most, most + 1, most + 2, u64::MAX - 1, u64::MAX] {
            compare_all(value);
        }
    }

    #[test]
    fn small_numbers() {
        for value in 0..=10_000 {
            compare(value, (value % 251) as u8);
        }
    }

    #[test]
    fn drawn_numbers() {
        let mut chance = Chance::new(1);
        let mut met = [0; MOST_DIGITS + 1];
        for _ in 0..200_000 {
            let value = chance.draw() >> chance.below(64);
            compare(value, chance.below(256) as u8);
            met[value.to_string().len()] += 1;
        }
        assert!(met[1..].iter().all(|&count| count > 1_000), "{met:?}");
    }
}
