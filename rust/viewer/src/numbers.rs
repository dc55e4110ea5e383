//! Numbers as the command writes them, read back: plain digits, digits in threes with commas between, and powers such as 2^40.

/// The whole number that a text says.
pub fn read<T: TryFrom<i128>>(text: &str) -> Option<T> {
    let (negative, size) = text.strip_prefix('-').map_or((false, text), |size| (true, size));
    let size = match size.split_once('^') {
        Some((base, exponent)) => digits(base)?.checked_pow(u32::try_from(digits(exponent)?).ok()?)?,
        None => digits(size)?,
    };
    T::try_from(if negative { -size } else { size }).ok()
}

/// The two numbers of `A..B`.
pub fn range(text: &str) -> Option<(i64, i64)> {
    let (low, high) = text.split_once("..")?;
    Some((read(low)?, read(high)?))
}

/// A number without a sign. Commas, if there are any, part the digits in threes.
fn digits(text: &str) -> Option<i128> {
    let groups: Vec<&str> = text.split(',').collect();
    let in_threes = (1..=3).contains(&groups[0].len()) && groups[1..].iter().all(|group| group.len() == 3);
    let plain = groups.concat();
    let is_number = (groups.len() == 1 || in_threes) && plain.bytes().all(|byte| byte.is_ascii_digit());
    is_number.then(|| plain.parse().ok())?
}

#[cfg(test)]
mod tests {
    use super::{range, read};

    #[test]
    fn numbers_are_read_as_they_are_written() {
        let cases = [
            ("0", 0),
            ("007", 7),
            ("47176870", 47_176_870),
            ("47,176,870", 47_176_870),
            ("-12,243", -12_243),
            ("2^40", 1 << 40),
            ("-2^62", -(1 << 62)),
            ("1,000^2", 1_000_000),
            ("5^0", 1),
        ];
        for (text, number) in cases {
            assert_eq!(read::<i64>(text), Some(number), "{text}");
        }
        assert_eq!(read::<u64>("18,446,744,073,709,551,615"), Some(u64::MAX));
    }

    #[test]
    fn what_is_no_number_is_not_read() {
        let cases = [
            "",
            "-",
            "--1",
            "+1",
            "1e3",
            "1.5",
            " 1",
            "1 ",
            "1,5",
            "1,0000",
            "1000,000",
            ",100",
            "100,",
            "1,,000",
            "^2",
            "2^",
            "2^-1",
            "2^3^4",
            "2^64",
            "2^1000000",
            "0x10",
            "１",
        ];
        for text in cases {
            assert_eq!(read::<u64>(text), None, "{text}");
        }
        assert_eq!(read::<u64>("-1"), None);
        assert_eq!(read::<u64>("18446744073709551616"), None);
        assert_eq!(read::<i64>(&"9".repeat(1000)), None);
    }

    #[test]
    fn a_range_has_two_numbers() {
        assert_eq!(range("-12,243..45"), Some((-12_243, 45)));
        assert_eq!(range("-2^40..-1"), Some((-(1 << 40), -1)));
        for text in ["5", "5..", "..5", "1..2..3", "1...2", "2^63..2^63"] {
            assert_eq!(range(text), None, "{text}");
        }
    }
}
