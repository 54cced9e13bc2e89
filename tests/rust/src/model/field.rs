//! Number fields: decimal digits, right-justified, the columns in front of
//! them filled either by blanks or by zeros. Behind blanks stands no leading
//! zero, and zero is one digit 0; a field whose first column is a digit 0 is
//! filled by zeros and has digits only.

/// The highest value of a field: nineteen nines.
pub const LIMIT: u64 = 9_999_999_999_999_999_999;

/// What a number field says.
#[derive(Clone, Copy, Debug, PartialEq, Eq)]
pub struct Reading {
    pub value: u64,
    /// Zeros fill the field: its first column is a digit 0.
    pub zeros: bool,
}

/// The reading of a field, or none when the bytes are no number field or the
/// value is above the limit.
pub fn read(field: &[u8]) -> Option<Reading> {
    let zeros = field.first() == Some(&b'0');
    let blanks = field.iter().take_while(|&&byte| byte == b' ').count();
    let digits = &field[blanks..];
    if digits.is_empty() {
        return None;
    }
    if blanks > 0 && digits[0] == b'0' && digits.len() > 1 {
        return None;
    }
    let value = digits.iter().try_fold(0u64, |value, digit| {
        if !digit.is_ascii_digit() {
            return None;
        }
        value.checked_mul(10)?.checked_add(u64::from(digit - b'0'))
    })?;
    (value <= LIMIT).then_some(Reading { value, zeros })
}

/// The value of a field as marks have them: none where zeros fill it.
pub fn read_without_zeros(field: &[u8]) -> Option<u64> {
    read(field)
        .filter(|reading| !reading.zeros)
        .map(|reading| reading.value)
}

/// A field of `width` columns, blanks in front; of a longer value the lowest
/// digits stay.
pub fn write(width: usize, value: u64) -> Vec<u8> {
    last(width, format!("{value:>width$}"))
}

/// The same with zeros in front.
pub fn write_zeros(width: usize, value: u64) -> Vec<u8> {
    last(width, format!("{value:0>width$}"))
}

/// The last columns of a text that has at least as many.
fn last(width: usize, text: String) -> Vec<u8> {
    text.as_bytes()[text.len() - width..].to_vec()
}

#[cfg(test)]
mod tests {
    use super::*;

    fn blanks(value: u64) -> Option<Reading> {
        let zeros = false;
        Some(Reading { value, zeros })
    }

    fn zeros(value: u64) -> Option<Reading> {
        let zeros = true;
        Some(Reading { value, zeros })
    }

    #[test]
    fn reads_by_hand() {
        assert_eq!(read(b"   0"), blanks(0));
        assert_eq!(read(b"  12"), blanks(12));
        assert_eq!(read(b"   7"), blanks(7));
        assert_eq!(read(b"0012"), zeros(12));
        assert_eq!(read(b"0000"), zeros(0));
        assert_eq!(read(b"0007"), zeros(7));
        assert_eq!(read(b"0999"), zeros(999));
        // Filled by neither.
        assert_eq!(read(b"1234"), blanks(1234));
        assert_eq!(read(b"9999"), blanks(9999));
        assert_eq!(read(b"1000"), blanks(1000));
        // One column, with a digit 0 in it or another.
        assert_eq!(read(b"0"), zeros(0));
        assert_eq!(read(b"5"), blanks(5));
    }

    #[test]
    fn no_numbers_by_hand() {
        // Two fillings.
        for field in [b" 012", b"0 12", b"00 1", b"  00", b" 000", b"0  0"] {
            assert_eq!(read(field), None);
        }
        // Not to the right.
        for field in [b"12  ", b"012 ", b"0   ", b"000 ", b"1 2 ", b"1 12"] {
            assert_eq!(read(field), None);
        }
        // No digits, or other bytes.
        for field in [
            b"    ", b"  -1", b"+001", b"00x1", b"000\n", b"0\t12", b"00:0",
        ] {
            assert_eq!(read(field), None);
        }
        assert_eq!(read(b""), None);
        assert_eq!(read(b" "), None);
        assert_eq!(read(b"x"), None);
    }

    #[test]
    fn limit_by_hand() {
        assert_eq!(read(b"9999999999999999999"), blanks(LIMIT));
        assert_eq!(read(b" 9999999999999999999"), blanks(LIMIT));
        assert_eq!(read(b"09999999999999999999"), zeros(LIMIT));
        assert_eq!(read(b"09999999999999999998"), zeros(LIMIT - 1));
        assert_eq!(read(b"00000000000000000012"), zeros(12));
        assert_eq!(read(b"10000000000000000000"), None);
        assert_eq!(read(b" 10000000000000000000"), None);
        assert_eq!(read(b"010000000000000000000"), None);
        // 2 to the 64th, one less and one more.
        assert_eq!(read(b"0018446744073709551615"), None);
        assert_eq!(read(b"0018446744073709551616"), None);
        assert_eq!(read(b"0018446744073709551617"), None);
        // A hundred zeros, then a 7; a 1, then a hundred zeros.
        let wide = [&[b'0'; 100][..], b"7"].concat();
        assert_eq!(read(&wide), zeros(7));
        assert_eq!(read(&[b'0'; 100]), zeros(0));
        let above = [b"1", &[b'0'; 100][..]].concat();
        assert_eq!(read(&above), None);
        assert_eq!(read(&[b"0", &above[..]].concat()), None);
    }

    #[test]
    fn reads_without_zeros_by_hand() {
        assert_eq!(read_without_zeros(b"   0"), Some(0));
        assert_eq!(read_without_zeros(b"  12"), Some(12));
        assert_eq!(read_without_zeros(b"1234"), Some(1234));
        assert_eq!(read_without_zeros(b"0012"), None);
        assert_eq!(read_without_zeros(b"0000"), None);
        assert_eq!(read_without_zeros(b" 012"), None);
        assert_eq!(read_without_zeros(b"00000000000000000000"), None);
        assert_eq!(read_without_zeros(b" 9999999999999999999"), Some(LIMIT));
        assert_eq!(read_without_zeros(b"09999999999999999999"), None);
    }

    #[test]
    fn writes_by_hand() {
        assert_eq!(write(4, 0), b"   0");
        assert_eq!(write(4, 12), b"  12");
        assert_eq!(write(4, 9999), b"9999");
        assert_eq!(write(4, 12345), b"2345");
        assert_eq!(write(4, 10020), b"0020");
        assert_eq!(write(0, 7), b"");
        assert_eq!(write(20, u64::MAX), b"18446744073709551615");
    }

    #[test]
    fn writes_zeros_by_hand() {
        assert_eq!(write_zeros(4, 0), b"0000");
        assert_eq!(write_zeros(4, 12), b"0012");
        assert_eq!(write_zeros(4, 9999), b"9999");
        assert_eq!(write_zeros(4, 12345), b"2345");
        assert_eq!(write_zeros(0, 7), b"");
        assert_eq!(write_zeros(20, LIMIT), b"09999999999999999999");
    }
}
