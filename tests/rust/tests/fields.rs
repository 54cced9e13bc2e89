//! Number fields of any width against the model: the value, and whether zeros
//! fill the field.

use flat_tests::guard::Guarded;
use flat_tests::model::field::{self, Reading, LIMIT};
use flat_tests::rng::Rng;
use flat_tests::{ffi, sample, sampled};

const WIDEST: usize = 24;

/// Compares library and model on one field; its reading, if it is a number.
fn compare_read(bytes: &[u8]) -> Option<Reading> {
    let given: Box<[u8]> = bytes.into();
    let answers = (ffi::read_field(&given), ffi::zero_filled(&given));
    let expected = field::read(bytes);
    assert_eq!(
        answers,
        expected.map_or((ffi::NO_FIELD, false), |reading| {
            (reading.value, reading.zeros)
        }),
        "field {:?}",
        bytes.escape_ascii().to_string()
    );
    expected
}

/// The reading of a field that zeros do not fill.
fn without_zeros(value: u64) -> Option<Reading> {
    let zeros = false;
    Some(Reading { value, zeros })
}

/// The reading of a field that zeros fill.
fn with_zeros(value: u64) -> Option<Reading> {
    let zeros = true;
    Some(Reading { value, zeros })
}

/// Compares library and model on one value and width; then the value read back,
/// from the text written and from the same text with zeros in front, is the one
/// written if it fits, and its lowest digits otherwise.
fn compare_write(width: usize, value: u64) {
    let mut given = Guarded::new(width, value ^ width as u64);
    ffi::write_field(given.buffer(), value);
    let expected = field::write(width, value);
    assert!(
        given.holds(&expected),
        "{value} in {width} columns: {:?}",
        given.buffer().escape_ascii().to_string()
    );
    let kept = match 10u64.checked_pow(width as u32) {
        Some(power) => value % power,
        None => value,
    };
    for text in [expected, field::write_zeros(width, value)] {
        let right = width > 0 && kept <= LIMIT;
        let zeros = text.first() == Some(&b'0');
        let reading = Reading { value: kept, zeros };
        assert_eq!(compare_read(&text), right.then_some(reading));
    }
}

/// Values around the powers of ten and of two, the limit and the end.
fn edge_values() -> Vec<u64> {
    let mut values = vec![0, LIMIT - 1, LIMIT, LIMIT + 1, u64::MAX - 1, u64::MAX];
    for power in 0..20 {
        let ten = 10u64.pow(power);
        values.extend([ten - 1, ten, ten + 1]);
        values.extend((2..10).filter_map(|digit| ten.checked_mul(digit)));
    }
    for power in 1..64 {
        values.extend([(1 << power) - 1, 1 << power]);
    }
    values
}

/// How many of the 4-column strings over some bytes are numbers, and how many of
/// these zeros fill.
fn count_four_columns(alphabet: &[u8], step: usize) -> (u64, u64) {
    let base = alphabet.len();
    let (mut numbers, mut zeros) = (0, 0);
    for number in (0..base.pow(4)).step_by(step) {
        let bytes = [3, 2, 1, 0].map(|place| alphabet[number / base.pow(place) % base]);
        if let Some(reading) = compare_read(&bytes) {
            numbers += 1;
            zeros += u64::from(reading.zeros);
        }
    }
    (numbers, zeros)
}

/// All 4-column strings over bytes that come near to fields.
#[test]
fn four_columns() {
    let counts = count_four_columns(b" 019/:\0\t", sample() as usize);
    // The digits are 0, 1 and 9. Of 1, 2 and 3 digits behind blanks:
    // 3 + 2 * 3 + 2 * 9; of 4 digits without a leading zero: 2 * 27; a digit 0
    // and any three digits: 27.
    if sample() == 1 {
        assert_eq!(counts, (27 + 54 + 27, 27));
    }
}

/// All 4-column strings over blank, 0, 1, 9, line feed and x, however small the
/// sample: 6 to the 4th. The digits, and so the counts, are those of the test
/// above: 27 filled by blanks, 54 by neither, 27 by zeros.
#[test]
fn four_columns_in_full() {
    let counts = count_four_columns(b" 019\nx", 1);
    assert_eq!(counts, (108, 27));
}

/// One field, one filling: the examples of the request.
#[test]
fn fillings_by_hand() {
    for (bytes, reading) in [
        (b"0012", with_zeros(12)),
        (b"0000", with_zeros(0)),
        (b"0007", with_zeros(7)),
        (b"0999", with_zeros(999)),
        (b"  12", without_zeros(12)),
        (b"   0", without_zeros(0)),
        (b"1234", without_zeros(1234)),
        (b"1000", without_zeros(1000)),
        (b" 012", None),
        (b"0 12", None),
        (b"00 1", None),
        (b"  00", None),
        (b"12  ", None),
        (b"012 ", None),
        (b"0   ", None),
        (b"    ", None),
    ] {
        assert_eq!(compare_read(bytes), reading, "{}", bytes.escape_ascii());
    }
    assert_eq!(compare_read(b"0"), with_zeros(0));
    assert_eq!(compare_read(b"7"), without_zeros(7));
    assert_eq!(compare_read(b" "), None);
    assert_eq!(compare_read(b""), None);
    assert_eq!(compare_read(b"00"), with_zeros(0));
    assert_eq!(compare_read(b" 0"), without_zeros(0));
    assert_eq!(compare_read(b"0 "), None);
}

/// Every byte value in every column of a few fields.
#[test]
fn every_byte() {
    for whole in [
        b"   0", b"   7", b"  10", b" 128", b"1024", b"    ", b"0000", b"0007", b"0010", b"0128",
    ] {
        for column in 0..4 {
            for byte in (0..=255).step_by(sample() as usize) {
                let mut bytes = *whole;
                bytes[column] = byte;
                compare_read(&bytes);
            }
        }
    }
}

/// Every number of 4 columns, written and read, in both fillings.
#[test]
fn every_number() {
    for value in (0..=20_000).step_by(sample() as usize) {
        compare_write(4, value);
    }
}

/// Random bytes of every width, most of them blanks or zeros, then digits.
#[test]
fn random_fields() {
    let cases = sampled(300_000);
    let (mut by_zeros, mut by_others, mut none) = (0, 0, 0);
    for case in 0..cases {
        let mut rng = Rng::of_case(0x4649_454C_4453, case);
        let width = (case as usize) % (WIDEST + 1);
        let filled = rng.index(width + 1);
        let filling = rng.pick(b" 0");
        let mut bytes: Vec<u8> = (0..width)
            .map(|column| match column {
                _ if column < filled => filling,
                _ if column == filled => rng.pick(b"1234567890"),
                _ => rng.pick(b"0123456789"),
            })
            .collect();
        if width > 0 && rng.one_in(3) {
            let at = rng.index(width);
            bytes[at] = match rng.below(3) {
                0 => rng.byte(),
                1 => rng.pick(b" 0/:\0\t\n\r-+"),
                _ => rng.pick(b" 019"),
            };
        }
        match compare_read(&bytes) {
            Some(Reading { zeros: true, .. }) => by_zeros += 1,
            Some(_) => by_others += 1,
            None => none += 1,
        }
    }
    println!("{cases} fields: {by_zeros} filled by zeros, {by_others} not, {none} no numbers");
    assert!(by_zeros >= sampled(50_000));
    assert!(by_others >= sampled(50_000));
    assert!(none >= sampled(50_000));
}

/// Random fields of 20 columns in both fillings: numbers of every length, numbers
/// about the limit, and either with one column changed.
#[test]
fn twenty_columns() {
    let cases = sampled(300_000);
    let (mut by_zeros, mut by_blanks, mut none) = (0, 0, 0);
    for case in 0..cases {
        let mut rng = Rng::of_case(0x5457_454E_5459, case);
        let value = match rng.below(4) {
            // From 5 below the limit to 5 above it, which has 20 digits.
            0 => u128::from(LIMIT) - 5 + u128::from(rng.below(11)),
            // Any value of 64 bits.
            1 => u128::from(rng.next()),
            // Any number of bits and of digits.
            2 => u128::from(rng.next() >> rng.below(64)),
            _ => {
                let digits = rng.below(20) as u32;
                u128::from(rng.below(10u64.pow(digits)))
            }
        };
        let zeros = rng.one_in(2);
        let text = match zeros {
            true => format!("{value:020}"),
            false => format!("{value:20}"),
        };
        let mut bytes = text.into_bytes();
        assert_eq!(bytes.len(), 20);
        let right = value <= u128::from(LIMIT);
        let whole = compare_read(&bytes);
        // A number of 20 digits is above the limit, and all others are filled.
        let value = value as u64;
        assert_eq!(whole, right.then_some(Reading { value, zeros }));
        let read = if rng.one_in(2) {
            let at = rng.index(20);
            bytes[at] = match rng.below(4) {
                0 => rng.byte(),
                1 => rng.pick(b"/:\0\t\n\r-+x"),
                2 => rng.pick(b"0123456789"),
                _ => rng.pick(b" 0"),
            };
            compare_read(&bytes)
        } else {
            whole
        };
        match read {
            Some(Reading { zeros: true, .. }) => by_zeros += 1,
            Some(_) => by_blanks += 1,
            None => none += 1,
        }
    }
    println!(
        "{cases} fields: {by_zeros} filled by zeros, {by_blanks} by blanks, {none} no numbers"
    );
    assert!(by_zeros >= sampled(50_000));
    assert!(by_blanks >= sampled(50_000));
    assert!(none >= sampled(50_000));
}

/// The limit, one above it, and numbers that wrap to small ones in 64 bits.
#[test]
fn limit() {
    assert_eq!(compare_read(b"9999999999999999999"), without_zeros(LIMIT));
    let below = b"9999999999999999998";
    assert_eq!(compare_read(below), without_zeros(LIMIT - 1));
    for width in 19..=WIDEST {
        let text = format!("{LIMIT:>width$}");
        assert_eq!(compare_read(text.as_bytes()), without_zeros(LIMIT));
        let text = format!("{LIMIT:0>width$}");
        let zeros = width > 19;
        let reading = Reading {
            value: LIMIT,
            zeros,
        };
        assert_eq!(compare_read(text.as_bytes()), Some(reading));
        for above in [
            "10000000000000000000",
            "10000000000000000001",
            "18446744073709551614",
            "18446744073709551615",
            "18446744073709551616",
            "18446744073709551617",
            "18446744073709551716",
            "36893488147419103233",
            "99999999999999999999",
            "184467440737095516160",
            "340282366920938463463374607431768211457",
        ] {
            for text in [format!("{above:>width$}"), format!("{above:0>width$}")] {
                assert_eq!(compare_read(text.as_bytes()), None);
            }
        }
        let text = format!("{:0>width$}", 7);
        assert_eq!(compare_read(text.as_bytes()), with_zeros(7));
        let text = format!("{:>width$}", "07");
        assert_eq!(compare_read(text.as_bytes()), None);
    }
    // Fields far wider than any used.
    for width in [100, 1_000, 65_535] {
        let read = |text: String| compare_read(text.as_bytes());
        assert_eq!(read(format!("{LIMIT:>width$}")), without_zeros(LIMIT));
        assert_eq!(read(format!("{LIMIT:0>width$}")), with_zeros(LIMIT));
        assert_eq!(read(format!("{:>width$}", LIMIT + 1)), None);
        assert_eq!(read(format!("{:0>width$}", LIMIT + 1)), None);
        assert_eq!(read(format!("{:0>width$}", u64::MAX)), None);
        assert_eq!(read(format!("{:>width$}", 0)), without_zeros(0));
        assert_eq!(read(format!("{:0>width$}", 7)), with_zeros(7));
        assert_eq!(compare_read(&vec![b' '; width]), None);
        assert_eq!(compare_read(&vec![b'0'; width]), with_zeros(0));
        assert_eq!(compare_read(&vec![b'1'; width]), None);
        compare_write(width, LIMIT);
    }
}

/// One other digit in every column of zeros, and one blank or wrong byte.
#[test]
fn among_zeros() {
    for width in [1, 2, 4, 19, 20, 21, 24, 100] {
        for column in 0..width {
            let mut bytes = vec![b'0'; width];
            for digit in 1..=9 {
                bytes[column] = b'0' + digit;
                let ten = 10u64.checked_pow((width - 1 - column) as u32);
                let value = ten.and_then(|ten| ten.checked_mul(digit.into()));
                let zeros = column > 0;
                let reading = value
                    .filter(|&value| value <= LIMIT)
                    .map(|value| Reading { value, zeros });
                assert_eq!(compare_read(&bytes), reading);
            }
            for byte in *b" x\n/:\0" {
                bytes[column] = byte;
                // A blank and then one 0 is a number.
                let right = byte == b' ' && width == 2 && column == 0;
                let reading = Reading {
                    value: 0,
                    zeros: false,
                };
                assert_eq!(compare_read(&bytes), right.then_some(reading));
            }
        }
    }
}

#[test]
fn edges_written() {
    for value in edge_values() {
        for width in 0..=WIDEST {
            compare_write(width, value);
        }
    }
}

#[test]
fn random_written() {
    for case in 0..sampled(300_000) {
        let mut rng = Rng::of_case(41, case);
        let value = rng.next() >> rng.below(64);
        compare_write((case as usize) % (WIDEST + 1), value);
    }
}
