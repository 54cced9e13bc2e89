//! The sheet reader against the model: the answer and every byte of the
//! record, over sheets that keep the rules and sheets that break them.

use flat_tests::generate::{self, line, mixed, random_molecule, sheet, zero_filled};
use flat_tests::generate::{Molecule, EDGES, SHEET_KINDS};
use flat_tests::guard::Guarded;
use flat_tests::model::{self, MAX_ATOMS, MAX_BONDS, RECORD};
use flat_tests::rng::Rng;
use flat_tests::{ffi, sample, sampled};

/// Compares library and model on one sheet, and returns the answer.
fn compare(sheet: &[u8], seed: u64) -> u32 {
    // A copy of exactly the sheet's length, so that reads past its end show
    // under valgrind.
    let given: Box<[u8]> = sheet.into();
    let mut record = Guarded::new(RECORD, seed);
    let answer = ffi::read_sheet(&given, record.buffer());
    let start = &sheet[..sheet.len().min(720)];
    let case = || {
        format!(
            "case {seed}, a sheet of {} bytes: {}",
            sheet.len(),
            start.escape_ascii()
        )
    };
    match model::sheet::read(sheet) {
        Ok(expected) => {
            assert_eq!(answer, 0, "{}", case());
            assert!(record.holds(&expected.bytes()), "record of {}", case());
        }
        Err(refusal) => {
            assert_eq!(answer, refusal, "{}", case());
            assert!(record.is_untouched(), "record of the refused {}", case());
        }
    }
    assert!(*given == *sheet, "input written, {}", case());
    answer
}

/// Compares, and asserts the answer itself.
fn expect(answer: u32, sheet: &[u8]) {
    assert_eq!(compare(sheet, 1), answer, "{}", sheet.escape_ascii());
}

/// The answer to a sheet, and the record if it is accepted.
fn answer_and_record(sheet: &[u8]) -> (u32, Option<Vec<u8>>) {
    let mut record = vec![0xAA; RECORD];
    let answer = ffi::read_sheet(sheet, &mut record);
    (answer, (answer == 0).then_some(record))
}

/// Every second sheet of each kind has both fillings.
#[test]
fn random_sheets() {
    let cases = sampled(240_000);
    let mut counts = [0u64; 9];
    for case in 0..cases {
        let mut rng = Rng::of_case(0x5348_4545_5453, case);
        let mut sheet = generate::any_sheet(&mut rng, case % SHEET_KINDS);
        if case / SHEET_KINDS % 2 == 1 {
            sheet = mixed(&mut rng, &sheet);
        }
        counts[compare(&sheet, case) as usize] += 1;
    }
    println!("{cases} sheets, answers 0 to 8: {counts:?}");
    for (answer, &count) in counts.iter().enumerate() {
        assert!(
            count >= sampled(500),
            "answer {answer} occurred {count} times"
        );
    }
}

#[test]
fn document_sheet() {
    let text = b"   4   5\n   1   2\n   2   3\n   3   4\n   1   4\n   1   3\n";
    assert_eq!(generate::document().sheet(), text);
    expect(0, text);
    let mut record = vec![0xAA; RECORD];
    assert_eq!(ffi::read_sheet(text, &mut record), 0);
    let mut expected = vec![0; RECORD];
    expected[0] = 4;
    expected[2] = 5;
    expected[4] = 0b1110;
    expected[4 + 16] = 0b0101;
    expected[4 + 32] = 0b1011;
    expected[4 + 48] = 0b0101;
    assert_eq!(record, expected);
    // The same sheet filled by zeros, and by both.
    for other in [
        b"00040005\n00010002\n00020003\n00030004\n00010004\n00010003\n",
        b"0004   5\n   10002\n0002   3\n   30004\n00010004\n   1   3\n",
    ] {
        expect(0, other);
        let mut record = vec![0xAA; RECORD];
        assert_eq!(ffi::read_sheet(other, &mut record), 0);
        assert_eq!(record, expected);
    }
    assert_eq!(
        zero_filled(text),
        b"00040005\n00010002\n00020003\n00030004\n00010004\n00010003\n"
    );
}

/// Any molecule's sheet filled by zeros, and by blanks or zeros from field to
/// field: the record is that of the sheet filled by blanks, byte for byte.
#[test]
fn both_fillings() {
    let cases = sampled(40_000);
    let mut with_both = 0;
    for case in 0..cases {
        let mut rng = Rng::of_case(0x46_494C_4C31, case);
        let blanks = generate::any_molecule(&mut rng).sheet();
        let (answer, record) = answer_and_record(&blanks);
        assert_eq!(answer, 0);
        let (zeros, mixed) = (zero_filled(&blanks), mixed(&mut rng, &blanks));
        for sheet in [&zeros, &mixed] {
            assert_eq!(compare(sheet, case), 0);
            assert!(
                answer_and_record(sheet).1 == record,
                "record of case {case}"
            );
        }
        with_both += u64::from(mixed != blanks && mixed != zeros);
    }
    println!("{cases} molecules, {with_both} sheets with both fillings");
    assert!(with_both >= cases / 2);
}

/// Sheets with each kind of damage: in other fillings they get the same answer,
/// and the same record if they are accepted all the same.
#[test]
fn damage_in_both_fillings() {
    let cases = sampled(80_000);
    let mut counts = [0u64; 9];
    let mut changed = 0;
    for case in 0..cases {
        let mut rng = Rng::of_case(0x46_494C_4C32, case);
        let sheet = generate::any_sheet(&mut rng, case % SHEET_KINDS);
        let expected = answer_and_record(&sheet);
        assert_eq!(compare(&sheet, case), expected.0);
        for other in [zero_filled(&sheet), mixed(&mut rng, &sheet)] {
            assert_eq!(compare(&other, case), expected.0);
            assert!(
                answer_and_record(&other) == expected,
                "record of case {case}"
            );
            changed += u64::from(other != sheet);
        }
        counts[expected.0 as usize] += 1;
    }
    println!("{cases} sheets, answers 0 to 8: {counts:?}, {changed} refilled sheets");
    for (answer, &count) in counts.iter().enumerate() {
        assert!(
            count >= sampled(500),
            "answer {answer} occurred {count} times"
        );
    }
    assert!(changed >= cases);
}

/// Both fillings in one field, which makes it no number: each kind of field, and
/// of each number every row of blanks and zeros in front but the two that are
/// fillings.
#[test]
fn two_fillings_in_a_field() {
    let whole = sheet(128, 2, &[(3, 128), (12, 99)]);
    let mut refused = 0;
    for value in [0, 1, 2, 7, 9, 10, 12, 99, 100, 128, 999] {
        let digits = value.to_string();
        let free = 4 - digits.len();
        for set in 0..1u32 << free {
            let front: String = (0..free)
                .map(|column| if set >> column & 1 == 1 { '0' } else { ' ' })
                .collect();
            let uniform = front.bytes().all(|byte| byte == front.as_bytes()[0]);
            for at in [0, 4, 9, 13, 18, 22] {
                let mut sheet = whole.clone();
                sheet[at..at + 4].copy_from_slice(format!("{front}{digits}").as_bytes());
                let answer = compare(&sheet, value);
                assert_eq!(answer == 2, !uniform, "{}", sheet.escape_ascii());
                refused += u64::from(answer == 2);
            }
        }
    }
    // One digit: 8 - 2 rows of three; two digits: 4 - 2 rows of two; three
    // digits: none. Five and three numbers, six places.
    assert_eq!(refused, (5 * 6 + 3 * 2) * 6);
    for text in [
        "0 12", "00 1", "012 ", "12  ", "0   ", "1 02", " 0 1", "000 ", "0\n12", "0x12",
    ] {
        for at in [0, 4, 9, 13, 18, 22] {
            let mut sheet = whole.clone();
            sheet[at..at + 4].copy_from_slice(text.as_bytes());
            expect(2, &sheet);
        }
    }
}

/// Every field over blank, 0, 1, 9, line feed and x, 6 to the 4th, in every kind
/// of field. 108 of them are numbers: 27 filled by blanks, 54 by neither, 27 by
/// zeros (see the number fields).
#[test]
fn every_field() {
    let whole = sheet(128, 1, &[(3, 12)]);
    for at in [0, 4, 9, 13] {
        let mut numbers = 0;
        for number in 0..6usize.pow(4) {
            let mut sheet = whole.clone();
            for (place, byte) in sheet[at..at + 4].iter_mut().enumerate() {
                *byte = b" 019\nx"[number / 6usize.pow(place as u32) % 6];
            }
            numbers += u64::from(compare(&sheet, number as u64) != 2);
        }
        assert_eq!(numbers, 108, "fields at {at}");
    }
}

/// Every set of rules broken at once, with the lines that break the later
/// rules after, and before, those that break the earlier ones.
#[test]
fn sets_of_broken_rules() {
    let base = random_molecule(&mut Rng::new(11), MAX_ATOMS, MAX_BONDS + 2);
    for set in 0..256u32 {
        if u64::from(set) % sample().min(8) != 0 {
            continue;
        }
        let broken = |rule: u32| set & (1 << (rule - 1)) != 0;
        for later_first in [false, true] {
            let mut bonds = base.bonds.clone();
            let mut count = MAX_BONDS as usize;
            if broken(4) {
                count += 1;
            }
            let m = count as u64;
            if broken(5) {
                count = if later_first { count + 1 } else { count - 1 };
            }
            bonds.truncate(count);
            // Places in the sheet for the bonds that break rules 6, 7, 8, and
            // for the byte that breaks rule 2.
            let mut places = [10, 400, 700, 1000];
            if later_first {
                places.reverse();
            }
            let [place2, place6, place7, place8] = places;
            if broken(6) {
                bonds[place6].1 = if later_first { 0 } else { 9999 };
            }
            if broken(7) {
                bonds[place7].0 = bonds[place7].1;
            }
            if broken(8) {
                let (a, b) = bonds[place8 - 1];
                bonds[place8] = if later_first { (a, b) } else { (b, a) };
            }
            let n = if broken(3) { 129 } else { 128 };
            let mut sheet = sheet(n, m, &bonds);
            if broken(2) {
                sheet[(place2 + 1) * 9 + 8] = b'\r';
            }
            if broken(1) {
                if later_first {
                    sheet.push(b' ');
                } else {
                    sheet.pop();
                }
            }
            let lowest = (1..=8).find(|&rule| broken(rule)).unwrap_or(0);
            assert_eq!(compare(&sheet, set.into()), lowest, "rules {set:#b}");
        }
    }
}

/// The edge values in every kind of field.
#[test]
fn edges() {
    let mut rng = Rng::new(12);
    for value in EDGES {
        // n, with no bonds and with bonds named up to 9.
        compare(&sheet(value, 0, &[]), value);
        compare(&sheet(value, 2, &[(1, 9), (9, 2)]), value);
        // m, with as many bonds, one fewer and one more, all different.
        for lines in [value.saturating_sub(1), value, value + 1] {
            let all = random_molecule(&mut rng, MAX_ATOMS, lines.min(8128));
            let answer = compare(&sheet(MAX_ATOMS, value, &all.bonds), value);
            let expected = match () {
                () if value > MAX_BONDS => 4,
                () if lines != value => 5,
                () => 0,
            };
            assert_eq!(answer, expected, "m {value}, {lines} bonds");
        }
        // Either atom of the first, a middle and the last bond.
        for n in [9, 99, 127, 128] {
            let whole = random_molecule(&mut rng, n, 30);
            for (at, first) in [(0, true), (0, false), (15, true), (29, false), (29, true)] {
                let mut molecule = whole.clone();
                let bond = &mut molecule.bonds[at];
                if first {
                    bond.0 = value;
                } else {
                    bond.1 = value;
                }
                let answer = compare(&molecule.sheet(), value);
                assert_eq!(answer == 6, value == 0 || value > n);
            }
        }
    }
}

/// Every number that a field can hold, in every kind of field and both fillings.
#[test]
fn every_value() {
    let mut rng = Rng::new(15);
    for value in (0..=9999).step_by(sample() as usize) {
        for sheet in [
            sheet(value, 0, &[]),
            sheet(5, value, &[]),
            sheet(5, value, &[(1, 2)]),
            sheet(128, 1, &[(value, 7)]),
            sheet(99, 1, &[(8, value)]),
        ] {
            let answer = compare(&sheet, value);
            assert_eq!(compare(&zero_filled(&sheet), value), answer);
            assert_eq!(compare(&mixed(&mut rng, &sheet), value), answer);
        }
    }
}

/// Every single bond of the largest molecule, in both orders.
#[test]
fn every_bond() {
    for pair in (0..128 * 128).step_by(sample() as usize) {
        let (a, b) = (pair / 128 + 1, pair % 128 + 1);
        expect(if a == b { 7 } else { 0 }, &sheet(128, 1, &[(a, b)]));
    }
}

/// Every byte value at every place of small sheets.
#[test]
fn every_byte() {
    let turned = Molecule::new(12, &[(10, 2), (1, 12)]).sheet();
    for whole in [
        zero_filled(&turned),
        b"00120002\n  100002\n0001  12\n".to_vec(),
        turned,
        generate::document().sheet(),
    ] {
        for case in (0..whole.len() * 256).step_by(sample() as usize) {
            let mut sheet = whole.clone();
            sheet[case / 256] = (case % 256) as u8;
            compare(&sheet, case as u64);
        }
    }
}

/// Every length up to one line past the end.
#[test]
fn every_length() {
    let mut small = generate::document().sheet();
    let right = small.len();
    small.extend_from_slice(&line(2, 4));
    for len in 0..=small.len() {
        let answer = match len {
            _ if len == right => 0,
            _ if len >= 9 && len % 9 == 0 => 5,
            _ => 1,
        };
        expect(answer, &small[..len]);
    }
    let mut full = random_molecule(&mut Rng::new(13), MAX_ATOMS, MAX_BONDS).sheet();
    full.extend_from_slice(&line(1, 1));
    for lines in (0..=1026).step_by(sample().min(27) as usize) {
        let answer = match lines {
            0 => 1,
            1025 => 0,
            _ => 5,
        };
        expect(answer, &full[..lines * 9]);
    }
}

/// Sheets whose length agrees with m only in its low bits.
#[test]
fn long_sheets() {
    for lines in [2 + 256, 2 + 65_536] {
        let long = sheet(2, 1, &vec![(1, 2); lines - 1]);
        expect(5, &long);
        let mut damaged = long;
        let last = damaged.len() - 1;
        damaged[last] = b'\r';
        expect(2, &damaged);
    }
}

/// The same bond twice at any two places, in either order.
#[test]
fn repeated_bonds() {
    let whole = random_molecule(&mut Rng::new(14), 60, 40);
    for case in (0..40 * 40 * 2).step_by(sample() as usize) {
        let (from, to, turned) = (case / 80, case / 2 % 40, case % 2 == 1);
        let mut molecule = whole.clone();
        let (a, b) = molecule.bonds[from];
        molecule.bonds[to] = if turned { (b, a) } else { (a, b) };
        expect(if from == to { 0 } else { 8 }, &molecule.sheet());
    }
}

/// A record of a wrong length is told before anything else, and left alone.
#[test]
fn wrong_record_lengths() {
    let sheets = [
        generate::document().sheet(),
        Vec::new(),
        b"   2   1\n   2   2\n".to_vec(),
        b"   2   1\n   2   2".to_vec(),
        sheet(0, 0, &[]),
    ];
    for sheet in &sheets {
        for len in [0, 1, 4, 2047, 2048, 2051, 2053, 2056, 4104, 2052 + 65_536] {
            let mut record = Guarded::new(len, len as u64);
            let answer = ffi::read_sheet(sheet, record.buffer());
            assert_eq!(answer, ffi::WRONG_LENGTH, "record of {len} bytes");
            assert!(record.is_untouched(), "record of {len} bytes");
        }
    }
}
