//! The record check against the model.

use flat_tests::generate::{self, random_molecule, Molecule};
use flat_tests::model::{Record, MAX_ATOMS, MAX_BONDS, ROWS};
use flat_tests::rng::Rng;
use flat_tests::{ffi, sample, sampled};

/// Compares library and model on one record, and returns the answer.
fn compare(record: &Record, case: u64) -> u32 {
    let rows: Box<[u8]> = record.rows.as_slice().into();
    let answer = ffi::check_record(record.atoms, record.bonds, &rows);
    let expected = if record.is_lawful() { 0 } else { 9 };
    assert_eq!(answer, expected, "case {case}: {record:?}");
    assert!(*rows == *record.rows, "rows written, case {case}");
    answer
}

/// Compares, and asserts the answer itself.
fn expect(answer: u32, record: &Record) {
    assert_eq!(compare(record, 0), answer, "{record:?}");
}

#[test]
fn random_records() {
    let cases = sampled(160_000);
    let (mut lawful, mut unlawful) = (0, 0);
    for case in 0..cases {
        let mut rng = Rng::of_case(0x5245_434F_5244, case);
        let record = generate::any_record(&mut rng, case % generate::RECORD_KINDS);
        match compare(&record, case) {
            0 => lawful += 1,
            _ => unlawful += 1,
        }
    }
    println!("{cases} records: {lawful} lawful, {unlawful} not");
    assert!(lawful >= sampled(30_000));
    assert!(unlawful >= sampled(30_000));
}

#[test]
fn wrong_row_lengths() {
    for case in 0..sampled(2_000) {
        let mut rng = Rng::of_case(21, case);
        let record = generate::any_record(&mut rng, case % generate::RECORD_KINDS);
        let rows = generate::wrong_rows(&mut rng, &record);
        let answer = ffi::check_record(record.atoms, record.bonds, &rows);
        assert_eq!(answer, ffi::WRONG_LENGTH, "{} bytes of rows", rows.len());
    }
}

/// Every bit of the rows of a molecule without bonds, of a small one and of
/// one with all its atoms.
#[test]
fn every_bit() {
    let whole = random_molecule(&mut Rng::new(22), MAX_ATOMS, MAX_BONDS);
    for record in [
        Record::new(128),
        generate::document().record(),
        whole.record(),
    ] {
        expect(0, &record);
        for bit in (0..128 * 128).step_by(sample() as usize) {
            let (a, b) = (bit / 128 + 1, bit % 128 + 1);
            let mut damaged = record.clone();
            damaged.flip(a, b);
            expect(9, &damaged);
        }
    }
}

/// Every bond of 128 atoms: right while its higher atom is at most n.
#[test]
fn every_bond() {
    for pair in (0..128 * 128).step_by(sample() as usize) {
        let (a, b) = (pair / 128 + 1, pair % 128 + 1);
        if a == b {
            continue;
        }
        let mut record = Record::new(a.max(b));
        record.join(a, b);
        expect(0, &record);
        record.atoms -= 1;
        expect(9, &record);
    }
}

/// Pairs of self bonds and of one-sided bits that leave the count right.
#[test]
fn counted_faults() {
    for a in (1..=127).step_by(sample().min(40) as usize) {
        let mut selves = Record::new(128);
        selves.set(a, a);
        selves.set(a + 1, a + 1);
        selves.bonds = 1;
        expect(9, &selves);

        let mut one_sided = Record::new(128);
        one_sided.set(a, a + 1);
        one_sided.set(a + 1, a % 126 + 1);
        one_sided.bonds = 1;
        expect(if a % 126 + 1 == a { 0 } else { 9 }, &one_sided);

        let mut beyond = Record::new(a);
        beyond.join(a, a + 1);
        expect(9, &beyond);
    }
}

/// The ranges of n and m, with everything else right.
#[test]
fn ranges() {
    for m in [0, 1, 1023, 1024, 1025, 1026, 4096, 8128] {
        let record = random_molecule(&mut Rng::new(m), MAX_ATOMS, m).record();
        expect(if m <= 1024 { 0 } else { 9 }, &record);
    }
    let document = generate::document().record();
    for atoms in (0..300).chain([1 << 16, 1 << 32, u64::MAX]) {
        let answer = if (4..=128).contains(&atoms) { 0 } else { 9 };
        let record = Record {
            atoms,
            ..document.clone()
        };
        expect(answer, &record);
    }
    // Counts of which the low bits, or those of their doubles, are right.
    for high in 8..64 {
        let bonds = 5 + (1 << high);
        let record = Record {
            bonds,
            ..document.clone()
        };
        expect(9, &record);
        let record = Record {
            bonds: 1 << high,
            ..Molecule::new(4, &[]).record()
        };
        expect(9, &record);
        let atoms = 4 + (1 << high);
        let record = Record {
            atoms,
            ..document.clone()
        };
        expect(9, &record);
    }
    // All bits set, with each count.
    for bonds in [0, 1024, 8192, u64::MAX] {
        let rows = vec![255; ROWS];
        expect(
            9,
            &Record {
                atoms: 128,
                bonds,
                rows,
            },
        );
    }
}
