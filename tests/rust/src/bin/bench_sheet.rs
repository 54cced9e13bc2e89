//! Times the library's sheet reader beside the model's on a full sheet, 128
//! atoms and 1,024 bonds, filled by blanks, by zeros, and by either from field
//! to field at random. It reports and never fails on time. Both read the
//! whole sheet and make the whole record; the model takes memory for its
//! lines and its rows at every call, the library writes into one buffer.

use flat_tests::rng::Rng;
use flat_tests::timing::{self, REPETITIONS, ROUNDS};
use flat_tests::{black_box, ffi, generate, model};

fn main() {
    let blanks = generate::random_molecule(&mut Rng::new(1), 128, 1024).sheet();
    let zeros = generate::zero_filled(&blanks);
    let mixed = generate::mixed(&mut Rng::new(2), &blanks);
    println!(
        "sheets of {} bytes, {ROUNDS} rounds of {REPETITIONS} calls each, medians",
        blanks.len()
    );
    let expected = model::sheet::read(&blanks).expect("a right sheet").bytes();
    for (filling, sheet) in [
        ("filled by blanks", blanks),
        ("filled by zeros", zeros),
        ("each field filled by blanks or zeros", mixed),
    ] {
        println!("{filling}");
        report(&sheet, &expected);
    }
}

/// Times both readers on one sheet, after both have made the record.
fn report(sheet: &[u8], expected: &[u8]) {
    let mut record = vec![0; model::RECORD];
    assert_eq!(ffi::read_sheet(sheet, &mut record), 0);
    let read = model::sheet::read(sheet).expect("a right sheet");
    assert!(
        record == expected && read.bytes() == expected,
        "the records differ"
    );

    let library = || {
        black_box(ffi::read_sheet(black_box(sheet), black_box(&mut record)));
    };
    let rust = || {
        let _ = black_box(model::sheet::read(black_box(sheet)));
    };
    timing::report("sheet", library, rust);
}
