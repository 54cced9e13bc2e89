//! Times the library's molfile reader beside a plain one in Rust, on two files with
//! lines of ordinary length: the largest that is accepted, 128 atoms and 384 bonds,
//! and the largest with as many atoms, 999 bonds, which is refused by rule 20 when
//! all else has been tried. It reports and never fails on time. Both readers read the
//! whole file, take nothing from the heap, and write into one buffer.

use flat_tests::model::molfile::{self, Molfile};
use flat_tests::model::{plain_molfile, RECORD};
use flat_tests::molfiles::{most_bonds, of_one_element, PHOSPHORUS};
use flat_tests::rng::Rng;
use flat_tests::timing::{self, REPETITIONS, ROUNDS};
use flat_tests::{black_box, ffi, generate};

fn main() {
    println!("{ROUNDS} rounds of {REPETITIONS} calls each, medians");
    let accepted = of_one_element(&most_bonds(), PHOSPHORUS);
    let most = generate::random_molecule(&mut Rng::new(1), 128, 999);
    for (file, answer) in [(accepted, 0), (of_one_element(&most, PHOSPHORUS), 20)] {
        report(&file, answer);
    }
}

/// Times both readers on one file, after both have given the answer and, where it is
/// accepted, made the record.
fn report(file: &Molfile, answer: u32) {
    let bytes = file.bytes();
    let (n, m) = (file.atoms.len(), file.bonds.len());
    println!(
        "{n} atoms, {m} bonds, {} bytes, answer {answer}",
        bytes.len()
    );
    let (mut of_library, mut of_rust) = ([0; RECORD], [0; RECORD]);
    assert_eq!(ffi::read_molfile(&bytes, &mut of_library), answer);
    let read = plain_molfile::read(&bytes, &mut of_rust);
    assert_eq!(read.err().unwrap_or(0), answer);
    let expected = molfile::read(&bytes).map_or(vec![0; RECORD], |record| record.bytes());
    assert!(
        of_library[..] == expected && of_rust[..] == expected,
        "the records differ"
    );
    let library = || {
        let record = black_box(&mut of_library);
        black_box(ffi::read_molfile(black_box(&bytes), record));
    };
    let rust = || {
        let record = black_box(&mut of_rust);
        let _ = black_box(plain_molfile::read(black_box(&bytes), record));
    };
    timing::report("molfile", library, rust);
}
