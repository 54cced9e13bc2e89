//! The program `ringlist` against the model's text.

use std::time::Duration;

use flat_tests::generate::{self, Molecule};
use flat_tests::program::{MOST_OF_SHEET, RINGLIST};
use flat_tests::rng::Rng;
use flat_tests::{examples, sample, sampled};

fn compare(input: &[u8]) {
    RINGLIST.compare(input);
}

fn expect(input: &[u8], text: &str) {
    RINGLIST.expect(input, text);
}

#[test]
fn document() {
    expect(
        b"   4   5\n   1   2\n   2   3\n   3   4\n   1   4\n   1   3\n",
        "   1   2   3\n   1   3   4\n                   2                   3                  16\n",
    );
    let nothing = "                   0                   0                   0\n";
    expect(b"   0   0\n", nothing);
    expect(b"", "refused   1\n");
}

#[test]
fn refusals() {
    for (rule, input) in [
        (1, "   4   5\n "),
        (1, "        "),
        (2, "   4   5\r"),
        (2, "   4  05\n"),
        (2, "   4 5  \n"),
        (2, " 004   5\n"),
        (2, "00040 05\n"),
        (2, "0004005 \n"),
        (3, " 129   0\n"),
        (4, "   41025\n"),
        (5, "   4   1\n"),
        (5, "   4   0\n   1   2\n"),
        (6, "   4   1\n   1   5\n"),
        (6, "   4   1\n   0   2\n"),
        (7, "   4   1\n   2   2\n"),
        (8, "   4   2\n   1   2\n   2   1\n"),
        (3, "01290000\n"),
        (5, "00040001\n"),
        (6, "0004   1\n   10005\n"),
        (8, "00040002\n   10002\n0002   1\n"),
    ] {
        expect(input.as_bytes(), &format!("refused{rule:4}\n"));
    }
}

/// Inputs around 65,529 bytes. All of them are read before the rules are tried.
#[test]
fn longest_inputs() {
    let lines = |count: usize| "   1   2\n".repeat(count).into_bytes();
    assert_eq!(lines(7_281).len(), MOST_OF_SHEET);
    expect(&lines(7_281), "refused   5\n");
    let mut last = lines(7_281);
    *last.last_mut().expect("many") = b'\r';
    expect(&last, "refused   2\n");
    let mut one_more = lines(7_281);
    one_more.push(b' ');
    expect(&one_more, "refused   1\n");
    // A multiple of 9 again, but above the highest number.
    expect(&lines(7_282), "refused   1\n");
    expect(&lines(7_280), "refused   5\n");
    expect(&lines(7_281)[..MOST_OF_SHEET - 1], "refused   1\n");
    expect(&lines(100_000), "refused   1\n");
    // The longest sheet that is accepted.
    let long = generate::random_molecule(&mut Rng::new(9), 128, 1024).sheet();
    assert_eq!(long.len(), 9_225);
    let mut spoiled = long.clone();
    spoiled[9_224] = b' ';
    expect(&spoiled, "refused   2\n");
    spoiled.truncate(9_216);
    expect(&spoiled, "refused   5\n");
}

/// Input in short pieces, as a slow line gives it, and input from a file.
#[test]
fn pieces() {
    for (input, pause) in [
        (
            generate::document().sheet(),
            Some(Duration::from_micros(300)),
        ),
        (examples::bytes("dodecahedrane"), None),
        ("   1   2\n".repeat(7_281).into_bytes(), None),
    ] {
        for size in [1, 7, 4_096] {
            RINGLIST.compare_in_pieces(&input, size, pause);
        }
    }
    RINGLIST.compare_file(&examples::folder().join("cubane.sheet"));
}

#[test]
fn example_sheets() {
    for name in examples::NAMES {
        if sample() == 1 || name != "buckminsterfullerene" {
            compare(&examples::bytes(name));
        }
    }
}

/// Sheets filled by zeros, and by both: the same text, with blanks as before.
#[test]
fn both_fillings() {
    let text = "   1   2   3\n   1   3   4\n                   2                   3                  16\n";
    expect(
        b"00040005\n00010002\n00020003\n00030004\n00010004\n00010003\n",
        text,
    );
    expect(
        b"0004   5\n   10002\n0002   3\n   30004\n00010004\n   1   3\n",
        text,
    );
    expect(
        b"00000000\n",
        "                   0                   0                   0\n",
    );
    let mut rng = Rng::new(10);
    let others = examples::NAMES
        .iter()
        .filter(|name| **name != "buckminsterfullerene");
    let mut sheets: Vec<Vec<u8>> = others.map(|name| examples::bytes(name)).collect();
    sheets.push(generate::ring(128).sheet());
    for _ in 0..sampled(200) {
        sheets.push(generate::any_searched(&mut rng).sheet());
    }
    for blanks in sheets {
        let text = RINGLIST.run(&blanks);
        assert!(text == RINGLIST.expected(&blanks));
        for sheet in [
            generate::zero_filled(&blanks),
            generate::mixed(&mut rng, &blanks),
        ] {
            assert!(RINGLIST.run(&sheet) == text, "{}", sheet.escape_ascii());
        }
    }
}

#[test]
fn reference_molecules() {
    for (molecule, ..) in generate::references() {
        compare(&molecule.sheet());
    }
    for molecule in [generate::cube(), generate::ring(128), generate::chain(128)] {
        compare(&molecule.sheet());
    }
    for n in [10, 15, 20, 25] {
        compare(&generate::complete(n).sheet());
    }
    compare(&Molecule::new(128, &[]).sheet());
}

#[test]
fn random_sheets() {
    let cases = sampled(1_500);
    for case in 0..cases {
        let mut rng = Rng::of_case(0x5249_4E47, case);
        let mut right = generate::any_searched(&mut rng).sheet();
        if rng.one_in(2) {
            right = generate::mixed(&mut rng, &right);
        }
        match case % 3 {
            0 => compare(&right),
            _ => {
                let kind = rng.between(2, 13);
                compare(&generate::changed_sheet(&mut rng, kind, right));
            }
        }
    }
}

/// Buckminsterfullerene prints many times the memory that it may have.
#[test]
fn bounded_memory() {
    if sample() == 1 {
        RINGLIST.bounded_memory(&examples::bytes("buckminsterfullerene"));
    }
}

#[test]
fn closed_output() {
    if sample() == 1 {
        let endless = generate::random_molecule(&mut Rng::new(3), 128, 400).sheet();
        RINGLIST.closed_output(&endless, &examples::bytes("cubane"));
    }
}
