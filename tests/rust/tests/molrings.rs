//! The program `molrings` against the model's text.

use std::path::Path;
use std::time::Duration;

use flat_tests::examples;
use flat_tests::generate;
use flat_tests::model::molfile::{ended, Molfile, END};
use flat_tests::molfiles::{self, of_one_element, CARBON, ENDS, KINDS, PHOSPHORUS};
use flat_tests::program::{MOLRINGS, MOST_OF_MOLFILE, RINGLIST};
use flat_tests::rng::Rng;
use flat_tests::{sample, sampled};

/// The document's molecule.
fn document() -> Molfile {
    of_one_element(&generate::document(), CARBON)
}

/// What is printed for the document's molecule.
const DOCUMENT: &str =
    "   1   2   3\n   1   3   4\n                   2                   3                  16\n";

/// An example's molecule, of carbon.
fn example(name: &str) -> Molfile {
    of_one_element(&generate::molecule_of(&examples::record(name)), CARBON)
}

/// A file with a line more, past its bonds, so that it has so many bytes up to the
/// line feed of M  END.
fn of_length(mut file: Molfile, end: &[u8], len: usize) -> Vec<u8> {
    file.properties.push(b"A".to_vec());
    let more = len - file.ended_by(end).len();
    file.properties[0].resize(1 + more, b' ');
    let bytes = file.ended_by(end);
    assert_eq!(bytes.len(), len);
    bytes
}

#[test]
fn document_molecule() {
    for end in ENDS {
        MOLRINGS.expect(&document().ended_by(end), DOCUMENT);
    }
    let nothing = "                   0                   0                   0\n";
    MOLRINGS.expect(&Molfile::new(&[], &[]).bytes(), nothing);
    MOLRINGS.expect(b"", "refused  18\n");
}

#[test]
fn refusals() {
    let file = |symbols, bonds| Molfile::new(symbols, bonds).bytes();
    let carbon = [CARBON; 4];
    let mut cut = document().bytes();
    cut.pop();
    for (rule, input) in [
        (18, cut),
        (18, generate::document().sheet()),
        (18, b"\n\n\n".to_vec()),
        (3, file(&[CARBON; 129], &[(0, 1)])),
        (19, file(&[*b"c  "], &[(0, 1)])),
        (6, file(&carbon, &[(1, 1), (0, 2)])),
        (6, file(&carbon, &[(1, 1), (5, 2)])),
        (7, file(&carbon, &[(1, 2), (2, 1), (3, 3)])),
        (8, file(&[*b"H  "; 4], &[(1, 2), (1, 3), (2, 1)])),
        (20, file(&[*b"H  "; 4], &[(1, 2), (1, 3)])),
    ] {
        MOLRINGS.expect(&input, &format!("refused{rule:4}\n"));
    }
}

/// The line feed of M  END as the last byte that is read, and as the one after it;
/// with nothing after it, and with more.
#[test]
fn longest_files() {
    let most = MOST_OF_MOLFILE;
    for (end, after) in [
        (ENDS[0], false),
        (ENDS[0], true),
        (ENDS[1], false),
        (ENDS[1], true),
    ] {
        for (len, right) in [
            (most - 1, true),
            (most, true),
            (most + 1, false),
            (most + 2, false),
        ] {
            let mut input = of_length(document(), end, len);
            if after {
                input.extend(document().bytes());
            }
            MOLRINGS.expect(&input, if right { DOCUMENT } else { "refused  18\n" });
        }
    }
    // One long line in the header, and many short ones.
    let mut long = document();
    long.header[1].resize(most - 1_000, b'x');
    MOLRINGS.expect(&long.bytes(), DOCUMENT);
    long.header[1].resize(most, b'x');
    MOLRINGS.expect(&long.bytes(), "refused  18\n");
    let mut many = document();
    many.properties = vec![Vec::new(); most - many.bytes().len()];
    MOLRINGS.expect(&many.bytes(), DOCUMENT);
    many.properties.push(Vec::new());
    MOLRINGS.expect(&many.bytes(), "refused  18\n");
}

/// Inputs of about as many bytes as are read, in which nothing follows M  END but
/// bytes that are not read, and such without M  END.
#[test]
fn longest_inputs() {
    let file = document().bytes();
    let open = &file[..file.len() - END.len() - 1];
    for len in [
        MOST_OF_MOLFILE - 1,
        MOST_OF_MOLFILE,
        MOST_OF_MOLFILE + 1,
        3 * MOST_OF_MOLFILE,
    ] {
        let mut input = file.clone();
        input.resize(len, b'\n');
        MOLRINGS.expect(&input, DOCUMENT);
        input.fill(b'\n');
        input[..open.len()].copy_from_slice(open);
        MOLRINGS.expect(&input, "refused  18\n");
        // M  END at the end, read or not.
        let at = len - END.len() - 1;
        input[at..len - 1].copy_from_slice(END);
        let right = len <= MOST_OF_MOLFILE;
        MOLRINGS.expect(&input, if right { DOCUMENT } else { "refused  18\n" });
    }
}

/// Several molfiles one after the other: the first is read.
#[test]
fn several_molfiles() {
    let mut files: Vec<Vec<u8>> = ["cubane", "adamantane", "prismane"]
        .map(|name| [example(name).bytes(), b"> <name>\n\n$$$$\n".to_vec()].concat())
        .to_vec();
    files.push(b"no molfile\n$$$$\n".to_vec());
    for first in 0..files.len() {
        files.rotate_left(usize::from(first > 0));
        let several = files.concat();
        assert!(MOLRINGS.run(&several) == MOLRINGS.run(&files[0]));
        MOLRINGS.compare(&several);
        MOLRINGS.compare(&several.repeat(sampled(400) as usize));
    }
}

/// Input in short pieces, as a slow line gives it, and input from a file.
#[test]
fn pieces() {
    let longest = of_length(document(), b"\r\n", MOST_OF_MOLFILE);
    let longer = of_length(document(), b"\n", MOST_OF_MOLFILE + 1);
    let pause = Some(Duration::from_micros(300));
    MOLRINGS.compare_in_pieces(&document().bytes(), 1, pause);
    for size in [7, 4_096] {
        MOLRINGS.compare_in_pieces(&document().ended_by(b"\r\n"), size, pause);
        MOLRINGS.compare_in_pieces(&example("dodecahedrane").bytes(), size, None);
    }
    for size in [100, 4_096, 65_537] {
        MOLRINGS.compare_in_pieces(&longest, size, None);
        MOLRINGS.compare_in_pieces(&longer, size, None);
    }
    let path = Path::new(env!("CARGO_TARGET_TMPDIR")).join("molrings.mol");
    for file in [example("cubane").bytes(), longest] {
        std::fs::write(&path, file).expect("a file is written");
        MOLRINGS.compare_file(&path);
    }
    std::fs::remove_file(&path).expect("a file");
}

/// The examples, as sheets and as molfiles: the same text.
#[test]
fn example_molecules() {
    for name in examples::NAMES {
        if sample() == 1 || name != "buckminsterfullerene" {
            let file = example(name).bytes();
            assert!(
                MOLRINGS.run(&file) == RINGLIST.run(&examples::bytes(name)),
                "{name}"
            );
            MOLRINGS.compare(&file);
        }
    }
}

#[test]
fn random_files() {
    for case in 0..sampled(1_500) {
        let mut rng = Rng::of_case(0x4D4F_4C38, case);
        let molecule = generate::any_searched(&mut rng);
        let file = of_one_element(&molecule, PHOSPHORUS);
        let bytes = match case % 3 {
            0 => ended(&file.lines(), |_| rng.pick(&ENDS)),
            _ => molfiles::changed_molfile(&mut rng, case % KINDS, file),
        };
        MOLRINGS.compare(&bytes);
    }
}

/// Buckminsterfullerene prints many times the memory that it may have.
#[test]
fn bounded_memory() {
    if sample() == 1 {
        MOLRINGS.bounded_memory(&example("buckminsterfullerene").bytes());
    }
}

#[test]
fn closed_output() {
    if sample() == 1 {
        let endless = of_one_element(&molfiles::most_bonds(), PHOSPHORUS);
        MOLRINGS.closed_output(&endless.bytes(), &example("cubane").bytes());
    }
}
