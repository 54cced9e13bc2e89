//! The judge against the model, over rings, paths and lists near to them.

use flat_tests::generate::{self, Molecule};
use flat_tests::model::{judge, search, Record};
use flat_tests::rng::Rng;
use flat_tests::{ffi, sample, sampled};

/// Compares library and model on one list as a ring, and returns the answer.
fn compare_ring(record: &Record, lawful: bool, list: &[u8]) -> u32 {
    let given: Box<[u8]> = list.into();
    let answer = ffi::judge_ring(record.atoms, record.bonds, &record.rows, &given);
    let expected = judge::ring(record, lawful, list);
    assert_eq!(answer, expected, "ring {list:?} of {record:?}");
    answer
}

/// Compares library and model on one list as a path, and returns the answer.
fn compare_path(record: &Record, lawful: bool, s: u64, t: u64, list: &[u8]) -> u32 {
    let given: Box<[u8]> = list.into();
    let answer = ffi::judge_path(record.atoms, record.bonds, &record.rows, s, t, &given);
    let expected = judge::path(record, lawful, s, t, list);
    assert_eq!(answer, expected, "path {s} to {t} {list:?} of {record:?}");
    answer
}

fn expect_ring(molecule: &Molecule, list: &[u8], answer: u32) {
    let record = molecule.record();
    assert_eq!(compare_ring(&record, true, list), answer, "ring {list:?}");
}

fn expect_path(molecule: &Molecule, s: u64, t: u64, list: &[u8], answer: u32) {
    let record = molecule.record();
    let given = compare_path(&record, true, s, t, list);
    assert_eq!(given, answer, "path {s} to {t} {list:?}");
}

/// A list for a lawful record: true rings and paths, lists near to them, and
/// lists of any atoms.
fn any_list(rng: &mut Rng, record: &Record, found: &search::Found) -> Vec<u8> {
    let n = record.atoms;
    let a_ring = |rng: &mut Rng| match found.rings.len() {
        0 => generate::random_list(rng, n, 6),
        count => found.rings[rng.index(count)].clone(),
    };
    let a_path = |rng: &mut Rng| match found.paths.len() {
        0 => generate::random_list(rng, n, 6),
        count => found.paths[rng.index(count)].clone(),
    };
    match rng.below(12) {
        0 | 1 => a_ring(rng),
        2 | 3 => {
            let mut ring = a_ring(rng);
            generate::change_list(rng, n, &mut ring);
            ring
        }
        4 => {
            let mut ring = a_ring(rng);
            let turns = rng.index(ring.len() + 1);
            ring.rotate_left(turns);
            if rng.one_in(2) {
                ring.reverse();
            }
            ring
        }
        5 | 6 => a_path(rng),
        7 | 8 => {
            let mut path = a_path(rng);
            generate::change_list(rng, n, &mut path);
            path
        }
        // Consecutive atoms bonded, with chords or without.
        9 => {
            let longest = rng.between(1, 12) as usize;
            generate::walk(rng, record, longest)
        }
        10 => generate::random_list(rng, n, 8),
        _ => generate::random_list(rng, n, 300),
    }
}

/// Ends for a list: mostly its own.
fn any_ends(rng: &mut Rng, n: u64, list: &[u8]) -> (u64, u64) {
    let first = list.first().map_or(1, |&v| v.into());
    let last = list.last().map_or(2, |&v| v.into());
    match rng.below(16) {
        0 => (last, first),
        1 => (first, first),
        2 => (rng.between(0, n + 1), last),
        3 => (first, rng.between(0, n + 1)),
        4 => (generate::wild(rng, first), last),
        5 => (first, generate::wild(rng, last)),
        6 => (0, 0),
        7 => (generate::alias(rng, first), generate::alias(rng, last)),
        _ => (first, last),
    }
}

/// Breaks a rule of the record by one bit or one number, in most cases.
fn damage(rng: &mut Rng, record: &mut Record) {
    match rng.below(4) {
        0 => record.flip(rng.between(1, 128), rng.between(1, 128)),
        1 => record.atoms = generate::alias(rng, record.atoms),
        2 => record.bonds = generate::wild(rng, record.bonds),
        _ => record.bonds += 1,
    }
}

/// Two halves, so that they can run side by side.
#[test]
fn random_lists_1() {
    random_lists(0x4A55_4447);
}

#[test]
fn random_lists_2() {
    random_lists(0x4C49_5354);
}

fn random_lists(seed: u64) {
    const LISTS: u64 = 20;
    let molecules = sampled(3_900);
    let mut rings = [0u64; 12];
    let mut paths = [0u64; 12];
    let mut longest_ring = 0;
    let mut longest_path = 0;
    for case in 0..molecules {
        let mut rng = Rng::of_case(seed, case);
        let whole = generate::any_judged(&mut rng).record();
        let mut found = search::Found::default();
        if whole.atoms > 0 {
            let mut order: Vec<u8> = (1..=whole.atoms as u8).collect();
            rng.shuffle(&mut order);
            // Enough steps to go once around the longest ring.
            let steps = whole.atoms * whole.atoms + 500;
            for s in [1, rng.between(1, whole.atoms) as u8] {
                let more = search::from_atom(&whole, s, &order, steps);
                found.rings.extend(more.rings);
                found.paths.extend(more.paths);
                rng.shuffle(&mut order);
            }
        }
        let mut damaged = whole.clone();
        damage(&mut rng, &mut damaged);
        let damaged_lawful = damaged.is_lawful();
        for _ in 0..LISTS {
            let list = any_list(&mut rng, &whole, &found);
            let (s, t) = any_ends(&mut rng, whole.atoms, &list);
            let (record, lawful) = if rng.one_in(8) {
                (&damaged, damaged_lawful)
            } else {
                (&whole, true)
            };
            let ring = compare_ring(record, lawful, &list);
            let path = compare_path(record, lawful, s, t, &list);
            rings[ring as usize] += 1;
            paths[path as usize] += 1;
            if ring == 1 {
                longest_ring = longest_ring.max(list.len());
            }
            if path == 1 {
                longest_path = longest_path.max(list.len());
            }
        }
    }
    println!(
        "{} lists, ring answers {rings:?}, path answers {paths:?}",
        molecules * LISTS
    );
    println!("longest ring {longest_ring}, longest path {longest_path}");
    for answer in [0, 1, 9] {
        let count = rings[answer];
        assert!(count >= sampled(4_000), "ring {answer}: {count} times");
    }
    for answer in [0, 1, 9, 10, 11] {
        let count = paths[answer];
        assert!(count >= sampled(4_000), "path {answer}: {count} times");
    }
    if sample() == 1 {
        assert!(longest_ring >= 100 && longest_path >= 100);
    }
}

#[test]
fn document_lists() {
    let molecule = generate::document();
    expect_ring(&molecule, &[1, 2, 3], 1);
    expect_ring(&molecule, &[1, 3, 4], 1);
    // The bond 1-3 is a chord.
    expect_ring(&molecule, &[1, 2, 3, 4], 0);
    // The second atom is above the last.
    expect_ring(&molecule, &[1, 4, 3], 0);
    // The first atom is not the lowest.
    expect_ring(&molecule, &[3, 1, 2], 0);
    expect_ring(&molecule, &[1, 2, 4], 0);
    expect_ring(&molecule, &[], 0);
    expect_ring(&molecule, &[1], 0);
    expect_ring(&molecule, &[1, 2], 0);
    expect_ring(&molecule, &[0, 1, 2], 0);
    expect_ring(&molecule, &[1, 2, 5], 0);

    expect_path(&molecule, 2, 4, &[2, 1, 4], 1);
    expect_path(&molecule, 2, 4, &[2, 3, 4], 1);
    // The bonds 2-3 and 1-4 are chords.
    expect_path(&molecule, 2, 4, &[2, 1, 3, 4], 0);
    expect_path(&molecule, 4, 2, &[4, 1, 2], 1);
    expect_path(&molecule, 4, 2, &[2, 1, 4], 0);
    expect_path(&molecule, 1, 3, &[1, 3], 1);
    expect_path(&molecule, 1, 3, &[1, 2, 3], 0);
    expect_path(&molecule, 2, 4, &[2, 4], 0);
    expect_path(&molecule, 2, 4, &[2], 0);
    expect_path(&molecule, 2, 4, &[], 0);
    expect_path(&molecule, 0, 4, &[2, 1, 4], 10);
    expect_path(&molecule, 2, 5, &[2, 1, 4], 10);
    expect_path(&molecule, 0, 0, &[], 10);
    expect_path(&molecule, 5, 5, &[5], 10);
    expect_path(&molecule, 2, 2, &[2], 11);
    expect_path(&molecule, u64::MAX, 4, &[2, 1, 4], 10);
    expect_path(&molecule, 258, 4, &[2, 1, 4], 10);
}

/// Every list of up to five atoms from 0 to n + 1, as a path between its own
/// ends and between others.
#[test]
fn every_short_list() {
    let molecules = [
        Molecule::new(0, &[]),
        Molecule::new(1, &[]),
        Molecule::new(2, &[(1, 2)]),
        generate::ring(3),
        generate::document(),
        generate::ring(4),
        generate::complete(4),
    ];
    let mut yes = 0;
    for molecule in molecules {
        let record = molecule.record();
        let n = molecule.atoms;
        let base = n + 2;
        for len in 0..=5u32 {
            for number in (0..base.pow(len)).step_by(sample() as usize) {
                let list: Vec<u8> = (0..len)
                    .map(|place| (number / base.pow(place) % base) as u8)
                    .collect();
                yes += compare_ring(&record, true, &list);
                let ends = (number + u64::from(len)) % (base * base);
                yes += compare_path(&record, true, ends / base, ends % base, &list);
                if let (Some(&s), Some(&t)) = (list.first(), list.last()) {
                    yes += compare_path(&record, true, s.into(), t.into(), &list);
                }
            }
        }
    }
    assert!(sample() > 1 || yes > 50);
}

/// Lists that the library says yes to, by a search that asks it about every
/// list of different atoms, consecutive ones bonded.
fn rings_by_library(record: &Record) -> Vec<Vec<u8>> {
    fn extend(record: &Record, list: &mut Vec<u8>, rings: &mut Vec<Vec<u8>>) {
        if compare_ring(record, true, list) == 1 {
            rings.push(list.clone());
        }
        for v in 1..=record.atoms as u8 {
            let bonded = list
                .last()
                .map_or(true, |&last| record.bonded(last.into(), v.into()));
            if bonded && !list.contains(&v) {
                list.push(v);
                extend(record, list, rings);
                list.pop();
            }
        }
    }
    let mut rings = Vec::new();
    extend(record, &mut Vec::new(), &mut rings);
    rings
}

/// The rings of the reference molecules, as the document has them.
#[test]
fn reference_rings() {
    let rings = |molecule: &Molecule| rings_by_library(&molecule.record());
    assert!(rings(&Molecule::new(0, &[])).is_empty());
    assert!(rings(&generate::chain(3)).is_empty());
    assert_eq!(rings(&generate::ring(5)), [[1, 2, 3, 4, 5]]);
    assert_eq!(rings(&generate::complete(4)).len(), 4);
    assert_eq!(rings(&generate::document()), [[1, 2, 3], [1, 3, 4]]);
    assert_eq!(
        rings(&generate::two_to_three()),
        [[1, 3, 2, 4], [1, 3, 2, 5], [1, 4, 2, 5]]
    );
    if sample() == 1 {
        let cube = rings(&generate::cube());
        let long = |len| cube.iter().filter(|ring| ring.len() == len).count();
        assert_eq!((cube.len(), long(4), long(6)), (10, 6, 4));
    }
}

/// The longest ring and path, and each way to spoil them by one atom.
#[test]
fn longest_lists() {
    let ring = generate::ring(128);
    let all: Vec<u8> = (1..=128).collect();
    expect_ring(&ring, &all, 1);
    expect_path(&generate::chain(128), 1, 128, &all, 1);
    expect_path(&ring, 1, 128, &all, 0);
    expect_path(&ring, 1, 127, &all[..127], 1);
    let (ring_record, chain_record) = (ring.record(), generate::chain(128).record());
    for at in (0..128).step_by(sample().min(16) as usize) {
        for atom in [0, 129, 255, 1, 64, 128] {
            let mut list = all.clone();
            list[at] = atom;
            let right = list == all;
            assert_eq!(compare_ring(&ring_record, true, &list), right.into());
            assert_eq!(
                compare_path(&chain_record, true, 1, 128, &list),
                right.into()
            );
        }
    }
    // Each chord alone.
    for at in (2..127u64).step_by(sample().min(16) as usize) {
        let mut molecule = ring.clone();
        molecule.bonds.push((at - 1, at + 1));
        expect_ring(&molecule, &all, 0);
        expect_path(&molecule, 1, 127, &all[..127], 0);
    }
}

/// Rings and paths with more atoms after them, up to lengths that agree with
/// the true ones in their low bits.
#[test]
fn lists_that_go_on() {
    let all: Vec<u8> = (1..=128).collect();
    let cases = [
        (generate::document(), vec![1, 2, 3], vec![2, 1, 4]),
        (generate::ring(5), vec![1, 2, 3, 4, 5], vec![1, 2, 3, 4]),
        (generate::ring(128), all.clone(), all[..127].to_vec()),
        (generate::chain(128), vec![1, 2, 3], all),
    ];
    for (molecule, ring, path) in &cases {
        let (s, t) = (path[0].into(), path[path.len() - 1].into());
        let record = molecule.record();
        compare_ring(&record, true, ring);
        assert_eq!(compare_path(&record, true, s, t, path), 1);
        for more in [1, 2, 3, 127, 128, 129, 255, 256, 512, 65_536] {
            for filling in [0, 1, path[path.len() - 1], 129, 255] {
                let mut list = ring.clone();
                list.resize(ring.len() + more, filling);
                assert_eq!(compare_ring(&record, true, &list), 0);
                let mut list = path.clone();
                list.resize(path.len() + more, filling);
                assert_eq!(compare_path(&record, true, s, t, &list), 0);
            }
        }
    }
}

/// Rows of a wrong length are told before anything else.
#[test]
fn wrong_row_lengths() {
    for case in 0..sampled(2_000) {
        let mut rng = Rng::of_case(31, case);
        let record = generate::any_record(&mut rng, case % generate::RECORD_KINDS);
        let rows = generate::wrong_rows(&mut rng, &record);
        let list = generate::random_list(&mut rng, 8, 8);
        let (n, m) = (record.atoms, record.bonds);
        let (s, t) = (rng.below(10), rng.below(10));
        assert_eq!(ffi::judge_ring(n, m, &rows, &list), ffi::WRONG_LENGTH);
        assert_eq!(ffi::judge_path(n, m, &rows, s, t, &list), ffi::WRONG_LENGTH);
    }
}
