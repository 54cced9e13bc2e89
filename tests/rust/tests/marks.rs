//! Marks, right and damaged, against the model's mark reader.

use flat_tests::compare::{Calls, Case, On};
use flat_tests::generate::{self, Molecule};
use flat_tests::model::carry::Form;
use flat_tests::model::field::LIMIT;
use flat_tests::model::list::{self, Listed, Lists, Reached, Task};
use flat_tests::model::machine::{Search, Stop};
use flat_tests::model::mark::{self, Bond, MARK_ROOM};
use flat_tests::model::{lister, Record};
use flat_tests::rng::Rng;
use flat_tests::spoil::{bond_places, bonds_from, lengthened, place, places, put, zero_fill};
use flat_tests::spoil::{with_bonds, with_lines, COUNTS, EDGES};
use flat_tests::{examples, sample, sampled, spoil, subject};

/// Compares the answer to a mark. An accepted one, saved again, gives the same
/// bytes; what it gives is a search that runs.
fn compare(calls: &mut Calls, lists: &dyn Lists, mark: &[u8]) -> Result<Search, u32> {
    let on = On::lawful(lists);
    let search = calls.restore(on, mark)?;
    let again = calls.save(on, &search, MARK_ROOM);
    assert_eq!(again.as_deref(), Ok(mark));
    Ok(search)
}

/// Marks of each kind on a few molecules at many places.
fn small_marks() -> Vec<(Record, Vec<Vec<u8>>)> {
    let marks_of = |(record, searches): (Record, Vec<Search>)| {
        let marks = searches.iter().map(|search| mark::write(&record, search));
        let marks = marks.collect();
        (record, marks)
    };
    subject::small_searches()
        .into_iter()
        .map(marks_of)
        .collect()
}

/// Every byte of many marks, with several values, and of a few with all.
#[test]
fn every_byte() {
    let mut calls = Calls::new(61);
    for (record, marks) in small_marks() {
        let lists = Listed::new(&record);
        for (number, mark) in marks.iter().enumerate() {
            assert!(compare(&mut calls, &lists, mark).is_ok());
            let all: Vec<u8> = (0..=255).collect();
            let several = [&b" 0123459\n\r\t\0/:-\xB1"[..]].concat();
            let bytes = if number % 8 == 1 { &all } else { &several };
            let step = sample().min(50) as usize;
            for at in (number % step..mark.len()).step_by(step) {
                let mut changed = mark.clone();
                for &byte in bytes.iter().step_by(sample().min(3) as usize) {
                    changed[at] = byte;
                    let _ = compare(&mut calls, &lists, &changed);
                }
                // One digit or blank for another: 1 up, 1 down, 10 up.
                for byte in [mark[at] ^ 1, mark[at] + 1, mark[at] - 1] {
                    changed[at] = byte;
                    let _ = compare(&mut calls, &lists, &changed);
                }
            }
        }
    }
    calls.print();
    calls.at_least(5_000, "restore", &[0, 14]);
    calls.at_least(500, "restore", &[15, 16, 17]);
}

/// Marks cut at every length and lengthened.
#[test]
fn every_length() {
    let mut calls = Calls::new(62);
    for (record, marks) in small_marks() {
        let lists = Listed::new(&record);
        for mark in marks.iter().step_by(sample().min(9) as usize) {
            for len in (0..mark.len()).step_by(sample().min(9) as usize) {
                assert_eq!(compare(&mut calls, &lists, &mark[..len]), Err(14));
                // The same with a line feed at its end, and without its front.
                let ended = [&mark[..len], b"\n"].concat();
                let whole = len + 1 == mark.len();
                assert_eq!(compare(&mut calls, &lists, &ended).is_ok(), whole);
                assert_eq!(compare(&mut calls, &lists, &mark[len + 1..]), Err(14));
            }
            for more in [
                "\n",
                " ",
                "\0",
                "   1",
                "   1\n",
                "\n\n\n\n",
                "    \n",
                "  11  12\n",
                " 127 128\n",
            ] {
                let longer = [mark, more.as_bytes()].concat();
                assert_eq!(compare(&mut calls, &lists, &longer), Err(14));
            }
            for len in [91, 99, 599, 603, 9_815, 9_824, 65_536 + mark.len()] {
                let mut other = mark.clone();
                other.resize(len, b' ');
                let same = len == mark.len();
                assert_eq!(compare(&mut calls, &lists, &other).is_ok(), same);
            }
        }
    }
    let record = Record::new(0);
    let lists = Listed::new(&record);
    assert_eq!(compare(&mut calls, &lists, b""), Err(14));
    assert_eq!(compare(&mut calls, &lists, b"\n\n\n"), Err(14));
}

/// Every byte of marks of larger molecules, with a dozen values: cages, and, of
/// every so many bytes, random molecules of 300 and of 1,024 bonds.
#[test]
fn every_byte_of_larger_marks() {
    let mut calls = Calls::new(78);
    let random = |n, m| generate::random_molecule(&mut Rng::new(m), n, m).record();
    for (record, p, step) in [
        (examples::record("dodecahedrane"), &[1, 2][..], 1),
        (examples::record("buckminsterfullerene"), &[1, 2, 3], 1),
        (random(100, 300), &[], 2),
        (random(128, 1024), &[], 11),
    ] {
        let reached = Reached::new(&record);
        let mark = mark::write(&record, &Search::at(Task::Rings, p, 2));
        assert_eq!(mark.len(), mark::size(p.len(), record.bonds as usize));
        assert!(compare(&mut calls, &reached, &mark).is_ok());
        for at in (0..mark.len()).step_by(step * sample().min(50) as usize) {
            for byte in *b" 0123459\n\rx\0" {
                let mut changed = mark.clone();
                changed[at] = byte;
                let answer = compare(&mut calls, &reached, &changed);
                // In a bond line no other byte is right.
                if at >= bonds_from(&mark) {
                    assert_eq!(answer.is_ok(), changed == mark, "at {at}, {byte}");
                    assert!(!matches!(answer, Err(16 | 17)));
                }
            }
        }
    }
    calls.print();
    calls.at_least(2_000, "restore", &[0, 14, 15]);
}

/// Every field with the edges of lengths, atoms and counts.
#[test]
fn edges_of_fields() {
    let mut calls = Calls::new(63);
    for (record, marks) in small_marks() {
        let lists = Listed::new(&record);
        let n = record.atoms;
        for mark in marks.iter().step_by(sample().min(9) as usize) {
            for which in 0..7 {
                let (at, columns) = place(which);
                let near = [n - 1, n, n + 1, n + 2, record.bonds, record.bonds + 1];
                for value in EDGES.into_iter().chain(near).chain(2..=8) {
                    let mut changed = mark.clone();
                    put(&mut changed, at, columns, &value.to_string());
                    let _ = compare(&mut calls, &lists, &changed);
                }
            }
            for which in 7..10 {
                let (at, columns) = place(which);
                for count in COUNTS {
                    let mut changed = mark.clone();
                    put(&mut changed, at, columns, count);
                    let right = count.len() == 1 || count.len() == 19;
                    assert_eq!(compare(&mut calls, &lists, &changed).is_ok(), right);
                }
            }
            for at in (90..bonds_from(mark) - 1).step_by(4) {
                for value in EDGES.into_iter().chain(2..=n + 1).chain(257..257 + n) {
                    let mut changed = mark.clone();
                    put(&mut changed, at, 4, &value.to_string());
                    let answer = compare(&mut calls, &lists, &changed);
                    if value == 0 || value > n {
                        assert_eq!(answer, Err(17));
                    }
                }
            }
            for (at, columns) in bond_places(mark)
                .into_iter()
                .flat_map(|at| [(at, 4), (at + 4, 4)])
            {
                for value in EDGES.into_iter().chain(2..=n + 1).chain(257..257 + n) {
                    let mut changed = mark.clone();
                    put(&mut changed, at, columns, &value.to_string());
                    let answer = compare(&mut calls, &lists, &changed);
                    assert_eq!(answer.is_ok(), changed == *mark);
                    assert!(!matches!(answer, Err(16 | 17)));
                }
            }
        }
    }
    calls.print();
    calls.at_least(1_000, "restore", &[0, 14, 15, 16, 17]);
}

/// Each field of a mark filled by zeros, of 4 and of 20 columns, 0 among the
/// numbers, and all fields: rule 14, as marks have blanks only.
#[test]
fn filled_by_zeros() {
    let mut calls = Calls::new(70);
    let (mut fields, mut of_zero) = (0, [0, 0]);
    for (record, marks) in small_marks() {
        let lists = Listed::new(&record);
        for mark in marks.iter().step_by(sample().min(9) as usize) {
            assert!(compare(&mut calls, &lists, mark).is_ok());
            let mut every = mark.clone();
            for (at, columns) in places(mark) {
                let mut changed = mark.clone();
                zero_fill(&mut changed, at, columns);
                assert_ne!(&changed, mark);
                assert_eq!(compare(&mut calls, &lists, &changed), Err(14));
                zero_fill(&mut every, at, columns);
                fields += 1;
                if changed[at..at + columns].iter().all(|&byte| byte == b'0') {
                    of_zero[usize::from(columns == 20)] += 1;
                }
                // Two fillings, if two columns or more are filled.
                if mark[at + 1] == b' ' {
                    changed[at] = b' ';
                    assert_eq!(compare(&mut calls, &lists, &changed), Err(14));
                }
            }
            assert!(!every.contains(&b' '));
            assert_eq!(compare(&mut calls, &lists, &every), Err(14));
        }
    }
    // 4, 4, 4 and 4, 6, 2, 6 and 2, 12, 12, 12 and 3 marks of ten fields, with 227
    // atoms in the beginnings of the first three kinds and 9 in those of the last.
    // Kind, s and t are 0 in 22 ring marks, t in 22 of rings up to a size, the
    // length in one mark of each task; in the first of each extensions and listed.
    // 16, 16 and 39 marks have the lines of 5, 6 and 12 bonds, two fields each.
    if sample() == 1 {
        assert_eq!(fields, 710 + 227 + 9 + 16 * 10 + 16 * 12 + 39 * 24);
        assert_eq!(of_zero, [3 * 22 + 22 + 12, 2 * 12]);
    }
}

/// A number that fills its columns is filled by neither, and right in a mark:
/// 1,024 bonds. In 20 columns none does: it would be above the limit.
#[test]
fn full_columns() {
    let mut calls = Calls::new(71);
    let record = generate::random_molecule(&mut Rng::new(72), 128, 1024).record();
    let reached = Reached::new(&record);
    for task in [
        Task::Rings,
        Task::Paths { s: 100, t: 127 },
        Task::RingsUpTo { k: 128 },
        Task::Shortest { s: 128, t: 99 },
    ] {
        let mut search = Search::at(task, &[], 128);
        [search.trials, search.extensions, search.listed] = [LIMIT, 0, LIMIT / 10];
        let mark = mark::write(&record, &search);
        assert_eq!(mark[16..20], *b"1024");
        assert_eq!(compare(&mut calls, &reached, &mark), Ok(search));
        assert_eq!(places(&mark).len(), 10 + 2 * 1024);
        for (which, (at, columns)) in places(&mark).into_iter().enumerate() {
            if which >= 10 && which as u64 % (7 * sample().min(20)) != 0 {
                continue;
            }
            let mut changed = mark.clone();
            zero_fill(&mut changed, at, columns);
            let answer = compare(&mut calls, &reached, &changed);
            assert_eq!(answer.is_ok(), at == 16);
            assert!(at == 16 || answer == Err(14));
        }
    }
}

/// Every field over blank, 0, 1, 9, line feed and x, 6 to the 4th, in each field
/// of 4 columns. 81 of them follow the layout, 27 filled by blanks and 54 by
/// neither; of the bonds and the length only the one that tells them, and of an
/// atom in a bond line those that keep the order.
#[test]
fn every_field() {
    let mut calls = Calls::new(73);
    let record = generate::ring(9).record();
    let (lists, bonds) = (Reached::new(&record), mark::bonds(&record));
    let mark = mark::write(&record, &Search::at(Task::Rings, &[1], 3));
    let from = bonds_from(&mark);
    for (at, _) in places(&mark).iter().filter(|(_, columns)| *columns == 4) {
        let mut numbers = 0;
        for number in (0..6usize.pow(4)).step_by(sample().min(5) as usize) {
            let mut changed = mark.clone();
            for (place, byte) in changed[*at..at + 4].iter_mut().enumerate() {
                *byte = b" 019\nx"[number / 6usize.pow(place as u32) % 6];
            }
            numbers += u64::from(compare(&mut calls, &lists, &changed) != Err(14));
        }
        let expected = match *at {
            16 | 20 => 1,
            at if at < from => 81,
            at => keeping_order(&bonds, (at - from) / 9, (at - from) % 9 / 4),
        };
        if sample() == 1 {
            assert_eq!(numbers, expected, "fields at {at}");
        }
    }
}

/// How many numbers of up to four digits 0, 1 and 9 may stand for an atom of a
/// bond, so that the bonds keep their order and each its lower atom first.
fn keeping_order(bonds: &[Bond], line: usize, atom: usize) -> u64 {
    let digits = |number: u64| {
        number
            .to_string()
            .bytes()
            .all(|digit| b"019".contains(&digit))
    };
    let keeps = |&number: &u64| {
        let mut bonds = bonds.to_vec();
        match atom {
            0 => bonds[line].0 = number,
            _ => bonds[line].1 = number,
        }
        bonds[line].0 < bonds[line].1 && bonds.windows(2).all(|two| two[0] < two[1])
    };
    let numbers = (0..10_000).filter(|&number| digits(number));
    numbers.filter(keeps).count() as u64
}

/// Lengths up to 127 belong to the layout, longer ones do not, whatever the
/// atoms; with 128 atoms the longest beginning opens.
#[test]
fn lengths() {
    let mut calls = Calls::new(64);
    let all: Vec<u8> = (1..=128).collect();
    for (molecule, task) in [
        (generate::ring(128), Task::Rings),
        (generate::ring(128), Task::RingsUpTo { k: 128 }),
        (generate::chain(128), Task::Paths { s: 1, t: 128 }),
        (generate::chain(128), Task::Shortest { s: 1, t: 128 }),
    ] {
        let record = molecule.record();
        let reached = Reached::new(&record);
        let lengths = [0usize, 1, 2, 3, 63, 64, 100, 125, 126, 127];
        for length in lengths.into_iter().rev().step_by(sample().min(9) as usize) {
            let search = Search::at(task, &all[..length], 128);
            let mark = mark::write(&record, &search);
            assert_eq!(mark.len(), 91 + 4 * length + 9 * molecule.bonds.len());
            assert_eq!(compare(&mut calls, &reached, &mark), Ok(search));
            for other in [126, 127, 128, 129, 130, 255, 256, 383, 9999] {
                let mut changed = lengthened(&mark, other, 128);
                let answer = compare(&mut calls, &reached, &changed);
                if other > 127 {
                    assert_eq!(answer, Err(14), "length {other}");
                } else {
                    // Atom 128 more than once, or not bonded to the last.
                    assert_eq!(answer.is_ok(), other <= length, "length {other}");
                }
                // The length told alone.
                changed = mark.clone();
                put(&mut changed, 20, 4, &other.to_string());
                let answer = compare(&mut calls, &reached, &changed);
                assert_eq!(answer.is_ok(), other == length);
            }
        }
        // All 128 atoms: a member or none, and never a beginning.
        let longest = mark::write(&record, &Search::at(task, &all[..127], 1));
        let longer = lengthened(&longest, 128, 128);
        assert_eq!(longer.len(), 603 + 9 * molecule.bonds.len());
        assert_eq!(compare(&mut calls, &reached, &longer), Err(14));
    }
}

/// Marks of one molecule on another: right only if the atoms and all bonds are
/// the same.
#[test]
fn other_molecules() {
    let mut calls = Calls::new(65);
    let mut as_many = 0;
    for case in 0..sampled(6_000) {
        let _case = Case("other_molecules", case);
        let mut rng = Rng::of_case(0x4F54_4845_5253, case);
        let n = rng.between(3, 8);
        let m = rng.between(n - 1, (n * (n - 1) / 2).min(n + 3));
        let own = generate::random_molecule(&mut rng, n, m).record();
        let (other_n, other_m) = match rng.below(4) {
            0 => (n + 1, m),
            1 => (n, m - 1),
            _ => (n, m),
        };
        let other = generate::random_molecule(&mut rng, other_n, other_m).record();
        let task = generate::any_task(&mut rng, n);
        let (own_lists, other_lists) = (Listed::new(&own), Listed::new(&other));
        let search = any_place(&mut rng, n, task, &own_lists.members(task));
        let mark = mark::write(&own, &search);
        assert_eq!(compare(&mut calls, &own_lists, &mark), Ok(search.clone()));
        let answer = compare(&mut calls, &other_lists, &mark);
        let expected = if own == other { Ok(search) } else { Err(15) };
        assert_eq!(answer, expected);
        as_many += u64::from(answer == Err(15) && (n, m) == (other_n, other_m));
        // The same bonds, and an atom more, which has none.
        let mut more = own.clone();
        more.atoms += 1;
        assert_eq!(compare(&mut calls, &Reached::new(&more), &mark), Err(15));
    }
    calls.print();
    calls.at_least(500, "restore", &[0, 15]);
    assert!(as_many >= sampled(1_500));
}

/// Isomers, which have as many atoms and bonds: the mark of either is refused on
/// the other, from any place, be it open there or not.
#[test]
fn isomers() {
    let mut calls = Calls::new(79);
    let mut open = 0;
    for case in 0..sampled(3_000) {
        let _case = Case("isomers", case);
        let mut rng = Rng::of_case(0x4953_4F4D_4552, case);
        let molecule = match rng.below(30) {
            0 => generate::any_molecule(&mut rng),
            _ => generate::any_searched(&mut rng),
        };
        let records = match generate::any_isomer(&mut rng, &molecule) {
            Some(other) => [molecule.record(), other.record()],
            None => continue,
        };
        let n = records[0].atoms;
        for (own, other) in [(0, 1), (1, 0)] {
            let (own, other) = (&records[own], &records[other]);
            let task = generate::any_task(&mut rng, n);
            // A large molecule may have too many members to list.
            let members = if n <= 12 || own.bonds <= n + 6 {
                lister::list(own, task).members()
            } else {
                Vec::new()
            };
            let search = any_place(&mut rng, n, task, &members);
            let mark = mark::write(own, &search);
            let (own_lists, other_lists) = (Reached::new(own), Reached::new(other));
            assert_eq!(compare(&mut calls, &own_lists, &mark), Ok(search.clone()));
            let answer = compare(&mut calls, &other_lists, &mark);
            assert_eq!(answer, Err(15));
            open += u64::from(search.is_restorable(&other_lists));
        }
    }
    calls.print();
    println!("{open} of a place that is also open in the other");
    calls.at_least(3_000, "restore", &[0, 15]);
    assert!(open >= sampled(1_000));
}

/// A mark on a molecule, with the molecule's own bonds.
fn of_bonds(rng: &mut Rng, molecule: &Molecule) -> (Record, Vec<u8>, Vec<Bond>) {
    let record = molecule.record();
    let task = generate::any_task(rng, record.atoms);
    let next = rng.between(1, record.atoms);
    let mark = mark::write(&record, &Search::at(task, &[], next));
    let bonds = mark::bonds(&record);
    (record, mark, bonds)
}

/// Bond lines in another order, one of them twice, reversed, or of one atom: rule
/// 14, also where an atom is strange. On molecules of up to 1,024 bonds.
#[test]
fn lines_out_of_order() {
    let mut calls = Calls::new(80);
    for case in 0..sampled(600) {
        let _case = Case("lines_out_of_order", case);
        let mut rng = Rng::of_case(0x4F52_4445_5253, case);
        let (n, m) = match rng.below(20) {
            0 => (128, 1024),
            1..=4 => (rng.between(40, 128), rng.between(2, 300)),
            _ => (rng.between(4, 20), rng.between(2, 6)),
        };
        let molecule = generate::random_molecule(&mut rng, n, m);
        let (record, mark, bonds) = of_bonds(&mut rng, &molecule);
        let reached = Reached::new(&record);
        assert!(compare(&mut calls, &reached, &mark).is_ok());
        let mut refused = |changed: &[Bond]| {
            for mark in [with_bonds(&mark, changed), with_lines(&mark, changed)] {
                assert_eq!(compare(&mut calls, &reached, &mark), Err(14));
            }
        };
        let at = rng.index(bonds.len() - 1);
        let with = |change: &dyn Fn(&mut Vec<Bond>)| {
            let mut changed = bonds.clone();
            change(&mut changed);
            changed
        };
        // Two neighbours, or any order.
        refused(&with(&|bonds| bonds.swap(at, at + 1)));
        let mut shuffled = bonds.clone();
        rng.shuffle(&mut shuffled);
        if shuffled != bonds {
            refused(&shuffled);
        }
        refused(&with(&|bonds| bonds.reverse()));
        refused(&with(&|bonds| bonds.rotate_left(1)));
        // One twice, in place of its neighbour or besides, or at the end.
        refused(&with(&|bonds| bonds[at + 1] = bonds[at]));
        refused(&with(&|bonds| bonds.insert(at, bonds[at])));
        refused(&with(&|bonds| bonds.push(bonds[at])));
        // The higher atom first: alone, with its number, as all of them.
        let (a, b) = bonds[at];
        refused(&with(&|bonds| bonds[at] = (b, a)));
        refused(&with(&|bonds| {
            bonds.iter_mut().for_each(|bond| *bond = (bond.1, bond.0))
        }));
        // One atom twice, also a strange one.
        for v in [a, b, 0, n + 1, 9_999] {
            refused(&with(&|bonds| bonds[at] = (v, v)));
        }
        // A strange atom, and the higher first or lines out of order.
        for strange in [n + 1, 128, 129, 255, 256, 9_999] {
            refused(&with(&|bonds| bonds[at] = (strange, 0)));
            refused(&with(&|bonds| bonds[at] = (strange, strange - 1)));
            if strange > n {
                refused(&with(&|bonds| bonds[at] = (strange, a)));
                // The line below it comes too late.
                refused(&with(&|bonds| bonds[at] = (strange - 1, strange)));
            }
        }
        refused(&with(&|bonds| bonds[at + 1] = (0, n + 1)));
        // In the molecule's own sheet the bonds are in any order.
        if molecule.bonds != bonds {
            refused(&molecule.bonds);
        }
    }
    calls.print();
    calls.at_least(10_000, "restore", &[14]);
}

/// Bond lines that keep the layout and are not the molecule's: rule 15, whatever
/// atoms they name.
#[test]
fn lines_of_strange_atoms() {
    let mut calls = Calls::new(81);
    for case in 0..sampled(600) {
        let _case = Case("lines_of_strange_atoms", case);
        let mut rng = Rng::of_case(0x5354_5241_4E47, case);
        let n = rng.between(2, 128);
        let m = rng.between(1, (n * (n - 1) / 2).min(40));
        let molecule = generate::random_molecule(&mut rng, n, m);
        let (record, mark, bonds) = of_bonds(&mut rng, &molecule);
        let reached = Reached::new(&record);
        assert!(compare(&mut calls, &reached, &mark).is_ok());
        let mut refused = |mut changed: Vec<Bond>| {
            changed.sort_unstable();
            let changed = with_bonds(&mark, &changed);
            assert_eq!(compare(&mut calls, &reached, &changed), Err(15));
        };
        let last = bonds.len() - 1;
        for strange in [n + 1, 128, 129, 200, 255, 256, 257, 1_024, 9_999] {
            for low in [0, 1, n, n + 1, strange - 1] {
                let bond = (low, strange);
                if low >= strange || bonds.contains(&bond) {
                    continue;
                }
                refused([&bonds[..last], &[bond]].concat());
                refused([&bonds[1..], &[bond]].concat());
                refused([&bonds[..], &[bond]].concat());
            }
        }
        // The numbers of right atoms and 256 more; atom 0 for another.
        refused(bonds.iter().map(|&(a, b)| (a + 256, b + 256)).collect());
        refused([&bonds[1..], &[(0, bonds[0].1)]].concat());
        // One fewer, at either end and between, and none.
        for at in [0, last / 2, last] {
            refused([&bonds[..at], &bonds[at + 1..]].concat());
        }
        refused(Vec::new());
    }
    calls.print();
    calls.at_least(10_000, "restore", &[15]);
}

/// Marks that name 0, 1, 1,024 and more bonds and have as many lines: right on
/// their own molecule, 15 on any other and above 1,024; 14 with a line more or
/// fewer.
#[test]
fn numbers_of_lines() {
    let mut calls = Calls::new(82);
    let fresh = Search::fresh(Task::Rings);
    // The first pairs of 128 atoms, and where so many may be no molecule's, of 151.
    let pairs = |m: usize| -> Vec<Bond> {
        let n = if m <= 1_024 { 128 } else { 151 };
        let pairs = (1..n).flat_map(|a| (a + 1..=n).map(move |b| (a, b)));
        pairs.take(m).collect()
    };
    let others = [
        Record::new(128),
        Molecule::new(128, &[(1, 2)]).record(),
        generate::random_molecule(&mut Rng::new(83), 128, 1_023).record(),
        generate::random_molecule(&mut Rng::new(84), 128, 1_024).record(),
    ];
    for m in [
        0, 1, 2, 1_023, 1_024, 1_025, 1_026, 2_000, 2_048, 9_998, 9_999,
    ] {
        let bonds = pairs(m);
        let mark = with_bonds(&mark::write(&Record::new(128), &fresh), &bonds);
        assert_eq!(mark.len(), 91 + 9 * m);
        for record in &others {
            let reached = Reached::new(record);
            let own = mark::bonds(record) == bonds;
            assert_eq!(compare(&mut calls, &reached, &mark).is_ok(), own);
            assert!(own || compare(&mut calls, &reached, &mark) == Err(15));
            // A line more, a line fewer, and none of them.
            let more = with_lines(&mark, &pairs(m + 1));
            assert_eq!(compare(&mut calls, &reached, &more), Err(14));
            if m > 0 {
                let fewer = with_lines(&mark, &pairs(m - 1));
                assert_eq!(compare(&mut calls, &reached, &fewer), Err(14));
                assert_eq!(compare(&mut calls, &reached, &mark[..91]), Err(14));
            }
            // The lines stay, and the number that is named goes up or down.
            for named in [m + 1, m.max(1) - 1, m + 256, 0, 1_024, 9_999] {
                let mut changed = mark.clone();
                put(&mut changed, 16, 4, &named.to_string());
                let answer = compare(&mut calls, &reached, &changed);
                assert!(changed == mark || answer == Err(14));
            }
        }
        // Its own molecule, where there is one.
        if m <= 1_024 {
            let record = Molecule::new(128, &bonds).record();
            let reached = Reached::new(&record);
            assert_eq!(compare(&mut calls, &reached, &mark), Ok(fresh.clone()));
        }
    }
    calls.print();
}

/// The marks of before request F-5, without bond lines: rule 14, but of a molecule
/// without bonds, whose marks are as they were.
#[test]
fn marks_without_lines() {
    let mut calls = Calls::new(83);
    for case in 0..sampled(2_000) {
        let _case = Case("marks_without_lines", case);
        let mut rng = Rng::of_case(0x464F_524D_4552, case);
        let molecule = match rng.below(8) {
            0 => Molecule::new(rng.between(1, 128), &[]),
            _ => generate::any_searched(&mut rng),
        };
        let record = molecule.record();
        let task = generate::any_task(&mut rng, record.atoms);
        let members = lister::list(&record, task).members();
        let search = any_place(&mut rng, record.atoms, task, &members);
        let mark = Form::Old.write(&record, &search);
        let answer = compare(&mut calls, &Reached::new(&record), &mark);
        let none = molecule.bonds.is_empty();
        assert_eq!(answer, if none { Ok(search) } else { Err(14) });
    }
    calls.print();
    calls.at_least(200, "restore", &[0, 14]);
}

/// The longest marks that there are: 119 atoms in the beginning and 1,024 bonds;
/// and one of a chain.
#[test]
fn longest_marks() {
    let mut calls = Calls::new(84);
    let all: Vec<u8> = (1..=119).collect();
    for (closes, task) in [
        (true, Task::Rings),
        (true, Task::RingsUpTo { k: 120 }),
        (false, Task::Paths { s: 1, t: 120 }),
    ] {
        let record = generate::longest_with_most_bonds(closes).record();
        assert!(record.is_lawful() && record.bonds == 1_024);
        let reached = Reached::new(&record);
        let mut search = Search::at(task, &all, 120);
        [search.trials, search.extensions, search.listed] = [LIMIT; 3];
        let mark = mark::write(&record, &search);
        assert_eq!(mark.len(), 9_783);
        assert_eq!(compare(&mut calls, &reached, &mark), Ok(search.clone()));
        let on = On::lawful(&reached);
        assert_eq!(calls.save(on, &search, 9_782), Err(13));
        assert_eq!(calls.save(on, &search, 9_783), Ok(mark));
    }
    let record = generate::chain(10).record();
    let reached = Reached::new(&record);
    let search = Search::at(Task::Paths { s: 1, t: 10 }, &all[..7], 8);
    let mark = mark::write(&record, &search);
    assert_eq!(mark.len(), 200);
    let on = On::lawful(&reached);
    assert_eq!(calls.save(on, &search, 199), Err(13));
    assert_eq!(calls.save(on, &search, 200), Ok(mark.clone()));
    assert_eq!(compare(&mut calls, &reached, &mark), Ok(search));
}

/// An open beginning, a next atom and counts at random.
fn any_place(rng: &mut Rng, n: u64, task: Task, members: &[Vec<u8>]) -> Search {
    let mut open = list::open_beginnings(members);
    open.push(Vec::new());
    let p = open.swap_remove(rng.index(open.len()));
    let highest = if p.is_empty() { n + 1 } else { n };
    let mut search = Search::at(task, &p, rng.between(1, highest));
    let mut any_count = || match rng.below(8) {
        0 => LIMIT,
        1 => LIMIT - rng.below(3),
        _ => (rng.next() >> rng.below(64)).min(LIMIT),
    };
    search.trials = any_count();
    search.extensions = any_count();
    search.listed = any_count();
    search
}

/// Any molecule, any place, any damage. What is accepted runs on to the end
/// and lists the members that follow its place.
#[test]
fn random_marks_1() {
    random_marks("random_marks_1", 0x4D41_524B_5331);
}

#[test]
fn random_marks_2() {
    random_marks("random_marks_2", 0x4D41_524B_5332);
}

fn random_marks(name: &'static str, seed: u64) {
    const MARKS: u64 = spoil::MARK_KINDS;
    let mut calls = Calls::new(seed);
    let (mut ended, mut limits) = (0, 0);
    for case in 0..sampled(2_500) {
        let _case = Case(name, case);
        let mut rng = Rng::of_case(seed, case);
        let record = generate::any_searched(&mut rng).record();
        let n = record.atoms;
        let (listed, reached) = (Listed::new(&record), Reached::new(&record));
        let lists: &dyn Lists = if n <= 12 { &listed } else { &reached };
        let task = generate::any_task(&mut rng, n);
        let members = lister::list(&record, task).members();
        for kind in 0..MARKS {
            let search = any_place(&mut rng, n, task, &members);
            let mut mark = mark::write(&record, &search);
            spoil::mark(&mut rng, n, kind, &mut mark);
            let search = match compare(&mut calls, lists, &mark) {
                Ok(search) => search,
                Err(_) => continue,
            };
            if !rng.one_in(4) {
                continue;
            }
            // Another task may have come out of the damage.
            let task = Task::of(n, search.kind, search.s, search.t).expect("accepted");
            let members = lister::list(&record, task).members();
            let sheet: Vec<u8> = list::following(&members, search.beginning(), search.next)
                .flat_map(|member| list::record_of(member))
                .collect();
            let ran = calls
                .run(On::lawful(lists), &search, u64::MAX, sheet.len())
                .expect("accepted");
            if ran.stop == Stop::Done {
                assert_eq!(ran.records, sheet);
                ended += 1;
            } else {
                assert_eq!(ran.stop, Stop::Limit);
                assert!(sheet.starts_with(&ran.records));
                limits += 1;
            }
        }
    }
    calls.print();
    println!("{ended} runs to the end, {limits} to the limit");
    calls.at_least(2_000, "restore", &[0, 14, 15, 16, 17]);
    assert!(sample() > 1 || (ended >= 1_000 && limits >= 500));
}

/// Beginnings that are not open, in marks that are right otherwise.
#[test]
fn not_open() {
    let mut calls = Calls::new(66);
    let mut refused = 0;
    for molecule in [
        generate::document(),
        generate::complete(4),
        generate::two_to_three(),
        generate::ring(5),
        generate::chain(4),
        generate::cube(),
    ] {
        let record = molecule.record();
        let n = record.atoms;
        let lists = Listed::new(&record);
        for task in [
            Task::Rings,
            Task::RingsUpTo { k: 3 },
            Task::RingsUpTo { k: 4 },
            Task::Paths { s: 2, t: 4 },
            Task::Paths { s: 3, t: 1 },
            Task::Shortest { s: 2, t: 4 },
            Task::Shortest { s: 3, t: 1 },
        ] {
            // Every list of up to three atoms, 0 and n + 1 among them.
            let base = n + 2;
            for len in 0..=3u32 {
                for number in (0..base.pow(len)).step_by(sample().min(40) as usize) {
                    let p: Vec<u8> = (0..len)
                        .map(|place| (number / base.pow(place) % base) as u8)
                        .collect();
                    let mark = mark::write(&record, &Search::at(task, &p, 1));
                    let answer = compare(&mut calls, &lists, &mark);
                    refused += u64::from(answer == Err(17));
                }
            }
            // Members, and lists that begin with one.
            for member in lists.members(task).iter() {
                for more in [0, 1] {
                    let mut p = member.clone();
                    p.resize(member.len() + more, 1);
                    let mark = mark::write(&record, &Search::at(task, &p, 1));
                    assert_eq!(compare(&mut calls, &lists, &mark), Err(17));
                }
            }
        }
    }
    assert!(refused >= sampled(4_000));
    // On the document's sheet: 1 4 has no ring, 2 and 3 alone neither.
    let record = generate::document().record();
    let lists = Listed::new(&record);
    let mut answer = |task, p: &[u8]| {
        let mark = mark::write(&record, &Search::at(task, p, 1));
        compare(&mut calls, &lists, &mark).map(|_| ())
    };
    for p in [&[1][..], &[1, 2], &[1, 3]] {
        assert_eq!(answer(Task::Rings, p), Ok(()));
    }
    for p in [&[2][..], &[3], &[1, 4], &[1, 2, 3], &[1, 2, 3, 4], &[0]] {
        assert_eq!(answer(Task::Rings, p), Err(17));
    }
    for k in [3, 4, 128] {
        assert_eq!(answer(Task::RingsUpTo { k }, &[1, 3]), Ok(()));
        assert_eq!(answer(Task::RingsUpTo { k }, &[1, 4]), Err(17));
    }
    for paths in [Task::Paths { s: 2, t: 4 }, Task::Shortest { s: 2, t: 4 }] {
        for p in [&[2][..], &[2, 1], &[2, 3]] {
            assert_eq!(answer(paths, p), Ok(()));
        }
        for p in [&[1][..], &[4], &[2, 4], &[2, 1, 3], &[2, 1, 4]] {
            assert_eq!(answer(paths, p), Err(17));
        }
    }
    // Two atoms without a path: only the empty beginning is open.
    let record = Molecule::new(4, &[(1, 2), (3, 4)]).record();
    let lists = Listed::new(&record);
    for apart in [Task::Paths { s: 1, t: 4 }, Task::Shortest { s: 1, t: 4 }] {
        for (p, right) in [(&[][..], true), (&[1], false), (&[1, 2], false)] {
            let mark = mark::write(&record, &Search::at(apart, p, 4));
            assert_eq!(compare(&mut calls, &lists, &mark).is_ok(), right);
        }
    }
}

/// Beginnings of a path that is longer than the shortest are open for paths, and
/// not for shortest paths: one ring, in which the way round has no chord.
#[test]
fn open_for_shortest() {
    let mut calls = Calls::new(76);
    for n in [5, 6, 9, 64, 127, 128] {
        let record = generate::ring(n).record();
        let reached = Reached::new(&record);
        let t = n as u8;
        let up: Vec<u8> = (1..=t).collect();
        // From 2 up to n, n - 2 steps, and down, 2 steps.
        let (s, long) = (2, &up[1..]);
        let step = 1 + n as usize / 9;
        for len in (2..long.len()).step_by(step) {
            let mut answer = |task| {
                let mark = mark::write(&record, &Search::at(task, &long[..len], n));
                compare(&mut calls, &reached, &mark).map(|_| ())
            };
            assert_eq!(answer(Task::Paths { s, t }), Ok(()));
            assert_eq!(answer(Task::Shortest { s, t }), Err(17));
        }
        for p in [&[2][..], &[2, 1]] {
            let search = Search::at(Task::Shortest { s, t }, p, n);
            let mark = mark::write(&record, &search);
            assert_eq!(compare(&mut calls, &reached, &mark), Ok(search));
        }
        // Halfway round an even ring both ways are open.
        let half = up[n as usize / 2];
        let both = Task::Shortest { s: 1, t: half };
        for (p, right) in [(&[1, 2][..], true), (&[1, t], n % 2 == 0)] {
            let mark = mark::write(&record, &Search::at(both, p, n));
            assert_eq!(compare(&mut calls, &reached, &mark).is_ok(), right);
        }
    }
}

/// The next atom: 1 to n, and n + 1 for the empty beginning alone.
#[test]
fn next_atoms() {
    let mut calls = Calls::new(67);
    for n in [0, 1, 2, 3, 5, 127, 128] {
        let record = if n < 3 {
            Record::new(n)
        } else {
            generate::ring(n).record()
        };
        let reached = Reached::new(&record);
        let other = [255, 256, 257, 9999];
        let step = sample().min(9) as usize;
        for c in (0..=n + 2).rev().chain(other).step_by(step) {
            let mut tasks = vec![
                (Task::Rings, &[1, 2][..]),
                (Task::RingsUpTo { k: 128 }, &[1, 2]),
            ];
            if n >= 3 {
                tasks.push((Task::Shortest { s: 1, t: 3 }, &[1]));
            }
            for (task, p) in tasks {
                let mark = mark::write(&record, &Search::at(task, &[], c));
                let right = (1..=n + 1).contains(&c);
                assert_eq!(compare(&mut calls, &reached, &mark).is_ok(), right);
                if n >= 3 {
                    let mark = mark::write(&record, &Search::at(task, p, c));
                    let right = (1..=n).contains(&c);
                    assert_eq!(compare(&mut calls, &reached, &mark).is_ok(), right);
                }
            }
        }
    }
}

/// Each rule before the next: marks that break one or more of 14 to 17.
#[test]
fn order_of_rules() {
    let mut calls = Calls::new(68);
    for (task, of_16) in [
        (
            Task::Rings,
            [(0, 4, "2"), (4, 4, "5"), (8, 4, "2"), (0, 4, "9999")],
        ),
        (
            Task::Paths { s: 2, t: 4 },
            [(0, 4, "4"), (4, 4, "5"), (8, 4, "2"), (0, 4, "9999")],
        ),
        (
            Task::Shortest { s: 2, t: 4 },
            [(0, 4, "4"), (4, 4, "4"), (8, 4, "0"), (0, 4, "0")],
        ),
        (
            Task::RingsUpTo { k: 4 },
            [(0, 4, "3"), (4, 4, "2"), (8, 4, "2"), (4, 4, "129")],
        ),
    ] {
        let record = generate::document().record();
        let lists = Listed::new(&record);
        let right = mark::write(&record, &Search::at(task, &[], 1));
        // 14: a count, the number of bonds alone, the third bond, 1 4, as 1 1, 0 4
        // or 4 4. 15: n, the first bond, 1 2, as 0 2, the fourth, 2 3, as 2 4, the
        // last, 3 4, with an atom above n. 16: kind, s, t. 17: c.
        let breaks = [
            vec![
                (29, 20, ""),
                (49, 20, "00"),
                (69, 20, "10000000000000000000"),
                (16, 4, "4"),
                (16, 4, "1025"),
                (113, 4, "1"),
                (109, 4, "0"),
                (109, 4, "4"),
            ],
            vec![
                (12, 4, "5"),
                (12, 4, "9999"),
                (91, 4, "0"),
                (122, 4, "4"),
                (131, 4, "5"),
                (131, 4, "9999"),
            ],
            of_16.to_vec(),
            vec![(24, 4, "0"), (24, 4, "6"), (24, 4, "9999")],
        ];
        for set in 0..16u32 {
            let chosen: Vec<usize> = (0..4).filter(|rule| set >> rule & 1 == 1).collect();
            let ways = chosen.iter().map(|&rule| breaks[rule].len()).product();
            for way in (0..ways).step_by(sample().min(20) as usize) {
                let mut mark = right.clone();
                let mut rest = way;
                for &rule in &chosen {
                    let (at, columns, text) = breaks[rule][rest % breaks[rule].len()];
                    rest /= breaks[rule].len();
                    put(&mut mark, at, columns, text);
                }
                let expected = chosen.first().map_or(0, |&rule| 14 + rule as u32);
                let answer = compare(&mut calls, &lists, &mark);
                assert_eq!(answer.map_or_else(|rule| rule, |_| 0), expected);
            }
        }
        // 9 before them all.
        let mut unlawful = record.clone();
        unlawful.bonds += 1;
        let on = On::unlawful(&unlawful);
        for mark in [&right[..], b"", &right[1..]] {
            assert_eq!(calls.restore(on, mark), Err(9));
        }
    }
}

/// Rule 16 on a mark of rings up to a size: k from 3 to 128 with t = 0, whatever
/// n is, and no other s and t.
#[test]
fn sizes() {
    let mut calls = Calls::new(74);
    for molecule in [
        Molecule::new(0, &[]),
        Molecule::new(2, &[(1, 2)]),
        generate::document(),
        generate::ring(128),
    ] {
        let record = molecule.record();
        let reached = Reached::new(&record);
        let fresh = Search::fresh(Task::RingsUpTo { k: 3 });
        let right = mark::write(&record, &fresh);
        let others = [255, 256, 259, 999, 1_024, 9_999];
        for s in (0..=131).chain(others).step_by(sample().min(5) as usize) {
            for t in [0, 1, 2, 3, 128, 256, 9_999] {
                let mut mark = right.clone();
                put(&mut mark, 4, 4, &s.to_string());
                put(&mut mark, 8, 4, &t.to_string());
                let answer = compare(&mut calls, &reached, &mark);
                if (3..=128).contains(&s) && t == 0 {
                    let task = Task::RingsUpTo { k: s as u8 };
                    assert_eq!(answer, Ok(Search::fresh(task)));
                } else {
                    assert_eq!(answer, Err(16), "{s} and {t}");
                }
            }
        }
    }
}

/// Rule 16 on a mark of shortest paths: any two different atoms, and no other s
/// and t.
#[test]
fn ends_of_shortest() {
    let mut calls = Calls::new(77);
    for molecule in [
        Molecule::new(0, &[]),
        Molecule::new(1, &[]),
        Molecule::new(2, &[(1, 2)]),
        generate::document(),
        generate::chain(128),
    ] {
        let record = molecule.record();
        let n = record.atoms;
        let reached = Reached::new(&record);
        let fresh = Search::fresh(Task::Shortest { s: 1, t: 2 });
        let right = mark::write(&record, &fresh);
        let ends = || (0..=n + 1).chain([127, 128, 129, 255, 256, 257, 9_999]);
        for s in ends().step_by(sample().min(5) as usize) {
            for t in ends().step_by(1 + n as usize / 9) {
                let mut mark = right.clone();
                put(&mut mark, 4, 4, &s.to_string());
                put(&mut mark, 8, 4, &t.to_string());
                let answer = compare(&mut calls, &reached, &mark);
                match Task::of(n, 3, s, t) {
                    Some(task) => assert_eq!(answer, Ok(Search::fresh(task))),
                    None => assert_eq!(answer, Err(16), "{s} and {t}"),
                }
            }
        }
    }
    calls.at_least(200, "restore", &[0, 16]);
}

/// A beginning is open exactly when a ring of at most k atoms begins so: one
/// ring, of which each beginning is open with k at least its size.
#[test]
fn open_up_to_a_size() {
    let mut calls = Calls::new(75);
    for n in [3, 4, 7, 64, 128] {
        let record = generate::ring(n).record();
        let reached = Reached::new(&record);
        let ring: Vec<u8> = (1..=n as u8).collect();
        for k in [3, 4, 6, 7, 8, 63, 64, 65, 127, 128] {
            let task = Task::RingsUpTo { k };
            for len in (1..n.min(128) as usize).step_by(1 + n as usize / 9) {
                let mark = mark::write(&record, &Search::at(task, &ring[..len], 1));
                let answer = compare(&mut calls, &reached, &mark);
                assert_eq!(answer.is_ok(), n <= k.into(), "{n} {k} {len}");
                assert!(answer.is_ok() || answer == Err(17));
            }
        }
    }
    // The cube's hexagon 1 2 4 8 7 5, and its square 1 2 4 3.
    let record = generate::cube().record();
    let lists = Listed::new(&record);
    for (p, least) in [
        (&[1, 2, 4][..], 4),
        (&[1, 2, 4, 8], 6),
        (&[1, 2, 4, 8, 7], 6),
    ] {
        for k in 3..=9 {
            let mark = mark::write(&record, &Search::at(Task::RingsUpTo { k }, p, 8));
            let answer = compare(&mut calls, &lists, &mark);
            assert_eq!(answer.is_ok(), k >= least, "{p:?} {k}");
        }
    }
}

/// Counts at the limit, one below and a few below, at every place of a search
/// and with every small budget and output.
#[test]
fn limits() {
    let mut calls = Calls::new(69);
    for molecule in [generate::document(), generate::ring(5)] {
        let record = molecule.record();
        let n = record.atoms;
        let lists = Listed::new(&record);
        let on = On::lawful(&lists);
        for task in [
            Task::Rings,
            Task::Paths { s: 2, t: 4 },
            Task::RingsUpTo { k: 5 },
            Task::Shortest { s: 2, t: 4 },
        ] {
            let mut place = Search::fresh(task);
            loop {
                for which in 0..3 {
                    // Of a sample, one place in a few.
                    if place.trials % sample().min(6) != 0 {
                        continue;
                    }
                    for below in [0, 1, 2, 6] {
                        let mut search = place.clone();
                        let counts = [
                            &mut search.trials,
                            &mut search.extensions,
                            &mut search.listed,
                        ];
                        *counts.into_iter().nth(which).expect("of three") = LIMIT - below;
                        let mark = mark::write(&record, &search);
                        assert_eq!(compare(&mut calls, &lists, &mark), Ok(search.clone()));
                        for budget in [0, 1, 2, 3, u64::MAX] {
                            for room in [0, 3, 4, 100] {
                                let ran = calls.run(on, &search, budget, room);
                                let ran = ran.expect("accepted");
                                let done = place.is_done(n);
                                if below == 0 {
                                    // Done before limit, limit before spent.
                                    let stop = if done { Stop::Done } else { Stop::Limit };
                                    assert_eq!((ran.stop, ran.made), (stop, 0));
                                } else if budget == 0 && !done {
                                    assert_eq!(ran.stop, Stop::Spent);
                                } else if which == 0 && ran.made == below && !ran.search.is_done(n)
                                {
                                    // Limit before spent, and before full.
                                    assert_eq!(ran.stop, Stop::Limit);
                                }
                            }
                        }
                    }
                }
                if place.is_done(n) {
                    break;
                }
                let ran = calls.run(on, &place, 1, 100).expect("accepted");
                place = ran.search;
            }
        }
    }
    calls.print();
    calls.at_least(1_000, "run", &[101, 102, 103, 104]);
}
