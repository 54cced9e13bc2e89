//! What the search functions refuse: searches under rule 12, ends under rules
//! 10 and 11, records under rule 9, and buffers of a wrong length.

use flat_tests::compare::{Calls, On};
use flat_tests::generate::{self, Molecule};
use flat_tests::guard::Guarded;
use flat_tests::model::field::LIMIT;
use flat_tests::model::list::{self, Listed, Reached, Task};
use flat_tests::model::machine::{Search, NUMBERS, PLACES};
use flat_tests::model::mark::{self, MARK_ROOM};
use flat_tests::model::Record;
use flat_tests::rng::Rng;
use flat_tests::{ffi, sample, sampled};

/// Runs and saves a search that rule 12 turns back.
fn refuse(calls: &mut Calls, on: On, search: &Search) {
    for (budget, room) in [(0, 0), (u64::MAX, 300)] {
        assert_eq!(calls.run(on, search, budget, room), Err(12), "{search:?}");
    }
    // 12 comes before 13.
    for room in [0, 90, MARK_ROOM] {
        assert_eq!(calls.save(on, search, room), Err(12), "{search:?}");
    }
}

/// Runs and saves a search that rule 12 allows.
fn accept(calls: &mut Calls, on: On, search: &Search) {
    assert!(calls.run(on, search, 1, 300).is_ok(), "{search:?}");
    assert!(calls.save(on, search, MARK_ROOM).is_ok(), "{search:?}");
}

/// Every open beginning of a search with the first, a middle and the last next
/// atom.
fn places(record: &Record, task: Task) -> Vec<Search> {
    let n = record.atoms;
    let mut open = list::open_beginnings(&list::members(record, task));
    open.push(Vec::new());
    let mut places = vec![Search::at(task, &[], n + 1)];
    for p in &open {
        let mut next = [1, n / 2 + 1, n].to_vec();
        next.retain(|c| (1..=n).contains(c));
        next.dedup();
        places.extend(next.into_iter().map(|c| Search::at(task, p, c)));
    }
    places
}

/// The same place in a search of the other kind of paths: a beginning of a
/// shortest path is one of a path, but not always the other way round.
fn of_other_kind(calls: &mut Calls, on: On, task: Task, right: &Search) {
    let mut other = right.clone();
    match task {
        Task::Shortest { .. } => {
            other.kind = 1;
            accept(calls, on, &other);
        }
        Task::Paths { .. } => {
            other.kind = 3;
            let ran = calls.run(on, &other, 1, 300);
            assert_eq!(calls.save(on, &other, MARK_ROOM).is_ok(), ran.is_ok());
        }
        _ => {}
    }
}

/// Each part of a right search damaged alone.
#[test]
fn rule_12() {
    let mut calls = Calls::new(71);
    let paths = Task::Paths { s: 2, t: 4 };
    let cases = [
        (generate::document(), Task::Rings),
        (generate::document(), paths),
        (generate::two_to_three(), Task::Rings),
        (generate::two_to_three(), paths),
        (generate::ring(9), Task::Rings),
        (generate::document(), Task::RingsUpTo { k: 3 }),
        (generate::two_to_three(), Task::RingsUpTo { k: 128 }),
        (generate::ring(9), Task::RingsUpTo { k: 9 }),
        (generate::cube(), Task::RingsUpTo { k: 4 }),
        (Molecule::new(0, &[]), Task::RingsUpTo { k: 12 }),
        (generate::cube(), paths),
        (Molecule::new(4, &[(1, 2)]), paths),
        (generate::document(), Task::Shortest { s: 2, t: 4 }),
        (generate::two_to_three(), Task::Shortest { s: 3, t: 5 }),
        (generate::cube(), Task::Shortest { s: 1, t: 8 }),
        (generate::ring(9), Task::Shortest { s: 7, t: 3 }),
        (Molecule::new(4, &[(1, 2)]), Task::Shortest { s: 2, t: 4 }),
        (Molecule::new(0, &[]), Task::Rings),
        (Molecule::new(1, &[]), Task::Rings),
    ];
    for (molecule, task) in cases {
        let record = molecule.record();
        let n = record.atoms;
        let lists = Listed::new(&record);
        let on = On::lawful(&lists);
        let high = [1 << 8, 1 << 16, 1 << 32, 1 << 63];
        for (number, right) in places(&record, task).into_iter().enumerate() {
            if number as u64 % sample().min(16) != 0 {
                continue;
            }
            accept(&mut calls, on, &right);
            of_other_kind(&mut calls, on, task, &right);
            let mut refused = |change: &dyn Fn(&mut Search)| {
                let mut search = right.clone();
                change(&mut search);
                refuse(&mut calls, on, &search);
            };
            for kind in [4, 5, 255, 9999, 10_000, u64::MAX] {
                refused(&|search| search.kind = kind);
            }
            for high in high {
                refused(&|search| search.kind += high);
                refused(&|search| search.s += high);
                refused(&|search| search.t += high);
                refused(&|search| search.length += high);
                refused(&|search| search.next += high);
                refused(&|search| search.next = search.next.wrapping_sub(high));
            }
            for end in [n + 1, n + 2, 128, 129, 10_000, u64::MAX] {
                refused(&|search| search.t = end);
            }
            for end in [129, 255, 256, 259, 10_000, (1 << 32) + 3, u64::MAX] {
                refused(&|search| search.s = end);
            }
            match task {
                Task::Rings => {
                    // Another kind with the same s and t.
                    refused(&|search| search.kind = 1);
                    refused(&|search| search.kind = 2);
                    refused(&|search| search.kind = 3);
                    for s in [1, n + 1, n + 2, 128] {
                        refused(&|search| search.s = s);
                    }
                    refused(&|search| search.t = 1);
                    refused(&|search| (search.s, search.t) = (1, 2));
                    for s in [1, 2, 129, 9999, (1 << 32) + 3, u64::MAX] {
                        refused(&|search| (search.kind, search.s) = (2, s));
                    }
                    // All rings up to a size have no t.
                    for t in [1, n, 128] {
                        refused(&|search| (search.kind, search.s, search.t) = (2, 128, t.max(1)));
                    }
                }
                Task::RingsUpTo { .. } => {
                    refused(&|search| search.kind = 0);
                    refused(&|search| search.kind = 1);
                    refused(&|search| search.kind = 3);
                    for s in [0, 1, 2] {
                        refused(&|search| search.s = s);
                    }
                    for t in [1, 2, 3] {
                        refused(&|search| search.t = t);
                    }
                    refused(&|search| (search.kind, search.s, search.t) = (1, 0, 0));
                }
                Task::Paths { s, t } | Task::Shortest { s, t } => {
                    refused(&|search| search.kind = 0);
                    refused(&|search| search.kind = 2);
                    for s in [0, n + 1, n + 2, 128] {
                        refused(&|search| search.s = s);
                    }
                    refused(&|search| search.t = 0);
                    refused(&|search| search.s = t.into());
                    refused(&|search| search.t = s.into());
                    refused(&|search| (search.s, search.t) = (0, 0));
                }
            }
            // A length above: atoms 0. One below: an atom past it.
            for length in [126, 127, 128, 129, 255, 10_000, u64::MAX - 1, u64::MAX] {
                refused(&|search| search.length = length);
            }
            refused(&|search| search.length += 1);
            if right.length > 0 {
                refused(&|search| search.length -= 1);
                refused(&|search| search.length = 0);
            }
            // All places past the length in one search of eight, else three.
            let length = right.length as usize;
            for place in length..PLACES {
                let all = number % 8 == 0 && sample() == 1;
                if all || [length, 64, PLACES - 1].contains(&place) {
                    refused(&|search| search.prefix[place] = 1);
                    refused(&|search| search.prefix[place] = 128);
                }
            }
            for next in [0, n + 2, 129, 10_000, u64::MAX - 1, u64::MAX] {
                refused(&|search| search.next = next);
            }
            if right.length > 0 {
                refused(&|search| search.next = n + 1);
            }
            for count in [LIMIT + 1, LIMIT + 2, u64::MAX] {
                refused(&|search| search.trials = count);
                refused(&|search| search.extensions = count);
                refused(&|search| search.listed = count);
            }
            // Counts up to the limit are taken as they are.
            for count in [0, 1, LIMIT - 1, LIMIT] {
                let mut search = right.clone();
                search.trials = count;
                search.extensions = LIMIT - count;
                search.listed = count / 2;
                accept(&mut calls, on, &search);
            }
            // Every place with every other atom.
            for place in 0..right.length as usize {
                for atom in (0..=n as u8 + 1).chain([127, 128, 129, 255]) {
                    let mut search = right.clone();
                    search.prefix[place] = atom;
                    let ran = calls.run(on, &search, 1, 300);
                    assert_eq!(calls.save(on, &search, MARK_ROOM).is_ok(), ran.is_ok());
                    if atom == 0 || u64::from(atom) > n {
                        assert_eq!(ran, Err(12));
                    }
                }
            }
        }
        // Members are not open, nor is anything that begins with one.
        for member in list::members(&record, task) {
            refuse(&mut calls, on, &Search::at(task, &member, 1));
            let longer = [&member[..], &[1]].concat();
            refuse(&mut calls, on, &Search::at(task, &longer, 1));
        }
    }
    calls.print();
    calls.at_least(20_000, "run", &[12]);
    calls.at_least(20_000, "save", &[12]);
    calls.at_least(500, "save", &[0]);
}

/// Every list of up to four atoms as a beginning.
#[test]
fn every_beginning() {
    let mut calls = Calls::new(72);
    for molecule in [
        generate::document(),
        generate::two_to_three(),
        generate::complete(4),
        generate::ring(4),
        generate::ring(5),
        Molecule::new(3, &[(1, 3)]),
    ] {
        let record = molecule.record();
        let lists = Listed::new(&record);
        let on = On::lawful(&lists);
        let base = record.atoms + 2;
        for task in [
            Task::Rings,
            Task::Paths { s: 3, t: 1 },
            Task::RingsUpTo { k: 3 },
            Task::RingsUpTo { k: 4 },
            Task::Shortest { s: 3, t: 1 },
        ] {
            for len in 0..=4u32 {
                for number in (0..base.pow(len)).step_by(sample().min(60) as usize) {
                    let p: Vec<u8> = (0..len)
                        .map(|place| (number / base.pow(place) % base) as u8)
                        .collect();
                    let search = Search::at(task, &p, 1 + number % record.atoms);
                    let ran = calls.run(on, &search, 2, 9);
                    let saved = calls.save(on, &search, MARK_ROOM);
                    assert_eq!(ran.is_ok(), saved.is_ok());
                }
            }
        }
    }
    calls.print();
    calls.at_least(5_000, "run", &[12]);
    calls.at_least(40, "save", &[0]);
}

/// Beginnings of 127 and of 128 atoms.
#[test]
fn longest_beginnings() {
    let mut calls = Calls::new(73);
    let all: Vec<u8> = (1..=128).collect();
    for (molecule, task) in [
        (generate::ring(128), Task::Rings),
        (generate::ring(128), Task::RingsUpTo { k: 128 }),
        (generate::chain(128), Task::Paths { s: 1, t: 128 }),
        (generate::chain(128), Task::Shortest { s: 1, t: 128 }),
    ] {
        let record = molecule.record();
        let reached = Reached::new(&record);
        let on = On::lawful(&reached);
        let right = Search::at(task, &all[..127], 128);
        accept(&mut calls, on, &right);
        let mut search = right.clone();
        search.prefix[127] = 128;
        refuse(&mut calls, on, &search);
        search.length = 128;
        refuse(&mut calls, on, &search);
        for length in [129, 255, 256, 127 + (1 << 8), 127 + (1 << 32), u64::MAX] {
            search.length = length;
            refuse(&mut calls, on, &search);
        }
        for place in (0..127).step_by(14 * sample().min(5) as usize) {
            for atom in [0, 128, 129] {
                let mut search = right.clone();
                search.prefix[place] = atom;
                refuse(&mut calls, on, &search);
            }
        }
    }
}

/// All ends from 0 to n + 2 and beyond, on a few molecules: 10 before 11.
#[test]
fn every_start() {
    let mut calls = Calls::new(74);
    for molecule in [
        Molecule::new(0, &[]),
        Molecule::new(1, &[]),
        Molecule::new(2, &[]),
        generate::document(),
        generate::chain(128),
    ] {
        let record = molecule.record();
        let n = record.atoms;
        let reached = Reached::new(&record);
        let on = On::lawful(&reached);
        assert_eq!(calls.start_rings(on), Ok(Search::fresh(Task::Rings)));
        let ends = || {
            (0..=n + 2)
                .chain([127, 128, 129, 255, 256, 257, 1 << 32, (1 << 32) + 1])
                .chain([u64::MAX - 1, u64::MAX])
        };
        for k in ends() {
            let answer = calls.start_rings_up_to(on, k).err();
            assert_eq!(answer, (!(3..=128).contains(&k)).then_some(21), "k = {k}");
        }
        for s in ends().step_by(sample().min(7) as usize) {
            for t in ends() {
                let answer = calls.start_paths(on, s, t).err();
                assert_eq!(calls.start_shortest(on, s, t).err(), answer);
                assert_eq!(calls.count_shortest(on, s, t).err(), answer);
                let expected = match (s, t) {
                    _ if s == 0 || s > n || t == 0 || t > n => Some(10),
                    _ if s == t => Some(11),
                    _ => None,
                };
                assert_eq!(answer, expected, "{s} to {t}");
            }
        }
    }
    calls.print();
    calls.at_least(200, "start_paths", &[0, 10]);
    calls.at_least(100, "start_paths", &[11]);
    calls.at_least(200, "start_shortest", &[0, 10]);
    calls.at_least(100, "start_shortest", &[11]);
    calls.at_least(200, "count_shortest", &[0, 10]);
    calls.at_least(100, "count_shortest", &[11]);
    calls.at_least(50, "start_rings_up_to", &[0, 21]);
}

/// Damaged records: 9 before everything but lengths, in every function.
#[test]
fn rule_9() {
    let mut calls = Calls::new(75);
    let fresh = Search::fresh(Task::Rings);
    let bounded = Search::fresh(Task::RingsUpTo { k: 12 });
    let mut wrong = fresh.clone();
    wrong.kind = 4;
    for case in 0..sampled(6_000) {
        let mut rng = Rng::of_case(0x5255_4C45_3953, case);
        let record = generate::any_record(&mut rng, case % generate::RECORD_KINDS);
        let reached = Reached::new(&record);
        let on = if record.is_lawful() {
            On::lawful(&reached)
        } else {
            On::unlawful(&record)
        };
        let (s, t) = (rng.below(9), rng.below(9));
        let _ = calls.start_rings(on);
        let _ = calls.start_paths(on, s, t);
        let _ = calls.start_rings_up_to(on, s);
        let _ = calls.start_shortest(on, s, t);
        let _ = calls.count_shortest(on, s, t);
        for search in [&fresh, &wrong, &bounded] {
            let _ = calls.run(on, search, rng.below(3), 20);
            let size = mark::size(0, record.bonds.min(1_024) as usize);
            let _ = calls.save(on, search, size - 10 + rng.index(20));
        }
        if record.atoms <= 9999 && record.bonds <= 9999 {
            for search in [&fresh, &bounded] {
                let mark = mark::write(&record, search);
                let _ = calls.restore(on, &mark);
                let _ = calls.restore(on, &mark[1..]);
            }
        }
    }
    calls.print();
    calls.at_least(1_500, "start_rings", &[0, 9]);
    calls.at_least(1_500, "start_paths", &[9]);
    calls.at_least(500, "start_rings_up_to", &[0, 9, 21]);
    calls.at_least(1_500, "start_shortest", &[9]);
    calls.at_least(1_500, "count_shortest", &[9]);
    calls.at_least(50, "start_shortest", &[0, 10, 11]);
    calls.at_least(50, "count_shortest", &[0, 10, 11]);
    calls.at_least(1_500, "run", &[9, 12]);
    calls.at_least(500, "save", &[0, 9, 12, 13]);
    calls.at_least(1_000, "restore", &[0, 9, 14]);
}

/// Buffers of wrong lengths: 10,000 before anything else, and nothing written.
#[test]
fn wrong_lengths() {
    let document = generate::document().record();
    let mut unlawful = document.clone();
    unlawful.bonds = 4;
    let fresh = Search::fresh(Task::Rings);
    let mark = mark::write(&document, &fresh);
    let (mut tried, mut counted) = (0, 0);
    for case in 0..sampled(4_000) {
        let mut rng = Rng::of_case(0x4C45_4E47_5448, case);
        let record = if rng.one_in(4) { &unlawful } else { &document };
        // One, two or all three lengths are wrong.
        let wrong = rng.between(1, 7);
        let rows = match wrong & 1 {
            0 => record.rows.clone(),
            _ => generate::wrong_rows(&mut rng, record),
        };
        let numbers_len = match wrong & 2 {
            0 => NUMBERS,
            _ => rng.pick(&[0, 1, 8, 9, 11, 12, 20, 80, 128, 266]),
        };
        let prefix_len = match wrong & 4 {
            0 => PLACES,
            _ => rng.pick(&[0, 1, 10, 16, 126, 127, 129, 130, 256, 384, 65_664]),
        };
        let mut before = fresh.numbers(0, 0).to_vec();
        before.resize(numbers_len, 0);
        let (n, m) = (record.atoms, record.bonds);
        for function in 0..7 {
            let mut numbers = Guarded::numbers(numbers_len, case);
            let mut prefix = Guarded::new(prefix_len, case);
            let mut out = Guarded::new(rng.pick(&[0, 99, 144, MARK_ROOM]), case);
            if (3..6).contains(&function) {
                numbers = numbers.holding(&before);
                prefix = prefix.holding(&vec![0; prefix_len]);
            }
            let (given, places) = (numbers.buffer(), prefix.buffer());
            let answer = match function {
                0 => ffi::start_rings(n, m, &rows, given, places),
                1 => ffi::start_paths(n, m, &rows, (rng.below(6), 4), given, places),
                2 => ffi::start_rings_up_to(n, m, &rows, rng.below(6), given, places),
                6 => ffi::start_shortest(n, m, &rows, (rng.below(6), 4), given, places),
                3 => ffi::run(n, m, &rows, given, places, rng.below(9), out.buffer()),
                4 => ffi::save(n, m, &rows, given, places, out.buffer()),
                _ => {
                    let mark = &mark[rng.index(2)..];
                    ffi::restore(n, m, &rows, mark, given, places)
                }
            };
            assert_eq!(answer, ffi::WRONG_LENGTH, "function {function}, {wrong}");
            assert!(numbers.is_untouched() && prefix.is_untouched() && out.is_untouched());
            tried += 1;
        }
        // The count has rows alone.
        if wrong & 1 == 1 {
            let mut count = Guarded::numbers(1, case);
            let ends = (rng.below(6), 4);
            let answer = ffi::count_shortest(n, m, &rows, ends, &mut count.buffer()[0]);
            assert_eq!(answer, ffi::WRONG_LENGTH);
            assert!(count.is_untouched());
            counted += 1;
        }
    }
    assert_eq!(tried, 7 * sampled(4_000));
    assert!(counted >= sampled(1_500));
}
