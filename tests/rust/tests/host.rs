//! The host entry against the model: random and damaged sheets, marks, budgets
//! and buffer lengths, call by call, byte for byte.

use flat_tests::compare::Case;
use flat_tests::generate::{self, Molecule};
use flat_tests::host::{self, Entry, Sheet};
use flat_tests::model::carry::Form;
use flat_tests::model::field::LIMIT;
use flat_tests::model::list::{Listed, Lists, Reached, Task};
use flat_tests::model::machine::Search;
use flat_tests::model::mark::{self, MARK_ROOM};
use flat_tests::model::{self, lister, Record};
use flat_tests::rng::Rng;
use flat_tests::subject::{self, no_mark, on_sheet, on_subject, quicker, Subject};
use flat_tests::{examples, sample, sampled, spoil, sum_of_parts};

/// Calls on one molecule.
const CALLS: u64 = 12;

fn any_budget(rng: &mut Rng, n: u64) -> u64 {
    match rng.below(10) {
        0 => 0,
        1 => 1,
        2..=4 => rng.between(2, n + 3),
        5 => rng.between(n, 4 * n + 4),
        6 => 2 * n * n,
        7 => rng.below(2 * n * n + 2),
        _ => rng.pick(&[u64::MAX, LIMIT, LIMIT + 1, 1 << 32, (1 << 32) + 1, 1 << 63]),
    }
}

fn any_room(rng: &mut Rng, n: u64) -> usize {
    let room = match rng.below(16) {
        0..=1 => 0,
        2..=9 => rng.between(0, n + 2),
        10..=11 => rng.between(n, 4 * n + 4),
        12..=14 => rng.between(0, 1_000),
        _ if rng.one_in(40) => 65_536 + rng.between(0, n),
        _ => 3_000,
    };
    room as usize
}

/// Bytes for the next mark: mostly enough.
fn any_mark_room(rng: &mut Rng) -> usize {
    match rng.below(16) {
        0 => 0,
        1..=2 => MARK_ROOM - 1,
        3..=4 => MARK_ROOM + 1,
        5 => rng.index(MARK_ROOM),
        6 => rng.pick(&[1, 90, 91, 99, 144, 599, 4_096, 9_307, 9_783, 65_536]),
        _ => MARK_ROOM,
    }
}

/// Kind, s and t of a start: right, near to right, or far from it.
fn any_numbers(rng: &mut Rng, n: u64) -> [u64; 3] {
    let mut numbers = generate::any_task(rng, n).numbers();
    match rng.below(8) {
        0 => numbers[0] = rng.pick(&[0, 1, 2, 3, 4, 5, 256, 259, 1 << 32, u64::MAX]),
        1 => numbers[1] = rng.pick(&[0, 1, 2, 3, n, n + 1, 128, 129]),
        2 => numbers[2] = rng.pick(&[0, 1, 2, n, n + 1, 128, u64::MAX]),
        3 => numbers[2] = numbers[1],
        4 => numbers = [2, generate::wrong_size(rng), 0],
        5 => {
            let which = rng.index(3);
            numbers[which] = generate::wild(rng, numbers[which]);
        }
        _ => {}
    }
    numbers
}

/// A start on the sheet as it is or changed; now and then a first call follows
/// from its mark.
fn start_on(entry: &mut Entry, subject: &Subject, rng: &mut Rng) {
    let n = subject.atoms();
    let (numbers, room) = (any_numbers(rng, n), any_mark_room(rng));
    if rng.one_in(3) {
        on_sheet(&subject.changed_sheet(rng), |sheet| {
            let _ = entry.start(sheet, numbers, room);
        });
        return;
    }
    let call = subject.own();
    if let Ok(mark) = entry.start(call, numbers, room) {
        let (budget, room) = (any_budget(rng, n), any_room(rng, n));
        let resumed = entry.resume(call, &mark, budget, (room, MARK_ROOM));
        assert!(resumed.is_ok(), "a fresh mark is not refused");
    }
}

/// Four parts side by side: starts of each kind on sheets right and damaged.
#[test]
fn random_starts() {
    let parts = [
        ("random_starts 1", 0x5354_4152_5431),
        ("random_starts 2", 0x5354_4152_5432),
        ("random_starts 3", 0x5354_4152_5433),
        ("random_starts 4", 0x5354_4152_5434),
    ];
    let calls = sum_of_parts(&parts, random_starts_of);
    println!("{calls} calls in all");
    assert!(sample() > 1 || calls >= 50_000, "only {calls} calls");
}

/// The starts of one seed, and the calls made.
fn random_starts_of(name: &'static str, seed: u64) -> u64 {
    let mut entry = Entry::new(seed);
    for case in 0..sampled(2_000) {
        let _case = Case(name, case);
        let mut rng = Rng::of_case(seed, case);
        let molecule = generate::any_searched(&mut rng);
        let record = molecule.record();
        let (listed, reached) = (Listed::new(&record), Reached::new(&record));
        let subject = Subject {
            lists: quicker(&listed, &reached),
            sheet: generate::mixed(&mut rng, &molecule.sheet()),
            places: Vec::new(),
            isomer: None,
        };
        for _ in 0..6 {
            start_on(&mut entry, &subject, &mut rng);
        }
    }
    entry.print();
    entry.at_least(1_500, &[0]);
    entry.at_least(500, &[13, 16, 21, 101, 103]);
    entry.at_least(200, &[10, 11, 104]);
    entry.at_least(50, &[1, 2, 3, 4, 5, 6, 7, 8]);
    entry.calls()
}

/// Calls on one molecule, each with the parts of the call drawn anew: the sheet
/// as it is or changed, no mark, the mark of the last accepted call, of another
/// place, of another molecule, of one with as many atoms and bonds, damaged, or
/// none at all.
fn calls_on(entry: &mut Entry, subject: &Subject, other: &[u8], rng: &mut Rng) {
    let n = subject.atoms();
    let mut last = Vec::new();
    for _ in 0..CALLS {
        let mut mark = match rng.below(17) {
            0..=1 => Vec::new(),
            2..=6 => last.clone(),
            7..=13 => subject.mark(rng, Form::New),
            14 => other.to_vec(),
            15 => subject.mark_of_isomer(rng, Form::New),
            _ => no_mark(rng, &subject.sheet),
        };
        spoil::now_and_then(rng, n, &mut mark);
        let (budget, room) = (any_budget(rng, n), any_room(rng, n));
        let rooms = (room, any_mark_room(rng));
        if rng.below(8) < 5 {
            if let Ok(resumed) = entry.resume(subject.own(), &mark, budget, rooms) {
                last = resumed.mark;
            }
            continue;
        }
        on_sheet(&subject.changed_sheet(rng), |sheet| {
            // It may read as another molecule, also a large one.
            let budget = match sheet.1 {
                Ok(_) => budget.min(20),
                Err(_) => budget,
            };
            let _ = entry.resume(sheet, &mark, budget, rooms);
        });
    }
}

/// Four parts side by side, at least 300,000 calls.
#[test]
fn random_calls() {
    let parts = [
        ("random_calls 1", 0x48_4F53_5431),
        ("random_calls 2", 0x48_4F53_5432),
        ("random_calls 3", 0x48_4F53_5433),
        ("random_calls 4", 0x48_4F53_5434),
    ];
    let calls = sum_of_parts(&parts, random_calls_of);
    println!("{calls} calls in all");
    assert!(sample() > 1 || calls >= 300_000, "only {calls} calls");
}

/// The calls of one seed, and their number.
fn random_calls_of(name: &'static str, seed: u64) -> u64 {
    let molecules = sampled(7_000);
    let mut entry = Entry::new(seed);
    let mut other = Vec::new();
    for case in 0..molecules {
        let _case = Case(name, case);
        let mut rng = Rng::of_case(seed, case);
        let molecule = subject::any_molecule(&mut rng);
        other = on_subject(&mut rng, &molecule, |subject, rng| {
            calls_on(&mut entry, subject, &other, rng);
            subject.mark(rng, Form::New)
        });
    }
    entry.print();
    assert_eq!(entry.calls(), molecules * CALLS);
    entry.at_least(2_000, &[101, 103, 104]);
    entry.at_least(1_000, &[102, 13, 14, 15]);
    entry.at_least(300, &[16, 17]);
    entry.at_least(500, &[1, 2, 3, 4, 5, 6, 7, 8]);
    entry.calls()
}

/// Rules broken together: the sheet's come first, then the mark's, then the
/// room for the next mark. Each set of them is tried with the others kept.
#[test]
fn order_of_rules() {
    let mut entry = Entry::new(81);
    let record = generate::document().record();
    let lists = Listed::new(&record);
    let right = generate::document().sheet();
    let sheets = generate::refused_sheets();
    let line = |text: &str| text.as_bytes().to_vec();
    let lines = |line1: &str, line3: &str, bonds: &str| {
        let counts = "                   5                   2                   0";
        line(&format!("{line1}\n{counts}\n{line3}\n{bonds}"))
    };
    let own = "   1   2\n   1   3\n   1   4\n   2   3\n   3   4\n";
    let mark = |line1: &str, line3: &str| lines(line1, line3, own);
    // Of the place after five trials, with other bond lines.
    let bonds = |bonds: &str| lines("   0   0   0   4   5   2   3", "   1   2", bonds);
    let last = |last: &str| bonds(&format!("{}{last}", &own[..36]));
    // The same with the third bond out of order, and other first lines.
    let unordered = own.replace("   1   4\n", "   4   1\n");
    let marks = [
        (None, Vec::new()),
        (None, mark("   0   0   0   4   5   2   3", "   1   2")),
        (None, mark("   1   2   4   4   5   1   1", "   2")),
        (None, mark("   2   3   0   4   5   2   3", "   1   2")),
        (None, mark("   2 128   0   4   5   2   3", "   1   2")),
        (None, mark("   3   2   4   4   5   2   3", "   2   1")),
        (None, mark("   3   4   1   4   5   0   5", "")),
        (Some(14), line("x")),
        (Some(14), line("\n")),
        (Some(14), mark("   2   0   0   5   5   1   0", "   0   9")),
        (Some(14), mark("   0   0   0   4   5  -2   3", "   1   2")),
        (Some(14), mark("0000   0   0   4   5   2   3", "   1   2")),
        (Some(14), mark("   2   0   0   5   50002   0", "   9   9")),
        (Some(14), mark("   0   0   0   4   5   2   3", "   10002")),
        (Some(14), mark("   0   0   0   4   4   2   3", "   1   2")),
        (Some(14), mark("   0   0   0   4   6   2   3", "   1   2")),
        (Some(14), mark("   0   0   0   41025   2   3", "   1   2")),
        (Some(14), mark("   0   0   0   40005   2   3", "   1   2")),
        (Some(14), bonds("")),
        (Some(14), bonds(&own[9..])),
        (Some(14), bonds(&unordered)),
        (Some(14), bonds(&format!("{own}   3   5\n"))),
        (Some(14), bonds(&format!("{own}\n"))),
        (Some(14), last("   3   3\n")),
        (Some(14), last("   2   3\n")),
        (Some(14), last("   1   3\n")),
        (Some(14), last("00030004\n")),
        (Some(14), last("   3   4\r")),
        (Some(14), last("9999   4\n")),
        (Some(14), last("   0   4\n")),
        (
            Some(14),
            lines("   4   0   0   9   5   2   0", "   9   9", &unordered),
        ),
        (Some(15), mark("   2   0   0   5   5   2   0", "   9   9")),
        (
            Some(15),
            lines("   4   0   0   4   4   2   0", "   9   9", &own[9..]),
        ),
        (
            Some(15),
            lines("   0   0   0   4   4   2   3", "   1   2", &own[..36]),
        ),
        (
            Some(15),
            lines("   0   0   0   4   0   2   3", "   1   2", ""),
        ),
        (Some(15), last("   2   4\n")),
        (Some(15), last("   3   5\n")),
        (Some(15), last("   39999\n")),
        (Some(15), last("99989999\n")),
        (Some(15), bonds(&own.replace("   1   2\n", "   0   2\n"))),
        (Some(16), mark("   2   0   0   4   5   2   0", "   9   9")),
        (Some(16), mark("   2   2   0   4   5   2   0", "   9   9")),
        (Some(16), mark("   2 129   0   4   5   2   3", "   1   2")),
        (Some(16), mark("   2   3   1   4   5   2   3", "   1   2")),
        (Some(16), mark("   3   0   0   4   5   2   3", "   1   2")),
        (Some(16), mark("   3   3   0   4   5   2   3", "   1   2")),
        (Some(16), mark("   3   5   3   4   5   1   0", "   5")),
        (Some(16), mark("   3   3   3   4   5   1   1", "   3")),
        (Some(16), mark("   4   0   0   4   5   2   3", "   1   2")),
        (Some(16), mark("   4   2   4   4   5   2   3", "   2   1")),
        (Some(16), mark("   0   0   1   4   5   2   3", "   1   2")),
        (Some(16), mark("   1   0   0   4   5   2   3", "   1   2")),
        (Some(16), mark("   1   3   3   4   5   1   1", "   3")),
        (Some(16), mark("   1   5   3   4   5   1   1", "   5")),
        (Some(17), mark("   0   0   0   4   5   2   3", "   9   9")),
        (Some(17), mark("   0   0   0   4   5   2   3", "   1   4")),
        (Some(17), mark("   0   0   0   4   5   2   0", "   1   2")),
        (Some(17), mark("   0   0   0   4   5   2   5", "   1   2")),
        (Some(17), mark("   0   0   0   4   5   0   6", "")),
        (Some(17), mark("   2   3   0   4   5   2   3", "   1   4")),
        (Some(17), mark("   2   3   0   4   5   2   5", "   1   2")),
        (Some(17), mark("   3   1   3   4   5   2   3", "   1   2")),
        (Some(17), mark("   3   2   4   4   5   2   5", "   2   1")),
        (Some(17), mark("   3   2   4   4   5   2   0", "   2   1")),
        (None, mark("   0   0   0   4   5   0   5", "")),
    ];
    for (of_mark, mark) in &marks {
        for mark_room in [0, 91, 599, 9_814, 9_815] {
            for (of_sheet, sheet) in &sheets {
                let call = (sheet.as_slice(), Err(*of_sheet));
                assert_eq!(model::sheet::read(sheet), Err(*of_sheet));
                let answer = entry.resume(call, mark, 9, (20, mark_room));
                assert_eq!(answer.err(), Some(*of_sheet));
            }
            let call = (right.as_slice(), Ok(&lists as &dyn Lists));
            let answer = entry.resume(call, mark, 9, (20, mark_room)).err();
            let of_room = (mark_room < 9_815).then_some(13);
            assert_eq!(answer, of_mark.or(of_room), "{}", mark.escape_ascii());
        }
    }
}

/// The rules of a start, each before the next: the sheet's, 16, 10, 11 and 21 of
/// the kind, then the room for the mark. A start that breaks none writes the mark.
#[test]
fn order_of_rules_of_a_start() {
    let mut entry = Entry::new(86);
    let molecule = generate::document();
    let (record, right) = (molecule.record(), molecule.sheet());
    let lists = Listed::new(&record);
    let twice = b"   4   3\n   1   2\n   3   4\n   2   1\n";
    let starts = [
        (None, [0, 0, 0]),
        (None, [1, 1, 4]),
        (None, [1, 4, 1]),
        (None, [2, 3, 0]),
        (None, [2, 4, 0]),
        (None, [2, 5, 0]),
        (None, [2, 128, 0]),
        (Some(16), [0, 1, 0]),
        (Some(16), [0, 0, 1]),
        (Some(16), [0, 1 << 32, 0]),
        (Some(16), [2, 3, 1]),
        (Some(16), [2, 2, 1]),
        (Some(16), [2, 0, u64::MAX]),
        (None, [3, 1, 4]),
        (None, [3, 4, 1]),
        (None, [3, 1, 3]),
        (Some(10), [3, 0, 0]),
        (Some(10), [3, 0, 4]),
        (Some(10), [3, 5, 5]),
        (Some(10), [3, 1, 5]),
        (Some(10), [3, 1, (1 << 32) + 4]),
        (Some(11), [3, 4, 4]),
        (Some(16), [4, 0, 0]),
        (Some(16), [4, 1, 4]),
        (Some(16), [(1 << 32) + 3, 1, 4]),
        (Some(16), [256, 0, 0]),
        (Some(16), [(1 << 32) + 1, 1, 4]),
        (Some(16), [(1 << 32) + 2, 3, 0]),
        (Some(16), [u64::MAX, 3, 0]),
        (Some(10), [1, 0, 0]),
        (Some(10), [1, 0, 4]),
        (Some(10), [1, 5, 5]),
        (Some(10), [1, 1, 5]),
        (Some(10), [1, (1 << 32) + 1, 4]),
        (Some(11), [1, 4, 4]),
        (Some(21), [2, 0, 0]),
        (Some(21), [2, 2, 0]),
        (Some(21), [2, 129, 0]),
        (Some(21), [2, 256 + 3, 0]),
        (Some(21), [2, (1 << 32) + 3, 0]),
        (Some(21), [2, u64::MAX, 0]),
    ];
    for (of_kind, numbers) in starts {
        for room in [0, 91, 136, 599, 9_814, 9_815, 9_816, 65_536] {
            for (rule, sheet) in [(1, &b"   4   5"[..]), (8, &twice[..])] {
                let answer = entry.start((sheet, Err(rule)), numbers, room);
                assert_eq!(answer.err(), Some(rule));
            }
            let call = (right.as_slice(), Ok(&lists as &dyn Lists));
            let answer = entry.start(call, numbers, room).err();
            let of_room = (room < 9_815).then_some(13);
            assert_eq!(answer, of_kind.or(of_room), "{numbers:?}, {room} bytes");
        }
    }
    // No atoms: a size may be above n, and no ends are atoms.
    let (record, sheet) = (Record::new(0), b"   0   0\n");
    let lists = Listed::new(&record);
    let call = (&sheet[..], Ok(&lists as &dyn Lists));
    assert!(entry.start(call, [2, 12, 0], MARK_ROOM).is_ok());
    assert_eq!(entry.start(call, [1, 0, 0], MARK_ROOM), Err(10));
    assert_eq!(entry.start(call, [3, 0, 0], MARK_ROOM), Err(10));
}

/// Every single byte of a mark changed to every other byte, and every length.
#[test]
fn every_byte_of_a_mark() {
    let mut entry = Entry::new(82);
    let molecule = generate::document();
    let (record, sheet) = (molecule.record(), molecule.sheet());
    let lists = Listed::new(&record);
    let call = (sheet.as_slice(), Ok(&lists as &dyn Lists));
    for (task, p) in [
        (Task::Rings, [1, 2]),
        (Task::RingsUpTo { k: 12 }, [1, 2]),
        (Task::Shortest { s: 2, t: 4 }, [2, 1]),
    ] {
        let mut search = Search::at(task, &p, 3);
        [search.trials, search.extensions, search.listed] = [5, 2, 0];
        let mark = mark::write(&record, &search);
        for at in 0..mark.len() {
            let step = flat_tests::sample().min(17) as usize;
            for byte in (at % step..256).step_by(step) {
                let mut changed = mark.clone();
                changed[at] = byte as u8;
                let _ = entry.resume(call, &changed, 4, (9, MARK_ROOM));
            }
            let _ = entry.resume(call, &mark[..at], 4, (9, MARK_ROOM));
            let _ = entry.resume(call, &mark[at..], 4, (9, MARK_ROOM));
        }
    }
    entry.print();
}

/// Calls on two molecules with as many atoms and bonds: each accepted call writes a
/// mark, and that is refused on the other's sheet by rule 15, with either room for
/// the next mark, and goes on on its own.
#[test]
fn isomers() {
    let mut entry = Entry::new(87);
    let mut pairs = 0;
    for case in 0..sampled(3_000) {
        let _case = Case("isomers", case);
        let mut rng = Rng::of_case(0x49_534F_4D31, case);
        let molecule = generate::any_searched(&mut rng);
        let molecules = match generate::any_isomer(&mut rng, &molecule) {
            Some(other) => [molecule, other],
            None => continue,
        };
        pairs += 1;
        isomers_of(&mut entry, &mut rng, &molecules);
    }
    // Cubane and cuneane, which has two bonds of it elsewhere.
    let cubane = generate::molecule_of(&examples::record("cubane"));
    let mut cuneane = cubane.clone();
    for (old, new) in [((1, 5), (1, 3)), ((2, 3), (2, 5))] {
        let at = cuneane.bonds.iter().position(|&bond| bond == old);
        cuneane.bonds[at.expect("a bond of cubane")] = new;
    }
    isomers_of(&mut entry, &mut Rng::new(88), &[cubane, cuneane]);
    entry.print();
    println!("{pairs} pairs");
    assert!(pairs >= sampled(2_000));
    entry.at_least(10_000, &[15]);
    entry.at_least(1_000, &[101, 103, 104]);
}

/// A few calls on each of two molecules, and their marks on the other.
fn isomers_of(entry: &mut Entry, rng: &mut Rng, molecules: &[Molecule; 2]) {
    let records = [molecules[0].record(), molecules[1].record()];
    let sheets = [
        molecules[0].sheet(),
        generate::mixed(rng, &molecules[1].sheet()),
    ];
    let lists = [Reached::new(&records[0]), Reached::new(&records[1])];
    let call = |which: usize| (sheets[which].as_slice(), Ok(&lists[which] as &dyn Lists));
    let n = molecules[0].atoms;
    for (own, other) in [(0, 1), (1, 0)] {
        let numbers = generate::any_task(rng, n).numbers();
        let mut mark = entry.start(call(own), numbers, MARK_ROOM).expect("a task");
        for _ in 0..3 {
            let (budget, room) = (any_budget(rng, n), any_room(rng, n));
            for rooms in [(room, MARK_ROOM), (room, rng.index(MARK_ROOM))] {
                let refused = entry.resume(call(other), &mark, budget, rooms);
                assert_eq!(refused, Err(15));
            }
            let resumed = entry.resume(call(own), &mark, budget, (room, MARK_ROOM));
            mark = resumed.expect("accepted").mark;
        }
    }
}

/// Marks without bond lines, as they were before request F-5: rule 14, and from a
/// molecule without bonds the same as ever.
#[test]
fn marks_without_lines() {
    let mut entry = Entry::new(89);
    for case in 0..sampled(2_000) {
        let _case = Case("marks_without_lines", case);
        let mut rng = Rng::of_case(0x46_4F52_4D31, case);
        let molecule = match rng.below(8) {
            0 => Molecule::new(rng.between(0, 128), &[]),
            _ => generate::any_searched(&mut rng),
        };
        let (record, sheet) = (molecule.record(), molecule.sheet());
        let lists = Reached::new(&record);
        let call = (sheet.as_slice(), Ok(&lists as &dyn Lists));
        let numbers = generate::any_task(&mut rng, record.atoms).numbers();
        let fresh = entry.start(call, numbers, MARK_ROOM).expect("a task");
        let budget = any_budget(&mut rng, record.atoms).min(2_000);
        let resumed = entry.resume(call, &fresh, budget, (300, MARK_ROOM));
        let resumed = resumed.expect("accepted");
        let search = &resumed.search;
        let former = Form::Old.write(&record, search);
        assert_eq!(resumed.mark[..former.len()], former);
        let none = molecule.bonds.is_empty();
        assert_eq!(former == resumed.mark, none);
        let right = if none { former.len() } else { 0 };
        assert_eq!(host::mark_length(&former), right);
        assert_eq!(host::listed(&former), search.listed);
        for mark_room in [0, 599, MARK_ROOM] {
            let answer = entry.resume(call, &former, budget, (300, mark_room));
            let of_room = (mark_room < MARK_ROOM).then_some(13);
            assert_eq!(answer.err(), if none { of_room } else { Some(14) });
        }
    }
    entry.print();
    entry.at_least(1_000, &[14]);
    entry.at_least(100, &[13]);
}

/// Marks of 0, 1, 1,024 and more bonds, with as many lines, one more and one
/// fewer, on sheets of 0, 1 and 1,024 bonds: rule 14 for the number of lines, 15
/// for another molecule's.
#[test]
fn numbers_of_lines() {
    let mut entry = Entry::new(90);
    let pairs = |m: usize| -> Vec<mark::Bond> {
        let n = if m <= 1_024 { 128 } else { 151 };
        let pairs = (1..n).flat_map(|a| (a + 1..=n).map(move |b| (a, b)));
        pairs.take(m).collect()
    };
    let fresh = mark::write(&Record::new(128), &Search::fresh(Task::Rings));
    for own in [0, 1, 1_024] {
        let molecule = Molecule::new(128, &pairs(own));
        let (record, sheet) = (molecule.record(), molecule.sheet());
        let lists = Reached::new(&record);
        let call = (sheet.as_slice(), Ok(&lists as &dyn Lists));
        for m in [0, 1, 2, 1_023, 1_024, 1_025, 2_000, 9_999] {
            let mark = spoil::with_bonds(&fresh, &pairs(m));
            for mark_room in [MARK_ROOM - 1, MARK_ROOM] {
                let rooms = (20, mark_room);
                let of_room = (mark_room < MARK_ROOM).then_some(13);
                let answer = entry.resume(call, &mark, 2, rooms).err();
                assert_eq!(answer, if m == own { of_room } else { Some(15) });
                let more = spoil::with_lines(&mark, &pairs(m + 1));
                assert_eq!(entry.resume(call, &more, 2, rooms), Err(14));
                if m > 0 {
                    let fewer = spoil::with_lines(&mark, &pairs(m - 1));
                    assert_eq!(entry.resume(call, &fewer, 2, rooms), Err(14));
                }
            }
        }
    }
}

/// Every budget and every room of fresh searches, with every short mark output
/// turned back.
#[test]
fn every_budget_and_room() {
    let mut entry = Entry::new(83);
    for molecule in [
        generate::document(),
        generate::two_to_three(),
        generate::complete(4),
        generate::ring(5),
        generate::chain(3),
        Molecule::new(0, &[]),
        Molecule::new(1, &[]),
    ] {
        let (record, sheet) = (molecule.record(), molecule.sheet());
        let lists = Listed::new(&record);
        let call = (sheet.as_slice(), Ok(&lists as &dyn Lists));
        let steps = flat_tests::sample().min(7) as usize;
        for task in [
            None,
            Some(Task::RingsUpTo { k: 3 }),
            Some(Task::RingsUpTo { k: 4 }),
            Task::of(record.atoms, 3, 2, 3),
            Task::of(record.atoms, 3, 4, 2),
        ] {
            // No mark, or the mark of a start.
            let start = match task {
                None => Vec::new(),
                Some(task) => entry
                    .start(call, task.numbers(), MARK_ROOM)
                    .expect("allowed"),
            };
            let list = lister::list(&record, task.unwrap_or(Task::Rings)).sheet;
            for budget in (0..=record.atoms * 7 + 1).step_by(steps) {
                for room in (0..=list.len() + 1).step_by(steps) {
                    let first = entry.resume(call, &start, budget, (room, MARK_ROOM));
                    let first = first.expect("accepted");
                    let rest = entry.resume(call, &first.mark, u64::MAX, (list.len(), MARK_ROOM));
                    let rest = rest.expect("accepted");
                    assert_eq!(rest.stop as u32, 101);
                    assert_eq!([first.records, rest.records].concat(), list);
                }
            }
        }
        let steps = flat_tests::sample().min(97) as usize;
        for mark_room in (0..MARK_ROOM).rev().step_by(steps) {
            let answer = entry.resume(call, &[], 1, (20, mark_room));
            assert_eq!(answer.err(), Some(13));
            let answer = entry.start(call, [2, 12, 0], mark_room);
            assert_eq!(answer.err(), Some(13));
        }
    }
}

/// The longest ring and the longest beginning: 128 atoms in one ring. A mark of
/// 127 atoms and 128 bonds is 1,751 bytes, a record of 128 atoms 129. And the
/// longest marks: 119 atoms and 1,024 bonds.
#[test]
fn longest() {
    let mut entry = Entry::new(84);
    let molecule = generate::ring(128);
    let (record, sheet) = (molecule.record(), molecule.sheet());
    let lists = Reached::new(&record);
    let call = (sheet.as_slice(), Ok(&lists as &dyn Lists));
    let ring: Vec<u8> = (1..=128).collect();
    let bounded = Search::at(Task::RingsUpTo { k: 127 }, &ring[..127], 128);
    let refused = entry.resume(call, &mark::write(&record, &bounded), 1, (300, MARK_ROOM));
    assert_eq!(refused, Err(17));
    for task in [Task::Rings, Task::RingsUpTo { k: 128 }] {
        longest_of(
            &mut entry,
            call,
            &mark::write(&record, &Search::at(task, &ring[..127], 128)),
        );
    }
    // The same of a chain from end to end, of paths and of shortest paths.
    let molecule = generate::chain(128);
    let (record, sheet) = (molecule.record(), molecule.sheet());
    let lists = Reached::new(&record);
    let call = (sheet.as_slice(), Ok(&lists as &dyn Lists));
    for kind in [1, 3] {
        let task = Task::of(128, kind, 1, 128).expect("two atoms");
        let mark = mark::write(&record, &Search::at(task, &ring[..127], 128));
        longest_of(&mut entry, call, &mark);
    }
    // The most bonds, with 119 of the 120 atoms of a ring or a path.
    for (closes, task) in [
        (true, Task::Rings),
        (true, Task::RingsUpTo { k: 120 }),
        (false, Task::Paths { s: 1, t: 120 }),
    ] {
        let molecule = generate::longest_with_most_bonds(closes);
        let (record, sheet) = (molecule.record(), molecule.sheet());
        let lists = Reached::new(&record);
        let call = (sheet.as_slice(), Ok(&lists as &dyn Lists));
        let mark = mark::write(&record, &Search::at(task, &ring[..119], 120));
        assert_eq!(mark.len(), 9_783);
        for (room, stop) in [(120, 104), (121, 103)] {
            let resumed = entry.resume(call, &mark, 1, (room, MARK_ROOM));
            assert_eq!(resumed.expect("accepted").stop as u32, stop);
            let refused = entry.resume(call, &mark, 1, (room, MARK_ROOM - 1));
            assert_eq!(refused, Err(13));
        }
    }
    // A full sheet, the longest accepted: 9 × 1,025 bytes.
    let molecule = generate::random_molecule(&mut Rng::new(5), 128, 1024);
    let (record, sheet) = (molecule.record(), molecule.sheet());
    let lists = Reached::new(&record);
    assert_eq!(sheet.len(), 9_225);
    let call = (sheet.as_slice(), Ok(&lists as &dyn Lists));
    entry
        .resume(call, &[], 10, (500, MARK_ROOM))
        .expect("accepted");
    for numbers in [[2, 12, 0], [3, 1, 128]] {
        let start = entry
            .start(call, numbers, MARK_ROOM)
            .expect("a size, two atoms");
        entry
            .resume(call, &start, 300, (500, MARK_ROOM))
            .expect("accepted");
    }
}

/// The longest mark with outputs about the length of the longest record.
fn longest_of(entry: &mut Entry, call: Sheet, mark: &[u8]) {
    let bonds = call.1.expect("a molecule").record().bonds;
    assert_eq!(mark.len(), mark::size(127, bonds as usize));
    for (room, stop) in [(0, 104), (128, 104), (129, 103), (130, 103), (300, 103)] {
        for mark_room in [1_751, MARK_ROOM - 1, MARK_ROOM, MARK_ROOM + 1] {
            match entry.resume(call, mark, 1, (room, mark_room)) {
                Ok(resumed) => {
                    assert_eq!(resumed.stop as u32, stop);
                    assert!(mark_room >= MARK_ROOM);
                    if stop == 104 {
                        assert_eq!(resumed.mark, mark);
                    }
                }
                Err(rule) => assert!(rule == 13 && mark_room < MARK_ROOM),
            }
        }
    }
    // No mark is longer: 128 atoms break the layout.
    let longer = spoil::lengthened(mark, 128, 128);
    assert_eq!(entry.resume(call, &longer, 1, (300, MARK_ROOM)), Err(14));
}

/// Sheets filled by zeros, and by blanks or zeros from field to field: the same
/// answers, rings and marks as from the sheet filled by blanks, call by call, and
/// blanks only in the marks.
#[test]
fn both_fillings() {
    let mut entry = Entry::new(85);
    let mut with_both = 0;
    let cases = sampled(3_000);
    for case in 0..cases {
        let _case = Case("both_fillings", case);
        let mut rng = Rng::of_case(0x48_4F53_5436, case);
        let molecule = generate::any_searched(&mut rng);
        let (record, blanks) = (molecule.record(), molecule.sheet());
        let zeros = generate::zero_filled(&blanks);
        let mixed = generate::mixed(&mut rng, &blanks);
        with_both += u64::from(mixed != blanks && mixed != zeros);
        let (listed, reached) = (Listed::new(&record), Reached::new(&record));
        let lists = quicker(&listed, &reached);
        // No mark, or that of a start, which is the same on each sheet.
        let numbers = generate::any_task(&mut rng, record.atoms).numbers();
        let [mut mark, second, third] = [&blanks, &zeros, &mixed].map(|sheet| {
            let call = (sheet.as_slice(), Ok(lists));
            entry.start(call, numbers, MARK_ROOM).expect("accepted")
        });
        assert!(mark == second && mark == third);
        if rng.one_in(2) {
            mark.clear();
        }
        for _ in 0..3 {
            let (budget, room) = (
                any_budget(&mut rng, record.atoms),
                any_room(&mut rng, record.atoms),
            );
            let [first, second, third] = [&blanks, &zeros, &mixed].map(|sheet| {
                let call = (sheet.as_slice(), Ok(lists));
                let resumed = entry.resume(call, &mark, budget, (room, MARK_ROOM));
                resumed.expect("accepted")
            });
            assert!(first == second && first == third);
            mark = first.mark;
            for (at, columns) in spoil::places(&mark) {
                assert_ne!(mark[at], b'0', "a field of {columns} columns at {at}");
            }
        }
        // Whole listings of small molecules, by the library alone.
        if record.atoms <= subject::BRUTE {
            let [first, second, third] = [&blanks, &zeros, &mixed].map(|sheet| {
                let whole = host::list(sheet, &[], || (1_000, 129));
                (whole.sheet, whole.calls, whole.stop, whole.mark)
            });
            assert!(first == second && first == third);
        }
    }
    entry.print();
    println!("{cases} molecules, {with_both} sheets with both fillings");
    assert!(with_both >= cases / 2);
    entry.at_least(300, &[101, 103, 104]);
}

/// The two readers of a mark take a field that zeros fill as no number, and do
/// not look at the others.
#[test]
fn mark_readers_and_zeros() {
    for case in 0..sampled(2_000) {
        let _case = Case("mark_readers_and_zeros", case);
        let mut rng = Rng::of_case(0x48_4F53_5437, case);
        let n = rng.between(1, 128);
        let p = generate::random_list(&mut rng, n, 127);
        let mut search = Search::at(Task::Rings, &p, rng.between(0, n + 1));
        search.listed = match rng.below(8) {
            0 => 0,
            1 => LIMIT,
            _ => (rng.next() >> rng.below(64)).min(LIMIT),
        };
        let m = rng.between(0, (n * (n - 1) / 2).min(60));
        let record = generate::random_molecule(&mut rng, n, m).record();
        let mark = mark::write(&record, &search);
        let right = (mark::size(p.len(), m as usize), search.listed);
        let readers = |bytes: &[u8]| {
            let answers = (host::mark_length(bytes), host::listed(bytes));
            let model = (model::host::mark_length(bytes), model::host::listed(bytes));
            assert_eq!(answers, model, "{}", bytes.escape_ascii());
            answers
        };
        assert_eq!(readers(&mark), right);
        let mut every = mark.clone();
        for (at, columns) in spoil::places(&mark) {
            let mut changed = mark.clone();
            spoil::zero_fill(&mut changed, at, columns);
            assert_ne!(changed, mark);
            let expected = match at {
                16 | 20 => (0, right.1),
                69 => (right.0, 0),
                _ => right,
            };
            assert_eq!(readers(&changed), expected, "the field at {at}");
            spoil::zero_fill(&mut every, at, columns);
        }
        assert_eq!(readers(&every), (0, 0));
    }
    // A number of four digits fills its columns.
    for (text, size) in [
        (b"   01000", 91 + 4_000),
        (b"1000   0", 91 + 9_000),
        (b"10241000", 91 + 4_000 + 9 * 1_024),
        (b"99999999", 91 + 13 * 9_999),
    ] {
        let mut long = vec![b' '; size];
        long[16..24].copy_from_slice(text);
        assert_eq!(host::mark_length(&long), size);
        assert_eq!(host::mark_length(&long[..size - 1]), 0);
    }
}

/// The two readers of a mark, on marks, damaged marks and noise.
#[test]
fn mark_readers() {
    let (mut lengths, mut counts) = (0, 0);
    let mut compare = |bytes: &[u8]| {
        let given: Box<[u8]> = bytes.into();
        let length = host::mark_length(&given);
        let text = || bytes.escape_ascii().to_string();
        assert_eq!(length, model::host::mark_length(bytes), "{}", text());
        let count = host::listed(&given);
        assert_eq!(count, model::host::listed(bytes), "{}", text());
        lengths += u64::from(length > 0);
        counts += u64::from(count > 0);
    };
    compare(&[]);
    let cases = sampled(200_000);
    for case in 0..cases {
        let mut rng = Rng::of_case(0x48_4F53_5435, case);
        let n = rng.between(1, 128);
        let p = generate::random_list(&mut rng, n, 127);
        let mut search = Search::at(Task::Rings, &p, rng.between(0, n + 1));
        search.listed = (rng.next() >> rng.below(64)).min(LIMIT);
        // The bond lines themselves are not looked at.
        let m = match rng.below(8) {
            0 => rng.below(1_025),
            1 => 0,
            _ => rng.below(40),
        };
        let mut bytes = mark::write_lines(n, m, &search);
        bytes.resize(mark::size(p.len(), m as usize), b' ');
        match rng.below(10) {
            // The length alone, also above 127 and above what is there.
            0 => {
                let length = rng.pick(&spoil::EDGES);
                spoil::put(&mut bytes, 20, 4, &length.to_string());
            }
            // Room for such a length.
            1 => {
                let length = rng.pick(&[127, 128, 129, 200, 256, 1_000]);
                spoil::put(&mut bytes, 20, 4, &length.to_string());
                let right = mark::size(length, m as usize);
                bytes.resize(right + rng.index(3) - 1, b' ');
            }
            2 => {
                let count = rng.pick(&spoil::COUNTS);
                spoil::put(&mut bytes, 69, 20, count);
            }
            3 => bytes.resize(rng.pick(&[599, 600, 700, 4_096, MARK_ROOM]), rng.byte()),
            4 => bytes.truncate(rng.pick(&[0, 1, 16, 20, 24, 88, 89, 90, 91, 92, 95])),
            // The bonds alone, and room for them.
            5 => {
                let bonds = rng.pick(&spoil::EDGES);
                spoil::put(&mut bytes, 16, 4, &bonds.to_string());
            }
            6 => {
                let bonds = rng.pick(&[0, 1, 127, 128, 255, 256, 1_000, 1_024, 1_025, 9_999]);
                spoil::put(&mut bytes, 16, 4, &bonds.to_string());
                let right = mark::size(p.len(), bonds);
                bytes.resize(right + rng.index(3) - 1, b' ');
            }
            7 => bytes = (0..rng.index(200)).map(|_| rng.pick(b"   019\n")).collect(),
            _ => {
                let kind = rng.below(spoil::MARK_KINDS);
                spoil::mark(&mut rng, n, kind, &mut bytes);
            }
        }
        compare(&bytes);
    }
    println!("{cases} buffers, {lengths} with a length, {counts} with a count");
    assert!(lengths > cases / 4 && lengths < cases * 7 / 8);
    assert!(counts > cases / 4 && counts < cases * 19 / 20);
}
