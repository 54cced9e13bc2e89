//! Searches from their start to their end, in runs, saves and restores with
//! refused calls in between, against the model.

use flat_tests::compare::{Calls, Case, On};
use flat_tests::generate::{self, Molecule};
use flat_tests::model::field::LIMIT;
use flat_tests::model::list::{self, Listed, Lists, Reached, Task};
use flat_tests::model::machine::{Search, Stop};
use flat_tests::model::mark::{self, MARK_ROOM};
use flat_tests::model::shortest::Steps;
use flat_tests::model::{lister, Record};
use flat_tests::rng::Rng;
use flat_tests::{sample, sampled, spoil, sum_of_parts};

/// The kinds of budgets and of outputs.
const BUDGETS: u64 = 10;
const ROOMS: u64 = 24;

/// Up to this many atoms the model answers from the brute-force list.
const BRUTE: u64 = 12;

/// One search: its molecule, what it lists, and all of that.
struct Subject<'a> {
    lists: &'a dyn Lists,
    task: Task,
    members: Vec<Vec<u8>>,
}

impl Subject<'_> {
    fn record(&self) -> &Record {
        self.lists.record()
    }

    fn atoms(&self) -> u64 {
        self.record().atoms
    }
}

/// What a list of calls did to the search.
struct Course {
    /// The search as it stands.
    search: Search,
    /// The records of all runs joined.
    sheet: Vec<u8>,
    /// The trials made by all runs.
    made: u64,
    stop: Option<Stop>,
}

/// Budgets from none to no end, the first half of them small.
fn any_budget(rng: &mut Rng, n: u64, kinds: u64) -> u64 {
    match rng.below(kinds) {
        0 => 0,
        1 => 1,
        2..=4 => rng.between(2, n + 3),
        5 => rng.between(n, 4 * n + 4),
        6 => 2 * n * n,
        7 => rng.below(2 * n * n + 2),
        _ => rng.pick(&[u64::MAX, LIMIT, LIMIT + 1, 1 << 32, (1 << 32) + 1, 1 << 63]),
    }
}

/// Outputs from none to a large one, the first half of them of about one
/// record.
fn any_room(rng: &mut Rng, n: u64, kinds: u64) -> usize {
    let room = match rng.below(kinds) {
        0..=11 => rng.between(0, n + 2),
        12..=16 => rng.between(n, 4 * n + 4),
        17..=22 => rng.between(0, 2_000),
        _ if rng.one_in(20) => 65_536 + rng.between(0, n),
        _ => 5_000,
    };
    room as usize
}

impl Course {
    fn new(search: Search) -> Course {
        Course {
            search,
            sheet: Vec::new(),
            made: 0,
            stop: None,
        }
    }

    fn run(&mut self, calls: &mut Calls, subject: &Subject, budget: u64, room: usize) {
        let n = subject.atoms();
        let ran = calls
            .run(On::lawful(subject.lists), &self.search, budget, room)
            .expect("no run of the search as it stands is refused");
        // Enough trials and room for any record: no idle run.
        if budget >= 2 * n * n && room as u64 > n {
            let stuck = matches!(ran.stop, Stop::Spent | Stop::Full) && ran.records.is_empty();
            assert!(!stuck, "a run without progress: {ran:?}");
        }
        self.search = ran.search;
        self.sheet.extend(ran.records);
        self.made += ran.made;
        self.stop = Some(ran.stop);
    }

    /// Saves into an output too short, just long enough or longer.
    fn save(&self, calls: &mut Calls, subject: &Subject, rng: &mut Rng) {
        let on = On::lawful(subject.lists);
        let len = mark::write(subject.record(), &self.search).len();
        let room = match rng.below(6) {
            0 => rng.index(len),
            1 => len - 1,
            2 => len,
            3 => len + 1,
            4 => MARK_ROOM,
            _ => len + rng.index(900),
        };
        let saved = calls.save(on, &self.search, room);
        assert_eq!(saved.is_ok(), room >= len);
    }

    /// Restores the mark of the search as it stands.
    fn restore(&mut self, calls: &mut Calls, subject: &Subject) {
        let mark = mark::write(subject.record(), &self.search);
        let restored = calls
            .restore(On::lawful(subject.lists), &mark)
            .expect("its mark is not refused");
        assert_eq!(restored, self.search);
        self.search = restored;
    }

    /// A call with a damaged record, search or mark. It leaves the search as
    /// it stands, whatever the answer.
    fn disturb(&self, calls: &mut Calls, subject: &Subject, rng: &mut Rng) {
        let n = subject.atoms();
        let on = On::lawful(subject.lists);
        let (budget, room) = (any_budget(rng, n, BUDGETS), any_room(rng, n, ROOMS));
        let mut search = self.search.clone();
        let mut mark = mark::write(subject.record(), &search);
        match rng.below(9) {
            0 => {
                let mut record = subject.record().clone();
                spoil::record(rng, &mut record);
                let reached = Reached::new(&record);
                let on = if record.is_lawful() {
                    On::lawful(&reached)
                } else {
                    On::unlawful(&record)
                };
                match rng.below(8) {
                    0 => drop(calls.run(on, &search, budget, room)),
                    1 => drop(calls.save(on, &search, MARK_ROOM)),
                    2 => drop(calls.restore(on, &mark)),
                    3 => drop(calls.start_rings(on)),
                    4 => drop(calls.start_paths(on, search.s, search.t)),
                    5 => drop(calls.start_shortest(on, search.s, search.t)),
                    6 => drop(calls.count_shortest(on, search.s, search.t)),
                    _ => drop(calls.start_rings_up_to(on, search.s)),
                }
            }
            1 | 2 => {
                spoil::search(rng, n, &mut search);
                let _ = calls.run(on, &search, budget, room);
            }
            3 => {
                spoil::search(rng, n, &mut search);
                let room = rng.index(MARK_ROOM + 10);
                let _ = calls.save(on, &search, room);
            }
            5 => {
                let k = match rng.below(3) {
                    0 => rng.between(0, n + 3),
                    1 => rng.pick(&[2, 3, 128, 129]),
                    _ => generate::wrong_size(rng),
                };
                let _ = calls.start_rings_up_to(on, k);
            }
            4 => {
                let (s, t) = (rng.between(0, n + 1), rng.between(0, n + 1));
                let _ = calls.start_paths(on, s, t);
                let _ = calls.start_shortest(on, s, t);
                let _ = calls.count_shortest(on, s, t);
            }
            _ => {
                let kind = rng.below(spoil::MARK_KINDS);
                spoil::mark(rng, n, kind, &mut mark);
                let _ = calls.restore(on, &mark);
            }
        }
    }

    /// Up to `most` calls of any kind.
    fn go(&mut self, calls: &mut Calls, subject: &Subject, rng: &mut Rng, most: u64) {
        let n = subject.atoms();
        // Half of the lists of calls have no long runs, and half of them no
        // large outputs.
        let budgets = rng.pick(&[BUDGETS, BUDGETS / 2]);
        let rooms = rng.pick(&[ROOMS, ROOMS / 2]);
        let mut after = 2;
        for _ in 0..most {
            match rng.below(16) {
                0..=8 => {
                    let (budget, room) = (any_budget(rng, n, budgets), any_room(rng, n, rooms));
                    self.run(calls, subject, budget, room);
                }
                9 | 10 => self.save(calls, subject, rng),
                11 | 12 => self.restore(calls, subject),
                _ => self.disturb(calls, subject, rng),
            }
            // A few calls after the end will do.
            if matches!(self.stop, Some(Stop::Done | Stop::Limit)) {
                after -= 1;
                if after == 0 {
                    break;
                }
            }
        }
    }

    /// Runs until done or limit.
    fn finish(&mut self, calls: &mut Calls, subject: &Subject, room: usize) {
        assert!(room as u64 > subject.atoms(), "room for any record");
        loop {
            self.run(calls, subject, u64::MAX, room);
            if matches!(self.stop, Some(Stop::Done | Stop::Limit)) {
                break;
            }
        }
    }
}

fn sheet_of<'a>(members: impl IntoIterator<Item = &'a Vec<u8>>) -> Vec<u8> {
    members
        .into_iter()
        .flat_map(|member| list::record_of(member))
        .collect()
}

/// A fresh search was taken to its end: the whole list, and the counts.
fn assert_whole(course: &Course, subject: &Subject) {
    let n = subject.atoms();
    let [trials, extensions, listed] = course.search.counts();
    assert_eq!(course.stop, Some(Stop::Done));
    assert!(course.search.is_done(n));
    assert_eq!(course.sheet, sheet_of(&subject.members));
    assert_eq!(listed, subject.members.len() as u64);
    let open = list::open_beginnings(&subject.members);
    assert_eq!(extensions, open.len() as u64);
    assert_eq!(trials, n * (extensions + 1));
    assert_eq!(trials, course.made);
    // A member has at most so many atoms, and one more than its beginnings.
    let longest = n.min(subject.task.longest() as u64);
    assert!(extensions <= longest.saturating_sub(1) * listed);
}

fn start(calls: &mut Calls, lists: &dyn Lists, task: Task) -> Search {
    let started = calls.start_task(On::lawful(lists), task);
    started.expect("a lawful start")
}

/// From a fresh search to its end.
fn schedule(calls: &mut Calls, subject: &Subject, rng: &mut Rng) {
    let n = subject.atoms();
    let mut course = Course::new(start(calls, subject.lists, subject.task));
    let most = rng.between(2, 40);
    course.go(calls, subject, rng, most);
    let room = rng.between(n + 1, 8 * n + 8) as usize;
    course.finish(calls, subject, room);
    assert_whole(&course, subject);
}

/// From any open beginning and next atom, with any counts, to the end or the
/// limit.
fn schedule_from_a_mark(calls: &mut Calls, subject: &Subject, rng: &mut Rng) {
    let n = subject.atoms();
    let mut open = list::open_beginnings(&subject.members);
    open.push(Vec::new());
    let p = open.swap_remove(rng.index(open.len()));
    let c = match p.len() {
        0 => rng.between(1, n + 1),
        _ => rng.between(1, n),
    };
    let mut search = Search::at(subject.task, &p, c);
    let mut any_count = || match rng.below(6) {
        0 => LIMIT,
        1 => LIMIT - 1,
        2 => LIMIT - rng.below(4 * n + 4),
        3 => 0,
        _ => (rng.next() >> rng.below(64)).min(LIMIT),
    };
    search.trials = any_count();
    search.extensions = any_count();
    search.listed = any_count();
    let mut course = Course::new(search.clone());
    course.restore(calls, subject);
    let most = rng.between(1, 16);
    course.go(calls, subject, rng, most);
    let room = rng.between(n + 1, 8 * n + 8) as usize;
    course.finish(calls, subject, room);
    let all = sheet_of(list::following(&subject.members, &p, c));
    if course.stop == Some(Stop::Done) {
        assert_eq!(course.sheet, all);
    } else {
        assert!(course.search.is_at_limit());
        assert!(all.starts_with(&course.sheet));
    }
    assert_eq!(course.search.trials - search.trials, course.made);
}

/// Four parts side by side, at least 20,000 molecules.
#[test]
fn random_schedules() {
    let parts = [
        ("random_schedules 1", 0x5345_4152_4331),
        ("random_schedules 2", 0x5345_4152_4332),
        ("random_schedules 3", 0x5345_4152_4333),
        ("random_schedules 4", 0x5345_4152_4334),
    ];
    let molecules = sum_of_parts(&parts, random_schedules_of);
    println!("{molecules} molecules in all");
    assert!(sample() > 1 || molecules >= 20_000, "only {molecules}");
}

/// The schedules of one seed, and the number of their molecules.
fn random_schedules_of(name: &'static str, seed: u64) -> u64 {
    let mut calls = Calls::new(seed);
    let (mut molecules, mut members, mut longest) = (0, 0, 0);
    for case in 0..sampled(5_200) {
        let _case = Case(name, case);
        let mut rng = Rng::of_case(seed, case);
        let record = generate::any_searched(&mut rng).record();
        let kept = record.clone();
        let n = record.atoms;
        let (listed, reached) = (Listed::new(&record), Reached::new(&record));
        for task in generate::any_tasks(&mut rng, n) {
            let subject = if n <= BRUTE {
                Subject {
                    lists: &listed,
                    task,
                    members: listed.members(task).to_vec(),
                }
            } else {
                Subject {
                    lists: &reached,
                    task,
                    members: lister::list(&record, task).members(),
                }
            };
            schedule(&mut calls, &subject, &mut rng);
            if rng.one_in(4) {
                schedule_from_a_mark(&mut calls, &subject, &mut rng);
            }
            members += subject.members.len() as u64;
            longest = longest.max(subject.members.iter().map(Vec::len).max().unwrap_or(0));
        }
        assert_eq!(record, kept, "the record was written");
        molecules += 1;
    }
    println!("{molecules} molecules, {members} members, the longest of {longest} atoms");
    calls.print();
    calls.at_least(8_000, "run", &[101, 103, 104]);
    calls.at_least(1_500, "run", &[102]);
    calls.at_least(200, "run", &[9]);
    calls.at_least(1_500, "run", &[12]);
    calls.at_least(5_000, "save", &[0]);
    calls.at_least(1_500, "save", &[13]);
    calls.at_least(200, "save", &[9]);
    calls.at_least(1_000, "save", &[12]);
    calls.at_least(10_000, "restore", &[0]);
    calls.at_least(200, "restore", &[9]);
    calls.at_least(500, "restore", &[14, 15, 16, 17]);
    calls.at_least(5_000, "start_rings", &[0]);
    calls.at_least(5_000, "start_paths", &[0]);
    calls.at_least(5_000, "start_rings_up_to", &[0]);
    calls.at_least(5_000, "start_shortest", &[0]);
    calls.at_least(500, "count_shortest", &[0]);
    calls.at_least(150, "start_paths", &[9, 10, 11]);
    calls.at_least(150, "start_shortest", &[9, 10, 11]);
    calls.at_least(150, "count_shortest", &[9, 10, 11]);
    calls.at_least(150, "start_rings_up_to", &[9, 21]);
    assert!(members >= sampled(20_000));
    assert!(sample() > 1 || longest >= 15);
    molecules
}

/// Every budget and room of a fresh search, with what follows from there.
#[test]
fn every_budget_and_room() {
    let mut calls = Calls::new(51);
    for molecule in [
        generate::document(),
        generate::two_to_three(),
        generate::complete(4),
        generate::ring(5),
        generate::chain(3),
        Molecule::new(0, &[]),
        Molecule::new(1, &[]),
    ] {
        let record = molecule.record();
        let lists = Listed::new(&record);
        let mut tasks = vec![Task::Rings];
        tasks.extend([3, 4, 5].map(|k| Task::RingsUpTo { k }));
        if record.atoms >= 3 {
            tasks.push(Task::Paths { s: 2, t: 3 });
            tasks.push(Task::Paths { s: 3, t: 1 });
            tasks.push(Task::Shortest { s: 2, t: 3 });
            tasks.push(Task::Shortest { s: 3, t: 1 });
        }
        for task in tasks {
            let subject = Subject {
                lists: &lists,
                task,
                members: list::members(&record, task),
            };
            let whole = sheet_of(&subject.members).len();
            let fresh = start(&mut calls, &lists, task);
            for budget in (0..=record.atoms * 7 + 1).step_by(sample().min(7) as usize) {
                for room in (0..=whole + 1).step_by(sample().min(5) as usize) {
                    let mut course = Course::new(fresh.clone());
                    course.run(&mut calls, &subject, budget, room);
                    course.restore(&mut calls, &subject);
                    course.finish(&mut calls, &subject, whole.max(6));
                    assert_whole(&course, &subject);
                }
            }
        }
    }
}

/// A search trial by trial, with its mark at every place.
#[test]
fn every_place() {
    let mut calls = Calls::new(52);
    for molecule in [
        generate::document(),
        generate::two_to_three(),
        generate::complete(5),
        generate::ring(12),
        generate::cube(),
    ] {
        let record = molecule.record();
        let lists = Listed::new(&record);
        let far = Steps::from(&record, 1).farthest();
        for task in [
            Task::Rings,
            Task::Paths { s: 2, t: 4 },
            Task::RingsUpTo { k: 3 },
            Task::RingsUpTo { k: 4 },
            Task::RingsUpTo { k: 12 },
            Task::Shortest { s: 2, t: 4 },
            Task::Shortest { s: 1, t: far },
        ] {
            let subject = Subject {
                lists: &lists,
                task,
                members: list::members(&record, task),
            };
            let mut course = Course::new(start(&mut calls, &lists, task));
            while course.stop != Some(Stop::Done) {
                course.run(&mut calls, &subject, 1, 13);
                let saved = calls
                    .save(On::lawful(&lists), &course.search, MARK_ROOM)
                    .expect("a mark");
                let restored = calls.restore(On::lawful(&lists), &saved);
                assert_eq!(restored, Ok(course.search.clone()));
            }
            assert_whole(&course, &subject);
        }
    }
}

/// Whole runs of the reference molecules, with the document's counts.
#[test]
fn references() {
    let mut calls = Calls::new(53);
    let mut whole = |molecule: &Molecule, task| {
        let record = molecule.record();
        let reached = Reached::new(&record);
        let subject = Subject {
            lists: &reached,
            task,
            members: lister::list(&record, task).members(),
        };
        let mut course = Course::new(start(&mut calls, &reached, task));
        course.finish(&mut calls, &subject, 100_000);
        assert_whole(&course, &subject);
        (course.search.counts(), subject.members)
    };
    for (molecule, rings, extensions) in generate::references() {
        let trials = molecule.atoms * (extensions + 1);
        let (counts, _) = whole(&molecule, Task::Rings);
        assert_eq!(counts, [trials, extensions, rings]);
    }
    let (_, rings) = whole(&generate::two_to_three(), Task::Rings);
    assert_eq!(rings, [[1, 3, 2, 4], [1, 3, 2, 5], [1, 4, 2, 5]]);
    let (_, rings) = whole(&generate::document(), Task::Rings);
    assert_eq!(rings, [[1, 2, 3], [1, 3, 4]]);
    let (counts, paths) = whole(&generate::document(), Task::Paths { s: 2, t: 4 });
    assert_eq!(paths, [[2, 1, 4], [2, 3, 4]]);
    assert_eq!(counts, [16, 3, 2]);
    let (counts, paths) = whole(&generate::document(), Task::Paths { s: 1, t: 3 });
    assert_eq!(paths, [[1, 3]]);
    assert_eq!(counts, [8, 1, 1]);
    let (counts, paths) = whole(&generate::document(), Task::Shortest { s: 2, t: 4 });
    assert_eq!(paths, [[2, 1, 4], [2, 3, 4]]);
    assert_eq!(counts, [16, 3, 2]);
    let (counts, paths) = whole(&generate::two_to_three(), Task::Shortest { s: 3, t: 5 });
    assert_eq!(paths, [[3, 1, 5], [3, 2, 5]]);
    assert_eq!(counts, [20, 3, 2]);
    // From corner to corner, and between neighbours.
    let (counts, _) = whole(&generate::cube(), Task::Shortest { s: 1, t: 8 });
    assert_eq!(counts, [88, 10, 6]);
    let (counts, _) = whole(&generate::cube(), Task::Shortest { s: 1, t: 5 });
    assert_eq!(counts, [16, 1, 1]);
    for (k, squares, hexagons) in [(3, 0, 0), (4, 6, 0), (5, 6, 0), (6, 6, 4), (128, 6, 4)] {
        let (counts, rings) = whole(&generate::cube(), Task::RingsUpTo { k });
        let long = |len| rings.iter().filter(|ring| ring.len() == len).count();
        assert_eq!((long(4), long(6)), (squares, hexagons));
        assert_eq!(counts[2] as usize, squares + hexagons);
    }
    for (k, rings) in [(4, 0), (5, 12), (6, 32)] {
        if sample() == 1 {
            let (counts, _) = whole(&generate::buckminsterfullerene(), Task::RingsUpTo { k });
            assert_eq!(counts[2], rings);
        }
    }
    let (_, rings) = whole(&generate::cube(), Task::Rings);
    let long = |len| rings.iter().filter(|ring| ring.len() == len).count();
    assert_eq!((rings.len(), long(4), long(6)), (10, 6, 4));
    for n in [10, 15, 20, 25] {
        if n <= 10 || sample() == 1 {
            let (counts, _) = whole(&generate::complete(n), Task::Rings);
            assert_eq!(counts[2], n * (n - 1) * (n - 2) / 6);
        }
    }
}

/// The document's runs with three bytes and with eight.
#[test]
fn document_runs() {
    let record = generate::document().record();
    let lists = Listed::new(&record);
    let on = On::lawful(&lists);
    let mut calls = Calls::new(54);
    let fresh = calls.start_rings(on).expect("lawful");
    let mut run = |budget, room| calls.run(on, &fresh, budget, room).expect("accepted");
    assert_eq!((run(0, 3).stop, run(0, 3).made), (Stop::Spent, 0));
    assert_eq!((run(5, 3).stop, run(5, 3).made), (Stop::Spent, 5));
    let full = run(6, 3);
    assert_eq!((full.stop, full.made), (Stop::Full, 5));
    assert_eq!(full.search.beginning(), [1, 2]);
    assert_eq!(full.search.next, 3);
    assert_eq!(run(u64::MAX, 3), full);
    let done = run(16, 8);
    assert_eq!((done.stop, done.made), (Stop::Done, 16));
    assert_eq!(done.records, [3, 1, 2, 3, 3, 1, 3, 4]);
    let mark = calls.save(on, &full.search, 144).expect("room enough");
    let text = "   0   0   0   4   5   2   3\n\
        \x20                  5                   2                   0\n\
        \x20  1   2\n\
        \x20  1   2\n   1   3\n   1   4\n   2   3\n   3   4\n";
    assert_eq!(mark, text.as_bytes());
    assert_eq!(calls.save(on, &full.search, 143), Err(13));
    assert_eq!(calls.save(on, &full.search, 99), Err(13));
    assert_eq!(calls.restore(on, &mark), Ok(full.search));
    // Without its bond lines it is the mark of before request F-5.
    assert_eq!(calls.restore(on, &mark[..99]), Err(14));
}

/// 128 atoms, rings and paths of all of them and of fewer, from start to end.
#[test]
fn longest() {
    if sample() > 1 {
        return;
    }
    let mut calls = Calls::new(55);
    for (molecule, task) in [
        (generate::ring(128), Task::Rings),
        (generate::chain(128), Task::Paths { s: 1, t: 128 }),
        (generate::chain(128), Task::Paths { s: 128, t: 1 }),
        (generate::ring(128), Task::Paths { s: 1, t: 64 }),
        (generate::chain(128), Task::Rings),
        (generate::ring(128), Task::RingsUpTo { k: 128 }),
        (generate::ring(128), Task::RingsUpTo { k: 127 }),
        (generate::ring(127), Task::RingsUpTo { k: 127 }),
        (generate::chain(128), Task::Shortest { s: 1, t: 128 }),
        (generate::chain(128), Task::Shortest { s: 128, t: 1 }),
        (generate::ring(128), Task::Shortest { s: 1, t: 64 }),
        (generate::ring(128), Task::Shortest { s: 65, t: 1 }),
    ] {
        let record = molecule.record();
        let reached = Reached::new(&record);
        let subject = Subject {
            lists: &reached,
            task,
            members: lister::list(&record, task).members(),
        };
        let mut course = Course::new(start(&mut calls, &reached, task));
        while course.stop != Some(Stop::Done) {
            course.run(&mut calls, &subject, 3_000, 128);
            course.restore(&mut calls, &subject);
            if course.stop == Some(Stop::Full) {
                course.run(&mut calls, &subject, 3_000, 129);
            }
        }
        assert_whole(&course, &subject);
    }
}

/// The longest records: 129 bytes hold one, 128 do not. The longest beginnings:
/// 127 atoms, with as many bonds or one more.
#[test]
fn longest_places() {
    let mut calls = Calls::new(56);
    let up: Vec<u8> = (1..=128).collect();
    let down: Vec<u8> = (1..=128).rev().collect();
    for (molecule, task, member) in [
        (generate::ring(128), Task::Rings, &up),
        (generate::ring(128), Task::RingsUpTo { k: 128 }, &up),
        (generate::chain(128), Task::Paths { s: 1, t: 128 }, &up),
        (generate::chain(128), Task::Paths { s: 128, t: 1 }, &down),
        (generate::chain(128), Task::Shortest { s: 1, t: 128 }, &up),
        (generate::chain(128), Task::Shortest { s: 128, t: 1 }, &down),
    ] {
        let record = molecule.record();
        let reached = Reached::new(&record);
        let on = On::lawful(&reached);
        let last = u64::from(member[127]);
        for place in [last, last.max(2) - 1, 1] {
            let mut search = Search::at(task, &member[..127], place);
            search.trials = LIMIT - 1_000;
            let mark = calls.save(on, &search, MARK_ROOM).expect("a mark");
            let size = mark::size(127, molecule.bonds.len());
            assert_eq!(mark.len(), size);
            assert_eq!(calls.save(on, &search, size), Ok(mark.clone()));
            assert_eq!(calls.save(on, &search, size - 1), Err(13));
            assert_eq!(calls.restore(on, &mark), Ok(search.clone()));
            let full = calls.run(on, &search, 200, 128).expect("accepted");
            assert_eq!((full.stop, full.made), (Stop::Full, last - place));
            let listed = calls.run(on, &search, last - place + 1, 129);
            let listed = listed.expect("accepted");
            assert_eq!(listed.stop, Stop::Spent);
            assert_eq!(listed.records, list::record_of(member));
        }
    }
}

/// Every size from 3 to two above the atoms, and 128, in one case of ten every
/// size from 3 to 128, on molecules of up to 12 atoms, by brute force: the whole list in one run, the same as that of a ring
/// search where the size is at least n, and the counts.
#[test]
fn every_size() {
    let mut calls = Calls::new(57);
    let (mut fewer, mut rings) = (0, 0);
    for case in 0..sampled(1_500) {
        let _case = Case("every_size", case);
        let mut rng = Rng::of_case(0x4556_4552_5953, case);
        let n = case % 13;
        let pairs = n * n.saturating_sub(1) / 2;
        let m = match rng.below(3) {
            0 => rng.between(0, pairs),
            _ => rng.between(0, pairs.min(n + 5)),
        };
        let record = generate::random_molecule(&mut rng, n, m).record();
        let lists = Listed::new(&record);
        let all = lists.members(Task::Rings);
        let mut whole = |task| {
            let members = lists.members(task).to_vec();
            let subject = Subject {
                lists: &lists,
                task,
                members,
            };
            let mut course = Course::new(start(&mut calls, &lists, task));
            course.finish(&mut calls, &subject, 5_000);
            assert_whole(&course, &subject);
            course
        };
        let unbounded = whole(Task::Rings);
        let most = if case % 10 == 9 { 127 } else { n as u8 + 2 };
        for k in (3..=most).chain([128]) {
            let bounded = whole(Task::RingsUpTo { k });
            let listed = bounded.search.listed as usize;
            assert_eq!(
                listed,
                all.iter().filter(|ring| ring.len() <= k.into()).count()
            );
            if u64::from(k) >= n {
                assert_eq!(bounded.sheet, unbounded.sheet);
                assert_eq!(bounded.search.counts(), unbounded.search.counts());
            }
            fewer += u64::from(0 < listed && listed < all.len());
            rings += listed;
        }
    }
    println!("{rings} rings, {fewer} searches with some of the rings");
    assert!(sample() > 1 || (fewer >= 500 && rings >= 10_000));
}

/// Sizes outside 3 to 128 are refused, 9 comes first, and a size above n is as
/// good as n.
#[test]
fn sizes_at_the_edges() {
    let mut calls = Calls::new(58);
    for molecule in [
        Molecule::new(0, &[]),
        generate::document(),
        generate::ring(128),
    ] {
        let record = molecule.record();
        let lists = Reached::new(&record);
        let on = On::lawful(&lists);
        let mut unlawful = record.clone();
        unlawful.bonds += 1;
        for k in [
            0,
            1,
            2,
            129,
            130,
            255,
            256,
            259,
            (1 << 32) + 3,
            (1 << 63) + 12,
            u64::MAX,
        ] {
            assert_eq!(calls.start_rings_up_to(on, k), Err(21), "{k}");
            assert_eq!(calls.start_rings_up_to(On::unlawful(&unlawful), k), Err(9));
        }
        for k in 3..=128 {
            let fresh = Search::fresh(Task::RingsUpTo { k });
            assert_eq!(calls.start_rings_up_to(on, k.into()), Ok(fresh.clone()));
            let size = mark::size(0, molecule.bonds.len());
            let mark = calls.save(on, &fresh, size).expect("a mark");
            assert_eq!(calls.restore(on, &mark), Ok(fresh));
            let refused = calls.start_rings_up_to(On::unlawful(&unlawful), k.into());
            assert_eq!(refused, Err(9));
        }
    }
}
