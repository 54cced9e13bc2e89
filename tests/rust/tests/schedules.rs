//! Searches that stop and go on at every kind of place, in slices of few and of
//! many trials, directly, from marks and through the host entry. Every slice is
//! compared with the model, and the joined slices with the list and with one
//! run that does not stop: sets that are made anew answer as those kept.

use std::collections::BTreeMap;

use flat_tests::compare::{Calls, Case, On};
use flat_tests::examples;
use flat_tests::generate::{self, Molecule};
use flat_tests::host::Entry;
use flat_tests::model::field::LIMIT;
use flat_tests::model::list::{self, Listed, Lists, Reached, Task};
use flat_tests::model::machine::{Ran, Search, Stop};
use flat_tests::model::mark::{self, MARK_ROOM};
use flat_tests::model::{lister, Record};
use flat_tests::rng::Rng;
use flat_tests::{sample, sampled, spoil, sum_of_parts};

/// Schedules of each of the four parts.
const SCHEDULES: u64 = 7_000;

/// Up to this many atoms the list is made by brute force.
const BRUTE: u64 = 7;

/// Fewer trials than this and more count apart.
const FEW: u64 = 256;

/// Numbers of trials about 128 and 256.
const EDGES: [u64; 9] = [127, 128, 129, 130, 254, 255, 256, 257, 258];

/// Answers from a list of members made before; for other tasks by reachability.
struct Given<'a> {
    reached: Reached<'a>,
    task: Task,
    members: &'a [Vec<u8>],
}

impl Given<'_> {
    /// The last two atoms are not bonded: neither a member nor open.
    fn ends_apart(&self, list: &[u8]) -> bool {
        match *list {
            [.., x @ 1..=128, v @ 1..=128] => !self.record().bonded(x.into(), v.into()),
            _ => false,
        }
    }
}

impl Lists for Given<'_> {
    fn record(&self) -> &Record {
        self.reached.record()
    }

    fn is_member(&self, task: Task, list: &[u8]) -> bool {
        if task != self.task {
            return self.reached.is_member(task, list);
        }
        let by_list = |member: &Vec<u8>| member.as_slice().cmp(list);
        !self.ends_apart(list) && self.members.binary_search_by(by_list).is_ok()
    }

    fn is_open(&self, task: Task, beginning: &[u8]) -> bool {
        if task != self.task {
            return self.reached.is_open(task, beginning);
        }
        let not_after = |member: &Vec<u8>| member.as_slice() <= beginning;
        let begins = |at: usize| {
            let member = self.members.get(at);
            member.map_or(false, |member| member.starts_with(beginning))
        };
        beginning.is_empty()
            || (!self.ends_apart(beginning) && begins(self.members.partition_point(not_after)))
    }
}

/// A molecule to search: small and of any density, larger with few rings, cages,
/// and some of more than 64 atoms.
fn any_molecule(rng: &mut Rng) -> Molecule {
    let random = |rng: &mut Rng, low, high, most| {
        let n = rng.between(low, high);
        let pairs = n * (n - 1) / 2;
        let m = rng.between((n - 1).min(pairs), pairs.min(n + most));
        generate::random_molecule(rng, n, m)
    };
    match rng.below(69) {
        0..=7 => random(rng, 1, 7, 21),
        8..=17 => random(rng, 5, 12, 6),
        18..=21 => random(rng, 8, 13, 70),
        22..=38 => random(rng, 13, 24, 8),
        39..=42 => {
            let n = rng.between(3, 18);
            generate::complete(n)
        }
        43..=48 => {
            let name = rng.pick(&["prismane", "cubane", "adamantane", "gonane"]);
            renumbered(rng, name)
        }
        49 | 50 => renumbered(rng, "dodecahedrane"),
        51..=54 => {
            let n = rng.between(3, 24);
            let whole = generate::ring(n);
            generate::renamed(rng, &whole)
        }
        55..=58 => generate::any_searched(rng),
        59 => {
            let n = rng.between(66, 128);
            generate::ring(n)
        }
        60 => {
            let n = rng.between(66, 128);
            generate::chain(n)
        }
        61 => {
            let n = rng.between(66, 128);
            let whole = generate::ring(n);
            generate::renamed(rng, &whole)
        }
        62 => random(rng, 66, 128, 4),
        63..=66 => generate::any_layered(rng, 24),
        _ => layers(rng),
    }
}

/// A few layers of two or three atoms, each bonded to all of the next, renamed:
/// up to some hundred shortest paths between the ends.
fn layers(rng: &mut Rng) -> Molecule {
    let widths: Vec<u64> = (0..rng.between(2, 5)).map(|_| rng.between(2, 3)).collect();
    generate::renamed(rng, &generate::layers(&widths))
}

/// An example with its atoms numbered in another way.
fn renumbered(rng: &mut Rng, name: &str) -> Molecule {
    generate::renamed(rng, &generate::molecule_of(&examples::record(name)))
}

/// Rings, rings up to a size, that often some ring has, paths or shortest paths,
/// these in one case of two to an atom far away.
fn any_task(rng: &mut Rng, record: &Record) -> Task {
    let n = record.atoms;
    match rng.below(14) {
        0..=3 => Task::Rings,
        4..=6 if n >= 2 => generate::any_paths(rng, n),
        7..=8 if n >= 2 => generate::any_shortest(rng, n),
        9..=10 if n >= 2 => generate::far_shortest(rng, record),
        _ => generate::any_up_to(rng, n),
    }
}

/// A budget of one of eight kinds.
fn any_budget(rng: &mut Rng, n: u64, kind: u64) -> u64 {
    match kind {
        0 => rng.below(2),
        1 => rng.between(2, 10),
        2 => rng.between(n.max(2) - 1, n + 1) * rng.between(1, 2),
        3 => rng.pick(&EDGES),
        4 => rng.between(200, 300),
        5 => rng.pick(&[384, 385, 511, 512, 513, 767, 768, 769]),
        6 => rng.between(300, 2_000),
        _ => rng.pick(&[u64::MAX, LIMIT, LIMIT + 1, 1 << 32, (1 << 32) + 1, 1 << 63]),
    }
}

/// The kinds of budgets that the slices of one schedule have, mostly small ones
/// for a listing of few trials.
fn any_kinds(rng: &mut Rng, trials: u64) -> &'static [u64] {
    if trials < 2 * FEW && !rng.one_in(6) {
        return rng.pick(&[&[0, 1][..], &[1], &[1, 2], &[0, 1, 2, 3]]);
    }
    rng.pick(&[
        &[0, 1, 2, 3, 4, 5, 6, 7][..],
        &[0, 1, 2, 3, 4, 5],
        &[2, 3],
        &[2, 3, 4],
        &[3, 4, 5],
        &[1, 3, 6],
        &[6, 7],
    ])
}

/// How a search goes on.
#[derive(Clone, Copy, Debug, PartialEq)]
enum Way {
    Directly,
    FromMark,
    ByHost,
}

/// How often each kind of place and stop was seen.
#[derive(Default)]
struct Seen {
    counts: BTreeMap<String, u64>,
}

impl Seen {
    fn add(&mut self, kind: impl Into<String>) {
        *self.counts.entry(kind.into()).or_default() += 1;
    }

    fn print(&self) {
        for (kind, count) in &self.counts {
            println!("{count:8} {kind}");
        }
    }

    /// The kind was seen often enough; of a sample nothing is asked.
    fn at_least(&self, count: u64, kind: &str) {
        let seen = self.counts.get(kind).copied().unwrap_or(0);
        assert!(sample() > 1 || seen >= count, "{kind}: only {seen} times");
    }

    /// A slice that went from one place to another.
    fn slice(&mut self, n: u64, from: &Search, way: Way, budget: u64, ran: &Ran) {
        let to = &ran.search;
        let (stop, size) = (format!("{:?}", ran.stop), size_of(ran.made));
        self.add(format!("{stop} at {}", length_of(to)));
        self.add(format!("{stop} of {}", budget_of(budget)));
        self.add(format!("{way:?} from {}", length_of(from)));
        self.add(format!("{way:?} from {}", next_of(n, from)));
        self.add(format!("{way:?} to {stop}"));
        let compared = match to.length.cmp(&from.length) {
            std::cmp::Ordering::Less => "a shorter beginning",
            std::cmp::Ordering::Equal => "a beginning as long",
            std::cmp::Ordering::Greater => "a longer beginning",
        };
        self.add(format!("{stop} at {compared} after {size} trials"));
        if ran.stop == Stop::Full {
            let records = if ran.records.is_empty() { "no" } else { "some" };
            self.add(format!("Full after {records} records"));
        }
        if ran.stop == Stop::Limit {
            let names = ["trials", "extensions", "listed"];
            for (name, count) in names.into_iter().zip(to.counts()) {
                if count == LIMIT {
                    self.add(format!("Limit of {name} after {size} trials"));
                }
            }
        }
        if to.next > 64 || to.beginning().iter().any(|&v| v > 64) {
            self.add(format!("{stop} at an atom above 64"));
        }
    }

    /// The place after a slice, by its last trial.
    fn after(&mut self, last: Option<&Vec<u8>>, ran: &Ran) {
        let to = &ran.search;
        let listed = last.map_or(false, |member| {
            let (v, before) = member.split_last().expect("an atom");
            !ran.records.is_empty() && before == to.beginning() && to.next == u64::from(*v) + 1
        });
        let kind = match (listed, to.next) {
            (true, _) => "just after a listed member",
            (_, 1) if to.length > 0 => "just after an opening",
            _ => "elsewhere",
        };
        self.add(format!("{:?} {kind}", ran.stop));
    }
}

const SIZES: [&str; 2] = ["few", "many"];

fn size_of(trials: u64) -> &'static str {
    SIZES[usize::from(trials >= FEW)]
}

const LENGTHS: [&str; 4] = ["length 0", "length 1", "length 2", "length 3 or more"];

fn length_of(search: &Search) -> &'static str {
    LENGTHS[search.length.min(3) as usize]
}

const NEXTS: [&str; 3] = ["next atom 1", "next atom between", "the last next atom"];

fn next_of(n: u64, search: &Search) -> &'static str {
    match search.next {
        1 => NEXTS[0],
        c if c < n => NEXTS[1],
        _ => NEXTS[2],
    }
}

const BUDGETS: [&str; 8] = [
    "budget 0",
    "budget 1",
    "budget 2 to 10",
    "budget 11 to 126",
    "budget 127 to 254",
    "budget 255 to 257",
    "budget 258 to 2000",
    "a larger budget",
];

fn budget_of(budget: u64) -> &'static str {
    let ends = [0, 1, 10, 126, 254, 257, 2_000];
    BUDGETS[ends.iter().filter(|&&end| budget > end).count()]
}

/// One search: its molecule and sheet, what it lists, and all of that.
struct Subject<'a> {
    lists: &'a dyn Lists,
    sheet: &'a [u8],
    task: Task,
    members: &'a [Vec<u8>],
    /// Open beginnings but the empty one.
    open: u64,
}

impl Subject<'_> {
    fn on(&self) -> On<'_> {
        On::lawful(self.lists)
    }

    fn atoms(&self) -> u64 {
        self.lists.record().atoms
    }

    /// Trials of the whole listing.
    fn trials(&self) -> u64 {
        self.atoms() * (self.open + 1)
    }
}

/// The tools that all schedules of a part share.
struct Tools {
    calls: Calls,
    entry: Entry,
    seen: Seen,
    slices: u64,
}

/// A search on its way: what it has listed and what is left, from the place
/// where it began.
struct Course {
    search: Search,
    left: Vec<Vec<u8>>,
    /// Members listed of those that were left at the beginning.
    at: usize,
    made: u64,
    sheet: Vec<u8>,
}

impl Course {
    fn new(search: Search, subject: &Subject) -> Course {
        let left = list::following(subject.members, search.beginning(), search.next);
        Course {
            left: left.cloned().collect(),
            search,
            at: 0,
            made: 0,
            sheet: Vec::new(),
        }
    }

    /// The bytes of the next so many records.
    fn bytes(&self, records: usize) -> usize {
        let next = self.left[self.at..].iter().take(records);
        next.map(|member| member.len() + 1).sum()
    }

    /// An output too short for a record, for one, for all that is left, for a
    /// few, or a large one.
    fn any_room(&self, rng: &mut Rng) -> usize {
        let one = self.bytes(1);
        match rng.below(12) {
            0 => 0,
            1 => rng.index(one + 1),
            2 => one.max(1) - 1,
            3 | 4 => one,
            5 => self.bytes(usize::MAX).min(6_000),
            6 => (self.bytes(usize::MAX).max(1) - 1).min(6_000),
            7 | 8 => {
                let few = rng.index(6);
                self.bytes(few + 2) + rng.index(2)
            }
            9 => rng.index(300),
            // About the longest record, and a few of them.
            10 => 129 * rng.index(4) + rng.index(5),
            _ => 3_000,
        }
    }

    /// A slice in one of the ways, compared with the model.
    fn slice(
        &mut self,
        tools: &mut Tools,
        subject: &Subject,
        way: Way,
        (budget, room): (u64, usize),
    ) -> Stop {
        let from = self.search.clone();
        let ran = match way {
            Way::Directly => tools.calls.run(subject.on(), &from, budget, room),
            Way::FromMark => {
                self.restore(tools, subject);
                tools.calls.run(subject.on(), &self.search, budget, room)
            }
            Way::ByHost => self.resume(tools, subject, budget, room),
        };
        let ran = ran.expect("no run of the search as it stands is refused");
        let mut rest = ran.records.as_slice();
        while let Some((&len, after)) = rest.split_first() {
            let (member, after) = after.split_at(len.into());
            assert_eq!(member, self.left[self.at].as_slice(), "the next member");
            self.at += 1;
            rest = after;
        }
        let last = self.at.checked_sub(1).map(|at| &self.left[at]);
        tools.seen.slice(subject.atoms(), &from, way, budget, &ran);
        tools.seen.after(last, &ran);
        tools.slices += 1;
        self.sheet.extend_from_slice(&ran.records);
        self.made += ran.made;
        self.search = ran.search;
        ran.stop
    }

    /// Saves the search, restores it, and saves it again: the same bytes.
    fn restore(&mut self, tools: &mut Tools, subject: &Subject) {
        let calls = &mut tools.calls;
        let saved = calls.save(subject.on(), &self.search, MARK_ROOM);
        let saved = saved.expect("a mark");
        let restored = calls.restore(subject.on(), &saved).expect("its mark");
        assert_eq!(restored, self.search);
        let again = calls.save(subject.on(), &restored, saved.len());
        assert_eq!(again.as_ref(), Ok(&saved));
        self.search = restored;
    }

    /// A call of the host entry: from no mark where the search is a fresh ring
    /// search, and from the entry's own mark where it is any other fresh one.
    fn resume(
        &mut self,
        tools: &mut Tools,
        subject: &Subject,
        budget: u64,
        room: usize,
    ) -> Result<Ran, u32> {
        let sheet = (subject.sheet, Ok(subject.lists));
        let rooms = (room, MARK_ROOM);
        let mark = if self.search == Search::fresh(Task::Rings) {
            Vec::new()
        } else if self.search == Search::fresh(subject.task) {
            let numbers = subject.task.numbers();
            tools.entry.start(sheet, numbers, MARK_ROOM)?
        } else {
            mark::write(subject.lists.record(), &self.search)
        };
        let resumed = tools.entry.resume(sheet, &mark, budget, rooms)?;
        Ok(Ran {
            stop: resumed.stop,
            made: resumed.search.trials - self.search.trials,
            search: resumed.search,
            records: resumed.records,
        })
    }

    /// A call that is refused, or that starts from another place; the search
    /// stays as it is.
    fn disturb(&self, tools: &mut Tools, subject: &Subject, rng: &mut Rng) {
        let (n, calls) = (subject.atoms(), &mut tools.calls);
        let (budget, room) = (rng.below(300), rng.index(60));
        let mut search = self.search.clone();
        let mut mark = mark::write(subject.lists.record(), &search);
        match rng.below(5) {
            0 => {
                let short = rng.index(mark.len());
                assert_eq!(calls.save(subject.on(), &search, short), Err(13));
            }
            1 => {
                spoil::search(rng, n, &mut search);
                let _ = calls.run(subject.on(), &search, budget, room);
            }
            2 => {
                let kind = rng.below(spoil::MARK_KINDS);
                spoil::mark(rng, n, kind, &mut mark);
                let _ = calls.restore(subject.on(), &mark);
            }
            3 => {
                let sheet = (subject.sheet, Ok(subject.lists));
                let rooms = (room, rng.index(MARK_ROOM));
                let refused = tools.entry.resume(sheet, &mark, budget, rooms);
                assert_eq!(refused.err(), Some(13));
            }
            _ => {
                let mut record = subject.lists.record().clone();
                record.bonds += 1;
                let refused = calls.run(On::unlawful(&record), &search, budget, room);
                assert_eq!(refused, Err(9));
            }
        }
    }
}

/// A count so near the limit that it may be reached while it grows by `most`.
fn near_limit(rng: &mut Rng, most: u64) -> u64 {
    let below = match rng.below(8) {
        0 => rng.below(4),
        1 => rng.below(30),
        2 => rng.pick(&EDGES),
        _ => rng.below(most.min(3_000) + 1),
    };
    LIMIT - below
}

/// Counts of any size, of which often one or all are near the limit.
fn put_counts(subject: &Subject, rng: &mut Rng, search: &mut Search) {
    let mut any_count = || (rng.next() >> rng.below(64)) % (LIMIT / 2);
    search.trials = any_count();
    search.extensions = any_count();
    search.listed = any_count();
    let which = rng.below(7);
    if which == 0 || which == 1 || which == 4 {
        search.trials = near_limit(rng, subject.trials());
    }
    if which == 2 || which == 4 {
        search.extensions = near_limit(rng, subject.open);
    }
    if which == 3 || which == 4 {
        search.listed = near_limit(rng, subject.members.len() as u64);
    }
}

/// Where a schedule begins: a fresh search, or any open beginning and next atom
/// with counts of any size.
fn any_begin(tools: &mut Tools, subject: &Subject, rng: &mut Rng) -> Search {
    let (n, task) = (subject.atoms(), subject.task);
    if rng.one_in(2) {
        let started = tools.calls.start_task(subject.on(), task);
        return started.expect("a lawful start");
    }
    let mut search = Search::fresh(task);
    if !subject.members.is_empty() && rng.below(3) < 2 {
        // A beginning of some member, and a next atom near the member's own.
        let member = &subject.members[rng.index(subject.members.len())];
        let len = rng.index(member.len());
        let c = match rng.below(4) {
            0 => 1,
            1 => u64::from(member[len]),
            2 => (u64::from(member[len]) + 1).min(n),
            _ => rng.between(1, n),
        };
        search = Search::at(task, &member[..len], c);
    } else if rng.one_in(4) {
        // Any first atom, and the end.
        search.next = rng.between(1, n + 1);
    }
    put_counts(subject, rng, &mut search);
    search
}

/// From a beginning to the end or the limit, in slices.
fn schedule(tools: &mut Tools, subject: &Subject, rng: &mut Rng) {
    let n = subject.atoms();
    let begin = any_begin(tools, subject, rng);
    let mut course = Course::new(begin.clone(), subject);
    let (mut kinds, most) = (any_kinds(rng, subject.trials()), rng.between(3, 60));
    // The limit comes in a short run, and in a long one.
    if begin.counts().iter().any(|&count| count > LIMIT / 2) && rng.one_in(2) {
        kinds = &[6, 7];
    }
    let mut stop = Stop::Spent;
    let ended = |stop| matches!(stop, Stop::Done | Stop::Limit);
    for _ in 0..most {
        if rng.one_in(6) {
            course.disturb(tools, subject, rng);
        }
        let way = rng.pick(&[Way::Directly, Way::Directly, Way::FromMark, Way::ByHost]);
        let kind = rng.pick(kinds);
        let slice = (any_budget(rng, n, kind), course.any_room(rng));
        stop = course.slice(tools, subject, way, slice);
        // Sometimes once more after the end.
        if ended(stop) && !rng.one_in(8) {
            break;
        }
    }
    while !ended(stop) {
        let way = rng.pick(&[Way::Directly, Way::FromMark, Way::ByHost]);
        let room = rng.between(n + 1, 6_000) as usize;
        let mut budget = rng.pick(&[u64::MAX, 700, 5_000, 20_000]);
        if begin == Search::fresh(subject.task) && rng.one_in(2) {
            // All trials that are left, or one fewer or more.
            budget = subject.trials() - course.made + rng.below(3) - 1;
        }
        stop = course.slice(tools, subject, way, (budget, room));
    }
    finish(tools, subject, &begin, &course, stop);
    if rng.one_in(3) {
        // One run that does not stop before the end.
        let room = course.sheet.len();
        let whole = tools.calls.run(subject.on(), &begin, u64::MAX, room);
        let whole = whole.expect("accepted");
        assert_eq!(whole.search, course.search);
        assert_eq!((whole.stop, whole.made), (stop, course.made));
        assert!(whole.records == course.sheet);
    }
}

/// What a search at its end has listed and counted.
fn finish(tools: &mut Tools, subject: &Subject, begin: &Search, course: &Course, stop: Stop) {
    let n = subject.atoms();
    let [trials, extensions, listed] = course.search.counts();
    assert_eq!(trials - begin.trials, course.made);
    assert_eq!(listed - begin.listed, course.at as u64);
    let kind = match subject.task {
        Task::Rings => "rings",
        Task::Paths { .. } => "paths",
        Task::RingsUpTo { .. } => "rings up to a size",
        Task::Shortest { .. } => "shortest paths",
    };
    tools.seen.add(format!("schedules of {kind} to {stop:?}"));
    if stop == Stop::Limit {
        assert!(course.search.is_at_limit());
        return;
    }
    assert!(course.search.is_done(n));
    assert_eq!(course.at, course.left.len(), "all that was left");
    if *begin == Search::fresh(subject.task) {
        assert_eq!((trials, extensions), (subject.trials(), subject.open));
    }
}

/// Four parts side by side, 28,000 schedules.
#[test]
fn every_kind_of_place() {
    let parts = [
        ("every_kind_of_place 1", 0x5343_4845_4431),
        ("every_kind_of_place 2", 0x5343_4845_4432),
        ("every_kind_of_place 3", 0x5343_4845_4433),
        ("every_kind_of_place 4", 0x5343_4845_4434),
    ];
    let schedules = sum_of_parts(&parts, schedules_of);
    println!("{schedules} schedules in all");
    assert!(sample() > 1 || schedules >= 28_000, "only {schedules}");
}

/// The schedules of one seed.
fn schedules_of(name: &'static str, seed: u64) -> u64 {
    let mut tools = Tools {
        calls: Calls::new(seed),
        entry: Entry::new(seed),
        seen: Seen::default(),
        slices: 0,
    };
    for case in 0..sampled(SCHEDULES) {
        let _case = Case(name, case);
        let mut rng = Rng::of_case(seed, case);
        let molecule = any_molecule(&mut rng);
        let (record, sheet) = (molecule.record(), molecule.sheet());
        let task = any_task(&mut rng, &record);
        let listed = Listed::new(&record);
        let fast = lister::list(&record, task);
        let (members, open) = if record.atoms <= BRUTE {
            let members = listed.members(task).to_vec();
            let open = list::open_beginnings(&members).len() as u64;
            (members, open)
        } else {
            (fast.members(), fast.extensions)
        };
        let given = Given {
            reached: Reached::new(&record),
            task,
            members: &members,
        };
        let reached = Reached::new(&record);
        let lists: &dyn Lists = match record.atoms {
            0..=BRUTE => &listed,
            8..=24 if rng.one_in(8) => &reached,
            _ => &given,
        };
        let subject = Subject {
            lists,
            sheet: &sheet,
            task,
            members: &members,
            open,
        };
        schedule(&mut tools, &subject, &mut rng);
    }
    println!("{} slices", tools.slices);
    tools.calls.print();
    tools.entry.print();
    tools.seen.print();
    check(&tools.seen);
    sampled(SCHEDULES)
}

/// Each kind of stop, of place and of budget was seen.
fn check(seen: &Seen) {
    let some = |count, kind: String| seen.at_least(count, &kind);
    for way in ["Directly", "FromMark", "ByHost"] {
        for from in LENGTHS.into_iter().chain(NEXTS) {
            some(500, format!("{way} from {from}"));
        }
        for stop in ["Done", "Limit", "Spent", "Full"] {
            some(200, format!("{way} to {stop}"));
        }
    }
    for length in LENGTHS {
        some(150, format!("Spent at {length}"));
        some(100, format!("Limit at {length}"));
    }
    // A member has two atoms at least.
    for length in &LENGTHS[1..] {
        some(150, format!("Full at {length}"));
    }
    // Spent comes before full.
    for budget in &BUDGETS[1..] {
        some(50, format!("Full of {budget}"));
    }
    for budget in &BUDGETS[..7] {
        some(100, format!("Spent of {budget}"));
    }
    for size in SIZES {
        for place in [
            "a shorter beginning",
            "a longer beginning",
            "a beginning as long",
        ] {
            some(50, format!("Spent at {place} after {size} trials"));
            some(20, format!("Full at {place} after {size} trials"));
        }
        for count in ["trials", "extensions", "listed"] {
            some(10, format!("Limit of {count} after {size} trials"));
        }
    }
    for stop in ["Spent", "Full", "Limit"] {
        some(50, format!("{stop} just after a listed member"));
        some(50, format!("{stop} just after an opening"));
        some(30, format!("{stop} at an atom above 64"));
    }
    for records in ["no", "some"] {
        some(500, format!("Full after {records} records"));
    }
    for kind in ["rings", "paths", "rings up to a size", "shortest paths"] {
        some(1_000, format!("schedules of {kind} to Done"));
        some(100, format!("schedules of {kind} to Limit"));
    }
}
