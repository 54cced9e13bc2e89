//! Whole listings through the host entry, by repeated calls that each take the
//! mark that the one before wrote: random molecules, the reference molecules
//! and the examples, against the Rust lister.

use flat_tests::compare::Case;
use flat_tests::generate::{self, Molecule};
use flat_tests::host::{self, Whole};
use flat_tests::model::field::LIMIT;
use flat_tests::model::list::{self, Task};
use flat_tests::model::machine::Search;
use flat_tests::model::{lister, mark, sheet, Record};
use flat_tests::rng::Rng;
use flat_tests::{examples, sample, sampled};

/// The mark of a fresh search, as the entry writes it and as the model does; of
/// a fresh ring search that or no bytes will do.
fn fresh_mark(molecule: &Molecule, task: Task) -> Vec<u8> {
    let fresh = host::fresh_mark(&molecule.sheet(), task);
    assert_eq!(fresh, mark::write(&molecule.record(), &Search::fresh(task)));
    fresh
}

/// A whole listing is the lister's, with its counts.
fn assert_whole(record: &Record, task: Task, whole: &Whole) {
    let expected = lister::list(record, task);
    assert_eq!(whole.stop, 101);
    assert!(whole.sheet == expected.sheet, "{task:?} of {record:?}");
    let trials = record.atoms * (expected.extensions + 1);
    let counts = [trials, expected.extensions, expected.listed];
    assert_eq!(whole.counts(), counts, "{task:?} of {record:?}");
    let longest = record.atoms.min(task.longest() as u64);
    assert!(counts[1] <= longest.saturating_sub(1) * counts[2]);
}

/// In one call from no mark, with just the room that is needed.
fn in_one_call(molecule: &Molecule) -> Whole {
    let room = lister::list(&molecule.record(), Task::Rings).sheet.len();
    let whole = host::list(&molecule.sheet(), &[], || (u64::MAX, room));
    assert_eq!(whole.calls, 1);
    assert_whole(&molecule.record(), Task::Rings, &whole);
    whole
}

/// Budgets and rooms of one listing: of about one size, so that it ends soon,
/// and some that are of no use.
fn any_pace(rng: &mut Rng, n: u64, trials: u64) -> impl FnMut() -> (u64, usize) + '_ {
    let most = rng.pick(&[1, n, 4 * n, 2 * n * n, trials]).max(trials / 60);
    let widest = rng.pick(&[n + 1, n + 1, 3 * n + 3, 40 * n + 40, 5_000]);
    move || {
        if rng.one_in(12) {
            return rng.pick(&[(0, 0), (0, 5_000), (1, 0), (u64::MAX, 2), (u64::MAX, 0)]);
        }
        let budget = match rng.below(16) {
            0 => u64::MAX,
            1 => LIMIT,
            _ => rng.between(1, most.max(1)),
        };
        // From time to time enough for any record, so that it goes on.
        let room = match rng.below(3) {
            0 => rng.between(0, widest),
            _ => rng.between(n + 1, widest),
        };
        (budget, room as usize)
    }
}

/// Sizes about those at which the arrays of a run and of the reader change:
/// rings, which go as deep as a beginning can, and sheets of so many lines.
#[test]
fn sizes_of_the_arrays() {
    for n in (28..=36).chain(60..=68).chain(120..=128) {
        let ring = generate::ring(n);
        in_one_call(&ring);
        for budget in [255, 256, 2 * n * n] {
            let whole = host::list(&ring.sheet(), &[], || (budget, n as usize + 1));
            assert_whole(&ring.record(), Task::Rings, &whole);
        }
        // The ring is a member with k at least n, and none with less.
        let k = n as u8;
        let mut tasks = vec![Task::Paths { s: 2, t: k }, Task::Shortest { s: 2, t: k }];
        tasks.push(Task::Shortest { s: 1, t: k / 2 + 1 });
        tasks.extend([k - 1, k, (k + 1).min(128)].map(|k| Task::RingsUpTo { k }));
        for task in tasks {
            let fresh = fresh_mark(&ring, task);
            let whole = host::list(&ring.sheet(), &fresh, || (u64::MAX, 2 * n as usize));
            assert_whole(&ring.record(), task, &whole);
        }
    }
    for m in 120..=136 {
        let mut rng = Rng::of_case(0x41_5252_4159, m);
        in_one_call(&generate::random_molecule(&mut rng, 124, m));
    }
}

#[test]
fn random_listings_1() {
    random_listings("random_listings_1", 0x4C_4953_5441);
}

#[test]
fn random_listings_2() {
    random_listings("random_listings_2", 0x4C_4953_5442);
}

fn random_listings(name: &'static str, seed: u64) {
    let molecules = sampled(4_000);
    let (mut calls, mut rings) = (0, 0);
    for case in 0..molecules {
        let _case = Case(name, case);
        let mut rng = Rng::of_case(seed, case);
        // Sparse ones are listed soon whatever their size.
        let molecule = if rng.one_in(12) {
            let n = rng.between(13, 60);
            let m = rng.between(n, n + n / 5);
            generate::random_molecule(&mut rng, n, m)
        } else {
            generate::any_searched(&mut rng)
        };
        let (record, sheet) = (molecule.record(), molecule.sheet());
        let n = record.atoms;
        for task in generate::any_tasks(&mut rng, n) {
            let trials = n * (lister::list(&record, task).extensions + 1);
            let start = match task {
                Task::Rings if rng.one_in(2) => Vec::new(),
                _ => fresh_mark(&molecule, task),
            };
            let whole = host::list(&sheet, &start, any_pace(&mut rng, n, trials));
            assert_whole(&record, task, &whole);
            calls += whole.calls;
            rings += whole.counts()[2];
        }
    }
    println!("{molecules} molecules, {rings} members, {calls} calls");
    assert!(sample() > 1 || (calls >= 40_000 && rings >= 20_000));
}

/// From a mark of any place: exactly the members that follow it.
#[test]
fn listings_from_any_place() {
    for case in 0..sampled(3_000) {
        let _case = Case("listings_from_any_place", case);
        let mut rng = Rng::of_case(0x4C_4953_5443, case);
        let molecule = generate::any_searched(&mut rng);
        let (record, sheet) = (molecule.record(), molecule.sheet());
        let n = record.atoms;
        let task = generate::any_task(&mut rng, n);
        let listing = lister::list(&record, task);
        let members = listing.members();
        let mut open = list::open_beginnings(&members);
        open.push(Vec::new());
        let p = open.swap_remove(rng.index(open.len()));
        let c = match p.len() {
            0 => rng.between(1, n + 1),
            _ => rng.between(1, n),
        };
        let mut search = Search::at(task, &p, c);
        search.listed = rng.next() >> rng.between(1, 63);
        let start = mark::write(&record, &search);
        let trials = n * (listing.extensions + 1);
        let whole = host::list(&sheet, &start, any_pace(&mut rng, n, trials));
        let follow: Vec<u8> = list::following(&members, &p, c)
            .flat_map(|member| list::record_of(member))
            .collect();
        assert_eq!(whole.stop, 101);
        assert!(whole.sheet == follow, "{p:?} {c} {task:?} of {record:?}");
    }
}

/// The reference molecules of the document, starred and not.
#[test]
fn references() {
    for (molecule, rings, extensions) in generate::references() {
        let trials = molecule.atoms * (extensions + 1);
        let whole = in_one_call(&molecule);
        assert_eq!(whole.counts(), [trials, extensions, rings]);
    }
    let rings = |molecule: &Molecule| list::members_of(&in_one_call(molecule).sheet);
    assert_eq!(rings(&generate::document()), [[1, 2, 3], [1, 3, 4]]);
    let three = [[1, 3, 2, 4], [1, 3, 2, 5], [1, 4, 2, 5]];
    assert_eq!(rings(&generate::two_to_three()), three);
    let cube = rings(&generate::cube());
    let long = |len| cube.iter().filter(|ring| ring.len() == len).count();
    assert_eq!((cube.len(), long(4), long(6)), (10, 6, 4));
    let hexagons = list::members_of(&in_one_call(&from_example("cubane")).sheet);
    assert_eq!(hexagons.iter().filter(|ring| ring.len() == 6).count(), 4);
    for n in [10, 15, 20, 25] {
        let whole = in_one_call(&generate::complete(n));
        assert_eq!(whole.counts()[2], n * (n - 1) * (n - 2) / 6);
        assert!(list::members_of(&whole.sheet)
            .iter()
            .all(|ring| ring.len() == 3));
    }
    let document = generate::document();
    let record = document.record();
    for (s, t, members, counts) in [
        (2, 4, vec![vec![2, 1, 4], vec![2, 3, 4]], [16, 3, 2]),
        (1, 3, vec![vec![1, 3]], [8, 1, 1]),
    ] {
        // All of these paths are shortest ones.
        for task in [Task::Paths { s, t }, Task::Shortest { s, t }] {
            let start = fresh_mark(&document, task);
            let whole = host::list(&document.sheet(), &start, || (u64::MAX, 20));
            assert_whole(&record, task, &whole);
            assert_eq!(list::members_of(&whole.sheet), members);
            assert_eq!(whole.counts(), counts);
        }
    }
}

/// In one call, the rings of at most `k` atoms.
fn up_to(molecule: &Molecule, k: u8) -> Whole {
    let task = Task::RingsUpTo { k };
    let start = fresh_mark(molecule, task);
    let whole = host::list(&molecule.sheet(), &start, || (u64::MAX, 1 << 22));
    assert_eq!(whole.calls, 1);
    assert_whole(&molecule.record(), task, &whole);
    whole
}

/// Reference molecules with a bound: the cube's squares and hexagons, the 12
/// pentagons and 20 hexagons of buckminsterfullerene, and all with 128.
#[test]
fn references_up_to_a_size() {
    for (k, rings) in [(3, 0), (4, 6), (5, 6), (6, 10), (7, 10), (128, 10)] {
        let members = list::members_of(&up_to(&generate::cube(), k).sheet);
        assert_eq!(members.len(), rings);
        assert!(members.iter().all(|ring| ring.len() <= k.into()));
    }
    let mut molecules = vec![generate::cube(), from_example("cubane")];
    molecules.extend(["prismane", "adamantane", "gonane", "dodecahedrane"].map(from_example));
    molecules.extend(
        generate::references()
            .into_iter()
            .map(|(molecule, ..)| molecule),
    );
    for molecule in molecules {
        let all = in_one_call(&molecule);
        for k in [molecule.atoms.clamp(3, 128) as u8, 128] {
            let whole = up_to(&molecule, k);
            assert!(whole.sheet == all.sheet && whole.counts() == all.counts());
        }
    }
    if sample() > 1 {
        return;
    }
    let cage = generate::buckminsterfullerene();
    for (k, rings) in [(4, 0), (5, 12), (6, 32), (8, 32)] {
        assert_eq!(up_to(&cage, k).counts()[2], rings);
        assert_eq!(
            up_to(&from_example("buckminsterfullerene"), k).counts()[2],
            rings
        );
    }
    let all = host::list(&cage.sheet(), &[], || (u64::MAX, 1 << 23));
    let start = fresh_mark(&cage, Task::RingsUpTo { k: 128 });
    let whole = host::list(&cage.sheet(), &start, || (u64::MAX, 1 << 23));
    assert_eq!(whole.counts()[2], 255_242);
    assert!(whole.sheet == all.sheet && whole.counts() == all.counts());
}

/// Larger molecules with several bounds, each against the short ones of all
/// rings that a listing without a bound gives.
#[test]
fn larger_up_to_a_size() {
    let mut fewer = 0;
    for case in 0..sampled(300) {
        let _case = Case("larger_up_to_a_size", case);
        let mut rng = Rng::of_case(0x4C_4953_5444, case);
        let n = rng.between(13, 128);
        let m = n + rng.below(9);
        let molecule = generate::random_molecule(&mut rng, n, m);
        let sheet = molecule.sheet();
        let all = host::list(&sheet, &[], || (u64::MAX, 1 << 16));
        let members = list::members_of(&all.sheet);
        let longest = members.iter().map(Vec::len).max().unwrap_or(3) as u64;
        for k in [rng.between(3, 12), rng.between(3, longest), longest, 128] {
            let start = fresh_mark(&molecule, Task::RingsUpTo { k: k as u8 });
            let whole = host::list(&sheet, &start, || (2 * n * n, n as usize + 1));
            let short = list::up_to(&members, k as u8);
            let open = list::open_beginnings(&short).len() as u64;
            assert_eq!(whole.stop, 101);
            assert!(
                list::members_of(&whole.sheet) == short,
                "k = {k} of {molecule:?}"
            );
            assert_eq!(whole.counts(), [n * (open + 1), open, short.len() as u64]);
            assert!(open <= (k - 1) * short.len() as u64);
            fewer += u64::from(!short.is_empty() && short.len() < members.len());
            if k >= longest {
                assert!(whole.sheet == all.sheet && whole.counts() == all.counts());
            }
        }
    }
    println!("{fewer} listings with some of the rings");
    assert!(sample() > 1 || fewer >= 150);
}

/// The bonds of an example sheet, as its script numbers them.
fn from_example(name: &str) -> Molecule {
    generate::molecule_of(&examples::record(name))
}

/// The example sheets have the rings and counts of their table.
#[test]
fn example_sheets() {
    if sample() > 1 {
        return;
    }
    let committed = std::fs::read_to_string(examples::folder().join("COUNTS.md"));
    assert_eq!(committed.expect("examples/COUNTS.md"), examples::table());
    for name in examples::NAMES {
        let bytes = examples::bytes(name);
        let record = sheet::read(&bytes).expect("a bond sheet");
        assert_eq!(from_example(name).sheet(), bytes, "bonds sorted");
        let whole = host::list(&bytes, &[], || (1_000_000, 65_536));
        assert_whole(&record, Task::Rings, &whole);
        // Up to dodecahedrane also by brute force.
        if record.atoms <= 20 {
            let members = list::members(&record, Task::Rings);
            assert!(list::members_of(&whole.sheet) == members, "{name}");
        }
    }
    // Rings that are known by other means.
    let rings = |name| examples::counts(&examples::record(name))[0];
    assert_eq!(rings("prismane"), 2 + 3);
    assert_eq!(rings("cubane"), 6 + 4);
    assert_eq!(rings("adamantane"), 4 + 3);
    assert_eq!(rings("gonane"), 4);
    assert_eq!(rings("acene30"), 30);
    assert_eq!(rings("dodecahedrane"), 168);
    assert_eq!(rings("buckminsterfullerene"), 255_242);
    // Made in another way, and numbered in another way.
    let cage = generate::buckminsterfullerene().record();
    assert_eq!(examples::counts(&cage)[0], 255_242);
    let cage = examples::breadth_first(&cage);
    assert_eq!(examples::counts(&cage), [255_242, 1_188_441, 71_306_520]);
}

/// Several listings side by side, in threads of little stack: the entry keeps
/// nothing between calls.
#[test]
fn side_by_side() {
    let names = ["cubane", "adamantane", "gonane", "dodecahedrane"];
    std::thread::scope(|scope| {
        for (number, name) in names.iter().cycle().take(8).enumerate() {
            let thread = std::thread::Builder::new().stack_size(128 * 1024);
            let list = move || {
                let (bytes, record) = (examples::bytes(name), examples::record(name));
                let mut rng = Rng::new(number as u64);
                let whole = host::list(&bytes, &[], || (rng.between(1, 300), 64));
                assert_whole(&record, Task::Rings, &whole);
            };
            thread.spawn_scoped(scope, list).expect("a thread");
        }
    });
}

/// A count at the limit: the run stops there, and so does every later one.
#[test]
fn limit() {
    let molecule = generate::cube();
    let (record, sheet) = (molecule.record(), molecule.sheet());
    let left = |search: &mut Search, which: usize, left: u64| {
        let counts = [
            &mut search.trials,
            &mut search.extensions,
            &mut search.listed,
        ];
        *counts.into_iter().nth(which).expect("three counts") = LIMIT - left;
    };
    for (task, which) in [
        Task::Rings,
        Task::RingsUpTo { k: 6 },
        Task::Shortest { s: 1, t: 8 },
    ]
    .into_iter()
    .flat_map(|task| (0..3).map(move |which| (task, which)))
    {
        let all = lister::list(&record, task).members();
        for more in 0..=6 {
            let mut search = Search::fresh(task);
            left(&mut search, which, more);
            let start = mark::write(&record, &search);
            let whole = host::list(&sheet, &start, || (3, 20));
            assert_eq!(whole.stop, 102);
            assert_eq!(whole.counts()[which], LIMIT);
            let members = list::members_of(&whole.sheet);
            assert!(all.starts_with(&members));
            if which == 2 {
                assert_eq!(members.len() as u64, more);
            }
            let mut again = whole.mark.clone();
            again.resize(mark::MARK_ROOM, 0);
            let kept = again.clone();
            let stop = host::resume(&sheet, &whole.mark, 9, &mut [], &mut again);
            assert_eq!((stop, again == kept), (102, true));
        }
    }
}
