//! Times whole ring listings through the host entry beside listers in plain
//! Rust, and the entry beside itself in runs of several lengths. It reports and
//! never fails on time: a table on standard output and in
//! target/bench/table.md, a plot in target/bench/plot.svg.
//!
//! All take a bond sheet and give the joined records. `lister` is the
//! Rust lister of the same method (sets as two words, one sweep for each open
//! beginning), which takes only the atoms that list or open; `best` is the same
//! with fewer and shorter sweeps; `stepper` goes trial by trial as document 01
//! counts them. They take turns, and of each the best time counts.
//!
//! A second table has the rings up to a size, of a few larger molecules: the
//! entry beside `best` with the same bound, and beside itself without one.
//!
//! A third has shortest paths: the entry beside a plain lister of them, which
//! makes the steps to t once and then goes along neighbours that are nearer; and
//! their number, by the counting entry and by plain sums.
//!
//! A fourth has what it costs to go on from a mark, over what it costs to read
//! the sheet. With the word `resuming` after the program's name it is made alone,
//! on standard output.

use std::path::PathBuf;
use std::time::Instant;

use flat_tests::model::list::Task;
use flat_tests::model::machine::Stop;
use flat_tests::model::shortest::Steps;
use flat_tests::model::{best, field, lister, sheet, Record};
use flat_tests::plot::bars::{BarPanel, Series};
use flat_tests::plot::lines::{Line, LinePanel};
use flat_tests::plot::Picture;
use flat_tests::rng::Rng;
use flat_tests::{black_box, examples, generate, host, stepper};

/// Rounds, of which none begins after so many seconds on one molecule.
const ROUNDS: usize = 9;
const SECONDS: f64 = 9.0;
/// A timed sample takes at least about so many seconds.
const SAMPLE: f64 = 0.002;
/// Budgets of the runs that a listing is cut into.
const LENGTHS: [u64; 5] = [100, 1_000, 10_000, 100_000, 1_000_000];
/// Listings of more calls than this are not timed.
const MOST_CALLS: u64 = 20_000;
/// The sizes of the second table, of which the last leaves out no ring, and the
/// fewest atoms of a random molecule there.
const SIZES: [u8; 4] = [6, 8, 12, 128];
const ALL: u8 = 128;
const LARGER: u64 = 30;
/// The most trials of a listing of shortest paths, of which some molecules have
/// more than can be listed.
const TRIALS: u64 = 20_000_000;
/// The ratio to the first lister that no molecule is to exceed.
const AIM: f64 = 1.0;
/// The place of `best` among the listers.
const BEST: usize = 1;
/// The ratios of the fourth table before request F-5, when marks had no bond
/// lines, in its order: measured with the code of commit b5856c4 and this section,
/// the middle one of three runs. And what a call may cost more since: to read the
/// sheet twice.
const BEFORE: [f64; 4] = [2.04, 2.96, 1.56, 1.12];
const MORE: f64 = 2.0;
const DONE: u32 = 101;
const SPENT: u32 = 103;
const MARK: usize = 9815;

/// A lister in plain Rust that the entry is compared with.
struct Lister {
    name: &'static str,
    about: &'static str,
    /// What the geometric mean of the ratios is not to exceed.
    aim: Option<f64>,
    /// The ratio of a molecule above which the table says why.
    each: Option<f64>,
    run: fn(&Record, &mut [u8]),
}

/// The listers, each with a column and a bar of its own.
const LISTERS: &[Lister] = &[
    Lister {
        name: "lister",
        about: "takes only the atoms that list or open",
        aim: Some(0.75),
        each: Some(AIM),
        run: |record, _| {
            black_box(lister::list(record, Task::Rings));
        },
    },
    Lister {
        name: "best",
        about: "also omits the sweeps that decide nothing",
        aim: Some(1.1),
        each: Some(1.1),
        run: |record, _| {
            black_box(best::list(record, Task::Rings));
        },
    },
    Lister {
        name: "stepper",
        about: "goes trial by trial",
        aim: None,
        each: None,
        run: |record, out| {
            black_box(stepper::run(record, u64::MAX, out));
        },
    },
];

struct Molecule {
    name: String,
    sheet: Vec<u8>,
}

/// What was measured of one molecule, in seconds.
struct Row {
    name: String,
    atoms: u64,
    bonds: u64,
    rings: u64,
    trials: u64,
    entry: f64,
    /// Of each of the listers.
    listers: Vec<f64>,
    /// A call with budget 0 and no mark: the fixed cost of the entry.
    call: f64,
    /// A call with budget 0 from a mark halfway.
    resume: f64,
    /// The whole listing in runs of each length; none where they are too many.
    runs: [Option<f64>; LENGTHS.len()],
}

impl Row {
    /// The entry's time over that of a lister.
    fn ratio(&self, lister: usize) -> f64 {
        self.entry / self.listers[lister]
    }

    /// The time in runs of each length over that in one run.
    fn line(&self) -> Line {
        let timed = LENGTHS.iter().zip(self.runs);
        Line {
            name: self.name.clone(),
            points: timed
                .filter_map(|(&length, run)| Some((length as f64, run? / self.entry)))
                .collect(),
        }
    }
}

/// What was measured of one molecule with a bound, in seconds.
struct Bounded {
    k: u8,
    rings: u64,
    trials: u64,
    entry: f64,
    best: f64,
}

/// A molecule's rings up to each size, and its row of the first table.
struct Group<'a> {
    row: &'a Row,
    sizes: Vec<Bounded>,
}

/// Two atoms of a molecule.
struct Ends {
    name: String,
    sheet: Vec<u8>,
    record: Record,
    s: u8,
    t: u8,
}

/// What was measured of the shortest paths between two atoms, in seconds: of a
/// listing, or of the number.
struct Linked<'a> {
    ends: &'a Ends,
    /// Paths listed, or their number.
    paths: u128,
    trials: u64,
    entry: f64,
    plain: f64,
}

/// What was measured of going on from a mark, in seconds.
struct Resuming {
    name: String,
    atoms: u64,
    bonds: u64,
    /// Bytes of the mark.
    mark: usize,
    /// A call with budget 0 from the mark.
    resume: f64,
    /// The sheet read alone: a call from a mark of one byte, which rule 14 turns
    /// back once the sheet is read.
    sheet: f64,
    /// The ratio of the two before request F-5.
    before: f64,
}

impl Resuming {
    fn ratio(&self) -> f64 {
        self.resume / self.sheet
    }

    /// What the ratio is not to exceed.
    fn aim(&self) -> f64 {
        self.before + MORE
    }
}

impl Ends {
    fn new(name: &str, sheet: Vec<u8>, s: u8, t: Option<u8>) -> Ends {
        let record = sheet::read(&sheet).expect("a sheet");
        let t = t.unwrap_or_else(|| Steps::from(&record, s).farthest());
        let name = format!("{name}, {s} to {t}");
        Ends {
            name,
            sheet,
            record,
            s,
            t,
        }
    }

    /// The ends of layers of one width, from the first atom to the last.
    fn of_layers(number: usize, width: u64) -> Ends {
        let molecule = generate::layers(&vec![width; number]);
        let name = format!("{number} layers of {width}");
        Ends::new(&name, molecule.sheet(), 1, Some(molecule.atoms as u8))
    }

    fn of_grid(columns: u64) -> Ends {
        let grid = generate::grid(columns, columns);
        let name = format!("grid of {columns} × {columns}");
        Ends::new(&name, grid.sheet(), 1, Some(grid.atoms as u8))
    }

    fn task(&self) -> Task {
        let (s, t) = (self.s, self.t);
        Task::Shortest { s, t }
    }
}

/// Cages between far atoms, grids from corner to corner and layers, of which the
/// last ones have more paths than can be listed.
fn ends() -> Vec<Ends> {
    let cage = |name| Ends::new(name, examples::bytes(name), 1, None);
    vec![
        cage("dodecahedrane"),
        cage("buckminsterfullerene"),
        Ends::of_grid(6),
        Ends::of_grid(8),
        Ends::of_grid(11),
        Ends::of_layers(9, 3),
        Ends::of_layers(5, 8),
        Ends::of_layers(39, 3),
        Ends::of_layers(42, 3),
        Ends::of_layers(63, 2),
        Ends::of_layers(7, 12),
    ]
}

fn molecules() -> Vec<Molecule> {
    let mut set: Vec<Molecule> = examples::NAMES
        .iter()
        .filter(|&&name| name != "prismane")
        .map(|&name| Molecule {
            name: name.to_string(),
            sheet: examples::bytes(name),
        })
        .collect();
    for n in [25, 45] {
        set.push(Molecule {
            name: format!("all bonded, {n}"),
            sheet: generate::complete(n).sheet(),
        });
    }
    // Random bonds at 30, 15, 10, 5 and 2.5 percent of the pairs.
    for (n, m) in [
        (20, 57),
        (30, 130),
        (30, 65),
        (40, 78),
        (60, 90),
        (100, 124),
    ] {
        let mut rng = Rng::new(n * 1000 + m);
        set.push(Molecule {
            name: format!("random, {n} / {m}"),
            sheet: generate::random_molecule(&mut rng, n, m).sheet(),
        });
    }
    let atoms = |molecule: &Molecule| sheet::read(&molecule.sheet).expect("a sheet").atoms;
    set.sort_by_key(atoms);
    set
}

/// Seconds of one call, as the mean of `times` of them.
fn time(times: u32, mut call: impl FnMut()) -> f64 {
    let start = Instant::now();
    for _ in 0..times {
        call();
    }
    start.elapsed().as_secs_f64() / f64::from(times)
}

/// A whole listing in runs of one budget, into one output; returns the calls.
fn list(sheet: &[u8], budget: u64, out: &mut [u8]) -> u64 {
    let mut marks = [[0; MARK]; 2];
    let (mut len, mut used, mut calls) = (0, 0, 0);
    loop {
        let [from, to] = &mut marks;
        let stop = host::resume(sheet, &from[..len], budget, &mut out[used..], to);
        assert!(stop == DONE || stop == SPENT, "stop {stop}");
        for _ in host::listed(&from[..len])..host::listed(to) {
            used += 1 + usize::from(out[used]);
        }
        calls += 1;
        if stop == DONE {
            return calls;
        }
        len = host::mark_length(to);
        marks.swap(0, 1);
    }
}

/// A molecule, the room for its records, and a mark halfway.
struct Case<'a> {
    sheet: &'a [u8],
    out: Vec<u8>,
    halfway: Vec<u8>,
}

/// The case of a molecule, of which all listers give the same records, and its
/// row without times.
fn checked(molecule: &Molecule) -> (Case<'_>, Row) {
    let sheet = &molecule.sheet;
    let record = sheet::read(sheet).expect("a sheet");
    let expected = lister::list(&record, Task::Rings);
    let trials = record.atoms * (expected.extensions + 1);
    let again = best::list(&record, Task::Rings);
    assert!(again.sheet == expected.sheet, "the records of best");
    let counts = (again.extensions, again.listed);
    assert_eq!(counts, (expected.extensions, expected.listed));
    let mut out = vec![0; expected.sheet.len()];
    let stepped = stepper::run(&record, u64::MAX, &mut out);
    assert_eq!((stepped.stop, stepped.trials), (Stop::Done, trials));
    assert!(out == expected.sheet, "the stepper's records");
    out.fill(0);
    list(sheet, u64::MAX, &mut out);
    assert!(out == expected.sheet, "the entry's records");
    let mut mark = [0; MARK];
    host::resume(sheet, &[], trials / 2, &mut out, &mut mark);
    let halfway = mark[..host::mark_length(&mark)].to_vec();
    let row = Row {
        name: molecule.name.clone(),
        atoms: record.atoms,
        bonds: record.bonds,
        rings: expected.listed,
        trials,
        entry: f64::MAX,
        listers: vec![f64::MAX; LISTERS.len()],
        call: f64::MAX,
        resume: f64::MAX,
        runs: [None; LENGTHS.len()],
    };
    (
        Case {
            sheet,
            out,
            halfway,
        },
        row,
    )
}

/// One round of the timed calls, each as the mean of so many.
fn round(case: &mut Case, row: &mut Row, times: u32) {
    let Case {
        sheet,
        out,
        halfway,
    } = case;
    let mut next = [0; MARK];
    row.entry = row.entry.min(time(times, || {
        let stop = host::resume(black_box(sheet), &[], u64::MAX, out, &mut next);
        assert_eq!(stop, DONE);
    }));
    for (lister, best) in LISTERS.iter().zip(&mut row.listers) {
        *best = best.min(time(times, || {
            let record = sheet::read(black_box(sheet)).expect("a sheet");
            (lister.run)(&record, out);
        }));
    }
    row.call = row.call.min(time(100, || {
        host::resume(black_box(sheet), &[], 0, out, &mut next);
    }));
    row.resume = row.resume.min(time(100, || {
        host::resume(sheet, black_box(halfway), 0, out, &mut next);
    }));
    for (length, best) in LENGTHS.iter().zip(&mut row.runs) {
        if *length < row.trials && row.trials / length <= MOST_CALLS {
            let seconds = time((times + 3) / 4, || {
                list(sheet, *length, out);
            });
            *best = Some(best.unwrap_or(f64::MAX).min(seconds));
        }
    }
}

/// Several rounds of a call that takes about so many seconds, each told how
/// often to make it for one sample.
fn rounds(once: f64, mut round: impl FnMut(u32)) {
    let times = (SAMPLE / once).clamp(1.0, 1_000.0) as u32;
    let begin = Instant::now();
    for number in 0..ROUNDS {
        if number == 0 || begin.elapsed().as_secs_f64() <= SECONDS {
            round(times);
        }
    }
}

/// The timed calls of one molecule.
fn measure(molecule: &Molecule) -> Row {
    let (mut case, mut row) = checked(molecule);
    let once = time(1, || {
        list(case.sheet, u64::MAX, &mut case.out);
    });
    rounds(once, |times| round(&mut case, &mut row, times));
    row
}

/// The mark of a fresh search of a molecule's rings of at most k atoms, room for
/// its records, and what was counted. `best` gives the same records and counts.
fn checked_up_to(sheet: &[u8], k: u8) -> (Vec<u8>, Vec<u8>, Bounded) {
    let task = Task::RingsUpTo { k };
    let record = sheet::read(sheet).expect("a sheet");
    let listing = best::list(&record, task);
    let mark = host::fresh_mark(sheet, task);
    let whole = host::list(sheet, &mark, || (u64::MAX, listing.sheet.len()));
    let trials = record.atoms * (listing.extensions + 1);
    assert!(whole.sheet == listing.sheet, "the records of best");
    assert_eq!(whole.counts(), [trials, listing.extensions, listing.listed]);
    let bounded = Bounded {
        k,
        rings: listing.listed,
        trials,
        entry: f64::MAX,
        best: f64::MAX,
    };
    (mark, listing.sheet, bounded)
}

/// The timed calls of one molecule with a bound: the entry from the mark of a
/// start, and `best`.
fn measure_up_to(sheet: &[u8], k: u8) -> Bounded {
    let (mark, mut out, mut bounded) = checked_up_to(sheet, k);
    let mut next = [0; MARK];
    let mut entry = |times| {
        time(times, || {
            let stop = host::resume(black_box(sheet), &mark, u64::MAX, &mut out, &mut next);
            assert_eq!(stop, DONE);
        })
    };
    rounds(entry(1), |times| {
        bounded.entry = bounded.entry.min(entry(times));
        bounded.best = bounded.best.min(time(times, || {
            let record = sheet::read(black_box(sheet)).expect("a sheet");
            black_box(best::list(&record, Task::RingsUpTo { k }));
        }));
    });
    bounded
}

/// The timed calls of a listing of shortest paths: the entry from the mark of a
/// start with so many trials, and the plain lister up to as many paths.
fn measure_listing(ends: &Ends) -> Linked<'_> {
    let (sheet, task) = (&ends.sheet, ends.task());
    let mark = host::fresh_mark(sheet, task);
    let (mut out, mut next) = (vec![0; 1 << 24], [0; MARK]);
    let stop = host::resume(sheet, &mark, TRIALS, &mut out, &mut next);
    assert!(stop == DONE || stop == SPENT, "stop {stop}");
    let paths = host::listed(&next);
    let expected = best::list_some(&ends.record, task, paths);
    assert_eq!(expected.listed, paths);
    assert!(out.starts_with(&expected.sheet), "the entry's records");
    out.truncate(expected.sheet.len());
    let counts = std::str::from_utf8(&next[29..49]).expect("a mark is text");
    let mut linked = Linked {
        ends,
        paths: paths.into(),
        trials: counts.trim_start().parse().expect("a count"),
        entry: f64::MAX,
        plain: f64::MAX,
    };
    let mut entry = |times| {
        time(times, || {
            let again = host::resume(black_box(sheet), &mark, TRIALS, &mut out, &mut next);
            assert_eq!(again, stop);
        })
    };
    rounds(entry(1), |times| {
        linked.entry = linked.entry.min(entry(times));
        linked.plain = linked.plain.min(time(times, || {
            let record = sheet::read(black_box(sheet)).expect("a sheet");
            black_box(best::list_some(&record, task, paths));
        }));
    });
    linked
}

/// The timed calls of the number.
fn measure_number(ends: &Ends) -> Linked<'_> {
    let (sheet, s, t) = (&ends.sheet, ends.s, ends.t);
    let number = best::number(&ends.record, s, t);
    let mut count = 0;
    let mut entry = |times| {
        time(times, || {
            let answer = host::count_shortest(black_box(sheet), (s.into(), t.into()), &mut count);
            match number > field::LIMIT.into() {
                true => assert_eq!(answer, 26),
                false => assert_eq!((answer, u128::from(count)), (0, number)),
            }
        })
    };
    let mut linked = Linked {
        ends,
        paths: number,
        trials: 0,
        entry: f64::MAX,
        plain: f64::MAX,
    };
    rounds(entry(1), |times| {
        linked.entry = linked.entry.min(entry(times));
        linked.plain = linked.plain.min(time(times, || {
            let record = sheet::read(black_box(sheet)).expect("a sheet");
            black_box(best::number(&record, s, t));
        }));
    });
    linked
}

/// Sheets of 12, 90, 300 and 1,024 bonds, each with a number of trials after
/// which its listing is about halfway; of the last two, which no run lists to the
/// end, a million.
fn resumed() -> Vec<(Molecule, u64)> {
    let example = |name: &str| Molecule {
        name: name.to_string(),
        sheet: examples::bytes(name),
    };
    let random = |n, m| Molecule {
        name: format!("random, {n} / {m}"),
        sheet: generate::random_molecule(&mut Rng::new(n * 1000 + m), n, m).sheet(),
    };
    vec![
        (example("cubane"), 104),
        (example("buckminsterfullerene"), 35_257_080),
        (random(100, 300), 1_000_000),
        (random(128, 1024), 1_000_000),
    ]
}

/// The timed calls from a mark after so many trials, and of reading the sheet.
fn measure_resuming(molecule: &Molecule, trials: u64, before: f64) -> Resuming {
    let sheet = &molecule.sheet;
    let record = sheet::read(sheet).expect("a sheet");
    let (mut next, mut out) = ([0; MARK], vec![0; 1 << 24]);
    let stop = host::resume(sheet, &[], trials, &mut out, &mut next);
    assert_eq!(stop, SPENT, "{} has more trials", molecule.name);
    let mark = next[..host::mark_length(&next)].to_vec();
    let mut calls = |mark: &[u8], times, answer| {
        time(times, || {
            let stop = host::resume(black_box(sheet), mark, 0, &mut [], &mut next);
            assert_eq!(stop, answer);
        })
    };
    let mut row = Resuming {
        name: molecule.name.clone(),
        atoms: record.atoms,
        bonds: record.bonds,
        mark: mark.len(),
        resume: f64::MAX,
        sheet: f64::MAX,
        before,
    };
    // Many short samples, as the times are short.
    for _ in 0..10 {
        rounds(calls(&mark, 10, SPENT), |times| {
            row.resume = row.resume.min(calls(&mark, times, SPENT));
            row.sheet = row.sheet.min(calls(b"x", times, 14));
        });
    }
    row
}

/// The second table has buckminsterfullerene and the larger random molecules.
fn has_sizes(row: &Row) -> bool {
    let random = row.name.starts_with("random") && row.atoms >= LARGER;
    random || row.name == "buckminsterfullerene"
}

/// A time in a unit that suits it.
fn shown(seconds: f64) -> String {
    match seconds * 1e6 {
        micro if micro < 1_000.0 => format!("{micro:.1} µs"),
        micro if micro < 1_000_000.0 => format!("{:.2} ms", micro / 1e3),
        micro => format!("{:.2} s", micro / 1e6),
    }
}

/// A number of some millions.
fn millions(number: f64) -> String {
    format!("{:.2}", number / 1e6)
}

fn geometric_mean(values: impl Iterator<Item = f64>) -> f64 {
    let logs: Vec<f64> = values.map(f64::ln).collect();
    (logs.iter().sum::<f64>() / logs.len() as f64).exp()
}

/// The geometric mean of the ratios to a lister.
fn mean_ratio(rows: &[Row], lister: usize) -> f64 {
    geometric_mean(rows.iter().map(|row| row.ratio(lister)))
}

/// A line of a table.
fn table_line(cells: &[String]) -> String {
    format!("| {} |\n", cells.join(" | "))
}

/// The line below a table's heads: names to the left, numbers to the right.
fn table_rule(columns: usize) -> String {
    format!("|---|{}\n", "--:|".repeat(columns - 1))
}

fn head() -> String {
    let listers: Vec<String> = LISTERS
        .iter()
        .map(|lister| format!("`{}` {}", lister.name, lister.about))
        .collect();
    format!(
        "# Ring listings through the host entry\n\n\
         Each time is for the whole listing, from the bond sheet to the joined records; best of several, in turns.\n\
         {}; all are plain Rust, not proved.\n\
         `resume` is a call with budget 0 from a mark halfway: what a slice costs besides its trials.\n\n",
        listers.join(", ")
    )
}

/// The times of each molecule, and the ratios.
fn ratio_table(rows: &[Row]) -> String {
    let mut heads: Vec<String> = ["molecule", "atoms", "bonds", "rings", "trials", "entry"]
        .map(String::from)
        .to_vec();
    for lister in LISTERS {
        heads.extend([lister.name.to_string(), format!("entry / {}", lister.name)]);
    }
    heads.extend(["M rings/s", "M trials/s", "resume"].map(String::from));
    let mut text = table_line(&heads) + &table_rule(heads.len());
    for row in rows {
        let mut cells = vec![row.name.clone()];
        cells.extend([row.atoms, row.bonds, row.rings, row.trials].map(|count| count.to_string()));
        cells.push(shown(row.entry));
        for (number, &seconds) in row.listers.iter().enumerate() {
            cells.extend([shown(seconds), format!("{:.2}", row.ratio(number))]);
        }
        cells.push(millions(row.rings as f64 / row.entry));
        cells.push(millions(row.trials as f64 / row.entry));
        cells.push(shown(row.resume));
        text += &table_line(&cells);
    }
    text
}

/// The ratios over the whole set.
fn summary(rows: &[Row]) -> String {
    let entry: f64 = rows.iter().map(|row| row.entry).sum();
    let trials: f64 = rows.iter().map(|row| row.trials as f64).sum();
    let ratios = LISTERS.iter().enumerate().map(|(number, lister)| {
        let (name, mean) = (lister.name, mean_ratio(rows, number));
        let added = entry / rows.iter().map(|row| row.listers[number]).sum::<f64>();
        match lister.aim {
            Some(aim) => format!("entry / {name} {mean:.2} (aim {aim}) and {added:.2}"),
            None => format!("entry / {name} {mean:.2} and {added:.2}"),
        }
    });
    format!(
        "\nOver the set, as the geometric mean of the ratios and with all times added: {}; \
         {} million trials a second.\n",
        ratios.collect::<Vec<_>>().join(", "),
        millions(trials / entry),
    )
}

/// The molecules whose ratio to a lister is above what the table explains, each
/// with the ratio and the share of the fixed cost of a call.
fn above(rows: &[Row], lister: usize, most: f64) -> Option<String> {
    let above: Vec<_> = rows
        .iter()
        .filter(|row| row.ratio(lister) > most)
        .map(|row| {
            let share = 100.0 * row.call / row.entry;
            format!("{} ({:.2}; {share:.0} %)", row.name, row.ratio(lister))
        })
        .collect();
    let name = LISTERS[lister].name;
    (!above.is_empty()).then(|| format!("\nAbove {most} of `{name}`: {}.\n", above.join("; ")))
}

/// Where the entry takes more than the aims, and why.
fn above_aim(rows: &[Row]) -> String {
    let lists: Vec<_> = LISTERS
        .iter()
        .enumerate()
        .filter_map(|(number, lister)| above(rows, number, lister.each?))
        .collect();
    if lists.is_empty() {
        return String::new();
    }
    lists.concat()
        + "\nIn brackets the ratio, and the share of the entry's time that a call with budget 0 and no mark takes. A small \
           molecule pays this fixed cost of a call, most of `resume`: the sheet is read and its record checked, the table of \
           its words made, the mark saved. Besides, the entry counts trials and can stop before any of them, and finds the \
           first atoms of rings by trials, which the other listers do not.\n"
}

/// The time in runs of each length over that in one run.
fn length_table(rows: &[Row]) -> String {
    let mut text =
        String::from("\n## The entry in runs of several lengths, against itself in one run\n\n");
    let mut heads = vec!["molecule".to_string()];
    heads.extend(LENGTHS.map(|length| format!("{length} trials")));
    text += &(table_line(&heads) + &table_rule(heads.len()));
    for row in rows {
        let ratio = |seconds: f64| format!("{:.2}", seconds / row.entry);
        if row.runs.iter().any(Option::is_some) {
            let mut cells = vec![row.name.clone()];
            cells.extend(row.runs.map(|run| run.map_or(String::new(), ratio)));
            text += &table_line(&cells);
        }
    }
    text
}

/// Rings up to a size: the entry over `best`, and over itself without a bound.
fn size_table(groups: &[Group]) -> String {
    let mut text = String::from(
        "\n## Rings up to a size\n\n\
         A whole listing of the rings of at most k atoms, by one call of the entry from the mark of `ringlist_start`, and by \
         `best` with the same bound; 128 leaves out no ring. The last two columns are the entry's trials and time over those \
         of all rings.\n\n",
    );
    let heads = [
        "molecule",
        "k",
        "rings",
        "trials",
        "entry",
        "best",
        "entry / best",
        "trials / all",
        "time / all",
    ]
    .map(String::from);
    text += &(table_line(&heads) + &table_rule(heads.len()));
    for (row, size) in groups
        .iter()
        .flat_map(|group| group.sizes.iter().map(move |size| (group.row, size)))
    {
        text += &table_line(&[
            row.name.clone(),
            size.k.to_string(),
            size.rings.to_string(),
            size.trials.to_string(),
            shown(size.entry),
            shown(size.best),
            format!("{:.2}", size.entry / size.best),
            format!("{:.4}", size.trials as f64 / row.trials as f64),
            format!("{:.4}", size.entry / row.entry),
        ]);
    }
    text + &size_summary(groups)
}

/// The ratios of the second table: of its lines with a bound, of those whose
/// bound leaves out no ring, and of the same molecules in the first table.
fn size_summary(groups: &[Group]) -> String {
    let over = |all: bool| {
        let sizes = move || {
            let sizes = groups.iter().flat_map(|group| &group.sizes);
            sizes.filter(move |size| (size.k == ALL) == all)
        };
        let entry: f64 = sizes().map(|size| size.entry).sum();
        let best: f64 = sizes().map(|size| size.best).sum();
        let mean = geometric_mean(sizes().map(|size| size.entry / size.best));
        format!("{mean:.2} and {:.2}", entry / best)
    };
    let first = geometric_mean(groups.iter().map(|group| group.row.ratio(BEST)));
    format!(
        "\nAs the geometric mean of the ratios and with all times added, entry / best: {} with a bound, {} with {ALL}. \
         The mean for the same molecules in the first table, where `best` has no bound: {first:.2}.\n",
        over(false),
        over(true),
    )
}

/// Listings of shortest paths: the entry over the plain lister.
fn shortest_table(listings: &[Linked]) -> String {
    let mut text = format!(
        "\n## Shortest paths\n\n\
         A listing by one call of the entry of at most {TRIALS} trials from the mark of `ringlist_start`, and by a plain lister \
         of as many: the steps to t are made once, then it goes along the neighbours that are nearer. It counts no trials.\n\n",
    );
    let heads = [
        "molecule",
        "atoms",
        "paths",
        "trials",
        "entry",
        "plain",
        "entry / plain",
    ];
    text += &(table_line(&heads.map(String::from)) + &table_rule(heads.len()));
    for linked in listings {
        text += &table_line(&[
            linked.ends.name.clone(),
            linked.ends.record.atoms.to_string(),
            linked.paths.to_string(),
            linked.trials.to_string(),
            shown(linked.entry),
            shown(linked.plain),
            format!("{:.2}", linked.entry / linked.plain),
        ]);
    }
    text + &linked_summary(listings)
}

/// The number of shortest paths: the counting entry over plain sums.
fn number_table(numbers: &[Linked]) -> String {
    let mut text = String::from("\nTheir number by `ringlist_count_shortest`, which refuses those above the limit of the counts by rule 26, and by \
             plain sums over layers.\n\n");
    let heads = [
        "molecule",
        "atoms",
        "number",
        "entry",
        "plain",
        "entry / plain",
    ];
    text += &(table_line(&heads.map(String::from)) + &table_rule(heads.len()));
    for linked in numbers {
        text += &table_line(&[
            linked.ends.name.clone(),
            linked.ends.record.atoms.to_string(),
            linked.paths.to_string(),
            shown(linked.entry),
            shown(linked.plain),
            format!("{:.2}", linked.entry / linked.plain),
        ]);
    }
    text + &linked_summary(numbers)
}

/// The ratios of the third table.
fn linked_summary(rows: &[Linked]) -> String {
    let entry: f64 = rows.iter().map(|row| row.entry).sum();
    let plain: f64 = rows.iter().map(|row| row.plain).sum();
    let mean = geometric_mean(rows.iter().map(|row| row.entry / row.plain));
    format!(
        "\nAs the geometric mean of the ratios and with all times added, entry / plain: {mean:.2} and {:.2}.\n",
        entry / plain
    )
}

/// Going on from a mark: the time of a call with budget 0 over that of reading
/// the sheet, and the same before request F-5.
fn resuming_table(rows: &[Resuming]) -> String {
    let mut text = format!(
        "\n## Resuming\n\n\
         A call with budget 0 from a mark about halfway (of the two random molecules after a million trials), over reading the \
         sheet alone: a call from a mark of one byte, which is refused as soon as the sheet is read. Before request F-5 a mark \
         had no bond lines; since then the ratio is to be at most {MORE} more, as if the sheet were read twice more.\n\n",
    );
    let heads = [
        "molecule",
        "atoms",
        "bonds",
        "bytes of the mark",
        "resume",
        "sheet",
        "resume / sheet",
        "before",
        "aim",
    ];
    text += &(table_line(&heads.map(String::from)) + &table_rule(heads.len()));
    for row in rows {
        text += &table_line(&[
            row.name.clone(),
            row.atoms.to_string(),
            row.bonds.to_string(),
            row.mark.to_string(),
            shown(row.resume),
            shown(row.sheet),
            format!("{:.2}", row.ratio()),
            format!("{:.2}", row.before),
            format!("{:.2}", row.aim()),
        ]);
    }
    let above: Vec<&str> = rows
        .iter()
        .filter(|row| row.ratio() > row.aim())
        .map(|row| row.name.as_str())
        .collect();
    match above[..] {
        [] => text + "\nNone is above its aim.\n",
        _ => text + &format!("\nAbove its aim: {}.\n", above.join("; ")),
    }
}

/// The line of equal times and those of the aims, from the lowest.
fn marks() -> Vec<(f64, String)> {
    let first = LISTERS[0].name;
    let equal = format!("{AIM}: equally fast; the aim for each molecule against {first}");
    let mut marks = vec![(AIM, equal)];
    for lister in LISTERS {
        if let Some(aim) = lister.aim {
            let text = format!("{aim}: the aim for the mean against {}", lister.name);
            marks.push((aim, text));
        }
    }
    marks.sort_by(|one, other| one.0.total_cmp(&other.0));
    marks
}

/// The picture of both tables.
fn picture(rows: &[Row]) -> Picture {
    let series = LISTERS.iter().enumerate().map(|(number, lister)| Series {
        about: format!("against {}, which {}", lister.name, lister.about),
        values: rows
            .iter()
            .map(|row| row.ratio(number))
            .chain([mean_ratio(rows, number)])
            .collect(),
    });
    let mut names: Vec<String> = rows.iter().map(|row| row.name.clone()).collect();
    names.push("geometric mean".to_string());
    let mut lines: Vec<Line> = rows.iter().map(Row::line).collect();
    lines.retain(|line| !line.points.is_empty());
    lines.sort_by_key(|line| line.points.len() < 2);
    Picture {
        bars: BarPanel {
            title: "A whole listing in one run: time of the host entry / time of a Rust lister"
                .to_string(),
            axis: "ratio of times (no unit; below 1 the host entry is faster)".to_string(),
            names,
            series: series.collect(),
            marks: marks(),
        },
        lines: LinePanel {
            title: "A whole listing cut into runs: time of the host entry / its time in one run"
                .to_string(),
            x_axis: "length of each run (trials)".to_string(),
            y_axis: "ratio of times (no unit)".to_string(),
            lines,
        },
        notes: vec![
            "random, n / m: n atoms and m bonds at random. all bonded, n: n atoms, each bonded to each other."
                .to_string(),
            "Each time is the best of several, all from one run of the benchmark.".to_string(),
        ],
    }
}

/// The section on going on from a mark.
fn resuming() -> String {
    let resumed = resumed();
    let rows: Vec<Resuming> = resumed
        .iter()
        .zip(BEFORE)
        .map(|((molecule, trials), before)| measure_resuming(molecule, *trials, before))
        .collect();
    eprintln!("resuming of {} molecules", rows.len());
    resuming_table(&rows)
}

fn main() {
    match std::env::args().nth(1).as_deref() {
        None => whole(),
        Some("resuming") => print!("{}", resuming()),
        Some(_) => {
            eprintln!("usage: bench_host [resuming]");
            std::process::exit(1);
        }
    }
}

/// All tables and the plot.
fn whole() {
    let (set, mut rows) = (molecules(), Vec::new());
    for molecule in &set {
        let row = measure(molecule);
        eprint!("{:21}", row.name);
        for (number, lister) in LISTERS.iter().enumerate() {
            eprint!(" entry / {} {:6.2}", lister.name, row.ratio(number));
        }
        eprintln!();
        rows.push(row);
    }
    let mut groups = Vec::new();
    for (molecule, row) in set.iter().zip(&rows).filter(|(_, row)| has_sizes(row)) {
        let sizes = SIZES.map(|k| measure_up_to(&molecule.sheet, k)).into();
        eprintln!("{:21} with the sizes {SIZES:?}", row.name);
        groups.push(Group { row, sizes });
    }
    let ends = ends();
    let listings: Vec<Linked> = ends.iter().map(measure_listing).collect();
    let numbers: Vec<Linked> = ends.iter().map(measure_number).collect();
    eprintln!("shortest paths between {} ends", ends.len());
    let folder = PathBuf::from(concat!(env!("CARGO_MANIFEST_DIR"), "/../../target/bench"));
    std::fs::create_dir_all(&folder).expect("a folder for the results");
    let mut table = head() + &ratio_table(&rows) + &summary(&rows) + &above_aim(&rows);
    table += &(length_table(&rows) + &size_table(&groups));
    table += &(shortest_table(&listings) + &number_table(&numbers) + &resuming());
    std::fs::write(folder.join("table.md"), &table).expect("a table");
    std::fs::write(folder.join("plot.svg"), picture(&rows).draw().svg()).expect("a plot");
    print!("{table}");
    println!("\nwritten: target/bench/table.md, target/bench/plot.svg");
}
