//! Old marks carried over to the new form, and new ones back, against the model:
//! call by call, byte for byte.

use flat_tests::compare::Case;
use flat_tests::generate::{self, Molecule};
use flat_tests::host::{Carrier, Entry, Sheet};
use flat_tests::model::carry::Form;
use flat_tests::model::field::LIMIT;
use flat_tests::model::list::{Listed, Reached, Task};
use flat_tests::model::machine::{Search, Stop};
use flat_tests::model::mark::MARK_ROOM;
use flat_tests::model::{lister, Record};
use flat_tests::rng::Rng;
use flat_tests::subject::{self, no_mark, on_sheet, on_subject, quicker, Subject};
use flat_tests::{sample, sampled, spoil, sum_of_parts};

/// Marks carried on one molecule, those carried back not counted.
const CALLS: u64 = 12;

/// Carries a mark, with room for any. One that is accepted comes back as its
/// first bytes, in an output of just their number.
fn there_and_back(
    carrier: &mut Carrier,
    from: Form,
    sheet: Sheet,
    mark: &[u8],
) -> Result<Vec<u8>, u32> {
    let there = carrier.carry(from, sheet, mark, MARK_ROOM)?;
    let back = carrier.carry(from.other(), sheet, &there, mark.len());
    assert_eq!(back.as_deref(), Ok(mark));
    Ok(there)
}

/// Bytes for a mark of so many: mostly enough.
fn any_room(rng: &mut Rng, size: usize) -> usize {
    match rng.below(16) {
        0 => 0,
        1..=2 => size - 1,
        3..=5 => size,
        6 => size + 1,
        7 => rng.index(size),
        8 => rng.pick(&[1, 90, 91, 99, 599, MARK_ROOM - 1]),
        9 => size + rng.index(300),
        _ => MARK_ROOM,
    }
}

/// A mark to carry from a form: of a place, of another molecule, of one with as
/// many atoms and bonds, in the other form, damaged, or none at all. `others` are
/// marks of another molecule, old and new.
fn any_mark(
    rng: &mut Rng,
    subject: &Subject,
    others: &[Vec<u8>; 2],
    (from, search): (Form, &Search),
) -> Vec<u8> {
    let record = subject.record();
    let mut mark = match rng.below(18) {
        0 => others[usize::from(from == Form::New)].clone(),
        1..=2 => subject.mark_of_isomer(rng, from),
        3 => from.other().write(record, search),
        4 => no_mark(rng, &subject.sheet),
        5 if rng.one_in(4) => Vec::new(),
        _ => from.write(record, search),
    };
    spoil::now_and_then(rng, record.atoms, &mut mark);
    mark
}

/// Marks carried on one molecule, with the parts of each call drawn anew, on the
/// sheet as it is or changed. An accepted one goes back with any room.
fn carries_on(carrier: &mut Carrier, subject: &Subject, others: &[Vec<u8>; 2], rng: &mut Rng) {
    let bonds = subject.record().bonds as usize;
    for _ in 0..CALLS {
        let (from, search) = (rng.pick(&Form::BOTH), subject.place(rng));
        let mark = any_mark(rng, subject, others, (from, &search));
        let size = from.other().size(search.length as usize, bonds);
        let room = any_room(rng, size);
        if rng.below(8) >= 5 {
            on_sheet(&subject.changed_sheet(rng), |sheet| {
                let _ = carrier.carry(from, sheet, &mark, room);
            });
        } else if let Ok(there) = carrier.carry(from, subject.own(), &mark, room) {
            let room = any_room(rng, mark.len());
            let back = carrier.carry(from.other(), subject.own(), &there, room);
            let expected = if room < mark.len() { Err(13) } else { Ok(mark) };
            assert_eq!(back, expected);
        }
    }
}

/// Four parts side by side, at least 200,000 calls: searches of each kind on
/// random molecules, with counts up to their limit.
#[test]
fn random_carries() {
    let parts = [
        ("random_carries 1", 0x4341_5252_5931),
        ("random_carries 2", 0x4341_5252_5932),
        ("random_carries 3", 0x4341_5252_5933),
        ("random_carries 4", 0x4341_5252_5934),
    ];
    let calls = sum_of_parts(&parts, random_carries_of);
    println!("{calls} calls in all");
    assert!(sample() > 1 || calls >= 200_000, "only {calls} calls");
}

/// The calls of one seed, and their number.
fn random_carries_of(name: &'static str, seed: u64) -> u64 {
    let mut carrier = Carrier::new(seed);
    let mut others = [Vec::new(), Vec::new()];
    for case in 0..sampled(4_000) {
        let _case = Case(name, case);
        let mut rng = Rng::of_case(seed, case);
        let molecule = subject::any_molecule(&mut rng);
        others = on_subject(&mut rng, &molecule, |subject, rng| {
            carries_on(&mut carrier, subject, &others, rng);
            Form::BOTH.map(|form| subject.mark(rng, form))
        });
    }
    carrier.print();
    carrier.at_least(5_000, &[0]);
    carrier.at_least(1_000, &[13, 14]);
    carrier.at_least(500, &[15]);
    carrier.at_least(100, &[16, 17]);
    carrier.at_least(200, &[1, 2, 3, 4, 5, 6, 7, 8]);
    carrier.calls()
}

/// A mark in one form, with its search and its molecule's sheet.
struct Small<'a> {
    form: Form,
    sheet: Sheet<'a>,
    record: &'a Record,
    search: &'a Search,
    mark: Vec<u8>,
}

impl Small<'_> {
    /// The bytes of the mark in the other form.
    fn other_size(&self) -> usize {
        let (length, bonds) = (self.search.length, self.record.bonds);
        self.form.other().size(length as usize, bonds as usize)
    }

    /// The mark with a text in one field.
    fn with(&self, (at, columns): (usize, usize), text: &str) -> Vec<u8> {
        let mut changed = self.mark.clone();
        spoil::put(&mut changed, at, columns, text);
        changed
    }
}

/// Each kind of search at many places of a few molecules, in each form; of a
/// sample one place in a few.
fn on_small_marks(mut check: impl FnMut(Small)) {
    for (record, searches) in &subject::small_searches() {
        let lists = Listed::new(record);
        let sheet = generate::molecule_of(record).sheet();
        for search in searches.iter().step_by(sample().min(9) as usize) {
            for form in Form::BOTH {
                let mark = form.write(record, search);
                let sheet: Sheet = (&sheet, Ok(&lists));
                check(Small {
                    form,
                    sheet,
                    record,
                    search,
                    mark,
                });
            }
        }
    }
}

/// Every byte of many marks with several values.
#[test]
fn every_byte() {
    let mut carrier = Carrier::new(101);
    on_small_marks(|small| {
        for at in (0..small.mark.len()).step_by(sample().min(9) as usize) {
            let byte = small.mark[at];
            for byte in [
                b' ',
                b'0',
                b'1',
                b'9',
                b'\n',
                byte ^ 1,
                byte + 1,
                byte | 0x80,
            ] {
                let mut changed = small.mark.clone();
                changed[at] = byte;
                let _ = there_and_back(&mut carrier, small.form, small.sheet, &changed);
            }
        }
    });
    carrier.print();
    carrier.at_least(5_000, &[0, 14]);
    carrier.at_least(500, &[15, 17]);
    carrier.at_least(200, &[16]);
}

/// Outputs of every length up to the mark's and ten more, and of larger ones:
/// just its length is enough.
#[test]
fn every_length_of_output() {
    let mut carrier = Carrier::new(102);
    on_small_marks(|small| {
        let size = small.other_size();
        let near = (0..=size + 10).rev().step_by(sample().min(5) as usize);
        let large = [599, 1_024, MARK_ROOM - 1, MARK_ROOM, MARK_ROOM + 1, 65_536];
        for room in near.chain(large) {
            let answer = carrier.carry(small.form, small.sheet, &small.mark, room);
            let other = small.form.other().write(small.record, small.search);
            let expected = if room < size { Err(13) } else { Ok(other) };
            assert_eq!(answer, expected, "{room} bytes");
        }
    });
    carrier.print();
    carrier.at_least(5_000, &[13]);
    carrier.at_least(1_000, &[0]);
}

/// Marks cut at every length, and with bytes after their last line.
#[test]
fn every_length_of_mark() {
    let mut carrier = Carrier::new(103);
    on_small_marks(|small| {
        let Small { form, sheet, .. } = small;
        let mark = &small.mark;
        for len in (0..mark.len()).rev().step_by(sample().min(9) as usize) {
            for part in [&mark[..len], &mark[len + 1..]] {
                assert_eq!(carrier.carry(form, sheet, part, MARK_ROOM), Err(14));
            }
            let ended = [&mark[..len], b"\n"].concat();
            let answer = there_and_back(&mut carrier, form, sheet, &ended);
            assert_eq!(answer.is_ok(), len + 1 == mark.len());
        }
        for more in [
            "\n",
            " ",
            "\0",
            "   1",
            "   1\n",
            "  11  12\n",
            " 127 128\n",
        ] {
            let longer = [mark, more.as_bytes()].concat();
            assert_eq!(carrier.carry(form, sheet, &longer, MARK_ROOM), Err(14));
        }
        for len in [599, 603, 9_815, 9_824, 65_536 + mark.len()] {
            let mut longer = mark.clone();
            longer.resize(len, b' ');
            assert_eq!(carrier.carry(form, sheet, &longer, MARK_ROOM), Err(14));
        }
    });
    carrier.print();
    carrier.at_least(20_000, &[14]);
}

/// Every field of the marks with numbers at the edges of lengths, atoms and
/// counts, filled by zeros, and empty. Counts up to the limit are carried.
#[test]
fn edges_of_fields() {
    let mut carrier = Carrier::new(104);
    on_small_marks(|small| {
        let Small { form, sheet, .. } = small;
        for (at, columns) in spoil::places(&small.mark) {
            if columns == 20 {
                for count in spoil::COUNTS {
                    let changed = small.with((at, columns), count);
                    let right = count.len() == 1 || count.len() == 19;
                    let answer = there_and_back(&mut carrier, form, sheet, &changed);
                    assert_eq!(answer.is_ok(), right, "{count}");
                }
            } else {
                for value in spoil::EDGES.into_iter().chain(2..=5) {
                    let changed = small.with((at, columns), &value.to_string());
                    let _ = there_and_back(&mut carrier, form, sheet, &changed);
                }
            }
            let mut zeros = small.mark.clone();
            spoil::zero_fill(&mut zeros, at, columns);
            for changed in [zeros, small.with((at, columns), "")] {
                assert_eq!(carrier.carry(form, sheet, &changed, MARK_ROOM), Err(14));
            }
        }
    });
    carrier.print();
    carrier.at_least(1_000, &[0, 14, 15, 17]);
    carrier.at_least(500, &[16]);
}

/// A text put into a field of a mark: where, its columns, and the text.
type Put = (usize, usize, &'static str);

/// Ways to break each of rules 14 to 17 alone, in the mark of p = 2 among the
/// paths from 2 to 4 on the document's sheet.
fn breaks(form: Form) -> [Vec<Put>; 4] {
    let mut layout = vec![(29, 20, "00"), (49, 20, "x"), (28, 1, " "), (20, 4, "2")];
    let mut belongs = vec![(12, 4, "5"), (12, 4, "9999")];
    match form {
        // The number of bonds.
        Form::Old => belongs.extend([(16, 4, "4"), (16, 4, "0"), (16, 4, "1025")]),
        // That alone, without its line; the third bond, 1 4, as 4 4, and the
        // fourth, 2 3, as 2 2. The first, 1 2, as 0 2, and the last, 3 4.
        Form::New => {
            layout.extend([(16, 4, "4"), (113, 4, "4"), (126, 4, "2")]);
            belongs.extend([(95, 4, "0"), (135, 4, "5"), (135, 4, "9999")]);
        }
    }
    let kind = vec![(0, 4, "4"), (4, 4, "5"), (8, 4, "2"), (0, 4, "0")];
    let place = vec![(24, 4, "0"), (24, 4, "5"), (90, 4, "3"), (90, 4, "258")];
    [layout, belongs, kind, place]
}

/// Rules broken together: the sheet's come first, then the mark's, then the room.
/// Each set of the mark's is tried, in every way.
#[test]
fn order_of_rules() {
    let mut carrier = Carrier::new(105);
    let molecule = generate::document();
    let (record, sheet) = (molecule.record(), molecule.sheet());
    let lists = Listed::new(&record);
    for form in Form::BOTH {
        let search = Search::at(Task::Paths { s: 2, t: 4 }, &[2], 1);
        let breaks = breaks(form);
        for set in 0..16u32 {
            let chosen: Vec<usize> = (0..4).filter(|rule| set >> rule & 1 == 1).collect();
            let of_mark = chosen.first().map(|&rule| 14 + rule as u32);
            let ways = chosen.iter().map(|&rule| breaks[rule].len()).product();
            for way in (0..ways).step_by(sample().min(20) as usize) {
                let (mut mark, mut rest) = (form.write(&record, &search), way);
                for &rule in &chosen {
                    let (at, columns, text) = breaks[rule][rest % breaks[rule].len()];
                    rest /= breaks[rule].len();
                    spoil::put(&mut mark, at, columns, text);
                }
                in_every_room(&mut carrier, form, (&sheet, Ok(&lists)), (&mark, of_mark));
            }
        }
    }
    carrier.print();
    carrier.at_least(1_000, &[14]);
    carrier.at_least(300, &[15]);
    carrier.at_least(50, &[16]);
    carrier.at_least(10, &[17]);
    carrier.at_least(100, &[1, 2, 3, 4, 5, 6, 7, 8]);
}

/// A mark of p = 2 on the document's sheet that breaks a rule or none, with rooms
/// for it and too small; and each with a sheet that breaks a rule.
fn in_every_room(
    carrier: &mut Carrier,
    form: Form,
    sheet: Sheet,
    (mark, of_mark): (&[u8], Option<u32>),
) {
    let size = form.other().size(1, 5);
    let sheets = generate::refused_sheets();
    for (number, room) in [0, 91, size - 1, size, MARK_ROOM].into_iter().enumerate() {
        let of_room = (room < size).then_some(13);
        let answer = carrier.carry(form, sheet, mark, room).err();
        assert_eq!(answer, of_mark.or(of_room), "{}", mark.escape_ascii());
        let (rule, other) = &sheets[(carrier.calls() as usize + number) % sheets.len()];
        let answer = carrier.carry(form, (other, Err(*rule)), mark, room);
        assert_eq!(answer, Err(*rule));
    }
}

/// Two molecules with as many atoms and bonds. A mark of either in the new form is
/// refused on the other by rule 15; in the old form it belongs to both, so that
/// it gets the other's bonds where its place is open there.
#[test]
fn isomers() {
    let mut carrier = Carrier::new(106);
    // Places that are not open in the other, and such that are.
    let mut places = [0, 0];
    for case in 0..sampled(4_000) {
        let _case = Case("isomers", case);
        let mut rng = Rng::of_case(0x4341_5252_5935, case);
        let molecule = generate::any_searched(&mut rng);
        if let Some(other) = generate::any_isomer(&mut rng, &molecule) {
            let open = on_subject(&mut rng, &molecule, |subject, rng| {
                isomers_of(&mut carrier, subject, &other, rng)
            });
            places[usize::from(open)] += 1;
        }
    }
    carrier.print();
    println!("{} places open in the other, {} not", places[1], places[0]);
    assert!(places[1] >= sampled(1_000) && places[0] >= sampled(300));
    carrier.at_least(1_000, &[0]);
}

/// A mark of one molecule on both; says whether its place is open in the other.
fn isomers_of(carrier: &mut Carrier, subject: &Subject, other: &Molecule, rng: &mut Rng) -> bool {
    let (search, strange) = (subject.place(rng), other.record());
    let [old, new] = Form::BOTH.map(|form| form.write(subject.record(), &search));
    let carried = there_and_back(carrier, Form::Old, subject.own(), &old);
    assert_eq!(carried.as_ref(), Ok(&new));
    let sheet = generate::mixed(rng, &other.sheet());
    let lists = Reached::new(&strange);
    let sheet: Sheet = (&sheet, Ok(&lists));
    for room in [0, old.len(), MARK_ROOM] {
        assert_eq!(carrier.carry(Form::New, sheet, &new, room), Err(15));
    }
    let open = search.is_restorable(&lists);
    let there = there_and_back(carrier, Form::Old, sheet, &old);
    let expected = match open {
        true => Ok(Form::New.write(&strange, &search)),
        false => Err(17),
    };
    assert_eq!(there, expected);
    open
}

/// Marks of molecules with an atom more, a bond fewer, or both more: rule 15 in
/// both forms, also where the place is open.
#[test]
fn other_molecules() {
    let mut carrier = Carrier::new(107);
    for case in 0..sampled(1_500) {
        let _case = Case("other_molecules", case);
        let mut rng = Rng::of_case(0x4341_5252_5936, case);
        let (n, m) = (rng.between(3, 20), rng.between(1, 3));
        let molecule = generate::random_molecule(&mut rng, n, m);
        let mut others = [molecule.clone(), molecule.clone(), molecule.clone()];
        others[0].atoms += 1;
        others[1].bonds.pop();
        // An atom and a bond more.
        others[2].atoms += 1;
        others[2].bonds.push((n + 1, 1));
        let task = generate::any_task(&mut rng, n);
        let search = Search::at(task, &[], rng.between(1, n));
        for other in &others {
            for form in Form::BOTH {
                let mark = form.write(&other.record(), &search);
                on_sheet(&molecule.sheet(), |sheet| {
                    let answer = carrier.carry(form, sheet, &mark, any_room(&mut rng, 91));
                    assert_eq!(answer, Err(15));
                });
                on_sheet(&other.sheet(), |sheet| {
                    assert!(there_and_back(&mut carrier, form, sheet, &mark).is_ok());
                });
            }
        }
    }
    carrier.print();
    carrier.at_least(4_000, &[0, 15]);
}

/// Sheets of one molecule, filled by blanks, by zeros and by both, with its bonds
/// in another order and their atoms turned: the same marks.
#[test]
fn sheets_of_one_molecule() {
    let mut carrier = Carrier::new(108);
    for case in 0..sampled(1_500) {
        let _case = Case("sheets_of_one_molecule", case);
        let mut rng = Rng::of_case(0x4341_5252_5937, case);
        let molecule = generate::any_searched(&mut rng);
        let mut turned = molecule.clone();
        rng.shuffle(&mut turned.bonds);
        for bond in &mut turned.bonds {
            *bond = (bond.1, bond.0);
        }
        let sheets = [
            molecule.sheet(),
            generate::zero_filled(&molecule.sheet()),
            generate::mixed(&mut rng, &molecule.sheet()),
            turned.sheet(),
            generate::mixed(&mut rng, &turned.sheet()),
            generate::molecule_of(&molecule.record()).sheet(),
        ];
        on_subject(&mut rng, &molecule, |subject, rng| {
            let search = subject.place(rng);
            let marks = Form::BOTH.map(|form| form.write(subject.record(), &search));
            for sheet in &sheets {
                let sheet: Sheet = (sheet, Ok(subject.lists));
                let there = there_and_back(&mut carrier, Form::Old, sheet, &marks[0]);
                assert_eq!(there.as_ref(), Ok(&marks[1]));
            }
        });
    }
    carrier.print();
    carrier.at_least(8_000, &[0]);
}

/// A mark handed to the entry of the other form: rule 14, but of a molecule without
/// bonds, whose marks have one form and are carried to themselves.
#[test]
fn marks_of_the_other_form() {
    let mut carrier = Carrier::new(109);
    for case in 0..sampled(4_000) {
        let _case = Case("marks_of_the_other_form", case);
        let mut rng = Rng::of_case(0x4341_5252_5938, case);
        let molecule = match rng.below(4) {
            0 => Molecule::new(rng.between(0, 128), &[]),
            _ => generate::any_searched(&mut rng),
        };
        on_subject(&mut rng, &molecule, |subject, rng| {
            for form in Form::BOTH {
                let mark = subject.mark(rng, form.other());
                if molecule.bonds.is_empty() {
                    let there = there_and_back(&mut carrier, form, subject.own(), &mark);
                    assert_eq!(there, Ok(mark));
                } else {
                    let room = any_room(rng, mark.len());
                    let answer = carrier.carry(form, subject.own(), &mark, room);
                    assert_eq!(answer, Err(14));
                }
            }
        });
    }
    carrier.print();
    carrier.at_least(1_000, &[0]);
    carrier.at_least(2_000, &[14]);
}

/// The longest marks: 127 atoms in the beginning, or 1,024 bonds and 119 atoms in
/// it, which no molecule of so many bonds has more of; and 1,024 bonds at the
/// start of a search of each kind.
#[test]
fn longest() {
    let mut carrier = Carrier::new(110);
    let all: Vec<u8> = (1..=128).collect();
    let most = |closes| generate::longest_with_most_bonds(closes);
    let full = || generate::random_molecule(&mut Rng::new(111), 128, 1_024);
    for (molecule, task, length, sizes) in [
        (generate::ring(128), Task::Rings, 127, [599, 1_751]),
        (
            generate::ring(128),
            Task::RingsUpTo { k: 128 },
            127,
            [599, 1_751],
        ),
        (
            generate::chain(128),
            Task::Paths { s: 1, t: 128 },
            127,
            [599, 1_742],
        ),
        (
            generate::chain(128),
            Task::Shortest { s: 1, t: 128 },
            127,
            [599, 1_742],
        ),
        (most(true), Task::Rings, 119, [567, 9_783]),
        (most(true), Task::RingsUpTo { k: 120 }, 119, [567, 9_783]),
        (most(false), Task::Paths { s: 1, t: 120 }, 119, [567, 9_783]),
        (full(), Task::Rings, 0, [91, 9_307]),
        (full(), Task::RingsUpTo { k: 128 }, 0, [91, 9_307]),
        (full(), Task::Paths { s: 128, t: 127 }, 0, [91, 9_307]),
        (full(), Task::Shortest { s: 127, t: 128 }, 0, [91, 9_307]),
    ] {
        let mut search = Search::at(task, &all[..length], length as u64 + 1);
        [search.trials, search.extensions, search.listed] = [LIMIT, LIMIT - 1, LIMIT];
        longest_of(&mut carrier, &molecule, &search, sizes);
    }
    carrier.print();
}

/// The mark of a search in both forms, with outputs about their lengths.
fn longest_of(carrier: &mut Carrier, molecule: &Molecule, search: &Search, sizes: [usize; 2]) {
    let (record, sheet) = (molecule.record(), molecule.sheet());
    let lists = Reached::new(&record);
    let sheet: Sheet = (&sheet, Ok(&lists));
    let marks = Form::BOTH.map(|form| form.write(&record, search));
    assert_eq!([marks[0].len(), marks[1].len()], sizes);
    for (form, (mark, other)) in Form::BOTH
        .into_iter()
        .zip([(&marks[0], &marks[1]), (&marks[1], &marks[0])])
    {
        let size = other.len();
        let near = (size - 10..=size + 10).step_by(sample().min(4) as usize);
        for room in near.chain([0, 91, 599, size - 1, size, MARK_ROOM]) {
            let answer = carrier.carry(form, sheet, mark, room);
            let expected = if room < size { Err(13) } else { Ok(other) };
            assert_eq!(answer.as_ref().map_err(|rule| *rule), expected);
        }
        // No beginning is longer: 128 atoms break the layout.
        let longer = spoil::lengthened(mark, 128, 128);
        assert_eq!(carrier.carry(form, sheet, &longer, MARK_ROOM), Err(14));
    }
}

/// Listings of each kind that stop after each number of trials: the mark, turned
/// old, is carried over, and the rest of the list comes from there, nothing lost
/// and nothing twice, with the counts of a listing that does not stop.
#[test]
fn listings_from_every_stop() {
    let (mut carrier, mut entry) = (Carrier::new(112), Entry::new(113));
    let molecules = [
        generate::document(),
        generate::two_to_three(),
        generate::complete(5),
        generate::ring(7),
        generate::cube(),
    ];
    for (molecule, task) in molecules
        .iter()
        .flat_map(|molecule| subject::each_kind(4).map(|task| (molecule, task)))
    {
        let (record, sheet) = (molecule.record(), molecule.sheet());
        let lists = Listed::new(&record);
        let sheet: Sheet = (&sheet, Ok(&lists));
        let whole = lister::list(&record, task);
        let trials = record.atoms * (whole.extensions + 1);
        let rooms = (whole.sheet.len(), MARK_ROOM);
        let fresh = entry.start(sheet, task.numbers(), MARK_ROOM);
        let fresh = fresh.expect("a task");
        for budget in (0..=trials).step_by(sample().min(40) as usize) {
            let first = entry.resume(sheet, &fresh, budget, rooms);
            let first = first.expect("accepted");
            let old = Form::Old.write(&record, &first.search);
            let mark = carrier.carry(Form::Old, sheet, &old, MARK_ROOM);
            let rest = entry.resume(sheet, &mark.expect("accepted"), u64::MAX, rooms);
            let rest = rest.expect("accepted");
            assert_eq!(rest.stop, Stop::Done);
            assert_eq!([first.records, rest.records].concat(), whole.sheet);
            let counts = [trials, whole.extensions, whole.listed];
            assert_eq!(rest.search.counts(), counts);
        }
    }
    carrier.print();
    entry.print();
}

/// Listings on random molecules in many calls, by an old and a new instrument in
/// turn: between each two calls the mark is turned old, by the model or by the
/// library, and carried over. The records joined are those of the whole list.
#[test]
fn listings_by_turns() {
    let (mut carrier, mut entry) = (Carrier::new(114), Entry::new(115));
    let mut members = 0;
    for case in 0..sampled(1_500) {
        let _case = Case("listings_by_turns", case);
        let mut rng = Rng::of_case(0x4341_5252_5939, case);
        let molecule = generate::any_searched(&mut rng);
        let record = molecule.record();
        let sheet = generate::mixed(&mut rng, &molecule.sheet());
        let (listed, reached) = (Listed::new(&record), Reached::new(&record));
        let sheet: Sheet = (&sheet, Ok(quicker(&listed, &reached)));
        for task in generate::any_tasks(&mut rng, record.atoms) {
            let (records, counts) = by_turns(&mut carrier, &mut entry, &mut rng, sheet, task);
            let whole = lister::list(&record, task);
            assert!(records == whole.sheet, "{task:?} of {record:?}");
            let trials = record.atoms * (whole.extensions + 1);
            assert_eq!(counts, [trials, whole.extensions, whole.listed]);
            members += whole.listed;
        }
    }
    carrier.print();
    entry.print();
    println!("{members} members");
    assert!(sample() > 1 || members >= 10_000);
    carrier.at_least(3_000, &[0]);
}

/// One such listing: its records joined, and the counts of its last mark.
fn by_turns(
    carrier: &mut Carrier,
    entry: &mut Entry,
    rng: &mut Rng,
    sheet: Sheet,
    task: Task,
) -> (Vec<u8>, [u64; 3]) {
    let record = sheet.1.expect("a molecule").record();
    let n = record.atoms;
    let most = rng.pick(&[2 * n, 8 * n, 30 * n]).max(1);
    let mut mark = entry.start(sheet, task.numbers(), MARK_ROOM);
    let mut records = Vec::new();
    loop {
        let given = mark.expect("accepted");
        let rooms = (rng.between(n + 1, 6 * n + 6) as usize, MARK_ROOM);
        let resumed = entry.resume(sheet, &given, rng.between(1, most), rooms);
        let resumed = resumed.expect("accepted");
        records.extend(resumed.records);
        if resumed.stop == Stop::Done {
            return (records, resumed.search.counts());
        }
        let old = Form::Old.write(record, &resumed.search);
        if rng.one_in(2) {
            let back = carrier.carry(Form::New, sheet, &resumed.mark, old.len());
            assert_eq!(back.as_ref(), Ok(&old));
        }
        mark = carrier.carry(Form::Old, sheet, &old, resumed.mark.len());
        assert_eq!(mark.as_ref(), Ok(&resumed.mark));
    }
}

/// Arbitrary bytes for a mark, and now and then for a sheet: any bytes, those of
/// fields and line ends, the lengths of marks, and marks with a few bytes changed.
#[test]
fn noise() {
    let mut carrier = Carrier::new(116);
    for case in 0..sampled(20_000) {
        let _case = Case("noise", case);
        let mut rng = Rng::of_case(0x4341_5252_5941, case);
        let n = rng.between(0, 12);
        let m = rng.below(n.max(1));
        let molecule = generate::random_molecule(&mut rng, n, m);
        let record = molecule.record();
        let form = rng.pick(&Form::BOTH);
        let sheet = match rng.below(8) {
            0 => no_mark(&mut rng, &molecule.sheet()),
            _ => molecule.sheet(),
        };
        let mut mark = match rng.below(3) {
            0 => no_mark(&mut rng, &sheet),
            1 => {
                let size = form.size(rng.index(4), m as usize);
                (0..size).map(|_| rng.pick(b"   019\n")).collect()
            }
            _ => form.write(&record, &Search::fresh(generate::any_task(&mut rng, n))),
        };
        for _ in 0..rng.below(4).min(mark.len() as u64) {
            let byte = rng.byte();
            *rng.pick_mut(&mut mark) = rng.pick(&[byte, b' ', b'1', b'2', b'9']);
        }
        let room = rng.index(250);
        on_sheet(&sheet, |sheet| {
            let _ = carrier.carry(form, sheet, &mark, room);
        });
    }
    carrier.print();
    carrier.at_least(5_000, &[14]);
    carrier.at_least(200, &[0, 1, 13]);
    carrier.at_least(20, &[2, 15, 16]);
}
