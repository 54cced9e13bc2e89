//! Marks: a search on a molecule in three lines, and then the molecule's bonds,
//! a line each.

use super::list::{Lists, Task};
use super::machine::Search;
use super::{field, Record, MAX_ATOMS};

/// Columns of the fields of lines 1 and 3 and of bond lines, and of line 2.
const NARROW: usize = 4;
const WIDE: usize = 20;
/// The longest beginning.
const LONGEST: u64 = 127;

/// Bytes that every mark has room in: those of 127 atoms in its beginning and
/// 1,024 bonds.
pub const MARK_ROOM: usize = 91 + 4 * 127 + 9 * 1024;

/// A bond as a mark has it, two atoms.
pub type Bond = (u64, u64);

/// The bonds of a lawful record, lower atom first, in dictionary order.
pub fn bonds(record: &Record) -> Vec<Bond> {
    let mut bonds = Vec::new();
    for b in 1..=record.atoms.min(MAX_ATOMS) {
        bonds.extend((1..b).filter(|&a| record.bonded(a, b)).map(|a| (a, b)));
    }
    bonds.sort_unstable();
    bonds
}

/// The bytes of a mark with so many atoms in its beginning and so many bonds.
pub fn size(length: usize, bonds: usize) -> usize {
    91 + 4 * length + 9 * bonds
}

/// The three lines of a search that names so many bonds, without bond lines: the
/// whole mark where there are none, and what marks were before request F-5.
pub fn write_lines(atoms: u64, bonds: u64, search: &Search) -> Vec<u8> {
    let first = [
        search.kind,
        search.s,
        search.t,
        atoms,
        bonds,
        search.length,
        search.next,
    ];
    let mut mark = Vec::new();
    for number in first {
        mark.extend(field::write(NARROW, number));
    }
    mark.push(b'\n');
    for count in search.counts() {
        mark.extend(field::write(WIDE, count));
    }
    mark.push(b'\n');
    for &v in search.beginning() {
        mark.extend(field::write(NARROW, v.into()));
    }
    mark.push(b'\n');
    mark
}

/// The line of a bond whose atoms fit their fields.
pub fn write_bond((a, b): Bond) -> Vec<u8> {
    [
        field::write(NARROW, a),
        field::write(NARROW, b),
        b"\n".to_vec(),
    ]
    .concat()
}

/// The mark of a search whose numbers fit its fields, on a lawful record.
pub fn write(record: &Record, search: &Search) -> Vec<u8> {
    let mut mark = write_lines(record.atoms, record.bonds, search);
    for bond in bonds(record) {
        mark.extend(write_bond(bond));
    }
    mark
}

/// The numbers of a line of fields, or none when one has the wrong bytes or is
/// filled by zeros, or columns are left over.
fn read_line(line: &[u8], columns: usize) -> Option<Vec<u64>> {
    line.chunks(columns)
        .map(|chunk| field::read_without_zeros(chunk).filter(|_| chunk.len() == columns))
        .collect()
}

/// The bond of a bond line, or none when it has the wrong bytes or its lower
/// atom does not come first.
fn read_bond(line: &[u8]) -> Option<Bond> {
    match read_line(line, NARROW)?[..] {
        [a, b] if a < b => Some((a, b)),
        _ => None,
    }
}

/// The numbers of the three lines that every mark begins with, and the lines
/// after them.
pub(super) struct Lines<'a> {
    pub(super) first: [u64; 7],
    counts: [u64; 3],
    beginning: Vec<u64>,
    pub(super) rest: Vec<&'a [u8]>,
}

/// The lines of a mark, or none when one of the first three does not follow the
/// layout (rule 14, but for the lines after them).
pub(super) fn read_lines(mark: &[u8]) -> Option<Lines<'_>> {
    let lines: Vec<&[u8]> = mark.split(|&byte| byte == b'\n').collect();
    // Nothing comes after the last line feed.
    let (first, second, third, rest) = match lines[..] {
        [first, second, third, ref rest @ .., []] => (first, second, third, rest),
        _ => return None,
    };
    let first: [u64; 7] = read_line(first, NARROW)?.try_into().ok()?;
    let counts: [u64; 3] = read_line(second, WIDE)?.try_into().ok()?;
    let beginning = read_line(third, NARROW)?;
    let [_, _, _, _, _, length, _] = first;
    (length <= LONGEST && beginning.len() as u64 == length).then_some(Lines {
        first,
        counts,
        beginning,
        rest: rest.to_vec(),
    })
}

/// The bonds of the lines after the third, or none when they do not follow the
/// layout: as many as the mark names, each later than the one above it.
fn read_bonds(lines: &Lines) -> Option<Vec<Bond>> {
    let [_, _, _, _, m, _, _] = lines.first;
    let bonds: Vec<Bond> = lines
        .rest
        .iter()
        .map(|line| read_bond(line))
        .collect::<Option<_>>()?;
    let ascending = bonds.windows(2).all(|two| two[0] < two[1]);
    (bonds.len() as u64 == m && ascending).then_some(bonds)
}

/// The search of the three lines of a mark that belongs to the molecule, or the
/// first of rules 16 and 17 that it breaks.
pub(super) fn search_of(lists: &dyn Lists, lines: &Lines) -> Result<Search, u32> {
    let [kind, s, t, n, _, length, c] = lines.first;
    let task = Task::of(n, kind, s, t).ok_or(16u32)?;
    // An atom above 255 is none of the molecule's.
    let p: Option<Vec<u8>> = lines.beginning.iter().map(|&v| v.try_into().ok()).collect();
    let p = p.filter(|p| lists.is_open(task, p)).ok_or(17u32)?;
    let in_range = (1..=n).contains(&c) || (length == 0 && c == n + 1);
    if !in_range {
        return Err(17);
    }
    let mut search = Search::at(task, &p, c);
    [search.trials, search.extensions, search.listed] = lines.counts;
    Ok(search)
}

/// The search of a mark on a lawful record, or the number of the first rule
/// it breaks. Rule 14 is tried over the whole mark before the others.
pub fn read(lists: &dyn Lists, mark: &[u8]) -> Result<Search, u32> {
    let record = lists.record();
    let lines = read_lines(mark).ok_or(14u32)?;
    let own = read_bonds(&lines).ok_or(14u32)?;
    let [_, _, _, n, ..] = lines.first;
    if n != record.atoms || own != bonds(record) {
        return Err(15);
    }
    search_of(lists, &lines)
}

#[cfg(test)]
mod tests {
    use super::super::list::{Listed, Reached};
    use super::*;
    use crate::generate::{self, Molecule};

    const LINE_1: &str = "   0   0   0   4   5   2   3\n";
    const LINE_2: &str = "                   5                   2                   0\n";
    const LINE_3: &str = "   1   2\n";
    const BONDS: &str = "   1   2\n   1   3\n   1   4\n   2   3\n   3   4\n";

    /// The document's mark of 144 bytes.
    const MARK: &str = "   0   0   0   4   5   2   3\n                   5                   2                   0\n   1   2\n   1   2\n   1   3\n   1   4\n   2   3\n   3   4\n";

    /// The answer to a mark on the document's sheet.
    fn answer(mark: &str) -> Result<(), u32> {
        let record = generate::document().record();
        read(&Listed::new(&record), mark.as_bytes()).map(|_| ())
    }

    #[test]
    fn bonds_by_hand() {
        let record = generate::document().record();
        assert_eq!(bonds(&record), [(1, 2), (1, 3), (1, 4), (2, 3), (3, 4)]);
        let molecule = Molecule::new(128, &[(128, 127), (100, 9), (9, 10), (128, 1), (10, 100)]);
        let ordered = [(1, 128), (9, 10), (9, 100), (10, 100), (127, 128)];
        assert_eq!(bonds(&molecule.record()), ordered);
        assert!(bonds(&Record::new(128)).is_empty());
        // By number, and not by the digits: 2 comes before 10.
        let molecule = Molecule::new(20, &[(10, 11), (2, 20), (1, 20), (1, 3), (1, 10)]);
        let ordered = [(1, 3), (1, 10), (1, 20), (2, 20), (10, 11)];
        assert_eq!(bonds(&molecule.record()), ordered);
    }

    #[test]
    fn sizes_by_hand() {
        assert_eq!(MARK_ROOM, 9_815);
        assert_eq!((size(0, 0), size(2, 5), size(127, 1024)), (91, 144, 9_815));
        assert_eq!(write_bond((1, 2)), b"   1   2\n");
        assert_eq!(write_bond((127, 128)), b" 127 128\n");
    }

    #[test]
    fn reads_by_hand() {
        let record = generate::document().record();
        let lists = Listed::new(&record);
        assert_eq!(MARK.len(), 144);
        assert_eq!(MARK, [LINE_1, LINE_2, LINE_3, BONDS].concat());
        let search = read(&lists, MARK.as_bytes()).expect("a mark");
        assert_eq!(search.beginning(), [1, 2]);
        assert_eq!(search.numbers(0, 0), [0, 0, 0, 2, 3, 5, 2, 0, 0, 0]);
        assert_eq!(write(&record, &search), MARK.as_bytes());
        // The mark before request F-5.
        assert_eq!(write_lines(4, 5, &search), MARK[..99].as_bytes());
        assert_eq!(answer(&MARK[..99]), Err(14));
        let with = |line_1: &str, line_3: &str| answer(&[line_1, LINE_2, line_3, BONDS].concat());
        assert_eq!(with(LINE_1, LINE_3), Ok(()));
        assert_eq!(with("   0   0   0   4   5   2   4\n", LINE_3), Ok(()));
        assert_eq!(with("   0   0   0   4   5   3   3\n", LINE_3), Err(14));
        assert_eq!(with("   0   0   0   4   5   2   3 ", LINE_3), Err(14));
        assert_eq!(with(LINE_1, "   1  02\n"), Err(14));
        assert_eq!(with(LINE_1, "   1   2"), Err(14));
        assert_eq!(with(LINE_1, "   1   2\n\n"), Err(14));
        assert_eq!(with("   0   0   0   5   5   2   3\n", LINE_3), Err(15));
        assert_eq!(with("   0   0   09999   5   2   3\n", LINE_3), Err(15));
        for (kind, answer) in [
            ("   2   0   0", Err(16)),
            ("   2   2   0", Err(16)),
            ("   2   3   0", Ok(())),
            ("   2   3   1", Err(16)),
            ("   2 128   0", Ok(())),
            ("   2 129   0", Err(16)),
            ("   3   3   0", Err(16)),
            ("   0   0   1", Err(16)),
            ("   1   4   4", Err(16)),
            ("   1   1   2", Err(17)),
            ("   1   1   4", Err(17)),
        ] {
            let line_1 = format!("{kind}   4   5   2   3\n");
            assert_eq!(with(&line_1, LINE_3), answer, "{kind}");
        }
        assert_eq!(with("   0   0   0   4   5   2   0\n", LINE_3), Err(17));
        assert_eq!(with("   0   0   0   4   5   2   5\n", LINE_3), Err(17));
        assert_eq!(with(LINE_1, "   1   4\n"), Err(17));
        assert_eq!(with(LINE_1, "   1 258\n"), Err(17));
        assert_eq!(answer(&MARK.replace("5       ", "5 1     ")), Err(14));
    }

    /// Bond lines that do not keep the layout, and such that do and are those of
    /// another molecule.
    #[test]
    fn bond_lines_by_hand() {
        let bonds = |bonds: &str| answer(&[LINE_1, LINE_2, LINE_3, bonds].concat());
        assert_eq!(bonds(BONDS), Ok(()));
        let line = |from: &str, to: &str| {
            assert_eq!(BONDS.matches(from).count(), 1, "{from:?}");
            bonds(&BONDS.replace(from, to))
        };
        // Two lines in each other's place; the sheet's own order; all the other way.
        assert_eq!(
            line("   1   3\n   1   4\n", "   1   4\n   1   3\n"),
            Err(14)
        );
        assert_eq!(
            line("   1   4\n   2   3\n", "   2   3\n   1   4\n"),
            Err(14)
        );
        let sheet = "   1   2\n   2   3\n   3   4\n   1   4\n   1   3\n";
        assert_eq!(bonds(sheet), Err(14));
        let back = "   3   4\n   2   3\n   1   4\n   1   3\n   1   2\n";
        assert_eq!(bonds(back), Err(14));
        // A bond twice, the higher atom first, two equal atoms.
        assert_eq!(line("   1   3\n", "   1   2\n"), Err(14));
        assert_eq!(line("   3   4\n", "   2   3\n"), Err(14));
        assert_eq!(line("   1   3\n", "   3   1\n"), Err(14));
        assert_eq!(line("   3   4\n", "   4   3\n"), Err(14));
        assert_eq!(line("   2   3\n", "   2   2\n"), Err(14));
        assert_eq!(line("   3   4\n", "   3   3\n"), Err(14));
        assert_eq!(line("   1   2\n", "   0   0\n"), Err(14));
        assert_eq!(line("   3   4\n", "99999999\n"), Err(14));
        // Another bond in its place, and strange atoms: the layout is kept.
        assert_eq!(line("   2   3\n", "   2   4\n"), Err(15));
        assert_eq!(line("   1   2\n", "   0   2\n"), Err(15));
        assert_eq!(line("   1   2\n", "   0   1\n"), Err(15));
        assert_eq!(line("   3   4\n", "   3   5\n"), Err(15));
        assert_eq!(line("   3   4\n", "   4   5\n"), Err(15));
        assert_eq!(line("   3   4\n", " 129 130\n"), Err(15));
        assert_eq!(line("   3   4\n", "   39999\n"), Err(15));
        assert_eq!(line("   3   4\n", "99989999\n"), Err(15));
        assert_eq!(line("   3   4\n", " 259 260\n"), Err(15));
        // Both: a bad order and a strange atom is 14.
        assert_eq!(line("   1   4\n", "   0   4\n"), Err(14));
        assert_eq!(line("   1   2\n", "   5   0\n"), Err(14));
        assert_eq!(line("   3   4\n", "   5   5\n"), Err(14));
        assert_eq!(line("   3   4\n", "9999   1\n"), Err(14));
        // A strange atom in one line, and a bad order in a later one or before.
        let both = "   0   2\n   1   3\n   1   4\n   3   4\n   2   3\n";
        assert_eq!(bonds(both), Err(14));
        let both = "   1   3\n   1   2\n   1   4\n   2   3\n   39999\n";
        assert_eq!(bonds(both), Err(14));
        // Zeros, blanks on both sides, other bytes, and line ends.
        for wrong in [
            "0001   2\n",
            "   10002\n",
            "   1  02\n",
            "1      2\n",
            "   12   \n",
            "       2\n",
            "   1    \n",
            "  +1   2\n",
            "   1   x\n",
            "   1   2\r",
            "   1   2 ",
            "   1   2",
            "   1  2\n",
            "   1   2   3\n",
            "   1\n",
            "\n",
            "   1   2\n\n",
        ] {
            assert_eq!(line("   1   2\n", wrong), Err(14), "{wrong:?}");
        }
    }

    /// The bonds that a mark names and the lines that it has: one too many or too
    /// few of either falls under 14, both changed under 15.
    #[test]
    fn numbers_of_bond_lines_by_hand() {
        let with = |m: &str, bonds: &str| {
            let line_1 = format!("   0   0   0   4{m}   2   3\n");
            answer(&[&line_1, LINE_2, LINE_3, bonds].concat())
        };
        let more = [BONDS, "   3   5\n"].concat();
        assert_eq!(with("   5", BONDS), Ok(()));
        for m in ["   0", "   4", "   6", "  14", "1024", "1025", "9999"] {
            assert_eq!(with(m, BONDS), Err(14), "{m}");
        }
        assert_eq!(with("   5", &BONDS[..36]), Err(14));
        assert_eq!(with("   5", &BONDS[9..]), Err(14));
        assert_eq!(with("   5", &more), Err(14));
        assert_eq!(with("   5", ""), Err(14));
        assert_eq!(with("   6", &more), Err(15));
        assert_eq!(with("   4", &BONDS[..36]), Err(15));
        assert_eq!(with("   4", &BONDS[9..]), Err(15));
        assert_eq!(with("   0", ""), Err(15));
        assert_eq!(with("0005", BONDS), Err(14));
        assert_eq!(with("   x", BONDS), Err(14));
    }

    /// Marks on molecules of no bonds, of one, and of 1,024; and marks with the
    /// lines of 1,025, 2,000 and 9,999 bonds, which keep the layout.
    #[test]
    fn many_bonds_by_hand() {
        let fresh = Search::fresh(Task::Rings);
        let counts = "                   0                   0                   0\n\n";
        let none = Record::new(3);
        let mark = write(&none, &fresh);
        let text = ["   0   0   0   3   0   0   1\n", counts].concat();
        assert_eq!(mark, text.as_bytes());
        assert_eq!(mark, write_lines(3, 0, &fresh));
        assert_eq!(read(&Listed::new(&none), &mark), Ok(fresh.clone()));
        let one = Molecule::new(3, &[(3, 2)]).record();
        let mark = write(&one, &fresh);
        let text = ["   0   0   0   3   1   0   1\n", counts, "   2   3\n"].concat();
        assert_eq!(mark, text.as_bytes());
        assert_eq!(read(&Listed::new(&one), &mark), Ok(fresh.clone()));
        assert_eq!(read(&Listed::new(&none), &mark), Err(15));
        // 16 atoms bonded to each of 64 others.
        let mut most = Record::new(128);
        for (a, b) in (1..=16).flat_map(|a| (17..=80).map(move |b| (a, b))) {
            most.join(a, b);
        }
        let reached = Reached::new(&most);
        let mark = write(&most, &fresh);
        assert_eq!(mark.len(), 91 + 9 * 1_024);
        assert_eq!(mark[91..100], *b"   1  17\n");
        assert_eq!(mark[mark.len() - 9..], *b"  16  80\n");
        assert_eq!(read(&reached, &mark), Ok(fresh.clone()));
        let named = |m: u64, lines: u64| {
            let mut mark = write_lines(128, m, &fresh);
            let pairs = (1..).flat_map(|a| (a + 1..=200).map(move |b| (a, b)));
            mark.extend(pairs.take(lines as usize).flat_map(write_bond));
            mark
        };
        for m in [1_023, 1_024, 1_025, 2_000, 9_999] {
            assert_eq!(named(m, m).len() as u64, 91 + 9 * m);
            assert_eq!(read(&reached, &named(m, m)), Err(15), "{m}");
            assert_eq!(read(&reached, &named(m, m - 1)), Err(14), "{m}");
            assert_eq!(read(&reached, &named(m, m + 1)), Err(14), "{m}");
            assert_eq!(
                read(&reached, &named(m, 1_024)).err(),
                Some(14 + u32::from(m == 1_024))
            );
        }
    }

    /// Isomers: the same n and m, and other bonds.
    #[test]
    fn isomers_by_hand() {
        let search = Search::at(Task::Rings, &[1], 2);
        let ring = Molecule::new(4, &[(1, 2), (2, 3), (3, 4), (1, 4)]).record();
        let other = Molecule::new(4, &[(1, 2), (2, 3), (1, 3), (1, 4)]).record();
        let (own, strange) = (Listed::new(&ring), Listed::new(&other));
        // The place is open in both.
        for (lists, mark, answer) in [
            (&own, write(&ring, &search), Ok(search.clone())),
            (&strange, write(&other, &search), Ok(search.clone())),
            (&own, write(&other, &search), Err(15)),
            (&strange, write(&ring, &search), Err(15)),
        ] {
            assert_eq!(read(lists, &mark), answer);
        }
    }

    /// Each field of the mark in turn written with zeros in front, and all of
    /// them.
    #[test]
    fn refuses_zeros_by_hand() {
        let record = generate::document().record();
        let lists = Listed::new(&record);
        let mark = MARK.as_bytes();
        let first = (0..7).map(|which| 4 * which..4 * which + 4);
        let second = (0..3).map(|which| 29 + 20 * which..49 + 20 * which);
        let third = (0..2).map(|which| 90 + 4 * which..94 + 4 * which);
        let bonds = (0..5).flat_map(|line| {
            [
                99 + 9 * line..103 + 9 * line,
                103 + 9 * line..107 + 9 * line,
            ]
        });
        let mut every = mark.to_vec();
        for field in first.chain(second).chain(third).chain(bonds) {
            let value = field::read_without_zeros(&mark[field.clone()]).expect("a field");
            let text = field::write_zeros(field.len(), value);
            let mut changed = mark.to_vec();
            changed[field.clone()].copy_from_slice(&text);
            assert_ne!(changed, mark);
            assert_eq!(read(&lists, &changed), Err(14));
            every[field].copy_from_slice(&text);
        }
        let text = "0000000000000004000500020003\n\
            000000000000000000050000000000000000000200000000000000000000\n00010002\n\
            00010002\n00010003\n00010004\n00020003\n00030004\n";
        assert_eq!(every, text.as_bytes());
        assert_eq!(read(&lists, &every), Err(14));
        // Rules 15 to 17 come after.
        let with = |from: &str, to: &str| {
            assert_eq!(MARK.matches(from).count(), 1, "{from:?}");
            answer(&MARK.replace(from, to))
        };
        assert_eq!(with("   4   5", "0009   5"), Err(14));
        assert_eq!(with("   4   5", "   9   5"), Err(15));
        assert_eq!(with("   0\n   1   2\n", "   0\n   10004\n"), Err(14));
        assert_eq!(with("   0\n   1   2\n", "   0\n   1   4\n"), Err(17));
        assert_eq!(
            with("   2   3\n   3   4\n", "   2   3\n   30009\n"),
            Err(14)
        );
        assert_eq!(
            with("   2   3\n   3   4\n", "   2   3\n   3   9\n"),
            Err(15)
        );
    }

    /// A number that fills its columns is filled by neither: 1,024 bonds.
    #[test]
    fn full_columns_by_hand() {
        let mut record = Record::new(128);
        for (a, b) in (1..=16).flat_map(|a| (17..=80).map(move |b| (a, b))) {
            record.join(a, b);
        }
        let lists = Reached::new(&record);
        let mark = "   0   0   0 1281024   0   1\n                   0                   0 9999999999999999999\n\n";
        let mut search = Search::fresh(Task::Rings);
        search.listed = field::LIMIT;
        let whole = write(&record, &search);
        assert_eq!(whole[..91], *mark.as_bytes());
        assert_eq!(read(&lists, &whole), Ok(search));
        assert_eq!(read(&lists, mark.as_bytes()), Err(14));
    }
}
