//! The readers of molfiles against the model: the answers, every byte of the record
//! and of the sheet, and the length, over files that keep the rules and files that
//! break them. The reader of the bench is held to the model, too.

use flat_tests::compare::Case;
use flat_tests::generate::{self, Molecule};
use flat_tests::guard::Guarded;
use flat_tests::host::Entry;
use flat_tests::model::molfile::{bond_line, counts_line, ended, Molfile};
use flat_tests::model::molfile::{Symbol, ELEMENTS, END};
use flat_tests::model::sheet::{self, LINE};
use flat_tests::model::{molfile, plain_molfile, Record, MAX_ATOMS, RECORD};
use flat_tests::molfiles::{self, of_one_element, CARBON, ENDS, KINDS, NEAR_BYTES, PHOSPHORUS};
use flat_tests::rng::Rng;
use flat_tests::{examples, ffi, sample, sampled, sum_of_parts};

/// Bytes that are enough for every sheet of a molfile.
const SHEET_ROOM: usize = 9_000;

/// Compares the readers, and counts the answers of the entry.
struct Readers {
    entry: Entry,
    seeds: Rng,
    files: u64,
}

impl Readers {
    fn new(seed: u64) -> Readers {
        Readers {
            entry: Entry::new(seed),
            seeds: Rng::new(!seed),
            files: 0,
        }
    }

    /// Reads a file by every reader, with any room for its sheet, and returns the
    /// answer to the file.
    fn read(&mut self, file: &[u8]) -> u32 {
        let read = molfile::read(file);
        let bonds = read.as_ref().map_or(0, |record| record.bonds as usize);
        let size = LINE * (bonds + 1);
        let room = match self.seeds.below(8) {
            0 => self.seeds.index(size),
            1 => size,
            2 => SHEET_ROOM,
            _ => size + self.seeds.index(100),
        };
        let _ = self.read_in(file, &read, room);
        read.map_or_else(|rule| rule, |_| 0)
    }

    /// The same with so many bytes for the sheet: the sheet, or the entry's refusal.
    fn read_in(
        &mut self,
        file: &[u8],
        read: &Result<Record, u32>,
        room: usize,
    ) -> Result<Vec<u8>, u32> {
        let read = read.as_ref().map_err(|rule| *rule);
        self.files += 1;
        compare_record(file, read, self.seeds.next());
        compare_plain(file, read);
        let written = self.entry.molfile((file, read), room);
        if let (Ok(record), Ok(sheet)) = (read, &written) {
            let mut of_sheet = [0xAA; RECORD];
            assert_eq!(ffi::read_sheet(sheet, &mut of_sheet), 0);
            assert!(of_sheet[..] == record.bytes(), "the record of the sheet");
        }
        written
    }

    /// Reads a file, and asserts the answer itself.
    fn expect(&mut self, answer: u32, file: &[u8]) {
        assert_eq!(self.read(file), answer, "{}", file.escape_ascii());
    }

    /// At least so many files were compared, and each of the answers was given often
    /// enough.
    fn end(&self, files: u64, (count, answers): (u64, &[u32])) {
        println!("{} files", self.files);
        self.entry.print();
        assert!(
            sample() > 1 || self.files >= files,
            "only {} files",
            self.files
        );
        self.entry.at_least(count, answers);
    }
}

/// The record of the library beside the model's.
fn compare_record(file: &[u8], read: Result<&Record, u32>, seed: u64) {
    // A copy of exactly the file's length, so that reads past its end show under
    // valgrind.
    let given: Box<[u8]> = file.into();
    let mut record = Guarded::new(RECORD, seed);
    let answer = ffi::read_molfile(&given, record.buffer());
    let (code, right) = match read {
        Ok(expected) => (0, record.holds(&expected.bytes())),
        Err(rule) => (rule, record.is_untouched()),
    };
    assert_eq!(answer, code, "{}", file.escape_ascii());
    assert!(right, "record ({answer}) of {}", file.escape_ascii());
    assert!(*given == *file, "{} was written", file.escape_ascii());
}

/// The record of the bench's reader beside the model's.
fn compare_plain(file: &[u8], read: Result<&Record, u32>) {
    let mut record = [0xAA; RECORD];
    let answer = plain_molfile::read(file, &mut record);
    assert_eq!(answer.err(), read.err(), "{}", file.escape_ascii());
    let expected = read.map_or_else(|_| vec![0xAA; RECORD], Record::bytes);
    assert!(record[..] == expected, "{}", file.escape_ascii());
}

/// Lines with a line feed after each.
fn text(lines: &[Vec<u8>]) -> Vec<u8> {
    ended(lines, |_| ENDS[0])
}

/// Four atoms and four bonds, and a line before M  END.
fn small() -> Molfile {
    let symbols = [CARBON, *b"N  ", *b"O  ", *b"F  "];
    let mut file = Molfile::new(&symbols, &[(3, 1), (1, 2), (2, 3), (4, 1)]);
    file.properties.push(b"M  CHG  1   3   1".to_vec());
    file
}

/// The file with each line no longer than its last named column.
fn shortest(mut file: Molfile) -> Molfile {
    file.header = [(); 3].map(|()| Vec::new());
    file.atoms.iter_mut().for_each(|line| line.truncate(34));
    file.bonds.iter_mut().for_each(|line| line.truncate(6));
    file
}

/// The file with each number filled by zeros.
fn zero_filled(mut file: Molfile) -> Molfile {
    for line in file.bonds.iter_mut().chain([&mut file.counts]) {
        for byte in line[..6].iter_mut().filter(|byte| **byte == b' ') {
            *byte = b'0';
        }
    }
    file
}

/// The columns that a line of [`small`] needs.
fn named(index: usize) -> usize {
    match index {
        3 => 39,
        4..=7 => 34,
        8..=11 => 6,
        _ => 0,
    }
}

/// A file by hand: the bytes of its record and of its sheet.
#[test]
fn by_hand() {
    let file = b"ring of three\r\n\r\nand one more\n\
        \x20 4004  0  0  0  0            999 V2000\r\n\
        \x20   0.0000    0.0000    0.0000 C   0  0\n\
        \x20   1.5000    0.0000    0.0000 N  \n\
        \x20   0.7500    1.2990    0.0000 O  \r\n\
        \x20  -1.5000   -0.7500    0.2500 F   0  0  0  0  0  0  0  0  0  0  0  0\n\
        \x20 3001  1  0  0  0  0\n\
        \x20 1 02\r\n\
        \x20 2  3  2\n\
        004  1  1  0  0  0  0\n\
        M  CHG  1   3   1\n\
        M  END\r\n\
        $$$$\n";
    let mut expected = vec![0; RECORD];
    for (at, byte) in [(0, 4), (2, 4), (4, 14), (20, 5), (36, 3), (52, 1)] {
        expected[at] = byte;
    }
    let mut record = vec![0xAA; RECORD];
    assert_eq!(ffi::read_molfile(file, &mut record), 0);
    assert_eq!(record, expected);
    let (mut sheet, mut length) = ([b'x'; 50], 7);
    let answer = flat_tests::host::molfile(file, &mut sheet, &mut length);
    assert_eq!((answer, length), (0, 45));
    let text = b"   4   4\n   1   2\n   1   3\n   1   4\n   2   3\nxxxxx";
    assert_eq!(
        sheet.escape_ascii().to_string(),
        text.escape_ascii().to_string()
    );
    Readers::new(200).expect(0, file);
    assert_eq!(molfile::read(&small().bytes()), molfile::read(file));
}

/// Every byte of several files with many values, and of short ones with every
/// value.
#[test]
fn every_byte() {
    let mut readers = Readers::new(201);
    let two = zero_filled(Molfile::new(&[CARBON, *b"O  "], &[(2, 1)]));
    let mut longer = two.bytes();
    longer.extend(small().bytes());
    for file in [
        small().bytes(),
        small().ended_by(b"\r\n"),
        zero_filled(small()).bytes(),
        longer,
    ] {
        for case in (0..file.len() * 19).step_by(sample() as usize) {
            let (at, value) = (case / 19, case % 19);
            let mut changed = file.clone();
            changed[at] = match NEAR_BYTES.get(value) {
                Some(&byte) => byte,
                None => file[at] ^ [1, 32, 128][value - NEAR_BYTES.len()],
            };
            readers.read(&changed);
        }
    }
    for file in [shortest(two), Molfile::new(&[], &[])] {
        let file = file.ended_by(b"\r\n");
        for case in (0..file.len() * 256).step_by(sample() as usize) {
            let mut changed = file.clone();
            changed[case / 256] = (case % 256) as u8;
            readers.read(&changed);
        }
    }
    readers.end(80_000, (20, &[0, 6, 7, 8, 13, 18, 19]));
}

/// Every line cut at every length, with either line end, and made longer: only the
/// columns that the request names are needed.
#[test]
fn every_length_of_line() {
    let mut readers = Readers::new(202);
    for file in [small(), zero_filled(small()), shortest(small())] {
        let lines = file.lines();
        for (index, line) in lines.iter().enumerate() {
            for len in (0..line.len() + 4).step_by(sample().min(9) as usize) {
                let mut changed = lines.clone();
                changed[index].resize(len, b' ');
                let right = match index {
                    13 => len == END.len(),
                    _ => len >= named(index),
                };
                for end in ENDS {
                    let file = ended(&changed, |_| end);
                    readers.expect(if right { 0 } else { 18 }, &file);
                }
                // A carriage return in the last column, and another before the
                // line feed.
                readers.read(&ended(&changed, |at| {
                    if at == index {
                        b"\r\r\n"
                    } else {
                        b"\n"
                    }
                }));
            }
        }
    }
    readers.end(3_000, (5, &[0, 18, 19]));
}

/// Every beginning of files: all of it up to the line feed of M  END is needed, and
/// no more.
#[test]
fn every_length_of_file() {
    let mut readers = Readers::new(203);
    for file in [
        small().bytes(),
        small().ended_by(b"\r\n"),
        shortest(small()).bytes(),
        Molfile::new(&[], &[]).bytes(),
    ] {
        let right = file.len();
        let twice = [&file[..], &file].concat();
        for len in (0..=twice.len()).rev().step_by(sample().min(50) as usize) {
            readers.expect(if len < right { 18 } else { 0 }, &twice[..len]);
        }
        // Without its first bytes it mostly has too few lines.
        for from in (1..right).step_by(sample().min(50) as usize) {
            readers.read(&file[from..]);
        }
    }
    readers.expect(18, b"");
    readers.end(3_000, (1_000, &[0, 18]));
}

/// Lines dropped, doubled, exchanged and moved.
#[test]
fn other_lines() {
    let mut readers = Readers::new(204);
    for file in [small(), shortest(small()), zero_filled(small())] {
        let lines = file.lines();
        let pairs = lines.len() * lines.len();
        for pair in (0..pairs).step_by(sample().min(40) as usize) {
            let (at, other) = (pair / lines.len(), pair % lines.len());
            let mut changed = [(); 5].map(|()| lines.clone());
            changed[0].swap(at, other);
            changed[1].insert(at, lines[other].clone());
            let line = changed[2].remove(at);
            readers.read(&text(&changed[2]));
            changed[2].insert(other, line);
            changed[3][at] = lines[other].clone();
            changed[4].remove(at);
            changed[4].remove(other.min(lines.len() - 2));
            for lines in &changed {
                readers.read(&text(lines));
            }
        }
    }
    readers.end(3_000, (50, &[0, 8, 18]));
}

/// Line ends of each kind after each line of a file, and at its end none at all: the
/// lines end in their last named columns, or one of them in the column before. Of two
/// carriage returns one is text, and there stands in that column.
#[test]
fn line_ends() {
    const KINDS: [&[u8]; 5] = [b"\n", b"\r\n", b"\r\r\n", b"\r", b""];
    let mut readers = Readers::new(205);
    for cut in [None, Some(3), Some(4), Some(6)] {
        let mut lines = shortest(Molfile::new(&[CARBON, CARBON], &[(1, 2)])).lines();
        if let Some(line) = cut {
            lines[line].pop();
        }
        for case in (0..5 * 3usize.pow(7)).step_by(sample() as usize) {
            let kind = |index: usize| match case / 3usize.pow(index as u32) {
                rest if index == 7 => rest,
                rest => rest % 3,
            };
            let answer = match cut {
                _ if kind(7) > 1 => 18,
                None => 0,
                // A symbol that is not in the table.
                Some(4) if kind(4) == 2 => 19,
                Some(_) => 18,
            };
            readers.expect(answer, &ended(&lines, |index| KINDS[kind(index)]));
        }
    }
    readers.end(40_000, (1_000, &[0, 18, 19]));
}

/// V2000 at every place of the counts line: it is needed in columns 35 to 39, whether
/// or not it stands elsewhere too.
#[test]
fn every_place_of_version() {
    let mut readers = Readers::new(220);
    for at in 0..60 {
        let mut file = small();
        file.counts = b"  4  4".to_vec();
        file.counts.resize(65, b' ');
        file.counts[at..at + 5].copy_from_slice(b"V2000");
        readers.expect(if at == 34 { 0 } else { 18 }, &file.bytes());
        file.counts[34..39].copy_from_slice(b"V2000");
        readers.expect(if at < 6 { 18 } else { 0 }, &file.bytes());
    }
    readers.end(120, (40, &[0, 18]));
}

/// A file of so many lines that serve as an atom and as the bond of atoms 1 and 2,
/// under a counts line that begins with a text of six columns.
fn for_any_counts(columns: &[u8], lines: usize) -> Vec<u8> {
    let mut line = b"  1  2".to_vec();
    line.resize(31, b' ');
    line.extend(PHOSPHORUS);
    let mut all = vec![Vec::new(); 3];
    all.push([columns, &[b' '; 28], b"V2000"].concat());
    all.resize(4 + lines, line);
    all.push(END.to_vec());
    text(&all)
}

/// Counts at the edges, with just as many lines, one fewer and one more.
#[test]
fn edges_of_counts() {
    const EDGES: [u64; 8] = [0, 1, 2, 127, 128, 129, 998, 999];
    let mut readers = Readers::new(207);
    for pair in (0..64).step_by(sample().min(30) as usize) {
        let (n, m) = (EDGES[pair / 8], EDGES[pair % 8]);
        let columns = format!("{n:>3}{m:>3}");
        let lines = (n + m) as usize;
        let right = match () {
            () if n > MAX_ATOMS => 3,
            () if n < 2 && m > 0 => 6,
            () if m > 1 => 8,
            () => 0,
        };
        for lines in lines.saturating_sub(1)..lines + 2 {
            let answer = if lines < (n + m) as usize { 18 } else { right };
            readers.expect(answer, &for_any_counts(columns.as_bytes(), lines));
        }
        readers.expect(18, &for_any_counts(columns.as_bytes(), 0)[..45]);
        // With lines of their own kind.
        let bonds = vec![(1, 2); m as usize];
        let file = Molfile::new(&vec![PHOSPHORUS; n as usize], &bonds);
        readers.expect(right, &file.bytes());
        for (n, m) in [
            (n + 1, m),
            (n, m + 1),
            (n.wrapping_sub(1), m),
            (n, m.wrapping_sub(1)),
        ] {
            if n.max(m) < 1_000 {
                let mut other = file.clone();
                other.counts = counts_line(n as usize, m as usize);
                readers.read(&other.bytes());
            }
        }
    }
    readers.end(500, (20, &[0, 3, 6, 8, 18]));
}

/// The number in three columns, by the words of the request.
fn number(columns: &[u8]) -> Option<u64> {
    let text = std::str::from_utf8(columns).ok()?;
    let digits = text.trim_start_matches(' ');
    let right = digits.bytes().all(|byte| byte.is_ascii_digit());
    right.then(|| digits.parse().ok()).flatten()
}

/// A number to the right of three columns, with a byte in front of it.
fn field(value: u64, filling: u8) -> [u8; 3] {
    let mut columns = [filling; 3];
    let digits = value.to_string();
    columns[3 - digits.len()..].copy_from_slice(digits.as_bytes());
    columns
}

/// All texts of three columns over some bytes.
fn texts(bytes: &'static [u8]) -> impl Iterator<Item = [u8; 3]> {
    let count = bytes.len();
    let places = [count * count, count, 1];
    (0..count.pow(3)).map(move |text| places.map(|place| bytes[text / place % count]))
}

/// Numbers in all forms as counts, with lines for any of them.
#[test]
fn forms_of_counts() {
    let mut readers = Readers::new(208);
    let whole = for_any_counts(b"128001", 1_127);
    let values = (0..=999).map(|value| field(value, b' '));
    let filled = (0..=99).map(|value| field(value, b'0'));
    let forms = texts(b" 019\r\0-+x:");
    for columns in values.chain(filled).chain(forms).step_by(sample() as usize) {
        let value = number(&columns);
        let of_atoms = value.map(|n| match n {
            0..=1 => 6,
            2..=MAX_ATOMS => 0,
            _ => 3,
        });
        let of_bonds = value.map(|m| if m > 1 { 8 } else { 0 });
        for (at, answer) in [(3, of_atoms), (6, of_bonds)] {
            let mut file = whole.clone();
            file[at..at + 3].copy_from_slice(&columns);
            let answer = answer.unwrap_or(18);
            assert_eq!(readers.read(&file), answer, "{columns:?} at {at}");
        }
    }
    readers.end(4_000, (100, &[0, 3, 8, 18]));
}

/// Numbers in all forms as the atoms of a bond.
#[test]
fn forms_of_atoms() {
    let mut readers = Readers::new(209);
    let whole = shortest(Molfile::new(&[PHOSPHORUS; 128], &[(1, 2)]));
    let values = (0..=999).map(|value| field(value, b' '));
    let filled = (0..=99).map(|value| field(value, b'0'));
    let forms = texts(b" 0129\t\r\0-+x/:");
    for columns in values.chain(filled).chain(forms).step_by(sample() as usize) {
        let value = number(&columns);
        for (at, other) in [(0, 2), (3, 1)] {
            let mut file = whole.clone();
            file.bonds[0][at..at + 3].copy_from_slice(&columns);
            let answer = value.map_or(18, |atom| of_bond(atom, other));
            assert_eq!(readers.read(&file.bytes()), answer, "{columns:?} at {at}");
        }
    }
    readers.end(6_000, (100, &[0, 6, 18]));
}

/// The answer to a single bond of two atoms of 128.
fn of_bond(a: u64, b: u64) -> u32 {
    match () {
        () if a == 0 || a > MAX_ATOMS || b == 0 || b > MAX_ATOMS => 6,
        () if a == b => 7,
        () => 0,
    }
}

/// Every two atoms from 0 to 130 as the only bond of 128 atoms, in either order.
#[test]
fn every_bond() {
    let mut readers = Readers::new(210);
    let file = shortest(Molfile::new(&[PHOSPHORUS; 128], &[(1, 2)]));
    for pair in (0..131 * 131).step_by(sample() as usize) {
        let (a, b) = (pair / 131, pair % 131);
        let mut file = file.clone();
        file.bonds[0] = bond_line((a, b), 1);
        readers.expect(of_bond(a, b), &file.bytes());
    }
    readers.end(17_000, (100, &[0, 6, 7]));
}

/// Symbols near those of the table, and each byte in each column.
#[test]
fn near_symbols() {
    let mut readers = Readers::new(211);
    let near = texts(b" CHNOFPScl1\0\r");
    let mut one_changed = Vec::new();
    for (symbol, _) in ELEMENTS {
        for case in 0..3 * 256 {
            let mut symbol = symbol;
            symbol[case / 256] = (case % 256) as u8;
            one_changed.push(symbol);
        }
    }
    for symbol in near.chain(one_changed).step_by(sample() as usize) {
        if symbol.contains(&b'\n') {
            continue;
        }
        let known = [b"H  ", b"C  ", b"N  ", b"O  ", b"F  ", b"P  ", b"S  "];
        let answer = if known.contains(&&symbol) { 0 } else { 19 };
        readers.expect(answer, &Molfile::new(&[CARBON, symbol], &[(1, 2)]).bytes());
        readers.expect(answer, &Molfile::new(&[symbol], &[]).bytes());
    }
    readers.end(15_000, (20, &[0, 19]));
}

/// A file with an atom of an element that has so many neighbours, among atoms of any
/// elements that have no more than they may.
fn with_neighbours(rng: &mut Rng, symbol: Symbol, count: u64) -> Molfile {
    let more = rng.below(12);
    let rest = molfiles::any_symbols(rng, more as usize);
    let bonds = molfiles::any_bonds(rng, &rest, 4 * more);
    let mut symbols = rest;
    symbols.extend(molfiles::any_symbols(rng, count as usize));
    symbols.push(symbol);
    let centre = symbols.len() as u64;
    let mut molecule = Molecule::new(centre, &bonds);
    molecule
        .bonds
        .extend((more + 1..centre).map(|leaf| (centre, leaf)));
    let mut names: Vec<u64> = (1..=centre).collect();
    rng.shuffle(&mut names);
    let mut named = symbols.clone();
    for (name, symbol) in names.iter().zip(symbols) {
        named[*name as usize - 1] = symbol;
    }
    let name = |atom: u64| names[atom as usize - 1];
    for bond in &mut molecule.bonds {
        *bond = (name(bond.0), name(bond.1));
        if rng.one_in(2) {
            *bond = (bond.1, bond.0);
        }
    }
    rng.shuffle(&mut molecule.bonds);
    Molfile::new(&named, &molecule.bonds)
}

/// An atom of each element with every number of neighbours up to two above the most
/// that it may have.
#[test]
fn most_neighbours() {
    let mut readers = Readers::new(212);
    let most = [
        ("H", 1),
        ("C", 4),
        ("N", 4),
        ("O", 3),
        ("F", 1),
        ("P", 6),
        ("S", 6),
    ];
    for case in 0..sampled(2_000) {
        let _case = Case("most_neighbours", case);
        let mut rng = Rng::of_case(0x4D4F_4C31, case);
        for (symbol, most) in most {
            let symbol = format!("{symbol:<3}").into_bytes();
            let symbol: Symbol = symbol.try_into().expect("three columns");
            let count = match case % 4 {
                0 => rng.below(most + 3),
                1 | 2 => most,
                _ => most + 1,
            };
            let file = with_neighbours(&mut rng, symbol, count);
            readers.expect(if count > most { 20 } else { 0 }, &file.bytes());
        }
    }
    readers.end(14_000, (3_000, &[0, 20]));
}

/// Molecules in which most atoms have as many neighbours as they may; one bond more
/// at such an atom is one too many.
#[test]
fn full_molecules() {
    let mut readers = Readers::new(213);
    for case in 0..sampled(1_000) {
        let _case = Case("full_molecules", case);
        let mut rng = Rng::of_case(0x4D4F_4C32, case);
        let n = rng.between(10, MAX_ATOMS);
        let symbols = molfiles::any_symbols(&mut rng, n as usize);
        let mut bonds = molfiles::any_bonds(&mut rng, &symbols, 20 * n);
        readers.expect(0, &Molfile::new(&symbols, &bonds).bytes());
        let record = Molecule::new(n, &bonds).record();
        let (a, b) = generate::any_ends(&mut rng, n);
        let full = |atom| !molfiles::is_free(&record, &symbols, atom);
        if !record.bonded(a, b) {
            let at = rng.index(bonds.len() + 1);
            bonds.insert(at, (a, b));
            let answer = if full(a) || full(b) { 20 } else { 0 };
            readers.expect(answer, &Molfile::new(&symbols, &bonds).bytes());
        }
    }
    readers.end(1_500, (500, &[0, 20]));
}

/// Ways to break rule 18 alone in a file of these lines, whose first bond stands in
/// line `bond`, counted from 0.
fn layout_breaks(lines: &[Vec<u8>], bond: usize) -> Vec<Vec<u8>> {
    let last = lines.len() - 1;
    let mut broken = Vec::new();
    let mut with = |line: usize, change: fn(&mut Vec<u8>)| {
        let mut lines = lines.to_vec();
        change(&mut lines[line]);
        broken.push(text(&lines));
    };
    with(3, |line| line[38] = b' ');
    with(3, |line| line.truncate(38));
    with(3, |line| line[2] = b' ');
    with(3, |line| line[3] = b'-');
    with(4, |line| line.truncate(33));
    with(bond - 1, |line| line.truncate(33));
    with(bond, |line| line[5] = b' ');
    with(last - 1, |line| line.truncate(5));
    with(last - 1, |line| line[0] = b'x');
    with(last, |line| line.push(b' '));
    let whole = text(lines);
    broken.push(whole[..whole.len() - 1].to_vec());
    broken.push(text(&lines[..last]));
    broken.push(text(&lines[1..]));
    broken
}

/// A chain of 128 atoms, 129 where rule 3 is broken, that breaks those rules past 18
/// that are told; what breaks the later ones stands after what breaks the earlier
/// ones, or before it.
fn breaking(broken: impl Fn(u32) -> bool, later_first: bool) -> Molfile {
    let n = MAX_ATOMS + u64::from(broken(3));
    let mut symbols = vec![PHOSPHORUS; n as usize];
    let mut bonds = generate::chain(n).bonds;
    let mut places = [5, 20, 45, 75, 105];
    if later_first {
        places.reverse();
    }
    let [place19, place6, place7, place8, place20] = places;
    if broken(19) {
        symbols[place19] = *b"p  ";
    }
    if broken(6) {
        bonds[place6].1 = if later_first { 0 } else { n + 1 };
    }
    if broken(7) {
        bonds[place7].0 = bonds[place7].1;
    }
    if broken(8) {
        let (a, b) = bonds[place8 - 1];
        bonds[place8] = if later_first { (a, b) } else { (b, a) };
    }
    if broken(20) {
        symbols[place20] = *b"H  ";
    }
    shortest(Molfile::new(&symbols, &bonds))
}

/// Every set of rules broken at once, with room for the sheet and with too little,
/// which comes last.
#[test]
fn order_of_rules() {
    const RULES: [u32; 6] = [3, 19, 6, 7, 8, 20];
    let mut readers = Readers::new(214);
    for case in (0..128usize).step_by(sample().min(50) as usize) {
        let (set, later_first) = (case / 2, case % 2 == 1);
        let place = |rule| RULES.iter().position(|&other| other == rule);
        let broken = |rule| set >> place(rule).expect("a rule") & 1 == 1;
        let lowest = RULES.into_iter().find(|&rule| broken(rule));
        let file = breaking(broken, later_first);
        let size = LINE * (file.bonds.len() + 1);
        let (lines, bytes) = (file.lines(), file.bytes());
        for (room, of_room) in [(size, None), (size - 1, Some(13)), (0, Some(13))] {
            let answer = readers.read_in(&bytes, &molfile::read(&bytes), room);
            assert_eq!(answer.err(), lowest.or(of_room), "rules {set:#b}");
            for bytes in layout_breaks(&lines, 4 + file.atoms.len()) {
                let answer = readers.read_in(&bytes, &molfile::read(&bytes), room);
                assert_eq!(answer, Err(18), "rules {set:#b}");
            }
        }
    }
    readers.end(5_000, (2, &[0, 3, 6, 7, 8, 13, 18, 19, 20]));
}

/// Outputs of every length up to the sheet's and ten more, and of larger ones: just
/// its length is enough. A refused file is told by its own rule in each.
#[test]
fn every_length_of_sheet() {
    let mut readers = Readers::new(215);
    let full = of_one_element(&molfiles::most_bonds(), PHOSPHORUS);
    for file in [
        Molfile::new(&[], &[]),
        Molfile::new(&[CARBON; 9], &[]),
        small(),
        full,
    ] {
        let size = LINE * (file.bonds.len() + 1);
        let mut refused = file.clone();
        refused.properties.push(END.to_vec());
        refused.counts[38] = b'1';
        let (file, refused) = (file.bytes(), refused.bytes());
        let read = molfile::read(&file);
        let far = if size > 1_000 { 37 } else { 1 } * sample().min(20) as usize;
        let near = (0..=size + 10).rev();
        let rooms = near.clone().take(40).chain(near.step_by(far));
        for room in rooms.chain([0, 1, 8, 9, SHEET_ROOM - 1, SHEET_ROOM, 65_536]) {
            let written = readers.read_in(&file, &read, room);
            assert_eq!(written.err(), (room < size).then_some(13), "{room} bytes");
            assert_eq!(readers.read_in(&refused, &Err(18), room), Err(18));
        }
    }
    readers.end(500, (50, &[0, 13, 18]));
}

/// What the request does not name makes no difference: header lines, coordinates,
/// bond orders, further columns, property lines, line ends, and what follows.
#[test]
fn no_difference() {
    let mut readers = Readers::new(216);
    for case in 0..sampled(6_000) {
        let _case = Case("no_difference", case);
        let mut rng = Rng::of_case(0x4D4F_4C33, case);
        let file = molfiles::any_right(&mut rng);
        let plain = file.bytes();
        let read = molfile::read(&plain);
        let sheet = readers.read_in(&plain, &read, SHEET_ROOM);
        assert!(sheet.is_ok());
        let others = [
            file.clone(),
            zero_filled(file.clone()),
            shortest(file.clone()),
        ];
        for file in others
            .into_iter()
            .chain([molfiles::decorated(&mut rng, &file)])
        {
            let mut bytes = ended(&file.lines(), |_| rng.pick(&ENDS));
            bytes.extend(molfiles::any_rest(&mut rng));
            assert!(readers.read_in(&bytes, &read, SHEET_ROOM) == sheet);
        }
    }
    readers.end(30_000, (20_000, &[0]));
}

/// Lines near to M  END.
const NEAR_ENDS: [&[u8]; 13] = [
    b"M  END ",
    b" M  END",
    b"M END",
    b"M   END",
    b"M  EN",
    b"M  ENDS",
    b"m  end",
    b"M  END\r",
    b"\rM  END",
    b"M  END\0",
    b"\xEF\xBB\xBFM  END",
    b"M\t\tEND",
    b"",
];

/// Lines near to M  END past the bonds, before it and in its place: only one that is
/// exact ends the file. Of one carriage return and a line feed both end a line.
#[test]
fn near_ends() {
    let mut readers = Readers::new(206);
    for near in NEAR_ENDS {
        for end in ENDS {
            let exact = near == b"M  END\r" && end == b"\n";
            let answer = if exact { 0 } else { 18 };
            let mut lines = small().lines();
            lines.insert(13, near.to_vec());
            readers.expect(0, &ended(&lines, |_| end));
            lines.pop();
            readers.expect(answer, &ended(&lines, |_| end));
            lines.remove(12);
            readers.expect(answer, &ended(&lines, |_| end));
        }
    }
    readers.end(70, (20, &[0, 18]));
}

/// M  END, and lines near to it, in the header, where they are skipped, and among the
/// atoms and bonds, where they are none.
#[test]
fn ends_elsewhere() {
    let mut readers = Readers::new(217);
    for line in NEAR_ENDS.into_iter().chain([END]) {
        for end in ENDS {
            for index in 0..12 {
                let mut lines = small().lines();
                lines[index] = line.to_vec();
                let answer = if index < 3 { 0 } else { 18 };
                readers.expect(answer, &ended(&lines, |_| end));
                lines.pop();
                readers.expect(18, &ended(&lines, |_| end));
            }
        }
    }
    readers.end(600, (50, &[0, 18]));
}

/// Long lines, many lines, and many bytes after the last.
#[test]
fn long_files() {
    let mut readers = Readers::new(218);
    let long = |len: u64| vec![b' '; sampled(len) as usize];
    for line in 0..13 {
        let mut lines = small().lines();
        lines[line].extend(long(1_000_000));
        readers.expect(0, &text(&lines));
    }
    let mut file = small();
    file.properties = vec![b"M  ISO".to_vec(); sampled(100_000) as usize];
    readers.expect(0, &file.bytes());
    let mut lines = file.lines();
    lines.pop();
    readers.expect(18, &text(&lines));
    let mut followed = small().bytes();
    followed.extend(long(2_000_000));
    readers.expect(0, &followed);
    readers.expect(18, &long(1_000_000));
    readers.expect(18, &vec![b'\n'; sampled(1_000_000) as usize]);
}

/// The molecules of the example sheets, of carbon: the sheet is the example's, with
/// its bonds in dictionary order.
#[test]
fn example_molecules() {
    let mut readers = Readers::new(219);
    for name in examples::NAMES {
        let record = examples::record(name);
        let file = of_one_element(&generate::molecule_of(&record), CARBON);
        for end in ENDS {
            let written = readers.read_in(&file.ended_by(end), &Ok(record.clone()), SHEET_ROOM);
            assert!(written == Ok(sheet::write(&record)), "{name}");
        }
    }
}

/// A record of a wrong length is told before anything else, and left alone.
#[test]
fn wrong_record_lengths() {
    let refused = Molfile::new(&[*b"Xx "], &[(1, 1)]).bytes();
    for file in [small().bytes(), refused, Vec::new(), b"\n\n\n".to_vec()] {
        for len in [0, 1, 4, 2047, 2048, 2051, 2053, 2056, 4104, 2052 + 65_536] {
            let mut record = Guarded::new(len, len as u64);
            let answer = ffi::read_molfile(&file, record.buffer());
            assert_eq!(answer, ffi::WRONG_LENGTH, "record of {len} bytes");
            assert!(record.is_untouched(), "record of {len} bytes");
        }
    }
}

/// Four parts side by side, at least 200,000 files: right ones, and such with one or
/// several changes.
#[test]
fn random_molfiles() {
    let parts = [
        ("random_molfiles 1", 0x4D4F_4C34),
        ("random_molfiles 2", 0x4D4F_4C35),
        ("random_molfiles 3", 0x4D4F_4C36),
        ("random_molfiles 4", 0x4D4F_4C37),
    ];
    let files = sum_of_parts(&parts, random_molfiles_of);
    println!("{files} files in all");
    assert!(sample() > 1 || files >= 200_000, "only {files} files");
}

/// The files of one seed, and their number.
fn random_molfiles_of(name: &'static str, seed: u64) -> u64 {
    let mut readers = Readers::new(seed);
    for case in 0..sampled(50_000) {
        let _case = Case(name, case);
        let mut rng = Rng::of_case(seed, case);
        readers.read(&molfiles::any_molfile(&mut rng, case % KINDS));
    }
    readers.end(50_000, (10_000, &[0, 18]));
    readers.entry.at_least(200, &[3, 6, 7, 8, 13, 19, 20]);
    readers.files
}
