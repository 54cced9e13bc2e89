//! Molecules, sheets, records and atom lists, right and damaged.

use crate::model::list::{Task, SIZES};
use crate::model::sheet::LINE;
use crate::model::shortest::Steps;
use crate::model::{self, Record, MAX_ATOMS, MAX_BONDS, ROWS};
use crate::rng::Rng;

/// Values at the edges of the rules and of a 4-column field.
pub const EDGES: [u64; 9] = [0, 9, 99, 128, 129, 999, 1024, 1025, 9999];

/// Bytes that come near to being right somewhere in a sheet.
pub const NEAR_BYTES: [u8; 12] = *b" 0189\n\r\t\0/:-";

/// A table of bonds. The generators below keep the rules of the sheet.
#[derive(Clone, Debug)]
pub struct Molecule {
    pub atoms: u64,
    pub bonds: Vec<(u64, u64)>,
}

impl Molecule {
    pub fn new(atoms: u64, bonds: &[(u64, u64)]) -> Molecule {
        Molecule {
            atoms,
            bonds: bonds.to_vec(),
        }
    }

    pub fn record(&self) -> Record {
        let mut record = Record::new(self.atoms);
        for &(a, b) in &self.bonds {
            record.join(a, b);
        }
        record
    }

    pub fn sheet(&self) -> Vec<u8> {
        sheet(self.atoms, self.bonds.len() as u64, &self.bonds)
    }
}

/// A 4-column field; `value` is at most 9,999.
pub fn field(value: u64) -> [u8; 4] {
    assert!(value <= 9999);
    let mut field = [b' '; 4];
    let mut rest = value;
    for column in (0..4).rev() {
        field[column] = b'0' + (rest % 10) as u8;
        rest /= 10;
        if rest == 0 {
            break;
        }
    }
    field
}

/// The same filled by zeros.
pub fn zero_field(value: u64) -> [u8; 4] {
    field(value).map(|byte| if byte == b' ' { b'0' } else { byte })
}

/// A line of two fields.
pub fn line(first: u64, second: u64) -> [u8; LINE] {
    let mut line = [b'\n'; LINE];
    line[0..4].copy_from_slice(&field(first));
    line[4..8].copy_from_slice(&field(second));
    line
}

/// A sheet of any header and any bonds, whether they agree or not.
pub fn sheet(n: u64, m: u64, bonds: &[(u64, u64)]) -> Vec<u8> {
    let mut sheet = line(n, m).to_vec();
    for &(a, b) in bonds {
        sheet.extend_from_slice(&line(a, b));
    }
    sheet
}

/// The sheet with each field that is a number written anew, filled by zeros
/// where `zeros` says so and by blanks elsewhere. All other bytes stay.
fn refilled(sheet: &[u8], mut zeros: impl FnMut() -> bool) -> Vec<u8> {
    let mut sheet = sheet.to_vec();
    for line in sheet.chunks_mut(LINE) {
        for bytes in line.chunks_exact_mut(4) {
            if let Some(reading) = model::field::read(bytes) {
                bytes.copy_from_slice(&match zeros() {
                    true => zero_field(reading.value),
                    false => field(reading.value),
                });
            }
        }
    }
    sheet
}

/// The sheet with each number filled by zeros.
pub fn zero_filled(sheet: &[u8]) -> Vec<u8> {
    refilled(sheet, || true)
}

/// The sheet with each number filled by blanks or by zeros, at random.
pub fn mixed(rng: &mut Rng, sheet: &[u8]) -> Vec<u8> {
    refilled(sheet, || rng.one_in(2))
}

/// Atoms 1 to n, each bonded to the next.
pub fn chain(n: u64) -> Molecule {
    Molecule {
        atoms: n,
        bonds: (1..n).map(|a| (a, a + 1)).collect(),
    }
}

/// A chain whose ends are bonded; n is at least 3.
pub fn ring(n: u64) -> Molecule {
    let mut ring = chain(n);
    ring.bonds.push((n, 1));
    ring
}

/// All two atoms bonded.
pub fn complete(n: u64) -> Molecule {
    Molecule {
        atoms: n,
        bonds: pairs(n),
    }
}

/// The document's sheet.
pub fn document() -> Molecule {
    Molecule::new(4, &[(1, 2), (2, 3), (3, 4), (1, 4), (1, 3)])
}

/// Bonds from 1 and 2 to each of 3, 4, 5.
pub fn two_to_three() -> Molecule {
    Molecule::new(5, &[(1, 3), (1, 4), (1, 5), (2, 3), (2, 4), (2, 5)])
}

/// The cube: corners 0 to 7 in binary, plus one, bonded when one digit differs.
pub fn cube() -> Molecule {
    let near = |&(a, b): &(u64, u64)| ((a - 1) ^ (b - 1)).count_ones() == 1;
    Molecule {
        atoms: 8,
        bonds: pairs(8).into_iter().filter(near).collect(),
    }
}

/// Buckminsterfullerene, the truncated icosahedron: an atom near each end of
/// each edge of an icosahedron. The atom of corner u on its edge to v is bonded
/// to that of v on the same edge, and to the two of u on the edges beside.
/// Atoms are numbered in the order of u, then v.
pub fn buckminsterfullerene() -> Molecule {
    // Corner 0 on top, 1 to 5 above, 6 to 10 below, 11 at the bottom.
    let mut edges = Vec::new();
    for i in 0..5 {
        let next = (i + 1) % 5;
        edges.extend([(0, 1 + i), (1 + i, 1 + next), (1 + i, 6 + i)]);
        edges.extend([(1 + next, 6 + i), (6 + i, 6 + next), (6 + i, 11)]);
    }
    let joined = |u, v| edges.contains(&(u, v)) || edges.contains(&(v, u));
    let mut ends = Vec::new();
    for u in 0..12 {
        ends.extend((0..12).filter(|&v| joined(u, v)).map(|v| (u, v)));
    }
    let near = |&(a, b): &(u64, u64)| {
        let ((u, v), (w, x)) = (ends[a as usize - 1], ends[b as usize - 1]);
        (u, v) == (x, w) || (u == w && joined(v, x))
    };
    Molecule {
        atoms: 60,
        bonds: pairs(60).into_iter().filter(near).collect(),
    }
}

/// Atom 1, then layers of so many atoms, each bonded to all of the next layer,
/// then a last atom. From the first to the last atom there are as many shortest
/// paths as the product of the widths.
pub fn layers(widths: &[u64]) -> Molecule {
    let (mut last, mut bonds) = (1..=1, Vec::new());
    for &width in widths.iter().chain(&[1]) {
        let next = last.end() + 1..=last.end() + width;
        bonds.extend(last.flat_map(|a| next.clone().map(move |b| (a, b))));
        last = next;
    }
    Molecule {
        atoms: *last.end(),
        bonds,
    }
}

/// A grid of so many columns and rows, numbered row by row.
pub fn grid(columns: u64, rows: u64) -> Molecule {
    let n = columns * rows;
    let right = (1..=n).filter(|a| a % columns != 0).map(|a| (a, a + 1));
    let down = (1..=n - columns).map(|a| (a, a + columns));
    Molecule {
        atoms: n,
        bonds: right.chain(down).collect(),
    }
}

/// The reference molecules of the document, with their rings and extensions.
pub fn references() -> Vec<(Molecule, u64, u64)> {
    vec![
        (Molecule::new(0, &[]), 0, 0),
        (chain(3), 0, 0),
        (ring(5), 1, 4),
        (complete(4), 4, 5),
        (document(), 2, 3),
        (two_to_three(), 3, 5),
    ]
}

/// All pairs of different atoms, the lower one first.
fn pairs(n: u64) -> Vec<(u64, u64)> {
    (1..=n)
        .flat_map(|a| (a + 1..=n).map(move |b| (a, b)))
        .collect()
}

/// The number of pairs of different atoms.
fn pair_count(n: u64) -> u64 {
    n * n.saturating_sub(1) / 2
}

/// Random bonds, each in either order; m is at most the number of pairs.
pub fn random_molecule(rng: &mut Rng, n: u64, m: u64) -> Molecule {
    let mut bonds = Vec::with_capacity(m as usize);
    if 2 * m > pair_count(n) {
        bonds = pairs(n);
        rng.shuffle(&mut bonds);
        bonds.truncate(m as usize);
    } else {
        let mut taken = Record::new(n);
        while (bonds.len() as u64) < m {
            let (a, b) = (rng.between(1, n), rng.between(1, n));
            if a != b && !taken.bonded(a, b) {
                taken.join(a, b);
                bonds.push((a, b));
            }
        }
    }
    for bond in &mut bonds {
        if rng.one_in(2) {
            *bond = (bond.1, bond.0);
        }
    }
    Molecule { atoms: n, bonds }
}

/// A molecule of any size, small ones oftener, with the full ones among them.
pub fn any_molecule(rng: &mut Rng) -> Molecule {
    let (n, highest) = match rng.below(10) {
        0..=3 => (rng.between(0, 6), MAX_BONDS),
        4..=6 => (rng.between(0, 40), 60),
        7..=8 => (rng.between(0, MAX_ATOMS), MAX_BONDS),
        _ => {
            // 46 atoms are the fewest with 1,024 pairs.
            let n = rng.between(46, MAX_ATOMS);
            return random_molecule(rng, n, MAX_BONDS);
        }
    };
    let m = rng.between(0, highest.min(pair_count(n)));
    random_molecule(rng, n, m)
}

/// Lines of a sheet, the first included.
fn lines(sheet: &[u8]) -> usize {
    sheet.len() / LINE
}

/// A bond line's index, or the first line's when there is no other.
fn bond_line(rng: &mut Rng, sheet: &[u8]) -> usize {
    match lines(sheet) {
        0 | 1 => 0,
        count => 1 + rng.index(count - 1),
    }
}

/// Puts a value into field 0 or 1 of a line.
fn put(sheet: &mut [u8], line: usize, which: usize, value: u64) {
    let at = line * LINE + 4 * which;
    sheet[at..at + 4].copy_from_slice(&field(value));
}

fn copy_line(sheet: &[u8], line: usize) -> Vec<u8> {
    sheet[line * LINE..(line + 1) * LINE].to_vec()
}

/// Swaps the two fields of a line.
fn turn(line: &mut [u8]) {
    let (first, second) = line.split_at_mut(4);
    first.swap_with_slice(&mut second[..4]);
}

/// One byte anywhere becomes any other.
fn damage_byte(rng: &mut Rng, sheet: &mut [u8]) {
    let at = rng.index(sheet.len());
    sheet[at] = rng.byte();
}

/// One byte anywhere becomes one that is right in other places.
fn damage_near(rng: &mut Rng, sheet: &mut [u8]) {
    let at = rng.index(sheet.len());
    sheet[at] = rng.pick(&NEAR_BYTES);
}

/// The sheet ends early, often at the end of a line.
fn cut(rng: &mut Rng, sheet: &mut Vec<u8>) {
    let len = if rng.one_in(2) {
        rng.index(lines(sheet)) * LINE
    } else {
        rng.index(sheet.len())
    };
    sheet.truncate(len);
}

/// The sheet goes on: by a few bytes, by lines, or by blanks.
fn lengthen(rng: &mut Rng, sheet: &mut Vec<u8>) {
    match rng.below(4) {
        0 => {
            for _ in 0..rng.between(1, 20) {
                sheet.push(rng.pick(&NEAR_BYTES));
            }
        }
        1 => {
            for _ in 0..rng.between(1, 3) {
                let more = line(rng.below(130), rng.below(130));
                sheet.extend_from_slice(&more);
            }
        }
        2 => {
            let at = rng.index(lines(sheet));
            let again = copy_line(sheet, at);
            sheet.extend_from_slice(&again);
        }
        _ => sheet.extend_from_slice(&[b' '; LINE][..rng.between(1, LINE as u64) as usize]),
    }
}

/// An edge value in some field.
fn put_edge(rng: &mut Rng, sheet: &mut [u8]) {
    let line = if rng.one_in(3) {
        0
    } else {
        bond_line(rng, sheet)
    };
    let value = rng.pick(&EDGES);
    put(sheet, line, rng.index(2), value);
}

/// A number written wrongly: with zeros behind blanks, blanks behind a zero, not
/// to the right, with a sign, with a hole, or not at all. A long number may
/// come out right.
fn put_wrong_filling(rng: &mut Rng, sheet: &mut [u8]) {
    let value = match rng.below(4) {
        0 => 0,
        1 => rng.below(10),
        2 => rng.below(130),
        _ => rng.below(1026),
    };
    let text = match rng.below(9) {
        0 => format!("0{value:>3}"),
        1 => format!("{value:03}"),
        2 => format!("{value:02}"),
        3 => format!("{value:<4}"),
        4 => format!("{value} "),
        5 => format!("{value:03} "),
        6 => format!("+{value}"),
        7 => format!("1 {}", value % 10),
        _ => String::new(),
    };
    let text = format!("{text:>4}");
    let at = rng.index(lines(sheet)) * LINE + 4 * rng.index(2);
    sheet[at..at + 4].copy_from_slice(&text.as_bytes()[text.len() - 4..]);
}

/// Line ends and blanks of another kind: CR before LF, tabs, NULs.
fn put_foreign_bytes(rng: &mut Rng, sheet: &mut Vec<u8>) {
    let end = (rng.index(lines(sheet)) + 1) * LINE - 1;
    match rng.below(7) {
        0 => sheet.insert(end, b'\r'),
        1 => sheet[end - 1] = b'\r',
        2 => {
            let whole: Vec<u8> = sheet
                .iter()
                .flat_map(|&byte| match byte {
                    b'\n' => vec![b'\r', b'\n'],
                    _ => vec![byte],
                })
                .collect();
            *sheet = whole;
        }
        3 => sheet[end] = rng.pick(b"\r\0 0"),
        choice => {
            let foreign = [b'\t', b'\0', 0xA0][choice as usize - 4];
            let blanks: Vec<usize> = (0..sheet.len()).filter(|&i| sheet[i] == b' ').collect();
            if !blanks.is_empty() {
                sheet[rng.pick(&blanks)] = foreign;
            }
        }
    }
}

/// A bond a second time, in either order, in place of another.
fn repeat_bond(rng: &mut Rng, sheet: &mut [u8]) {
    let (from, to) = (bond_line(rng, sheet), bond_line(rng, sheet));
    if from == 0 {
        return;
    }
    let mut again = copy_line(sheet, from);
    if rng.one_in(2) {
        turn(&mut again);
    }
    sheet[to * LINE..(to + 1) * LINE].copy_from_slice(&again);
}

/// An atom bonded to itself.
fn bond_to_self(rng: &mut Rng, sheet: &mut [u8]) {
    let at = bond_line(rng, sheet) * LINE;
    if at != 0 {
        sheet.copy_within(at..at + 4, at + 4);
    }
}

/// One more or one fewer bond than the first line says, or the reverse.
fn miscount(rng: &mut Rng, sheet: &mut Vec<u8>) {
    let m = lines(sheet) as u64 - 1;
    match rng.below(4) {
        0 => put(sheet, 0, 1, m + 1),
        1 => put(sheet, 0, 1, m.saturating_sub(1)),
        2 => sheet.extend_from_slice(&line(1, 2)),
        _ => sheet.truncate(sheet.len() - LINE),
    }
}

/// Breaks one rule, if the sheet is large enough for it.
fn break_rule(rng: &mut Rng, rule: u32, sheet: &mut Vec<u8>) {
    match rule {
        1 if rng.one_in(2) => sheet.truncate(sheet.len() - rng.between(1, 8) as usize),
        1 => sheet.extend_from_slice(&b"   1   2"[..rng.between(1, 8) as usize]),
        2 => {
            let at = rng.index(sheet.len());
            sheet[at] = rng.pick(b"x\r\t\0/:");
        }
        3 => {
            let value = rng.pick(&[129, 130, 256, 999, 9999]);
            put(sheet, 0, 0, value);
        }
        4 => {
            let value = rng.pick(&[1025, 1026, 2048, 9999]);
            put(sheet, 0, 1, value);
        }
        5 => miscount(rng, sheet),
        6 => {
            let line = bond_line(rng, sheet);
            if line != 0 {
                let value = rng.pick(&[0, 129, 999, 9999]);
                put(sheet, line, rng.index(2), value);
            }
        }
        7 => bond_to_self(rng, sheet),
        _ => repeat_bond(rng, sheet),
    }
}

/// Breaks two to four rules, the later ones first so that they stay broken.
fn break_several(rng: &mut Rng, sheet: &mut Vec<u8>) {
    let mut rules = [1, 2, 3, 4, 5, 6, 7, 8];
    rng.shuffle(&mut rules);
    let rules = &mut rules[..rng.between(2, 4) as usize];
    rules.sort();
    for &rule in rules.iter().rev() {
        // Too few lines may be left for the next rule.
        if sheet.len() >= 2 * LINE {
            break_rule(rng, rule, sheet);
        }
    }
}

/// A sheet whose first line tells the truth at the edges of the ranges.
fn at_the_edge(rng: &mut Rng) -> Vec<u8> {
    match rng.below(4) {
        // Up to three bonds too many, all different.
        0 => {
            let m = rng.between(MAX_BONDS - 1, MAX_BONDS + 3);
            let n = rng.between(47, MAX_ATOMS);
            random_molecule(rng, n, m).sheet()
        }
        // The highest atom is one above n, or n itself.
        1 => {
            let n = rng.between(2, MAX_ATOMS);
            let m = rng.between(1, n - 1);
            let mut molecule = random_molecule(rng, n, m);
            molecule.atoms -= rng.below(2);
            molecule.sheet()
        }
        // One atom too many, named or not.
        2 => {
            let bonds = [(rng.between(1, 129), rng.between(1, 129))];
            sheet(rng.between(127, 129), 1, &bonds)
        }
        // No bonds.
        _ => sheet(rng.below(131), rng.below(2), &[]),
    }
}

/// Lines of bytes that come near to fields.
fn random_bytes(rng: &mut Rng) -> Vec<u8> {
    let mut bytes = Vec::new();
    for _ in 0..rng.below(5) {
        for column in 0..LINE {
            bytes.push(match column {
                8 if !rng.one_in(8) => b'\n',
                3 | 7 => rng.pick(b"0123456789"),
                _ if rng.one_in(12) => rng.pick(&NEAR_BYTES),
                _ => b' ',
            });
        }
    }
    if rng.one_in(10) {
        bytes.push(rng.byte());
    }
    bytes
}

/// The kinds of sheets that [`any_sheet`] makes.
pub const SHEET_KINDS: u64 = 16;

/// A sheet of the given kind.
pub fn any_sheet(rng: &mut Rng, kind: u64) -> Vec<u8> {
    let sheet = any_molecule(rng).sheet();
    changed_sheet(rng, kind, sheet)
}

/// A right sheet changed in the given way, or another in its place.
pub fn changed_sheet(rng: &mut Rng, kind: u64, mut sheet: Vec<u8>) -> Vec<u8> {
    match kind {
        0 | 1 => {}
        2 => damage_byte(rng, &mut sheet),
        3 => damage_near(rng, &mut sheet),
        4 => cut(rng, &mut sheet),
        5 => lengthen(rng, &mut sheet),
        6 => put_edge(rng, &mut sheet),
        7 => put_wrong_filling(rng, &mut sheet),
        8 => put_foreign_bytes(rng, &mut sheet),
        9 => repeat_bond(rng, &mut sheet),
        10 => bond_to_self(rng, &mut sheet),
        11 => miscount(rng, &mut sheet),
        12 => {
            let rule = rng.between(1, 8) as u32;
            break_rule(rng, rule, &mut sheet);
        }
        13 => break_several(rng, &mut sheet),
        14 => sheet = at_the_edge(rng),
        _ => sheet = random_bytes(rng),
    }
    sheet
}

/// For each rule of the sheet some that break it, and later rules that can be
/// broken too.
pub fn refused_sheets() -> Vec<(u32, Vec<u8>)> {
    let line = |text: &str| text.as_bytes().to_vec();
    let many = "   1   2\n".repeat(1025);
    vec![
        (1, line("   4   5\n   1   2\n  ")),
        (1, line(" 129   5\nx  1   1\n  ")),
        (2, line(" 1299999\n   1   x\n")),
        (2, line("01299999\n00010 01\n")),
        (3, line(" 1299999\n   1   1\n")),
        (3, line("01299999\n00010001\n")),
        (4, line("   41025\n   0   0\n")),
        (4, line(&format!("   41025\n{many}"))),
        (5, line("   4   2\n   0   0\n")),
        (6, line("   4   3\n   1   1\n   1   1\n   0   2\n")),
        (7, line("   4   3\n   1   2\n   1   2\n   2   2\n")),
        (8, line("   4   3\n   1   2\n   3   4\n   2   1\n")),
        (8, line("00040003\n   10002\n00030004\n0002   1\n")),
    ]
}

/// A number that agrees with `value` but for one of its high bits.
pub fn alias(rng: &mut Rng, value: u64) -> u64 {
    value ^ (1 << rng.pick(&[8, 16, 31, 32, 48, 62, 63]))
}

/// A number out of any range, now and then in it.
pub fn wild(rng: &mut Rng, value: u64) -> u64 {
    match rng.below(5) {
        0 => u64::MAX,
        1 => alias(rng, value),
        2 => rng.next() >> rng.below(64),
        3 => rng.pick(&[0, 127, 128, 129, 255, 256, 1023, 1024, 1025, 65_535, 65_536]),
        _ => u64::MAX - rng.below(200),
    }
}

/// The kinds of records that [`any_record`] makes.
pub const RECORD_KINDS: u64 = 16;

/// An atom of 1 to 128, whether the molecule has it or not.
fn any_atom(rng: &mut Rng) -> u64 {
    rng.between(1, MAX_ATOMS)
}

/// A random one bit of the rows, if there is one.
fn any_bond(rng: &mut Rng, molecule: &Molecule) -> Option<(u64, u64)> {
    if molecule.bonds.is_empty() {
        return None;
    }
    Some(rng.pick(&molecule.bonds))
}

/// A record of the given kind.
pub fn any_record(rng: &mut Rng, kind: u64) -> Record {
    let molecule = any_molecule(rng);
    let mut record = molecule.record();
    match kind {
        0..=2 => {}
        // Any one bit.
        3 => record.flip(any_atom(rng), any_atom(rng)),
        // A bond loses one of its bits.
        4 => {
            if let Some((a, b)) = any_bond(rng, &molecule) {
                record.flip(a, b);
            }
        }
        // A bond has one bit moved, so that the count of ones mostly stays right.
        5 => {
            if let Some((a, b)) = any_bond(rng, &molecule) {
                record.flip(a, b);
                let (c, d) = (rng.between(1, record.atoms), rng.between(1, record.atoms));
                record.flip(c, d);
            }
        }
        // Two one-sided bits counted as a bond.
        6 => {
            record.flip(any_atom(rng), any_atom(rng));
            record.flip(any_atom(rng), any_atom(rng));
            record.bonds += 1;
        }
        // A bond beyond n, counted.
        7 => {
            let (a, b) = (any_atom(rng), record.atoms % MAX_ATOMS + 1);
            if a != b && !record.bonded(a, b) {
                record.join(a, b);
            }
        }
        // A self bond, counted as one bit or, with another, as a bond.
        8 => {
            let a = any_atom(rng);
            record.set(a, a);
            if rng.one_in(2) {
                let b = any_atom(rng);
                record.set(b, b);
                record.bonds += 1;
            }
        }
        // A wrong count.
        9 => record.bonds = record.bonds.wrapping_add(rng.pick(&[1, 2, u64::MAX])),
        // Numbers right but for a high bit; of the count, one that doubling
        // may lose.
        10 => record.bonds = alias(rng, record.bonds),
        11 => record.atoms = alias(rng, record.atoms),
        // More or fewer atoms than before: right as long as all are named.
        12 => record.atoms = rng.below(131),
        13 => {
            if rng.one_in(2) {
                record.atoms = wild(rng, record.atoms);
            } else {
                record.bonds = wild(rng, record.bonds);
            }
        }
        // Too many bonds, all in order but for the count's range.
        14 => {
            let n = rng.between(47, MAX_ATOMS);
            let m = rng.between(MAX_BONDS - 2, (MAX_BONDS + 3).min(pair_count(n)));
            record = random_molecule(rng, n, m).record();
        }
        // Random bytes.
        _ => {
            let mut ones = 0;
            for byte in &mut record.rows {
                if rng.one_in(200) {
                    *byte = rng.byte();
                }
                ones += u64::from(byte.count_ones());
            }
            record.bonds = ones / 2;
            record.atoms = rng.between(100, MAX_ATOMS);
        }
    }
    record
}

/// A lawful molecule for the judge: from the smallest to the largest, most of
/// them with rings, some with very long ones.
pub fn any_judged(rng: &mut Rng) -> Molecule {
    match rng.below(12) {
        0 => document(),
        1 => cube(),
        2 => two_to_three(),
        3 => {
            let whole = ring(long_size(rng));
            renamed(rng, &whole)
        }
        4 => {
            let whole = chain(long_size(rng));
            renamed(rng, &whole)
        }
        5 => {
            let n = rng.between(3, 12);
            complete(n)
        }
        // A ring with a few bonds across.
        6 => {
            let mut molecule = ring(long_size(rng).max(4));
            let across = rng.between(1, 3);
            for _ in 0..across {
                let n = molecule.atoms;
                let (a, b) = (rng.between(1, n), rng.between(1, n));
                if a != b && !molecule.record().bonded(a, b) {
                    molecule.bonds.push((a, b));
                }
            }
            renamed(rng, &molecule)
        }
        7..=9 => {
            let n = rng.between(3, 10);
            let m = rng.between(n - 1, pair_count(n).min(2 * n));
            random_molecule(rng, n, m)
        }
        // Large and sparse.
        10 => {
            let n = rng.between(20, MAX_ATOMS);
            let m = rng.between(n, 2 * n);
            random_molecule(rng, n, m)
        }
        _ => any_molecule(rng),
    }
}

/// A lawful molecule to search: mostly of up to 12 atoms, of any density, and
/// now and then a larger one with few rings.
pub fn any_searched(rng: &mut Rng) -> Molecule {
    match rng.below(26) {
        0 => {
            let whole = rng.pick::<fn() -> Molecule>(&[cube, document, two_to_three])();
            renamed(rng, &whole)
        }
        1 => {
            let n = rng.between(3, 10);
            complete(n)
        }
        // A ring with a few bonds across.
        2 => {
            let n = rng.between(4, 14);
            let whole = ring(n);
            let whole = with_bonds(rng, whole, 3);
            renamed(rng, &whole)
        }
        // A tree with a few bonds more.
        3 => {
            let n = rng.between(13, 40);
            let tree = random_tree(rng, n);
            with_bonds(rng, tree, 5)
        }
        4..=11 => {
            let n = rng.between(0, 7);
            let m = rng.between(0, pair_count(n));
            random_molecule(rng, n, m)
        }
        12 => {
            let n = rng.between(8, 12);
            let m = rng.between(0, pair_count(n));
            random_molecule(rng, n, m)
        }
        13 | 14 => any_layered(rng, 12),
        _ => {
            let n = rng.between(5, 12);
            let m = rng.between(n - 1, pair_count(n).min(n + 5));
            random_molecule(rng, n, m)
        }
    }
}

/// Layers of one to four atoms with most of the bonds between each two, a few
/// bonds elsewhere, up to `most` atoms in all and at least 2, renamed: with many
/// shortest paths between many atoms.
pub fn any_layered(rng: &mut Rng, most: u64) -> Molecule {
    let (mut widths, mut left) = (Vec::new(), rng.between(2, most) - 2);
    while left > 0 {
        let width = rng.between(1, left.min(4));
        widths.push(width);
        left -= width;
    }
    let mut molecule = layers(&widths);
    let one_in = rng.pick(&[3, 6, 20]);
    molecule.bonds.retain(|_| !rng.one_in(one_in));
    let molecule = with_bonds(rng, molecule, 3);
    renamed(rng, &molecule)
}

/// Each atom but the first bonded to one before it, then renamed.
fn random_tree(rng: &mut Rng, n: u64) -> Molecule {
    let bonds = (2..=n).map(|a| (a, rng.between(1, a - 1))).collect();
    let tree = Molecule { atoms: n, bonds };
    renamed(rng, &tree)
}

/// The molecule with up to `most` bonds more; it has at least two atoms.
fn with_bonds(rng: &mut Rng, mut molecule: Molecule, most: u64) -> Molecule {
    for _ in 0..rng.between(0, most) {
        let (a, b) = any_ends(rng, molecule.atoms);
        if !molecule.record().bonded(a, b) {
            molecule.bonds.push((a, b));
        }
    }
    molecule
}

/// Two different atoms of at least two.
pub fn any_ends(rng: &mut Rng, n: u64) -> (u64, u64) {
    let s = rng.between(1, n);
    let t = rng.between(1, n - 1);
    (s, if t < s { t } else { t + 1 })
}

/// The paths between any two different atoms; there are at least two.
pub fn any_paths(rng: &mut Rng, n: u64) -> Task {
    let (s, t) = any_ends(rng, n);
    Task::of(n, 1, s, t).expect("two atoms")
}

/// The shortest paths between any two different atoms; there are at least two.
pub fn any_shortest(rng: &mut Rng, n: u64) -> Task {
    let (s, t) = any_ends(rng, n);
    Task::of(n, 3, s, t).expect("two atoms")
}

/// The shortest paths from any atom to one as far from it as any that it is
/// joined to; there are at least two atoms.
pub fn far_shortest(rng: &mut Rng, record: &Record) -> Task {
    let (s, other) = any_ends(rng, record.atoms);
    let steps = Steps::from(record, s as u8);
    let t = match steps.farthest() {
        t if u64::from(t) == s => other,
        t => t.into(),
    };
    Task::of(record.atoms, 3, s, t).expect("two atoms")
}

/// The rings up to any size: mostly about those that `n` atoms can have, often
/// small, also the largest and all between.
pub fn any_up_to(rng: &mut Rng, n: u64) -> Task {
    let (lowest, highest) = (*SIZES.start(), *SIZES.end());
    let k = match rng.below(8) {
        0 => highest,
        1 => rng.between(lowest, highest),
        2..=4 => rng.between(lowest, 8),
        _ => rng.between(lowest, (n + 2).clamp(lowest, highest)),
    };
    Task::RingsUpTo { k: k as u8 }
}

/// A task of each kind that `n` atoms can have.
pub fn any_tasks(rng: &mut Rng, n: u64) -> Vec<Task> {
    let mut tasks = vec![Task::Rings];
    if n >= 2 {
        tasks.push(any_paths(rng, n));
    }
    tasks.push(any_up_to(rng, n));
    if n >= 2 {
        tasks.push(any_shortest(rng, n));
    }
    tasks
}

/// A task of any kind that `n` atoms can have.
pub fn any_task(rng: &mut Rng, n: u64) -> Task {
    match rng.below(4) {
        0 if n >= 2 => any_paths(rng, n),
        1 => any_up_to(rng, n),
        2 if n >= 2 => any_shortest(rng, n),
        _ => Task::Rings,
    }
}

/// A size that bounds no ring search, as it is not 3 to 128; some agree with a
/// right one in their low bits.
pub fn wrong_size(rng: &mut Rng) -> u64 {
    let right = rng.between(*SIZES.start(), *SIZES.end());
    match rng.below(4) {
        0 => rng.pick(&[0, 1, 2, 129, 130, 131, 255, 256, 9_999, u64::MAX]),
        1 => rng.pick(&[(1 << 32) + 3, (1 << 32) + 128, (1 << 63) + 12, u64::MAX - 2]),
        2 => right + 256,
        _ => right + (1 << rng.pick(&[16, 31, 32, 48, 63])),
    }
}

/// A number of atoms for a ring or a chain.
fn long_size(rng: &mut Rng) -> u64 {
    if rng.one_in(4) {
        MAX_ATOMS
    } else {
        rng.between(3, MAX_ATOMS)
    }
}

/// The bonds of a record, as a molecule.
pub fn molecule_of(record: &Record) -> Molecule {
    let n = record.atoms;
    let pairs = (1..=n).flat_map(|a| (a + 1..=n).map(move |b| (a, b)));
    Molecule {
        atoms: n,
        bonds: pairs.filter(|&(a, b)| record.bonded(a, b)).collect(),
    }
}

/// The molecule with its atoms numbered in another way.
pub fn renamed(rng: &mut Rng, molecule: &Molecule) -> Molecule {
    let mut names: Vec<u64> = (1..=molecule.atoms).collect();
    rng.shuffle(&mut names);
    let name = |a: u64| names[a as usize - 1];
    Molecule {
        atoms: molecule.atoms,
        bonds: molecule
            .bonds
            .iter()
            .map(|&(a, b)| (name(a), name(b)))
            .collect(),
    }
}

/// A molecule with as many atoms and bonds, and other bonds: one to three of its
/// bonds join two atoms that were not bonded. None where no two atoms are bonded,
/// or all are.
pub fn isomer(rng: &mut Rng, molecule: &Molecule) -> Option<Molecule> {
    let record = molecule.record();
    let mut free = pairs(molecule.atoms);
    free.retain(|&(a, b)| !record.bonded(a, b));
    let mut isomer = molecule.clone();
    let most = free.len().min(isomer.bonds.len()).min(3);
    if most == 0 {
        return None;
    }
    rng.shuffle(&mut free);
    rng.shuffle(&mut isomer.bonds);
    let moved = 1 + rng.index(most);
    isomer.bonds[..moved].copy_from_slice(&free[..moved]);
    Some(isomer)
}

/// Another molecule with as many atoms and bonds: an isomer as above, or the same
/// atoms numbered in another way. None where that is the molecule itself.
pub fn any_isomer(rng: &mut Rng, molecule: &Molecule) -> Option<Molecule> {
    let other = match rng.below(3) {
        0 => Some(renamed(rng, molecule)),
        _ => isomer(rng, molecule),
    };
    other.filter(|other| other.record() != molecule.record())
}

/// 128 atoms and 1,024 bonds: 1 to 120, each bonded to the next, the last also to
/// the first where it `closes`, and the others bonded to many of all. The ring, or
/// the path from 1 to 120, has no chord, and no molecule of so many bonds has a
/// longer one.
pub fn longest_with_most_bonds(closes: bool) -> Molecule {
    let mut molecule = if closes { ring(120) } else { chain(120) };
    molecule.atoms = MAX_ATOMS;
    let others = (121..=MAX_ATOMS).flat_map(|b| (1..b).map(move |a| (a, b)));
    let more = MAX_BONDS as usize - molecule.bonds.len();
    molecule.bonds.extend(others.take(more));
    molecule
}

/// A list of different atoms, consecutive ones bonded, chords allowed.
pub fn walk(rng: &mut Rng, record: &Record, longest: usize) -> Vec<u8> {
    let n = record.atoms;
    if n == 0 {
        return Vec::new();
    }
    let mut list = vec![rng.between(1, n) as u8];
    while list.len() < longest {
        let last = u64::from(list[list.len() - 1]);
        let next: Vec<u8> = (1..=n as u8)
            .filter(|&v| record.bonded(last, v.into()) && !list.contains(&v))
            .collect();
        if next.is_empty() {
            break;
        }
        list.push(rng.pick(&next));
    }
    list
}

/// Any list of up to `longest` atoms, 0 and atoms above n among them.
pub fn random_list(rng: &mut Rng, n: u64, longest: u64) -> Vec<u8> {
    let wild = rng.one_in(4);
    (0..rng.between(0, longest))
        .map(|_| {
            if wild && rng.one_in(4) {
                rng.byte()
            } else {
                rng.between(u64::from(!wild), n.max(1)) as u8
            }
        })
        .collect()
}

/// One change to a list: an atom changed, dropped, doubled, swapped or added,
/// or the list turned, reversed, repeated or cut.
pub fn change_list(rng: &mut Rng, n: u64, list: &mut Vec<u8>) {
    if list.is_empty() {
        list.push(rng.between(0, n) as u8);
        return;
    }
    let at = rng.index(list.len());
    let other = rng.index(list.len());
    match rng.below(12) {
        0 => list[at] = rng.between(0, n + 1) as u8,
        1 => list[at] = rng.pick(&[0, n as u8 + 1, 128, 129, 255]),
        // An atom that agrees in its low bits.
        2 => list[at] ^= 128,
        3 => {
            list.remove(at);
        }
        4 => list[at] = list[other],
        5 => list.swap(at, other),
        6 => list.insert(at, rng.between(0, n) as u8),
        7 => list.insert(at, list[other]),
        8 => list.rotate_left(at),
        9 => list.reverse(),
        10 => list.truncate(at),
        _ => list.extend_from_within(..),
    }
}

/// Rows of a wrong length.
pub fn wrong_rows(rng: &mut Rng, record: &Record) -> Vec<u8> {
    let mut rows = record.rows.clone();
    let len = match rng.below(8) {
        0 => 0,
        1 => ROWS - 1,
        2 => ROWS + 1,
        3 => ROWS + 4,
        4 => 2 * ROWS,
        5 => ROWS - 16,
        6 => ROWS + 65_536,
        _ => rng.index(ROWS),
    };
    rows.resize(len, 0);
    rows
}
