//! Molfiles, right and damaged.

use crate::generate::Molecule;
use crate::model::molfile::{self, Molfile, Symbol, ELEMENTS, END};
use crate::model::{Record, MAX_ATOMS};
use crate::rng::Rng;

/// Carbon.
pub const CARBON: Symbol = *b"C  ";

/// Phosphorus, one of the elements with the most neighbours.
pub const PHOSPHORUS: Symbol = *b"P  ";

/// The line ends of a molfile.
pub const ENDS: [&[u8]; 2] = [b"\n", b"\r\n"];

/// Bytes that come near to being right somewhere in a molfile.
pub const NEAR_BYTES: [u8; 16] = *b" 0129\n\r\t\0-+.CVM\xFF";

/// Numbers at the edges of the rules and of three columns.
pub const EDGES: [u64; 12] = [0, 1, 2, 9, 10, 99, 100, 127, 128, 129, 998, 999];

/// A molecule's file with all atoms of one element.
pub fn of_one_element(molecule: &Molecule, symbol: Symbol) -> Molfile {
    Molfile::new(&vec![symbol; molecule.atoms as usize], &molecule.bonds)
}

/// 128 atoms with six neighbours each, so that there are 384 bonds: no file has more
/// and is accepted.
pub fn most_bonds() -> Molecule {
    let bond = |a: u64, step: u64| (a, (a - 1 + step) % MAX_ATOMS + 1);
    let bonds = (1..=MAX_ATOMS).flat_map(|a| (1..=3).map(move |step| bond(a, step)));
    Molecule {
        atoms: MAX_ATOMS,
        bonds: bonds.collect(),
    }
}

/// Any symbols of the table.
pub fn any_symbols(rng: &mut Rng, n: usize) -> Vec<Symbol> {
    (0..n).map(|_| rng.pick(&ELEMENTS).0).collect()
}

/// Up to `most` bonds at random, such that no atom has more neighbours than its
/// symbol, one of the table, allows.
pub fn any_bonds(rng: &mut Rng, symbols: &[Symbol], most: u64) -> Vec<(u64, u64)> {
    let n = symbols.len() as u64;
    let (mut taken, mut bonds) = (Record::new(n), Vec::new());
    for _ in 0..most {
        let (a, b) = (rng.between(1, n.max(1)), rng.between(1, n.max(1)));
        if a != b
            && !taken.bonded(a, b)
            && is_free(&taken, symbols, a)
            && is_free(&taken, symbols, b)
        {
            taken.join(a, b);
            bonds.push((a, b));
        }
    }
    bonds
}

/// The atom may have one neighbour more than in the record.
pub fn is_free(record: &Record, symbols: &[Symbol], atom: u64) -> bool {
    let most = molfile::most_neighbours(symbols[atom as usize - 1]);
    most.map_or(false, |most| record.neighbours(atom) < most)
}

/// A right file, mostly of few atoms.
pub fn any_right(rng: &mut Rng) -> Molfile {
    let n = match rng.below(16) {
        0..=8 => rng.below(9),
        9..=14 => rng.below(30),
        _ => rng.between(30, MAX_ATOMS + 12).min(MAX_ATOMS),
    };
    let mut symbols = any_symbols(rng, n as usize);
    if rng.one_in(3) {
        symbols.fill(rng.pick(&[CARBON, PHOSPHORUS]));
    }
    let most = rng.below(4 * n + 1);
    let bonds = any_bonds(rng, &symbols, most);
    Molfile::new(&symbols, &bonds)
}

/// Bytes of any value but the line feed.
fn any_text(rng: &mut Rng, most: u64) -> Vec<u8> {
    let any = |rng: &mut Rng| match rng.below(4) {
        0 => rng.byte(),
        _ => rng.pick(&NEAR_BYTES),
    };
    let bytes = (0..rng.below(most + 1)).map(|_| any(rng));
    bytes.filter(|&byte| byte != b'\n').collect()
}

/// A line that may stand between the bonds and M  END, often one near to that.
fn any_property(rng: &mut Rng) -> Vec<u8> {
    const NEAR: [&[u8]; 10] = [
        b"M  CHG  1   1   1",
        b"M  END ",
        b" M  END",
        b"M END",
        b"M   END",
        b"m  end",
        b"M  END\r",
        b"M  EN",
        b"",
        b"  1  2  1  0",
    ];
    if rng.one_in(2) {
        return rng.pick(&NEAR).to_vec();
    }
    [b"A".to_vec(), any_text(rng, 20)].concat()
}

/// The columns past a line's last named one, as an editor writes them, left out, or
/// others.
fn change_tail(rng: &mut Rng, named: usize, line: &mut Vec<u8>) {
    match rng.below(4) {
        0 => line.truncate(named),
        1 => {
            line.truncate(named);
            line.extend(any_text(rng, 40));
        }
        _ => {}
    }
}

/// The file with other header lines, coordinates, bond orders, property lines and
/// columns that have no name in the request. It reads as before.
pub fn decorated(rng: &mut Rng, file: &Molfile) -> Molfile {
    let mut other = file.clone();
    other.header = [(); 3].map(|()| match rng.below(4) {
        0 => END.to_vec(),
        _ => any_text(rng, 90),
    });
    let coordinate = |rng: &mut Rng| {
        let whole = rng.between(0, 1_998) as i64 - 999;
        format!("{whole:>5}.{:04}", rng.below(10_000))
    };
    for line in &mut other.atoms {
        let symbol: Symbol = line[31..34].try_into().expect("three columns");
        let coordinates = [(); 3].map(|()| coordinate(rng)).concat();
        *line = molfile::atom_line(&coordinates, symbol);
        if rng.one_in(8) {
            line[..31].fill_with(|| rng.pick(b" 0\r\0.\xFF"));
        }
        change_tail(rng, 34, line);
    }
    for line in &mut other.bonds {
        let order = rng.below(1_000).to_string();
        line.splice(6..9, format!("{order:>3}").into_bytes());
        change_tail(rng, 6, line);
    }
    change_tail(rng, 39, &mut other.counts);
    other.counts[6..34].fill_with(|| rng.pick(b"  09V"));
    other.properties = (0..rng.below(4)).map(|_| any_property(rng)).collect();
    other
}

/// Bytes that may follow the M  END line.
pub fn any_rest(rng: &mut Rng) -> Vec<u8> {
    match rng.below(6) {
        0 => b"$$$$\n".to_vec(),
        1 => any_text(rng, 60),
        2 => [END, b"\n"].concat(),
        3 => any_right(rng).bytes(),
        _ => Vec::new(),
    }
}

/// A number at an edge, or near to those of the file.
fn any_number(rng: &mut Rng, n: u64) -> u64 {
    match rng.below(3) {
        0 => rng.pick(&EDGES),
        1 => rng.below(n + 3),
        _ => rng.pick(&[n.saturating_sub(1), n + 1, n + 2]),
    }
}

/// A number in three columns, written in any way, mostly one that is right.
fn any_columns(rng: &mut Rng, value: u64) -> [u8; 3] {
    let text = match rng.below(10) {
        0..=3 => format!("{value:>3}"),
        4 | 5 => format!("{value:03}"),
        6 => format!("{:>3}", format!("{value:02}")),
        7 => format!("{value:<3}"),
        8 => format!("{:>3}", format!("-{value}")),
        _ => format!("{:>3}", format!("{value} ")),
    };
    text.as_bytes()[..3].try_into().expect("three columns")
}

/// Puts a number into columns 1 to 3 or 4 to 6 of a line that has them.
fn put(rng: &mut Rng, line: &mut [u8], value: u64) {
    let at = rng.pick(&[0, 3]);
    line[at..at + 3].copy_from_slice(&any_columns(rng, value));
}

/// Any three columns near those of a symbol.
pub fn near_symbol(rng: &mut Rng) -> Symbol {
    let mut symbol = rng.pick(&ELEMENTS).0;
    match rng.below(4) {
        0 => symbol.rotate_right(1),
        1 => symbol[rng.index(3)] = rng.pick(b"CHNOFPScls \0\r\t"),
        2 => symbol[0] = symbol[0].to_ascii_lowercase(),
        _ => symbol = rng.pick(&[*b"Cl ", *b"Br ", *b"I  ", *b"   ", *b"A  ", *b"R# "]),
    }
    symbol
}

/// One change to a file that may break a rule.
fn damage(rng: &mut Rng, file: &mut Molfile) {
    let (n, m) = (file.atoms.len() as u64, file.bonds.len());
    match rng.below(8) {
        0 => {
            let value = any_number(rng, n);
            put(rng, &mut file.counts, value);
        }
        1 if n > 0 => {
            let symbol = near_symbol(rng);
            rng.pick_mut(&mut file.atoms)[31..34].copy_from_slice(&symbol);
        }
        2 if m > 0 => {
            let value = any_number(rng, n);
            let line = rng.index(m);
            put(rng, &mut file.bonds[line], value);
        }
        // An atom bonded to itself.
        3 if m > 0 => rng.pick_mut(&mut file.bonds).copy_within(0..3, 3),
        // A bond for a second time, as it is or turned, in place of another.
        4 if m > 0 => {
            let mut again = file.bonds[rng.index(m)].clone();
            if rng.one_in(2) {
                again[..6].rotate_left(3);
            }
            *rng.pick_mut(&mut file.bonds) = again;
        }
        5 | 6 if n > 1 => add_bonds(rng, file),
        _ => add_atoms(rng, file),
    }
}

/// Bonds more, counted: an atom may have too many neighbours.
fn add_bonds(rng: &mut Rng, file: &mut Molfile) {
    let n = file.atoms.len() as u64;
    let first = rng.between(1, n);
    for _ in 0..rng.between(1, 5) {
        let bond = (first, rng.between(1, n));
        file.bonds.push(molfile::bond_line(bond, 1));
    }
    let count = format!("{:>3}", file.bonds.len());
    file.counts[3..6].copy_from_slice(count.as_bytes());
}

/// Atoms more, counted: there may be too many.
fn add_atoms(rng: &mut Rng, file: &mut Molfile) {
    let n = file.atoms.len();
    let more = match rng.below(4) {
        0 => (MAX_ATOMS + rng.below(2)).saturating_sub(n as u64),
        _ => 1,
    };
    let line = molfile::atom_line(molfile::ORIGIN, CARBON);
    file.atoms.resize(n + more as usize, line);
    let count = format!("{:>3}", file.atoms.len());
    file.counts[..3].copy_from_slice(count.as_bytes());
}

/// One change to the lines of a file.
fn change_lines(rng: &mut Rng, lines: &mut Vec<Vec<u8>>) {
    let (at, other) = (rng.index(lines.len()), rng.index(lines.len()));
    match rng.below(6) {
        0 => drop(lines.remove(at)),
        1 => lines.insert(at, lines[other].clone()),
        2 => lines.swap(at, other),
        3 => lines.insert(at, any_property(rng)),
        4 => {
            let len = rng.index(lines[at].len() + 1);
            lines[at].truncate(len);
        }
        _ => lines[at].push(rng.pick(b" \r0M")),
    }
}

/// One change to the bytes of a file.
fn change_bytes(rng: &mut Rng, bytes: &mut Vec<u8>) {
    let at = rng.index(bytes.len());
    match rng.below(5) {
        0 => bytes[at] = rng.byte(),
        1 => bytes[at] = rng.pick(&NEAR_BYTES),
        2 => bytes.truncate(at),
        3 => bytes.insert(at, rng.pick(&NEAR_BYTES)),
        _ => drop(bytes.remove(at)),
    }
}

/// The kinds of files that [`any_molfile`] makes.
pub const KINDS: u64 = 20;

/// A file of the given kind.
pub fn any_molfile(rng: &mut Rng, kind: u64) -> Vec<u8> {
    let file = any_right(rng);
    changed_molfile(rng, kind, file)
}

/// A right file changed in the given way, with any line ends and any bytes after its
/// last line.
pub fn changed_molfile(rng: &mut Rng, kind: u64, mut file: Molfile) -> Vec<u8> {
    let damages = match kind {
        0..=9 => 1,
        10..=12 => rng.between(2, 4),
        _ => 0,
    };
    for _ in 0..damages {
        damage(rng, &mut file);
    }
    if !rng.one_in(3) {
        file = decorated(rng, &file);
    }
    let mut lines = file.lines();
    if matches!(kind, 13 | 14) {
        change_lines(rng, &mut lines);
    }
    let ends: &[&[u8]] = match rng.below(8) {
        0 => &[b"\n", b"\n", b"\r\n", b"\r\r\n"],
        1 => &ENDS,
        2..=4 => &ENDS[1..],
        _ => &ENDS[..1],
    };
    let mut bytes = molfile::ended(&lines, |_| rng.pick(ends));
    if matches!(kind, 15 | 16) {
        change_bytes(rng, &mut bytes);
    }
    bytes.extend(any_rest(rng));
    bytes
}
