//! Records, searches and marks that came near to being right, and now and then
//! are.

use crate::generate::{self, alias, wild, NEAR_BYTES};
use crate::model::field::{self, LIMIT};
use crate::model::machine::{Search, PLACES};
use crate::model::mark::{self, Bond};
use crate::model::sheet::LINE;
use crate::model::Record;
use crate::rng::Rng;

/// Numbers at the edges of lengths and atoms.
pub const EDGES: [u64; 13] = [
    0, 1, 126, 127, 128, 129, 255, 256, 257, 384, 999, 1024, 9999,
];

/// Counts at the limit and above it, some of which wrap to small ones.
pub const COUNTS: [&str; 10] = [
    "0",
    "9999999999999999998",
    "9999999999999999999",
    "10000000000000000000",
    "10000000000000000001",
    "18446744073709551615",
    "18446744073709551616",
    "18446744073709551617",
    "99999999999999999999",
    "09999999999999999999",
];

/// Bytes of the lines of a mark before its beginning.
const FIRST: usize = 29;
const THIRD: usize = 90;

/// One bit or one number of a record changed.
pub fn record(rng: &mut Rng, record: &mut Record) {
    let n = record.atoms;
    match rng.below(6) {
        0 => record.flip(rng.between(1, 128), rng.between(1, 128)),
        1 if n > 0 => record.flip(rng.between(1, n), rng.between(1, n)),
        2 => record.atoms = alias(rng, n),
        3 => record.bonds = wild(rng, record.bonds),
        // Still right unless the last atom has bonds or n was 128.
        4 => record.atoms = if rng.one_in(2) { n + 1 } else { n.max(1) - 1 },
        _ => record.bonds += 1,
    }
}

/// A number near to a right one, or far from it.
fn number(rng: &mut Rng, n: u64, value: u64) -> u64 {
    match rng.below(5) {
        0 => rng.between(0, n + 2),
        1 => rng.pick(&[0, n + 1, 128, 129, 255, 256]),
        2 => alias(rng, value),
        3 => rng.pick(&[value + 1, value.wrapping_sub(1)]),
        _ => wild(rng, value),
    }
}

/// One part of a search changed; its length is at most 127 before.
pub fn search(rng: &mut Rng, n: u64, search: &mut Search) {
    let length = search.length as usize;
    match rng.below(18) {
        0 => search.kind = rng.pick(&[0, 1, 2, 3, 4, 255, 256, 257, 1 << 32, (1 << 32) + 1]),
        1 => search.kind = alias(rng, search.kind),
        2 => search.s = number(rng, n, search.s),
        3 => search.t = number(rng, n, search.t),
        // Another kind, with ends or a size at random.
        4 => {
            search.kind = rng.pick(&[0, 1, 2, 3, 4]);
            search.s = rng.between(0, n + 3);
            search.t = rng.below(2) * rng.between(0, n + 1);
        }
        // An atom 0 more, or an atom past the length.
        5 => search.length += 1,
        6 => search.length = search.length.wrapping_sub(1),
        7 => search.length = rng.pick(&[126, 127, 128, 129, 255, 256, 1 << 32, u64::MAX]),
        8 => search.length = alias(rng, search.length),
        9 => {
            let past = length + rng.index(PLACES - length);
            let place = rng.pick(&[length, past, PLACES - 1]);
            search.prefix[place] = 1 + rng.below(255) as u8;
        }
        10 => search.next = number(rng, n, search.next),
        11 => search.next = n + 1,
        12 => {
            let above = rng.pick(&[LIMIT + 1, LIMIT + 2, u64::MAX - 1, u64::MAX, 1 << 63]);
            let counts = &mut [
                &mut search.trials,
                &mut search.extensions,
                &mut search.listed,
            ];
            **rng.pick_mut(counts) = above;
        }
        13 if length > 0 => {
            let at = rng.index(length);
            search.prefix[at] = rng.between(0, n + 1) as u8;
        }
        14 if length > 0 => {
            let at = rng.index(length);
            search.prefix[at] ^= rng.pick(&[1, 2, 64, 128]);
        }
        15 => {
            let mut p = search.beginning().to_vec();
            p.push(rng.between(1, n.max(1)) as u8);
            search.put(&p);
        }
        16 => {
            let p = generate::random_list(rng, n, 127);
            search.put(&p);
        }
        _ => {
            let mut p = search.beginning().to_vec();
            generate::change_list(rng, n, &mut p);
            p.truncate(127);
            search.put(&p);
        }
    }
}

/// Puts text into a field, right-justified.
pub fn put(mark: &mut [u8], at: usize, columns: usize, text: &str) {
    let text = format!("{text:>columns$}");
    mark[at..at + columns].copy_from_slice(&text.as_bytes()[text.len() - columns..]);
}

/// Puts zeros for the blanks of a field that was right.
pub fn zero_fill(mark: &mut [u8], at: usize, columns: usize) {
    for byte in &mut mark[at..at + columns] {
        if *byte == b' ' {
            *byte = b'0';
        }
    }
}

/// Where the bond lines of a mark begin: past its third line feed. Of bytes that
/// have fewer, or in which they come too early, the end.
pub fn bonds_from(mark: &[u8]) -> usize {
    let feeds = mark.iter().enumerate().filter(|(_, &byte)| byte == b'\n');
    match feeds.map(|(at, _)| at).nth(2) {
        Some(at) if at >= THIRD => at + 1,
        _ => mark.len(),
    }
}

/// The places of the bond lines of a mark that follows the layout.
pub fn bond_places(mark: &[u8]) -> Vec<usize> {
    (bonds_from(mark)..mark.len()).step_by(LINE).collect()
}

/// The places and columns of all fields of a mark that follows the layout.
pub fn places(mark: &[u8]) -> Vec<(usize, usize)> {
    let third = (THIRD..bonds_from(mark) - 1).step_by(4);
    let bonds = bond_places(mark).into_iter().flat_map(|at| [at, at + 4]);
    let narrow = third.chain(bonds).filter(|at| at + 4 < mark.len());
    (0..10).map(place).chain(narrow.map(|at| (at, 4))).collect()
}

/// The lines of bonds, in place of those of a mark; the mark names their number,
/// if it fits its field.
pub fn with_bonds(mark: &[u8], bonds: &[Bond]) -> Vec<u8> {
    let mut changed = with_lines(mark, bonds);
    put(&mut changed, 16, 4, &bonds.len().to_string());
    changed
}

/// The same with the number that the mark has named before.
pub fn with_lines(mark: &[u8], bonds: &[Bond]) -> Vec<u8> {
    let mut changed = mark[..bonds_from(mark)].to_vec();
    changed.extend(bonds.iter().copied().flat_map(mark::write_bond));
    changed
}

/// The place of one of the seven fields of line 1, or of one of the three
/// counts.
pub fn place(which: usize) -> (usize, usize) {
    match which {
        0..=6 => (4 * which, 4),
        _ => (FIRST + 20 * (which - 7), 20),
    }
}

/// The mark, of any beginning, with another length field and as many fields of
/// `atom` more or fewer.
pub fn lengthened(mark: &[u8], length: usize, atom: u64) -> Vec<u8> {
    let from = bonds_from(mark);
    let (third, rest) = (&mark[THIRD..from - 1], &mark[from - 1..]);
    let mut changed = mark[..THIRD].to_vec();
    let old = third.chunks_exact(4).map(<[u8]>::to_vec);
    let new = std::iter::repeat(field::write(4, atom));
    changed.extend(old.chain(new).take(length).flatten());
    changed.extend_from_slice(rest);
    put(&mut changed, 20, 4, &length.to_string());
    changed
}

/// A field of the mark at random: its place and columns.
fn any_field(rng: &mut Rng, mark: &[u8]) -> (usize, usize) {
    let (third, places) = ((bonds_from(mark) - THIRD) / 4, places(mark));
    let end = (10 + third).min(places.len());
    let (atoms, bonds) = (&places[10..end], &places[end..]);
    match rng.below(4) {
        0 if !atoms.is_empty() => rng.pick(atoms),
        1 if !bonds.is_empty() => rng.pick(bonds),
        _ => place(rng.index(10)),
    }
}

/// The kinds of marks that [`mark`] makes, the last of which change bond lines.
pub const MARK_KINDS: u64 = 20 + BOND_KINDS;

/// A mark, right before, changed in the given way.
pub fn mark(rng: &mut Rng, n: u64, kind: u64, mark: &mut Vec<u8>) {
    let length = (bonds_from(mark) - THIRD) / 4;
    let at = rng.index(mark.len());
    let (field_at, columns) = any_field(rng, mark);
    match kind {
        0 => mark[at] = rng.byte(),
        1 => mark[at] = rng.pick(&NEAR_BYTES),
        2 => mark.truncate(at),
        3 => {
            for _ in 0..rng.between(1, 9) {
                mark.push(rng.pick(b"\n 10"));
            }
        }
        4 => {
            let value = rng.pick(&EDGES);
            put(mark, 4 * rng.index(7), 4, &value.to_string());
        }
        5 => {
            let value = rng.pick(&EDGES);
            put(mark, field_at, columns, &value.to_string());
        }
        6 => {
            let count = rng.pick(&COUNTS);
            put(mark, FIRST + 20 * rng.index(3), 20, count);
        }
        // Filled by zeros, zeros behind blanks, not to the right, with a sign,
        // with a hole, or nothing at all.
        7 => {
            let value = rng.below(130);
            let text = match rng.below(7) {
                0 => format!("{value:0columns$}"),
                1 => format!("{value:02}"),
                2 => format!("{value:<columns$}"),
                3 => format!("+{value}"),
                4 => format!("1 {}", value % 10),
                5 => return zero_fill(mark, field_at, columns),
                _ => String::new(),
            };
            put(mark, field_at, columns, &text);
        }
        // Line ends of another kind.
        8 => {
            let ends: Vec<usize> = (0..mark.len()).filter(|&i| mark[i] == b'\n').collect();
            let end = rng.pick(&ends);
            match rng.below(4) {
                0 => mark.insert(end, b'\r'),
                1 => mark[end] = rng.pick(b"\r 0\0"),
                2 => {
                    mark.remove(end);
                }
                _ => mark.insert(end, b'\n'),
            }
        }
        // Two bytes or two fields change places.
        9 => {
            let other = rng.index(mark.len());
            mark.swap(at, other);
        }
        10 => {
            let (one, two) = (4 * rng.index(7), 4 * rng.index(7));
            for column in 0..4 {
                mark.swap(one + column, two + column);
            }
        }
        // More or fewer atoms, with the length telling so.
        11 => {
            let atom = rng.between(1, n.max(1));
            *mark = lengthened(mark, length + 1, atom);
        }
        12 => *mark = lengthened(mark, length.max(1) - 1, 0),
        13 => {
            let length = rng.pick(&[0, 1, 126, 127, 128, 129, 255, 256, 1000]);
            let atom = rng.between(0, n + 1);
            *mark = lengthened(mark, length, atom);
        }
        // The length alone.
        14 => {
            let value = rng.pick(&[length + 1, length.max(1) - 1, length + 256, 127, 128]);
            put(mark, 20, 4, &value.to_string());
        }
        // Atoms, next atom, kind and ends, atoms and bonds.
        15 if length > 0 => {
            let value = match rng.below(3) {
                0 => rng.pick(&[0, 128, 129, 255, 256, 9999]),
                1 => rng.between(1, n + 1),
                _ => 256 + rng.between(1, n),
            };
            put(mark, THIRD + 4 * rng.index(length), 4, &value.to_string());
        }
        16 => {
            let value = rng.pick(&[0, 1, n, n + 1, n + 2, 256, 257]);
            put(mark, 24, 4, &value.to_string());
        }
        17 => {
            let kind = rng.pick(&[0, 1, 1, 2, 2, 2, 3, 3, 4, 256, 259]);
            let s = match rng.below(4) {
                0 => rng.pick(&[2, 3, 128, 129, 259]),
                _ => rng.between(0, n + 1),
            };
            // Rings up to a size have no t.
            let t = match kind {
                2 if !rng.one_in(4) => 0,
                _ => rng.between(0, n + 1),
            };
            for (at, value) in [(0, kind), (4, s), (8, t)] {
                put(mark, at, 4, &value.to_string());
            }
        }
        18 => {
            let value = rng.between(0, n + 3);
            put(mark, 4 * rng.between(3, 4) as usize, 4, &value.to_string());
        }
        // Several rules broken at once, each in one case of two.
        19 => {
            for kind in [6, 16, 17, 18, 20 + rng.below(BOND_KINDS)] {
                if rng.one_in(2) {
                    self::mark(rng, n, kind, mark);
                }
            }
        }
        _ => bond_lines(rng, n, kind - 20, mark),
    }
}

/// One mark in three is changed in any way, where it has the length of one and
/// ends as one.
pub fn now_and_then(rng: &mut Rng, n: u64, bytes: &mut Vec<u8>) {
    if bytes.len() > THIRD && rng.one_in(3) && bytes.last() == Some(&b'\n') {
        let kind = rng.below(MARK_KINDS);
        mark(rng, n, kind, bytes);
    }
}

/// The kinds of changes that [`bond_lines`] makes.
const BOND_KINDS: u64 = 10;

/// An atom of a bond: one of the molecule's, or near to one.
fn bond_atom(rng: &mut Rng, n: u64) -> u64 {
    match rng.below(3) {
        0 => rng.pick(&[0, n + 1, 128, 129, 256 + n, 1024, 9999]),
        _ => rng.between(0, n + 1),
    }
}

/// The bond lines of a mark changed in the given way; where it has none, one is
/// added.
fn bond_lines(rng: &mut Rng, n: u64, kind: u64, mark: &mut Vec<u8>) {
    let value = |at: usize| field::read_without_zeros(&mark[at..at + 4]).unwrap_or(0);
    let mut places = bond_places(mark);
    places.retain(|at| at + LINE <= mark.len());
    let mut bonds: Vec<Bond> = places
        .iter()
        .map(|&at| (value(at), value(at + 4)))
        .collect();
    let named = value(16);
    let any = (bond_atom(rng, n), bond_atom(rng, n));
    if bonds.is_empty() {
        *mark = with_bonds(mark, &[any]);
        return;
    }
    let (at, other) = (rng.index(bonds.len()), rng.index(bonds.len()));
    match kind {
        // Two in each other's place, far apart or near; all in another order.
        0 => bonds.swap(at, other),
        1 => {
            let next = (at + 1) % bonds.len();
            bonds.swap(at, next);
        }
        2 => rng.shuffle(&mut bonds),
        // One twice, in place of another or besides, near or far.
        3 => bonds[other] = bonds[at],
        4 => bonds.insert(rng.pick(&[at, at + 1, other]), bonds[at]),
        // The higher atom first; two equal atoms.
        5 => bonds[at] = (bonds[at].1, bonds[at].0),
        6 => bonds[at].1 = bonds[at].0,
        // One atom of a bond, or both; in the order of a right mark or not.
        7 => {
            match rng.below(3) {
                0 => bonds[at].0 = any.0,
                1 => bonds[at].1 = any.1,
                _ => bonds[at] = any,
            }
            if rng.one_in(2) {
                in_order(&mut bonds);
            }
        }
        // One more or one fewer, or none; in order.
        8 => {
            match rng.below(3) {
                0 => bonds.push(any),
                1 => drop(bonds.remove(at)),
                _ => bonds.clear(),
            }
            in_order(&mut bonds);
        }
        // The number that the mark names alone.
        _ => {
            let near = [
                named + 1,
                named.max(1) - 1,
                named + 256,
                0,
                1024,
                1025,
                9999,
            ];
            put(mark, 16, 4, &rng.pick(&near).to_string());
            return;
        }
    }
    // Mostly the mark names as many as there are.
    *mark = match rng.below(4) {
        0 => with_lines(mark, &bonds),
        _ => with_bonds(mark, &bonds),
    };
}

/// Bonds as a mark has them: lower atom first, in dictionary order, none twice.
fn in_order(bonds: &mut Vec<Bond>) {
    for bond in bonds.iter_mut() {
        *bond = (bond.0.min(bond.1), bond.0.max(bond.1));
    }
    bonds.sort_unstable();
    bonds.dedup();
}
