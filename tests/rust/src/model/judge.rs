//! The judge, from the definitions of ring and path.

use super::Record;

/// Every atom of the list is one of the molecule's.
fn all_named(record: &Record, list: &[u8]) -> bool {
    list.iter().all(|&v| v >= 1 && u64::from(v) <= record.atoms)
}

/// No atom occurs twice.
fn all_different(list: &[u8]) -> bool {
    (0..list.len()).all(|i| !list[..i].contains(&list[i]))
}

/// The atoms at any two places are bonded exactly when the places are
/// neighbours.
fn bonded_exactly(record: &Record, list: &[u8], neighbours: impl Fn(usize, usize) -> bool) -> bool {
    (0..list.len())
        .all(|j| (0..j).all(|i| record.bonded(list[i].into(), list[j].into()) == neighbours(i, j)))
}

/// The list is a ring of a lawful record.
pub fn is_ring(record: &Record, list: &[u8]) -> bool {
    if list.len() < 3 || !all_named(record, list) || !all_different(list) {
        return false;
    }
    let last = list.len() - 1;
    bonded_exactly(record, list, |i, j| j == i + 1 || (i == 0 && j == last))
        && list.iter().min() == list.first()
        && list[1] < list[last]
}

/// The list is a path from `s` to `t` of a lawful record.
pub fn is_path(record: &Record, s: u64, t: u64, list: &[u8]) -> bool {
    list.first().map(|&v| v.into()) == Some(s)
        && list.last().map(|&v| v.into()) == Some(t)
        && all_named(record, list)
        && all_different(list)
        && bonded_exactly(record, list, |i, j| j == i + 1)
}

/// The judge's answer for a ring: 1 yes, 0 no, 9 refused. `lawful` is
/// `record.is_lawful()`, handed in so that many lists can share it.
pub fn ring(record: &Record, lawful: bool, list: &[u8]) -> u32 {
    if !lawful {
        return 9;
    }
    is_ring(record, list).into()
}

/// The judge's answer for a path: 1 yes, 0 no, 9 to 11 refused.
pub fn path(record: &Record, lawful: bool, s: u64, t: u64, list: &[u8]) -> u32 {
    let n = record.atoms;
    if !lawful {
        return 9;
    }
    if s == 0 || s > n || t == 0 || t > n {
        return 10;
    }
    if s == t {
        return 11;
    }
    is_path(record, s, t, list).into()
}
