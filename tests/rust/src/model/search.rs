//! A brute-force search for rings and paths, to have true ones to judge.

use super::judge::{is_path, is_ring};
use super::Record;

/// Visits every list that adds one bonded atom to a chordless list beginning
/// with `list`, as long as there are steps left.
fn walk(
    record: &Record,
    order: &[u8],
    list: &mut Vec<u8>,
    steps: &mut u64,
    visit: &mut impl FnMut(&[u8]),
) {
    for &v in order {
        if *steps == 0 {
            return;
        }
        *steps -= 1;
        let last = *list.last().expect("a list begins with an atom");
        if list.contains(&v) || !record.bonded(last.into(), v.into()) {
            continue;
        }
        list.push(v);
        visit(list);
        // Only a chordless list can grow into a ring or a path; whether a
        // list is one is left to the definitions.
        let first = list[0].into();
        if is_path(record, first, v.into(), list) {
            walk(record, order, list, steps, visit);
        }
        list.pop();
    }
}

/// What a search found.
#[derive(Default)]
pub struct Found {
    pub rings: Vec<Vec<u8>>,
    pub paths: Vec<Vec<u8>>,
}

/// Rings with lowest atom `s`, and paths of two or more atoms from `s`, of a
/// lawful record. Atoms are tried as `order` has them; the search gives up
/// after `steps` tried atoms.
pub fn from_atom(record: &Record, s: u8, order: &[u8], mut steps: u64) -> Found {
    let mut found = Found::default();
    walk(record, order, &mut vec![s], &mut steps, &mut |list| {
        let (first, last) = (list[0].into(), list[list.len() - 1].into());
        if is_ring(record, list) {
            found.rings.push(list.to_vec());
        }
        if is_path(record, first, last, list) {
            found.paths.push(list.to_vec());
        }
    });
    found
}

/// All rings and all paths of a lawful record, for small molecules.
pub fn all(record: &Record) -> Found {
    let order: Vec<u8> = (1..=record.atoms as u8).collect();
    let mut found = Found::default();
    for &s in &order {
        let more = from_atom(record, s, &order, u64::MAX);
        found.rings.extend(more.rings);
        found.paths.extend(more.paths);
    }
    found
}

#[cfg(test)]
mod tests {
    use super::*;
    use crate::generate;

    /// The reference molecules of the scope document.
    #[test]
    fn references() {
        let rings = |record: &Record| all(record).rings;
        assert!(rings(&Record::new(0)).is_empty());
        assert!(rings(&generate::chain(3).record()).is_empty());
        assert_eq!(rings(&generate::ring(5).record()), [[1, 2, 3, 4, 5]]);
        assert_eq!(
            rings(&generate::complete(4).record()),
            [[1, 2, 3], [1, 2, 4], [1, 3, 4], [2, 3, 4]]
        );
        assert_eq!(
            rings(&generate::document().record()),
            [[1, 2, 3], [1, 3, 4]]
        );
        assert_eq!(
            rings(&generate::two_to_three().record()),
            [[1, 3, 2, 4], [1, 3, 2, 5], [1, 4, 2, 5]]
        );
        let cube = rings(&generate::cube().record());
        let long = |len| cube.iter().filter(|ring| ring.len() == len).count();
        assert_eq!((cube.len(), long(4), long(6)), (10, 6, 4));
        for n in [10, 15, 20, 25] {
            let record = generate::complete(n).record();
            assert_eq!(rings(&record).len() as u64, n * (n - 1) * (n - 2) / 6);
        }
    }

    #[test]
    fn paths_of_the_document() {
        let paths = all(&generate::document().record()).paths;
        let between = |s, t| -> Vec<&Vec<u8>> {
            let ends = |path: &&Vec<u8>| path[0] == s && path.last() == Some(&t);
            paths.iter().filter(ends).collect()
        };
        assert_eq!(between(2, 4), [&[2, 1, 4], &[2, 3, 4]]);
        assert_eq!(between(1, 3), [&[1, 3]]);
    }
}
