//! A fast lister: the method of document 003 over sets of atoms, with one
//! reachability search for each open beginning. Of a bounded search it lists all
//! rings and keeps the short ones. Shortest paths go from layer
//! to layer, each the atoms at one distance from t.

use super::list::{members_of, open_beginnings, record_of, up_to, Task};
use super::Record;

/// A set of atoms; atom v is bit v - 1.
type Set = u128;

fn single(v: u8) -> Set {
    1 << (v - 1)
}

/// The atoms of a set, from the lowest.
fn atoms(set: Set) -> impl Iterator<Item = u8> {
    let mut rest = set;
    std::iter::from_fn(move || {
        if rest == 0 {
            return None;
        }
        let v = rest.trailing_zeros() as u8 + 1;
        rest &= rest - 1;
        Some(v)
    })
}

/// What was listed.
#[derive(Clone, Default)]
pub struct Listing {
    /// The records joined.
    pub sheet: Vec<u8>,
    pub extensions: u64,
    pub listed: u64,
}

impl Listing {
    pub fn members(&self) -> Vec<Vec<u8>> {
        members_of(&self.sheet)
    }

    /// The listing of the members of at most `k` atoms, from their list alone.
    pub fn up_to(&self, k: u8) -> Listing {
        let short = up_to(&self.members(), k);
        Listing {
            sheet: short.iter().flat_map(|member| record_of(member)).collect(),
            extensions: open_beginnings(&short).len() as u64,
            listed: short.len() as u64,
        }
    }
}

struct Lister {
    /// The neighbours of each atom; place 0 is not used.
    bonded: Vec<Set>,
    list: Vec<u8>,
    listing: Listing,
}

impl Lister {
    /// The atoms of `through` from which an atom of `ends` is reached.
    fn reaching(&self, through: Set, ends: Set) -> Set {
        let mut reached = 0;
        let mut new = ends;
        while new != 0 {
            let near = atoms(new).fold(0, |near, v| near | self.bonded[v as usize]);
            new = near & through & !reached;
            reached |= new;
        }
        reached
    }

    /// Lists all members that begin with the list, which is open. `through`
    /// are the atoms that may come next but not last, and `ends` those that
    /// may come last.
    fn extend(&mut self, through: Set, ends: Set) {
        let x = *self.list.last().expect("an atom");
        let near = self.bonded[x as usize];
        let (later_through, later_ends) = (through & !near, ends & !near);
        let good = self.reaching(later_through, later_ends) | later_ends;
        for v in atoms(near & (through | ends)) {
            self.list.push(v);
            if ends & single(v) != 0 {
                self.listing.sheet.push(self.list.len() as u8);
                self.listing.sheet.extend_from_slice(&self.list);
                self.listing.listed += 1;
            } else if self.bonded[v as usize] & good != 0 {
                self.listing.extensions += 1;
                self.extend(later_through, later_ends);
            }
            self.list.pop();
        }
    }

    /// As above for a list that may not be open; says whether it is.
    fn begin(&mut self, list: &[u8], through: Set, ends: Set) -> bool {
        let x = list[list.len() - 1] as usize;
        let good = self.reaching(through, ends) | ends;
        if self.bonded[x] & good == 0 {
            return false;
        }
        self.listing.extensions += 1;
        self.list = list.to_vec();
        self.extend(through, ends);
        true
    }

    fn rings(&mut self, all: Set) {
        for s in atoms(all) {
            let near = self.bonded[s as usize];
            let above = all & !(single(s) | (single(s) - 1));
            let mut open = false;
            for a in atoms(near & above) {
                let ends = near & above & !(single(a) | (single(a) - 1));
                open |= self.begin(&[s, a], above & !near, ends);
            }
            // The beginning of s alone.
            self.listing.extensions += u64::from(open);
        }
    }

    /// The atoms at 0 steps from t, at 1 and so on, up to those with s; none where
    /// s is not reached.
    fn layers(&self, s: u8, t: u8) -> Vec<Set> {
        let (mut layers, mut seen) = (vec![single(t)], single(t));
        while seen & single(s) == 0 {
            let last = layers[layers.len() - 1];
            let near = atoms(last).fold(0, |near, v| near | self.bonded[v as usize]);
            if near & !seen == 0 {
                return Vec::new();
            }
            layers.push(near & !seen);
            seen |= near;
        }
        layers
    }

    /// Lists all shortest paths that begin with the list; `layers` are those
    /// nearer to t than its last atom.
    fn nearer(&mut self, layers: &[Set]) {
        let x = *self.list.last().expect("an atom");
        let (&next, rest) = match layers.split_last() {
            Some(parts) => parts,
            None => {
                self.listing.sheet.push(self.list.len() as u8);
                self.listing.sheet.extend_from_slice(&self.list);
                self.listing.listed += 1;
                return;
            }
        };
        self.listing.extensions += 1;
        for v in atoms(next & self.bonded[x as usize]) {
            self.list.push(v);
            self.nearer(rest);
            self.list.pop();
        }
    }

    fn shortest(&mut self, s: u8, t: u8) {
        let layers = self.layers(s, t);
        if let Some((_, nearer)) = layers.split_last() {
            self.list = vec![s];
            self.nearer(nearer);
        }
    }
}

/// All members in dictionary order, and the number of open beginnings but the
/// empty one, of a lawful record.
pub fn list(record: &Record, task: Task) -> Listing {
    if let Task::RingsUpTo { k } = task {
        return list(record, Task::Rings).up_to(k);
    }
    let mut bonded = vec![0];
    for row in record.rows.chunks_exact(16) {
        bonded.push(Set::from_le_bytes(row.try_into().expect("16 bytes")));
    }
    let mut lister = Lister {
        bonded,
        list: Vec::new(),
        listing: Listing::default(),
    };
    let all = (1..=record.atoms as u8).fold(0, |all, v| all | single(v));
    match task {
        Task::Rings | Task::RingsUpTo { .. } => lister.rings(all),
        Task::Paths { s, t } => {
            let through = all & !single(s) & !single(t);
            lister.begin(&[s], through, single(t));
        }
        Task::Shortest { s, t } => lister.shortest(s, t),
    }
    lister.listing
}

#[cfg(test)]
mod tests {
    use super::*;
    use crate::{generate, sample};

    /// Rings and extensions of the reference molecules.
    #[test]
    fn references() {
        let counts = |molecule: &generate::Molecule, task| {
            let listing = list(&molecule.record(), task);
            (listing.listed, listing.extensions)
        };
        for (molecule, rings, extensions) in generate::references() {
            assert_eq!(counts(&molecule, Task::Rings), (rings, extensions));
        }
        let paths = |s, t| counts(&generate::document(), Task::Paths { s, t });
        assert_eq!(paths(2, 4), (2, 3));
        assert_eq!(paths(1, 3), (1, 1));
        let shortest = |s, t| counts(&generate::cube(), Task::Shortest { s, t });
        assert_eq!(shortest(1, 8), (6, 1 + 3 + 6));
        assert_eq!(shortest(2, 1), (1, 1));
        for (k, rings) in [(3, 0), (4, 6), (5, 6), (6, 10), (8, 10), (128, 10)] {
            assert_eq!(counts(&generate::cube(), Task::RingsUpTo { k }).0, rings);
        }
        let cage = generate::buckminsterfullerene();
        assert_eq!((cage.atoms, cage.bonds.len()), (60, 90));
        if sample() == 1 {
            let all = list(&cage.record(), Task::Rings);
            assert_eq!(all.listed, 255_242);
            assert_eq!([4, 5, 6].map(|k| all.up_to(k).listed), [0, 12, 32]);
        }
        for n in [10, 15, 20, 25] {
            let rings = counts(&generate::complete(n), Task::Rings).0;
            assert_eq!(rings, n * (n - 1) * (n - 2) / 6);
        }
    }
}
