//! A faster lister of the same method: the sets of atoms are handed down a
//! recursion, an open beginning with one candidate and no member has no sweep,
//! the second atoms of a ring are found once as a set, and a sweep ends once
//! every candidate is decided.
//!
//! A bounded search is of the same method. The functions that differ have a
//! parameter BOUNDED, so that each has code of its own without the bound. A round
//! of a sweep is one atom more in the ring, so a sweep has as many rounds as the
//! ring may still have atoms after the next one.
//!
//! Shortest paths: the steps from t are made once, and then each atom is followed
//! by its neighbours that are nearer to t, without a sweep.

use super::list::Task;
use super::lister::Listing;
use super::Record;

/// A set of atoms; atom v is bit v - 1.
type Set = u128;

/// Bytes of a short record, which are copied at once.
const SHORT: usize = 32;

fn single(v: usize) -> Set {
    1 << (v - 1)
}

/// The atoms above v.
fn above(v: usize) -> Set {
    !(single(v) | (single(v) - 1))
}

/// The lowest atom of a set that is not empty.
fn lowest(set: Set) -> usize {
    set.trailing_zeros() as usize + 1
}

struct Lister {
    /// The neighbours of each atom; those of atom v at place v - 1.
    bonded: [Set; 128],
    /// A record: its length, then the beginning at hand.
    list: [u8; 129],
    listing: Listing,
    /// The most atoms of a ring; of use with a bound alone.
    longest: usize,
    /// The most shortest paths that are listed.
    most: u64,
}

impl Lister {
    fn near(&self, v: usize) -> Set {
        self.bonded[(v - 1) & 127]
    }

    /// The neighbours of all atoms of a set, by its lower and its upper half.
    fn near_any(&self, set: Set) -> Set {
        let mut near = 0;
        let (mut low, mut high) = (set as u64, (set >> 64) as u64);
        while low != 0 {
            near |= self.near(low.trailing_zeros() as usize + 1);
            low &= low - 1;
        }
        while high != 0 {
            near |= self.near(high.trailing_zeros() as usize + 65);
            high &= high - 1;
        }
        near
    }

    /// Rounds of a sweep for the atoms that open after `len` others: the next
    /// atom and as many more make at most `longest`.
    fn rounds(&self, len: usize) -> usize {
        self.longest - 1 - len
    }

    /// The atoms of `want` that are bonded to an atom of `goal`, or to one of
    /// `free` from which an atom of `goal` is reached through such atoms; with a
    /// bound, in so many rounds.
    fn reaching<const BOUNDED: bool>(
        &self,
        want: Set,
        goal: Set,
        mut free: Set,
        mut rounds: usize,
    ) -> Set {
        let (mut found, mut new) = (0, goal);
        while new != 0 && found != want {
            if BOUNDED {
                if rounds == 0 {
                    break;
                }
                rounds -= 1;
            }
            let near = self.near_any(new);
            found |= near & want;
            new = near & free;
            free &= !near;
        }
        found
    }

    /// Lists the member of the `len` atoms at hand and v.
    fn member(&mut self, len: usize, v: usize) {
        self.list[0] = len as u8 + 1;
        self.list[len + 1] = v as u8;
        let sheet = &mut self.listing.sheet;
        let end = sheet.len() + len + 2;
        if len + 2 <= SHORT {
            sheet.extend_from_slice(&self.list[..SHORT]);
            sheet.truncate(end);
        } else {
            sheet.extend_from_slice(&self.list[..len + 2]);
        }
        self.listing.listed += 1;
    }

    /// Adds v, which opens, to the `len` atoms at hand.
    fn open(&mut self, len: usize, v: usize) {
        self.list[len + 1] = v as u8;
        self.listing.extensions += 1;
    }

    /// Lists all members that begin with the `len` atoms at hand, an open
    /// beginning whose last atom is x. An atom of `goal` may come last, and one
    /// of `free` between.
    fn extend<const BOUNDED: bool>(
        &mut self,
        mut len: usize,
        mut x: usize,
        mut goal: Set,
        mut free: Set,
    ) {
        let (members, want) = loop {
            let near = self.near(x);
            let (members, want) = (goal & near, free & near);
            goal &= !near;
            free &= !near;
            if members != 0 || want & (want - 1) != 0 {
                break (members, want);
            }
            // No member and one candidate: it opens, as the beginning is open.
            x = lowest(want);
            self.open(len, x);
            len += 1;
        };
        let mut rest = members;
        if want != 0 && goal != 0 {
            let rounds = if BOUNDED { self.rounds(len) } else { 0 };
            rest |= self.reaching::<BOUNDED>(want, goal, free, rounds);
        }
        while rest != 0 {
            let v = lowest(rest);
            if members & rest & rest.wrapping_neg() != 0 {
                self.member(len, v);
            } else {
                self.open(len, v);
                self.extend::<BOUNDED>(len + 1, v, goal, free);
            }
            rest &= rest - 1;
        }
    }

    /// Of `ends`, the atoms bonded to the first atom and above it, those that
    /// open as a second atom: a higher one is reached from them through `free`.
    /// One sweep from the highest on, in which no atom of `free` comes twice.
    fn seconds(&self, ends: Set, mut free: Set) -> Set {
        let (mut opens, mut below, mut new) = (0, ends, 0);
        loop {
            if new == 0 && below != 0 {
                new = 1 << (127 - below.leading_zeros());
                below ^= new;
            }
            if below & !opens == 0 {
                return opens;
            }
            let near = self.near_any(new);
            opens |= near & below;
            new = near & free;
            free &= !near;
        }
    }

    /// The same with a bound, where a way through `free` that is too long for one
    /// of `ends` may do for another: a sweep for each that no sweep before found,
    /// from all that are above it. What a sweep finds is below all of these.
    fn seconds_within(&self, ends: Set, free: Set) -> Set {
        let (mut opens, mut below, mut higher) = (0, ends, 0);
        while below & !opens != 0 {
            let highest = 1 << (127 - below.leading_zeros());
            if opens & highest == 0 {
                opens |= self.reaching::<true>(below & !opens, higher, free, self.rounds(1));
            }
            below ^= highest;
            higher |= highest;
        }
        opens
    }

    /// All rings, by their first and second atoms.
    fn rings<const BOUNDED: bool>(&mut self, n: usize) {
        for s in 1..=n {
            let (ends, free) = (self.near(s) & above(s), above(s) & !self.near(s));
            let mut rest = match BOUNDED {
                true => self.seconds_within(ends, free),
                false => self.seconds(ends, free),
            };
            if rest != 0 {
                self.open(0, s);
            }
            while rest != 0 {
                let a = lowest(rest);
                self.open(1, a);
                self.extend::<BOUNDED>(2, a, ends & above(a), free);
                rest &= rest - 1;
            }
        }
    }

    /// All paths from s to t.
    fn paths(&mut self, s: usize, t: usize) {
        let (goal, free) = (single(t), !(single(s) | single(t)));
        if self.reaching::<false>(single(s), goal, free, 0) != 0 {
            self.open(0, s);
            self.extend::<false>(1, s, goal, free);
        }
    }

    /// Of each atom that is as near to t as s or nearer, the neighbours that are
    /// one step nearer, in place of all its neighbours; of others none. Says
    /// whether s is reached.
    fn lead(&mut self, s: usize, t: usize) -> bool {
        let mut leads = [0; 128];
        let (mut seen, mut new) = (single(t), single(t));
        while new != 0 && seen & single(s) == 0 {
            let next = self.near_any(new) & !seen;
            let mut rest = next;
            while rest != 0 {
                let v = lowest(rest);
                leads[v - 1] = self.near(v) & new;
                rest &= rest - 1;
            }
            seen |= next;
            new = next;
        }
        self.bonded = leads;
        seen & single(s) != 0
    }

    /// Lists all shortest paths that begin with the `len` atoms at hand, of which
    /// the last is x, until there are enough.
    fn follow(&mut self, mut len: usize, mut x: usize, t: usize) {
        let mut rest = self.near(x);
        while rest & (rest - 1) == 0 {
            // One way on.
            x = lowest(rest);
            if x == t {
                return self.member(len, t);
            }
            self.open(len, x);
            len += 1;
            rest = self.near(x);
        }
        while rest != 0 && self.listing.listed < self.most {
            let v = lowest(rest);
            self.open(len, v);
            self.follow(len + 1, v, t);
            rest &= rest - 1;
        }
    }

    /// All shortest paths from s to t.
    fn shortest(&mut self, s: usize, t: usize) {
        if self.lead(s, t) {
            self.open(0, s);
            self.follow(1, s, t);
        }
    }
}

/// The neighbours of each atom as a set; those of atom v at place v - 1.
fn sets(record: &Record) -> [Set; 128] {
    let mut bonded = [0; 128];
    for (row, set) in record.rows.chunks_exact(16).zip(&mut bonded) {
        *set = Set::from_le_bytes(row.try_into().expect("16 bytes"));
    }
    bonded
}

/// The number of shortest paths from s to t of a lawful record: from layer to
/// layer, each the atoms at one distance from s, an atom has the sum of its
/// neighbours in the layer before.
pub fn number(record: &Record, s: u8, t: u8) -> u128 {
    let (bonded, goal) = (sets(record), single(t.into()));
    let mut numbers = [0; 128];
    numbers[usize::from(s) - 1] = 1;
    let (mut seen, mut layer) = (single(s.into()), single(s.into()));
    while layer != 0 && seen & goal == 0 {
        let mut near = 0;
        let mut rest = layer;
        while rest != 0 {
            near |= bonded[lowest(rest) - 1];
            rest &= rest - 1;
        }
        near &= !seen;
        rest = near;
        while rest != 0 {
            let v = lowest(rest) - 1;
            let mut before = bonded[v] & layer;
            while before != 0 {
                numbers[v] += numbers[lowest(before) - 1];
                before &= before - 1;
            }
            rest &= rest - 1;
        }
        seen |= near;
        layer = near;
    }
    numbers[usize::from(t) - 1]
}

/// All members in dictionary order, and the number of open beginnings but the
/// empty one, of a lawful record.
pub fn list(record: &Record, task: Task) -> Listing {
    list_some(record, task, u64::MAX)
}

/// The same, but of shortest paths the first `most` alone.
pub fn list_some(record: &Record, task: Task, most: u64) -> Listing {
    let mut lister = Lister {
        bonded: sets(record),
        list: [0; 129],
        listing: Listing::default(),
        longest: task.longest(),
        most,
    };
    match task {
        Task::Rings => lister.rings::<false>(record.atoms as usize),
        Task::RingsUpTo { .. } => lister.rings::<true>(record.atoms as usize),
        Task::Paths { s, t } => lister.paths(s.into(), t.into()),
        Task::Shortest { s, t } => lister.shortest(s.into(), t.into()),
    }
    lister.listing
}

#[cfg(test)]
mod tests {
    use super::*;
    use crate::model::lister;
    use crate::rng::Rng;
    use crate::{examples, generate, sample, sampled};

    fn agree(record: &Record, task: Task) {
        let (best, plain) = (list(record, task), lister::list(record, task));
        assert!(best.sheet == plain.sheet, "{task:?} of {record:?}");
        assert_eq!(best.extensions, plain.extensions);
        assert_eq!(best.listed, plain.listed);
    }

    /// With a bound: the short ones of all rings, for each size up to one that
    /// all rings have, and for the largest; of many rings for one size in some.
    fn agree_up_to(record: &Record, all: &lister::Listing) {
        let most = all.members().iter().map(Vec::len).max().unwrap_or(0) as u8;
        let step = 1 + all.listed as usize / 200;
        for k in (3..=(most + 1).clamp(3, 128)).step_by(step).chain([128]) {
            let (best, plain) = (list(record, Task::RingsUpTo { k }), all.up_to(k));
            assert!(best.sheet == plain.sheet, "k = {k} of {record:?}");
            let counts = (best.extensions, best.listed);
            assert_eq!(counts, (plain.extensions, plain.listed), "k = {k}");
        }
    }

    /// The same as the short ones of all rings that the lister has.
    #[test]
    fn agrees_under_a_bound() {
        for name in examples::NAMES {
            let record = examples::record(name);
            if record.atoms != 60 {
                agree_up_to(&record, &lister::list(&record, Task::Rings));
            }
        }
        for case in 0..sampled(6_000) {
            let mut rng = Rng::of_case(0x42_4553_5432, case);
            let record = any_molecule(&mut rng, case).record();
            agree_up_to(&record, &lister::list(&record, Task::Rings));
        }
    }

    /// Buckminsterfullerene with a few bounds: 12 rings of 5 atoms and 20 of 6.
    #[test]
    fn bounded_cage() {
        let record = examples::record("buckminsterfullerene");
        let rings = |k| list(&record, Task::RingsUpTo { k }).listed;
        assert_eq!([3, 4, 5, 6, 8].map(rings), [0, 0, 12, 32, 32]);
        if sample() == 1 {
            let all = lister::list(&record, Task::Rings);
            for k in [6, 9, 12, 18, 30] {
                let (best, plain) = (list(&record, Task::RingsUpTo { k }), all.up_to(k));
                assert!(best.sheet == plain.sheet && best.extensions == plain.extensions);
            }
            let whole = list(&record, Task::RingsUpTo { k: 128 });
            assert!(whole.sheet == all.sheet && whole.extensions == all.extensions);
        }
    }

    /// A molecule of up to 128 atoms; most have few.
    fn any_molecule(rng: &mut Rng, case: u64) -> generate::Molecule {
        match case % 8 {
            0 => {
                let n = rng.between(20, 128);
                let m = n + rng.below(12);
                generate::random_molecule(rng, n, m)
            }
            1 => {
                let n = rng.between(8, 14);
                let m = rng.between(0, n * (n - 1) / 2);
                generate::random_molecule(rng, n, m)
            }
            _ => generate::any_searched(rng),
        }
    }

    /// The same as the lister, on rings, on paths and on shortest paths.
    #[test]
    fn agrees_with_the_lister() {
        for name in examples::NAMES {
            let record = examples::record(name);
            if record.atoms < 60 || sample() == 1 {
                agree(&record, Task::Rings);
                agree(&record, Task::Paths { s: 1, t: 4 });
                agree(&record, Task::Paths { s: 5, t: 2 });
                agree(&record, Task::Shortest { s: 1, t: 6 });
            }
        }
        for case in 0..sampled(10_000) {
            let mut rng = Rng::of_case(0x42_4553_5431, case);
            let record = any_molecule(&mut rng, case).record();
            agree(&record, Task::Rings);
            if record.atoms >= 2 {
                let (s, t) = generate::any_ends(&mut rng, record.atoms);
                for kind in [1, 3] {
                    agree(
                        &record,
                        Task::of(record.atoms, kind, s, t).expect("two atoms"),
                    );
                }
            }
        }
    }

    /// The first shortest paths are as many as asked for, and those of all.
    #[test]
    fn lists_some() {
        let record = generate::layers(&[3; 5]).record();
        let task = Task::Shortest { s: 1, t: 17 };
        let all = list(&record, task);
        assert_eq!(all.listed, 243);
        for most in [0, 1, 2, 3, 100, 242, 243, 244] {
            let some = list_some(&record, task, most);
            assert_eq!(some.listed, most.min(243));
            assert!(all.sheet.starts_with(&some.sheet));
        }
    }
}
