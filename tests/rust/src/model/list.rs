//! The list of a search and the openness of its beginnings: by listing all
//! members, for small molecules, and by reachability, for larger ones.

use std::cell::RefCell;
use std::collections::HashMap;
use std::ops::RangeInclusive;
use std::rc::Rc;

use super::judge::{is_path, is_ring};
use super::shortest::{self, Steps};
use super::Record;

/// What a search lists.
#[derive(Clone, Copy, Debug, PartialEq, Eq, Hash)]
pub enum Task {
    Rings,
    Paths {
        s: u8,
        t: u8,
    },
    /// The rings of at most `k` atoms.
    RingsUpTo {
        k: u8,
    },
    /// The shortest paths.
    Shortest {
        s: u8,
        t: u8,
    },
}

/// The sizes that bound a ring search.
pub const SIZES: RangeInclusive<u64> = 3..=128;

impl Task {
    /// The task that a search of a kind starts with on `n` atoms, or the number
    /// of the first rule that its s or t breaks. 16: the kind is unknown, or has
    /// no s or no t, and a number other than 0 stands there.
    pub fn start(n: u64, kind: u64, s: u64, t: u64) -> Result<Task, u32> {
        let named = |v| (1..=n).contains(&v);
        match kind {
            0 if s == 0 && t == 0 => Ok(Task::Rings),
            1 | 3 if !named(s) || !named(t) => Err(10),
            1 | 3 if s == t => Err(11),
            1 => Ok(Task::Paths {
                s: s as u8,
                t: t as u8,
            }),
            3 => Ok(Task::Shortest {
                s: s as u8,
                t: t as u8,
            }),
            2 if t == 0 && !SIZES.contains(&s) => Err(21),
            2 if t == 0 => Ok(Task::RingsUpTo { k: s as u8 }),
            _ => Err(16),
        }
    }

    /// The task of a kind, s and t in a mark on `n` atoms, if rule 16 allows
    /// them: exactly what a search may start with.
    pub fn of(n: u64, kind: u64, s: u64, t: u64) -> Option<Task> {
        Task::start(n, kind, s, t).ok()
    }

    /// Kind, s and t.
    pub fn numbers(self) -> [u64; 3] {
        match self {
            Task::Rings => [0, 0, 0],
            Task::Paths { s, t } => [1, s.into(), t.into()],
            Task::RingsUpTo { k } => [2, k.into(), 0],
            Task::Shortest { s, t } => [3, s.into(), t.into()],
        }
    }

    /// The most atoms that the task allows a member; every member of a record
    /// has at most 128.
    pub fn longest(self) -> usize {
        match self {
            Task::RingsUpTo { k } => k.into(),
            _ => 128,
        }
    }

    /// The list is a member, by the definitions of ring, path and shortest path.
    pub fn has(self, record: &Record, list: &[u8]) -> bool {
        match self {
            Task::Rings => is_ring(record, list),
            Task::Paths { s, t } => is_path(record, s.into(), t.into(), list),
            Task::RingsUpTo { k } => list.len() <= k.into() && is_ring(record, list),
            Task::Shortest { s, t } => shortest::is_shortest(record, s, t, list),
        }
    }
}

/// Which lists are members and which beginnings are open, on a lawful record.
pub trait Lists {
    fn record(&self) -> &Record;
    fn is_member(&self, task: Task, list: &[u8]) -> bool;
    fn is_open(&self, task: Task, beginning: &[u8]) -> bool;
}

/// Up to this many atoms all lists of different atoms are looked at.
const ALL_WORDS: u64 = 6;

/// Up to this many atoms shortest paths are those of all lists, and beyond they
/// are made by breadth-first search.
const ALL_WAYS: u64 = 10;

/// All members, in dictionary order. Every list of different atoms is looked
/// at; above six atoms only those that add one atom to a list without chords,
/// as no other begins a member.
pub fn members(record: &Record, task: Task) -> Vec<Vec<u8>> {
    if let Task::Shortest { s, t } = task {
        return match record.atoms {
            0..=ALL_WAYS => shortest::of_all_ways(record, s, t),
            _ => shortest::OneByOne::new(record, s, t).collect(),
        };
    }
    fn grow(record: &Record, task: Task, list: &mut Vec<u8>, members: &mut Vec<Vec<u8>>) {
        if task.has(record, list) {
            members.push(list.clone());
        }
        if let (Some(&first), Some(&last)) = (list.first(), list.last()) {
            let chordless = is_path(record, first.into(), last.into(), list);
            if record.atoms > ALL_WORDS && !chordless {
                return;
            }
        }
        for v in 1..=record.atoms as u8 {
            if !list.contains(&v) {
                list.push(v);
                grow(record, task, list, members);
                list.pop();
            }
        }
    }
    let mut members = Vec::new();
    grow(record, task, &mut Vec::new(), &mut members);
    members.sort();
    members
}

/// The members of at most `k` atoms.
pub fn up_to(members: &[Vec<u8>], k: u8) -> Vec<Vec<u8>> {
    let short = members.iter().filter(|member| member.len() <= k.into());
    short.cloned().collect()
}

/// The nonempty open beginnings of a list: all proper beginnings of members.
pub fn open_beginnings(members: &[Vec<u8>]) -> Vec<Vec<u8>> {
    let mut open: Vec<Vec<u8>> = members
        .iter()
        .flat_map(|member| (1..member.len()).map(|len| member[..len].to_vec()))
        .collect();
    open.sort();
    open.dedup();
    open
}

/// The members that follow a place: those that begin with `p` and go on with
/// `c` or a higher atom, and those later than every list beginning with `p`.
pub fn following<'a>(
    members: &'a [Vec<u8>],
    p: &'a [u8],
    c: u64,
) -> impl Iterator<Item = &'a Vec<u8>> {
    members.iter().filter(move |member| {
        if member.starts_with(p) {
            member.get(p.len()).map_or(false, |&v| u64::from(v) >= c)
        } else {
            member.as_slice() > p
        }
    })
}

/// A member as a record.
pub fn record_of(member: &[u8]) -> Vec<u8> {
    let mut record = vec![member.len() as u8];
    record.extend_from_slice(member);
    record
}

/// The members of joined records.
pub fn members_of(mut records: &[u8]) -> Vec<Vec<u8>> {
    let mut members = Vec::new();
    while let Some((&len, rest)) = records.split_first() {
        let (member, rest) = rest.split_at(len.into());
        members.push(member.to_vec());
        records = rest;
    }
    members
}

/// Answers from the list of all members, each made when first asked for.
pub struct Listed<'a> {
    record: &'a Record,
    lists: RefCell<HashMap<Task, Rc<Vec<Vec<u8>>>>>,
}

impl<'a> Listed<'a> {
    pub fn new(record: &'a Record) -> Listed<'a> {
        Listed {
            record,
            lists: RefCell::default(),
        }
    }

    /// All members. The rings of a bounded search are the short ones of all.
    pub fn members(&self, task: Task) -> Rc<Vec<Vec<u8>>> {
        if let Some(list) = self.lists.borrow().get(&task) {
            return Rc::clone(list);
        }
        let list = Rc::new(match task {
            Task::RingsUpTo { k } => up_to(&self.members(Task::Rings), k),
            _ => members(self.record, task),
        });
        self.lists.borrow_mut().insert(task, Rc::clone(&list));
        list
    }
}

impl Lists for Listed<'_> {
    fn record(&self) -> &Record {
        self.record
    }

    fn is_member(&self, task: Task, list: &[u8]) -> bool {
        let members = self.members(task);
        members
            .binary_search_by(|member| member.as_slice().cmp(list))
            .is_ok()
    }

    /// The members that begin so come right after the beginning itself.
    fn is_open(&self, task: Task, beginning: &[u8]) -> bool {
        let members = self.members(task);
        let after = members.partition_point(|member| member.as_slice() <= beginning);
        beginning.is_empty()
            || members
                .get(after)
                .map_or(false, |member| member.starts_with(beginning))
    }
}

/// Answers from the definitions and from reachability.
pub struct Reached<'a> {
    record: &'a Record,
    /// The steps from each t of shortest paths, made when first asked for.
    steps_from: RefCell<HashMap<u8, Rc<Steps>>>,
}

impl<'a> Reached<'a> {
    pub fn new(record: &'a Record) -> Reached<'a> {
        Reached {
            record,
            steps_from: RefCell::default(),
        }
    }

    fn steps_from(&self, t: u8) -> Rc<Steps> {
        let mut made = self.steps_from.borrow_mut();
        let steps = made.entry(t);
        Rc::clone(steps.or_insert_with(|| Rc::new(Steps::from(self.record, t))))
    }

    /// The last two atoms of the list, if it has two, are bonded; if not, it is
    /// neither a member nor open. Most trials end here.
    fn goes_on(&self, list: &[u8]) -> bool {
        match list {
            [.., x, v] => self.record.bonded((*x).into(), (*v).into()),
            _ => true,
        }
    }

    /// The steps of a shortest way from `from` to `to` through atoms that
    /// `allowed` names, if there is one.
    fn steps(&self, from: u8, to: u8, allowed: impl Fn(u8) -> bool) -> Option<usize> {
        let bonded = |a: u8, b: u8| self.record.bonded(a.into(), b.into());
        let n = self.record.atoms as u8;
        let mut reached = vec![(from, 0)];
        let mut seen = [false; 256];
        seen[usize::from(from)] = true;
        let mut at = 0;
        while let Some(&(v, steps)) = reached.get(at) {
            at += 1;
            if bonded(v, to) {
                return Some(steps + 1);
            }
            for w in 1..=n {
                if bonded(v, w) && allowed(w) && !seen[usize::from(w)] {
                    seen[usize::from(w)] = true;
                    reached.push((w, steps + 1));
                }
            }
        }
        None
    }

    /// Some path from `x`, the last atom of the list, to `end` completes the
    /// list to at most `longest` atoms: no atom on it is in the list, below
    /// `lowest` or bonded to an atom of the list before x; of those, `end` may be
    /// bonded to `but` alone.
    fn completes(
        &self,
        (list, longest): (&[u8], usize),
        end: u8,
        lowest: u8,
        but: Option<u8>,
    ) -> bool {
        let (&x, before) = list.split_last().expect("an atom");
        let bonded = |a: u8, b: u8| self.record.bonded(a.into(), b.into());
        let allowed =
            |v: u8| v >= lowest && !list.contains(&v) && before.iter().all(|&u| !bonded(u, v));
        let end_allowed = end >= lowest
            && !list.contains(&end)
            && before.iter().all(|&u| Some(u) == but || !bonded(u, end));
        let within = |steps| list.len() + steps <= longest;
        end_allowed && self.steps(x, end, allowed).map_or(false, within)
    }
}

impl Lists for Reached<'_> {
    fn record(&self) -> &Record {
        self.record
    }

    fn is_member(&self, task: Task, list: &[u8]) -> bool {
        self.goes_on(list)
            && match task {
                Task::Shortest { s, t } => {
                    shortest::links(self.record, s, t, list) && self.steps_from(t).fit(list)
                }
                _ => task.has(self.record, list),
            }
    }

    /// A shortest path that completes a list without chords brings none in.
    fn is_open(&self, task: Task, beginning: &[u8]) -> bool {
        let (first, last) = match (beginning.first(), beginning.last()) {
            (Some(&first), Some(&last)) => (first, last),
            _ => return true,
        };
        if let Task::Shortest { s, t } = task {
            let walk = first == s && shortest::is_walk(self.record, beginning);
            return walk && self.steps_from(t).open(beginning);
        }
        let mut atoms = 1..=self.record.atoms as u8;
        if !beginning.iter().all(|v| atoms.contains(v))
            || !self.goes_on(beginning)
            || !is_path(self.record, first.into(), last.into(), beginning)
        {
            return false;
        }
        match task {
            Task::Shortest { .. } => unreachable!("answered above"),
            Task::Paths { s, t } => {
                first == s && self.completes((beginning, task.longest()), t, 1, None)
            }
            Task::Rings | Task::RingsUpTo { .. } if beginning.len() == 1 => {
                atoms.any(|second| self.is_open(task, &[first, second]))
            }
            // The last atom of the ring is bonded to the first and above the
            // second.
            Task::Rings | Task::RingsUpTo { .. } => {
                beginning.iter().all(|&v| v >= first)
                    && atoms.any(|end| {
                        end > beginning[1]
                            && self.record.bonded(first.into(), end.into())
                            && self.completes((beginning, task.longest()), end, first, Some(first))
                    })
            }
        }
    }
}

#[cfg(test)]
mod tests {
    use super::*;
    use crate::generate;
    use crate::model::{best, lister};
    use crate::rng::Rng;
    use crate::sampled;

    /// Every list of different atoms, members and openness in both ways; the
    /// members also by the two fast listers.
    fn agree(record: &Record, task: Task) {
        fn words(record: &Record, list: &mut Vec<u8>, visit: &mut impl FnMut(&[u8])) {
            visit(list);
            for v in 1..=record.atoms as u8 {
                if !list.contains(&v) {
                    list.push(v);
                    words(record, list, visit);
                    list.pop();
                }
            }
        }
        let (listed, reached) = (Listed::new(record), Reached::new(record));
        let members = listed.members(task);
        assert!(super::members(record, task) == *members, "{task:?}");
        let open = open_beginnings(&members);
        words(record, &mut Vec::new(), &mut |list| {
            let member = members.iter().any(|other| other == list);
            assert_eq!(listed.is_member(task, list), member, "{list:?}");
            assert_eq!(reached.is_member(task, list), member, "{list:?}");
            let is_open = list.is_empty() || open.iter().any(|other| other == list);
            assert_eq!(listed.is_open(task, list), is_open, "{list:?}");
            assert_eq!(reached.is_open(task, list), is_open, "{list:?}");
        });
        for fast in [lister::list(record, task), best::list(record, task)] {
            assert!(fast.members() == *members, "{task:?} of {record:?}");
            assert_eq!(fast.extensions, open.len() as u64);
            assert_eq!(fast.listed, members.len() as u64);
        }
    }

    #[test]
    fn ways_agree_on_all_lists() {
        for case in 0..sampled(1_500) {
            let mut rng = Rng::of_case(0x4C49_5354_5331, case);
            let n = case % 7;
            let m = rng.between(0, n * n.saturating_sub(1) / 2);
            let record = generate::random_molecule(&mut rng, n, m).record();
            for task in generate::any_tasks(&mut rng, n) {
                agree(&record, task);
            }
            for k in 3..=n as u8 + 2 {
                agree(&record, Task::RingsUpTo { k });
            }
        }
    }

    /// Larger ones: the members by both listers, and the openness of every
    /// open beginning with each atom added.
    #[test]
    fn ways_agree_on_larger_molecules() {
        for case in 0..sampled(400) {
            let mut rng = Rng::of_case(0x4C49_5354_5332, case);
            let record = generate::any_searched(&mut rng).record();
            let n = record.atoms;
            for task in generate::any_tasks(&mut rng, n) {
                let (listed, reached) = (Listed::new(&record), Reached::new(&record));
                let members = listed.members(task);
                let mut open = open_beginnings(&members);
                for fast in [lister::list(&record, task), best::list(&record, task)] {
                    assert!(fast.members() == *members, "{task:?} of {record:?}");
                    assert_eq!(fast.extensions, open.len() as u64);
                }
                open.push(Vec::new());
                for mut list in open.into_iter().take(300) {
                    assert!(reached.is_open(task, &list));
                    for v in 1..=n as u8 {
                        list.push(v);
                        let both = [listed.is_open(task, &list), reached.is_open(task, &list)];
                        assert_eq!(both[0], both[1], "{list:?} of {record:?}");
                        list.pop();
                    }
                }
            }
        }
    }

    #[test]
    fn places_by_hand() {
        let members = members(&generate::document().record(), Task::Rings);
        assert_eq!(members, [[1, 2, 3], [1, 3, 4]]);
        let after = |p: &[u8], c| following(&members, p, c).count();
        assert_eq!(after(&[], 1), 2);
        assert_eq!(after(&[], 2), 0);
        assert_eq!(after(&[1], 2), 2);
        assert_eq!(after(&[1], 3), 1);
        assert_eq!(after(&[1, 2], 3), 2);
        assert_eq!(after(&[1, 2], 4), 1);
        assert_eq!(after(&[1, 3], 1), 1);
        assert_eq!(after(&[1, 3], 4), 1);
    }
}
