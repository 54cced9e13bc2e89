//! Shortest paths from s to t, each bond of length 1: lists that begin with s,
//! end with t and have consecutive atoms bonded, and than which no list that does
//! so is shorter. By looking at atom lists, for small molecules, and by
//! breadth-first search. Their number, by sums along the distances.

use super::field::LIMIT;
use super::Record;

/// Each atom of the list is one of the molecule's, and consecutive ones are
/// bonded.
pub fn is_walk(record: &Record, list: &[u8]) -> bool {
    let named = |&v: &u8| v >= 1 && u64::from(v) <= record.atoms;
    let bonded = |pair: &[u8]| record.bonded(pair[0].into(), pair[1].into());
    list.iter().all(named) && list.windows(2).all(bonded)
}

/// The list begins with `s`, ends with `t` and has consecutive atoms bonded.
pub fn links(record: &Record, s: u8, t: u8, list: &[u8]) -> bool {
    list.first() == Some(&s) && list.last() == Some(&t) && is_walk(record, list)
}

/// Of lists that grow atom by atom from those in `begun`, up to n atoms, all of
/// the first length that has one which links `s` and `t`: the shortest. A list of
/// more than n atoms has one of them twice, and is shorter without what lies
/// between.
fn first_links(
    record: &Record,
    (s, t): (u8, u8),
    mut begun: Vec<Vec<u8>>,
    goes_on: impl Fn(&[u8], u8) -> bool,
) -> Vec<Vec<u8>> {
    for _ in 2..=record.atoms {
        let mut longer = Vec::new();
        for list in &begun {
            for v in (1..=record.atoms as u8).filter(|&v| goes_on(list, v)) {
                longer.push([list, &[v][..]].concat());
            }
        }
        let link = |list: &&Vec<u8>| links(record, s, t, list);
        let mut found: Vec<Vec<u8>> = longer.iter().filter(link).cloned().collect();
        if !found.is_empty() {
            found.sort();
            return found;
        }
        begun = longer;
    }
    Vec::new()
}

/// All shortest paths, in dictionary order: of all lists of any atoms, for very
/// small molecules.
pub fn of_all_lists(record: &Record, s: u8, t: u8) -> Vec<Vec<u8>> {
    let begun = (1..=record.atoms as u8).map(|v| vec![v]).collect();
    first_links(record, (s, t), begun, |_, _| true)
}

/// The same of all lists of different atoms from `s` with consecutive ones
/// bonded, for small molecules.
pub fn of_all_ways(record: &Record, s: u8, t: u8) -> Vec<Vec<u8>> {
    first_links(record, (s, t), vec![vec![s]], |list, v| {
        let last = list[list.len() - 1];
        !list.contains(&v) && record.bonded(last.into(), v.into())
    })
}

/// The steps from one atom to each other, at place 0 nothing; none where there is
/// no way.
#[derive(Clone, Debug)]
pub struct Steps {
    to: Vec<Option<usize>>,
    /// The atoms that are reached, the nearest first.
    order: Vec<u8>,
}

impl Steps {
    /// By breadth-first search.
    pub fn from(record: &Record, from: u8) -> Steps {
        let mut to = vec![None; 129];
        to[usize::from(from)] = Some(0);
        let (mut order, mut at) = (vec![from], 0);
        while let Some(&v) = order.get(at) {
            at += 1;
            let next = to[usize::from(v)].map(|steps| steps + 1);
            for w in 1..=record.atoms as u8 {
                if record.bonded(v.into(), w.into()) && to[usize::from(w)].is_none() {
                    to[usize::from(w)] = next;
                    order.push(w);
                }
            }
        }
        Steps { to, order }
    }

    /// The steps to `v`, an atom of the molecule.
    pub fn to(&self, v: u8) -> Option<usize> {
        self.to[usize::from(v)]
    }

    /// The atom that is reached last.
    pub fn farthest(&self) -> u8 {
        self.order[self.order.len() - 1]
    }

    /// The list has as many steps as a shortest path from its first atom; `self`
    /// are the steps from its last.
    pub fn fit(&self, list: &[u8]) -> bool {
        match list {
            [] => false,
            [first, ..] => self.to(*first) == Some(list.len() - 1),
        }
    }

    /// The list, whose consecutive atoms are bonded, is a proper beginning of a
    /// shortest path; `self` are the steps from t, the last atom of that path. With a shortest
    /// way from its own last atom on it has as many steps as such a path.
    pub fn open(&self, list: &[u8]) -> bool {
        match (list.first(), list.last()) {
            (Some(&first), Some(&last)) => match (self.to(first), self.to(last)) {
                (Some(whole), Some(left)) => left > 0 && list.len() - 1 + left == whole,
                _ => false,
            },
            _ => false,
        }
    }
}

/// The list is a shortest path, by breadth-first search.
pub fn is_shortest(record: &Record, s: u8, t: u8, list: &[u8]) -> bool {
    links(record, s, t, list) && Steps::from(record, t).fit(list)
}

/// The number of shortest paths from `s` to `t`, two atoms of the molecule: each
/// atom has the sum of the numbers of those before it that are one step nearer to
/// `s`. Of 126 atoms between no choice makes more than 3 to the 42nd.
pub fn number(record: &Record, s: u8, t: u8) -> u128 {
    let steps = Steps::from(record, s);
    let mut numbers = [0u128; 129];
    numbers[usize::from(s)] = 1;
    for &v in &steps.order[1..] {
        let nearer = |u: &&u8| {
            record.bonded((**u).into(), v.into()) && steps.to(**u).map(|d| d + 1) == steps.to(v)
        };
        numbers[usize::from(v)] = steps.order.iter().filter(nearer).fold(0, |sum: u128, &u| {
            sum.checked_add(numbers[usize::from(u)]).expect("3^42 fits")
        });
    }
    numbers[usize::from(t)]
}

/// The number, or 26 where it is above the limit of the counts.
pub fn count(record: &Record, s: u8, t: u8) -> Result<u64, u32> {
    match number(record, s, t) {
        number if number > u128::from(LIMIT) => Err(26),
        number => Ok(number as u64),
    }
}

/// The first members in dictionary order, one after the other and made without an
/// end: at each place the lowest atom that is nearer to t, and then the next one
/// from the last place that has another.
pub struct OneByOne<'a> {
    record: &'a Record,
    steps: Steps,
    /// The member to be given next; empty when there is none.
    next: Vec<u8>,
}

impl<'a> OneByOne<'a> {
    pub fn new(record: &'a Record, s: u8, t: u8) -> OneByOne<'a> {
        let steps = Steps::from(record, t);
        let mut all = OneByOne {
            record,
            steps,
            next: Vec::new(),
        };
        if all.steps.to(s).is_some() {
            all.next.push(s);
            all.fill();
        }
        all
    }

    /// The lowest atom above `above` that is bonded to `x` and one step nearer.
    fn nearer(&self, x: u8, above: u8) -> Option<u8> {
        let left = self.steps.to(x)?;
        (above + 1..=self.record.atoms as u8).find(|&v| {
            self.record.bonded(x.into(), v.into())
                && self.steps.to(v).map_or(false, |d| d + 1 == left)
        })
    }

    /// The lowest atoms from the last one on, to t.
    fn fill(&mut self) {
        while let Some(v) = self.nearer(self.next[self.next.len() - 1], 0) {
            self.next.push(v);
        }
    }
}

impl Iterator for OneByOne<'_> {
    type Item = Vec<u8>;

    fn next(&mut self) -> Option<Vec<u8>> {
        let member = self.next.clone();
        while let Some(last) = self.next.pop() {
            let another = self.next.last().and_then(|&x| self.nearer(x, last));
            if let Some(v) = another {
                self.next.push(v);
                self.fill();
                break;
            }
        }
        Some(member).filter(|member| !member.is_empty())
    }
}

#[cfg(test)]
mod tests {
    use super::*;
    use crate::generate::{self, Molecule};
    use crate::model::list::{members, open_beginnings, Lists, Reached, Task};
    use crate::model::{best, judge, lister};
    use crate::rng::Rng;
    use crate::sampled;

    /// All ways to make the list, its number, and what every shortest path is: a
    /// path without chords.
    fn agree(record: &Record, s: u8, t: u8) -> usize {
        let task = Task::Shortest { s, t };
        let list: Vec<Vec<u8>> = OneByOne::new(record, s, t).collect();
        if record.atoms <= 5 {
            assert_eq!(of_all_lists(record, s, t), list, "{s} to {t} of {record:?}");
        }
        if record.atoms <= 10 {
            assert_eq!(of_all_ways(record, s, t), list, "{s} to {t} of {record:?}");
        }
        assert_eq!(members(record, task), list);
        for fast in [lister::list(record, task), best::list(record, task)] {
            assert!(fast.members() == list, "{s} to {t} of {record:?}");
            assert_eq!(fast.extensions, open_beginnings(&list).len() as u64);
            assert_eq!(fast.listed, list.len() as u64);
        }
        assert_eq!(number(record, s, t), list.len() as u128);
        assert_eq!(number(record, t, s), list.len() as u128);
        assert_eq!(best::number(record, s, t), list.len() as u128);
        assert_eq!(count(record, s, t), Ok(list.len() as u64));
        for member in &list {
            assert!(judge::is_path(record, s.into(), t.into(), member));
            assert!(is_shortest(record, s, t, member));
        }
        list.len()
    }

    /// All pairs of small molecules, and some of larger ones.
    #[test]
    fn ways_agree() {
        let mut most = 0;
        for case in 0..sampled(1_200) {
            let mut rng = Rng::of_case(0x53_484F_5254, case);
            let molecule = match case % 4 {
                0 => generate::any_searched(&mut rng),
                1 => generate::any_layered(&mut rng, 40),
                2 => {
                    let n = rng.between(2, 10);
                    let m = rng.between(0, n * (n - 1) / 2);
                    generate::random_molecule(&mut rng, n, m)
                }
                _ => generate::any_layered(&mut rng, 10),
            };
            let record = molecule.record();
            let n = record.atoms as u8;
            let pairs = (1..=n).flat_map(|s| (1..=n).map(move |t| (s, t)));
            for (s, t) in pairs.filter(|(s, t)| s != t) {
                if n <= 10 || rng.one_in(50) {
                    most = most.max(agree(&record, s, t));
                }
            }
        }
        println!("up to {most} shortest paths");
        assert!(most >= 100 || crate::sample() > 1);
    }

    /// Members and openness of every list of different atoms, by reachability and
    /// as proper beginnings of members.
    #[test]
    fn openness_is_that_of_beginnings() {
        for case in 0..sampled(300) {
            let mut rng = Rng::of_case(0x53_484F_5255, case);
            let molecule = generate::any_layered(&mut rng, 7);
            let record = molecule.record();
            let (s, t) = generate::any_ends(&mut rng, record.atoms);
            let task = Task::Shortest {
                s: s as u8,
                t: t as u8,
            };
            let (list, reached) = (
                of_all_ways(&record, s as u8, t as u8),
                Reached::new(&record),
            );
            let open = open_beginnings(&list);
            assert!(reached.is_open(task, &[]));
            let mut words = vec![vec![]];
            while let Some(word) = words.pop() {
                assert_eq!(reached.is_member(task, &word), list.contains(&word));
                let is_open = word.is_empty() || open.contains(&word);
                assert_eq!(reached.is_open(task, &word), is_open, "{word:?}");
                for v in (1..=record.atoms as u8).filter(|v| !word.contains(v)) {
                    words.push([&word[..], &[v]].concat());
                }
            }
        }
    }

    /// The document's sheet, the cube, two atoms apart, and a ring.
    #[test]
    fn by_hand() {
        let record = generate::document().record();
        assert_eq!(of_all_lists(&record, 2, 4), [[2, 1, 4], [2, 3, 4]]);
        assert_eq!(of_all_lists(&record, 1, 3), [[1, 3]]);
        let cube = generate::cube().record();
        assert_eq!(number(&cube, 1, 8), 6);
        assert_eq!(of_all_ways(&cube, 1, 4), [[1, 2, 4], [1, 3, 4]]);
        let apart = Molecule::new(4, &[(1, 2), (3, 4)]).record();
        assert_eq!(count(&apart, 1, 4), Ok(0));
        assert!(of_all_lists(&apart, 1, 4).is_empty());
        let ring = generate::ring(128).record();
        assert_eq!(number(&ring, 1, 65), 2);
        assert_eq!(number(&ring, 1, 64), 1);
    }

    /// A product of the layers' widths, up to the most that there can be.
    #[test]
    fn layers_by_hand() {
        for (widths, expected) in [
            (vec![], 1),
            (vec![1, 1], 1),
            (vec![2, 3, 4], 24),
            (vec![3; 39], 3u128.pow(39)),
            (vec![3; 42], 3u128.pow(42)),
            (vec![2; 63], 1 << 63),
        ] {
            let molecule = generate::layers(&widths);
            let (record, n) = (molecule.record(), molecule.atoms as u8);
            assert_eq!(number(&record, 1, n), expected);
            assert_eq!(number(&record, n, 1), expected);
            assert_eq!(best::number(&record, 1, n), expected);
            let refused = expected > u128::from(LIMIT);
            assert_eq!(count(&record, 1, n).is_err(), refused);
        }
    }
}
