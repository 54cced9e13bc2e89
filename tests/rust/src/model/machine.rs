//! The search, trial by trial, and its runs.

use super::field::LIMIT;
use super::list::{record_of, Lists, Task};
use super::{mark, shortest, Record};

/// Places of the beginning.
pub const PLACES: usize = 128;
/// Numbers that hold a search and the results of a run.
pub const NUMBERS: usize = 10;

/// A search as its parts; it need not follow the rules.
#[derive(Clone, Debug, PartialEq, Eq)]
pub struct Search {
    pub kind: u64,
    pub s: u64,
    pub t: u64,
    pub length: u64,
    pub next: u64,
    pub trials: u64,
    pub extensions: u64,
    pub listed: u64,
    pub prefix: [u8; PLACES],
}

impl Search {
    pub fn fresh(task: Task) -> Search {
        Search::at(task, &[], 1)
    }

    /// The search with beginning `p` and next atom `c`, counts 0.
    pub fn at(task: Task, p: &[u8], c: u64) -> Search {
        let [kind, s, t] = task.numbers();
        let mut search = Search {
            kind,
            s,
            t,
            length: 0,
            next: c,
            trials: 0,
            extensions: 0,
            listed: 0,
            prefix: [0; PLACES],
        };
        search.put(p);
        search
    }

    /// Sets the beginning, of at most 128 atoms.
    pub fn put(&mut self, p: &[u8]) {
        self.length = p.len() as u64;
        self.prefix = [0; PLACES];
        self.prefix[..p.len()].copy_from_slice(p);
    }

    /// The beginning; the length is at most 128.
    pub fn beginning(&self) -> &[u8] {
        &self.prefix[..self.length as usize]
    }

    /// The numbers in which the library holds it.
    pub fn numbers(&self, used: u64, made: u64) -> [u64; NUMBERS] {
        [
            self.kind,
            self.s,
            self.t,
            self.length,
            self.next,
            self.trials,
            self.extensions,
            self.listed,
            used,
            made,
        ]
    }

    pub fn counts(&self) -> [u64; 3] {
        [self.trials, self.extensions, self.listed]
    }

    pub fn is_done(&self, n: u64) -> bool {
        self.length == 0 && self.next == n + 1
    }

    pub fn is_at_limit(&self) -> bool {
        self.counts().contains(&LIMIT)
    }

    /// The numbers and places could be a mark's: each fits its field.
    fn fits(&self) -> bool {
        let small = [self.kind, self.s, self.t, self.next];
        small.iter().all(|&number| number <= 9999)
            && self.counts().iter().all(|&count| count <= LIMIT)
            && self.length <= 127
            && self.prefix[self.length as usize..].iter().all(|&v| v == 0)
    }

    /// Rule 12: some mark on this molecule gives this very search. Only its
    /// own mark can.
    pub fn is_restorable(&self, lists: &dyn Lists) -> bool {
        self.fits() && mark::read(lists, &mark::write(lists.record(), self)).as_ref() == Ok(self)
    }
}

/// The fresh search of a kind, or a refusal.
pub fn start(record: &Record, lawful: bool, [kind, s, t]: [u64; 3]) -> Result<Search, u32> {
    if !lawful {
        return Err(9);
    }
    Task::start(record.atoms, kind, s, t).map(Search::fresh)
}

/// The number of shortest paths from s to t, or a refusal.
pub fn count_shortest(record: &Record, lawful: bool, s: u64, t: u64) -> Result<u64, u32> {
    if !lawful {
        return Err(9);
    }
    match Task::start(record.atoms, 3, s, t)? {
        Task::Shortest { s, t } => shortest::count(record, s, t),
        _ => unreachable!("kind 3"),
    }
}

#[derive(Clone, Copy, Debug, PartialEq, Eq)]
pub enum Stop {
    Done = 101,
    Limit = 102,
    Spent = 103,
    Full = 104,
}

/// What a run returns; the bytes used are its records.
#[derive(Clone, Debug, PartialEq, Eq)]
pub struct Ran {
    pub stop: Stop,
    pub search: Search,
    pub records: Vec<u8>,
    pub made: u64,
}

/// A run with an output of `room` bytes, on a lawful record, or refusal 12.
pub fn run(lists: &dyn Lists, search: &Search, budget: u64, room: usize) -> Result<Ran, u32> {
    let n = lists.record().atoms;
    if !search.is_restorable(lists) {
        return Err(12);
    }
    let task = Task::of(n, search.kind, search.s, search.t).expect("rule 16 holds");
    let mut search = search.clone();
    let mut p = search.beginning().to_vec();
    let mut records = Vec::new();
    let mut made = 0;
    let stop = loop {
        if p.is_empty() && search.next == n + 1 {
            break Stop::Done;
        }
        if search.is_at_limit() {
            break Stop::Limit;
        }
        if made == budget {
            break Stop::Spent;
        }
        p.push(search.next as u8);
        if lists.is_member(task, &p) {
            let record = record_of(&p);
            p.pop();
            if record.len() > room - records.len() {
                break Stop::Full;
            }
            records.extend(record);
            search.listed += 1;
            search.next += 1;
        } else if lists.is_open(task, &p) {
            search.extensions += 1;
            search.next = 1;
        } else {
            p.pop();
            search.next += 1;
        }
        search.trials += 1;
        made += 1;
        while search.next == n + 1 && !p.is_empty() {
            let last = p.pop().expect("not empty");
            search.next = u64::from(last) + 1;
        }
    };
    search.put(&p);
    Ok(Ran {
        stop,
        search,
        records,
        made,
    })
}

/// The mark of a search in an output of `room` bytes, on a lawful record, or
/// refusal 12 or 13.
pub fn save(lists: &dyn Lists, search: &Search, room: usize) -> Result<Vec<u8>, u32> {
    if !search.is_restorable(lists) {
        return Err(12);
    }
    let mark = mark::write(lists.record(), search);
    if room < mark.len() {
        return Err(13);
    }
    Ok(mark)
}

#[cfg(test)]
mod tests {
    use super::super::list::{Listed, Reached};
    use super::*;
    use crate::generate;

    /// The document's sheet, by hand.
    #[test]
    fn document_runs() {
        let record = generate::document().record();
        let (listed, reached) = (Listed::new(&record), Reached::new(&record));
        for lists in [&listed as &dyn Lists, &reached] {
            let fresh = Search::fresh(Task::Rings);
            let go = |budget, room| run(lists, &fresh, budget, room).expect("accepted");
            assert_eq!(go(0, 3).stop, Stop::Spent);
            let spent = go(5, 3);
            assert_eq!((spent.stop, spent.made), (Stop::Spent, 5));
            let full = go(6, 3);
            assert_eq!((full.stop, full.made), (Stop::Full, 5));
            assert_eq!(full.search.beginning(), [1, 2]);
            assert_eq!(full.search.next, 3);
            assert_eq!(save(lists, &full.search, 143), Err(13));
            assert_eq!(save(lists, &full.search, 144).expect("a mark").len(), 144);
            let done = go(16, 8);
            assert_eq!((done.stop, done.made), (Stop::Done, 16));
            assert_eq!(done.records, [3, 1, 2, 3, 3, 1, 3, 4]);
            assert_eq!(done.search.counts(), [16, 3, 2]);
            assert_eq!(go(16, 7).stop, Stop::Full);
            assert_eq!(go(15, 8).stop, Stop::Spent);
        }
    }

    /// The cube with k = 4: of its rings the squares, and no beginning that only
    /// a hexagon has.
    #[test]
    fn bounded_runs() {
        let record = generate::cube().record();
        let (listed, reached) = (Listed::new(&record), Reached::new(&record));
        for lists in [&listed as &dyn Lists, &reached] {
            for (k, rings) in [(3, 0), (4, 6), (5, 6), (6, 10), (128, 10)] {
                let fresh = start(&record, true, [2, k, 0]).expect("a size");
                let done = run(lists, &fresh, u64::MAX, 1_000).expect("accepted");
                assert_eq!((done.stop, done.search.listed), (Stop::Done, rings));
                assert_eq!(done.made, 8 * (done.search.extensions + 1));
            }
            // The hexagon 1 2 4 8 7 5 begins with 1 2 4 8, no square does.
            let at = |k| Search::at(Task::RingsUpTo { k }, &[1, 2, 4, 8], 1);
            assert!([6, 7, 128].iter().all(|&k| at(k).is_restorable(lists)));
            assert!([3, 4, 5].iter().all(|&k| !at(k).is_restorable(lists)));
        }
    }

    /// The cube from corner to corner: six shortest paths of four atoms, and no
    /// beginning that only a longer path has.
    #[test]
    fn shortest_runs() {
        let record = generate::cube().record();
        let (listed, reached) = (Listed::new(&record), Reached::new(&record));
        for lists in [&listed as &dyn Lists, &reached] {
            let fresh = start(&record, true, [3, 1, 8]).expect("two atoms");
            let done = run(lists, &fresh, u64::MAX, 30).expect("accepted");
            assert_eq!((done.stop, done.search.counts()), (Stop::Done, [88, 10, 6]));
            assert_eq!(done.records[..10], [4, 1, 2, 4, 8, 4, 1, 2, 6, 8]);
            let at = |kind, t, p: &[u8]| {
                let task = Task::of(8, kind, 1, t).expect("two atoms");
                Search::at(task, p, 1).is_restorable(lists)
            };
            for p in [&[1][..], &[1, 2], &[1, 5, 7]] {
                assert!(at(1, 8, p) && at(3, 8, p));
            }
            for p in [&[2][..], &[1, 8], &[1, 2, 3], &[1, 2, 4, 8]] {
                assert!(!at(1, 8, p) && !at(3, 8, p));
            }
            // 1 5 7 8 4 has no chord, and is longer than 1 2 4 and 1 3 4.
            assert!(at(1, 4, &[1, 5, 7]) && !at(3, 4, &[1, 5, 7]));
            assert!(at(1, 4, &[1, 5]) && !at(3, 4, &[1, 5]) && at(3, 4, &[1, 3]));
        }
    }

    /// 9, 10, 11, then the number.
    #[test]
    fn counts_by_hand() {
        let record = generate::document().record();
        let count = |s, t| count_shortest(&record, true, s, t);
        assert_eq!((count(2, 4), count(1, 3)), (Ok(2), Ok(1)));
        assert_eq!(
            (count(0, 0), count(5, 5), count(1, 5)),
            (Err(10), Err(10), Err(10))
        );
        assert_eq!(count(4, 4), Err(11));
        assert_eq!(count_shortest(&record, false, 0, 0), Err(9));
        let many = generate::layers(&[3; 42]).record();
        assert_eq!(count_shortest(&many, true, 1, 128), Err(26));
        assert_eq!(count_shortest(&many, true, 128, 128), Err(11));
    }

    /// 9, then the rule of the kind.
    #[test]
    fn starts_by_hand() {
        let record = generate::document().record();
        let answer = |lawful, numbers| start(&record, lawful, numbers).err();
        for (numbers, rule) in [
            ([0, 0, 0], None),
            ([0, 1, 0], Some(16)),
            ([0, 0, 1], Some(16)),
            ([1, 0, 4], Some(10)),
            ([1, 5, 5], Some(10)),
            ([1, 4, 4], Some(11)),
            ([1, 2, 4], None),
            ([2, 3, 0], None),
            ([2, 128, 0], None),
            ([2, 2, 0], Some(21)),
            ([2, 129, 0], Some(21)),
            ([2, (1 << 32) + 3, 0], Some(21)),
            ([2, 2, 1], Some(16)),
            ([2, 3, 1], Some(16)),
            ([3, 0, 4], Some(10)),
            ([3, 5, 5], Some(10)),
            ([3, 4, 4], Some(11)),
            ([3, 2, 4], None),
            ([3, 4, 1], None),
            ([4, 0, 0], Some(16)),
            ([4, 2, 4], Some(16)),
            ([u64::MAX, 3, 0], Some(16)),
        ] {
            assert_eq!(answer(true, numbers), rule, "{numbers:?}");
            assert_eq!(answer(false, numbers), Some(9));
        }
    }

    #[test]
    fn rule_12_by_hand() {
        let record = generate::document().record();
        let lists = Listed::new(&record);
        let good = Search::at(Task::Rings, &[1, 2], 3);
        let accepted = |change: &dyn Fn(&mut Search)| {
            let mut search = good.clone();
            change(&mut search);
            search.is_restorable(&lists)
        };
        assert!(accepted(&|_| {}));
        assert!(accepted(&|search| search.trials = LIMIT));
        assert!(!accepted(&|search| search.trials = LIMIT + 1));
        assert!(!accepted(&|search| search.kind = 1));
        assert!(!accepted(&|search| search.kind = 10_000));
        assert!(!accepted(&|search| search.kind = 2));
        assert!(!accepted(&|search| search.kind = 3));
        let ends =
            |kind| move |search: &mut Search| (search.kind, search.s, search.t) = (kind, 1, 4);
        // 1 2 begins no path from 1 to 4 without chords, and no shortest one.
        assert!(!accepted(&ends(1)) && !accepted(&ends(3)));
        assert!(accepted(&|search| (search.kind, search.s) = (2, 3)));
        assert!(!accepted(
            &|search| (search.kind, search.s, search.t) = (2, 3, 1)
        ));
        for s in [2, 129, 9_999, (1 << 32) + 3] {
            assert!(!accepted(&|search| (search.kind, search.s) = (2, s)));
        }
        assert!(!accepted(&|search| search.s = 1));
        assert!(!accepted(&|search| search.length = 1));
        assert!(!accepted(&|search| search.length = 128));
        assert!(!accepted(&|search| search.length = u64::MAX));
        assert!(!accepted(&|search| search.prefix[127] = 1));
        assert!(!accepted(&|search| search.next = 0));
        assert!(!accepted(&|search| search.next = 5));
        assert!(!accepted(&|search| search.put(&[1, 4])));
        assert!(accepted(&|search| search.put(&[1, 3])));
    }
}
