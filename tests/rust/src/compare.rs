//! Calls of the search functions, each compared with the model: the answer,
//! the ten numbers, the prefix, every byte of the output or the mark, and the
//! margins around them all.

use std::collections::BTreeMap;

use crate::ffi;
use crate::guard::Guarded;
use crate::model::list::{Lists, Task};
use crate::model::machine::{self, Ran, Search, NUMBERS, PLACES};
use crate::model::{mark, Record};
use crate::rng::Rng;
use crate::sample;

/// A record handed to the library, with the model's lists if it is lawful.
#[derive(Clone, Copy)]
pub struct On<'a> {
    record: &'a Record,
    lists: Option<&'a dyn Lists>,
}

impl<'a> On<'a> {
    pub fn lawful(lists: &'a dyn Lists) -> On<'a> {
        On {
            record: lists.record(),
            lists: Some(lists),
        }
    }

    pub fn unlawful(record: &'a Record) -> On<'a> {
        On {
            record,
            lists: None,
        }
    }

    fn lists(&self) -> Result<&'a dyn Lists, u32> {
        self.lists.ok_or(9)
    }

    /// Atoms, bonds and one bits, for messages.
    fn describe(&self) -> String {
        let record = self.record;
        let bits: Vec<(u64, u64)> = (1..=128)
            .flat_map(|a| (1..=128).map(move |b| (a, b)))
            .filter(|&(a, b)| record.bonded(a, b) && (a < b || !record.bonded(b, a)))
            .collect();
        format!("{} atoms, {} bonds {bits:?}", record.atoms, record.bonds)
    }
}

/// Compares calls, and counts the answers of each function.
pub struct Calls {
    seeds: Rng,
    answers: BTreeMap<(&'static str, u32), u64>,
}

/// What was compared after a call.
type Parts<'a> = &'a [(&'static str, bool)];

impl Calls {
    pub fn new(seed: u64) -> Calls {
        Calls {
            seeds: Rng::new(seed),
            answers: BTreeMap::new(),
        }
    }

    /// How often a function gave an answer; a mark saved counts as 0.
    pub fn count(&self, function: &'static str, answer: u32) -> u64 {
        self.answers.get(&(function, answer)).copied().unwrap_or(0)
    }

    /// Prints all counts.
    pub fn print(&self) {
        for ((function, answer), count) in &self.answers {
            println!("{function:17} {answer:3} {count:8} times");
        }
    }

    /// The function gave each answer often enough. Of a sample a quarter of
    /// its share will do, as small numbers of cases vary.
    pub fn at_least(&self, count: u64, function: &'static str, answers: &[u32]) {
        let count = match sample() {
            1 => count,
            divisor => count / (4 * divisor),
        };
        for &answer in answers {
            let given = self.count(function, answer);
            assert!(given >= count, "{function}: {answer} only {given} times");
        }
    }

    /// Ends a call: all parts agree, or the message tells the first that does
    /// not.
    fn end(
        &mut self,
        function: &'static str,
        (answer, expected): (u32, u32),
        parts: Parts,
        call: impl Fn() -> String,
    ) {
        assert_eq!(answer, expected, "{function}: answer; {}", call());
        for (part, agrees) in parts {
            assert!(agrees, "{function} ({answer}): {part}; {}", call());
        }
        let counted = if function == "save" && answer > 90 {
            0
        } else {
            answer
        };
        *self.answers.entry((function, counted)).or_default() += 1;
    }

    /// The end of a start or a restore.
    fn end_with_search(
        &mut self,
        function: &'static str,
        answer: u32,
        expected: &Result<Search, u32>,
        (numbers, prefix): (Guarded<u64>, Guarded<u8>),
        call: impl Fn() -> String,
    ) {
        let parts = match expected {
            Ok(search) => [
                numbers.holds(&search.numbers(0, 0)),
                prefix.holds(&search.prefix),
            ],
            Err(_) => [numbers.is_untouched(), prefix.is_untouched()],
        };
        let expected = expected.as_ref().map_or_else(|&rule| rule, |_| 0);
        self.end(
            function,
            (answer, expected),
            &[("numbers", parts[0]), ("prefix", parts[1])],
            call,
        );
    }

    /// A start of a kind with its s and t, by the function of that kind.
    fn start(
        &mut self,
        function: &'static str,
        on: On,
        [kind, s, t]: [u64; 3],
    ) -> Result<Search, u32> {
        let seed = self.seeds.next();
        let mut numbers = Guarded::numbers(NUMBERS, seed);
        let mut prefix = Guarded::new(PLACES, seed);
        let (given, places) = (numbers.buffer(), prefix.buffer());
        let Record { atoms, bonds, rows } = on.record;
        let answer = match kind {
            0 => ffi::start_rings(*atoms, *bonds, rows, given, places),
            1 => ffi::start_paths(*atoms, *bonds, rows, (s, t), given, places),
            3 => ffi::start_shortest(*atoms, *bonds, rows, (s, t), given, places),
            _ => ffi::start_rings_up_to(*atoms, *bonds, rows, s, given, places),
        };
        let expected = machine::start(on.record, on.lists.is_some(), [kind, s, t]);
        self.end_with_search(function, answer, &expected, (numbers, prefix), || {
            format!("{s} and {t}, {}", on.describe())
        });
        expected
    }

    pub fn start_rings(&mut self, on: On) -> Result<Search, u32> {
        self.start("start_rings", on, [0, 0, 0])
    }

    pub fn start_paths(&mut self, on: On, s: u64, t: u64) -> Result<Search, u32> {
        self.start("start_paths", on, [1, s, t])
    }

    pub fn start_rings_up_to(&mut self, on: On, k: u64) -> Result<Search, u32> {
        self.start("start_rings_up_to", on, [2, k, 0])
    }

    pub fn start_shortest(&mut self, on: On, s: u64, t: u64) -> Result<Search, u32> {
        self.start("start_shortest", on, [3, s, t])
    }

    /// The number of shortest paths. It holds anything before the call, and stands
    /// between others that are kept.
    pub fn count_shortest(&mut self, on: On, s: u64, t: u64) -> Result<u64, u32> {
        let mut number = Guarded::numbers(1, self.seeds.next());
        let Record { atoms, bonds, rows } = on.record;
        let count = &mut number.buffer()[0];
        let answer = ffi::count_shortest(*atoms, *bonds, rows, (s, t), count);
        let expected = machine::count_shortest(on.record, on.lists.is_some(), s, t);
        let (code, right) = match expected {
            Ok(count) => (0, number.holds(&[count])),
            Err(rule) => (rule, number.is_untouched()),
        };
        let now = number.buffer()[0];
        self.end(
            "count_shortest",
            (answer, code),
            &[("count", right)],
            || {
                format!(
                    "{s} to {t}, now {now}, expected {expected:?}\non {}",
                    on.describe()
                )
            },
        );
        expected
    }

    /// The start of a task, by the function of its kind.
    pub fn start_task(&mut self, on: On, task: Task) -> Result<Search, u32> {
        match task {
            Task::Rings => self.start_rings(on),
            Task::Paths { s, t } => self.start_paths(on, s.into(), t.into()),
            Task::RingsUpTo { k } => self.start_rings_up_to(on, k.into()),
            Task::Shortest { s, t } => self.start_shortest(on, s.into(), t.into()),
        }
    }

    /// Used and made, which are only results, hold anything before the call.
    pub fn run(&mut self, on: On, search: &Search, budget: u64, room: usize) -> Result<Ran, u32> {
        let seed = self.seeds.next();
        let before = search.numbers(self.seeds.next(), self.seeds.next());
        let mut numbers = Guarded::numbers(NUMBERS, seed).holding(&before);
        let mut prefix = Guarded::new(PLACES, seed).holding(&search.prefix);
        let mut out = Guarded::new(room, seed);
        let Record { atoms, bonds, rows } = on.record;
        let answer = ffi::run(
            *atoms,
            *bonds,
            rows,
            numbers.buffer(),
            prefix.buffer(),
            budget,
            out.buffer(),
        );
        let expected = on
            .lists()
            .and_then(|lists| machine::run(lists, search, budget, room));
        let (code, parts) = match &expected {
            Ok(ran) => {
                let after = ran.search.numbers(ran.records.len() as u64, ran.made);
                let parts = [
                    numbers.holds(&after),
                    prefix.holds(&ran.search.prefix),
                    out.begins(&ran.records),
                ];
                (ran.stop as u32, parts)
            }
            Err(rule) => {
                let parts = [
                    numbers.is_untouched(),
                    prefix.is_untouched(),
                    out.is_untouched(),
                ];
                (*rule, parts)
            }
        };
        let now = numbers.buffer().to_vec();
        self.end(
            "run",
            (answer, code),
            &[
                ("numbers", parts[0]),
                ("prefix", parts[1]),
                ("output", parts[2]),
            ],
            || {
                format!(
                    "budget {budget}, {room} bytes, {search:?}\nnumbers now {now:?}\nexpected {expected:?}\non {}",
                    on.describe()
                )
            },
        );
        expected
    }

    /// Used and made hold anything, as above.
    pub fn save(&mut self, on: On, search: &Search, room: usize) -> Result<Vec<u8>, u32> {
        let seed = self.seeds.next();
        let before = search.numbers(self.seeds.next(), self.seeds.next());
        let mut numbers = Guarded::numbers(NUMBERS, seed).holding(&before);
        let mut prefix = Guarded::new(PLACES, seed).holding(&search.prefix);
        let mut mark = Guarded::new(room, seed);
        let Record { atoms, bonds, rows } = on.record;
        let answer = ffi::save(
            *atoms,
            *bonds,
            rows,
            numbers.buffer(),
            prefix.buffer(),
            mark.buffer(),
        );
        let expected = on
            .lists()
            .and_then(|lists| machine::save(lists, search, room));
        let (code, right) = match &expected {
            Ok(bytes) => (bytes.len() as u32, mark.begins(bytes)),
            Err(rule) => (*rule, mark.is_untouched()),
        };
        self.end(
            "save",
            (answer, code),
            &[
                ("mark", right),
                ("numbers", numbers.is_untouched()),
                ("prefix", prefix.is_untouched()),
            ],
            || {
                let now = mark.content().escape_ascii();
                format!("{search:?}\nmark now {now}\non {}", on.describe())
            },
        );
        expected
    }

    pub fn restore(&mut self, on: On, mark: &[u8]) -> Result<Search, u32> {
        let seed = self.seeds.next();
        let mut numbers = Guarded::numbers(NUMBERS, seed);
        let mut prefix = Guarded::new(PLACES, seed);
        let given: Box<[u8]> = mark.into();
        let Record { atoms, bonds, rows } = on.record;
        let answer = ffi::restore(
            *atoms,
            *bonds,
            rows,
            &given,
            numbers.buffer(),
            prefix.buffer(),
        );
        let expected = on.lists().and_then(|lists| mark::read(lists, mark));
        self.end_with_search("restore", answer, &expected, (numbers, prefix), || {
            format!(
                "{:?}\non {}",
                mark.escape_ascii().to_string(),
                on.describe()
            )
        });
        expected
    }
}

/// Names the case if the test fails in it.
pub struct Case(pub &'static str, pub u64);

impl Drop for Case {
    fn drop(&mut self) {
        if std::thread::panicking() {
            eprintln!("in case {} of {}", self.1, self.0);
        }
    }
}
